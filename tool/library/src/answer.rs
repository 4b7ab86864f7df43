use crate::raw;
use crate::{Cell, Refusal};

/// The numbers of an answer.
pub(crate) type Numbers = [u64; raw::ANSWER];

/// What the first number of an answer tells, as `crates/coded/specs/Coded.antt` has it.
pub(crate) mod kind {
    pub const REFUSED: u64 = 0;
    pub const COUNT: u64 = 1;
    pub const YES_NO: u64 = 2;
    pub const TYPE: u64 = 3;
    pub const PART: u64 = 4;
    pub const PLAIN: u64 = 5;
    pub const WHOLE: u64 = 6;
    pub const FLOAT: u64 = 7;
    pub const DOUBLE: u64 = 8;
    pub const LETTER: u64 = 9;
    pub const BETWEEN: u64 = 10;
    pub const OUTSIDE: u64 = 11;
    pub const TEXT: u64 = 12;
    pub const REFERENCE: u64 = 13;
    pub const LONG: u64 = 14;
}

/// A question, with its variable and observation, counted from 1.
#[derive(Clone, Copy, PartialEq, Eq, Debug)]
pub enum Question {
    Edition,
    /// 1 most significant byte first, 2 least.
    ByteOrder,
    Variables,
    Observations,
    Label,
    Stamp,
    Type(u64),
    Name(u64),
    Format(u64),
    LabelSet(u64),
    VariableLabel(u64),
    /// Whether it is a date variable.
    Date(u64),
    /// Its first place in the sort order, 0 where it has none.
    SortPlace(u64),
    Cell(u64, u64),
    LongString(u64, u64),
    /// The label words of a cell.
    Words(u64, u64),
}

impl Question {
    /// The question's number, the variable and the observation; 0 where none is asked for.
    pub fn numbers(self) -> [u64; 3] {
        match self {
            Question::Edition => [0, 0, 0],
            Question::ByteOrder => [1, 0, 0],
            Question::Variables => [2, 0, 0],
            Question::Observations => [3, 0, 0],
            Question::Label => [4, 0, 0],
            Question::Stamp => [5, 0, 0],
            Question::Type(i) => [6, i, 0],
            Question::Name(i) => [7, i, 0],
            Question::Format(i) => [8, i, 0],
            Question::LabelSet(i) => [9, i, 0],
            Question::VariableLabel(i) => [10, i, 0],
            Question::Date(i) => [11, i, 0],
            Question::SortPlace(i) => [12, i, 0],
            Question::Cell(i, j) => [13, i, j],
            Question::LongString(i, j) => [14, i, j],
            Question::Words(i, j) => [15, i, j],
        }
    }
}

/// A variable's type.
#[derive(Clone, Copy, PartialEq, Eq, Debug)]
pub enum Type {
    /// A text of that many bytes.
    Text(u16),
    StrL,
    Byte,
    Int,
    Long,
    Float,
    Double,
}

impl Type {
    /// By its code in editions 117 and 118.
    fn of(code: u64) -> Option<Type> {
        Some(match code {
            32768 => Type::StrL,
            65526 => Type::Double,
            65527 => Type::Float,
            65528 => Type::Long,
            65529 => Type::Int,
            65530 => Type::Byte,
            _ => Type::Text(u16::try_from(code).ok()?),
        })
    }
}

/// A part of the file.
#[derive(Clone, Copy, PartialEq, Eq, Debug)]
pub struct Part<'a> {
    pub place: u64,
    pub bytes: &'a [u8],
}

impl<'a> Part<'a> {
    fn of(file: &'a [u8], place: u64, length: u64) -> Part<'a> {
        let bytes = slice(file, place, length);
        Part { place, bytes }
    }
}

/// As many of the bytes at a place as the file has.
pub(crate) fn slice(file: &[u8], place: u64, length: u64) -> &[u8] {
    let most = file.len() as u64;
    let start = place.min(most);
    let end = start.saturating_add(length).min(most);
    &file[start as usize..end as usize]
}

/// An answer.
#[derive(Clone, Copy, PartialEq, Debug)]
pub enum Answer<'a> {
    /// 16 or 17.
    Refused(Refusal),
    Count(u64),
    YesNo(bool),
    Type(Type),
    /// A text of the file, or a label found.
    Part(Part<'a>),
    /// No label is found: the plain text.
    Plain,
    /// What a cell says; of a text its place, too.
    Cell(Cell<'a>),
    Text(Part<'a>),
    /// A long string, by kind; 0 and empty where none is meant.
    LongString(u8, Part<'a>),
}

impl<'a> Answer<'a> {
    pub(crate) fn of(numbers: Numbers, file: &'a [u8]) -> Option<Answer<'a>> {
        let [of, a, b, c] = numbers;
        Some(match of {
            kind::REFUSED => Answer::Refused(Refusal::new(u8::try_from(a).ok()?)),
            kind::COUNT => Answer::Count(a),
            kind::YES_NO => Answer::YesNo(a == 1),
            kind::TYPE => Answer::Type(Type::of(a)?),
            kind::PART => Answer::Part(Part::of(file, a, b)),
            kind::PLAIN => Answer::Plain,
            kind::TEXT => Answer::Text(Part::of(file, a, b)),
            kind::LONG => Answer::LongString(u8::try_from(a).ok()?, Part::of(file, b, c)),
            _ => Answer::Cell(Cell::of(numbers, file)?),
        })
    }

    /// The answer to a question over a file and a layout, right or wrong.
    pub fn to(question: Question, file: &'a [u8], layout: &[u64; raw::LAYOUT]) -> Answer<'a> {
        let [number, i, j] = question.numbers();
        let mut numbers = [0; raw::ANSWER];
        raw::ask(file, layout, number, i, j, &mut numbers);
        Answer::of(numbers, file).expect("the numbers of an answer")
    }
}
