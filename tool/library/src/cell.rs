use crate::answer::{kind, slice, Numbers};

/// What a cell says.
#[derive(Clone, Copy, PartialEq, Debug)]
pub enum Cell<'a> {
    /// A byte, int or long.
    Whole(i32),
    Float(f32),
    Double(f64),
    /// A missing value: 0 for `.`, 1 to 26 for `.a` to `.z`.
    Letter(u8),
    /// A float or double between two missing letters, or after the last.
    Between,
    /// A pattern that is no value of its type.
    Outside,
    /// A text of fixed width, without its terminator.
    Text(&'a [u8]),
    /// A long string, by the variable and the observation that it was recorded for; (0, 0) is the empty text.
    Reference {
        v: u64,
        o: u64,
    },
}

impl<'a> Cell<'a> {
    /// The cell of an answer's numbers; nothing where they are no cell's.
    pub(crate) fn of(numbers: Numbers, file: &'a [u8]) -> Option<Cell<'a>> {
        let [of, a, b, _] = numbers;
        Some(match of {
            kind::WHOLE => Cell::Whole(whole(a, b)?),
            kind::FLOAT => Cell::Float(f32::from_bits(u32::try_from(a).ok()?)),
            kind::DOUBLE => Cell::Double(f64::from_bits(a)),
            kind::LETTER => Cell::Letter(u8::try_from(a).ok()?),
            kind::BETWEEN => Cell::Between,
            kind::OUTSIDE => Cell::Outside,
            kind::TEXT => Cell::Text(slice(file, a, b)),
            kind::REFERENCE => Cell::Reference { v: a, o: b },
            _ => return None,
        })
    }
}

/// The number of that size, negative where `sign` is 1.
fn whole(size: u64, sign: u64) -> Option<i32> {
    let size = i64::try_from(size).ok()?;
    i32::try_from(if sign == 1 { -size } else { size }).ok()
}

/// The label words of a cell.
#[derive(Clone, Copy, PartialEq, Eq, Debug)]
pub enum Words<'a> {
    /// The label's own bytes in the file.
    Label(&'a [u8]),
    /// It has no label: the plain text is shown.
    Plain,
}

impl<'a> Words<'a> {
    pub(crate) fn of(numbers: Numbers, file: &'a [u8]) -> Option<Words<'a>> {
        let [of, a, b, _] = numbers;
        match of {
            kind::PART => Some(Words::Label(slice(file, a, b))),
            kind::PLAIN => Some(Words::Plain),
            _ => None,
        }
    }

    /// The words, or the plain text.
    pub fn or(self, plain: &'a [u8]) -> &'a [u8] {
        match self {
            Words::Label(words) => words,
            Words::Plain => plain,
        }
    }
}
