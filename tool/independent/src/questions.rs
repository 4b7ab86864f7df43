//! What a file says at the places that a layout gives, whichever file and layout they are.
//! Written from the paper alone, to test the proved answers.

use crate::edition::{Edition, K_WIDTH, RECORD_V, SORT_WIDTH};
use crate::generate::Order;
use crate::Layout;

/// Edition, byte order, K, N, fourteen positions.
pub type Numbers = [u64; 18];

/// The layout of an accepted file, as numbers.
pub fn numbers(layout: &Layout) -> Numbers {
    let mut numbers = [0; 18];
    numbers[0] = u64::from(layout.edition);
    numbers[1] = u64::from(layout.byte_order);
    numbers[2] = u64::from(layout.k);
    numbers[3] = u64::from(layout.n);
    numbers[4..].copy_from_slice(&layout.positions);
    numbers
}

/// Variables and observations are counted from 1: first the variable, then the observation.
#[derive(Clone, Copy, Debug, PartialEq, Eq)]
pub enum Question {
    Edition,
    Order,
    K,
    N,
    Label,
    Stamp,
    Type(u64),
    Name(u64),
    Format(u64),
    Set(u64),
    VarLabel(u64),
    Date(u64),
    Sort(u64),
    Column(u64),
    Cell(u64, u64),
    Long(u64, u64),
    Words(u64, u64),
}

impl Question {
    /// Those that ask for nothing in particular.
    pub const HEADER: [Question; 6] = [
        Question::Edition,
        Question::Order,
        Question::K,
        Question::N,
        Question::Label,
        Question::Stamp,
    ];

    /// Those about a variable.
    pub fn of_variable(i: u64) -> [Question; 8] {
        [
            Question::Type(i),
            Question::Name(i),
            Question::Format(i),
            Question::Set(i),
            Question::VarLabel(i),
            Question::Date(i),
            Question::Sort(i),
            Question::Column(i),
        ]
    }

    /// Those about a cell.
    pub fn of_cell(i: u64, j: u64) -> [Question; 3] {
        [
            Question::Cell(i, j),
            Question::Long(i, j),
            Question::Words(i, j),
        ]
    }

    /// The number of its kind, the variable and the observation; 0 where none is asked for.
    pub fn numbers(self) -> [u64; 3] {
        match self {
            Question::Edition => [0, 0, 0],
            Question::Order => [1, 0, 0],
            Question::K => [2, 0, 0],
            Question::N => [3, 0, 0],
            Question::Label => [4, 0, 0],
            Question::Stamp => [5, 0, 0],
            Question::Type(i) => [6, i, 0],
            Question::Name(i) => [7, i, 0],
            Question::Format(i) => [8, i, 0],
            Question::Set(i) => [9, i, 0],
            Question::VarLabel(i) => [10, i, 0],
            Question::Date(i) => [11, i, 0],
            Question::Sort(i) => [12, i, 0],
            Question::Column(i) => [13, i, 0],
            Question::Cell(i, j) => [14, i, j],
            Question::Long(i, j) => [15, i, j],
            Question::Words(i, j) => [16, i, j],
        }
    }

    /// Whether the variable and the observation that are asked for are there.
    fn in_range(self, k: u64, n: u64) -> bool {
        let [number, i, j] = self.numbers();
        let variable = number < 6 || (1..=k).contains(&i);
        let observation = number < 14 || (1..=n).contains(&j);
        variable && observation
    }
}

/// A part of the file.
#[derive(Clone, Copy, Debug, PartialEq, Eq)]
pub struct Span {
    pub place: u64,
    pub length: u64,
}

#[derive(Clone, Copy, Debug, PartialEq, Eq)]
pub enum Kind {
    Text,
    Strl,
    Byte,
    Int,
    Long,
    Float,
    Double,
}

#[derive(Clone, Copy, Debug, PartialEq, Eq)]
pub struct Type {
    pub kind: Kind,
    /// In bytes.
    pub width: u64,
}

/// What a cell says. Floats and doubles are their bits.
#[derive(Clone, Copy, Debug, PartialEq, Eq)]
pub enum Cell {
    Whole(i32),
    Float(u32),
    Double(u64),
    Letter(u8),
    Between,
    Outside,
    Text(Span),
    Reference { v: u64, o: u64 },
}

#[derive(Clone, Copy, Debug, PartialEq, Eq)]
pub enum Answer {
    /// 16 or 17.
    Refused(u8),
    Number(u64),
    Date(bool),
    Type(Type),
    Text(Span),
    Column {
        of: Type,
        offset: u64,
        row: u64,
    },
    Cell(Cell),
    Long {
        kind: u8,
        contents: Span,
    },
    /// The label found, or none: the plain text.
    Words(Option<Span>),
}

impl Answer {
    /// The part of the file that the answer names.
    pub fn named(self) -> Option<Span> {
        match self {
            Answer::Text(span)
            | Answer::Cell(Cell::Text(span))
            | Answer::Long { contents: span, .. } => Some(span),
            Answer::Words(span) => span,
            _ => None,
        }
    }
}

/// Why a question is refused.
#[derive(Clone, Copy, Debug, PartialEq, Eq, PartialOrd, Ord)]
pub enum Why {
    /// No such variable or observation.
    Range,
    /// Edition or byte order unknown.
    Edition,
    /// A byte lies outside the file.
    Outside,
    /// A type code is unknown.
    Type,
    /// A label block passes its part's end.
    Block,
    /// A record passes its part's end.
    Record,
    /// A label table isn't as long as it says.
    Table,
    /// A label's offset isn't below the text length.
    Offset,
    /// No zero in the label text.
    Unended,
    /// A reference without a record.
    NoRecord,
}

impl Why {
    pub fn number(self) -> u8 {
        match self {
            Why::Range => 16,
            _ => 17,
        }
    }
}

pub fn ask(file: &[u8], layout: &Numbers, question: Question) -> Answer {
    match answer(file, layout, question) {
        Ok(answer) => answer,
        Err(why) => Answer::Refused(why.number()),
    }
}

/// As `ask`, with the reason of a refusal.
pub fn answer(file: &[u8], layout: &Numbers, question: Question) -> Result<Answer, Why> {
    let [edition, order, k, n] = [layout[0], layout[1], layout[2], layout[3]];
    if !question.in_range(k, n) {
        return Err(Why::Range);
    }
    let edition = Edition::of(edition).ok_or(Why::Edition)?;
    let order = match order {
        1 => Order::Msf,
        2 => Order::Lsf,
        _ => return Err(Why::Edition),
    };
    let view = View {
        file,
        edition,
        order,
        k,
        positions: &layout[4..],
    };
    Ok(match question {
        Question::Edition => Answer::Number(layout[0]),
        Question::Order => Answer::Number(layout[1]),
        Question::K => Answer::Number(k),
        Question::N => Answer::Number(n),
        Question::Label => Answer::Text(view.label()?),
        Question::Stamp => Answer::Text(view.stamp()?),
        Question::Type(i) => Answer::Type(view.type_of(i)?),
        Question::Name(i) => Answer::Text(view.text(&NAMES, edition.name, i)?),
        Question::Format(i) => Answer::Text(view.format(i)?),
        Question::Set(i) => Answer::Text(view.set(i)?),
        Question::VarLabel(i) => {
            Answer::Text(view.text(&VARIABLE_LABELS, edition.variable_label, i)?)
        }
        Question::Date(i) => {
            let format = view.format(i)?;
            Answer::Date(view.named(format).starts_with(b"%t"))
        }
        Question::Sort(i) => Answer::Number(view.sort_place(i)?),
        Question::Column(i) => {
            let Column { of, offset, row } = view.column(i)?;
            Answer::Column {
                of,
                offset: stored(offset),
                row: stored(row),
            }
        }
        Question::Cell(i, j) => Answer::Cell(view.cell(i, j)?),
        Question::Long(i, j) => view.long(i, j)?,
        Question::Words(i, j) => Answer::Words(view.words(i, j)?),
    })
}

/// A number that the file's length bounds.
fn stored(number: u128) -> u64 {
    number.try_into().expect("a number of 64 bits")
}

/// A part of the file, by its index among the positions and its tag.
struct Part {
    index: usize,
    tag: &'static str,
}

const TYPES: Part = Part {
    index: 2,
    tag: "variable_types",
};
const NAMES: Part = Part {
    index: 3,
    tag: "varnames",
};
const SORT_LIST: Part = Part {
    index: 4,
    tag: "sortlist",
};
const FORMATS: Part = Part {
    index: 5,
    tag: "formats",
};
const SETS: Part = Part {
    index: 6,
    tag: "value_label_names",
};
const VARIABLE_LABELS: Part = Part {
    index: 7,
    tag: "variable_labels",
};
const DATA: Part = Part {
    index: 9,
    tag: "data",
};
const STRLS: Part = Part {
    index: 10,
    tag: "strls",
};
const VALUE_LABELS: Part = Part {
    index: 11,
    tag: "value_labels",
};
const BLOCK_TAG: &str = "lbl";

struct Column {
    of: Type,
    offset: u128,
    row: u128,
}

/// A file read with a layout of a known edition and byte order. Places are whole numbers that never wrap.
struct View<'a> {
    file: &'a [u8],
    edition: &'static Edition,
    order: Order,
    k: u64,
    positions: &'a [u64],
}

impl<'a> View<'a> {
    // Places.

    fn tagged(&self) -> bool {
        self.edition.tagged
    }

    /// `<tag>`, of no bytes in an old edition.
    fn opening(&self, tag: &str) -> u128 {
        match self.tagged() {
            true => tag.len() as u128 + 2,
            false => 0,
        }
    }

    /// `</tag>`, of no bytes in an old edition.
    fn closing(&self, tag: &str) -> u128 {
        match self.tagged() {
            true => tag.len() as u128 + 3,
            false => 0,
        }
    }

    fn start(&self, part: &Part) -> u128 {
        u128::from(self.positions[part.index]) + self.opening(part.tag)
    }

    /// A part that would end before the file begins is empty, as one that ends at 0.
    fn end(&self, part: &Part) -> u128 {
        u128::from(self.positions[part.index + 1]).saturating_sub(self.closing(part.tag))
    }

    /// The start of entry i of a list.
    fn entry(&self, part: &Part, width: u128, i: u128) -> u128 {
        self.start(part) + width * (i - 1)
    }

    // Bytes.

    fn bytes(&self, place: u128, length: u128) -> Result<&'a [u8], Why> {
        if length == 0 {
            return Ok(&[]);
        }
        if place + length > self.file.len() as u128 {
            return Err(Why::Outside);
        }
        Ok(&self.file[place as usize..(place + length) as usize])
    }

    fn number(&self, place: u128, width: u128) -> Result<u64, Why> {
        Ok(self.order.number(self.bytes(place, width)?))
    }

    /// The bytes of a part that lies in the file.
    fn named(&self, span: Span) -> &'a [u8] {
        &self.file[span.place as usize..][..span.length as usize]
    }

    /// The text up to the first zero, or the whole width.
    fn field(&self, place: u128, width: u128) -> Result<Span, Why> {
        for length in 0..width {
            if self.bytes(place + length, 1)? == [0] {
                return Ok(span(place, length));
            }
        }
        Ok(span(place, width))
    }

    /// A length of that width, then the text.
    fn short_text(&self, place: u128, width: usize) -> Result<Span, Why> {
        let width = width as u128;
        let length = u128::from(self.number(place, width)?);
        self.bytes(place + width, length)?;
        Ok(span(place + width, length))
    }

    // The header.

    /// Where the length of a tagged edition's dataset label stands.
    fn label_place(&self) -> u128 {
        let tags = "<byteorder>MSF</byteorder><K></K><N></N><label>";
        (self.edition.opening().len() + tags.len() + K_WIDTH + self.edition.n) as u128
    }

    fn label(&self) -> Result<Span, Why> {
        match self.tagged() {
            true => self.short_text(self.label_place(), self.edition.label_length),
            false => self.field(10, self.edition.most_label as u128 + 1),
        }
    }

    fn stamp(&self) -> Result<Span, Why> {
        if !self.tagged() {
            return self.field(91, 18);
        }
        let width = self.edition.label_length as u128;
        let length = u128::from(self.number(self.label_place(), width)?);
        let tags = "</label><timestamp>".len() as u128;
        self.short_text(self.label_place() + width + length + tags, 1)
    }

    // Variables.

    fn type_of(&self, i: u64) -> Result<Type, Why> {
        let width = self.edition.code() as u128;
        let place = self.entry(&TYPES, width, u128::from(i));
        let code = self.number(place, width)?;
        let (kind, width) = match (self.tagged(), code) {
            (true, 1..=2045) | (false, 1..=244) => (Kind::Text, code),
            (true, 32768) => (Kind::Strl, 8),
            (true, 65530) | (false, 251) => (Kind::Byte, 1),
            (true, 65529) | (false, 252) => (Kind::Int, 2),
            (true, 65528) | (false, 253) => (Kind::Long, 4),
            (true, 65527) | (false, 254) => (Kind::Float, 4),
            (true, 65526) | (false, 255) => (Kind::Double, 8),
            _ => return Err(Why::Type),
        };
        Ok(Type { kind, width })
    }

    fn text(&self, part: &Part, width: usize, i: u64) -> Result<Span, Why> {
        let width = width as u128;
        self.field(self.entry(part, width, u128::from(i)), width)
    }

    fn format(&self, i: u64) -> Result<Span, Why> {
        self.text(&FORMATS, self.edition.format, i)
    }

    fn set(&self, i: u64) -> Result<Span, Why> {
        self.text(&SETS, self.edition.name, i)
    }

    fn sort_place(&self, i: u64) -> Result<u64, Why> {
        for place in 1..=u128::from(self.k) + 1 {
            let width = SORT_WIDTH as u128;
            let entry = self.number(self.entry(&SORT_LIST, width, place), width)?;
            if entry == 0 {
                return Ok(0);
            }
            if entry == i {
                return Ok(stored(place));
            }
        }
        Ok(0)
    }

    /// All type codes are on the way.
    fn column(&self, i: u64) -> Result<Column, Why> {
        let (mut found, mut row) = (None, 0);
        for variable in 1..=self.k {
            let of = self.type_of(variable)?;
            if variable == i {
                found = Some((of, row));
            }
            row += u128::from(of.width);
        }
        let (of, offset) = found.expect("a variable of 1..K");
        Ok(Column { of, offset, row })
    }

    // Cells.

    fn cell(&self, i: u64, j: u64) -> Result<Cell, Why> {
        let Column { of, offset, row } = self.column(i)?;
        let place = self.start(&DATA) + row * u128::from(j - 1) + offset;
        let width = u128::from(of.width);
        let number = || self.number(place, width);
        Ok(match of.kind {
            Kind::Text => Cell::Text(self.field(place, width)?),
            Kind::Strl => {
                let [v, o] = [self.edition.cell_v, self.edition.cell_o].map(|width| width as u128);
                Cell::Reference {
                    v: self.number(place, v)?,
                    o: self.number(place + v, o)?,
                }
            }
            Kind::Byte => whole(i32::from(number()? as u8 as i8), 100),
            Kind::Int => whole(i32::from(number()? as u16 as i16), 32_740),
            Kind::Long => whole(number()? as u32 as i32, LARGEST),
            Kind::Float => float(number()? as u32),
            Kind::Double => double(number()?),
        })
    }

    fn long(&self, i: u64, j: u64) -> Result<Answer, Why> {
        let Cell::Reference { v, o } = self.cell(i, j)? else {
            return Ok(NO_RECORD);
        };
        if (v, o) == (0, 0) {
            return Ok(NO_RECORD);
        }
        let (mut at, end) = (self.start(&STRLS), self.end(&STRLS));
        while at < end {
            let [v_width, o_width] = [RECORD_V, self.edition.record_o].map(|width| width as u128);
            let o_place = at + 3 + v_width;
            let name = (
                self.number(at + 3, v_width)?,
                self.number(o_place, o_width)?,
            );
            let kind_place = o_place + o_width;
            let kind = self.number(kind_place, 1)? as u8;
            let length = u128::from(self.number(kind_place + 1, 4)?);
            let contents = kind_place + 5;
            if contents + length > end {
                return Err(Why::Record);
            }
            if name == (v, o) {
                self.bytes(contents, length)?;
                let contents = span(contents, length);
                return Ok(Answer::Long { kind, contents });
            }
            at = contents + length;
        }
        Err(Why::NoRecord)
    }

    // Labels.

    fn words(&self, i: u64, j: u64) -> Result<Option<Span>, Why> {
        let Some(sought) = sought(self.cell(i, j)?) else {
            return Ok(None);
        };
        let set = self.set(i)?;
        if set.length == 0 {
            return Ok(None);
        }
        match self.block(self.named(set))? {
            Some(table) => self.label_of(&table, sought),
            None => Ok(None),
        }
    }

    /// The table of the first block with that name.
    fn block(&self, name: &[u8]) -> Result<Option<Table>, Why> {
        let (mut at, end) = (self.start(&VALUE_LABELS), self.end(&VALUE_LABELS));
        while at < end {
            let head = at + self.opening(BLOCK_TAG);
            let length = u128::from(self.number(head, 4)?);
            let block_name = self.field(head + 4, self.edition.name as u128)?;
            let table = head + self.edition.block_head() as u128;
            at = table + length + self.closing(BLOCK_TAG);
            if at > end {
                return Err(Why::Block);
            }
            let table = self.table(table, length)?;
            if self.named(block_name) == name {
                return Ok(Some(table));
            }
        }
        Ok(None)
    }

    /// A table of a block that is walked over or used, which is as long as it says.
    fn table(&self, place: u128, length: u128) -> Result<Table, Why> {
        if length < 8 {
            return Err(Why::Table);
        }
        let n = u128::from(self.number(place, 4)?);
        let text_length = u128::from(self.number(place + 4, 4)?);
        if length != 8 + 8 * n + text_length {
            return Err(Why::Table);
        }
        Ok(Table {
            place,
            n,
            text_length,
        })
    }

    fn label_of(&self, table: &Table, sought: i32) -> Result<Option<Span>, Why> {
        let (n, text_length) = (table.n, table.text_length);
        let offsets = table.place + 8;
        let values = offsets + 4 * n;
        let text = values + 4 * n;
        let Some(slot) = self.slot(values, n, sought)? else {
            return Ok(None);
        };
        let offset = u128::from(self.number(offsets + 4 * slot, 4)?);
        if offset >= text_length {
            return Err(Why::Offset);
        }
        for place in offset..text_length {
            if self.bytes(text + place, 1)? == [0] {
                return Ok(Some(span(text + offset, place - offset)));
            }
        }
        Err(Why::Unended)
    }

    /// 003's halving routine, also where the values don't ascend.
    fn slot(&self, values: u128, n: u128, sought: i32) -> Result<Option<u128>, Why> {
        if n == 0 {
            return Ok(None);
        }
        let (mut low, mut high) = (0, n as i128 - 1);
        loop {
            let tried = (low + high) / 2;
            let value = self.number(values + 4 * tried as u128, 4)? as u32 as i32;
            if sought == value {
                return Ok(Some(tried as u128));
            }
            if sought < value {
                high = tried - 1;
            } else {
                low = tried + 1;
            }
            if high < low {
                return Ok(None);
            }
        }
    }
}

struct Table {
    place: u128,
    n: u128,
    text_length: u128,
}

const NO_RECORD: Answer = Answer::Long {
    kind: 0,
    contents: Span {
        place: 0,
        length: 0,
    },
};

fn span(place: u128, length: u128) -> Span {
    Span {
        place: stored(place),
        length: stored(length),
    }
}

// What a cell says.

/// The long's number range ends there; the letters' codes follow.
const LARGEST: i32 = 2_147_483_620;

/// The numbers reach from minus the highest pattern to the largest; 27 letters follow.
fn whole(value: i32, largest: i32) -> Cell {
    let highest = largest + 27;
    if value > largest {
        Cell::Letter((value - largest - 1) as u8)
    } else if value >= -highest {
        Cell::Whole(value)
    } else {
        Cell::Outside
    }
}

fn float(bits: u32) -> Cell {
    match bits {
        0..=0x7eff_ffff | 0x8000_0000..=0xfeff_ffff => Cell::Float(bits),
        0x7f00_0000..=0x7f80_0000 => {
            let above = bits - 0x7f00_0000;
            match above.is_multiple_of(2048) && above / 2048 <= 26 {
                true => Cell::Letter((above / 2048) as u8),
                false => Cell::Between,
            }
        }
        _ => Cell::Outside,
    }
}

fn double(bits: u64) -> Cell {
    match bits {
        0..=0x7fdf_ffff_ffff_ffff | 0x8000_0000_0000_0000..=0xffef_ffff_ffff_ffff => {
            Cell::Double(bits)
        }
        0x7fe0_0000_0000_0000..=0x7ff0_0000_0000_0000 => {
            let above = bits - 0x7fe0_0000_0000_0000;
            match above.is_multiple_of(1 << 40) && above >> 40 <= 26 {
                true => Cell::Letter((above >> 40) as u8),
                false => Cell::Between,
            }
        }
        _ => Cell::Outside,
    }
}

/// The value that a cell seeks in a label table.
pub fn sought(cell: Cell) -> Option<i32> {
    match cell {
        Cell::Whole(value) => Some(value),
        Cell::Float(bits) => sought_by(f64::from(f32::from_bits(bits))),
        Cell::Double(bits) => sought_by(f64::from_bits(bits)),
        Cell::Letter(letter) => Some(LARGEST + 1 + i32::from(letter)),
        Cell::Between | Cell::Outside | Cell::Text(_) | Cell::Reference { .. } => None,
    }
}

/// Whole numbers of the long's range, held exactly.
fn sought_by(value: f64) -> Option<i32> {
    let range = -f64::from(i32::MAX)..=f64::from(LARGEST);
    (range.contains(&value) && value.fract() == 0.0).then_some(value as i32)
}
