//! The dataset of an accepted file, by the paper: what the editions share.

use crate::edition::{Edition, PADDING, RECORD_V, SORT_WIDTH};
use crate::generate::Order;
use crate::Layout;

/// Texts are without their zero and what follows it.
#[derive(Clone, Debug, PartialEq, Eq)]
pub struct Dataset {
    pub n: u64,
    pub label: Vec<u8>,
    /// Empty or 17 bytes.
    pub stamp: Vec<u8>,
    pub variables: Vec<Variable>,
    /// The variables of the sort list.
    pub sorted: Vec<u64>,
    /// In data order.
    pub cells: Vec<Cell>,
    pub records: Vec<Record>,
    pub blocks: Vec<Block>,
}

#[derive(Clone, Debug, PartialEq, Eq)]
pub struct Variable {
    pub of: Type,
    pub name: Vec<u8>,
    pub format: Vec<u8>,
    pub set: Vec<u8>,
    pub label: Vec<u8>,
}

#[derive(Clone, Copy, Debug, PartialEq, Eq)]
pub enum Type {
    Text(u64),
    Strl,
    Byte,
    Int,
    Long,
    Float,
    Double,
}

#[derive(Clone, Debug, PartialEq, Eq)]
pub enum Cell {
    /// Of a byte, int, long, float or double.
    Bits(u64),
    Text(Vec<u8>),
    Reference {
        v: u64,
        o: u64,
    },
}

/// A long string.
#[derive(Clone, Debug, PartialEq, Eq)]
pub struct Record {
    pub v: u64,
    pub o: u64,
    pub kind: u8,
    pub contents: Vec<u8>,
}

#[derive(Clone, Debug, PartialEq, Eq)]
pub struct Block {
    pub name: Vec<u8>,
    pub text_length: u64,
    pub entries: Vec<Entry>,
}

#[derive(Clone, Debug, PartialEq, Eq)]
pub struct Entry {
    pub offset: u64,
    /// Its 32 bits.
    pub value: u64,
    pub text: Vec<u8>,
}

impl Type {
    /// In bytes.
    pub fn width(self) -> u64 {
        match self {
            Type::Text(width) => width,
            Type::Strl | Type::Double => 8,
            Type::Long | Type::Float => 4,
            Type::Int => 2,
            Type::Byte => 1,
        }
    }
}

impl Dataset {
    /// Bytes of an observation.
    pub fn row(&self) -> u64 {
        self.variables.iter().map(|each| each.of.width()).sum()
    }
}

/// The dataset of a file that has this layout.
pub fn dataset(file: &[u8], layout: &Layout) -> Dataset {
    let mut dataset = outline(file, layout);
    dataset.cells = cells(file, layout, &dataset.variables);
    dataset
}

/// The cells of a file that has this layout and these variables.
pub fn cells(file: &[u8], layout: &Layout, variables: &[Variable]) -> Vec<Cell> {
    Reading::new(file, layout).cells(variables)
}

/// All but the cells, which may be many.
pub fn outline(file: &[u8], layout: &Layout) -> Dataset {
    let reading = Reading::new(file, layout);
    let (label, stamp) = match reading.edition.tagged {
        true => reading.tagged_header(),
        false => (text(&file[10..91]), text(&file[91..109])),
    };
    Dataset {
        n: u64::from(layout.n),
        label,
        stamp,
        variables: reading.variables(),
        sorted: reading.sorted(),
        cells: Vec::new(),
        records: reading.records(),
        blocks: reading.blocks(),
    }
}

/// Up to the first zero, or all.
fn text(field: &[u8]) -> Vec<u8> {
    field
        .iter()
        .copied()
        .take_while(|byte| *byte != 0)
        .collect()
}

/// Takes so many bytes from the front.
fn take<'a>(rest: &mut &'a [u8], length: u64) -> &'a [u8] {
    let (taken, left) = rest.split_at(length as usize);
    *rest = left;
    taken
}

struct Reading<'a> {
    file: &'a [u8],
    layout: &'a Layout,
    order: Order,
    edition: &'static Edition,
}

impl<'a> Reading<'a> {
    fn new(file: &'a [u8], layout: &'a Layout) -> Reading<'a> {
        Reading {
            file,
            layout,
            order: Order::from_code(layout.byte_order),
            edition: Edition::known(layout.edition),
        }
    }

    /// The contents of the part that starts at that position of the map, between its tags if it has any.
    fn part(&self, item: usize, tag: &str) -> &'a [u8] {
        let start = self.layout.positions[item] as usize;
        let end = self.layout.positions[item + 1] as usize;
        match self.edition.tagged {
            true => &self.file[start + tag.len() + 2..end - tag.len() - 3],
            false => &self.file[start..end],
        }
    }

    fn number(&self, rest: &mut &[u8], width: u64) -> u64 {
        self.order.number(take(rest, width))
    }

    /// Label and stamp of a tagged edition.
    fn tagged_header(&self) -> (Vec<u8>, Vec<u8>) {
        let before = "<byteorder>MSF</byteorder><K>..</K><N></N><label>";
        let before = self.edition.opening().len() + before.len() + self.edition.n;
        let mut rest = &self.file[before..];
        let length = self.number(&mut rest, self.edition.label_length as u64);
        let label = take(&mut rest, length).to_vec();
        take(&mut rest, "</label><timestamp>".len() as u64);
        let length = self.number(&mut rest, 1);
        (label, take(&mut rest, length).to_vec())
    }

    fn variables(&self) -> Vec<Variable> {
        let code_width = self.edition.code() as u64;
        let [name, format, variable_label] = self.text_widths();
        let mut types = self.part(2, "variable_types");
        let mut names = self.part(3, "varnames");
        let mut formats = self.part(5, "formats");
        let mut sets = self.part(6, "value_label_names");
        let mut labels = self.part(7, "variable_labels");
        (0..self.layout.k)
            .map(|_| Variable {
                of: self.type_of(self.number(&mut types, code_width)),
                name: text(take(&mut names, name)),
                format: text(take(&mut formats, format)),
                set: text(take(&mut sets, name)),
                label: text(take(&mut labels, variable_label)),
            })
            .collect()
    }

    /// Of names, of display formats and of variable labels.
    fn text_widths(&self) -> [u64; 3] {
        let edition = self.edition;
        [edition.name, edition.format, edition.variable_label].map(|width| width as u64)
    }

    fn type_of(&self, code: u64) -> Type {
        match (self.edition.tagged, code) {
            (true, 1..=2045) | (false, 1..=244) => Type::Text(code),
            (true, 32768) => Type::Strl,
            (true, 65530) | (false, 251) => Type::Byte,
            (true, 65529) | (false, 252) => Type::Int,
            (true, 65528) | (false, 253) => Type::Long,
            (true, 65527) | (false, 254) => Type::Float,
            (true, 65526) | (false, 255) => Type::Double,
            _ => unreachable!("an accepted file has no type {code}"),
        }
    }

    fn sorted(&self) -> Vec<u64> {
        self.part(4, "sortlist")
            .chunks_exact(SORT_WIDTH)
            .map(|entry| self.order.number(entry))
            .take_while(|variable| *variable != 0)
            .collect()
    }

    fn cells(&self, variables: &[Variable]) -> Vec<Cell> {
        let mut rest = self.part(9, "data");
        let mut cells = Vec::new();
        while !rest.is_empty() {
            for variable in variables {
                cells.push(self.cell(variable.of, &mut rest));
            }
        }
        cells
    }

    fn cell(&self, of: Type, rest: &mut &[u8]) -> Cell {
        match of {
            Type::Text(width) => Cell::Text(text(take(rest, width))),
            Type::Strl => Cell::Reference {
                v: self.number(rest, self.edition.cell_v as u64),
                o: self.number(rest, self.edition.cell_o as u64),
            },
            _ => Cell::Bits(self.number(rest, of.width())),
        }
    }

    fn records(&self) -> Vec<Record> {
        let mut rest = self.part(10, "strls");
        let mut records = Vec::new();
        while !rest.is_empty() {
            assert_eq!(take(&mut rest, 3), b"GSO");
            let v = self.number(&mut rest, RECORD_V as u64);
            let o = self.number(&mut rest, self.edition.record_o as u64);
            let kind = take(&mut rest, 1)[0];
            let length = self.number(&mut rest, 4);
            let contents = take(&mut rest, length).to_vec();
            records.push(Record {
                v,
                o,
                kind,
                contents,
            });
        }
        records
    }

    fn blocks(&self) -> Vec<Block> {
        let mut rest = self.part(11, "value_labels");
        let mut blocks = Vec::new();
        while !rest.is_empty() {
            if self.edition.tagged {
                assert_eq!(take(&mut rest, 5), b"<lbl>");
            }
            blocks.push(self.block(&mut rest));
            if self.edition.tagged {
                assert_eq!(take(&mut rest, 6), b"</lbl>");
            }
        }
        blocks
    }

    fn block(&self, rest: &mut &[u8]) -> Block {
        let _table_length = self.number(rest, 4);
        let name = text(take(rest, self.edition.name as u64));
        let _padding = take(rest, PADDING as u64);
        let n = self.number(rest, 4);
        let text_length = self.number(rest, 4);
        let mut offsets = take(rest, 4 * n);
        let mut values = take(rest, 4 * n);
        let texts = take(rest, text_length);
        let entries = (0..n)
            .map(|_| {
                let offset = self.number(&mut offsets, 4);
                Entry {
                    offset,
                    value: self.number(&mut values, 4),
                    text: text(&texts[offset as usize..]),
                }
            })
            .collect();
        Block {
            name,
            text_length,
            entries,
        }
    }
}
