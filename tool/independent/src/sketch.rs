//! Small files put together by hand, by the paper.

use crate::edition::{Edition, K_WIDTH, PADDING, RECORD_V, SORT_WIDTH, STAMP};
use crate::generate::Order;
use crate::questions::Kind;

#[derive(Clone, Copy)]
pub struct Variable {
    pub kind: Kind,
    pub name: &'static str,
    pub format: &'static str,
    pub set: &'static str,
    pub label: &'static str,
}

/// A byte.
pub const X: Variable = Variable {
    kind: Kind::Byte,
    name: "x",
    format: "%9.0g",
    set: "",
    label: "",
};

pub struct Sketch {
    pub edition: u8,
    pub order: Order,
    pub label: &'static str,
    pub stamp: &'static str,
    pub variables: Vec<Variable>,
    pub sorted: Vec<u64>,
    pub n: u64,
    pub data: Vec<u8>,
    pub records: Vec<u8>,
    /// Names and tables.
    pub blocks: Vec<(&'static str, Vec<u8>)>,
}

/// Texts made here are 5 bytes wide.
pub const TEXT_WIDTH: u64 = 5;

/// In bytes.
pub fn width(kind: Kind) -> usize {
    match kind {
        Kind::Text => TEXT_WIDTH as usize,
        Kind::Strl | Kind::Double => 8,
        Kind::Long | Kind::Float => 4,
        Kind::Int => 2,
        Kind::Byte => 1,
    }
}

impl Sketch {
    pub fn new(edition: u8, order: Order) -> Sketch {
        Sketch {
            edition,
            order,
            label: "",
            stamp: "",
            variables: Vec::new(),
            sorted: Vec::new(),
            n: 0,
            data: Vec::new(),
            records: Vec::new(),
            blocks: Vec::new(),
        }
    }

    fn widths(&self) -> &'static Edition {
        Edition::known(self.edition)
    }

    pub fn record(&mut self, v: u64, o: u64, kind: u8, contents: &[u8]) {
        self.records.extend(b"GSO");
        self.records.extend(self.order.bytes(v, RECORD_V));
        let width = self.widths().record_o;
        self.records.extend(self.order.bytes(o, width));
        self.records.push(kind);
        self.records
            .extend(self.order.bytes(contents.len() as u64, 4));
        self.records.extend(contents);
    }

    pub fn reference(&mut self, v: u64, o: u64) {
        let (v_width, o_width) = (self.widths().cell_v, self.widths().cell_o);
        self.data.extend(self.order.bytes(v, v_width));
        self.data.extend(self.order.bytes(o, o_width));
    }

    fn type_code(&self, kind: Kind) -> Vec<u8> {
        let (old, tagged) = match kind {
            Kind::Text => (TEXT_WIDTH as u8, TEXT_WIDTH),
            Kind::Strl => (0, 32768),
            Kind::Byte => (251, 65530),
            Kind::Int => (252, 65529),
            Kind::Long => (253, 65528),
            Kind::Float => (254, 65527),
            Kind::Double => (255, 65526),
        };
        match self.widths().tagged {
            true => self.order.bytes(tagged, 2),
            false => vec![old],
        }
    }

    /// The file's parts from the types on, but for characteristics.
    fn parts(&self) -> Vec<(&'static str, Vec<u8>)> {
        let widths = self.widths();
        let fields = |width: usize, text: fn(&Variable) -> &'static str| {
            let fields = self.variables.iter().map(text);
            fields.flat_map(|text| field(text, width)).collect()
        };
        let types = self.variables.iter();
        let types = types.flat_map(|variable| self.type_code(variable.kind));
        let mut sort_list = self.sorted.clone();
        sort_list.resize(self.variables.len() + 1, 0);
        let sort_list = sort_list
            .iter()
            .flat_map(|entry| self.order.bytes(*entry, SORT_WIDTH));
        vec![
            ("variable_types", types.collect()),
            ("varnames", fields(widths.name, |variable| variable.name)),
            ("sortlist", sort_list.collect()),
            ("formats", fields(widths.format, |variable| variable.format)),
            (
                "value_label_names",
                fields(widths.name, |variable| variable.set),
            ),
            (
                "variable_labels",
                fields(widths.variable_label, |variable| variable.label),
            ),
            ("characteristics", Vec::new()),
            ("data", self.data.clone()),
            ("strls", self.records.clone()),
            ("value_labels", self.label_blocks()),
        ]
    }

    fn label_blocks(&self) -> Vec<u8> {
        let (opening, closing) = match self.widths().tagged {
            true => ("<lbl>", "</lbl>"),
            false => ("", ""),
        };
        let mut blocks = Vec::new();
        for (name, table) in &self.blocks {
            blocks.extend(opening.as_bytes());
            blocks.extend(self.order.bytes(table.len() as u64, 4));
            blocks.extend(field(name, self.widths().name + PADDING));
            blocks.extend(table);
            blocks.extend(closing.as_bytes());
        }
        blocks
    }

    fn header(&self) -> Vec<u8> {
        let (k, n, widths) = (self.variables.len() as u64, self.n, self.widths());
        let (k, n) = (self.order.bytes(k, K_WIDTH), self.order.bytes(n, widths.n));
        let msf = self.order == Order::Msf;
        if !widths.tagged {
            let start = vec![self.edition, if msf { 1 } else { 2 }, 1, 1];
            let label = field(self.label, widths.most_label + 1);
            return [start, k, n, label, field(self.stamp, STAMP + 1)].concat();
        }
        let mut header = widths.opening().into_bytes();
        header.extend(b"<byteorder>");
        header.extend(if msf { b"MSF" } else { b"LSF" });
        header.extend(b"</byteorder><K>");
        header.extend(k);
        header.extend(b"</K><N>");
        header.extend(n);
        header.extend(b"</N><label>");
        let length = self.label.len() as u64;
        header.extend(self.order.bytes(length, widths.label_length));
        header.extend(self.label.as_bytes());
        header.extend(b"</label><timestamp>");
        header.push(self.stamp.len() as u8);
        header.extend(self.stamp.as_bytes());
        header.extend(b"</timestamp></header>");
        header
    }

    pub fn file(&self) -> Vec<u8> {
        let mut file = self.header();
        if !self.widths().tagged {
            for (tag, contents) in self.parts() {
                file.extend(contents);
                if tag == "characteristics" {
                    file.extend([0; 5]);
                }
            }
            return file;
        }
        let mut positions = vec![0, file.len()];
        let map = file.len() + 5;
        file.extend(b"<map>");
        file.extend([0; 112]);
        file.extend(b"</map>");
        for (tag, contents) in self.parts() {
            positions.push(file.len());
            file.extend(format!("<{tag}>").as_bytes());
            file.extend(contents);
            file.extend(format!("</{tag}>").as_bytes());
        }
        positions.push(file.len());
        file.extend(b"</stata_dta>");
        positions.push(file.len());
        for (item, position) in positions.iter().enumerate() {
            let place = map + 8 * item;
            let position = self.order.bytes(*position as u64, 8);
            file[place..place + 8].copy_from_slice(&position);
        }
        file
    }
}

fn field(text: &str, width: usize) -> Vec<u8> {
    let mut field = text.as_bytes().to_vec();
    field.resize(width, 0);
    field
}

/// The label table with these entries.
pub fn table(order: Order, entries: &[(i32, &str)]) -> Vec<u8> {
    let text: String = entries.iter().flat_map(|entry| [entry.1, "\0"]).collect();
    let mut numbers = vec![entries.len() as u64, text.len() as u64];
    let mut offset = 0;
    for (_, text) in entries {
        numbers.push(offset);
        offset += text.len() as u64 + 1;
    }
    numbers.extend(entries.iter().map(|entry| u64::from(entry.0 as u32)));
    let mut table: Vec<u8> = numbers
        .iter()
        .flat_map(|number| order.bytes(*number, 4))
        .collect();
    table.extend(text.as_bytes());
    table
}
