//! Accepted files made at random, by the paper.

use crate::edition::{Edition, K_WIDTH, PADDING, RECORD_V, SORT_WIDTH};
use crate::random::Random;

#[derive(Clone, Copy, Debug, PartialEq, Eq)]
pub enum Order {
    Msf,
    Lsf,
}

impl Order {
    pub fn bytes(self, number: u64, width: usize) -> Vec<u8> {
        match self {
            Order::Msf => number.to_be_bytes()[8 - width..].to_vec(),
            Order::Lsf => number.to_le_bytes()[..width].to_vec(),
        }
    }

    /// The unsigned number in at most 8 bytes.
    pub fn number(self, bytes: &[u8]) -> u64 {
        let mut eight = [0; 8];
        match self {
            Order::Msf => {
                eight[8 - bytes.len()..].copy_from_slice(bytes);
                u64::from_be_bytes(eight)
            }
            Order::Lsf => {
                eight[..bytes.len()].copy_from_slice(bytes);
                u64::from_le_bytes(eight)
            }
        }
    }

    pub fn from_code(code: u8) -> Order {
        match code {
            1 => Order::Msf,
            _ => Order::Lsf,
        }
    }
}

/// An accepted file of any edition, in either byte order.
pub fn file(random: &mut Random) -> Vec<u8> {
    made(random).file
}

/// An accepted file of that edition, in that byte order.
pub fn file_of(random: &mut Random, edition: u8, order: Order) -> Vec<u8> {
    made_of(random, edition, order).file
}

/// As `file`, with the dataset.
pub fn made(random: &mut Random) -> Made {
    let edition = random.pick(&[113, 114, 115, 117, 117, 118, 118, 118]);
    let order = random.pick(&[Order::Msf, Order::Lsf]);
    made_of(random, edition, order)
}

/// As `file_of`, with the dataset.
pub fn made_of(random: &mut Random, edition: u8, order: Order) -> Made {
    let edition = Edition::known(edition);
    let k = variables(random);
    let n = if k == 0 { 0 } else { observations(random) };
    let dataset = Dataset {
        types: (0..k).map(|_| type_of(random, edition, n)).collect(),
        n,
        ..Dataset::default()
    };
    let mut maker = Maker {
        random,
        edition,
        order,
        dataset,
        file: Vec::new(),
    };
    maker.choose_blocks();
    match edition.tagged {
        true => maker.tagged(),
        false => maker.old(),
    }
    Made {
        file: maker.file,
        dataset: maker.dataset,
    }
}

/// A file and what it holds.
pub struct Made {
    pub file: Vec<u8>,
    pub dataset: Dataset,
}

/// Texts are without their zero.
#[derive(Default)]
pub struct Dataset {
    pub n: usize,
    pub label: Vec<u8>,
    pub stamp: Vec<u8>,
    pub types: Vec<Type>,
    pub names: Vec<Vec<u8>>,
    /// The variables of the sort list.
    pub sorted: Vec<u64>,
    pub formats: Vec<Vec<u8>>,
    pub sets: Vec<Vec<u8>>,
    pub labels: Vec<Vec<u8>>,
    /// In data order.
    pub cells: Vec<Cell>,
    pub records: Vec<Record>,
    pub blocks: Vec<Block>,
}

pub enum Cell {
    /// A whole number, or a letter by its code as a long.
    Seeks(i32),
    /// A number that isn't whole or not of the long's range.
    SeeksNothing,
    /// Any bytes.
    Any,
    Text(Vec<u8>),
    Reference(Reference),
}

/// A strL cell, by its variable and observation.
pub type Reference = (u64, u64);

pub struct Record {
    pub cell: Reference,
    pub kind: u8,
    pub contents: Vec<u8>,
}

pub struct Block {
    pub name: Vec<u8>,
    /// Values ascend.
    pub entries: Vec<(i32, Vec<u8>)>,
}

fn variables(random: &mut Random) -> usize {
    match random.below(400) {
        0 => random.between(256, 400),
        1..20 => random.between(7, 40),
        _ => random.below(7),
    }
}

fn observations(random: &mut Random) -> usize {
    match random.below(400) {
        0 => random.between(256, 600),
        1..20 => random.between(7, 60),
        _ => random.below(7),
    }
}

#[derive(Clone, Copy, Debug, PartialEq, Eq)]
pub enum Type {
    Strl,
    Text(usize),
    Double,
    Float,
    Long,
    Int,
    Byte,
}

fn type_of(random: &mut Random, edition: &Edition, n: usize) -> Type {
    if edition.tagged && random.once_in(3) {
        return Type::Strl;
    }
    if random.once_in(3) {
        return Type::Text(text_width(random, edition, n));
    }
    random.pick(&[Type::Double, Type::Float, Type::Long, Type::Int, Type::Byte])
}

fn text_width(random: &mut Random, edition: &Edition, n: usize) -> usize {
    match random.below(12) {
        0 => 1,
        1 if n < 10 => 244,
        2 if n < 10 && edition.tagged => random.pick(&[245, 256, 2045, 251, 255]),
        3 if n < 10 => random.between(1, 244),
        _ => random.between(1, 12),
    }
}

impl Type {
    pub fn width(self) -> usize {
        match self {
            Type::Strl | Type::Double => 8,
            Type::Text(width) => width,
            Type::Float | Type::Long => 4,
            Type::Int => 2,
            Type::Byte => 1,
        }
    }

    fn old_code(self) -> u8 {
        match self {
            Type::Text(width) => width as u8,
            Type::Byte => 251,
            Type::Int => 252,
            Type::Long => 253,
            Type::Float => 254,
            Type::Double => 255,
            Type::Strl => unreachable!("an old edition has no strL"),
        }
    }

    fn tagged_code(self) -> u64 {
        match self {
            Type::Text(width) => width as u64,
            Type::Strl => 32768,
            Type::Double => 65526,
            Type::Float => 65527,
            Type::Long => 65528,
            Type::Int => 65529,
            Type::Byte => 65530,
        }
    }
}

/// Numbers that aren't whole or not of the long's range.
const SEEK_NOTHING: [f64; 9] = [
    9.7,
    0.5,
    -1e-30,
    2_147_483_621.0,
    2_147_483_622.0,
    2_147_483_647.0,
    2_147_483_648.0,
    -2_147_483_648.0,
    1e20,
];

struct Maker<'a> {
    random: &'a mut Random,
    edition: &'static Edition,
    order: Order,
    dataset: Dataset,
    file: Vec<u8>,
}

impl Maker<'_> {
    fn k(&self) -> usize {
        self.dataset.types.len()
    }

    fn put(&mut self, bytes: &[u8]) {
        self.file.extend(bytes);
    }

    fn put_number(&mut self, number: u64, width: usize) {
        self.file.extend(self.order.bytes(number, width));
    }

    /// Dead bytes: zeros or any.
    fn put_dead(&mut self, length: usize) {
        let dead = match self.random.once_in(3) {
            true => vec![0; length],
            false => self.random.bytes(length),
        };
        self.put(&dead);
    }

    /// The text, its zero, and dead bytes up to the width.
    fn put_field(&mut self, text: &[u8], width: usize) {
        self.put(text);
        self.put(&[0]);
        self.put_dead(width - text.len() - 1);
    }

    /// A text for a field of that width, at times as long as another edition's field, or one byte shorter.
    fn any_text(&mut self, least: usize, width: usize) -> Vec<u8> {
        let edges =
            [11, 12, 32, 33, 48, 49, 80, 81].map(|edge: usize| edge.clamp(least, width - 1));
        let length = match self.random.below(8) {
            0 => least,
            1 => width - 1,
            2 => self.random.between(least, width - 1),
            3 => self.random.pick(&edges),
            _ => self.random.between(least, (width - 1).min(least + 6)),
        };
        self.random.text(length)
    }

    // Parts that the editions share.

    fn names(&mut self) {
        for _ in 0..self.k() {
            let name = self.any_text(1, self.edition.name);
            self.put_field(&name, self.edition.name);
            self.dataset.names.push(name);
        }
    }

    /// Some of the variables, a zero, and dead entries.
    fn sort_list(&mut self) {
        let k = self.k();
        let mut variables: Vec<u64> = (1..=k as u64).collect();
        for last in (1..k).rev() {
            variables.swap(last, self.random.below(last + 1));
        }
        let sorted = match self.random.below(4) {
            0 => 0,
            1 => k,
            _ => self.random.below(k + 1),
        };
        variables.truncate(sorted);
        for variable in &variables {
            self.put_number(*variable, SORT_WIDTH);
        }
        self.put_number(0, SORT_WIDTH);
        self.put_dead(SORT_WIDTH * (k - sorted));
        self.dataset.sorted = variables;
    }

    fn formats(&mut self) {
        let width = self.edition.format;
        for _ in 0..self.k() {
            let format = match self.random.below(3) {
                0 => self.any_text(0, width),
                _ => {
                    let usual = ["%8.0g", "%9.0g", "%td", "%tc", "%-10s", "%t", "%"];
                    self.random.pick(&usual).as_bytes().to_vec()
                }
            };
            self.put_field(&format, width);
            self.dataset.formats.push(format);
        }
    }

    /// Mostly names of label blocks.
    fn sets(&mut self) {
        for _ in 0..self.k() {
            let blocks = self.dataset.blocks.len();
            let set = match self.random.below(4) {
                0 => self.any_text(0, self.edition.name),
                _ if blocks == 0 => Vec::new(),
                _ => self.dataset.blocks[self.random.below(blocks)].name.clone(),
            };
            self.put_field(&set, self.edition.name);
            self.dataset.sets.push(set);
        }
    }

    fn labels(&mut self) {
        for _ in 0..self.k() {
            let label = self.any_text(0, self.edition.variable_label);
            self.put_field(&label, self.edition.variable_label);
            self.dataset.labels.push(label);
        }
    }

    /// Contents that are skipped, some of which look like what follows them.
    fn skipped(&mut self) -> Vec<u8> {
        match self.random.below(6) {
            0 => Vec::new(),
            1 => vec![0; self.random.between(1, 12)],
            2 | 3 => {
                let looks = [
                    "</ch>",
                    "<ch>",
                    "</ch></characteristics>",
                    "</characteristics><data>",
                    "</characteristics><data></data><strls></strls>",
                    "</stata_dta>",
                    "<map>",
                ];
                self.random.pick(&looks).as_bytes().to_vec()
            }
            _ => {
                let length = self.random.between(1, 60);
                self.random.bytes(length)
            }
        }
    }

    /// The observations; the strL cells that name themselves, in data order.
    fn data(&mut self) -> Vec<Reference> {
        let mut named = Vec::new();
        for o in 1..=self.dataset.n as u64 {
            for variable in 0..self.k() {
                let cell = match self.dataset.types[variable] {
                    Type::Strl => self.strl_cell((variable as u64 + 1, o), &mut named),
                    Type::Text(width) => self.text_cell(width),
                    other => self.number_cell(other),
                };
                self.dataset.cells.push(cell);
            }
        }
        named
    }

    fn text_cell(&mut self, width: usize) -> Cell {
        let length = match self.random.below(5) {
            0 => 0,
            1 => width,
            2 => width - 1,
            _ => self.random.below(width + 1),
        };
        let text = self.random.text(length);
        match length == width {
            true => self.put(&text),
            false => self.put_field(&text, width),
        }
        Cell::Text(text)
    }

    fn number_cell(&mut self, of: Type) -> Cell {
        let width = of.width();
        if self.random.once_in(2) {
            let sought = self.sought();
            if let Some(bits) = self.holding(of, sought) {
                self.put_number(bits, width);
                return Cell::Seeks(sought);
            }
        }
        if let (Type::Float | Type::Double, true) = (of, self.random.once_in(4)) {
            let value = self.random.pick(&SEEK_NOTHING);
            match of {
                Type::Float => self.put_number(u64::from((value as f32).to_bits()), width),
                _ => self.put_number(value.to_bits(), width),
            }
            return Cell::SeeksNothing;
        }
        let cell = match self.random.below(4) {
            0 => vec![0; width],
            1 => vec![self.random.pick(&[0x65, 0x7f, 0x80, 0x81, 0xff]); width],
            2 => self.edge(of),
            _ => self.random.bytes(width),
        };
        self.put(&cell);
        Cell::Any
    }

    /// At and beside the letters and the ends of the numbers.
    fn edge(&mut self, of: Type) -> Vec<u8> {
        let (step, beside) = (self.random.below(32) as u64, self.random.below(3) as u64);
        let edge = match of {
            Type::Double => {
                let tops = [0x7fe0, 0x7fe0, 0x7ff0, 0xfff0, 0xffe0];
                (self.random.pick(&tops) << 48) + (step << 40)
            }
            Type::Float => {
                let tops = [0x7f00, 0x7f00, 0x7f80, 0xff80, 0xff00];
                (self.random.pick(&tops) << 16) + (step << 11)
            }
            Type::Long => 0x7fff_ffe4 + step,
            Type::Int => 0x7fe4 + step,
            _ => 0x64 + step,
        };
        self.order
            .bytes(edge.wrapping_add(beside).wrapping_sub(1), of.width())
    }

    /// Mostly a value that a label block has.
    fn sought(&mut self) -> i32 {
        let blocks = self.dataset.blocks.len();
        if blocks > 0 && !self.random.once_in(5) {
            let block = &self.dataset.blocks[self.random.below(blocks)];
            if !block.entries.is_empty() {
                return block.entries[self.random.below(block.entries.len())].0;
            }
        }
        self.random.below(250) as i32 - 125
    }

    /// The bits of a cell that holds this number, or the letter with this code.
    fn holding(&mut self, of: Type, sought: i32) -> Option<u64> {
        let letter = i64::from(sought) - 2_147_483_621;
        let held = |highest: i64| match letter {
            0.. => Some(highest - 26 + letter),
            _ => Some(i64::from(sought)).filter(|q| (-highest..=highest - 27).contains(q)),
        };
        match of {
            Type::Byte => held(127).map(|value| u64::from(value as u8)),
            Type::Int => held(32_767).map(|value| u64::from(value as u16)),
            Type::Long => held(2_147_483_647).map(|value| u64::from(value as u32)),
            _ if sought == i32::MIN => None,
            Type::Float if letter >= 0 => Some(0x7f00_0000 + 2048 * letter as u64),
            Type::Float => {
                let value = sought as f32;
                (f64::from(value) == f64::from(sought)).then(|| {
                    u64::from(self.signed_zero(value.to_bits() == 0) << 31 | value.to_bits())
                })
            }
            Type::Double if letter >= 0 => Some(0x7fe0_0000_0000_0000 + ((letter as u64) << 40)),
            Type::Double => {
                let bits = f64::from(sought).to_bits();
                Some(u64::from(self.signed_zero(bits == 0)) << 63 | bits)
            }
            Type::Text(_) | Type::Strl => None,
        }
    }

    /// The sign of a zero: either.
    fn signed_zero(&mut self, zero: bool) -> u32 {
        u32::from(zero && self.random.once_in(2))
    }

    fn strl_cell(&mut self, cell: Reference, named: &mut Vec<Reference>) -> Cell {
        let reference = match self.random.below(4) {
            0 => (0, 0),
            1 if !named.is_empty() => self.random.pick(named),
            _ => {
                named.push(cell);
                cell
            }
        };
        self.put_number(reference.0, self.edition.cell_v);
        self.put_number(reference.1, self.edition.cell_o);
        Cell::Reference(reference)
    }

    fn record(&mut self, cell: Reference) {
        let length = match self.random.below(6) {
            0 => 0,
            1 => self.random.between(1, 300),
            _ => self.random.between(1, 12),
        };
        let (kind, contents) = match self.random.once_in(2) {
            true => (129, self.random.bytes(length)),
            false => {
                let mut text = self.random.text(length.max(1));
                text.push(0);
                (130, text)
            }
        };
        self.put(b"GSO");
        self.put_number(cell.0, RECORD_V);
        self.put_number(cell.1, self.edition.record_o);
        self.put(&[kind]);
        self.put_number(contents.len() as u64, 4);
        self.put(&contents);
        self.dataset.records.push(Record {
            cell,
            kind,
            contents,
        });
    }

    /// Names and values of the label blocks; some names occur twice.
    fn choose_blocks(&mut self) {
        for _ in 0..self.random.pick(&[0, 1, 1, 2, 3]) {
            let blocks = self.dataset.blocks.len();
            let name = match blocks > 0 && self.random.once_in(4) {
                true => self.dataset.blocks[self.random.below(blocks)].name.clone(),
                false => self.any_text(1, self.edition.name),
            };
            let values = self.label_values();
            let entries = values
                .into_iter()
                .map(|value| (value, Vec::new()))
                .collect();
            self.dataset.blocks.push(Block { name, entries });
        }
    }

    fn label_block(&mut self, block: usize) {
        let table = self.label_table(block);
        self.put_number(table.len() as u64, 4);
        let name = self.dataset.blocks[block].name.clone();
        self.put_field(&name, self.edition.name);
        self.put_dead(PADDING);
        self.put(&table);
    }

    fn label_table(&mut self, block: usize) -> Vec<u8> {
        let entries = self.dataset.blocks[block].entries.len();
        let (text, starts) = self.label_text(entries);
        let mut numbers = vec![entries as u64, text.len() as u64];
        for entry in 0..entries {
            let offset = self.label_offset(&text, &starts);
            numbers.push(offset as u64);
            let label = text[offset..].split(|byte| *byte == 0).next();
            self.dataset.blocks[block].entries[entry].1 = label.expect("a text").to_vec();
        }
        let values = &self.dataset.blocks[block].entries;
        numbers.extend(values.iter().map(|(value, _)| u64::from(*value as u32)));
        let mut table: Vec<u8> = numbers
            .iter()
            .flat_map(|number| self.order.bytes(*number, 4))
            .collect();
        table.extend(text);
        table
    }

    /// Ascending.
    fn label_values(&mut self) -> Vec<i32> {
        let count = match self.random.below(60) {
            0 => self.random.between(7, 300),
            _ => self.random.below(7),
        };
        let edges = [
            i32::MIN,
            -i32::MAX,
            -1,
            0,
            1,
            255,
            256,
            2_147_483_620,
            2_147_483_621,
            2_147_483_622,
            i32::MAX,
        ];
        let mut values: Vec<i32> = (0..count)
            .map(|_| match self.random.below(4) {
                0 => self.random.pick(&edges),
                1 => self.random.number() as i32,
                _ => self.random.below(20) as i32 - 5,
            })
            .collect();
        values.sort_unstable();
        values.dedup();
        values
    }

    /// Texts with gaps among them and perhaps bytes after the last zero; the places where texts start.
    fn label_text(&mut self, entries: usize) -> (Vec<u8>, Vec<usize>) {
        let (mut text, mut starts) = (Vec::new(), Vec::new());
        let texts = match entries {
            0 => self.random.below(2),
            _ => self.random.between(1, entries),
        };
        for _ in 0..texts {
            if self.random.once_in(5) {
                let gap = self.random.between(1, 5);
                text.extend(self.random.bytes(gap));
            }
            starts.push(text.len());
            let length = self.random.below(9);
            text.extend(self.random.text(length));
            text.push(0);
        }
        if self.random.once_in(5) {
            let tail = self.random.between(1, 5);
            text.extend(self.random.text(tail));
        }
        (text, starts)
    }

    /// Where a text starts, or any place up to the last zero.
    fn label_offset(&mut self, text: &[u8], starts: &[usize]) -> usize {
        match self.random.once_in(4) {
            true => {
                let last = text.iter().rposition(|byte| *byte == 0);
                self.random.below(last.expect("a zero") + 1)
            }
            false => self.random.pick(starts),
        }
    }

    fn dataset_label(&mut self) -> Vec<u8> {
        let most = self.edition.most_label;
        let length = match self.random.below(6) {
            0 => 0,
            1 => most,
            2 => self.random.pick(&[80, 81, 255, 256]).min(most),
            3 => self.random.below(most + 1),
            _ => self.random.below(81),
        };
        self.random.text(length)
    }

    // Editions 113, 114 and 115.

    fn old(&mut self) {
        self.old_header();
        for variable in 0..self.k() {
            let code = self.dataset.types[variable].old_code();
            self.put(&[code]);
        }
        self.names();
        self.sort_list();
        self.formats();
        self.sets();
        self.labels();
        self.expansion_blocks();
        self.data();
        for block in 0..self.dataset.blocks.len() {
            self.label_block(block);
        }
    }

    fn old_header(&mut self) {
        let order = match self.order {
            Order::Msf => 1,
            Order::Lsf => 2,
        };
        self.put(&[self.edition.number, order, 1]);
        self.put_dead(1);
        self.put_number(self.k() as u64, K_WIDTH);
        self.put_number(self.dataset.n as u64, self.edition.n);
        let label = self.dataset_label();
        self.put_field(&label, self.edition.most_label + 1);
        self.dataset.label = label;
        if self.random.once_in(2) {
            let stamp = self.random.text(17);
            self.put(&stamp);
            self.dataset.stamp = stamp;
        } else {
            self.put(&[0]);
            self.put_dead(16);
        }
        self.put(&[0]);
    }

    fn expansion_blocks(&mut self) {
        for _ in 0..self.random.pick(&[0, 0, 1, 2, 3]) {
            let kind = self.random.between(1, 255) as u8;
            let contents = self.skipped();
            self.put(&[kind]);
            self.put_number(contents.len() as u64, 4);
            self.put(&contents);
        }
        self.put(&[0; 5]);
    }

    // Editions 117 and 118.

    fn tagged(&mut self) {
        self.tagged_header();
        let mut positions = [0; 14];
        positions[1] = self.file.len();
        self.put(b"<map>");
        let map = self.file.len();
        self.put(&[0; 14 * 8]);
        self.put(b"</map>");
        positions[2] = self.file.len();
        self.between("variable_types", |maker| {
            for variable in 0..maker.k() {
                let code = maker.dataset.types[variable].tagged_code();
                maker.put_number(code, 2);
            }
        });
        positions[3] = self.file.len();
        self.between("varnames", Maker::names);
        positions[4] = self.file.len();
        self.between("sortlist", Maker::sort_list);
        positions[5] = self.file.len();
        self.between("formats", Maker::formats);
        positions[6] = self.file.len();
        self.between("value_label_names", Maker::sets);
        positions[7] = self.file.len();
        self.between("variable_labels", Maker::labels);
        positions[8] = self.file.len();
        self.between("characteristics", Maker::characteristics);
        positions[9] = self.file.len();
        let mut named = Vec::new();
        self.between("data", |maker| named = maker.data());
        positions[10] = self.file.len();
        self.between("strls", |maker| {
            for cell in named {
                maker.record(cell);
            }
        });
        positions[11] = self.file.len();
        self.between("value_labels", |maker| {
            for block in 0..maker.dataset.blocks.len() {
                maker.between("lbl", |maker| maker.label_block(block));
            }
        });
        positions[12] = self.file.len();
        self.put(b"</stata_dta>");
        positions[13] = self.file.len();
        for (item, position) in positions.iter().enumerate() {
            let place = map + 8 * item;
            let bytes = self.order.bytes(*position as u64, 8);
            self.file[place..place + 8].copy_from_slice(&bytes);
        }
    }

    fn between(&mut self, tag: &str, contents: impl FnOnce(&mut Self)) {
        self.put(format!("<{tag}>").as_bytes());
        contents(self);
        self.put(format!("</{tag}>").as_bytes());
    }

    fn tagged_header(&mut self) {
        let order = match self.order {
            Order::Msf => "MSF",
            Order::Lsf => "LSF",
        };
        let edition = self.edition;
        self.put(edition.opening().as_bytes());
        self.between("byteorder", |maker| maker.put(order.as_bytes()));
        self.between("K", |maker| maker.put_number(maker.k() as u64, K_WIDTH));
        self.between("N", |maker| {
            maker.put_number(maker.dataset.n as u64, edition.n)
        });
        let label = self.dataset_label();
        self.between("label", |maker| {
            maker.put_number(label.len() as u64, edition.label_length);
            maker.put(&label);
        });
        self.dataset.label = label;
        let stamp = match self.random.once_in(2) {
            true => self.random.text(17),
            false => Vec::new(),
        };
        self.between("timestamp", |maker| {
            maker.put(&[stamp.len() as u8]);
            maker.put(&stamp);
        });
        self.dataset.stamp = stamp;
        self.put(b"</header>");
    }

    fn characteristics(&mut self) {
        for _ in 0..self.random.pick(&[0, 0, 1, 2, 3]) {
            let contents = self.skipped();
            self.between("ch", |maker| {
                maker.put_number(contents.len() as u64, 4);
                maker.put(&contents);
            });
        }
    }
}
