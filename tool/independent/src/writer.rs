//! A dataset as a file of any edition and byte order, by the paper: an independent writer, which serves only to test.

use crate::dataset::{cells, outline, Block, Cell, Dataset, Record, Type, Variable};
use crate::edition::{Edition, K_WIDTH, NUMBERS, PADDING, RECORD_V, SORT_WIDTH, STAMP};
use crate::generate::Order;
use crate::{check, Layout};

/// The longest file.
const BOUND: u64 = 2_147_483_647;

const SHORT_OUTPUT: u8 = 14;
const NOT_HELD: u8 = 15;

#[derive(Clone, Copy, Debug, PartialEq, Eq)]
pub struct Target {
    pub edition: u8,
    pub order: Order,
}

/// What is offered: every edition that is read, in both byte orders.
pub const TARGETS: [Target; 2 * NUMBERS.len()] = targets();

const fn targets() -> [Target; 2 * NUMBERS.len()] {
    let mut targets = [Target {
        edition: 0,
        order: Order::Msf,
    }; 2 * NUMBERS.len()];
    let mut at = 0;
    while at < targets.len() {
        targets[at].edition = NUMBERS[at / 2];
        if at % 2 == 1 {
            targets[at].order = Order::Lsf;
        }
        at += 1;
    }
    targets
}

impl Target {
    /// The target with these numbers, if it is offered.
    pub fn offered(edition: u64, order: u64) -> Option<Target> {
        let offered = |target: &Target| target.numbers() == (edition, order);
        TARGETS.into_iter().find(offered)
    }

    /// Edition, and 1 for MSF, 2 for LSF.
    pub fn numbers(self) -> (u64, u64) {
        let order = match self.order {
            Order::Msf => 1,
            Order::Lsf => 2,
        };
        (u64::from(self.edition), order)
    }

    pub fn widths(self) -> &'static Edition {
        Edition::known(self.edition)
    }
}

/// Why a target can't hold a dataset.
#[derive(Clone, Copy, Debug, PartialEq, Eq)]
pub enum Unheld {
    Strl,
    WideText,
    LongLabel,
    LongName,
    LongFormat,
    LongSet,
    LongVariableLabel,
    LongBlockName,
    TooLong,
}

/// How long the result is, or each reason why the target can't hold the dataset. The cells aren't looked at.
pub fn held(dataset: &Dataset, target: Target) -> Result<u64, Vec<Unheld>> {
    held_by(dataset, target.widths())
}

/// As `held`, by these widths.
pub fn held_by(dataset: &Dataset, edition: &Edition) -> Result<u64, Vec<Unheld>> {
    let mut reasons = unheld_types(dataset, edition);
    reasons.extend(unheld_texts(dataset, edition));
    if !reasons.is_empty() {
        return Err(reasons);
    }
    match length(dataset, edition) {
        length @ ..=BOUND => Ok(length),
        _ => Err(vec![Unheld::TooLong]),
    }
}

fn unheld_types(dataset: &Dataset, edition: &Edition) -> Vec<Unheld> {
    let types = || dataset.variables.iter().map(|variable| variable.of);
    let strl = types().any(|of| of == Type::Strl);
    let wide = |of: Type| matches!(of, Type::Text(width) if width > edition.widest_text());
    let mut reasons = Vec::new();
    if !edition.tagged && strl {
        reasons.push(Unheld::Strl);
    }
    if types().any(wide) {
        reasons.push(Unheld::WideText);
    }
    reasons
}

/// A text is shorter than its field; the dataset label may have its greatest length.
fn unheld_texts(dataset: &Dataset, edition: &Edition) -> Vec<Unheld> {
    let any = |width: usize, text: fn(&Variable) -> &Vec<u8>| {
        dataset
            .variables
            .iter()
            .any(|each| text(each).len() >= width)
    };
    let blocks = dataset.blocks.iter();
    let block_name = blocks.map(|each| each.name.len()).max().unwrap_or(0);
    let label = any(edition.variable_label, |each| &each.label);
    [
        (dataset.label.len() > edition.most_label, Unheld::LongLabel),
        (any(edition.name, |each| &each.name), Unheld::LongName),
        (any(edition.format, |each| &each.format), Unheld::LongFormat),
        (any(edition.name, |each| &each.set), Unheld::LongSet),
        (label, Unheld::LongVariableLabel),
        (block_name >= edition.name, Unheld::LongBlockName),
    ]
    .into_iter()
    .filter_map(|(unheld, reason)| unheld.then_some(reason))
    .collect()
}

/// How long the result is, by all but the cells and the width of an observation.
fn length(dataset: &Dataset, edition: &Edition) -> u64 {
    let mut writer = Writer::new(edition, Order::Msf);
    writer.dataset(dataset, &[]);
    writer.file.len() as u64 + dataset.n * dataset.row()
}

/// The result for an output of that length, or the number of the refusal.
pub fn rewritten(file: &[u8], edition: u64, order: u64, room: u64) -> Result<Vec<u8>, u8> {
    let layout = check(file)?;
    let Some(target) = Target::offered(edition, order) else {
        return Err(NOT_HELD);
    };
    rewritten_to(file, &layout, target, room)
}

/// As `rewritten`, for a file that has this layout.
pub fn rewritten_to(
    file: &[u8],
    layout: &Layout,
    target: Target,
    room: u64,
) -> Result<Vec<u8>, u8> {
    let mut dataset = outline(file, layout);
    let length = held(&dataset, target).map_err(|_| NOT_HELD)?;
    if room < length {
        return Err(SHORT_OUTPUT);
    }
    dataset.cells = cells(file, layout, &dataset.variables);
    let result = write(&dataset, target);
    assert_eq!(result.len() as u64, length);
    Ok(result)
}

/// The file of a dataset that the target holds.
pub fn write(dataset: &Dataset, target: Target) -> Vec<u8> {
    write_by(dataset, target.widths(), target.order)
}

/// The file of a dataset that an edition with these widths holds.
pub fn write_by(dataset: &Dataset, edition: &Edition, order: Order) -> Vec<u8> {
    let mut writer = Writer::new(edition, order);
    writer.dataset(dataset, &dataset.cells);
    writer.file
}

struct Writer<'a> {
    edition: &'a Edition,
    order: Order,
    file: Vec<u8>,
}

impl Writer<'_> {
    fn new(edition: &Edition, order: Order) -> Writer<'_> {
        Writer {
            edition,
            order,
            file: Vec::new(),
        }
    }

    fn put(&mut self, bytes: &[u8]) {
        self.file.extend(bytes);
    }

    fn number(&mut self, number: u64, width: usize) {
        let bytes = self.order.bytes(number, width);
        self.put(&bytes);
    }

    /// The bytes, then zeros up to the width.
    fn field(&mut self, bytes: &[u8], width: usize) {
        assert!(bytes.len() <= width);
        self.put(bytes);
        self.put(&vec![0; width - bytes.len()]);
    }

    /// The contents, in a tagged edition between the tags.
    fn between(&mut self, tag: &str, contents: impl FnOnce(&mut Self)) {
        if self.edition.tagged {
            self.put(format!("<{tag}>").as_bytes());
        }
        contents(self);
        if self.edition.tagged {
            self.put(format!("</{tag}>").as_bytes());
        }
    }

    /// The file with these cells.
    fn dataset(&mut self, dataset: &Dataset, cells: &[Cell]) {
        let mut map = vec![0];
        match self.edition.tagged {
            true => self.tagged_header(dataset),
            false => self.old_header(dataset),
        }
        map.push(self.file.len());
        if self.edition.tagged {
            self.between("map", |writer| writer.put(&[0; 14 * 8]));
        }
        self.lists(dataset, &mut map);
        self.part("characteristics", &mut map, |writer| {
            if !writer.edition.tagged {
                writer.put(&[0; 5]);
            }
        });
        self.part("data", &mut map, |writer| {
            writer.cells(&dataset.variables, cells)
        });
        self.part("strls", &mut map, |writer| {
            dataset.records.iter().for_each(|each| writer.record(each));
        });
        self.part("value_labels", &mut map, |writer| {
            for block in &dataset.blocks {
                writer.between("lbl", |writer| writer.block(block));
            }
        });
        if self.edition.tagged {
            map.push(self.file.len());
            self.put(b"</stata_dta>");
            map.push(self.file.len());
            self.fill_map(&map);
        }
    }

    /// A part, with its place for the map.
    fn part(&mut self, tag: &str, map: &mut Vec<usize>, contents: impl FnOnce(&mut Self)) {
        map.push(self.file.len());
        self.between(tag, contents);
    }

    /// From the types to the variable labels.
    fn lists(&mut self, dataset: &Dataset, map: &mut Vec<usize>) {
        let (variables, edition) = (&dataset.variables, self.edition);
        self.part("variable_types", map, |writer| {
            variables.iter().for_each(|each| writer.type_code(each.of));
        });
        self.part("varnames", map, |writer| {
            writer.fields(variables, edition.name, |each| &each.name)
        });
        self.part("sortlist", map, |writer| {
            let sorted = &dataset.sorted;
            sorted
                .iter()
                .for_each(|each| writer.number(*each, SORT_WIDTH));
            let unsorted = variables.len() + 1 - sorted.len();
            writer.put(&vec![0; SORT_WIDTH * unsorted]);
        });
        self.part("formats", map, |writer| {
            writer.fields(variables, edition.format, |each| &each.format)
        });
        self.part("value_label_names", map, |writer| {
            writer.fields(variables, edition.name, |each| &each.set)
        });
        self.part("variable_labels", map, |writer| {
            writer.fields(variables, edition.variable_label, |each| &each.label)
        });
    }

    /// A text of each variable.
    fn fields(&mut self, variables: &[Variable], width: usize, text: fn(&Variable) -> &Vec<u8>) {
        for variable in variables {
            self.field(text(variable), width);
        }
    }

    fn old_header(&mut self, dataset: &Dataset) {
        let edition = self.edition;
        let order = match self.order {
            Order::Msf => 1,
            Order::Lsf => 2,
        };
        // Edition, byte order, file type, the unused byte.
        self.put(&[edition.number, order, 1, 1]);
        self.number(dataset.variables.len() as u64, K_WIDTH);
        self.number(dataset.n, edition.n);
        self.field(&dataset.label, edition.most_label + 1);
        self.field(&dataset.stamp, STAMP + 1);
    }

    fn tagged_header(&mut self, dataset: &Dataset) {
        let order = match self.order {
            Order::Msf => b"MSF",
            Order::Lsf => b"LSF",
        };
        let edition = self.edition;
        self.put(edition.opening().as_bytes());
        self.between("byteorder", |writer| writer.put(order));
        let k = dataset.variables.len() as u64;
        self.between("K", |writer| writer.number(k, K_WIDTH));
        self.between("N", |writer| writer.number(dataset.n, edition.n));
        for (tag, width, text) in [
            ("label", edition.label_length, &dataset.label),
            ("timestamp", 1, &dataset.stamp),
        ] {
            self.between(tag, |writer| {
                writer.number(text.len() as u64, width);
                writer.put(text);
            });
        }
        self.put(b"</header>");
    }

    /// Stores the fourteen positions, the second of which is the map's own.
    fn fill_map(&mut self, positions: &[usize]) {
        assert_eq!(positions.len(), 14);
        let map = positions[1] + "<map>".len();
        for (item, position) in positions.iter().enumerate() {
            let bytes = self.order.bytes(*position as u64, 8);
            self.file[map + 8 * item..][..8].copy_from_slice(&bytes);
        }
    }

    fn type_code(&mut self, of: Type) {
        let (old, tagged) = match of {
            Type::Text(width) => (width, width),
            Type::Strl => (0, 32768),
            Type::Byte => (251, 65530),
            Type::Int => (252, 65529),
            Type::Long => (253, 65528),
            Type::Float => (254, 65527),
            Type::Double => (255, 65526),
        };
        let width = self.edition.code();
        self.number(if self.edition.tagged { tagged } else { old }, width);
    }

    fn cells(&mut self, variables: &[Variable], cells: &[Cell]) {
        let types = variables.iter().map(|variable| variable.of).cycle();
        let edition = self.edition;
        for (cell, of) in cells.iter().zip(types) {
            match cell {
                Cell::Bits(bits) => self.number(*bits, of.width() as usize),
                Cell::Text(text) => self.field(text, of.width() as usize),
                Cell::Reference { v, o } => {
                    self.number(*v, edition.cell_v);
                    self.number(*o, edition.cell_o);
                }
            }
        }
    }

    fn record(&mut self, record: &Record) {
        self.put(b"GSO");
        self.number(record.v, RECORD_V);
        self.number(record.o, self.edition.record_o);
        self.number(u64::from(record.kind), 1);
        self.number(record.contents.len() as u64, 4);
        self.put(&record.contents);
    }

    fn block(&mut self, block: &Block) {
        let n = block.entries.len() as u64;
        self.number(8 + 8 * n + block.text_length, 4);
        self.field(&block.name, self.edition.name);
        self.put(&[0; PADDING]);
        self.number(n, 4);
        self.number(block.text_length, 4);
        for entry in &block.entries {
            self.number(entry.offset, 4);
        }
        for entry in &block.entries {
            self.number(entry.value, 4);
        }
        // Zeros where no entry has a text.
        let mut text = vec![0; block.text_length as usize];
        for entry in &block.entries {
            text[entry.offset as usize..][..entry.text.len()].copy_from_slice(&entry.text);
        }
        self.put(&text);
    }
}
