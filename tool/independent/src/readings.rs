//! Meter readings: the dataset of the files in `samples/`.

use crate::dataset::{Block, Cell, Dataset, Entry, Type, Variable};

fn variable(of: Type, name: &str, format: &str, set: &str, label: &str) -> Variable {
    Variable {
        of,
        name: name.into(),
        format: format.into(),
        set: set.into(),
        label: label.into(),
    }
}

/// A label set of values and their texts, one after another.
fn block(name: &str, labels: &[(i32, &str)]) -> Block {
    let mut offset = 0;
    let mut entries = Vec::new();
    for (value, text) in labels {
        let value = u64::from(*value as u32);
        let text = text.as_bytes().to_vec();
        let length = text.len() as u64 + 1;
        entries.push(Entry {
            offset,
            value,
            text,
        });
        offset += length;
    }
    Block {
        name: name.into(),
        text_length: offset,
        entries,
    }
}

/// The bits of a missing letter, 1 for `.a`.
fn missing_double(letter: u64) -> u64 {
    0x7fe0_0000_0000_0000 + (letter << 40)
}

fn missing_float(letter: u64) -> u64 {
    0x7f00_0000 + 2048 * letter
}

/// Meter, district, days since 1 January 1960, cubic metres used, bar, and a note.
type Row = (&'static str, u64, u64, u64, u64, &'static str);

fn rows() -> Vec<Row> {
    let used = |number: f64| number.to_bits();
    let bar = |number: f32| u64::from(number.to_bits());
    vec![
        ("M-10417", 1, 24_409, used(9.7), bar(3.5), ""),
        ("M-10418", 1, 24_409, used(9.0), bar(3.25), "glass cracked"),
        ("M-10533", 1, 24_409, used(12.25), bar(3.0), ""),
        (
            "M-20020",
            2,
            24_410,
            missing_double(1),
            missing_float(0),
            "nobody at home",
        ),
        (
            "M-20021",
            2,
            24_410,
            used(0.0),
            bar(4.125),
            "house empty, tap closed",
        ),
        ("M-20107", 2, 24_410, used(31.4), missing_float(2), ""),
        (
            "M-30001",
            3,
            24_411,
            missing_double(2),
            bar(2.75),
            "replaced, see \"M-30002\"",
        ),
        ("M-30002", 3, 24_411, used(4.5), bar(2.75), ""),
    ]
}

pub fn dataset() -> Dataset {
    let mut cells = Vec::new();
    for (meter, district, day, used, bar, note) in rows() {
        cells.push(Cell::Text(meter.into()));
        cells.extend([district, day, used, bar].map(Cell::Bits));
        cells.push(Cell::Text(note.into()));
    }
    Dataset {
        n: rows().len() as u64,
        label: "Meter readings, 30 October to 1 November 2026".into(),
        stamp: " 1 Nov 2026 23:58".into(),
        variables: vec![
            variable(Type::Text(8), "meter", "%-8s", "", "number on the meter"),
            variable(
                Type::Byte,
                "district",
                "%8.0g",
                "district",
                "supply district",
            ),
            variable(Type::Int, "read_on", "%td", "", "day of the reading"),
            variable(
                Type::Double,
                "used",
                "%9.0g",
                "used",
                "cubic metres since the last reading",
            ),
            variable(Type::Float, "pressure", "%5.2f", "", "bar at the tap"),
            variable(Type::Text(30), "note", "%-30s", "", "what the reader saw"),
        ],
        sorted: vec![1],
        cells,
        records: Vec::new(),
        blocks: vec![
            block(
                "district",
                &[(1, "Harbour"), (2, "Old Town"), (3, "Hillside")],
            ),
            block(
                "used",
                &[
                    (9, "meter stopped, estimate"),
                    (2_147_483_622, "not read"),
                    (2_147_483_623, "meter replaced"),
                ],
            ),
        ],
    }
}
