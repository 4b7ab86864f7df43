//! Files that are timed: edition 117, least significant byte first.

/// A file of about a size.
type OfSize = fn(usize) -> Vec<u8>;

/// A file of its own size.
type Fixed = fn() -> Vec<u8>;

/// Files of about a size, which hostile ones are compared with.
pub const ORDINARY: [(&str, OfSize); 4] = [
    ("numbers", numbers),
    ("texts", texts),
    ("long strings", long_strings),
    ("labels", labels),
];

/// Files that are rewritten in 118, too.
pub const IN_BOTH: [(&str, OfSize); 3] = [
    ("numbers", numbers),
    ("texts", texts),
    ("long strings", long_strings),
];

/// Files that are told beside them: short long strings, variables with label sets, and other mixes of numbers, as what turning their bytes costs depends on how many
/// of one width stand beside each other.
pub const BESIDE: [(&str, OfSize); 5] = [
    ("long strings of 20 bytes", short_strings),
    ("labelled bytes", labelled_bytes),
    ("numbers, no two alike", no_two_alike),
    ("numbers, three alike", threes),
    ("ints and bytes in turn", ints_and_bytes),
];

/// Files that would be slow where work is done more than once for a byte.
pub const HOSTILE: [(&str, Fixed); 5] = [
    ("65,536 labels on one text", one_text),
    ("32,767 on one text", all_on_one_text),
    ("32,767 label sets", many_sets),
    ("32,767 variables, all sorted", many_variables),
    ("100,000 crossed long strings", crossed),
];

const STRL: u16 = 32768;
const DOUBLE: u16 = 65526;
const FLOAT: u16 = 65527;
const LONG: u16 = 65528;
const INT: u16 = 65529;
const BYTE: u16 = 65530;

fn width(code: u16) -> usize {
    match code {
        STRL | DOUBLE => 8,
        FLOAT | LONG => 4,
        INT => 2,
        BYTE => 1,
        text => usize::from(text),
    }
}

fn row_width(types: &[u16]) -> usize {
    types.iter().map(|code| width(*code)).sum()
}

/// What a file is made of. Variables are named v1, v2, ..
struct Made {
    types: Vec<u16>,
    n: usize,
    sort: Vec<u16>,
    /// The names of the first variables' label sets; the others have none.
    sets: Vec<String>,
    data: Vec<u8>,
    strls: Vec<u8>,
    labels: Vec<u8>,
}

impl Made {
    fn new(types: Vec<u16>, n: usize) -> Made {
        Made {
            types,
            n,
            sort: Vec::new(),
            sets: Vec::new(),
            data: Vec::new(),
            strls: Vec::new(),
            labels: Vec::new(),
        }
    }

    fn file(&self) -> Vec<u8> {
        let k = self.types.len();
        let mut file = Vec::with_capacity(
            self.data.len() + self.strls.len() + self.labels.len() + 400 * k + 2_000,
        );
        let mut positions = vec![0];
        file.extend(b"<stata_dta><header><release>117</release><byteorder>LSF</byteorder><K>");
        file.extend((k as u16).to_le_bytes());
        file.extend(b"</K><N>");
        file.extend((self.n as u32).to_le_bytes());
        file.extend(b"</N><label>\0</label><timestamp>\0</timestamp></header>");
        positions.push(file.len());
        file.extend(b"<map>");
        let map = file.len();
        file.extend([0; 14 * 8]);
        file.extend(b"</map>");
        let mut part = |tag: &str, contents: &[u8]| {
            positions.push(file.len());
            file.extend(format!("<{tag}>").bytes());
            file.extend(contents);
            file.extend(format!("</{tag}>").bytes());
        };
        let numbers = |numbers: &[u16]| -> Vec<u8> {
            numbers
                .iter()
                .flat_map(|number| number.to_le_bytes())
                .collect()
        };
        part("variable_types", &numbers(&self.types));
        part("varnames", &fields(k, 33, |i| format!("v{i}")));
        let mut sort = self.sort.clone();
        sort.resize(k + 1, 0);
        part("sortlist", &numbers(&sort));
        part("formats", &fields(k, 49, |_| "%9.0g".to_string()));
        let set = |i: usize| self.sets.get(i - 1).cloned().unwrap_or_default();
        part("value_label_names", &fields(k, 33, set));
        part("variable_labels", &vec![0; 81 * k]);
        part("characteristics", b"");
        part("data", &self.data);
        part("strls", &self.strls);
        part("value_labels", &self.labels);
        positions.push(file.len());
        file.extend(b"</stata_dta>");
        positions.push(file.len());
        for (at, position) in positions.iter().enumerate() {
            file[map + 8 * at..][..8].copy_from_slice(&(*position as u64).to_le_bytes());
        }
        file
    }
}

fn fields(k: usize, width: usize, text: impl Fn(usize) -> String) -> Vec<u8> {
    let mut fields = vec![0; k * width];
    for (at, field) in fields.chunks_exact_mut(width).enumerate() {
        let text = text(at + 1);
        field[..text.len()].copy_from_slice(text.as_bytes());
    }
    fields
}

/// Numbers that look random, always the same.
struct Numbers(u64);

impl Numbers {
    fn next(&mut self) -> u64 {
        self.0 = self
            .0
            .wrapping_mul(6364136223846793005)
            .wrapping_add(1442695040888963407);
        self.0 >> 33
    }
}

fn numbers(size: usize) -> Vec<u8> {
    numeric(size, &[BYTE, INT, LONG, FLOAT, DOUBLE])
}

fn no_two_alike(size: usize) -> Vec<u8> {
    numeric(size, &[BYTE, INT, LONG, DOUBLE])
}

fn threes(size: usize) -> Vec<u8> {
    numeric(
        size,
        &[LONG, FLOAT, LONG, DOUBLE, DOUBLE, DOUBLE, INT, INT, INT],
    )
}

fn ints_and_bytes(size: usize) -> Vec<u8> {
    numeric(size, &[INT, BYTE])
}

/// Rows of these types, four times.
fn numeric(size: usize, types: &[u16]) -> Vec<u8> {
    let types = types.repeat(4);
    let n = size / row_width(&types);
    let mut made = Made::new(types.clone(), n);
    let mut next = Numbers(1);
    made.data = Vec::with_capacity(size);
    for _ in 0..n {
        for of in &types {
            let number = next.next();
            match *of {
                BYTE => made.data.push((number % 128) as u8),
                INT => made.data.extend((number as u16 % 32_000).to_le_bytes()),
                LONG => made.data.extend((number as u32).to_le_bytes()),
                FLOAT => made.data.extend((number as f32 / 7.0).to_le_bytes()),
                _ => made.data.extend((number as f64 / 7.0).to_le_bytes()),
            }
        }
    }
    made.file()
}

fn texts(size: usize) -> Vec<u8> {
    let types = vec![20, 12, 80, 244, 40, LONG];
    let n = size / row_width(&types);
    let mut made = Made::new(types, n);
    let mut next = Numbers(2);
    for _ in 0..n {
        for width in [20, 12, 80, 244, 40] {
            let full = 1 + next.next() as usize % width;
            let start = made.data.len();
            made.data
                .resize(start + full, b'a' + (next.next() % 26) as u8);
            made.data.resize(start + width, 0);
        }
        made.data
            .extend((next.next() as u32 % 1_000_000).to_le_bytes());
    }
    made.file()
}

/// A cell of strL variable v in observation o, and its record.
fn put_long(made: &mut Made, v: usize, o: usize, length: usize) {
    let link = [(v as u32).to_le_bytes(), (o as u32).to_le_bytes()].concat();
    made.data.extend(&link);
    made.strls.extend(b"GSO");
    made.strls.extend(&link);
    made.strls.push(130);
    made.strls.extend((length as u32 + 1).to_le_bytes());
    let end = made.strls.len() + length;
    made.strls.resize(end, b'x');
    made.strls.push(0);
}

fn long_strings(size: usize) -> Vec<u8> {
    let n = size / (2 * 8 + 4 + 2 * (16 + 200));
    let mut made = Made::new(vec![STRL, STRL, LONG], n);
    let mut next = Numbers(3);
    for o in 1..=n {
        for v in 1..=2 {
            put_long(&mut made, v, o, 100 + next.next() as usize % 200);
        }
        made.data.extend((o as u32).to_le_bytes());
    }
    made.file()
}

/// As the crossed ones below, but each names itself.
fn short_strings(size: usize) -> Vec<u8> {
    let n = size / (2 * (8 + 16 + 20));
    let mut made = Made::new(vec![STRL, STRL], n);
    for o in 1..=n {
        for v in 1..=2 {
            put_long(&mut made, v, o, 20);
        }
    }
    made.file()
}

/// A label block of a name, with those offsets into a text, and the values from 0 on.
fn put_block(made: &mut Made, name: &str, offsets: &[u32], text: &[u8]) {
    let n = offsets.len();
    made.labels.extend(b"<lbl>");
    made.labels
        .extend((8 + 8 * n as u32 + text.len() as u32).to_le_bytes());
    made.labels.extend(name.bytes());
    made.labels.resize(made.labels.len() + 36 - name.len(), 0);
    made.labels.extend((n as u32).to_le_bytes());
    made.labels.extend((text.len() as u32).to_le_bytes());
    made.labels
        .extend(offsets.iter().flat_map(|offset| offset.to_le_bytes()));
    made.labels.extend((0..n as u32).flat_map(u32::to_le_bytes));
    made.labels.extend(text);
    made.labels.extend(b"</lbl>");
}

fn labels(size: usize) -> Vec<u8> {
    let mut made = Made::new(vec![BYTE, LONG], 1_000);
    for o in 0..1_000_u32 {
        made.data.push((o % 100) as u8);
        made.data.extend(o.to_le_bytes());
    }
    let offsets: Vec<u32> = (0..65_536).map(|entry| 20 * entry).collect();
    let text: Vec<u8> = (0..65_536)
        .flat_map(|entry| format!("the label of {entry:06}\0").into_bytes())
        .collect();
    let mut set = 0;
    while made.labels.len() < size {
        set += 1;
        put_block(&mut made, &format!("set{set}"), &offsets, &text);
    }
    made.file()
}

/// Twenty variables over five label sets of twelve labels; two of fourteen values have none.
fn labelled_bytes(size: usize) -> Vec<u8> {
    let k = 20;
    let mut made = Made::new(vec![BYTE; k], size / k);
    made.sets = (0..k).map(|at| format!("set{}", at % 5)).collect();
    let mut next = Numbers(5);
    made.data = (0..made.n * k).map(|_| (next.next() % 14) as u8).collect();
    let offsets: Vec<u32> = (0..12).map(|entry| 9 * entry).collect();
    let text: Vec<u8> = (0..12)
        .flat_map(|entry| format!("label {entry:02}\0").into_bytes())
        .collect();
    for set in 0..5 {
        put_block(&mut made, &format!("set{set}"), &offsets, &text);
    }
    made.file()
}

/// A block of 65,536 labels that stand on one text.
fn put_one_text(made: &mut Made) {
    let mut text = vec![b'x'; 5_308_416];
    text[5_308_415] = 0;
    let offsets: Vec<u32> = (0..65_536).collect();
    put_block(made, "set", &offsets, &text);
}

fn one_text() -> Vec<u8> {
    let n = 2_000;
    let mut made = Made::new(vec![INT], n);
    made.sets = vec!["set".to_string()];
    made.data = (0..n as u16).flat_map(|o| (16 * o).to_le_bytes()).collect();
    put_one_text(&mut made);
    made.file()
}

fn all_on_one_text() -> Vec<u8> {
    let k = 32_767;
    let mut made = Made::new(vec![BYTE; k], 1);
    made.sets = vec!["set".to_string(); k];
    made.data = (0..k).map(|at| (at % 100) as u8).collect();
    put_one_text(&mut made);
    made.file()
}

/// Each variable has a label set of its own; the sets stand in the other order.
fn many_sets() -> Vec<u8> {
    let k = 32_767;
    let mut made = Made::new(vec![BYTE; k], 1);
    made.sets = (1..=k).map(|i| format!("set{i}")).collect();
    made.data = vec![1; k];
    for set in made.sets.clone().iter().rev() {
        put_block(&mut made, set, &[0, 3], b"no\0yes\0");
    }
    made.file()
}

fn many_variables() -> Vec<u8> {
    let k = 32_767;
    let mut made = Made::new(vec![BYTE; k], 1);
    made.sort = (1..=k as u16).rev().collect();
    made.data = vec![1; k];
    made.file()
}

/// Two strL variables: those of the first name themselves, those of the second are scattered over them.
fn crossed() -> Vec<u8> {
    let n = 50_000;
    let mut made = Made::new(vec![STRL, STRL], n);
    let mut next = Numbers(4);
    for o in 1..=n {
        put_long(&mut made, 1, o, 20);
        let to = 1 + next.next() as u32 % o as u32;
        made.data.extend(1_u32.to_le_bytes());
        made.data.extend(to.to_le_bytes());
    }
    made.file()
}
