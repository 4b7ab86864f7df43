//! The reader against the stated cases, and against the paper's own statements.

use independent::stated::{case, differing};
use independent::{check, line, Layout};

const OPENING_LENGTH: usize = 41;

fn accepted(file: &[u8]) -> Layout {
    check(file).expect("the file is accepted")
}

// Files made here, by the paper.

#[derive(Clone, Copy)]
enum Order {
    Msf,
    Lsf,
}

impl Order {
    fn bytes(self, number: u64, width: usize) -> Vec<u8> {
        match self {
            Order::Msf => number.to_be_bytes()[8 - width..].to_vec(),
            Order::Lsf => number.to_le_bytes()[..width].to_vec(),
        }
    }
}

fn field(text: &str, width: usize) -> Vec<u8> {
    let mut field = text.as_bytes().to_vec();
    field.resize(width, 0);
    field
}

/// An old edition with one byte variable and one observation, up to the expansion blocks.
fn old_beginning(edition: u8, order: Order) -> Vec<u8> {
    let code = match order {
        Order::Msf => 1,
        Order::Lsf => 2,
    };
    let mut file = vec![edition, code, 1, 1];
    file.extend(order.bytes(1, 2));
    file.extend(order.bytes(1, 4));
    file.extend(field("", 81));
    file.extend(field("", 18));
    file.push(251);
    file.extend(field("x", 33));
    file.extend(field("", 4));
    file.extend(field("%8.0g", if edition == 113 { 12 } else { 49 }));
    file.extend(field("", 33));
    file.extend(field("", 81));
    file
}

/// The end of the expansion blocks and the observation.
fn old_data(file: &mut Vec<u8>) {
    file.extend([0; 5]);
    file.push(7);
}

/// 003's table for yes and no, with those values.
fn yes_no(order: Order, values: [u32; 2]) -> Vec<u8> {
    let numbers = [2, 7, 0, 4, values[0], values[1]];
    let mut table: Vec<u8> = numbers
        .iter()
        .flat_map(|number| order.bytes(u64::from(*number), 4))
        .collect();
    table.extend(b"yes\0no\0");
    table
}

fn label_block(order: Order, table: &[u8]) -> Vec<u8> {
    let mut block = order.bytes(table.len() as u64, 4);
    block.extend(field("yesno", 33));
    block.extend([0; 3]);
    block.extend(table);
    block
}

fn old_with_table(edition: u8, order: Order, table: &[u8]) -> Vec<u8> {
    let mut file = old_beginning(edition, order);
    old_data(&mut file);
    file.extend(label_block(order, table));
    file
}

const P14: [u64; 14] = [
    0, 153, 276, 313, 400, 427, 544, 649, 846, 881, 900, 915, 944, 956,
];

/// P14: 117, MSF, float and int, N = 1, 17-byte stamp, names myfloat and myint, all else empty.
fn p14() -> Vec<u8> {
    let order = Order::Msf;
    let mut file = b"<stata_dta><header><release>117</release>".to_vec();
    file.extend(b"<byteorder>MSF</byteorder><K>\0\x02</K><N>\0\0\0\x01</N>");
    file.extend(b"<label>\0</label><timestamp>\x1110 Jul 2013 14:23</timestamp></header>");
    file.extend(b"<map>");
    file.extend(P14.iter().flat_map(|position| order.bytes(*position, 8)));
    file.extend(b"</map><variable_types>");
    file.extend([0xff, 0xf7, 0xff, 0xf9]);
    file.extend(b"</variable_types><varnames>");
    file.extend(field("myfloat", 33));
    file.extend(field("myint", 33));
    file.extend(b"</varnames><sortlist>");
    file.extend(field("", 6));
    file.extend(b"</sortlist><formats>");
    file.extend(field("%9.0g", 49));
    file.extend(field("%8.0g", 49));
    file.extend(b"</formats><value_label_names>");
    file.extend(field("", 66));
    file.extend(b"</value_label_names><variable_labels>");
    file.extend(field("", 162));
    file.extend(b"</variable_labels><characteristics></characteristics><data>");
    file.extend(field("", 6));
    file.extend(b"</data><strls></strls><value_labels></value_labels></stata_dta>");
    file
}

// The stated cases.

#[test]
fn every_case_gets_its_line() {
    let wrong = differing(line);
    assert!(wrong.is_empty(), "{wrong:#?}");
}

// The paper's examples.

#[test]
fn p14_has_its_line_and_positions() {
    let file = p14();
    assert_eq!(line(&file), "117 MSF 2 1 956");
    let layout = Layout {
        edition: 117,
        byte_order: 1,
        k: 2,
        n: 1,
        positions: P14,
    };
    assert_eq!(check(&file), Ok(layout));
}

#[test]
fn old_positions_are_those_of_tags_without_bytes() {
    let table = yes_no(Order::Lsf, [1, 2]);
    let file = old_with_table(114, Order::Lsf, &table);
    let layout = Layout {
        edition: 114,
        byte_order: 2,
        k: 1,
        n: 1,
        positions: [
            0, 109, 109, 110, 143, 147, 196, 229, 310, 315, 316, 316, 387, 387,
        ],
    };
    assert_eq!(check(&file), Ok(layout));
}

#[test]
fn smallest_inputs() {
    assert_eq!(line(&[]), "refused 2");
    assert_eq!(line(&[114]), "refused 3");
    assert_eq!(line(&[113]), "refused 3");
    assert_eq!(line(&[115]), "refused 3");
    for byte in [0, 112, 116, 117, 118, 119, b'<', 255] {
        assert_eq!(line(&[byte]), "refused 2");
    }
    for (release, due) in [(116, 2), (117, 3), (118, 3), (119, 2)] {
        let opening = format!("<stata_dta><header><release>{release}</release>");
        assert_eq!(line(opening.as_bytes()), format!("refused {due}"));
        assert_eq!(line(&opening.as_bytes()[..40]), "refused 2");
    }
}

#[test]
fn label_values_ascend_as_signed() {
    for edition in [113, 114, 115] {
        for order in [Order::Msf, Order::Lsf] {
            let refusal =
                |values| check(&old_with_table(edition, order, &yes_no(order, values))).err();
            let minus_one = u32::MAX;
            assert_eq!(refusal([1, 2]), None);
            assert_eq!(refusal([2, 1]), Some(12));
            assert_eq!(refusal([1, 1]), Some(12));
            assert_eq!(refusal([minus_one, 1]), None);
            assert_eq!(refusal([1, minus_one]), Some(12));
        }
    }
}

#[test]
fn label_table_rules() {
    let order = Order::Msf;
    let refusal = |table: &[u8]| check(&old_with_table(113, order, table)).err();
    let right = yes_no(order, [1, 2]);
    assert_eq!(right.len(), 31);
    assert_eq!(refusal(&right), None);
    for length in 0..31 {
        assert_eq!(refusal(&right[..length]), Some(12), "length {length}");
    }
    let with = |place: usize, byte: u8| {
        let mut table = right.clone();
        table[place] = byte;
        refusal(&table)
    };
    assert_eq!(with(11, 6), None, "an offset at the last zero");
    assert_eq!(with(11, 7), Some(12), "an offset at the text's end");
    assert_eq!(with(30, 1), Some(12), "no zero after the second offset");
    assert_eq!(with(27, 1), None, "a zero inside the text is enough");
}

#[test]
fn label_table_bounds() {
    let order = Order::Lsf;
    let table = |n: u64, text_length: u64| {
        let mut table = order.bytes(n, 4);
        table.extend(order.bytes(text_length, 4));
        table.extend((0..n).flat_map(|_| order.bytes(0, 4)));
        table.extend((0..n).flat_map(|value| order.bytes(value, 4)));
        table.resize(table.len() + text_length as usize, 0);
        check(&old_with_table(114, order, &table)).err()
    };
    assert_eq!(table(65_536, 1), None);
    assert_eq!(table(65_537, 1), Some(12));
    assert_eq!(table(0, 5_308_416), None);
    assert_eq!(table(0, 5_308_417), Some(12));
}

#[test]
fn type_codes_and_widths() {
    for code in 0..=255u8 {
        let width = match code {
            1..=244 => usize::from(code),
            251 => 1,
            252 => 2,
            253 | 254 => 4,
            255 => 8,
            _ => 0,
        };
        let mut file = old_beginning(114, Order::Msf);
        file[109] = code;
        file.resize(file.len() + 5 + width, 0);
        let refusal = if width == 0 { Some(6) } else { None };
        assert_eq!(check(&file).err(), refusal, "code {code}");
        if width > 0 {
            file.pop();
            assert_eq!(check(&file).err(), Some(3), "code {code}");
        }
    }
    let mut file = p14();
    for code in 0..=65535u16 {
        file[292..294].copy_from_slice(&code.to_be_bytes());
        let known = matches!(code, 1..=2045 | 32768 | 65526..=65530);
        assert_eq!(check(&file) != Err(6), known, "code {code}");
    }
}

// The order of refusals.

#[test]
fn content_is_judged_before_its_closing_tag() {
    // The content's place, a wrong content, the closing tag's place, the number.
    let parts: [(usize, Vec<u8>, usize, u8); 11] = [
        (52, b"XSF".to_vec(), 55, 5),
        (70, vec![0x80, 0], 72, 5),
        (79, vec![0x80, 0, 0, 0], 83, 5),
        (94, vec![81], 95, 5),
        (114, vec![18], 132, 5),
        (292, vec![0, 0], 296, 6),
        (323, vec![0], 389, 7),
        (410, vec![0, 3], 416, 8),
        (436, vec![b'x'; 49], 534, 7),
        (563, vec![b'x'; 33], 629, 7),
        (666, vec![b'x'; 81], 828, 7),
    ];
    for (place, wrong, close, number) in parts {
        let mut file = p14();
        assert_eq!(file[close..close + 2], *b"</", "place {place}");
        file[close] = b'.';
        assert_eq!(check(&file), Err(4), "place {place}");
        file[place..place + wrong.len()].copy_from_slice(&wrong);
        assert_eq!(check(&file), Err(number), "place {place}");
    }
}

#[test]
fn each_map_position_is_judged_last() {
    for item in 0..14 {
        for byte in 0..8 {
            let mut file = p14();
            file[158 + 8 * item + byte] ^= 1;
            assert_eq!(check(&file), Err(10), "item {item}, byte {byte}");
            file.push(0);
            assert_eq!(check(&file), Err(13), "item {item}, byte {byte}");
            file[944] ^= 1;
            assert_eq!(check(&file), Err(4), "item {item}, byte {byte}");
        }
    }
}

#[test]
fn bytes_after_the_end_are_refused_though_the_map_counts_them() {
    let mut file = p14();
    file.push(b'\n');
    file[158 + 8 * 13 + 7] += 1;
    assert_eq!(check(&file), Err(13));
}

#[test]
fn no_observations_without_variables() {
    for edition in [113, 114, 115] {
        let mut file = vec![edition, 1, 1, 1, 0, 0, 0, 0, 0, 1];
        file.resize(109 + 2 + 5, 0);
        assert_eq!(check(&file), Err(5));
        file[9] = 0;
        assert_eq!(check(&file).err(), None);
    }
    let mut file = p14();
    let k = 41 + 26 + 3;
    assert_eq!(file[k..k + 2], [0, 2]);
    file[k + 1] = 0;
    assert_eq!(check(&file), Err(5));
}

#[test]
fn old_header_is_read_whole_before_it_is_judged() {
    let mut file = old_beginning(114, Order::Msf);
    old_data(&mut file);
    assert_eq!(check(&file).err(), None);
    file[1] = 3;
    assert_eq!(check(&file[..108]), Err(3));
    assert_eq!(check(&file[..109]), Err(5));
}

#[test]
fn label_and_stamp_of_117_take_the_length_byte_first() {
    let label = 41 + 26 + 9 + 11 + 7;
    let stamp = label + 1 + 8 + 11;
    let mut file = p14();
    assert_eq!(file[label], 0);
    assert_eq!(file[stamp], 17);
    for (place, length, cut) in [
        (label, 81, 5),
        (label, 80, 3),
        (stamp, 16, 5),
        (stamp, 17, 3),
    ] {
        let before = file[place];
        file[place] = length;
        assert_eq!(check(&file[..place]), Err(3));
        assert_eq!(check(&file[..=place]), Err(cut), "length {length}");
        file[place] = before;
    }
    file[stamp + 17] = 0;
    assert_eq!(check(&file[..stamp + 17]), Err(3));
    assert_eq!(check(&file[..stamp + 18]), Err(5));
}

#[test]
fn expansion_blocks() {
    for order in [Order::Msf, Order::Lsf] {
        let refusal = |kind: u8, length: u64, contents: usize| {
            let mut file = old_beginning(113, order);
            file.push(kind);
            file.extend(order.bytes(length, 4));
            file.resize(file.len() + contents, 9);
            old_data(&mut file);
            check(&file).err()
        };
        assert_eq!(refusal(1, 4, 4), None);
        assert_eq!(refusal(200, 0, 0), None, "skipped though it is empty");
        assert_eq!(refusal(0, 4, 4), Some(9));
        assert_eq!(refusal(0, u64::from(u32::MAX), 0), Some(9));
        assert_eq!(refusal(1, u64::from(u32::MAX), 0), Some(3));
    }
}

#[test]
fn closing_tag_is_due_where_no_item_is_next() {
    for (close, mark) in [(846 + 17, "<ch>"), (900 + 7, "GSO"), (915 + 14, "<lbl>")] {
        let file = p14();
        assert_eq!(file[close..close + 2], *b"</");
        let mut nearly = file[..close].to_vec();
        nearly.extend(&mark.as_bytes()[..mark.len() - 1]);
        assert_eq!(check(&nearly), Err(3), "{mark}: cut");
        nearly.resize(close + 18, b'.');
        assert_eq!(check(&nearly), Err(4), "{mark}: another byte");
    }
}

#[test]
fn strls_are_judged_after_all_records_and_before_the_closing_tag() {
    let file = case("117-msf-typical");
    let layout = accepted(&file);
    let close = layout.positions[11] as usize - 8;
    let mut records = Vec::new();
    let mut at = layout.positions[10] as usize + 7;
    while at < close {
        records.push(at);
        at += 16 + u32::from_be_bytes(file[at + 12..at + 16].try_into().unwrap()) as usize;
    }
    assert_eq!(at, close);
    assert!(records.len() >= 2, "too few records");
    let (first, last) = (records[0], records[records.len() - 1]);

    let mut wrong = file.clone();
    wrong[close] = b'.';
    assert_eq!(check(&wrong), Err(4));
    wrong[first + 11] = 131;
    assert_eq!(check(&wrong), Err(11));
    wrong[last + 12] = 0x7f;
    assert_eq!(check(&wrong), Err(3));

    let mut swapped = file[..first].to_vec();
    swapped.extend(&file[records[1]..*records.get(2).unwrap_or(&close)]);
    swapped.extend(&file[first..records[1]]);
    swapped.extend(&file[swapped.len()..]);
    assert_eq!(swapped.len(), file.len());
    assert_eq!(check(&swapped), Err(11));
}

#[test]
fn label_block_of_a_tagged_edition_is_judged_in_order() {
    let order = Order::Msf;
    let start = 915 + 14;
    let mut file = p14()[..start].to_vec();
    file.extend(b"<lbl>");
    file.extend(label_block(order, &yes_no(order, [1, 2])));
    file.extend(b"</lbl></value_labels></stata_dta>");
    let lengths = [file.len() as u64 - 12, file.len() as u64];
    for (item, length) in [12, 13].iter().zip(lengths) {
        let place = 158 + 8 * item;
        file[place..place + 8].copy_from_slice(&order.bytes(length, 8));
    }
    assert_eq!(check(&file).err(), None);
    let block = start + 5;
    let close = block + 40 + 31;
    file[close] = b'.';
    assert_eq!(check(&file), Err(4), "the closing tag");
    file[block + 40] = 1;
    assert_eq!(check(&file), Err(12), "the table");
    file[block] = 1;
    assert_eq!(check(&file), Err(3), "the table's length");
    file[block + 4] = 0;
    assert_eq!(check(&file), Err(7), "the name");
    assert_eq!(check(&file[..block + 39]), Err(3), "the first 40 bytes");
}

// Cut files.

#[test]
fn no_beginning_of_a_tagged_file_is_accepted() {
    let cases = [
        "117-lsf-small",
        "117-msf-typical",
        "118-lsf-small",
        "118-msf-typical",
    ];
    for file in cases.map(case).into_iter().chain([p14()]) {
        let layout = accepted(&file);
        let records = layout.positions[10] + 7..layout.positions[11];
        for length in 0..file.len() {
            match check(&file[..length]) {
                Err(2) => assert!(length < OPENING_LENGTH, "length {length}"),
                Err(3) => assert!(length >= OPENING_LENGTH, "length {length}"),
                Err(11) => assert!(records.contains(&(length as u64)), "length {length}"),
                other => panic!("length {length}: {other:?}"),
            }
        }
    }
}

#[test]
fn accepted_beginnings_of_old_files_end_at_the_data_or_a_label_block() {
    for (name, order) in [
        ("113-lsf-typical", Order::Lsf),
        ("114-lsf-typical", Order::Lsf),
        ("113-msf-small", Order::Msf),
        ("115-lsf-sort-all", Order::Lsf),
        ("115-msf-fmt-max", Order::Msf),
    ] {
        let file = case(name);
        let layout = accepted(&file);
        let ends = ends_of_old_parts(&file, &layout, order);
        assert_eq!(ends.last(), Some(&file.len()));
        assert!(ends.len() >= 2, "{name}: no label block");
        let lengths: Vec<usize> = (0..=file.len())
            .filter(|length| check(&file[..*length]).is_ok())
            .collect();
        assert_eq!(lengths, ends, "{name}");
    }
}

fn label_table_length(block: &[u8], order: Order) -> usize {
    let length: [u8; 4] = block[..4].try_into().unwrap();
    match order {
        Order::Msf => u32::from_be_bytes(length) as usize,
        Order::Lsf => u32::from_le_bytes(length) as usize,
    }
}

fn ends_of_old_parts(file: &[u8], layout: &Layout, order: Order) -> Vec<usize> {
    let mut ends = vec![layout.positions[10] as usize];
    let mut at = ends[0];
    while at < file.len() {
        at += 40 + label_table_length(&file[at..], order);
        ends.push(at);
    }
    ends
}

// Dead bytes.

fn assert_dead(file: &mut [u8], place: usize) {
    let layout = accepted(file);
    let before = file[place];
    for byte in 0..=255 {
        file[place] = byte;
        assert_eq!(check(file).as_ref(), Ok(&layout), "place {place}");
    }
    file[place] = before;
}

#[test]
fn unused_header_byte_is_dead() {
    for name in [
        "113-lsf-typical",
        "113-msf-small",
        "114-lsf-typical",
        "115-lsf-sort-all",
    ] {
        assert_dead(&mut case(name), 3);
    }
}

#[test]
fn padding_of_a_label_block_is_dead() {
    for (name, order, tags) in [
        ("113-lsf-typical", Order::Lsf, 0),
        ("114-lsf-typical", Order::Lsf, 0),
        ("115-msf-fmt-max", Order::Msf, 0),
        ("117-msf-typical", Order::Msf, 5),
        ("118-lsf-small", Order::Lsf, 5),
    ] {
        let mut file = case(name);
        let layout = accepted(&file);
        let head = if layout.edition == 118 { 136 } else { 40 };
        let (opening, closing) = if tags > 0 { (14, 15) } else { (0, 0) };
        let end = layout.positions[12] as usize - closing;
        let mut at = layout.positions[11] as usize + opening;
        assert!(at < end, "{name}: no label block");
        while at < end {
            at += tags;
            for place in at + head - 3..at + head {
                assert_dead(&mut file, place);
            }
            at += head + label_table_length(&file[at..], order);
            at += if tags > 0 { tags + 1 } else { 0 };
        }
        assert_eq!(at, end, "{name}");
    }
}

// Any bytes.

/// Numbers without a pattern, the same in each run.
struct Noise(u64);

impl Noise {
    fn below(&mut self, bound: usize) -> usize {
        self.0 ^= self.0 << 13;
        self.0 ^= self.0 >> 7;
        self.0 ^= self.0 << 17;
        (self.0 % bound as u64) as usize
    }
}

/// Parts in file order, from the start to the end of the file.
fn assert_well_ordered(file: &[u8]) {
    if let Ok(layout) = check(file) {
        assert!(layout.positions.is_sorted());
        assert_eq!(layout.positions[0], 0);
        assert_eq!(layout.positions[13], file.len() as u64);
    }
}

#[test]
fn damaged_files_are_answered() {
    let mut noise = Noise(0x2545_f491_4f6c_dd1d);
    for name in [
        "113-msf-small",
        "114-lsf-typical",
        "115-lsf-sort-all",
        "117-lsf-small",
        "117-msf-typical",
        "118-lsf-small",
        "118-msf-typical",
    ] {
        let file = case(name);
        for _ in 0..2000 {
            let mut damaged = file.clone();
            for _ in 0..=noise.below(3) {
                let place = noise.below(damaged.len());
                let width = (1 + noise.below(8)).min(damaged.len() - place);
                let byte = [0, 1, 0x7f, 0x80, 0xff][noise.below(5)];
                damaged[place..place + width].fill(byte);
            }
            assert_well_ordered(&damaged);
        }
        for place in 0..file.len().min(1200) {
            let mut damaged = file.clone();
            let width = 4.min(file.len() - place);
            damaged[place..place + width].fill(0xff);
            assert_well_ordered(&damaged);
        }
    }
}
