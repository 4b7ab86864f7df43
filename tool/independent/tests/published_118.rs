//! Edition 118 by the public help page dta_118: a file written out here byte by byte, in both byte orders, and what is read of it.

use independent::dataset::{dataset, Block, Cell, Dataset, Entry, Record, Type, Variable};
use independent::questions::{ask, numbers, Answer, Question, Span};
use independent::writer::rewritten;
use independent::{check, line, Layout};

/// Where the parts stand, counted by hand from the widths of the page.
const POSITIONS: [u64; 14] = [
    0, 163, 286, 323, 602, 629, 762, 1059, 1736, 2048, 2079, 2120, 2327, 2339,
];

/// Bytes and then zeros.
fn field(text: &str, zeros: usize) -> Vec<u8> {
    [text.as_bytes(), &vec![0; zeros]].concat()
}

/// A strL and a byte, two observations: the second refers to the long string of the first.
fn most_significant_first() -> Vec<u8> {
    let map = POSITIONS.map(u64::to_be_bytes).concat();
    [
        &b"<stata_dta><header><release>118</release>"[..],
        b"<byteorder>MSF</byteorder><K>\x00\x02</K>",
        b"<N>\x00\x00\x00\x00\x00\x00\x00\x02</N>",
        b"<label>\x00\x05\xc3\x9cber</label>",
        b"<timestamp>\x11 1 Nov 2026 23:58</timestamp></header>",
        b"<map>",
        &map,
        b"</map><variable_types>\x80\x00\xff\xfa</variable_types>",
        b"<varnames>",
        &field("note", 125),
        &field("x", 128),
        b"</varnames><sortlist>\x00\x02\x00\x00\x00\x00</sortlist><formats>",
        &field("%9s", 54),
        &field("%8.0g", 52),
        b"</formats><value_label_names>",
        &field("", 129),
        &field("yn", 127),
        b"</value_label_names><variable_labels>",
        &field("", 321),
        &field("\u{e9}", 319),
        b"</variable_labels><characteristics><ch>\x00\x00\x01\x08",
        &field("_dta", 125),
        &field("note1", 124),
        b"hello\x00</ch></characteristics>",
        b"<data>\x00\x01\x00\x00\x00\x00\x00\x01\x01",
        b"\x00\x01\x00\x00\x00\x00\x00\x01\x66</data>",
        b"<strls>GSO\x00\x00\x00\x01\x00\x00\x00\x00\x00\x00\x00\x01\x82",
        b"\x00\x00\x00\x06world\x00</strls>",
        b"<value_labels><lbl>\x00\x00\x00\x1f",
        &field("yn", 127 + 3),
        b"\x00\x00\x00\x02\x00\x00\x00\x07\x00\x00\x00\x00\x00\x00\x00\x03",
        b"\x00\x00\x00\x00\x00\x00\x00\x01no\x00yes\x00",
        b"</lbl></value_labels></stata_dta>",
    ]
    .concat()
}

/// The same, least significant byte first.
fn least_significant_first() -> Vec<u8> {
    let map = POSITIONS.map(u64::to_le_bytes).concat();
    [
        &b"<stata_dta><header><release>118</release>"[..],
        b"<byteorder>LSF</byteorder><K>\x02\x00</K>",
        b"<N>\x02\x00\x00\x00\x00\x00\x00\x00</N>",
        b"<label>\x05\x00\xc3\x9cber</label>",
        b"<timestamp>\x11 1 Nov 2026 23:58</timestamp></header>",
        b"<map>",
        &map,
        b"</map><variable_types>\x00\x80\xfa\xff</variable_types>",
        b"<varnames>",
        &field("note", 125),
        &field("x", 128),
        b"</varnames><sortlist>\x02\x00\x00\x00\x00\x00</sortlist><formats>",
        &field("%9s", 54),
        &field("%8.0g", 52),
        b"</formats><value_label_names>",
        &field("", 129),
        &field("yn", 127),
        b"</value_label_names><variable_labels>",
        &field("", 321),
        &field("\u{e9}", 319),
        b"</variable_labels><characteristics><ch>\x08\x01\x00\x00",
        &field("_dta", 125),
        &field("note1", 124),
        b"hello\x00</ch></characteristics>",
        b"<data>\x01\x00\x01\x00\x00\x00\x00\x00\x01",
        b"\x01\x00\x01\x00\x00\x00\x00\x00\x66</data>",
        b"<strls>GSO\x01\x00\x00\x00\x01\x00\x00\x00\x00\x00\x00\x00\x82",
        b"\x06\x00\x00\x00world\x00</strls>",
        b"<value_labels><lbl>\x1f\x00\x00\x00",
        &field("yn", 127 + 3),
        b"\x02\x00\x00\x00\x07\x00\x00\x00\x00\x00\x00\x00\x03\x00\x00\x00",
        b"\x00\x00\x00\x00\x01\x00\x00\x00no\x00yes\x00",
        b"</lbl></value_labels></stata_dta>",
    ]
    .concat()
}

fn both() -> [(u8, &'static str, Vec<u8>); 2] {
    [
        (1, "MSF", most_significant_first()),
        (2, "LSF", least_significant_first()),
    ]
}

/// They are the cases of that name, which the proved check and the definitions are held to.
#[test]
fn the_cases_are_these_bytes() {
    for (_, order, file) in both() {
        let name = format!("118-{}-published.dta", order.to_lowercase());
        let cases = concat!(env!("CARGO_MANIFEST_DIR"), "/../../tests/cases");
        let case = std::fs::read(std::path::Path::new(cases).join(name)).unwrap();
        assert!(case == file, "{order}");
    }
}

/// What the bytes above say.
fn due() -> Dataset {
    let variable = |of, name: &str, format: &str, set: &str, label: &str| Variable {
        of,
        name: name.into(),
        format: format.into(),
        set: set.into(),
        label: label.into(),
    };
    let entry = |offset, value, text: &str| Entry {
        offset,
        value,
        text: text.into(),
    };
    let reference = Cell::Reference { v: 1, o: 1 };
    Dataset {
        n: 2,
        label: "\u{dc}ber".into(),
        stamp: " 1 Nov 2026 23:58".into(),
        variables: vec![
            variable(Type::Strl, "note", "%9s", "", ""),
            variable(Type::Byte, "x", "%8.0g", "yn", "\u{e9}"),
        ],
        sorted: vec![2],
        cells: vec![
            reference.clone(),
            Cell::Bits(1),
            reference,
            Cell::Bits(0x66),
        ],
        records: vec![Record {
            v: 1,
            o: 1,
            kind: 130,
            contents: b"world\0".to_vec(),
        }],
        blocks: vec![Block {
            name: b"yn".to_vec(),
            text_length: 7,
            entries: vec![entry(0, 0, "no"), entry(3, 1, "yes")],
        }],
    }
}

#[test]
fn it_is_accepted_and_says_what_was_written() {
    for (code, name, file) in both() {
        assert_eq!(line(&file), format!("118 {name} 2 2 2339"));
        let layout = Layout {
            edition: 118,
            byte_order: code,
            k: 2,
            n: 2,
            positions: POSITIONS,
        };
        assert_eq!(check(&file), Ok(layout.clone()));
        assert_eq!(dataset(&file, &layout), due());
    }
}

#[test]
fn questions_name_the_places() {
    for (_, _, file) in both() {
        let layout = numbers(&check(&file).expect("accepted"));
        let text = |place, length| Answer::Text(Span { place, length });
        let contents = |place, length| Answer::Long {
            kind: 130,
            contents: Span { place, length },
        };
        for (question, due) in [
            (Question::N, Answer::Number(2)),
            (Question::Label, text(100, 5)),
            (Question::Stamp, text(125, 17)),
            (Question::Name(2), text(323 + 10 + 129, 1)),
            (Question::Format(2), text(629 + 9 + 57, 5)),
            (Question::Set(2), text(762 + 19 + 129, 2)),
            (Question::VarLabel(2), text(1059 + 17 + 321, 2)),
            (Question::Sort(2), Answer::Number(1)),
            (Question::Long(1, 1), contents(2079 + 7 + 20, 6)),
            (Question::Long(1, 2), contents(2079 + 7 + 20, 6)),
            (
                Question::Words(2, 1),
                Answer::Words(Some(Span {
                    place: 2120 + 14 + 5 + 136 + 8 + 16 + 3,
                    length: 3,
                })),
            ),
            (Question::Words(2, 2), Answer::Words(None)),
        ] {
            assert_eq!(ask(&file, &layout, question), due, "{question:?}");
        }
    }
}

/// Without its characteristic, which rewriting drops, it is written as it stands here, from either byte order; the map, too.
#[test]
fn it_is_written_as_it_stands() {
    let start = 1736 + "<characteristics>".len();
    let dropped = 277;
    for (code, _, due) in both() {
        let mut due = due;
        due.splice(start..start + dropped, []);
        for (item, position) in POSITIONS.iter().enumerate().skip(9) {
            let moved = position - dropped as u64;
            let bytes = match code {
                1 => moved.to_be_bytes(),
                _ => moved.to_le_bytes(),
            };
            due[168 + 8 * item..][..8].copy_from_slice(&bytes);
        }
        for (_, _, file) in both() {
            let written = rewritten(&file, 118, u64::from(code), u64::MAX);
            assert!(written.as_ref() == Ok(&due));
        }
    }
}

/// Each tag, and each byte of a number of the header, is read.
#[test]
fn no_byte_of_the_header_may_be_another() {
    // The label's and the stamp's bytes are texts, and may be any but zero.
    let texts = [100..105, 125..142];
    for (_, _, file) in both() {
        for place in 0..163 {
            let mut other = file.clone();
            other[place] ^= 0x80;
            let is_text = texts.iter().any(|text| text.contains(&place));
            assert_eq!(check(&other).is_ok(), is_text, "{place}");
        }
    }
}
