//! The independent writer: files by hand, the files of tests/, and what a target can't hold.

use independent::dataset::{dataset, outline, Block, Cell, Dataset, Entry, Record, Type, Variable};
use independent::edition::NUMBERS;
use independent::generate::{self, made, Order};
use independent::questions::{ask, numbers, Answer, Question, Span};
use independent::random::Random;
use independent::writer::{held, rewritten, write, Target, Unheld, TARGETS};
use independent::{check, line, stated};
use std::path::Path;

const ENOUGH: u64 = u64::MAX;

/// The result for an output that is long enough.
fn result(file: &[u8], edition: u64, order: u64) -> Result<Vec<u8>, u8> {
    rewritten(file, edition, order, ENOUGH)
}

fn dataset_of(file: &[u8]) -> Dataset {
    dataset(file, &check(file).expect("accepted"))
}

// Files by hand.

#[test]
fn p14_is_itself() {
    let p14 = Path::new(env!("CARGO_MANIFEST_DIR")).join("../../crates/dta_header/stdin");
    let p14 = std::fs::read(p14).unwrap();
    assert_eq!(line(&p14), "117 MSF 2 1 956");
    assert_eq!(result(&p14, 117, 1), Ok(p14));
}

/// The bytes, then so many more.
fn then(bytes: &[u8], more: usize, byte: u8) -> Vec<u8> {
    let mut field = bytes.to_vec();
    field.extend(vec![byte; more]);
    field
}

/// 114, LSF: an int and a text of 3 bytes, two observations, sorted by the second, labels yn. Dead bytes are `dead`.
fn old_by_hand(dead: u8) -> Vec<u8> {
    let entry = [dead, dead];
    [
        &[114, 2, 1, dead, 2, 0, 2, 0, 0, 0][..],
        &then(b"demo\0", 76, dead),
        &then(&[0], 16, dead),
        &[0],
        &[252, 3],
        &then(b"a\0", 31, dead),
        &then(b"bcd\0", 29, dead),
        &[2, 0, 0, 0],
        &entry,
        &then(b"%8.0g\0", 43, dead),
        &then(b"%3s\0", 45, dead),
        &then(b"yn\0", 30, dead),
        &then(b"\0", 32, dead),
        &then(b"first\0", 75, dead),
        &then(b"\0", 80, dead),
        // An expansion block, and their end.
        &[1, 2, 0, 0, 0, dead, dead],
        &[0, 0, 0, 0, 0],
        &[0x34, 0x12, b'x', 0, dead],
        &[0xff, 0x7f, b'x', b'y', b'z'],
        &[33, 0, 0, 0],
        &then(b"yn\0", 30, dead),
        &[dead, dead, dead],
        &[2, 0, 0, 0, 9, 0, 0, 0],
        &[5, 0, 0, 0, 0, 0, 0, 0],
        &[0xff, 0xff, 0xff, 0xff, 1, 0, 0, 0],
        &[b'y', b'e', b's', 0, dead, b'n', b'o', 0, dead],
    ]
    .concat()
}

/// As `old_by_hand`, without expansion blocks and with zeros for dead bytes: 113, MSF.
fn old_rewritten_by_hand() -> Vec<u8> {
    [
        &[113, 1, 1, 1, 0, 2, 0, 0, 0, 2][..],
        &then(b"demo", 77, 0),
        &[0; 18],
        &[252, 3],
        &then(b"a", 32, 0),
        &then(b"bcd", 30, 0),
        &[0, 2, 0, 0, 0, 0],
        b"%8.0g\0\0\0\0\0\0\0",
        b"%3s\0\0\0\0\0\0\0\0\0",
        &then(b"yn", 31, 0),
        &[0; 33],
        &then(b"first", 76, 0),
        &[0; 81],
        &[0; 5],
        &[0x12, 0x34, b'x', 0, 0],
        &[0x7f, 0xff, b'x', b'y', b'z'],
        &[0, 0, 0, 33],
        &then(b"yn", 34, 0),
        &[0, 0, 0, 2, 0, 0, 0, 9],
        &[0, 0, 0, 5, 0, 0, 0, 0],
        &[0xff, 0xff, 0xff, 0xff, 0, 0, 0, 1],
        b"yes\0\0no\0\0",
    ]
    .concat()
}

/// The same in 117, MSF.
fn old_tagged_by_hand() -> Vec<u8> {
    let positions: [u16; 14] = [
        0, 140, 263, 300, 387, 414, 531, 636, 833, 868, 891, 906, 1019, 1031,
    ];
    let map = positions.map(|position| {
        let [high, low] = position.to_be_bytes();
        [0, 0, 0, 0, 0, 0, high, low]
    });
    [
        &b"<stata_dta><header><release>117</release><byteorder>MSF</byteorder>"[..],
        b"<K>\0\x02</K><N>\0\0\0\x02</N><label>\x04demo</label><timestamp>\0</timestamp></header>",
        b"<map>",
        &map.concat(),
        b"</map><variable_types>\xff\xf9\0\x03</variable_types><varnames>",
        &then(b"a", 32, 0),
        &then(b"bcd", 30, 0),
        b"</varnames><sortlist>\0\x02\0\0\0\0</sortlist><formats>",
        &then(b"%8.0g", 44, 0),
        &then(b"%3s", 46, 0),
        b"</formats><value_label_names>",
        &then(b"yn", 64, 0),
        b"</value_label_names><variable_labels>",
        &then(b"first", 157, 0),
        b"</variable_labels><characteristics></characteristics>",
        b"<data>\x12\x34x\0\0\x7f\xffxyz</data><strls></strls><value_labels><lbl>\0\0\0\x21",
        &then(b"yn", 34, 0),
        b"\0\0\0\x02\0\0\0\x09\0\0\0\x05\0\0\0\0\xff\xff\xff\xff\0\0\0\x01yes\0\0no\0\0",
        b"</lbl></value_labels></stata_dta>",
    ]
    .concat()
}

#[test]
fn an_old_file_by_hand() {
    let mut same = old_by_hand(0);
    same[3] = 1;
    // Without the expansion block.
    let block = 109 + 2 + 66 + 6 + 98 + 66 + 162;
    same.drain(block..block + 7);
    for dead in [0, 1, b'x', 0xff] {
        let file = old_by_hand(dead);
        assert_eq!(line(&file), format!("114 LSF 2 2 {}", same.len() + 7));
        assert_eq!(result(&file, 114, 2).unwrap(), same);
        assert_eq!(result(&file, 113, 1).unwrap(), old_rewritten_by_hand());
        assert_eq!(result(&file, 117, 1).unwrap(), old_tagged_by_hand());
    }
    assert_eq!(line(&old_tagged_by_hand()), "117 MSF 2 2 1031");
    for file in [old_rewritten_by_hand(), old_tagged_by_hand()] {
        assert_eq!(result(&file, 114, 2).unwrap(), same);
    }
}

/// 117 with a strL and a byte, three observations. Dead bytes are `dead`.
fn strls_by_hand(order: Order, dead: u8, characteristics: &[u8]) -> Vec<u8> {
    let number = |number: u64, width| order.bytes(number, width);
    let mut positions = [
        0, 153, 276, 313, 400, 427, 544, 649, 846, 881, 921, 973, 1002, 1014,
    ];
    for position in &mut positions[9..] {
        *position += characteristics.len() as u64;
    }
    let (msf, lsf) = (b"MSF", b"LSF");
    [
        &b"<stata_dta><header><release>117</release><byteorder>"[..],
        if order == Order::Msf { msf } else { lsf },
        b"</byteorder><K>",
        &number(2, 2),
        b"</K><N>",
        &number(3, 4),
        b"</N><label>\0</label><timestamp>\x1101 Jan 1960 00:00</timestamp></header><map>",
        &positions.map(|position| number(position, 8)).concat(),
        b"</map><variable_types>",
        &number(32768, 2),
        &number(65530, 2),
        b"</variable_types><varnames>",
        &then(b"s\0", 31, dead),
        &then(b"t\0", 31, dead),
        b"</varnames><sortlist>\0\0",
        &[dead; 4],
        b"</sortlist><formats>",
        &then(b"%9s\0", 45, dead),
        &then(b"\0", 48, dead),
        b"</formats><value_label_names>",
        &then(b"\0", 32, dead),
        &then(b"\0", 32, dead),
        b"</value_label_names><variable_labels>",
        &then(b"\0", 80, dead),
        &then(b"\0", 80, dead),
        b"</variable_labels><characteristics>",
        characteristics,
        b"</characteristics><data>",
        &number(1, 4),
        &number(1, 4),
        &[0x80],
        &number(1, 4),
        &number(2, 4),
        &[0x65],
        &number(1, 4),
        &number(1, 4),
        &[0x01],
        b"</data><strls>GSO",
        &number(1, 4),
        &number(1, 4),
        &[130],
        &number(3, 4),
        b"hi\0GSO",
        &number(1, 4),
        &number(2, 4),
        &[129],
        &number(2, 4),
        b"\0\x07</strls><value_labels></value_labels></stata_dta>",
    ]
    .concat()
}

#[test]
fn long_strings_by_hand() {
    let orders = [(Order::Msf, 1), (Order::Lsf, 2)];
    for (order, characteristic) in [
        (Order::Msf, b"<ch>\0\0\0\x05</ch></ch>"),
        (Order::Lsf, b"<ch>\x05\0\0\0</ch></ch>"),
    ] {
        let file = strls_by_hand(order, b'x', characteristic);
        for (target, code) in orders {
            let due = strls_by_hand(target, 0, b"");
            assert_eq!(result(&file, 117, code), Ok(due));
            assert_eq!(result(&file, 114, code), Err(15));
            assert_eq!(result(&file, 113, code), Err(15));
        }
    }
}

// The files of tests/.

/// The reasons are worked out here by what the questions tell, and by the blocks of the dataset.
fn holds(file: &[u8], edition: u64) -> bool {
    let checked = check(file).expect("accepted");
    let layout = numbers(&checked);
    let (most_label, name, format, label) = match edition {
        113 => (80, 32, 11, 80),
        118 => (320, 128, 56, 320),
        _ => (80, 32, 48, 80),
    };
    let length = |question| match ask(file, &layout, question) {
        Answer::Text(span) => span.length as usize,
        other => panic!("{other:?}"),
    };
    let wide = |i| match ask(file, &layout, Question::Type(i)) {
        Answer::Type(of) => {
            of.kind == independent::questions::Kind::Strl
                || of.kind == independent::questions::Kind::Text && of.width > 244
        }
        other => panic!("{other:?}"),
    };
    let blocks = outline(file, &checked).blocks;
    length(Question::Label) <= most_label
        && blocks.iter().all(|block| block.name.len() <= name)
        && (1..=layout[2]).all(|i| {
            (edition > 115 || !wide(i))
                && length(Question::Name(i)) <= name
                && length(Question::Format(i)) <= format
                && length(Question::Set(i)) <= name
                && length(Question::VarLabel(i)) <= label
        })
}

#[test]
fn every_stated_file_is_held_and_written_again() {
    let (mut done, mut refused) = (0, 0);
    for stated in stated::all() {
        let (file, name) = (stated.file, stated.name);
        let verdict = check(&file);
        for target in TARGETS {
            let (edition, order) = target.numbers();
            let result = result(&file, edition, order);
            let Ok(layout) = &verdict else {
                assert_eq!(result.err(), verdict.clone().err(), "{name}");
                continue;
            };
            if !holds(&file, edition) {
                assert_eq!(result, Err(15), "{name} to {target:?}");
                refused += 1;
                continue;
            }
            let result = result.unwrap_or_else(|number| panic!("{name} to {target:?}: {number}"));
            let found = check(&result).expect("accepted");
            assert_eq!(
                (u64::from(found.edition), u64::from(found.byte_order)),
                (edition, order)
            );
            assert!(dataset(&result, &found) == dataset(&file, layout), "{name}");
            // Through another edition or order, too.
            for through in TARGETS {
                let (other, order_of) = through.numbers();
                if holds(&file, other) {
                    let other = rewritten(&result, other, order_of, ENOUGH).expect("held");
                    assert_eq!(
                        rewritten(&other, edition, order, ENOUGH).as_ref(),
                        Ok(&result)
                    );
                }
            }
            done += 1;
        }
    }
    assert!(
        done >= 200 && refused >= 60,
        "{done} done, {refused} refused"
    );
}

/// An answer with the bytes that it names in the place of where they stand.
fn told(file: &[u8], answer: Answer) -> (Answer, Option<Vec<u8>>) {
    let named = answer.named();
    let bytes = named.map(|span| file[span.place as usize..][..span.length as usize].to_vec());
    let nowhere = Span {
        place: 0,
        length: 0,
    };
    let answer = match answer {
        Answer::Text(_) => Answer::Text(nowhere),
        Answer::Cell(independent::questions::Cell::Text(_)) => {
            Answer::Cell(independent::questions::Cell::Text(nowhere))
        }
        Answer::Long { kind, .. } => Answer::Long {
            kind,
            contents: nowhere,
        },
        Answer::Words(Some(_)) => Answer::Words(Some(nowhere)),
        other => other,
    };
    (answer, bytes)
}

/// Every question but those for edition and byte order.
fn answers(file: &[u8]) -> Vec<(Answer, Option<Vec<u8>>)> {
    let layout = numbers(&check(file).expect("accepted"));
    let mut questions = Question::HEADER[2..].to_vec();
    for i in 1..=layout[2] {
        questions.extend(Question::of_variable(i));
        for j in 1..=layout[3] {
            questions.extend(Question::of_cell(i, j));
        }
    }
    let answered = |question| told(file, ask(file, &layout, question));
    questions.into_iter().map(answered).collect()
}

#[test]
fn a_rewritten_file_answers_as_the_file_does() {
    let stated = stated::all().into_iter().map(|stated| stated.file);
    let short = stated.filter(|file| file.len() < 20_000 && check(file).is_ok());
    let made = (0..150).map(|seed| generate::file(&mut Random::new(seed)));
    let mut compared = 0;
    for file in short.chain(made.filter(|file| file.len() < 20_000)) {
        let answers_of_file = answers(&file);
        for target in TARGETS {
            let (edition, order) = target.numbers();
            if let Ok(result) = result(&file, edition, order) {
                assert!(answers(&result) == answers_of_file);
                compared += 1;
            }
        }
    }
    assert!(compared > 500, "{compared} files");
}

#[test]
fn a_generated_file_has_the_dataset_that_was_chosen() {
    for seed in 0..2_000 {
        let made = made(&mut Random::new(seed));
        let read = dataset_of(&made.file);
        let chosen = made.dataset;
        assert_eq!(
            (read.n, &read.label, &read.stamp, &read.sorted),
            (
                chosen.n as u64,
                &chosen.label,
                &chosen.stamp,
                &chosen.sorted
            )
        );
        assert_eq!(read.variables.len(), chosen.types.len());
        for (index, variable) in read.variables.iter().enumerate() {
            assert_eq!(variable.of.width(), chosen.types[index].width() as u64);
            assert_eq!(variable.name, chosen.names[index]);
            assert_eq!(variable.format, chosen.formats[index]);
            assert_eq!(variable.set, chosen.sets[index]);
            assert_eq!(variable.label, chosen.labels[index]);
        }
        assert_eq!(read.cells.len(), chosen.cells.len());
        for (cell, chosen) in read.cells.iter().zip(&chosen.cells) {
            match (cell, chosen) {
                (Cell::Text(text), generate::Cell::Text(chosen)) => assert_eq!(text, chosen),
                (Cell::Reference { v, o }, generate::Cell::Reference(chosen)) => {
                    assert_eq!((*v, *o), *chosen);
                }
                (Cell::Bits(_), generate::Cell::Text(_) | generate::Cell::Reference(_)) => {
                    panic!("seed {seed}")
                }
                (Cell::Bits(_), _) => {}
                _ => panic!("seed {seed}"),
            }
        }
        assert_eq!(read.records.len(), chosen.records.len());
        for (record, chosen) in read.records.iter().zip(&chosen.records) {
            assert_eq!((record.v, record.o), chosen.cell);
            assert_eq!(
                (record.kind, &record.contents),
                (chosen.kind, &chosen.contents)
            );
        }
        assert_eq!(read.blocks.len(), chosen.blocks.len());
        for (block, chosen) in read.blocks.iter().zip(&chosen.blocks) {
            assert_eq!(block.name, chosen.name);
            let entries = block.entries.iter();
            let entries: Vec<_> = entries
                .map(|entry| (entry.value as u32 as i32, entry.text.clone()))
                .collect();
            assert_eq!(entries, chosen.entries);
        }
    }
}

// What a target can't hold, and what is not offered.

/// One variable, one observation.
fn one(of: Type, format: &[u8]) -> Dataset {
    let (cell, records) = match of {
        Type::Text(_) => (Cell::Text(b"x".to_vec()), Vec::new()),
        Type::Strl => (
            Cell::Reference { v: 1, o: 1 },
            vec![Record {
                v: 1,
                o: 1,
                kind: 129,
                contents: Vec::new(),
            }],
        ),
        _ => (Cell::Bits(1), Vec::new()),
    };
    Dataset {
        n: 1,
        label: Vec::new(),
        stamp: Vec::new(),
        variables: vec![Variable {
            of,
            name: b"x".to_vec(),
            format: format.to_vec(),
            set: Vec::new(),
            label: Vec::new(),
        }],
        sorted: vec![1],
        cells: vec![cell],
        records,
        blocks: vec![Block {
            name: b"l".to_vec(),
            text_length: 3,
            entries: vec![Entry {
                offset: 1,
                value: 5,
                text: b"a".to_vec(),
            }],
        }],
    }
}

fn target(edition: u64) -> Target {
    Target::offered(edition, 2).expect("offered")
}

#[test]
fn types_and_formats_that_old_editions_cannot_hold() {
    // Eleven bytes and twelve.
    let (short, long) = (b"%tcDDmonCCY", b"%tcDDmonCCYY");
    for (of, format, reasons) in [
        (Type::Byte, &short[..], [&[][..], &[]]),
        (Type::Byte, long, [&[Unheld::LongFormat], &[]]),
        (Type::Text(244), short, [&[], &[]]),
        (
            Type::Text(245),
            short,
            [&[Unheld::WideText], &[Unheld::WideText]],
        ),
        (
            Type::Text(251),
            short,
            [&[Unheld::WideText], &[Unheld::WideText]],
        ),
        (
            Type::Text(2045),
            long,
            [&[Unheld::WideText, Unheld::LongFormat], &[Unheld::WideText]],
        ),
        (Type::Strl, short, [&[Unheld::Strl], &[Unheld::Strl]]),
    ] {
        let dataset = one(of, format);
        let file = write(&dataset, target(117));
        assert_eq!(dataset_of(&file), dataset);
        let [first, later] = reasons;
        for (edition, reasons) in [(113, first), (114, later), (115, later)] {
            assert_eq!(
                held(&dataset, target(edition)).err().unwrap_or_default(),
                reasons
            );
            for order in [1, 2] {
                let number = result(&file, edition, order).err();
                assert_eq!(number, (!reasons.is_empty()).then_some(15), "{of:?}");
            }
        }
        for order in [1, 2] {
            assert_eq!(result(&file, 117, order).err(), None);
            assert_eq!(result(&file, 118, order).err(), None);
        }
    }
}

/// Which editions hold a dataset, of 113, 114, 115, 117 and 118.
fn holders(dataset: &Dataset, reason: Unheld) -> [bool; 5] {
    NUMBERS.map(|edition| match held(dataset, target(u64::from(edition))) {
        Ok(_) => true,
        Err(reasons) => {
            assert_eq!(reasons, [reason], "{edition}");
            false
        }
    })
}

#[test]
fn texts_that_other_editions_cannot_hold() {
    let all = [true; 5];
    let but_113 = [false, true, true, true, true];
    let none_but_118 = [false, false, false, false, true];
    let with = |length: usize, put: fn(&mut Dataset, Vec<u8>)| {
        let mut dataset = one(Type::Byte, b"%9.0g");
        put(&mut dataset, vec![b'x'; length]);
        dataset
    };
    type Put = fn(&mut Dataset, Vec<u8>);
    let texts: [(Unheld, Put, &[(usize, [bool; 5])]); 6] = [
        (
            Unheld::LongLabel,
            |dataset, text| dataset.label = text,
            &[(80, all), (81, none_but_118), (320, none_but_118)],
        ),
        (
            Unheld::LongName,
            |dataset, text| dataset.variables[0].name = text,
            &[(32, all), (33, none_but_118), (128, none_but_118)],
        ),
        (
            Unheld::LongFormat,
            |dataset, text| dataset.variables[0].format = text,
            &[
                (11, all),
                (12, but_113),
                (48, but_113),
                (49, none_but_118),
                (56, none_but_118),
            ],
        ),
        (
            Unheld::LongSet,
            |dataset, text| dataset.variables[0].set = text,
            &[(32, all), (33, none_but_118), (128, none_but_118)],
        ),
        (
            Unheld::LongVariableLabel,
            |dataset, text| dataset.variables[0].label = text,
            &[(80, all), (81, none_but_118), (320, none_but_118)],
        ),
        (
            Unheld::LongBlockName,
            |dataset, text| dataset.blocks[0].name = text,
            &[(32, all), (33, none_but_118), (128, none_but_118)],
        ),
    ];
    for (reason, put, lengths) in texts {
        for (length, due) in lengths {
            let dataset = with(*length, put);
            assert_eq!(holders(&dataset, reason), *due, "{reason:?}, {length}");
            let file = write(&dataset, target(118));
            assert_eq!(dataset_of(&file), dataset);
            for (edition, held) in NUMBERS.into_iter().zip(due) {
                let number = result(&file, u64::from(edition), 1).err();
                assert_eq!(number, (!held).then_some(15), "{reason:?}, {length}");
            }
        }
    }
}

#[test]
fn the_numbers_come_in_their_order() {
    let file = write(&one(Type::Strl, b"%9s"), target(117));
    let room = file.len() as u64;
    assert_eq!(rewritten(&file, 117, 2, room), Ok(file.clone()));
    assert_eq!(rewritten(&file, 117, 2, room - 1), Err(14));
    assert_eq!(rewritten(&file, 117, 2, 0), Err(14));
    assert_eq!(rewritten(&file, 113, 2, 0), Err(15));
    assert_eq!(rewritten(&file[..room as usize - 1], 119, 3, 0), Err(3));
    for edition in [0, 112, 116, 119, (1 << 32) + 117, u64::MAX] {
        assert_eq!(rewritten(&file, edition, 2, room), Err(15));
    }
    for order in [0, 3, (1 << 32) + 1, u64::MAX] {
        assert_eq!(rewritten(&file, 117, order, room), Err(15));
    }
}
