//! The proved library, as compiled: the stated lines, the contract's edges, and the bounds of the format.

use independent::edition::{Edition, NUMBERS};
use independent::generate::{file, file_of, Order};
use independent::parts::{parts, Kind as PartKind};
use independent::proved::{self, answer, call, due, STORED};
use independent::questions::Kind;
use independent::random::Random;
use independent::sketch::{Sketch, Variable, X};
use independent::{check, stated, Layout};

const ORDERS: [Order; 2] = [Order::Msf, Order::Lsf];

/// Both readers' verdict. They must agree.
fn verdict(file: &[u8]) -> Result<Layout, u8> {
    let verdict = check(file);
    assert_eq!(answer(file), due(&verdict));
    verdict
}

#[test]
fn every_case_gets_its_line() {
    let wrong = stated::differing(proved::line);
    assert!(wrong.is_empty(), "{wrong:#?}");
}

#[test]
fn every_case_gets_its_layout() {
    for stated in stated::all() {
        let due = due(&check(&stated.file));
        assert_eq!(answer(&stated.file), due, "{}", stated.name);
    }
}

#[test]
fn every_beginning_of_a_file_gets_the_same_answer() {
    let cases = [
        "113-msf-small",
        "114-lsf-typical",
        "115-lsf-ch-none",
        "117-lsf-small",
        "118-lsf-small",
    ];
    let cases = cases.map(stated::case);
    let made = (0..60).map(|seed| file(&mut Random::new(seed)));
    for file in cases.into_iter().chain(made) {
        if file.len() < 20_000 {
            for length in 0..=file.len() {
                let _ = verdict(&file[..length]);
            }
        }
    }
}

/// A small file of that edition with variables and observations.
fn small(edition: u8, order: Order) -> Vec<u8> {
    (0..)
        .map(|seed| file_of(&mut Random::new(seed), edition, order))
        .find(|file| file.len() < 3_000 && check(file).is_ok_and(|layout| layout.n > 0))
        .expect("a small file")
}

#[test]
fn every_byte_of_a_file_can_be_another() {
    for edition in NUMBERS {
        for order in ORDERS {
            let mut file = small(edition, order);
            for place in 0..file.len() {
                let before = file[place];
                for byte in 0..=255 {
                    file[place] = byte;
                    let _ = verdict(&file);
                }
                file[place] = before;
            }
        }
    }
}

#[test]
fn a_stack_of_512_kib_is_enough() {
    let called = || {
        for stated in stated::all() {
            assert_eq!(proved::line(&stated.file), stated.line, "{}", stated.name);
        }
    };
    let thread = std::thread::Builder::new().stack_size(512 * 1024);
    thread.spawn(called).unwrap().join().unwrap();
}

// What is stored.

#[test]
fn a_short_slice_is_left_as_it_came() {
    let accepted = stated::case("117-msf-typical");
    let refused = &accepted[..accepted.len() - 1];
    for length in 0..STORED {
        for (file, number) in [(&accepted[..], 0), (refused, 3)] {
            let mut layout = vec![7; length];
            assert_eq!(call(file, &mut layout), number, "length {length}");
            assert_eq!(layout, vec![7; length], "number {number}");
        }
    }
}

#[test]
fn what_lies_behind_the_eighteen_is_left_as_it_came() {
    let accepted = stated::case("114-lsf-typical");
    for (file, number) in [(&accepted[..], 0), (&accepted[..1], 3)] {
        let mut layout = [7; STORED + 5];
        assert_eq!(call(file, &mut layout), number);
        assert_eq!(layout[..STORED], due(&check(file)).1);
        assert_eq!(layout[STORED..], [7; 5]);
    }
}

// Bounds.

fn field(text: &str, width: usize) -> Vec<u8> {
    let mut field = text.as_bytes().to_vec();
    field.resize(width, 0);
    field
}

/// 114 with byte variables, up to the data. The sort list has as many entries as are asked for.
fn old(order: Order, k: u64, n: u64, sorted: u64) -> Vec<u8> {
    let code = match order {
        Order::Msf => 1,
        Order::Lsf => 2,
    };
    let variables = k as usize;
    let mut file = vec![114, code, 1, 1];
    file.extend(order.bytes(k, 2));
    file.extend(order.bytes(n, 4));
    file.extend([0; 99]);
    file.extend(vec![251; variables]);
    file.extend(field("x", 33).repeat(variables));
    file.extend((0..=k).flat_map(|place| {
        let entry = if place < sorted { k - place } else { 0 };
        order.bytes(entry, 2)
    }));
    file.extend(vec![0; (49 + 33 + 81) * variables]);
    file.extend([0; 5]);
    file
}

fn label_block(order: Order, entries: u64, text: &[u8]) -> Vec<u8> {
    let length = text.len() as u64;
    let mut block = order.bytes(8 + 8 * entries + length, 4);
    block.extend(field("labels", 36));
    block.extend(order.bytes(entries, 4));
    block.extend(order.bytes(length, 4));
    block.extend((0..entries).flat_map(|entry| order.bytes(entry % length, 4)));
    block.extend((0..entries).flat_map(|value| order.bytes(value, 4)));
    block.extend(text);
    block
}

#[test]
fn length_bound_comes_first() {
    const BOUND: usize = 2_147_483_647;
    for order in ORDERS {
        let start = old(order, 1, 0, 0);
        let n = (BOUND - start.len()) as u64;
        let start = old(order, 1, n, 0);
        // Pages of zeros, of which only the first are touched.
        let mut file = vec![0; BOUND + 1];
        file[0] = 114;
        assert_eq!(verdict(&file), Err(1));
        assert_eq!(verdict(&file[..BOUND]), Err(5));
        file[..start.len()].copy_from_slice(&start);
        assert_eq!(verdict(&file), Err(1));
        let layout = verdict(&file[..BOUND]).expect("a file of the bound's length");
        assert_eq!(
            (u64::from(layout.n), layout.positions[13]),
            (n, BOUND as u64)
        );
        assert_eq!(verdict(&file[..BOUND - 1]), Err(3));
    }
}

#[test]
fn k_bound() {
    for order in ORDERS {
        for sorted in [0, 1, 32_767] {
            let file = old(order, 32_767, 0, sorted);
            assert_eq!(verdict(&file).err(), None);
        }
        let mut doubled = old(order, 32_767, 0, 32_767);
        let last = 109 + 34 * 32_767 + 2 * 32_766;
        doubled[last..last + 2].copy_from_slice(&order.bytes(32_767, 2));
        assert_eq!(verdict(&doubled), Err(8));
        assert_eq!(verdict(&old(order, 32_768, 0, 0)), Err(5));
        assert_eq!(verdict(&old(order, 65_535, 0, 0)), Err(5));
    }
}

#[test]
fn n_bound() {
    for order in ORDERS {
        for (n, refusal) in [(2_147_483_647, 3), (2_147_483_648, 5), (4_294_967_295, 5)] {
            assert_eq!(verdict(&old(order, 1, n, 0)), Err(refusal), "N {n}");
        }
    }
}

#[test]
fn entries_bound() {
    for order in ORDERS {
        for (entries, refusal) in [(65_535, None), (65_536, None), (65_537, Some(12))] {
            let mut file = old(order, 0, 0, 0);
            file.extend(label_block(order, entries, b"a\0bc\0"));
            assert_eq!(verdict(&file).err(), refusal, "{entries} entries");
        }
    }
}

#[test]
fn label_text_bound() {
    for order in ORDERS {
        for (length, refusal) in [(5_308_416, None), (5_308_417, Some(12))] {
            let mut text = vec![b'a'; length];
            text[length - 1] = 0;
            let mut file = old(order, 0, 0, 0);
            file.extend(label_block(order, 3, &text));
            assert_eq!(verdict(&file).err(), refusal, "{length} bytes");
        }
    }
}

/// A byte and a strL with that many observations, each third of which names itself, the others the one before it.
fn with_references(edition: u8, order: Order, n: u64) -> Vec<u8> {
    let mut sketch = Sketch::new(edition, order);
    sketch.n = n;
    let kind = Kind::Strl;
    sketch.variables = vec![X, Variable { kind, ..X }];
    for o in 1..=n {
        let named = (o - 1) / 3 * 3 + 1;
        sketch.data.push(o as u8);
        sketch.reference(2, named);
        if named == o {
            sketch.record(2, o, 130, b"a\0");
        }
    }
    sketch.file()
}

/// N above 65,535, so that more bytes of a count and of a reference matter.
#[test]
fn many_observations() {
    for edition in [117, 118] {
        for order in ORDERS {
            let n: u64 = 70_000;
            let mut file = with_references(edition, order, n);
            let layout = verdict(&file).expect("accepted");
            assert_eq!(u64::from(layout.n), n);
            assert_eq!(parts(&file, &layout).parts.len() as u64 / n, 5);
            // A reference to a cell that names another, 65,536 above or below.
            let data = layout.positions[9] as usize + "<data>".len();
            let widths = Edition::known(edition);
            for (o, named) in [(69_999, 69_997 - 65_536), (3, 1 + 65_536)] {
                let start = data + 9 * (o - 1) + 1 + widths.cell_v;
                let place = start..start + widths.cell_o;
                let before = file[place.clone()].to_vec();
                file[place.clone()].copy_from_slice(&order.bytes(named, widths.cell_o));
                assert_eq!(verdict(&file), Err(11));
                file[place].copy_from_slice(&before);
            }
        }
    }
}

/// Each byte of N, and of the numbers of a reference and a record, matters, in both editions with long strings.
#[test]
fn every_byte_of_a_number_counts() {
    for edition in [117, 118] {
        for order in ORDERS {
            let mut file = with_references(edition, order, 5);
            let layout = verdict(&file).expect("accepted");
            for part in parts(&file, &layout).parts {
                let refusals: &[u8] = match part.kind {
                    // So many observations aren't there, or are too many.
                    PartKind::N => &[3, 5],
                    PartKind::StrlV | PartKind::StrlO | PartKind::RecordV | PartKind::RecordO => {
                        &[11]
                    }
                    _ => continue,
                };
                for place in part.start..part.end {
                    file[place] ^= 0x40;
                    let refusal = verdict(&file).expect_err("refused");
                    assert!(refusals.contains(&refusal), "{:?} {place}", part.kind);
                    file[place] ^= 0x40;
                }
            }
        }
    }
}
