//! The questions: the answers against the paper, and against what generated files hold.

use independent::dead::dead;
use independent::edition::NUMBERS as EDITIONS;
use independent::generate::{self, Dataset, Made, Order};
use independent::questions::{
    self, numbers, Answer, Cell, Kind, Numbers, Question, Span, Type, Why,
};
use independent::random::Random;
use independent::sketch::{table, width, Sketch, Variable, X};
use independent::{check, stated, Layout};

const ORDERS: [Order; 2] = [Order::Msf, Order::Lsf];

fn answer(file: &[u8], layout: &Numbers, question: Question) -> Result<Answer, Why> {
    let answer = questions::answer(file, layout, question);
    answer
}

fn ask(file: &[u8], layout: &Numbers, question: Question) -> Answer {
    answer(file, layout, question).unwrap_or_else(|why| Answer::Refused(why.number()))
}

fn own(file: &[u8]) -> Numbers {
    numbers(&check(file).expect("the file is accepted"))
}

/// The bytes that a text answer names.
fn bytes(file: &[u8], span: Span) -> &[u8] {
    &file[span.place as usize..][..span.length as usize]
}

fn text(file: &[u8], layout: &Numbers, question: Question) -> Vec<u8> {
    let named = ask(file, layout, question).named();
    bytes(file, named.expect("a text")).to_vec()
}

/// The label's own bytes; none for the plain text.
fn words(file: &[u8], layout: &Numbers, i: u64, j: u64) -> Option<Vec<u8>> {
    match ask(file, layout, Question::Words(i, j)) {
        Answer::Words(span) => span.map(|span| bytes(file, span).to_vec()),
        other => panic!("words {i}, {j}: {other:?}"),
    }
}

fn cell(file: &[u8], layout: &Numbers, i: u64, j: u64) -> Cell {
    match ask(file, layout, Question::Cell(i, j)) {
        Answer::Cell(cell) => cell,
        other => panic!("cell {i}, {j}: {other:?}"),
    }
}

/// All questions in range.
fn every_question(layout: &Numbers) -> Vec<Question> {
    let (k, n) = (layout[2], layout[3]);
    let mut questions = Question::HEADER.to_vec();
    for i in 1..=k {
        questions.extend(Question::of_variable(i));
        for j in 1..=n {
            questions.extend(Question::of_cell(i, j));
        }
    }
    questions
}

fn accepted() -> Vec<(String, Vec<u8>, Layout)> {
    let accepted: Vec<_> = stated::all()
        .into_iter()
        .filter_map(|stated| {
            let layout = check(&stated.file).ok()?;
            Some((stated.name, stated.file, layout))
        })
        .collect();
    assert!(accepted.len() >= 50, "only {} files", accepted.len());
    accepted
}

// Files made by hand.

/// A file with one variable whose cells have these bits, and one label block.
fn column(
    edition: u8,
    order: Order,
    kind: Kind,
    bits: &[u64],
    entries: &[(i32, &str)],
) -> (Vec<u8>, Numbers) {
    let mut sketch = Sketch::new(edition, order);
    let set = "set";
    sketch.variables = vec![X, Variable { kind, set, ..X }];
    sketch.n = bits.len() as u64;
    for bits in bits {
        sketch.data.push(1);
        sketch.data.extend(order.bytes(*bits, width(kind)));
    }
    sketch.blocks = vec![("set", table(order, entries))];
    let file = sketch.file();
    let layout = own(&file);
    (file, layout)
}

fn editions_and_orders() -> impl Iterator<Item = (u8, Order)> {
    EDITIONS
        .into_iter()
        .flat_map(|edition| ORDERS.map(|order| (edition, order)))
}

fn is_tagged(edition: u8) -> bool {
    edition >= 117
}

/// Length, name and padding of a label block.
fn block_head(edition: u8) -> u64 {
    if edition == 118 {
        136
    } else {
        40
    }
}

/// A record up to its contents.
fn record_head(edition: u8) -> u64 {
    if edition == 118 {
        20
    } else {
        16
    }
}

/// Editions with long strings.
fn tagged_and_orders() -> impl Iterator<Item = (u8, Order)> {
    editions_and_orders().filter(|(edition, _)| is_tagged(*edition))
}

// The paper's examples.

/// P14: float and int, N = 1, 17-byte stamp, names myfloat and myint, all else empty.
fn p14() -> Sketch {
    let mut sketch = Sketch::new(117, Order::Msf);
    sketch.stamp = "10 Jul 2013 14:23";
    sketch.variables = vec![
        Variable {
            kind: Kind::Float,
            name: "myfloat",
            format: "",
            ..X
        },
        Variable {
            kind: Kind::Int,
            name: "myint",
            format: "",
            ..X
        },
    ];
    sketch.n = 1;
    sketch.data = vec![0; 6];
    sketch
}

#[test]
fn p14_is_answered() {
    let file = p14().file();
    let layout = own(&file);
    let positions = [
        0, 153, 276, 313, 400, 427, 544, 649, 846, 881, 900, 915, 944, 956,
    ];
    assert_eq!(layout[..4], [117, 1, 2, 1]);
    assert_eq!(layout[4..], positions);
    let text = |place, length| Answer::Text(Span { place, length });
    let float = Type {
        kind: Kind::Float,
        width: 4,
    };
    let int = Type {
        kind: Kind::Int,
        width: 2,
    };
    let column = |of, offset| Answer::Column { of, offset, row: 6 };
    let contents = Span {
        place: 0,
        length: 0,
    };
    let due = [
        (Question::Edition, Answer::Number(117)),
        (Question::Order, Answer::Number(1)),
        (Question::K, Answer::Number(2)),
        (Question::N, Answer::Number(1)),
        (Question::Label, text(95, 0)),
        (Question::Stamp, text(115, 17)),
        (Question::Type(1), Answer::Type(float)),
        (Question::Type(2), Answer::Type(int)),
        (Question::Name(1), text(323, 7)),
        (Question::Name(2), text(356, 5)),
        (Question::Format(1), text(436, 0)),
        (Question::Format(2), text(485, 0)),
        (Question::Set(1), text(563, 0)),
        (Question::Set(2), text(596, 0)),
        (Question::VarLabel(1), text(666, 0)),
        (Question::VarLabel(2), text(747, 0)),
        (Question::Date(1), Answer::Date(false)),
        (Question::Sort(1), Answer::Number(0)),
        (Question::Sort(2), Answer::Number(0)),
        (Question::Column(1), column(float, 0)),
        (Question::Column(2), column(int, 4)),
        (Question::Cell(1, 1), Answer::Cell(Cell::Float(0))),
        (Question::Cell(2, 1), Answer::Cell(Cell::Whole(0))),
        (Question::Long(1, 1), Answer::Long { kind: 0, contents }),
        (Question::Words(2, 1), Answer::Words(None)),
        (Question::Name(0), Answer::Refused(16)),
        (Question::Name(3), Answer::Refused(16)),
        (Question::Cell(0, 1), Answer::Refused(16)),
        (Question::Cell(3, 1), Answer::Refused(16)),
        (Question::Cell(1, 0), Answer::Refused(16)),
        (Question::Cell(1, 2), Answer::Refused(16)),
    ];
    for (question, due) in due {
        assert_eq!(ask(&file, &layout, question), due, "{question:?}");
    }
    assert_eq!(&file[323..330], b"myfloat");
    assert_eq!(&file[356..361], b"myint");
    assert_eq!(&file[115..132], b"10 Jul 2013 14:23");
}

/// P1 to P7, and the ends of the ranges.
#[test]
fn cells_say_what_the_paper_says() {
    let float = |bits: u64| (bits, Cell::Float(bits as u32));
    let double = |bits: u64| (bits, Cell::Double(bits));
    let columns: [(Kind, Vec<(u64, Cell)>); 5] = [
        (
            Kind::Byte,
            vec![
                (0x64, Cell::Whole(100)),
                (0x65, Cell::Letter(0)),
                (0x66, Cell::Letter(1)),
                (0x7f, Cell::Letter(26)),
                (0x80, Cell::Outside),
                (0x81, Cell::Whole(-127)),
                (0xff, Cell::Whole(-1)),
                (0, Cell::Whole(0)),
            ],
        ),
        (
            Kind::Int,
            vec![
                (0x7fe4, Cell::Whole(32_740)),
                (0x7fe5, Cell::Letter(0)),
                (0x7fff, Cell::Letter(26)),
                (0x8000, Cell::Outside),
                (0x8001, Cell::Whole(-32_767)),
                (0x0102, Cell::Whole(258)),
            ],
        ),
        (
            Kind::Long,
            vec![
                (0x7fff_ffe4, Cell::Whole(2_147_483_620)),
                (0x7fff_ffe5, Cell::Letter(0)),
                (0x7fff_ffff, Cell::Letter(26)),
                (0x8000_0000, Cell::Outside),
                (0x8000_0001, Cell::Whole(-2_147_483_647)),
                (0x0102_0304, Cell::Whole(16_909_060)),
            ],
        ),
        (
            Kind::Float,
            vec![
                float(0),
                float(0x8000_0000),
                float(0x7eff_ffff),
                (0x7f00_0000, Cell::Letter(0)),
                (0x7f00_0001, Cell::Between),
                (0x7f00_07ff, Cell::Between),
                (0x7f00_0800, Cell::Letter(1)),
                (0x7f00_0801, Cell::Between),
                (0x7f00_d000, Cell::Letter(26)),
                (0x7f00_d800, Cell::Between),
                (0x7f7f_ffff, Cell::Between),
                (0x7f80_0000, Cell::Between),
                (0x7f80_0001, Cell::Outside),
                (0x7fff_ffff, Cell::Outside),
                float(0xfeff_ffff),
                (0xff00_0000, Cell::Outside),
                (0xff80_0000, Cell::Outside),
                (0xff80_0001, Cell::Outside),
                (0xffff_ffff, Cell::Outside),
            ],
        ),
        (
            Kind::Double,
            vec![
                double(0),
                double(0x8000_0000_0000_0000),
                double(0x7fdf_ffff_ffff_ffff),
                (0x7fe0_0000_0000_0000, Cell::Letter(0)),
                (0x7fe0_0000_0000_0001, Cell::Between),
                (0x7fe0_0100_0000_0000, Cell::Letter(1)),
                (0x7fe0_0100_0000_0001, Cell::Between),
                (0x7fe0_1a00_0000_0000, Cell::Letter(26)),
                (0x7fe0_1b00_0000_0000, Cell::Between),
                (0x7fef_ffff_ffff_ffff, Cell::Between),
                (0x7ff0_0000_0000_0000, Cell::Between),
                (0x7ff0_0000_0000_0001, Cell::Outside),
                double(0xffef_ffff_ffff_ffff),
                (0xfff0_0000_0000_0000, Cell::Outside),
                (0xfff0_0000_0000_0001, Cell::Outside),
                (0xffff_ffff_ffff_ffff, Cell::Outside),
            ],
        ),
    ];
    for (edition, order) in editions_and_orders() {
        for (kind, cells) in &columns {
            let bits: Vec<u64> = cells.iter().map(|cell| cell.0).collect();
            let (file, layout) = column(edition, order, *kind, &bits, &[]);
            for ((bits, due), j) in cells.iter().zip(1..) {
                assert_eq!(cell(&file, &layout, 2, j), *due, "{kind:?} {bits:x}");
            }
        }
    }
}

/// A cell's bits, and the label found.
type Sought = (u64, Option<&'static str>);

/// P8 to P11, and the letters.
#[test]
fn labels_are_found_as_the_paper_says() {
    let entries = [
        (i32::MIN, "least"),
        (-i32::MAX, "lowest"),
        (-1, "minus one"),
        (0, "zero"),
        (9, "nine"),
        (100, "hundred"),
        (2_147_483_520, "a float's"),
        (2_147_483_620, "highest"),
        (2_147_483_621, "dot"),
        (2_147_483_622, "a"),
        (i32::MAX, "z"),
    ];
    let columns: [(Kind, Vec<Sought>); 5] = [
        (
            Kind::Byte,
            vec![
                (9, Some("nine")),
                (8, None),
                (0xff, Some("minus one")),
                (0x64, Some("hundred")),
                (0x65, Some("dot")),
                (0x66, Some("a")),
                (0x67, None),
                (0x7f, Some("z")),
                (0x80, None),
            ],
        ),
        (
            Kind::Int,
            vec![
                (0, Some("zero")),
                (0x7fe5, Some("dot")),
                (0x7fff, Some("z")),
                (0x8000, None),
                (0x8001, None),
            ],
        ),
        (
            Kind::Long,
            vec![
                (0x8000_0000, None),
                (0x8000_0001, Some("lowest")),
                (0x7fff_ffe4, Some("highest")),
                (0x7fff_ffe6, Some("a")),
                (0xffff_ffff, Some("minus one")),
            ],
        ),
        (
            Kind::Float,
            vec![
                (0x4110_0000, Some("nine")),
                (0x411b_3333, None),
                (0x8000_0000, Some("zero")),
                (0xbf80_0000, Some("minus one")),
                (0x4eff_ffff, Some("a float's")),
                (0x4f00_0000, None),
                (0xcf00_0000, None),
                (0x7f00_0000, Some("dot")),
                (0x7f00_0800, Some("a")),
                (0x7f00_0801, None),
                (0x7f00_d000, Some("z")),
                (0x7fc0_0000, None),
            ],
        ),
        (
            Kind::Double,
            vec![
                (0x4022_0000_0000_0000, Some("nine")),
                (0x4023_6666_6666_6666, None),
                (0x41df_ffff_f980_0000, None),
                (0x8000_0000_0000_0000, Some("zero")),
                (0x41df_ffff_f900_0000, Some("highest")),
                (0x41df_ffff_f940_0000, None),
                (0xc1df_ffff_ffc0_0000, Some("lowest")),
                (0xc1e0_0000_0000_0000, None),
                (0x7fe0_0100_0000_0000, Some("a")),
                (0x7fe0_1a00_0000_0000, Some("z")),
                (0x7ff0_0000_0000_0000, None),
            ],
        ),
    ];
    assert_eq!(2_147_483_622.0_f64.to_bits(), 0x41df_ffff_f980_0000);
    for (edition, order) in editions_and_orders() {
        for (kind, cells) in &columns {
            let bits: Vec<u64> = cells.iter().map(|cell| cell.0).collect();
            let (file, layout) = column(edition, order, *kind, &bits, &entries);
            for ((bits, due), j) in cells.iter().zip(1..) {
                let found = words(&file, &layout, 2, j);
                let due = due.map(|label| label.as_bytes().to_vec());
                assert_eq!(found, due, "{edition} {order:?} {kind:?} {bits:x}");
                assert_eq!(words(&file, &layout, 1, j), None, "no set");
            }
        }
    }
}

#[test]
fn the_first_block_of_the_name_is_used() {
    for (edition, order) in editions_and_orders() {
        let mut sketch = Sketch::new(edition, order);
        let sets = ["set", "other", "none", "", "se"];
        sketch.variables = sets.iter().map(|set| Variable { set, ..X }).collect();
        sketch.variables.push(Variable {
            kind: Kind::Text,
            set: "set",
            ..X
        });
        sketch.n = 1;
        sketch.data = b"\x01\x01\x01\x01\x01\x01\0\0\0\0".to_vec();
        sketch.blocks = vec![
            ("sets", table(order, &[(1, "of sets")])),
            ("set", table(order, &[(1, "first")])),
            ("set", table(order, &[(1, "second")])),
            ("other", table(order, &[(2, "two")])),
            ("other", table(order, &[(1, "one")])),
        ];
        let file = sketch.file();
        let layout = own(&file);
        assert_eq!(words(&file, &layout, 1, 1).as_deref(), Some(&b"first"[..]));
        for i in 2..=6 {
            assert_eq!(words(&file, &layout, i, 1), None, "variable {i}");
        }
    }
}

/// The halving routine on values that don't ascend.
#[test]
fn a_table_out_of_order_is_searched_by_halving() {
    for (edition, order) in editions_and_orders() {
        let entries = [(1, "a"), (2, "b"), (3, "c")];
        let (mut file, layout) = column(edition, order, Kind::Byte, &[1, 2, 3], &entries);
        let values = file.len() - 3 * 4 - 6 - if is_tagged(edition) { 6 + 15 + 12 } else { 0 };
        for (place, value) in [3, 1, 2].iter().enumerate() {
            let bytes = order.bytes(*value, 4);
            file[values + 4 * place..][..4].copy_from_slice(&bytes);
        }
        assert_eq!(check(&file), Err(12));
        let found = [1, 2, 3].map(|j| words(&file, &layout, 2, j));
        assert_eq!(found, [Some(b"b".to_vec()), Some(b"c".to_vec()), None]);
    }
}

#[test]
fn dates() {
    for (edition, order) in editions_and_orders() {
        let formats = ["%td", "%t", "%tc...", "%9.0g", "%", "", "t%", "%-td", "%T"];
        let mut sketch = Sketch::new(edition, order);
        let variable = |format| Variable { format, ..X };
        sketch.variables = formats.iter().map(|format| variable(format)).collect();
        let file = sketch.file();
        let layout = own(&file);
        for (format, i) in formats.iter().zip(1..) {
            let date = Answer::Date(i <= 3);
            assert_eq!(ask(&file, &layout, Question::Date(i)), date, "{format}");
            assert_eq!(
                text(&file, &layout, Question::Format(i)),
                format.as_bytes(),
                "{format}"
            );
        }
    }
}

#[test]
fn sort_places() {
    for (edition, order) in editions_and_orders() {
        let mut sketch = Sketch::new(edition, order);
        sketch.variables = vec![X; 300];
        sketch.sorted = vec![258, 2, 1, 256];
        let mut file = sketch.file();
        let layout = own(&file);
        let place = |file: &[u8], i| ask(file, &layout, Question::Sort(i));
        for (i, due) in [(258, 1), (2, 2), (1, 3), (256, 4), (3, 0), (300, 0)] {
            assert_eq!(place(&file, i), Answer::Number(due), "variable {i}");
        }
        // Behind the first zero, and twice.
        let list = layout[8] as usize + if is_tagged(edition) { 10 } else { 0 };
        file[list + 10..list + 12].copy_from_slice(&order.bytes(3, 2));
        assert_eq!(place(&file, 3), Answer::Number(0));
        file[list + 8..list + 10].copy_from_slice(&order.bytes(2, 2));
        assert_eq!(place(&file, 2), Answer::Number(2));
        assert_eq!(place(&file, 3), Answer::Number(6));
    }
}

#[test]
fn long_strings() {
    for (edition, order) in tagged_and_orders() {
        let mut sketch = Sketch::new(edition, order);
        let strl = Variable {
            kind: Kind::Strl,
            ..X
        };
        sketch.variables = vec![X, strl, strl];
        sketch.n = 3;
        for (two, three) in [((2, 1), (3, 1)), ((0, 0), (2, 1)), ((3, 1), (3, 3))] {
            sketch.data.push(1);
            sketch.reference(two.0, two.1);
            sketch.reference(three.0, three.1);
        }
        sketch.record(2, 1, 130, b"ab\0");
        sketch.record(3, 1, 129, b"");
        sketch.record(3, 3, 129, b"a\0b");
        let file = sketch.file();
        let layout = own(&file);
        let records = layout[4 + 10] + 7;
        let long = |kind, place, length| Answer::Long {
            kind,
            contents: Span { place, length },
        };
        let head = record_head(edition);
        let first = records + head;
        let second = first + 3 + head;
        let third = second + head;
        for (i, j, due) in [
            (1, 1, long(0, 0, 0)),
            (2, 1, long(130, first, 3)),
            (3, 1, long(129, second, 0)),
            (2, 2, long(0, 0, 0)),
            (3, 2, long(130, first, 3)),
            (2, 3, long(129, second, 0)),
            (3, 3, long(129, third, 3)),
        ] {
            let question = Question::Long(i, j);
            assert_eq!(ask(&file, &layout, question), due, "{question:?}");
            assert_eq!(words(&file, &layout, i, j), None);
        }
        let reference = Cell::Reference { v: 3, o: 1 };
        assert_eq!(cell(&file, &layout, 2, 3), reference);
        assert_eq!(&file[third as usize..][..3], b"a\0b");
    }
}

#[test]
fn header_texts() {
    for (edition, order) in editions_and_orders() {
        let most = "é1".repeat(if edition == 118 { 107 } else { 27 });
        let most: &'static str = most[..most.len() - 1].to_string().leak();
        for (label, stamp) in [("", ""), ("A label", "10 Jul 2013 14:23"), (most, "")] {
            let mut sketch = Sketch::new(edition, order);
            (sketch.label, sketch.stamp) = (label, stamp);
            let file = sketch.file();
            let layout = own(&file);
            assert_eq!(text(&file, &layout, Question::Label), label.as_bytes());
            assert_eq!(text(&file, &layout, Question::Stamp), stamp.as_bytes());
        }
    }
}

// Wrong layouts.

/// Where the positions named in the paper are among the numbers.
const NAMES: usize = 4 + 3;
const SORT_LIST: usize = 4 + 4;
const STRLS: usize = 4 + 10;
const VALUE_LABELS: usize = 4 + 11;
const END_TAG: usize = 4 + 12;

fn with(layout: &Numbers, item: usize, number: u64) -> Numbers {
    let mut layout = *layout;
    layout[item] = number;
    layout
}

#[test]
fn sixteen_comes_first_then_edition_and_order() {
    for (edition, order) in editions_and_orders() {
        let (file, layout) = column(edition, order, Kind::Int, &[1, 2], &[(1, "a")]);
        let mut layouts = Vec::new();
        for edition in [0, 1, 112, 116, 119, 113 + 256, 118 + 256, u64::MAX] {
            layouts.push(with(&layout, 0, edition));
        }
        for order in [0, 3, 257, 258, u64::MAX] {
            layouts.push(with(&layout, 1, order));
        }
        for layout in layouts {
            for question in every_question(&layout) {
                let why = answer(&file, &layout, question).err();
                assert_eq!(why, Some(Why::Edition), "{question:?}");
            }
            for i in [0, 3, u64::MAX] {
                for question in Question::of_variable(i) {
                    let why = answer(&[], &layout, question).err();
                    assert_eq!(why, Some(Why::Range), "{question:?}");
                }
            }
            for (i, j) in [(0, 1), (3, 1), (1, 0), (1, 3), (u64::MAX, u64::MAX)] {
                for question in Question::of_cell(i, j) {
                    let why = answer(&[], &layout, question).err();
                    assert_eq!(why, Some(Why::Range), "{question:?}");
                }
            }
        }
    }
}

#[test]
fn numbers_near_the_largest_are_answered() {
    for (edition, order) in editions_and_orders() {
        let (file, right) = column(edition, order, Kind::Int, &[1, 2], &[(1, "a")]);
        for item in 4..18 {
            for below in [0, 1, 2, 8, 100] {
                let layout = with(&right, item, u64::MAX - below);
                for question in every_question(&layout) {
                    let changed = ask(&file, &layout, question);
                    let before = ask(&file, &right, question);
                    let refused = changed == Answer::Refused(17);
                    let plain = changed == Answer::Words(None);
                    assert!(refused || plain || changed == before, "{question:?}");
                }
            }
        }
        let mut layout = right;
        for large in [u64::MAX, u64::MAX - 1, 1 << 63, 1 << 32] {
            (layout[2], layout[3]) = (large, large);
            for i in [1, 2, 3, 65_536, large - 1, large] {
                for question in Question::of_variable(i) {
                    match (question, i) {
                        (Question::Column(_), _) => {}
                        (_, 1 | 2) => {
                            assert_eq!(
                                ask(&file, &layout, question),
                                ask(&file, &right, question),
                                "{question:?}"
                            );
                            continue;
                        }
                        (Question::Sort(_), _) => {
                            assert_eq!(ask(&file, &layout, question), Answer::Number(0));
                            continue;
                        }
                        (_, 3) => continue,
                        _ => {}
                    }
                    let due = Answer::Refused(17);
                    assert_eq!(ask(&file, &layout, question), due, "{question:?}");
                }
                for question in Question::of_cell(i, large) {
                    let due = Answer::Refused(17);
                    assert_eq!(ask(&file, &layout, question), due, "{question:?}");
                }
            }
        }
        // Only N is large.
        let layout = with(&right, 3, u64::MAX);
        for j in [3_000, 1 << 62, u64::MAX] {
            for question in Question::of_cell(2, j) {
                let why = answer(&file, &layout, question).err();
                assert_eq!(why, Some(Why::Outside), "{question:?}");
            }
        }
    }
}

/// A sort list that isn't ended has K + 1 entries, whatever K is.
#[test]
fn a_sort_list_ends_with_k() {
    let file = [0, 1].repeat(500);
    for (k, last) in [(1, 2), (7, 8), (400, 401)] {
        let mut layout = [0; 18];
        (layout[0], layout[1], layout[2]) = (114, 1, k);
        layout[SORT_LIST] = 1000 - 2 * last;
        let place = |layout: &Numbers, i| ask(&file, layout, Question::Sort(i));
        assert_eq!(place(&layout, 1), Answer::Number(1));
        if k > 1 {
            assert_eq!(place(&layout, k), Answer::Number(0));
            layout[SORT_LIST] += 2;
            assert_eq!(place(&layout, k), Answer::Refused(17));
        }
    }
}

/// A cut file's answer is 17 up to some length, then the whole file's.
#[test]
fn an_answer_needs_a_beginning_of_the_file() {
    let made = (0..40).map(|seed| generate::file(&mut Random::new(seed)));
    let cases = ["113-msf-small", "117-lsf-small", "118-lsf-small"].map(stated::case);
    for file in made.chain(cases).filter(|file| file.len() < 2_500) {
        let layout = own(&file);
        for question in every_question(&layout).into_iter().step_by(3) {
            let whole = ask(&file, &layout, question);
            let needed = (0..=file.len())
                .find(|length| ask(&file[..*length], &layout, question) != Answer::Refused(17))
                .expect("the whole file is enough");
            for length in needed..=file.len() {
                let answer = ask(&file[..length], &layout, question);
                assert_eq!(answer, whole, "{question:?}, {length} bytes");
            }
            if let (Answer::Text(span), false) =
                (whole, matches!(question, Question::Label | Question::Stamp))
            {
                assert_eq!(needed as u64, span.place + span.length + 1, "{question:?}");
            }
        }
    }
}

#[test]
fn a_field_without_a_zero_ends_at_its_width() {
    for (edition, order) in editions_and_orders() {
        let file = vec![b'%'; 20_000];
        let code = if order == Order::Msf { 1 } else { 2 };
        let mut layout = [u64::from(edition); 18];
        (layout[1], layout[2], layout[3]) = (code, 3, 3);
        let opening = |tag: usize| if is_tagged(edition) { tag as u64 } else { 0 };
        let start = u64::from(edition);
        let due = |first: u64, width: u64| {
            let place = first + 2 * width;
            Answer::Text(Span {
                place,
                length: width,
            })
        };
        let (name, format, label) = match edition {
            113 => (33, 12, 81),
            118 => (129, 57, 321),
            _ => (33, 49, 81),
        };
        let ask = |question| ask(&file, &layout, question);
        assert_eq!(ask(Question::Name(3)), due(start + opening(10), name));
        assert_eq!(ask(Question::Format(3)), due(start + opening(9), format));
        assert_eq!(ask(Question::Set(3)), due(start + opening(19), name));
        assert_eq!(ask(Question::VarLabel(3)), due(start + opening(17), label));
        assert_eq!(ask(Question::Date(3)), Answer::Date(false));
        let header = |place, length| Answer::Text(Span { place, length });
        match edition {
            117 => {
                assert_eq!(ask(Question::Label), header(95, 37));
                assert_eq!(ask(Question::Stamp), header(152, 37));
            }
            118 => {
                assert_eq!(ask(Question::Label), header(100, 0x2525));
                assert_eq!(ask(Question::Stamp), header(120 + 0x2525, 37));
            }
            _ => {
                assert_eq!(ask(Question::Label), header(10, 81));
                assert_eq!(ask(Question::Stamp), header(91, 18));
            }
        }
    }
}

/// A file whose byte 1 seeks in `set`, the second of two blocks, and whose layout is its own.
fn two_blocks(edition: u8, order: Order) -> (Vec<u8>, Numbers) {
    let mut sketch = Sketch::new(edition, order);
    sketch.variables = vec![Variable { set: "set", ..X }, Variable { set: "none", ..X }];
    sketch.n = 1;
    sketch.data = vec![1, 1];
    sketch.blocks = vec![
        ("first", table(order, &[(5, "five")])),
        ("set", table(order, &[(1, "yes"), (2, "no")])),
    ];
    let file = sketch.file();
    let layout = own(&file);
    (file, layout)
}

#[test]
fn label_blocks_end_with_their_part() {
    for (edition, order) in editions_and_orders() {
        let (file, right) = two_blocks(edition, order);
        let tagged = is_tagged(edition);
        let (opening, closing) = if tagged { (14, 15) } else { (0, 0) };
        let marks = if tagged { 5 + 6 } else { 0 };
        let first = right[VALUE_LABELS] + opening;
        let second = first + marks + block_head(edition) + 8 + 8 + 5;
        let end = right[END_TAG];
        let head = block_head(edition);
        assert_eq!(second + marks + head + 8 + 16 + 7 + closing, end);
        let sought = |layout: &Numbers| answer(&file, layout, Question::Words(1, 1));
        let unsought = |layout: &Numbers| answer(&file, layout, Question::Words(2, 1));
        let found = sought(&right);
        assert!(matches!(found, Ok(Answer::Words(Some(_)))));
        let plain = Ok(Answer::Words(None));
        assert_eq!(unsought(&right), plain);
        let ending = |end| with(&right, END_TAG, end);
        assert_eq!(sought(&ending(end - 1)), Err(Why::Block));
        assert_eq!(unsought(&ending(end - 1)), Err(Why::Block));
        assert_eq!(sought(&ending(end + 1)), found);
        assert!(unsought(&ending(end + 1)).is_err(), "a third block");
        assert_eq!(sought(&ending(second + closing)), plain);
        assert_eq!(sought(&ending(second + closing + 1)), Err(Why::Block));
        assert_eq!(sought(&ending(second + closing - 1)), Err(Why::Block));
        assert_eq!(sought(&ending(first + closing)), plain);
        for end in [0, 1, first, first + closing - u64::from(tagged)] {
            assert_eq!(sought(&ending(end)), plain, "an empty part");
        }
        assert_eq!(sought(&ending(u64::MAX)), found);
        assert!(unsought(&ending(u64::MAX)).is_err(), "no end");
        let starting = |start| with(&right, VALUE_LABELS, start);
        assert_eq!(sought(&starting(second - opening)), found);
        assert_eq!(sought(&starting(u64::MAX)), plain, "an empty part");
        let mut both = ending(u64::MAX);
        both[VALUE_LABELS] = u64::MAX;
        assert_eq!(sought(&both), plain, "an empty part");
        both[VALUE_LABELS] = u64::MAX - 100;
        assert_eq!(sought(&both), Err(Why::Outside));
    }
}

/// Of a block that isn't used the table length, the name's text and the table's two counts are needed, nothing else.
#[test]
fn of_a_block_walked_over_head_and_counts_are_needed() {
    for (edition, order) in editions_and_orders() {
        let (file, right) = two_blocks(edition, order);
        let (opening, marks) = if is_tagged(edition) {
            (14 + 5, 11)
        } else {
            (0, 0)
        };
        let head = block_head(edition);
        let second = right[VALUE_LABELS] + opening + marks + head + 21;
        // Up to the text length.
        let needed = (second + head) as usize + 8;
        let unsought = |length: usize| answer(&file[..length], &right, Question::Words(2, 1));
        assert_eq!(unsought(needed), Ok(Answer::Words(None)));
        assert_eq!(unsought(needed - 1), Err(Why::Outside));
        let sought = |length: usize| answer(&file[..length], &right, Question::Words(1, 1));
        // Up to the zero of the label.
        let needed = (second + head) as usize + 24 + 4;
        assert!(matches!(sought(needed), Ok(Answer::Words(Some(_)))));
        assert_eq!(sought(needed - 1), Err(Why::Outside));
    }
}

/// The first of two blocks, which isn't used, is as long as it says.
#[test]
fn a_table_walked_over_is_as_long_as_it_says() {
    for (edition, order) in editions_and_orders() {
        let (file, layout) = two_blocks(edition, order);
        let opening = if is_tagged(edition) { 14 + 5 } else { 0 };
        let block = layout[VALUE_LABELS] as usize + opening;
        let table = block + block_head(edition) as usize;
        let changed = |place: usize, number: u64| {
            let mut file = file.clone();
            file[place..place + 4].copy_from_slice(&order.bytes(number, 4));
            answer(&file, &layout, Question::Words(1, 1))
        };
        let (entries, text_length) = (table, table + 4);
        assert!(matches!(changed(block, 21), Ok(Answer::Words(Some(_)))));
        for length in [0, 7, 8, 20, 22] {
            assert_eq!(changed(block, length), Err(Why::Table), "length {length}");
        }
        for n in [0, 2, 1 + (1 << 29), 1 + (1 << 31)] {
            assert_eq!(changed(entries, n), Err(Why::Table), "{n} entries");
        }
        for text in [0, 4, 6, u64::from(u32::MAX)] {
            assert_eq!(changed(text_length, text), Err(Why::Table), "text {text}");
        }
        // Values, offsets and texts of a table that isn't used are not read.
        let mut dead = file.clone();
        dead[table + 8..table + 21].fill(0xff);
        assert_eq!(
            answer(&dead, &layout, Question::Words(1, 1)),
            answer(&file, &layout, Question::Words(1, 1))
        );
    }
}

#[test]
fn the_table_used_is_as_long_as_it_says() {
    for (edition, order) in editions_and_orders() {
        let (file, layout) = two_blocks(edition, order);
        let (opening, marks) = if is_tagged(edition) {
            (14 + 5, 11)
        } else {
            (0, 0)
        };
        let head = block_head(edition) as usize;
        let block = layout[VALUE_LABELS] as usize + opening + marks + head + 21;
        let table = block + head;
        let changed = |place: usize, number: u64| {
            let mut file = file.clone();
            file[place..place + 4].copy_from_slice(&order.bytes(number, 4));
            answer(&file, &layout, Question::Words(1, 1))
        };
        let (entries, text_length, first) = (table, table + 4, table + 8);
        assert_eq!(changed(block, 30), Err(Why::Table));
        assert_eq!(changed(block, 8), Err(Why::Table));
        assert_eq!(changed(block, 7), Err(Why::Table));
        assert_eq!(changed(block, 0), Err(Why::Table));
        assert_eq!(changed(block, 32), Err(Why::Block));
        assert_eq!(changed(block, u64::from(u32::MAX)), Err(Why::Block));
        assert_eq!(changed(entries, 1), Err(Why::Table));
        for bit in [29, 30, 31] {
            assert_eq!(changed(entries, 2 + (1 << bit)), Err(Why::Table));
        }
        assert_eq!(changed(text_length, 6), Err(Why::Table));
        assert_eq!(changed(text_length, u64::from(u32::MAX)), Err(Why::Table));
        assert_eq!(changed(first, 7), Err(Why::Offset));
        assert_eq!(changed(first, u64::from(u32::MAX)), Err(Why::Offset));
        let label = |place: usize, length| {
            let place = (table + 24 + place) as u64;
            Ok(Answer::Words(Some(Span { place, length })))
        };
        assert_eq!(changed(first, 6), label(6, 0));
        assert_eq!(changed(first, 1), label(1, 2));
        let mut unended = file.clone();
        unended[table + 24..table + 31].fill(b'x');
        let words = Question::Words(1, 1);
        assert_eq!(answer(&unended, &layout, words), Err(Why::Unended));
        unended[table + 30] = 0;
        assert_eq!(answer(&unended, &layout, words), label(0, 6));
        // The length is right but for a multiple of 2^32.
        let mut wrapping = file.clone();
        wrapping[entries..text_length].copy_from_slice(&order.bytes(3, 4));
        wrapping[text_length..first].copy_from_slice(&order.bytes(u64::from(u32::MAX), 4));
        assert_eq!(answer(&wrapping, &layout, words), Err(Why::Table));
        // No entries, and the same length.
        let mut empty = file.clone();
        empty[entries..entries + 4].fill(0);
        empty[text_length..first].copy_from_slice(&order.bytes(23, 4));
        assert_eq!(answer(&empty, &layout, words), Ok(Answer::Words(None)));
    }
}

#[test]
fn records_end_with_their_part() {
    for (edition, order) in tagged_and_orders() {
        let head = record_head(edition);
        let mut sketch = Sketch::new(edition, order);
        let kind = Kind::Strl;
        sketch.variables = vec![Variable { kind, ..X }; 2];
        sketch.n = 1;
        sketch.reference(1, 1);
        sketch.reference(2, 1);
        sketch.record(1, 1, 129, b"");
        sketch.record(2, 1, 129, b"abc");
        let file = sketch.file();
        let right = own(&file);
        let first = right[STRLS] + 7;
        let end = right[VALUE_LABELS];
        assert_eq!(first + 2 * head + 3 + 8, end);
        let (one, two) = (Question::Long(1, 1), Question::Long(2, 1));
        let ending = |end| with(&right, VALUE_LABELS, end);
        let long = |place, length| {
            let contents = Span { place, length };
            Ok(Answer::Long {
                kind: 129,
                contents,
            })
        };
        assert_eq!(answer(&file, &right, one), long(first + head, 0));
        assert_eq!(answer(&file, &right, two), long(first + 2 * head, 3));
        assert_eq!(answer(&file, &ending(end - 1), two), Err(Why::Record));
        assert_eq!(answer(&file, &ending(end - 1), one), long(first + head, 0));
        assert_eq!(
            answer(&file, &ending(end + 1), two),
            long(first + 2 * head, 3)
        );
        assert_eq!(
            answer(&file, &ending(first + head + 8), two),
            Err(Why::NoRecord)
        );
        assert_eq!(
            answer(&file, &ending(first + head + 8), one),
            long(first + head, 0)
        );
        assert_eq!(
            answer(&file, &ending(first + head + 7), one),
            Err(Why::Record)
        );
        for end in [0, 7, first, first + 8] {
            assert_eq!(answer(&file, &ending(end), one), Err(Why::NoRecord));
        }
        // The contents of the record that is meant, and those of one before it.
        let cut = |length: u64, question| answer(&file[..length as usize], &right, question);
        assert_eq!(cut(first + head, one), long(first + head, 0));
        assert_eq!(cut(first + head - 1, one), Err(Why::Outside));
        assert_eq!(cut(first + 2 * head + 3, two), long(first + 2 * head, 3));
        assert_eq!(cut(first + 2 * head + 2, two), Err(Why::Outside));
        // The reference (0,0) needs no record, (0,1) and (1,0) do.
        let data = right[4 + 9] as usize + 6;
        for (v, o, due) in [
            (0, 0, None),
            (0, 1, Some(Why::NoRecord)),
            (1, 0, Some(Why::NoRecord)),
            (1, 1 + (1 << 31), Some(Why::NoRecord)),
            (1 + (1 << 15), 1, Some(Why::NoRecord)),
        ] {
            let mut file = file.clone();
            let width = if edition == 118 { 2 } else { 4 };
            let reference = [order.bytes(v, width), order.bytes(o, 8 - width)].concat();
            file[data..data + 8].copy_from_slice(&reference);
            assert_eq!(answer(&file, &right, one).err(), due, "({v},{o})");
        }
    }
}

/// Every byte of a reference of 118, which only a wrong file can fill.
#[test]
fn all_bytes_of_a_reference_are_read() {
    for order in ORDERS {
        let mut sketch = Sketch::new(118, order);
        let kind = Kind::Strl;
        sketch.variables = vec![Variable { kind, ..X }];
        sketch.n = 1;
        let (v, o) = (0xfedc, 0xba98_7654_3210);
        sketch.reference(1, 1);
        sketch.record(1, 1, 129, b"a");
        let mut file = sketch.file();
        let layout = own(&file);
        let data = layout[4 + 9] as usize + 6;
        file[data..data + 2].copy_from_slice(&order.bytes(v, 2));
        file[data + 2..data + 8].copy_from_slice(&order.bytes(o, 6));
        assert_eq!(cell(&file, &layout, 1, 1), Cell::Reference { v, o });
        let long = Question::Long(1, 1);
        assert_eq!(answer(&file, &layout, long), Err(Why::NoRecord));
        // Its record, and others that share all but one byte of the two numbers.
        let record = layout[STRLS] as usize + 7 + 3;
        let stored = [order.bytes(v, 4), order.bytes(o, 8)].concat();
        file[record..record + 12].copy_from_slice(&stored);
        assert_eq!(text(&file, &layout, long), b"a");
        for place in record..record + 12 {
            file[place] ^= 1;
            assert_eq!(answer(&file, &layout, long), Err(Why::NoRecord), "{place}");
            file[place] ^= 1;
        }
    }
}

/// An unknown type code is on the way to a cell, but not to another variable's type.
#[test]
fn all_type_codes_are_on_the_way() {
    for (edition, order) in editions_and_orders() {
        let (mut file, layout) = column(edition, order, Kind::Int, &[1], &[(1, "a")]);
        let types = layout[NAMES - 1] as usize + if is_tagged(edition) { 16 } else { 0 };
        let second = types + if is_tagged(edition) { 2 } else { 1 };
        for code in [0, 245, 250, 2046, 32767, 32769, 65525, 65531, 65535] {
            if is_tagged(edition) {
                file[second..second + 2].copy_from_slice(&order.bytes(code, 2));
                if code == 245 || code == 250 {
                    continue;
                }
            } else if code < 256 {
                file[second] = code as u8;
            }
            assert!(answer(&file, &layout, Question::Type(1)).is_ok());
            for question in [
                Question::Type(2),
                Question::Column(1),
                Question::Cell(1, 1),
                Question::Long(1, 1),
                Question::Words(1, 1),
            ] {
                let why = answer(&file, &layout, question).err();
                assert_eq!(why, Some(Why::Type), "{question:?}, code {code}");
            }
        }
    }
}

// Large counts.

#[test]
fn many_variables() {
    for (edition, order) in editions_and_orders() {
        let mut sketch = Sketch::new(edition, order);
        let kind = Kind::Int;
        sketch.variables = vec![X; 32_767];
        sketch.variables[300] = Variable { kind, ..X };
        sketch.variables[32_766] = Variable {
            kind,
            name: "last",
            format: "%td",
            set: "set",
            label: "the last",
        };
        sketch.sorted = (1..=32_767).rev().collect();
        sketch.n = 3;
        sketch.data = vec![1; 3 * 32_769];
        sketch.data[32_767 + 32_769] = 2;
        sketch.blocks = vec![("set", table(order, &[(0x101, "one")]))];
        let file = sketch.file();
        let layout = own(&file);
        let last = 32_767;
        assert_eq!(text(&file, &layout, Question::Name(last)), b"last");
        assert_eq!(text(&file, &layout, Question::Format(last)), b"%td");
        assert_eq!(text(&file, &layout, Question::Set(last)), b"set");
        assert_eq!(text(&file, &layout, Question::VarLabel(last)), b"the last");
        assert_eq!(
            ask(&file, &layout, Question::Date(last)),
            Answer::Date(true)
        );
        assert_eq!(ask(&file, &layout, Question::Sort(last)), Answer::Number(1));
        assert_eq!(ask(&file, &layout, Question::Sort(1)), Answer::Number(last));
        let column = |kind, width, offset| Answer::Column {
            of: Type { kind, width },
            offset,
            row: 32_769,
        };
        for (i, due) in [
            (1, column(Kind::Byte, 1, 0)),
            (301, column(Kind::Int, 2, 300)),
            (302, column(Kind::Byte, 1, 302)),
            (last, column(Kind::Int, 2, 32_767)),
        ] {
            assert_eq!(ask(&file, &layout, Question::Column(i)), due, "{i}");
        }
        let second = if order == Order::Msf { 0x201 } else { 0x102 };
        for (j, due) in [(1, 0x101), (2, second), (3, 0x101)] {
            assert_eq!(cell(&file, &layout, last, j), Cell::Whole(due));
            let label = (j != 2).then(|| b"one".to_vec());
            assert_eq!(words(&file, &layout, last, j), label);
        }
    }
}

#[test]
fn many_observations_and_entries() {
    for (edition, order) in tagged_and_orders() {
        let n = 70_000;
        let mut sketch = Sketch::new(edition, order);
        let (long, strl) = (Kind::Long, Kind::Strl);
        sketch.variables = vec![
            Variable {
                kind: long,
                set: "set",
                ..X
            },
            Variable { kind: strl, ..X },
        ];
        sketch.n = n;
        // Each seventh cell names itself, the others the one before it.
        for o in 1..=n {
            let named = (o - 1) / 7 * 7 + 1;
            sketch.data.extend(order.bytes(o, 4));
            sketch.reference(2, named);
            if named == o {
                sketch.record(2, o, 129, &order.bytes(o, 4));
            }
        }
        let entries: Vec<(i32, &str)> = (1..=65_536).map(|value| (value, "ab")).collect();
        sketch.blocks = vec![("set", table(order, &entries))];
        let file = sketch.file();
        let layout = own(&file);
        let end = file.len() as u64 - 12 - 15 - 6;
        for j in [1, 2, 65_534, 65_535, 65_536, 65_537, n] {
            assert_eq!(cell(&file, &layout, 1, j), Cell::Whole(j as i32));
            let label = (j <= 65_536).then(|| Span {
                place: end - 3 * (65_537 - j),
                length: 2,
            });
            let found = ask(&file, &layout, Question::Words(1, j));
            assert_eq!(found, Answer::Words(label), "observation {j}");
            let named = (j - 1) / 7 * 7 + 1;
            let contents = text(&file, &layout, Question::Long(2, j));
            assert_eq!(contents, order.bytes(named, 4));
        }
    }
}

// Generated files and those of tests/, with their own layouts.

#[test]
fn no_question_in_range_is_refused() {
    for (name, file, layout) in accepted() {
        let layout = numbers(&layout);
        for question in every_question(&layout) {
            let why = answer(&file, &layout, question).err();
            assert_eq!(why, None, "{name}, {question:?}");
        }
        let (k, n) = (layout[2], layout[3]);
        for question in Question::of_variable(k + 1) {
            assert_eq!(answer(&file, &layout, question), Err(Why::Range), "{name}");
        }
        for (i, j) in [(0, 1), (1, 0), (k + 1, 1), (1, n + 1)] {
            for question in Question::of_cell(i, j) {
                assert_eq!(answer(&file, &layout, question), Err(Why::Range), "{name}");
            }
        }
    }
}

#[test]
fn generated_files_say_what_they_hold() {
    let mut labels = 0;
    for seed in 0..4_000 {
        let Made { file, dataset } = generate::made(&mut Random::new(seed));
        let layout = own(&file);
        let holds = Holds {
            file: &file,
            layout: &layout,
            dataset: &dataset,
            seed,
        };
        holds.header();
        for i in 1..=layout[2] {
            holds.variable(i);
        }
        for j in 1..=layout[3] {
            for i in 1..=layout[2] {
                labels += holds.cell(i, j);
            }
        }
    }
    assert!(labels > 1_000, "only {labels} labels found");
}

struct Holds<'a> {
    file: &'a [u8],
    layout: &'a Numbers,
    dataset: &'a Dataset,
    seed: u64,
}

impl Holds<'_> {
    fn ask(&self, question: Question) -> Answer {
        ask(self.file, self.layout, question)
    }

    fn text(&self, question: Question, due: &[u8]) {
        let text = text(self.file, self.layout, question);
        assert_eq!(text, due, "seed {}, {question:?}", self.seed);
    }

    fn header(&self) {
        let k = Answer::Number(self.dataset.types.len() as u64);
        assert_eq!(self.ask(Question::K), k);
        let n = Answer::Number(self.dataset.n as u64);
        assert_eq!(self.ask(Question::N), n);
        self.text(Question::Label, &self.dataset.label);
        self.text(Question::Stamp, &self.dataset.stamp);
    }

    fn type_of(&self, i: u64) -> Type {
        let of = self.dataset.types[i as usize - 1];
        let kind = match of {
            generate::Type::Strl => Kind::Strl,
            generate::Type::Text(_) => Kind::Text,
            generate::Type::Double => Kind::Double,
            generate::Type::Float => Kind::Float,
            generate::Type::Long => Kind::Long,
            generate::Type::Int => Kind::Int,
            generate::Type::Byte => Kind::Byte,
        };
        let width = of.width() as u64;
        Type { kind, width }
    }

    fn variable(&self, i: u64) {
        let index = i as usize - 1;
        self.text(Question::Name(i), &self.dataset.names[index]);
        let format = &self.dataset.formats[index];
        self.text(Question::Format(i), format);
        self.text(Question::Set(i), &self.dataset.sets[index]);
        self.text(Question::VarLabel(i), &self.dataset.labels[index]);
        let date = format.len() >= 2 && format[0] == b'%' && format[1] == b't';
        assert_eq!(self.ask(Question::Date(i)), Answer::Date(date));
        let mut sorted = self.dataset.sorted.iter();
        let place = sorted.position(|variable| *variable == i);
        let place = place.map_or(0, |place| place as u64 + 1);
        assert_eq!(self.ask(Question::Sort(i)), Answer::Number(place));
        let of = self.type_of(i);
        assert_eq!(self.ask(Question::Type(i)), Answer::Type(of));
        let widths =
            |types: &[generate::Type]| -> u64 { types.iter().map(|of| of.width() as u64).sum() };
        let types = &self.dataset.types;
        let (offset, row) = (widths(&types[..index]), widths(types));
        let column = Answer::Column { of, offset, row };
        assert_eq!(self.ask(Question::Column(i)), column);
    }

    /// How many labels were found.
    fn cell(&self, i: u64, j: u64) -> u64 {
        let k = self.dataset.types.len();
        let held = &self.dataset.cells[(j as usize - 1) * k + i as usize - 1];
        let said = cell(self.file, self.layout, i, j);
        let kind = self.type_of(i).kind;
        let place = format!("seed {}, cell {i}, {j}: {said:?}", self.seed);
        let sought = match held {
            generate::Cell::Seeks(code) => {
                let letter = i64::from(*code) - 2_147_483_621;
                let right = match said {
                    Cell::Letter(k) => i64::from(k) == letter,
                    Cell::Whole(value) => value == *code && kind != Kind::Float,
                    Cell::Float(bits) => f64::from(f32::from_bits(bits)) == f64::from(*code),
                    Cell::Double(bits) => f64::from_bits(bits) == f64::from(*code),
                    _ => false,
                };
                assert!(right, "{place}, holds {code}");
                Some(Some(*code))
            }
            generate::Cell::SeeksNothing => {
                assert!(matches!(said, Cell::Float(_) | Cell::Double(_)), "{place}");
                Some(None)
            }
            generate::Cell::Any => None,
            generate::Cell::Text(text) => {
                self.text(Question::Cell(i, j), text);
                Some(None)
            }
            generate::Cell::Reference((v, o)) => {
                let (v, o) = (*v, *o);
                assert_eq!(said, Cell::Reference { v, o }, "{place}");
                Some(None)
            }
        };
        self.long(i, j, held);
        let found = words(self.file, self.layout, i, j);
        let Some(sought) = sought else {
            return 0;
        };
        let due = sought.and_then(|code| self.label(i, code));
        assert_eq!(found, due, "{place}");
        u64::from(due.is_some())
    }

    fn long(&self, i: u64, j: u64, held: &generate::Cell) {
        let mut records = self.dataset.records.iter();
        let record = match held {
            generate::Cell::Reference(cell) => records.find(|record| record.cell == *cell),
            _ => None,
        };
        let (kind, contents) = match record {
            Some(record) => (record.kind, &record.contents[..]),
            None => (0, &[][..]),
        };
        let Answer::Long { kind: found, .. } = self.ask(Question::Long(i, j)) else {
            panic!("no long string: seed {}, {i}, {j}", self.seed);
        };
        assert_eq!(found, kind, "seed {}, {i}, {j}", self.seed);
        self.text(Question::Long(i, j), contents);
    }

    fn label(&self, i: u64, code: i32) -> Option<Vec<u8>> {
        let set = &self.dataset.sets[i as usize - 1];
        let mut blocks = self.dataset.blocks.iter();
        let block = blocks.find(|block| !set.is_empty() && block.name == *set)?;
        let entry = block.entries.iter().find(|entry| entry.0 == code)?;
        Some(entry.1.clone())
    }
}

// Dead bytes.

/// The answers, and the bytes that they name.
fn said(file: &[u8], layout: &Numbers) -> Vec<(Question, Answer, Vec<u8>)> {
    let said = |question| {
        let answer = ask(file, layout, question);
        let named = answer.named().map(|span| bytes(file, span).to_vec());
        (question, answer, named.unwrap_or_default())
    };
    every_question(layout).into_iter().map(said).collect()
}

#[test]
fn dead_bytes_are_in_no_answer() {
    let made = (0..2_000).map(|seed| {
        let file = generate::file(&mut Random::new(seed));
        (format!("seed {seed}"), file)
    });
    let stated = accepted().into_iter().map(|(name, file, _)| (name, file));
    let random = &mut Random::new(0);
    let mut changes = 0;
    for (name, file) in made.chain(stated) {
        let layout = check(&file).expect("accepted");
        let places = dead(&file, &layout);
        let before = said(&file, &numbers(&layout));
        for all in [true, false] {
            let mut changed = file.clone();
            for place in &places {
                if all || random.once_in(4) {
                    changed[*place] = random.byte();
                    changes += 1;
                }
            }
            assert_eq!(check(&changed).as_ref(), Ok(&layout), "{name}");
            assert!(said(&changed, &numbers(&layout)) == before, "{name}");
        }
    }
    assert!(changes > 100_000, "only {changes} changes");
}

// The boundary.
