//! The proved library as Rust programs call it, and the independent answers: each exported function on any file and any layout, with what it leaves of the lent
//! memory; and the safe crate over them.
//!
//! DTA_LIBRARY is how many generated files are asked, DTA_SEED is where the seeds start.

#[path = "library/across.rs"]
mod across;

use dta::raw;
use independent::damage::Source;
use independent::dataset::{dataset, Cell as Stored, Dataset};
use independent::edition::{Edition, NUMBERS};
use independent::generate::Order;
use independent::questions::{ask, numbers, Answer, Cell, Kind, Numbers, Question, Span};
use independent::random::Random;
use independent::sketch::{Sketch, Variable, X};
use independent::{check, generate, stated, wrong, Layout};

const GENERATED: u64 = 600;
/// Cells that are asked with one layout.
const CELLS: u64 = 4;
/// What stands in lent memory before a call.
const BEFORE: u64 = 0x5a5a_5a5a_5a5a_5a5a;

fn setting(name: &str, usual: u64) -> u64 {
    std::env::var(name).map_or(usual, |text| text.parse().expect(name))
}

/// The files of tests/, and generated ones, some of them damaged.
fn files() -> Vec<Vec<u8>> {
    let mut files: Vec<Vec<u8>> = stated::all()
        .into_iter()
        .map(|stated| stated.file)
        .collect();
    let seed = setting("DTA_SEED", 900_000);
    for seed in seed..seed + setting("DTA_LIBRARY", GENERATED) {
        let mut random = Random::new(seed);
        let file = generate::file(&mut random);
        if random.once_in(4) {
            let layout = check(&file).expect("a generated file");
            files.push(Source::new(file.clone(), &layout).damaged(&mut random));
        }
        files.push(file);
    }
    files
}

/// The four numbers of an answer, as the header for C programs has them.
fn coded(answer: Answer) -> [u64; 4] {
    let part = |kind, span: Span| [kind, span.place, span.length, 0];
    match answer {
        Answer::Refused(number) => [0, u64::from(number), 0, 0],
        Answer::Number(number) => [1, number, 0, 0],
        Answer::Date(yes) => [2, u64::from(yes), 0, 0],
        Answer::Type(of) => {
            let code = match of.kind {
                Kind::Text => of.width,
                Kind::Strl => 32768,
                Kind::Double => 65526,
                Kind::Float => 65527,
                Kind::Long => 65528,
                Kind::Int => 65529,
                Kind::Byte => 65530,
            };
            [3, code, 0, 0]
        }
        Answer::Text(span) | Answer::Words(Some(span)) => part(4, span),
        Answer::Words(None) => [5, 0, 0, 0],
        Answer::Cell(cell) => match cell {
            Cell::Whole(number) => [
                6,
                u64::from(number.unsigned_abs()),
                u64::from(number < 0),
                0,
            ],
            Cell::Float(bits) => [7, u64::from(bits), 0, 0],
            Cell::Double(bits) => [8, bits, 0, 0],
            Cell::Letter(letter) => [9, u64::from(letter), 0, 0],
            Cell::Between => [10, 0, 0, 0],
            Cell::Outside => [11, 0, 0, 0],
            Cell::Text(span) => part(12, span),
            Cell::Reference { v, o } => [13, v, o, 0],
        },
        Answer::Long { kind, contents } => [14, u64::from(kind), contents.place, contents.length],
        Answer::Column { .. } => unreachable!("it is not asked"),
    }
}

/// The questions about a variable and an observation, by their numbers.
fn questions(i: u64, j: u64) -> [Question; 16] {
    [
        Question::Edition,
        Question::Order,
        Question::K,
        Question::N,
        Question::Label,
        Question::Stamp,
        Question::Type(i),
        Question::Name(i),
        Question::Format(i),
        Question::Set(i),
        Question::VarLabel(i),
        Question::Date(i),
        Question::Sort(i),
        Question::Cell(i, j),
        Question::Long(i, j),
        Question::Words(i, j),
    ]
}

/// A plain text that is lent with label words.
const PLAIN: &[u8] = b"a plain text\xff";
/// What stands in lent bytes before a call.
const BYTE: u8 = 0x5a;

/// The bytes that an answer shows.
fn shown<'a>(file: &'a [u8], answer: Answer, plain: &'a [u8]) -> &'a [u8] {
    match answer {
        Answer::Text(span)
        | Answer::Words(Some(span))
        | Answer::Cell(Cell::Text(span))
        | Answer::Long { contents: span, .. } => {
            &file[span.place as usize..][..span.length as usize]
        }
        Answer::Words(None) => plain,
        _ => &[],
    }
}

type Ask = fn(&[u8], &[u64], u64, u64, u64, &mut [u64]) -> u8;
type AskFile = fn(&[u8], u64, u64, u64, &mut [u64]) -> u8;
type Text = fn(&[u8], &[u64], u64, u64, u64, &[u8], &mut [u8]) -> usize;
type Run = fn(&[u8], &[u64], u64, u64, &mut [u64], &mut [u64]) -> u8;

/// The functions that are compared: the library's, or wrong ones.
#[derive(Clone, Copy)]
struct Functions {
    ask: Ask,
    ask_file: AskFile,
    text: Text,
    down: Run,
    along: Run,
    words: Run,
}

const PROVED: Functions = Functions {
    ask: raw::ask,
    ask_file: raw::ask_file,
    text: raw::text,
    down: raw::cells_down,
    along: raw::cells_along,
    words: raw::words_down,
};

/// What is different in the bytes that the answers over a file and a layout show.
fn text_difference(
    of: &Functions,
    file: &[u8],
    layout: &Numbers,
    (i, j): (u64, u64),
    plain: &[u8],
    count: &mut u64,
) -> Option<String> {
    for (number, question) in questions(i, j).into_iter().enumerate() {
        let due = shown(file, ask(file, layout, question), plain);
        for room in [0, due.len().saturating_sub(1), due.len(), due.len() + 3] {
            let mut lent = vec![BYTE; room];
            let given = (of.text)(file, layout, number as u64, i, j, plain, &mut lent);
            let mut left = vec![BYTE; room];
            if due.len() <= room {
                left[..due.len()].copy_from_slice(due);
            }
            if given != due.len() || lent != left {
                return Some(format!(
                    "the text of {question:?} in {room}: {given} {lent:x?}, due {due:x?}"
                ));
            }
        }
        *count += u64::from(!due.is_empty());
    }
    None
}

/// What is different in the answers about a file that is checked first, with its verdict and its layout, or zeros.
fn file_difference(of: &Functions, file: &[u8], verdict: u8, layout: &Numbers) -> Option<String> {
    let (k, n) = (layout[2], layout[3]);
    for (i, j) in [(1, 1), (k, n), (0, 1), (k + 1, n)] {
        for (number, question) in questions(i, j).into_iter().enumerate() {
            let due = coded(ask(file, layout, question));
            for room in [0, 3, 4, 6] {
                let mut lent = vec![BEFORE; room];
                let code = (of.ask_file)(file, number as u64, i, j, &mut lent);
                let mut left = vec![BEFORE; room];
                if room >= 4 {
                    left[..4].copy_from_slice(&due);
                }
                let number = match (verdict, due[0]) {
                    (0, 0) => due[1],
                    _ => u64::from(verdict),
                };
                if u64::from(code) != number || lent != left {
                    return Some(format!(
                        "{question:?} of the file in {room}: {code} {lent:x?}, due {number} {left:x?}"
                    ));
                }
            }
        }
    }
    None
}

/// What is different in the answers over a file and a layout; how many answers were compared is added to `count`.
fn difference(
    of: &Functions,
    file: &[u8],
    layout: &Numbers,
    cells: &[(u64, u64)],
    count: &mut u64,
) -> Option<String> {
    for &(i, j) in cells {
        for (number, question) in questions(i, j).into_iter().enumerate() {
            let due = coded(ask(file, layout, question));
            for room in [0, 3, 4, 6] {
                let mut lent = vec![BEFORE; room];
                let code = (of.ask)(file, layout, number as u64, i, j, &mut lent);
                let mut left = vec![BEFORE; room];
                if room >= 4 {
                    left[..4].copy_from_slice(&due);
                }
                let number = if due[0] == 0 { due[1] } else { 0 };
                if u64::from(code) != number || lent != left {
                    return Some(format!(
                        "{question:?} in {room}: {code} {lent:x?}, due {number} {left:x?}"
                    ));
                }
            }
            *count += 1;
        }
        for plain in [PLAIN, &[]] {
            let difference = text_difference(of, file, layout, (i, j), plain, count);
            if difference.is_some() {
                return difference;
            }
        }
        let (k, n) = (layout[2], layout[3]);
        let runs: [(&str, Run, u64, u64, &dyn Fn(u64) -> Question); 3] = [
            ("down", of.down, j, n, &|m| Question::Cell(i, j + m)),
            ("along", of.along, i, k, &|m| Question::Cell(i + m, j)),
            ("words", of.words, j, n, &|m| Question::Words(i, j + m)),
        ];
        for (name, run, first, last, question) in runs {
            let (number, there) = match (1..=k).contains(&i) && (1..=n).contains(&j) {
                true => (0, last - first + 1),
                false => (16, 0),
            };
            for room in [0, 3, 4, 9, 41] {
                let many = there.min(room as u64 / 4);
                let mut left: Vec<u64> = (0..many)
                    .flat_map(|m| coded(ask(file, layout, question(m))))
                    .collect();
                left.resize(room, BEFORE);
                for places in [0, 1, 2] {
                    let mut lent = vec![BEFORE; room];
                    let mut told = vec![BEFORE; places];
                    let code = run(file, layout, i, j, &mut lent, &mut told);
                    let mut counted = vec![BEFORE; places];
                    counted.iter_mut().take(1).for_each(|place| *place = many);
                    if (code, &lent, &told) != (number, &left, &counted) {
                        return Some(format!(
                            "{name} {i} {j} in {room}: {code} {lent:x?} {told:x?}, due {number} {left:x?} {counted:x?}"
                        ));
                    }
                }
                *count += many;
            }
        }
    }
    None
}

/// Cells of a layout: those at the edges, and some that are not there.
fn some_cells(random: &mut Random, layout: &Numbers) -> Vec<(u64, u64)> {
    let (k, n) = (layout[2], layout[3]);
    let mut cells = vec![(1, 1), (k, n), (0, 1), (1, 0)];
    let over =
        |random: &mut Random, most: u64| 1 + random.below(most.min(1 << 40) as usize + 1) as u64;
    for _ in 0..CELLS {
        cells.push((over(random, k), over(random, n)));
    }
    cells.push((k.wrapping_add(1), u64::MAX));
    cells
}

/// The first difference over all files, by their own layouts and by wrong ones; else how many answers were compared.
fn first_difference(of: &Functions, files: &[Vec<u8>]) -> Result<u64, String> {
    let mut random = Random::new(setting("DTA_SEED", 4_000));
    let mut count = 0;
    let mut other = [0; 18];
    for file in files {
        let own = check(file).map(|layout| numbers(&layout));
        let verdict = own.as_ref().err().copied().unwrap_or(0);
        if let Some(difference) = file_difference(of, file, verdict, &own.unwrap_or([0; 18])) {
            return Err(format!("a file of {} bytes: {difference}", file.len()));
        }
        let mut layouts = Vec::new();
        match own {
            Ok(own) => {
                layouts.push(own);
                layouts.push(wrong::layout(&mut random, &own, &other, file.len()));
                let mut ends = own;
                wrong::other_ends(&mut random, &mut ends, file.len());
                layouts.push(ends);
                other = own;
            }
            Err(_) => layouts.push(other),
        }
        for layout in layouts {
            let cells = some_cells(&mut random, &layout);
            if let Some(difference) = difference(of, file, &layout, &cells, &mut count) {
                return Err(format!(
                    "a file of {} bytes by {layout:?}: {difference}",
                    file.len()
                ));
            }
        }
    }
    Ok(count)
}

#[test]
fn exported_questions_answer_alike() {
    let count =
        first_difference(&PROVED, &files()).unwrap_or_else(|difference| panic!("{difference}"));
    assert!(count > 600_000, "{count} answers");
}

#[test]
fn wrong_functions_are_found() {
    fn late(f: &[u8], l: &[u64], i: u64, j: u64, lent: &mut [u64], count: &mut [u64]) -> u8 {
        raw::cells_down(f, l, i, j.saturating_add(1), lent, count)
    }
    fn short(f: &[u8], l: &[u64], i: u64, j: u64, lent: &mut [u64], count: &mut [u64]) -> u8 {
        let room = lent.len().saturating_sub(4);
        raw::cells_along(f, l, i, j, &mut lent[..room], count)
    }
    fn plain(f: &[u8], l: &[u64], i: u64, j: u64, lent: &mut [u64], count: &mut [u64]) -> u8 {
        let code = raw::words_down(f, l, i, j, lent, count);
        for words in lent.chunks_exact_mut(4) {
            if words[0] == 4 && words[2] > 3 {
                words[2] -= 1;
            }
        }
        code
    }
    /// Nothing is stored, and nothing is said of it.
    fn silent(f: &[u8], l: &[u64], i: u64, j: u64, lent: &mut [u64], count: &mut [u64]) -> u8 {
        raw::cells_down(f, l, i, j, lent, count);
        0
    }
    /// An observation that is not there is none of its business.
    fn any_row(f: &[u8], l: &[u64], i: u64, j: u64, lent: &mut [u64], count: &mut [u64]) -> u8 {
        match raw::cells_along(f, l, i, j, lent, count) {
            16 if (1..=l[2]).contains(&i) => 0,
            code => code,
        }
    }
    /// Nor is a variable.
    fn any_column(f: &[u8], l: &[u64], i: u64, j: u64, lent: &mut [u64], count: &mut [u64]) -> u8 {
        match raw::words_down(f, l, i, j, lent, count) {
            16 if (1..=l[3]).contains(&j) => 0,
            code => code,
        }
    }
    /// A refused cell refuses the whole run.
    fn first_cell(f: &[u8], l: &[u64], i: u64, j: u64, lent: &mut [u64], count: &mut [u64]) -> u8 {
        match (raw::cells_down(f, l, i, j, lent, count), &*lent) {
            (0, [0, number, ..]) => *number as u8,
            (code, _) => code,
        }
    }
    /// The numbers that are stored are counted, and not the answers.
    fn numbers_of(f: &[u8], l: &[u64], i: u64, j: u64, lent: &mut [u64], count: &mut [u64]) -> u8 {
        let code = raw::cells_along(f, l, i, j, lent, count);
        count.iter_mut().take(1).for_each(|place| *place *= 4);
        code
    }
    fn seventeen(file: &[u8], layout: &[u64], number: u64, i: u64, j: u64, lent: &mut [u64]) -> u8 {
        match raw::ask(file, layout, number, i, j, lent) {
            16 => 17,
            code => code,
        }
    }
    /// The low half of o.
    fn short_o(file: &[u8], layout: &[u64], number: u64, i: u64, j: u64, lent: &mut [u64]) -> u8 {
        let code = raw::ask(file, layout, number, i, j, lent);
        if let [13, _, o, ..] = lent {
            *o &= 0xffff_ffff;
        }
        code
    }
    /// The low half of N.
    fn short_n(file: &[u8], layout: &[u64], number: u64, i: u64, j: u64, lent: &mut [u64]) -> u8 {
        let code = raw::ask(file, layout, number, i, j, lent);
        if let (3, [1, n, ..]) = (number, lent) {
            *n &= 0xffff_ffff;
        }
        code
    }
    fn stray(file: &[u8], layout: &[u64], number: u64, i: u64, j: u64, lent: &mut [u64]) -> u8 {
        let code = raw::ask(file, layout, number, i, j, lent);
        if let Some(past) = lent.get_mut(4) {
            *past = 0;
        }
        code
    }
    let files = files();
    for (name, of) in [
        (
            "late",
            Functions {
                down: late,
                ..PROVED
            },
        ),
        (
            "short",
            Functions {
                along: short,
                ..PROVED
            },
        ),
        (
            "plain",
            Functions {
                words: plain,
                ..PROVED
            },
        ),
        (
            "silent",
            Functions {
                down: silent,
                ..PROVED
            },
        ),
        (
            "any_row",
            Functions {
                along: any_row,
                ..PROVED
            },
        ),
        (
            "any_column",
            Functions {
                words: any_column,
                ..PROVED
            },
        ),
        (
            "first_cell",
            Functions {
                down: first_cell,
                ..PROVED
            },
        ),
        (
            "numbers_of",
            Functions {
                along: numbers_of,
                ..PROVED
            },
        ),
        (
            "seventeen",
            Functions {
                ask: seventeen,
                ..PROVED
            },
        ),
        (
            "short_o",
            Functions {
                ask: short_o,
                ..PROVED
            },
        ),
        (
            "short_n",
            Functions {
                ask: short_n,
                ..PROVED
            },
        ),
        (
            "stray",
            Functions {
                ask: stray,
                ..PROVED
            },
        ),
    ] {
        assert!(first_difference(&of, &files).is_err(), "{name}");
    }
}

#[test]
fn wrong_texts_are_found() {
    fn longer(f: &[u8], l: &[u64], q: u64, i: u64, j: u64, t: &[u8], out: &mut [u8]) -> usize {
        raw::text(f, l, q, i, j, t, out) + 1
    }
    fn plain(f: &[u8], l: &[u64], q: u64, i: u64, j: u64, t: &[u8], out: &mut [u8]) -> usize {
        if q != 15 {
            return raw::text(f, l, q, i, j, t, out);
        }
        if let Some(start) = out.get_mut(..t.len()) {
            start.copy_from_slice(t);
        }
        t.len()
    }
    fn never(f: &[u8], l: &[u64], q: u64, i: u64, j: u64, _: &[u8], out: &mut [u8]) -> usize {
        raw::text(f, l, q, i, j, &[], out)
    }
    fn cut(f: &[u8], l: &[u64], q: u64, i: u64, j: u64, t: &[u8], out: &mut [u8]) -> usize {
        let mut whole = vec![0; raw::text(f, l, q, i, j, t, &mut [])];
        let bytes = raw::text(f, l, q, i, j, t, &mut whole);
        let some = bytes.min(out.len());
        out[..some].copy_from_slice(&whole[..some]);
        bytes
    }
    fn ended(f: &[u8], l: &[u64], q: u64, i: u64, j: u64, t: &[u8], out: &mut [u8]) -> usize {
        let bytes = raw::text(f, l, q, i, j, t, out);
        if let Some(past) = out.get_mut(bytes) {
            *past = 0;
        }
        bytes
    }
    fn without_long(
        f: &[u8],
        l: &[u64],
        q: u64,
        i: u64,
        j: u64,
        t: &[u8],
        out: &mut [u8],
    ) -> usize {
        raw::text(f, l, if q == 14 { 13 } else { q }, i, j, t, out)
    }
    fn answers_alone(file: &[u8], number: u64, i: u64, j: u64, lent: &mut [u64]) -> u8 {
        let mut layout = [0; raw::LAYOUT];
        raw::check(file, &mut layout);
        raw::ask(file, &layout, number, i, j, lent)
    }
    fn nothing_stored(file: &[u8], number: u64, i: u64, j: u64, lent: &mut [u64]) -> u8 {
        match raw::check(file, &mut []) {
            0 => raw::ask_file(file, number, i, j, lent),
            verdict => verdict,
        }
    }
    let files = files();
    let texts: [(&str, Text); 6] = [
        ("longer", longer),
        ("plain", plain),
        ("never", never),
        ("cut", cut),
        ("ended", ended),
        ("without_long", without_long),
    ];
    for (name, text) in texts {
        let of = Functions { text, ..PROVED };
        assert!(first_difference(&of, &files).is_err(), "{name}");
    }
    let asks: [(&str, AskFile); 2] = [
        ("answers_alone", answers_alone),
        ("nothing_stored", nothing_stored),
    ];
    for (name, ask_file) in asks {
        let of = Functions { ask_file, ..PROVED };
        assert!(first_difference(&of, &files).is_err(), "{name}");
    }
}

#[test]
fn layouts_and_questions_that_are_none() {
    let file = stated::case("117-msf-typical");
    let own = numbers(&check(&file).unwrap());
    for count in 0..18 {
        let mut lent = [BEFORE; 4];
        assert_eq!(raw::ask(&file, &own[..count], 2, 0, 0, &mut lent), 17);
        assert_eq!(raw::ask(&file, &own[..count], 13, 1, 1, &mut lent), 16);
        assert_eq!(lent, [0, 16, 0, 0]);
        for run in [raw::cells_down, raw::cells_along, raw::words_down] {
            let (mut run_lent, mut many) = ([BEFORE; 4], [BEFORE]);
            let code = run(&file, &own[..count], 1, 1, &mut run_lent, &mut many);
            assert_eq!((code, run_lent, many), (16, [BEFORE; 4], [0]));
        }
        let mut out = [BYTE; 9];
        for number in 0..16 {
            assert_eq!(
                raw::text(&file, &own[..count], number, 1, 1, PLAIN, &mut out),
                0
            );
        }
        assert_eq!(out, [BYTE; 9]);
    }
    let longer: Vec<u64> = own.iter().copied().chain([7, 7]).collect();
    let mut lent = [BEFORE; 4];
    assert_eq!(raw::ask(&file, &longer, 2, 0, 0, &mut lent), 0);
    assert_eq!(lent, [1, own[2], 0, 0]);
    for number in [16, 17, 255, u64::MAX] {
        lent = [BEFORE; 4];
        assert_eq!(raw::ask(&file, &own, number, 1, 1, &mut lent), 255);
        assert_eq!(lent, [0, 255, 0, 0]);
        lent = [BEFORE; 4];
        assert_eq!(raw::ask_file(&file, number, 1, 1, &mut lent), 255);
        assert_eq!(lent, [0, 255, 0, 0]);
        let cut = &file[..file.len() - 1];
        lent = [BEFORE; 4];
        assert_eq!(Err(raw::ask_file(cut, number, 1, 1, &mut lent)), check(cut));
        assert_eq!(lent, [0, 255, 0, 0]);
        let mut out = [BYTE; 40];
        assert_eq!(raw::text(&file, &own, number, 1, 1, PLAIN, &mut out), 0);
        assert_eq!(out, [BYTE; 40]);
    }
}

/// A file of bytes whose label set has entries at these offsets of a text, for 1, 2, ..; and where its table stands.
fn labelled(offsets: &[usize], text: &[u8], n: u64) -> (Vec<u8>, usize) {
    let order = Order::Lsf;
    let entries = offsets.len() as u64;
    let mut table = [order.bytes(entries, 4), order.bytes(text.len() as u64, 4)].concat();
    for offset in offsets {
        table.extend(order.bytes(*offset as u64, 4));
    }
    for value in 1..=entries {
        table.extend(order.bytes(value, 4));
    }
    table.extend(text);
    let place = table.len();
    let mut sketch = Sketch::new(114, order);
    sketch.variables = vec![Variable { set: "set", ..X }];
    sketch.n = n;
    sketch.data = (0..n).map(|j| (j % (entries + 1)) as u8).collect();
    sketch.blocks = vec![("set", table)];
    let file = sketch.file();
    let place = file.len() - place;
    (file, place)
}

/// Labels far longer than the stretches by which their ends are looked up, many of which share a text. To go through the text of each cell would be to read
/// 51 GB.
#[test]
fn long_labels_down_a_column() {
    let length = 5_308_416;
    let zeros = [1000, 1279, 1280, 3_000_000, length - 1];
    let mut text = vec![b'a'; length];
    zeros.iter().for_each(|zero| text[*zero] = 0);
    let starts = [
        0, 1, 255, 256, 257, 999, 1000, 1001, 1023, 1024, 1279, 1280, 1281, 1535, 1536,
    ];
    let ends = [257, 256, 255, 1].map(|back| length - back);
    let offsets = [&starts[..], &[2_999_999, 3_000_001], &ends].concat();
    let n = 100_000;
    let (file, table) = labelled(&offsets, &text, n);
    let own = numbers(&check(&file).unwrap());
    let area = table + 8 + 8 * offsets.len();
    let mut lent = vec![BEFORE; 4 * n as usize];
    let mut count = [0];
    assert_eq!(raw::words_down(&file, &own, 1, 1, &mut lent, &mut count), 0);
    assert_eq!(count, [n as u64]);
    for (j, answer) in lent.chunks(4).enumerate() {
        let due = match (j % (offsets.len() + 1)).checked_sub(1) {
            None => [5, 0, 0, 0],
            Some(entry) => {
                let offset = offsets[entry];
                let end = *zeros.iter().find(|zero| offset <= **zero).unwrap();
                [4, (area + offset) as u64, (end - offset) as u64, 0]
            }
        };
        assert_eq!(answer, due, "observation {}", j + 1);
    }
    assert_eq!(twice(&file, &own, n), [&lent[..], &lent].concat());
}

/// The label words of variable 1, listed twice, in so many observations.
fn twice(file: &[u8], layout: &Numbers, n: u64) -> Vec<u64> {
    let mut lent = vec![BEFORE; 8 * n as usize];
    let mut count = [0];
    let code = raw::words_across(file, layout, &[1, 1], 1, n, &mut lent, &mut count);
    assert_eq!((code, count), (0, [2 * n]));
    lent
}

/// Over a wrong layout the text area may be longer than any right one, or pass the file's end.
#[test]
fn long_labels_of_wrong_layouts() {
    let offsets = [
        0, 255, 256, 1000, 5_308_415, 5_308_416, 5_999_998, 5_999_999,
    ];
    let n = offsets.len() as u64 + 1;
    for length in [5_308_416, 5_308_417, 6_000_000] {
        let mut text = vec![b'a'; length];
        for zero in [1000, 5_308_415, length - 1] {
            text[zero] = 0;
        }
        let (file, _) = labelled(&offsets, &text, n);
        let (right, _) = labelled(&[], b"", n);
        let mut layout = numbers(&check(&right).unwrap());
        layout[16] = file.len() as u64;
        layout[17] = file.len() as u64;
        let cuts = [1001, 1000, 0].map(|kept| length - kept);
        for cut in [0, 1, 100, length + 4, length + 70].iter().chain(&cuts) {
            let file = &file[..file.len() - cut];
            let mut lent = vec![BEFORE; 4 * n as usize];
            let mut count = [0];
            let code = raw::words_down(file, &layout, 1, 1, &mut lent, &mut count);
            assert_eq!((code, count), (0, [n as u64]));
            for (j, answer) in (1..=n).zip(lent.chunks(4)) {
                let due = coded(ask(file, &layout, Question::Words(1, j)));
                assert_eq!(
                    answer, due,
                    "text of {length}, {cut} cut off, observation {j}"
                );
            }
            assert_eq!(twice(file, &layout, n), [&lent[..], &lent].concat());
        }
    }
}

/// The stack that the header for C programs asks for.
#[test]
fn half_a_megabyte_of_stack_is_enough() {
    let asked = || {
        let file = stated::case("117-msf-typical");
        let own = numbers(&check(&file).unwrap());
        let mut lent = [BEFORE; 400];
        let mut count = [BEFORE];
        for number in 0..16 {
            assert_eq!(raw::ask(&file, &own, number, 1, 1, &mut lent), 0);
            assert_eq!(raw::ask_file(&file, number, 1, 1, &mut lent), 0);
            raw::text(&file, &own, number, 1, 1, PLAIN, &mut [BYTE; 400]);
        }
        for run in [raw::cells_down, raw::cells_along, raw::words_down] {
            assert_eq!(run(&file, &own, 1, 1, &mut lent, &mut count), 0);
            assert!(count[0] > 0);
        }
        assert_eq!(raw::long_list(&file, &mut lent, &mut count), 0);
        assert_eq!(raw::set_list(&file, &mut lent, &mut count), 0);
        assert!(count[0] > 3);
        assert_eq!(raw::sort_order(&file, &mut lent, &mut count), 0);
    };
    let thread = std::thread::Builder::new().stack_size(512 * 1024);
    thread.spawn(asked).unwrap().join().unwrap();
}

// Lists.

type List = fn(&[u8], &mut [u64], &mut [u64]) -> u8;

/// The library's lists: of long strings, of label sets, of the sort order.
const LISTS: [List; 3] = [raw::long_list, raw::set_list, raw::sort_order];

/// The numbers of a file's long strings, of its label sets, and of its sort order.
fn lists(file: &[u8], dataset: &Dataset, layout: &Layout) -> [Vec<u64>; 3] {
    let (edition, positions) = (Edition::known(layout.edition), &layout.positions);
    let tag = |size: u64| if edition.tagged { size } else { 0 };
    let record_head = 3 + edition.record_head() as u64;
    let block_head = edition.block_head() as u64;
    let mut longs = Vec::new();
    let mut at = positions[10] + tag(7);
    for record in &dataset.records {
        let length = record.contents.len() as u64;
        let contents = at + record_head;
        longs.extend([record.v, record.o, u64::from(record.kind), contents, length]);
        at = contents + length;
    }
    let mut sets = Vec::new();
    let mut at = positions[11] + tag(14);
    for block in &dataset.blocks {
        at += tag(5);
        let n = block.entries.len() as u64;
        sets.extend([at + 4, block.name.len() as u64, n]);
        let text = at + block_head + 8 + 8 * n;
        for entry in &block.entries {
            sets.extend([entry.value, text + entry.offset, entry.text.len() as u64]);
            assert_eq!(
                file[(text + entry.offset) as usize..][..entry.text.len()],
                entry.text
            );
        }
        at = text + block.text_length + tag(6);
    }
    [longs, sets, dataset.sorted.clone()]
}

/// What is different between lists and those of the dataset over all files, with room for all numbers, for fewer and for more; else how many numbers they have.
fn list_difference(of: [List; 3], files: &[Vec<u8>]) -> Result<[usize; 3], String> {
    let mut counts = [0; 3];
    for file in files {
        let verdict = check(file);
        let due = match &verdict {
            Ok(layout) => lists(file, &dataset(file, layout), layout),
            Err(_) => Default::default(),
        };
        for (at, (list, due)) in of.into_iter().zip(due).enumerate() {
            counts[at] += due.len();
            for room in [0, due.len().saturating_sub(1), due.len(), due.len() + 3] {
                let number = match verdict {
                    Ok(_) if room < due.len() => 14,
                    Ok(_) => 0,
                    Err(number) => number,
                };
                for places in [0, 1, 2] {
                    let mut lent = vec![BEFORE; room];
                    let mut count = vec![BEFORE; places];
                    let code = list(file, &mut lent, &mut count);
                    let mut left = vec![BEFORE; room];
                    if due.len() <= room {
                        left[..due.len()].copy_from_slice(&due);
                    }
                    let mut counted = vec![BEFORE; places];
                    if places > 0 {
                        counted[0] = due.len() as u64;
                    }
                    if (code, &lent, &count) != (number, &left, &counted) {
                        return Err(format!(
                            "list {at} in {room}: {code} {lent:x?} {count:x?}, due {number} {left:x?} {counted:x?}"
                        ));
                    }
                }
            }
        }
    }
    Ok(counts)
}

#[test]
fn lists_are_those_of_the_dataset() {
    let counts =
        list_difference(LISTS, &files()).unwrap_or_else(|difference| panic!("{difference}"));
    let [long_strings, sets, sorted] = counts;
    assert!(
        long_strings > 1_000 && sets > 2_000 && sorted > 500,
        "{counts:?} numbers"
    );
}

#[test]
fn a_file_sorted_by_all_its_variables() {
    let file = |edition, order| {
        let mut sketch = Sketch::new(edition, order);
        sketch.variables = vec![X; 32_767];
        sketch.sorted = (1..=32_767).rev().collect();
        sketch.file()
    };
    let editions = NUMBERS.into_iter();
    let files: Vec<Vec<u8>> = editions
        .flat_map(|edition| [Order::Msf, Order::Lsf].map(|order| file(edition, order)))
        .collect();
    assert_eq!(list_difference(LISTS, &files), Ok([0, 0, 10 * 32_767]));
}

#[test]
fn wrong_sort_orders_are_found() {
    /// By the variables' numbers.
    fn ascending(file: &[u8], lent: &mut [u64], count: &mut [u64]) -> u8 {
        let code = raw::sort_order(file, lent, count);
        if let Some(stored) = count
            .first()
            .and_then(|many| lent.get_mut(..*many as usize))
        {
            stored.sort_unstable();
        }
        code
    }
    /// As many as there is room for.
    fn cut(file: &[u8], lent: &mut [u64], count: &mut [u64]) -> u8 {
        let mut all = [0; 64];
        let mut many = [0];
        let code = raw::sort_order(file, &mut all, &mut many);
        for (place, number) in lent.iter_mut().zip(&all[..many[0].min(64) as usize]) {
            *place = *number;
        }
        count.iter_mut().take(1).for_each(|place| *place = many[0]);
        match code {
            0 if (lent.len() as u64) < many[0] => 14,
            code => code,
        }
    }
    /// The zero that ends the sort list with them.
    fn ended(file: &[u8], lent: &mut [u64], count: &mut [u64]) -> u8 {
        let code = raw::sort_order(file, lent, count);
        let many = count.first().map_or(lent.len(), |many| *many as usize);
        if let Some(past) = lent.get_mut(many) {
            *past = 0;
        }
        code
    }
    /// Done, where there is no room.
    fn silent(file: &[u8], lent: &mut [u64], count: &mut [u64]) -> u8 {
        match raw::sort_order(file, lent, count) {
            14 => 0,
            code => code,
        }
    }
    /// No list is empty.
    fn roomless(file: &[u8], lent: &mut [u64], count: &mut [u64]) -> u8 {
        match (raw::sort_order(file, lent, count), lent.len()) {
            (0, 0) => 14,
            (code, _) => code,
        }
    }
    /// A refusal has no count.
    fn uncounted(file: &[u8], lent: &mut [u64], count: &mut [u64]) -> u8 {
        let code = raw::sort_order(file, lent, count);
        if code == 14 {
            count.iter_mut().take(1).for_each(|place| *place = 0);
        }
        code
    }
    /// Room is asked for before the file is judged.
    fn room_first(file: &[u8], lent: &mut [u64], count: &mut [u64]) -> u8 {
        match (raw::sort_order(file, lent, count), lent.len()) {
            (1..=13, 0) => 14,
            (code, _) => code,
        }
    }
    /// A file that is refused is sorted by nothing.
    fn accepted(file: &[u8], lent: &mut [u64], count: &mut [u64]) -> u8 {
        raw::sort_order(file, lent, count);
        0
    }
    let files = files();
    for (name, wrong) in [
        ("ascending", ascending as List),
        ("cut", cut),
        ("ended", ended),
        ("silent", silent),
        ("roomless", roomless),
        ("uncounted", uncounted),
        ("room_first", room_first),
        ("accepted", accepted),
    ] {
        let of = [raw::long_list, raw::set_list, wrong];
        assert!(list_difference(of, &files).is_err(), "{name}");
    }
}

// The safe crate.

/// What a cell of the safe crate says, in the independent words.
fn said(cell: dta::Cell, file: &[u8]) -> Cell {
    match cell {
        dta::Cell::Whole(number) => Cell::Whole(number),
        dta::Cell::Float(number) => Cell::Float(number.to_bits()),
        dta::Cell::Double(number) => Cell::Double(number.to_bits()),
        dta::Cell::Letter(letter) => Cell::Letter(letter),
        dta::Cell::Between => Cell::Between,
        dta::Cell::Outside => Cell::Outside,
        dta::Cell::Text(text) => Cell::Text(Span {
            place: text.as_ptr() as u64 - file.as_ptr() as u64,
            length: text.len() as u64,
        }),
        dta::Cell::Reference { v, o } => Cell::Reference { v, o },
    }
}

#[test]
fn the_safe_crate_says_what_the_dataset_is() {
    let mut accepted = 0;
    for file in files() {
        let layout = match (check(&file), dta::open(&file)) {
            (Ok(layout), Ok(_)) => layout,
            (Err(number), Err(refusal)) => {
                assert_eq!(number, refusal.number());
                continue;
            }
            (due, given) => panic!("{due:?}, {}", given.is_ok()),
        };
        accepted += 1;
        let opened = dta::open(&file[..]).unwrap();
        let due = dataset(&file, &layout);
        let own = numbers(&layout);
        assert_eq!(opened.layout().0, own);
        assert_eq!(
            (opened.label(), opened.stamp()),
            (&due.label[..], &due.stamp[..])
        );
        assert_eq!(opened.sort_order(), due.sorted);
        let variables: Vec<dta::Variable> = opened.variables().collect();
        assert_eq!(variables.len(), due.variables.len());
        for (variable, due) in variables.iter().zip(&due.variables) {
            assert_eq!(variable.name, due.name);
            assert_eq!(
                (variable.format, variable.set, variable.label),
                (&due.format[..], &due.set[..], &due.label[..])
            );
            assert_eq!(variable.is_date, due.format.starts_with(b"%t"));
        }
        cells_are_those(&file, &opened, &own, &due);
        let sets: Vec<(Vec<u8>, Vec<(u64, Vec<u8>)>)> = opened
            .label_sets()
            .map(|set| {
                (
                    set.name.to_vec(),
                    set.entries
                        .map(|(value, text)| (u64::from(value as u32), text.to_vec()))
                        .collect(),
                )
            })
            .collect();
        let blocks = due.blocks.iter().map(|block| {
            let entries = block
                .entries
                .iter()
                .map(|entry| (entry.value, entry.text.clone()));
            (block.name.clone(), entries.collect())
        });
        assert_eq!(sets, blocks.collect::<Vec<_>>());
        let (k, n) = (own[2], own[3]);
        assert_eq!(opened.variable(k + 1).unwrap_err().number(), 16);
        assert_eq!(opened.cell(1, n + 1).unwrap_err().number(), 16);
        let number = |refusal: dta::Refusal| refusal.number();
        assert_eq!(opened.column(0).err().map(number), Some(16));
        assert_eq!(opened.column_words(k + 1).err().map(number), Some(16));
        for j in [0, n + 1] {
            assert_eq!(opened.column_from(1, j).err().map(number), Some(16));
            assert_eq!(opened.column_words_from(1, j).err().map(number), Some(16));
            assert_eq!(opened.rows_from(j).err().map(number), Some(16));
        }
        if n > 0 {
            assert_eq!(opened.rows_from(n).map(Iterator::count), Ok(1));
            assert_eq!(opened.column_from(k, n).map(Iterator::count), Ok(1));
            assert_eq!(opened.column_words_from(k, n).map(Iterator::count), Ok(1));
            assert_eq!(opened.column_from(k + 1, n).err().map(number), Some(16));
        }
    }
    assert!(accepted > 500, "{accepted} accepted files");
}

/// By rows, by columns and one by one; with words and long strings.
fn cells_are_those(file: &[u8], opened: &dta::File<&[u8]>, own: &Numbers, due: &Dataset) {
    let (k, n) = (own[2], own[3]);
    let longs = opened.long_strings();
    assert_eq!(longs.len(), due.records.len());
    let rows: Vec<Vec<dta::Cell>> = opened.rows().collect();
    assert_eq!(rows.len() as u64, n);
    for i in 1..=k {
        let column: Vec<dta::Cell> = opened.column(i).unwrap().collect();
        let words: Vec<dta::Words> = opened.column_words(i).unwrap().collect();
        assert_eq!((column.len(), words.len()), (n as usize, n as usize));
        for j in 1..=n {
            let at = (j - 1) as usize;
            let cell = column[at];
            assert_eq!(
                Answer::Cell(said(cell, file)),
                ask(file, own, Question::Cell(i, j))
            );
            assert_eq!(rows[at][i as usize - 1], cell);
            assert_eq!(opened.cell(i, j).unwrap(), cell);
            let plain: &[u8] = b"plain";
            let shown = match ask(file, own, Question::Words(i, j)) {
                Answer::Words(Some(span)) => &file[span.place as usize..][..span.length as usize],
                Answer::Words(None) => plain,
                other => panic!("{other:?}"),
            };
            assert_eq!(words[at].or(plain), shown);
            assert_eq!(opened.words(i, j, plain).unwrap(), shown);
            let stored = &due.cells[(at as u64 * k + i - 1) as usize];
            if let (Stored::Reference { .. }, dta::Cell::Reference { v, o }) = (stored, cell) {
                let record = due
                    .records
                    .iter()
                    .find(|record| (record.v, record.o) == (v, o));
                let long = longs.get(v, o);
                assert_eq!(
                    long.map(|long| (long.kind, long.contents.to_vec())),
                    record.map(|record| (record.kind, record.contents.clone()))
                );
                let (kind, contents) = opened.long_string(i, j).unwrap();
                assert_eq!(
                    long.map_or((0, &[][..]), |long| (long.kind, long.contents)),
                    (kind, contents)
                );
            }
        }
    }
}

#[test]
fn the_safe_crate_rewrites() {
    use independent::writer::{rewritten, TARGETS};
    let mut done = 0;
    for file in files() {
        let Ok(opened) = dta::open(&file) else {
            continue;
        };
        for target in TARGETS {
            let (edition, order) = target.numbers();
            let order_of = match order {
                1 => dta::ByteOrder::Msf,
                _ => dta::ByteOrder::Lsf,
            };
            let given = opened
                .rewritten(edition, order_of)
                .map_err(|refusal| refusal.number());
            assert!(
                given == rewritten(&file, edition, order, u64::MAX),
                "{edition} {order}"
            );
            done += u64::from(given.is_ok());
        }
        assert_eq!(
            opened
                .rewritten(119, dta::ByteOrder::Msf)
                .unwrap_err()
                .number(),
            15
        );
    }
    assert!(done > 1_500, "{done} rewrites");
}
