//! The questions over layouts that are wrong for the file: the answers of the program `dta_ask`, with the bytes that they name, and
//! the independent ones.
//!
//! DTA_ASKED and DTA_TABLES are how many files are asked, DTA_SEED is where the seeds start.

use independent::damage::Source;
use independent::questions::{answer, numbers, sought, Answer, Cell, Numbers, Question, Why};
use independent::random::Random;
use independent::record::{difference, Record, LONGEST};
use independent::{check, generate, stated, wrong};
use std::collections::BTreeMap;
use std::io::Write;

const ASKED: u64 = 1_500;
/// Damaged copies of one file.
const COPIES: u64 = 3;
/// Wrong layouts of one file, or of a damaged copy.
const LAYOUTS: u64 = 5;
/// Cells that are asked with one layout.
const CELLS: u64 = 3;
/// Files whose tables and records are damaged.
const TABLES: u64 = 25_000;
/// How often each kind of answer has to occur, so that the test says something.
const LEAST: u64 = 200;
/// Records that the program is given at once.
const BATCH: usize = 1_000;

fn setting(name: &str, usual: u64) -> u64 {
    match std::env::var(name) {
        Ok(text) => text
            .parse()
            .unwrap_or_else(|_| panic!("{name} isn't a number: {text}")),
        Err(_) => usual,
    }
}

/// What a kind of answer is called.
fn kind(file: &[u8], layout: &Numbers, question: Question, due: Result<Answer, Why>) -> String {
    let named = match due {
        Err(why) => return format!("{} {why:?}", why.number()),
        Ok(Answer::Refused(number)) => unreachable!("refused {number}"),
        Ok(Answer::Number(0)) => "number 0",
        Ok(Answer::Number(_)) => match question {
            Question::Sort(_) => "sort place",
            _ => "number",
        },
        Ok(Answer::Date(true)) => "date",
        Ok(Answer::Date(false)) => "no date",
        Ok(Answer::Type(of)) => return format!("type {:?}", of.kind),
        Ok(Answer::Text(span)) => match span.length {
            0 => "text empty",
            12 | 33 | 49 | 81 | 57 | 129 | 321 => "text of full width",
            _ => "text",
        },
        Ok(Answer::Column { .. }) => "column",
        Ok(Answer::Cell(cell)) => match cell {
            Cell::Whole(_) => "cell whole",
            Cell::Float(_) => "cell float",
            Cell::Double(_) => "cell double",
            Cell::Letter(_) => "cell letter",
            Cell::Between => "cell between",
            Cell::Outside => "cell outside",
            Cell::Text(_) => "cell text",
            Cell::Reference { .. } => "cell reference",
        },
        Ok(Answer::Long { kind: 0, contents }) if contents.place == 0 => "long none",
        Ok(Answer::Long { .. }) => "long",
        Ok(Answer::Words(Some(_))) => "words label",
        Ok(Answer::Words(None)) => plain(file, layout, question),
    };
    named.to_string()
}

/// Why the plain text is shown.
fn plain(file: &[u8], layout: &Numbers, question: Question) -> &'static str {
    let Question::Words(i, j) = question else {
        unreachable!("words");
    };
    let cell = match answer(file, layout, Question::Cell(i, j)) {
        Ok(Answer::Cell(cell)) => cell,
        other => unreachable!("{other:?}"),
    };
    match (sought(cell), answer(file, layout, Question::Set(i))) {
        (None, _) => "plain, nothing sought",
        (_, Ok(Answer::Text(set))) if set.length == 0 => "plain, no set",
        _ => "plain, not found",
    }
}

/// Those that damaged tables and records bring.
const TABLE_KINDS: [&str; 22] = [
    "16 Range",
    "17 Outside",
    "17 Block",
    "17 Record",
    "17 Table",
    "17 Offset",
    "17 Unended",
    "17 NoRecord",
    "cell whole",
    "cell float",
    "cell double",
    "cell letter",
    "cell between",
    "cell outside",
    "cell text",
    "cell reference",
    "long none",
    "long",
    "words label",
    "plain, nothing sought",
    "plain, no set",
    "plain, not found",
];

/// Those that wrong layouts bring.
const KINDS: [&str; 38] = [
    "16 Range",
    "17 Edition",
    "17 Outside",
    "17 Type",
    "17 Block",
    "17 Record",
    "17 Table",
    "17 NoRecord",
    "number 0",
    "number",
    "sort place",
    "date",
    "no date",
    "type Text",
    "type Strl",
    "type Byte",
    "type Int",
    "type Long",
    "type Float",
    "type Double",
    "text empty",
    "text of full width",
    "text",
    "column",
    "cell whole",
    "cell float",
    "cell double",
    "cell letter",
    "cell between",
    "cell outside",
    "cell text",
    "cell reference",
    "long none",
    "long",
    "words label",
    "plain, nothing sought",
    "plain, no set",
    "plain, not found",
];

#[derive(Default)]
struct Comparison {
    layouts: u64,
    counts: BTreeMap<String, u64>,
    records: Vec<Record>,
    names: Vec<String>,
}

impl Comparison {
    /// All questions for a variable and an observation.
    fn compare(&mut self, file: &[u8], layout: &Numbers, i: u64, j: u64, name: &str) {
        assert!(file.len() <= LONGEST);
        let (file, layout) = (file.to_vec(), *layout);
        let record = Record { file, layout, i, j };
        for question in record.questions() {
            let due = answer(&record.file, &layout, question);
            let kind = kind(&record.file, &layout, question, due);
            *self.counts.entry(kind).or_default() += 1;
        }
        self.records.push(record);
        self.names.push(name.to_string());
        if self.records.len() == BATCH {
            self.answered();
        }
    }

    /// The program's answers to the records so far.
    fn answered(&mut self) {
        if let Some((index, what)) = difference(&self.records) {
            let name = self.names.get(index).map_or("end", String::as_str);
            let kept = std::env::temp_dir().join(format!("dta-difference-{name}.dta"));
            if let Some(record) = self.records.get(index) {
                std::fs::write(&kept, &record.file).expect("the file is kept");
            }
            panic!("{name}: {what}; kept in {}", kept.display());
        }
        self.records.clear();
        self.names.clear();
    }

    /// Some cells.
    fn compare_some(&mut self, file: &[u8], layout: &Numbers, random: &mut Random, name: &str) {
        self.layouts += 1;
        for _ in 0..CELLS {
            let i = number(random, layout[2]);
            let j = number(random, layout[3]);
            self.compare(file, layout, i, j, name);
        }
    }

    /// Shows how often each kind of answer occurred; those listed must not be rare.
    fn end(mut self, kinds: &[&str]) {
        self.answered();
        let total: u64 = self.counts.values().sum();
        let mut line = format!("{total} questions over {} layouts:", self.layouts);
        for (kind, count) in &self.counts {
            line += &format!(" {kind}: {count};");
        }
        writeln!(std::io::stdout(), "{line}").expect("the line is written");
        for kind in self.counts.keys() {
            let kind = kind.as_str();
            let listed = KINDS.contains(&kind) || TABLE_KINDS.contains(&kind);
            assert!(listed, "{kind} isn't listed");
        }
        for kind in kinds {
            let count = self.counts.get(*kind).copied().unwrap_or(0);
            assert!(count >= LEAST, "{kind} occurred {count} times only");
        }
    }
}

/// A variable or observation, mostly one that is there.
fn number(random: &mut Random, count: u64) -> u64 {
    match random.below(40) {
        0 => 0,
        1 => count,
        2 => count.wrapping_add(1),
        3 => random.number(),
        _ => 1 + random.below(count.clamp(1, 9) as usize) as u64,
    }
}

/// A generated file that a record can have, also with some bytes more.
fn short(random: &mut Random) -> Vec<u8> {
    loop {
        let file = generate::file(random);
        if file.len() <= LONGEST / 2 {
            return file;
        }
    }
}

/// Accepted files of tests/ below 20 kB.
fn stated_files() -> Vec<(Vec<u8>, Numbers)> {
    let files: Vec<_> = stated::all()
        .into_iter()
        .filter(|stated| stated.file.len() < 20_000)
        .filter_map(|stated| {
            let layout = numbers(&check(&stated.file).ok()?);
            Some((stated.file, layout))
        })
        .collect();
    assert!(files.len() >= 40, "only {} accepted files", files.len());
    files
}

#[test]
fn wrong_layouts_get_the_same_answer() {
    let asked = setting("DTA_ASKED", ASKED);
    let first = setting("DTA_SEED", 0);
    let stated = stated_files();
    let mut comparison = Comparison::default();
    let mut other = stated[0].1;
    for seed in (first..).take(asked as usize) {
        let random = &mut Random::new(seed);
        let (file, own) = if random.once_in(4) {
            stated[random.below(stated.len())].clone()
        } else {
            let file = short(random);
            let own = numbers(&check(&file).expect("a generated file is accepted"));
            (file, own)
        };
        let source = Source::new(file.clone(), &check(&file).expect("accepted"));
        for copy in 0..=COPIES {
            let file = match copy {
                0 => file.clone(),
                _ => source.damaged(random),
            };
            let name = format!("{seed}-{copy}");
            if copy > 0 {
                comparison.compare_some(&file, &own, random, &name);
            }
            for _ in 0..LAYOUTS {
                let layout = wrong::layout(random, &own, &other, file.len());
                comparison.compare_some(&file, &layout, random, &name);
            }
        }
        other = own;
    }
    let all = asked >= ASKED;
    comparison.end(if all { &KINDS } else { &[] });
}

#[test]
fn each_number_may_be_off_by_one() {
    let made = (0..200).map(|seed| {
        let file = short(&mut Random::new(seed));
        let own = numbers(&check(&file).expect("a generated file is accepted"));
        (file, own)
    });
    let random = &mut Random::new(1);
    let mut comparison = Comparison::default();
    for (index, (file, own)) in stated_files().into_iter().chain(made).enumerate() {
        for layout in wrong::off_by_one(&own) {
            comparison.compare_some(&file, &layout, random, &format!("off-{index}"));
        }
    }
    comparison.end(&[]);
}

/// Layouts that are right but for the ends of the records and label blocks, on damaged tables and records.
#[test]
fn damaged_tables_and_records_get_the_same_answer() {
    let asked = setting("DTA_TABLES", TABLES);
    let first = setting("DTA_SEED", 0);
    let mut comparison = Comparison::default();
    let mut seeds = first..;
    while comparison.layouts < asked {
        let seed = seeds.next().expect("a seed");
        let random = &mut Random::new(seed);
        let file = short(random);
        let layout = check(&file).expect("a generated file is accepted");
        if layout.n == 0 {
            continue;
        }
        let mut numbers = numbers(&layout);
        let mut file = Source::new(file, &layout).damaged_in_place(random);
        if random.once_in(6) {
            wrong::other_ends(random, &mut numbers, file.len());
        }
        if random.once_in(8) {
            let records = layout.positions[10] as usize;
            file.truncate(random.between(records, file.len()));
        }
        comparison.layouts += 1;
        let cells = layout.n as u64 * u64::from(layout.k);
        for _ in 0..(2 * cells).min(6) {
            let i = number(random, numbers[2]);
            let j = number(random, numbers[3]);
            comparison.compare(&file, &numbers, i, j, &format!("{seed}"));
        }
    }
    let all = asked >= TABLES;
    comparison.end(if all { &TABLE_KINDS } else { &[] });
}
