//! The proved library and the independent reader on damaged files. Numbers and whole layouts are compared.
//!
//! DTA_DAMAGED is how many files are damaged, DTA_SEED where the seeds start.

use independent::damage::Source;
use independent::generate::Order;
use independent::parts::{parts, Kind};
use independent::random::Random;
use independent::{check, generate, proved, stated, Layout};
use std::io::Write;

const DAMAGED: u64 = 400_000;
/// Damaged copies of one source.
const COPIES: u64 = 8;
/// How often each number has to occur, so that the test says something.
const LEAST: u64 = 50;
const MOST_DIFFERENCES: usize = 10;

fn setting(name: &str, usual: u64) -> u64 {
    match std::env::var(name) {
        Ok(text) => text
            .parse()
            .unwrap_or_else(|_| panic!("{name} isn't a number: {text}")),
        Err(_) => usual,
    }
}

/// The accepted files of tests/ below 20 kB.
fn stated_sources() -> Vec<Source> {
    stated::all()
        .into_iter()
        .filter(|stated| stated.file.len() < 20_000)
        .filter_map(|stated| {
            let layout = check(&stated.file).ok()?;
            Some(Source::new(stated.file, &layout))
        })
        .collect()
}

struct Comparison {
    /// How often each number was the reader's.
    counts: [u64; 14],
    differences: Vec<String>,
}

impl Comparison {
    fn compare(&mut self, file: &[u8], name: &str) {
        let verdict = check(file);
        let due = proved::due(&verdict);
        self.counts[usize::from(due.0)] += 1;
        let answer = proved::answer(file);
        if answer == due {
            return;
        }
        let kept = std::env::temp_dir().join(format!("dta-difference-{name}.dta"));
        std::fs::write(&kept, file).expect("the file is kept");
        self.differences.push(format!(
            "{name}: answered {answer:?}, due {due:?}; kept in {}",
            kept.display()
        ));
        assert!(
            self.differences.len() < MOST_DIFFERENCES,
            "{:#?}",
            self.differences
        );
    }
}

/// How often each number was due, in one line that is shown also where the test passes.
fn show(counts: &[u64; 14]) {
    let mut line = format!("{} files, by number:", counts.iter().sum::<u64>());
    for (number, count) in counts.iter().enumerate() {
        line += &format!(" {number}: {count}");
    }
    writeln!(std::io::stdout(), "{line}").expect("the line is written");
}

#[test]
fn damaged_files_get_the_same_answer() {
    let damaged = setting("DTA_DAMAGED", DAMAGED);
    let first = setting("DTA_SEED", 0);
    let stated = stated_sources();
    assert!(stated.len() >= 40, "only {} accepted files", stated.len());
    let mut comparison = Comparison {
        counts: [0; 14],
        differences: Vec::new(),
    };
    for seed in (first..).take(damaged.div_ceil(COPIES) as usize) {
        let random = &mut Random::new(seed);
        let source = if random.once_in(4) {
            stated[random.below(stated.len())].clone()
        } else {
            let file = generate::file(random);
            comparison.compare(&file, &format!("{seed}-whole"));
            let layout = check(&file).expect("a generated file is accepted");
            Source::new(file, &layout)
        };
        for copy in 0..COPIES {
            comparison.compare(&source.damaged(random), &format!("{seed}-{copy}"));
        }
    }
    let Comparison {
        counts,
        differences,
    } = comparison;
    show(&counts);
    assert!(differences.is_empty(), "{differences:#?}");
    for (number, count) in counts.iter().enumerate() {
        assert!(
            number == 1 || *count >= LEAST,
            "number {number} occurred {count} times only"
        );
    }
}

/// A file of 118 with the higher bytes of some numbers set to zero: what a reader sees that reads four bytes of them.
fn low_bytes(file: &[u8], kind: Kind, whole: &[u8], layout: &Layout) -> Vec<u8> {
    let order = Order::from_code(layout.byte_order);
    let mut low = file.to_vec();
    for part in parts(whole, layout).parts {
        if part.kind == kind {
            let field = &mut low[part.start..part.end];
            let number = order.number(field) & 0xffff_ffff;
            field.copy_from_slice(&order.bytes(number, part.end - part.start));
        }
    }
    low
}

/// Readers that drop the higher bytes of N, or of an o in a cell or a record, are found by damaged files.
#[test]
fn readers_that_drop_higher_bytes_are_found() {
    let kinds = [Kind::N, Kind::StrlO, Kind::RecordO];
    let mut found = [0; 3];
    for seed in 0..3_000 {
        let random = &mut Random::new(seed);
        let order = random.pick(&[Order::Msf, Order::Lsf]);
        let file = generate::file_of(random, 118, order);
        let layout = check(&file).expect("a generated file is accepted");
        let source = Source::new(file.clone(), &layout);
        for (kind, found) in kinds.into_iter().zip(&mut found) {
            let damaged = source.damaged_as(kind, random);
            let low = low_bytes(&damaged, kind, &file, &layout);
            *found += u64::from(check(&damaged) != check(&low));
        }
    }
    assert!(found.iter().all(|count| *count >= 50), "{found:?}");
}
