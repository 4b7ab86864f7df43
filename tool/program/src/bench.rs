//! `dta bench`: how long checking, reading and rewriting take, as multiples of a memcpy of the same bytes.

mod made;

use crate::arguments::Arguments;
use crate::output::{self, Output};
use crate::End;
use dta::{ByteOrder, Cell, File, Words};
use std::ffi::OsString;
use std::hint::black_box;
use std::io::{self, Write};
use std::time::{Duration, Instant};

/// Each time is the least of this many.
const RUNS: usize = 5;

/// What is timed beside memcpy.
const COLUMNS: [&str; 5] = ["check", "cells", "same", "other", "words"];

/// The column of label words.
const WORDS: usize = 4;

pub fn run(given: Vec<OsString>) -> End {
    told(given).unwrap_or_else(|end| end)
}

fn told(given: Vec<OsString>) -> Result<End, End> {
    let arguments = Arguments::parse("bench", &[("--size", true)], given)?;
    arguments.exactly([])?;
    let megabytes = arguments.number("--size")?.unwrap_or(100);
    if !(1..=1_000).contains(&megabytes) {
        return Err(arguments.wrong("--size is from 1 to 1,000"));
    }
    let size = megabytes as usize * 1_000_000;
    Ok(output::write(|output| {
        writeln!(output, "least of {RUNS} runs; all buffers were written to before; 117, LSF; times as multiples of memcpy of the file")?;
        let mut worst = Costs::default();
        for size in [size, size / 2] {
            heading(output)?;
            for (name, make) in made::ORDINARY {
                let cost = costs(make(size));
                cost.line(name, output)?;
                worst = worst.most(&cost);
            }
            for (name, make) in made::BESIDE {
                let cost = costs(make(size));
                cost.line(name, output)?;
                worst.columns[WORDS] = higher(worst.columns[WORDS], cost.columns[WORDS]);
            }
        }
        writeln!(
            output,
            "\nhostile files: cost per byte as multiples of the highest of the first {} above; of words, of the labelled bytes",
            made::ORDINARY.len()
        )?;
        heading(output)?;
        for (name, make) in made::HOSTILE {
            costs(make()).over(worst.columns, name, output)?;
        }
        later_edition(size, output)?;
        Ok(End::Done)
    }))
}

/// Rewriting in 118, beside the same in 117 with the same data.
fn later_edition(size: usize, output: &mut Output) -> io::Result<()> {
    writeln!(
        output,
        "\nrewriting 117 to 117 and, with the same data, 118 to 118: milliseconds, and 118 as a multiple of 117"
    )?;
    write!(output, "\n{:<28}", "file")?;
    for (order, _) in ORDERS {
        write!(
            output,
            "{:>16}{:>10}{:>8}",
            format!("{order} 117"),
            "118",
            "ratio"
        )?;
    }
    writeln!(output)?;
    for (name, make) in made::IN_BOTH {
        let bytes = make(size);
        let file = dta::open(&bytes).expect("an accepted file");
        let later = file.rewritten(118, ByteOrder::Lsf);
        let later = later.expect("118 holds what 117 does");
        let later = dta::open(&later).expect("an accepted file");
        write!(output, "{name:<28}")?;
        for (_, order) in ORDERS {
            let [one, other] = both(&file, &later, order).map(|time| time.as_secs_f64());
            let (ms, later_ms) = (one * 1e3, other * 1e3);
            write!(output, "{ms:>16.2}{later_ms:>10.2}{:>8.2}", other / one)?;
        }
        writeln!(output)?;
        output.flush()?;
    }
    Ok(())
}

/// The byte order of the files that are made, and the other.
const ORDERS: [(&str, ByteOrder); 2] = [("same", ByteOrder::Lsf), ("other", ByteOrder::Msf)];

/// The least times of rewriting two files to their own editions, in turn, so that what else the machine does is shared.
fn both(file: &File<&Vec<u8>>, later: &File<&Vec<u8>>, order: ByteOrder) -> [Duration; 2] {
    let mut out = vec![1; later.bytes().len() + 2_000_000];
    let mut least = [Duration::MAX; 2];
    for _ in 0..RUNS {
        for (least, file) in least.iter_mut().zip([file, later]) {
            let start = Instant::now();
            let done = file.rewrite(file.edition(), order, black_box(&mut out));
            *least = start.elapsed().min(*least);
            assert!(done.is_ok());
        }
    }
    least
}

fn heading(output: &mut Output) -> io::Result<()> {
    write!(output, "\n{:<28}{:>10}{:>12}", "file", "bytes", "memcpy ms")?;
    for name in COLUMNS {
        write!(output, "{name:>8}")?;
    }
    writeln!(output)
}

/// The seconds for each byte.
#[derive(Clone, Copy, Default)]
struct Costs {
    length: usize,
    memcpy: f64,
    /// Nothing where there is nothing to read.
    columns: [Option<f64>; COLUMNS.len()],
}

impl Costs {
    fn line(&self, name: &str, output: &mut Output) -> io::Result<()> {
        self.over([Some(self.memcpy); COLUMNS.len()], name, output)
    }

    fn over(
        &self,
        by: [Option<f64>; COLUMNS.len()],
        name: &str,
        output: &mut Output,
    ) -> io::Result<()> {
        let memcpy = self.memcpy * self.length as f64 * 1e3;
        write!(output, "{name:<28}{:>10}{memcpy:>12.2}", self.length)?;
        for (cost, by) in self.columns.into_iter().zip(by) {
            match (cost, by) {
                (Some(cost), Some(by)) => write!(output, "{:>8.2}", cost / by)?,
                _ => write!(output, "{:>8}", "-")?,
            }
        }
        writeln!(output)?;
        output.flush()
    }

    fn most(&self, other: &Costs) -> Costs {
        let mut columns = self.columns;
        for (cost, other) in columns.iter_mut().zip(other.columns) {
            *cost = higher(*cost, other);
        }
        Costs {
            length: 0,
            memcpy: self.memcpy.max(other.memcpy),
            columns,
        }
    }
}

fn higher(a: Option<f64>, b: Option<f64>) -> Option<f64> {
    match (a, b) {
        (Some(a), Some(b)) => Some(a.max(b)),
        (a, b) => a.or(b),
    }
}

fn costs(bytes: Vec<u8>) -> Costs {
    let length = bytes.len();
    let mut out = vec![1; length + length / 4 + 2_000_000];
    let per_byte = |time: Duration| time.as_secs_f64() / length as f64;
    let memcpy = least(|| out[..length].copy_from_slice(black_box(&bytes)));
    let check = least(|| assert!(dta::open(black_box(&bytes)).is_ok()));
    let file = dta::open(&bytes).expect("an accepted file");
    let cells = least(|| {
        black_box(read(&file));
    });
    let labelled = labelled(&file);
    let words = least(|| {
        black_box(words(&file, &labelled));
    });
    let mut rewrite =
        |order| least(|| assert!(file.rewrite(117, order, black_box(&mut out)).is_ok()));
    let same = rewrite(ByteOrder::Lsf);
    let other = rewrite(ByteOrder::Msf);
    let mut columns = [check, cells, same, other, words].map(|time| Some(per_byte(time)));
    if labelled.is_empty() {
        columns[WORDS] = None;
    }
    Costs {
        length,
        memcpy: per_byte(memcpy),
        columns,
    }
}

fn least(mut work: impl FnMut()) -> Duration {
    let run = |_| {
        let start = Instant::now();
        work();
        start.elapsed()
    };
    (0..RUNS).map(run).min().unwrap_or_default()
}

/// Reads every cell, with the long string that it means, and every label.
fn read(file: &File<&Vec<u8>>) -> u64 {
    let longs = file.long_strings();
    let mut rows = file.rows();
    let mut row = Vec::new();
    let mut sum = 0_u64;
    while rows.read(&mut row) {
        for cell in &row {
            let value = match *cell {
                Cell::Whole(number) => number as u64,
                Cell::Float(number) => u64::from(number.to_bits()),
                Cell::Double(number) => number.to_bits(),
                Cell::Letter(letter) => u64::from(letter),
                Cell::Between | Cell::Outside => 1,
                Cell::Text(text) => text.len() as u64,
                Cell::Reference { v, o } => {
                    longs.get(v, o).map_or(0, |long| long.contents.len() as u64)
                }
            };
            sum = sum.wrapping_add(value);
        }
    }
    for set in file.label_sets() {
        sum = set
            .entries
            .fold(sum, |sum, (_, text)| sum.wrapping_add(text.len() as u64));
    }
    sum
}

/// The variables that have a label set.
fn labelled(file: &File<&Vec<u8>>) -> Vec<u64> {
    let labelled = file.variables().filter(|variable| !variable.set.is_empty());
    labelled.map(|variable| variable.number).collect()
}

/// Reads the label words of every cell of these variables.
fn words(file: &File<&Vec<u8>>, variables: &[u64]) -> u64 {
    let mut sum = 0_u64;
    if variables.is_empty() {
        return sum;
    }
    let mut rows = file.row_words(variables).expect("variables of the file");
    let mut row = Vec::new();
    while rows.read(&mut row) {
        for words in &row {
            if let Words::Label(label) = words {
                sum = sum.wrapping_add(label.len() as u64);
            }
        }
    }
    sum
}
