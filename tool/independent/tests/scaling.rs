//! Time in proportion to the file: the label words of many variables, each with a label set of its own.

use independent::generate::Order;
use independent::sketch::{table, Sketch, Variable, X};
use std::time::{Duration, Instant};

/// Each time is the least of so many runs; where the machine is loaded, of more.
const RUNS: std::ops::Range<usize> = 5..20;

/// How long a run takes at least: a very short one may have a processor for itself where a longer one has not.
const RUN: Duration = Duration::from_millis(50);

/// So many bytes, each 1, and as many label sets, in the other order.
fn labelled(k: u64) -> Vec<u8> {
    let order = Order::Lsf;
    let mut sketch = Sketch::new(117, order);
    for i in 1..=k {
        let set: &str = format!("s{i}").leak();
        sketch.variables.push(Variable { set, ..X });
        sketch.blocks.push((set, table(order, &[(1, set)])));
    }
    sketch.blocks.reverse();
    sketch.n = 1;
    sketch.data = vec![1; k as usize];
    sketch.file()
}

/// How long the words of all cells take, read so often.
fn time(file: &dta::File<Vec<u8>>, times: usize) -> Duration {
    let all: Vec<u64> = (1..=file.variable_count()).collect();
    let mut row = Vec::new();
    let start = Instant::now();
    for _ in 0..times {
        let mut rows = file.row_words(&all).unwrap();
        assert!(rows.read(&mut row));
    }
    let time = start.elapsed();
    // Each label is its set's name.
    assert_eq!(row.len(), all.len());
    for (i, words) in all.iter().zip(&row) {
        assert_eq!(words.or(b""), format!("s{i}").as_bytes());
    }
    time
}

/// A walk over all label sets for each variable would take four times as long.
#[test]
fn twice_as_many_variables_take_about_twice_as_long() {
    let files = [16_383, 32_767].map(|k| dta::open(labelled(k)).unwrap());
    let once = time(&files[0], 1).as_secs_f64();
    let times = (RUN.as_secs_f64() / once).ceil() as usize;
    let [mut half, mut whole] = [Duration::MAX; 2];
    for run in 1..RUNS.end {
        half = time(&files[0], times).min(half);
        whole = time(&files[1], times).min(whole);
        if run >= RUNS.start && whole <= 3 * half {
            return;
        }
    }
    panic!("{half:?} for half of {whole:?}");
}
