//! The program `dta_ask`: its answers by files' own layouts, with the bytes that they name, and the independent ones; its stored run.

use independent::questions::numbers;
use independent::record::{difference, stored, Record, LONGEST};
use independent::{check, stated};
use std::path::Path;

/// More observations than a stated file has.
const MOST: u64 = 400;

#[test]
fn every_stated_file_answers_alike() {
    let mut records = Vec::new();
    for file in stated::all().into_iter().map(|stated| stated.file) {
        assert!(file.len() <= LONGEST, "a file of {} bytes", file.len());
        let Ok(layout) = check(&file) else { continue };
        let layout = numbers(&layout);
        // Some that are not there, too.
        assert!(layout[3] < MOST, "{} observations", layout[3]);
        for i in 0..=layout[2] + 1 {
            for j in 0..=layout[3] + 1 {
                let file = file.clone();
                records.push(Record { file, layout, i, j });
            }
        }
    }
    assert!(records.len() > 1_000, "{} records", records.len());
    assert_eq!(difference(&records), None);
}

#[test]
fn the_stored_run_is_due() {
    let folder = Path::new(env!("CARGO_MANIFEST_DIR")).join("../../crates/dta_ask");
    let (sent, due) = stored();
    assert!(std::fs::read(folder.join("stdin")).unwrap() == sent);
    assert!(std::fs::read(folder.join("stdout")).unwrap() == due);
}
