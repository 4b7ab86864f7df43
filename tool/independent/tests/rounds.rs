//! The program `dta_rounds`: files rewritten over and over, and what is due by the independent writer; its stored run.

use independent::random::Random;
use independent::rounds::{changed, due, stored, written, ROOM};
use independent::{generate, stated};
use std::path::Path;

/// Files that are generated.
const GENERATED: u64 = 300;

/// What the program writes for each file is what is due, and that number of lines has each of the numbers.
fn compare(files: &[Vec<u8>], least: usize, numbers: &[u8]) {
    assert!(files.iter().all(|file| file.len() <= ROOM));
    let written = written(files);
    let due: Vec<_> = files.iter().map(|file| due(file)).collect();
    let mut rest = &written[..];
    for (index, due) in due.iter().enumerate() {
        let got = &rest[..rest.len().min(due.len())];
        assert_eq!(got, due, "file {index}");
        rest = &rest[due.len()..];
    }
    assert_eq!(rest, "");
    for number in numbers {
        let has = |line: &&str| line.split(' ').nth(2) == Some(&number.to_string());
        let count = written.lines().filter(has).count();
        assert!(count >= least, "{number} in {count} lines");
    }
}

#[test]
fn every_stated_file() {
    let files = stated::all().into_iter().map(|stated| stated.file);
    let files: Vec<_> = files.filter(|file| file.len() <= ROOM).collect();
    compare(&files, 100, &[0, 15]);
}

#[test]
fn generated_files() {
    let files = (0..GENERATED).map(|seed| generate::file(&mut Random::new(seed)));
    let files: Vec<_> = files.filter(|file| file.len() <= ROOM).collect();
    assert!(files.len() > 200, "{} files", files.len());
    compare(&files, 500, &[0, 15]);
}

/// 340 variables are too many for 114, 115 and 117, a few less for 117 alone, and about a hundred for 118.
#[test]
fn results_that_have_no_room() {
    let files = [90, 100, 101, 102, 103, 320, 322, 323, 340, 398].map(|k| {
        changed("cases/113-msf-wide.dta", 113, |dataset| {
            let all = dataset.variables.len();
            dataset.variables.truncate(k);
            let mut place = 0;
            dataset.cells.retain(|_| {
                place += 1;
                (place - 1) % all < k
            });
        })
    });
    compare(&files, 30, &[0, 14]);
}

#[test]
fn the_stored_run_is_due() {
    let folder = Path::new(env!("CARGO_MANIFEST_DIR")).join("../../crates/dta_rounds");
    let (sent, due) = stored();
    assert!(std::fs::read(folder.join("stdin")).unwrap() == sent);
    assert!(std::fs::read_to_string(folder.join("stdout")).unwrap() == due);
}
