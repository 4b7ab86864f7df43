//! The files of tests/ and their stated lines.

use std::collections::BTreeSet;
use std::path::{Path, PathBuf};

/// A file of tests/cases or tests/samples.
pub struct Stated {
    /// Folder and file name.
    pub name: String,
    pub file: Vec<u8>,
    pub line: String,
}

fn folder(name: &str) -> PathBuf {
    Path::new(env!("CARGO_MANIFEST_DIR"))
        .join("../../tests")
        .join(name)
}

/// A file of tests/cases, by its name without `.dta`.
pub fn case(name: &str) -> Vec<u8> {
    std::fs::read(folder("cases").join(format!("{name}.dta"))).unwrap()
}

/// File name and line of each entry of the folder's expected.tsv.
fn expected(name: &str, suffix: &str) -> Vec<(String, String)> {
    let table = std::fs::read_to_string(folder(name).join("expected.tsv")).unwrap();
    let entry = |entry: &str| {
        let (name, line) = entry.split_once('\t').expect("a tab in each entry");
        (format!("{name}{suffix}"), line.to_string())
    };
    table.lines().map(entry).collect()
}

fn dta_files(name: &str) -> BTreeSet<String> {
    std::fs::read_dir(folder(name))
        .unwrap()
        .map(|entry| entry.unwrap().file_name().into_string().unwrap())
        .filter(|name| name.ends_with(".dta"))
        .collect()
}

/// All of them, in the order of the two tables.
pub fn all() -> Vec<Stated> {
    let mut all = Vec::new();
    for (name, suffix) in [("cases", ".dta"), ("samples", "")] {
        let entries = expected(name, suffix);
        let named: BTreeSet<String> = entries.iter().map(|entry| entry.0.clone()).collect();
        assert_eq!(
            named,
            dta_files(name),
            "{name}: each file has an entry and each entry a file"
        );
        for (file_name, line) in entries {
            all.push(Stated {
                file: std::fs::read(folder(name).join(&file_name)).unwrap(),
                name: format!("{name}/{file_name}"),
                line,
            });
        }
    }
    assert!(all.len() >= 400, "only {} files", all.len());
    all
}

/// Names of the files whose line is another, with both lines.
pub fn differing(line: impl Fn(&[u8]) -> String) -> Vec<String> {
    let mut differing = Vec::new();
    for stated in all() {
        let found = line(&stated.file);
        if found != stated.line {
            differing.push(format!("{}: {found}, stated {}", stated.name, stated.line));
        }
    }
    differing
}
