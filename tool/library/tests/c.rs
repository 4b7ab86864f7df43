//! The C header and the example program: compiled with the libraries, and run.

use std::path::{Path, PathBuf};
use std::process::{Command, Output};

fn here(name: &str) -> PathBuf {
    Path::new(env!("CARGO_MANIFEST_DIR")).join(name)
}

/// The example, compiled into a folder.
fn compiled(folder: &Path) -> PathBuf {
    let libraries =
        std::env::var_os("DTA_LIBRARY_DIR").map_or(here("../../target/staticlib"), PathBuf::from);
    let program = folder.join("example");
    let output = Command::new("cc")
        .args([
            "-std=c99",
            "-Wall",
            "-Wextra",
            "-Werror",
            "-pedantic",
            "-O2",
            "-o",
        ])
        .arg(&program)
        .arg(here("c/example.c"))
        .arg(libraries.join("libdta.a"))
        .arg(libraries.join("libdta_facts.a"))
        .output()
        .unwrap();
    assert!(
        output.status.success(),
        "{}",
        String::from_utf8_lossy(&output.stderr)
    );
    program
}

fn run(program: &Path, names: &[&Path]) -> Output {
    Command::new(program).args(names).output().unwrap()
}

#[test]
fn the_example_says_and_rewrites() {
    let folder = std::env::temp_dir().join(format!("dta-c-{}", std::process::id()));
    std::fs::create_dir_all(&folder).unwrap();
    let program = compiled(&folder);
    let out = folder.join("out.dta");
    let due = "meter M-10417\ndistrict Harbour\nread_on 24409\nused 9.6999999999999993\npressure 3.5\nnote \n";
    for (edition, line) in [
        ("113", "113 LSF 6 8 1730"),
        ("114", "114 LSF 6 8 1952"),
        ("115", "115 LSF 6 8 1952"),
        ("117", "117 LSF 6 8 2459"),
        ("118", "118 LSF 6 8 5296"),
    ] {
        let sample = here(&format!("../../samples/readings-{edition}.dta"));
        let output = run(&program, &[&sample, &out]);
        assert!(output.status.success());
        assert_eq!(
            String::from_utf8(output.stdout).unwrap(),
            format!("{line}\n{due}")
        );
        let output = run(&program, &[&out]);
        assert_eq!(
            String::from_utf8(output.stdout).unwrap(),
            format!("117 MSF 6 8 2459\n{due}")
        );
    }
    let output = run(&program, &[&here("../../tests/cases/117-msf-map-1.dta")]);
    assert_eq!(output.status.code(), Some(1));
    assert_eq!(output.stdout, b"refused 10\n");
    std::fs::remove_dir_all(&folder).unwrap();
}

/// The names of functions that begin with `dta_`, wherever an opening parenthesis follows.
fn functions(text: &str) -> Vec<String> {
    let is_name = |sign: char| sign.is_ascii_alphanumeric() || sign == '_';
    let before = text.split('(').map(|part| {
        part.rsplit(|sign| !is_name(sign))
            .next()
            .unwrap_or_default()
    });
    let mut names: Vec<String> = before
        .filter(|name| name.starts_with("dta_"))
        .map(String::from)
        .collect();
    names.sort();
    names.dedup();
    names
}

/// The header and the Rust declarations have the functions that the libraries export, and no others.
#[test]
fn the_header_has_the_functions_of_the_libraries() {
    let text = |name: &str| std::fs::read_to_string(here(name)).unwrap();
    let proved = [
        text("../../crates/dta/src/lib.rt"),
        text("../../crates/dta_facts/src/lib.rt"),
    ]
    .concat();
    let exported: String = proved
        .split("#[unsafe(no_mangle)]")
        .skip(1)
        .map(|part| part.split(['(', '<']).next().unwrap().to_owned() + "(")
        .collect();
    assert_eq!(functions(&text("c/dta.h")), functions(&exported));
    assert_eq!(functions(&text("src/raw.rs")), functions(&exported));
    assert_eq!(functions(&exported).len(), 12);
}
