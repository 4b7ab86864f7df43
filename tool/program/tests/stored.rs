//! Runs of the program with what it must write: `stored/*.txt`. A line `$ dta ..` is a command, run by a shell in the repository with an empty folder as `$T`; lines after
//! it are its standard output, with `! ` in front those of standard error, and `= ` the exit status, where it isn't 0.
//!
//! `DTA_STORE=1` writes the files anew, to be read before they are committed.

use std::path::{Path, PathBuf};
use std::process::Command;

fn repository() -> PathBuf {
    let folder = Path::new(env!("CARGO_MANIFEST_DIR")).join("../..");
    folder.canonicalize().unwrap()
}

/// Bytes as they are stored: line ends other than \n and bytes that are no UTF-8 are written out.
fn shown(bytes: &[u8]) -> String {
    let mut shown = String::new();
    for chunk in bytes.utf8_chunks() {
        shown.push_str(&chunk.valid().replace('\r', "\\r").replace('\0', "\\0"));
        for byte in chunk.invalid() {
            shown.push_str(&format!("\\x{byte:02x}"));
        }
    }
    shown
}

fn lines(before: &str, bytes: &[u8], folder: &str) -> String {
    let shown = shown(bytes).replace(folder, "$T");
    shown
        .lines()
        .map(|line| format!("{before}{line}\n"))
        .collect()
}

/// What a command writes.
fn run(command: &str, folder: &str) -> String {
    let program = Path::new(env!("CARGO_BIN_EXE_dta"));
    let path = format!(
        "{}:{}",
        program.parent().unwrap().display(),
        std::env::var("PATH").unwrap_or_default()
    );
    let output = Command::new("sh")
        .args(["-c", command])
        .current_dir(repository())
        .env("PATH", path)
        .env("T", folder)
        .env("LC_ALL", "C")
        .stdin(std::process::Stdio::null())
        .output()
        .unwrap();
    let mut written = lines("", &output.stdout, folder);
    written.push_str(&lines("! ", &output.stderr, folder));
    match output.status.code() {
        Some(0) => {}
        Some(code) => written.push_str(&format!("= {code}\n")),
        None => written.push_str("= killed\n"),
    }
    written
}

/// The commands of a file, each with what is stored after it.
fn commands(text: &str) -> Vec<(String, String)> {
    let mut commands: Vec<(String, String)> = Vec::new();
    for line in text.lines() {
        match (line.strip_prefix("$ "), commands.last_mut()) {
            (Some(command), _) => commands.push((command.to_string(), String::new())),
            (None, Some((_, stored))) => {
                stored.push_str(line);
                stored.push('\n');
            }
            (None, None) => assert_eq!(line, "", "a line before the first command"),
        }
    }
    commands
}

fn compare(name: &str) {
    let path = Path::new(env!("CARGO_MANIFEST_DIR"))
        .join("tests/stored")
        .join(name);
    let folder = std::env::temp_dir().join(format!("dta-stored-{name}-{}", std::process::id()));
    let _ = std::fs::remove_dir_all(&folder);
    std::fs::create_dir(&folder).unwrap();
    let text = std::fs::read_to_string(&path).unwrap();
    let commands = commands(&text);
    assert!(!commands.is_empty());
    let mut anew = String::new();
    let mut differing = Vec::new();
    for (command, stored) in &commands {
        let written = run(command, folder.to_str().unwrap());
        if written != *stored {
            differing.push(format!("$ {command}\nstored:\n{stored}written:\n{written}"));
        }
        anew.push_str(&format!("$ {command}\n{written}"));
    }
    std::fs::remove_dir_all(&folder).unwrap();
    if std::env::var_os("DTA_STORE").is_some() {
        std::fs::write(&path, anew).unwrap();
        return;
    }
    assert!(differing.is_empty(), "{}", differing.join("\n"));
}

macro_rules! stored {
    ($($name:ident)*) => {
        $(#[test]
        fn $name() {
            compare(concat!(stringify!($name), ".txt"));
        })*

        #[test]
        fn every_file_is_run() {
            let folder = Path::new(env!("CARGO_MANIFEST_DIR")).join("tests/stored");
            let files = std::fs::read_dir(folder).unwrap().count();
            assert_eq!(files, [$(stringify!($name)),*].len());
        }
    };
}

stored!(check info show labels rewrite layout ask help);
