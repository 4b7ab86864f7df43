//! The tables of `tests/requests`: each line is a run of the program, with what it must print and leave. The README beside them says what a line means.

use std::path::{Path, PathBuf};
use std::process::{Command, Output, Stdio};

const TABLES: [&str; 1] = ["w14"];

/// Lines, by their words, that can't hold before characteristics are kept, as request W8 asks.
const WAITING: [(&str, &str); 3] = [
    (
        "w14",
        "rewrite --edition 113 --order msf files/118-edge-3.dta out.dta",
    ),
    (
        "w14",
        "rewrite --edition 115 --order msf files/118-edge-5.dta out.dta",
    ),
    (
        "w14",
        "rewrite --edition 114 --order msf files/118-edge-9.dta out.dta",
    ),
];

fn requests() -> PathBuf {
    let folder = Path::new(env!("CARGO_MANIFEST_DIR")).join("../../tests/requests");
    folder.canonicalize().unwrap()
}

/// A file of the tables.
fn given(name: &str) -> Vec<u8> {
    std::fs::read(requests().join(name)).unwrap_or_else(|error| panic!("{name}: {error}"))
}

struct Line<'a> {
    copy: &'a str,
    words: &'a str,
    stdin: &'a str,
    prints: String,
    exit: &'a str,
    leaves: &'a str,
}

fn lines(table: &str) -> Vec<Line<'_>> {
    let mut lines = table.lines();
    let names = lines.next().expect("a line of names");
    assert_eq!(names, "copy\twords\tstdin\tprints\texit\tleaves");
    lines
        .map(|line| {
            let columns: Vec<&str> = line.split('\t').collect();
            let [copy, words, stdin, prints, exit, leaves] = columns[..] else {
                panic!("six columns: {line}");
            };
            Line {
                copy,
                words,
                stdin,
                prints: prints.replace("\\n", "\n"),
                exit,
                leaves,
            }
        })
        .collect()
}

/// A folder in which a line is run.
struct Room(PathBuf);

impl Room {
    fn new(name: &str) -> Room {
        let folder =
            std::env::temp_dir().join(format!("dta-requests-{name}-{}", std::process::id()));
        let _ = std::fs::remove_dir_all(&folder);
        std::fs::create_dir(&folder).unwrap();
        std::os::unix::fs::symlink(requests().join("files"), folder.join("files")).unwrap();
        Room(folder)
    }

    fn read(&self, name: &str) -> Option<Vec<u8>> {
        std::fs::read(self.0.join(name)).ok()
    }

    fn remove(&self, name: &str) {
        let _ = std::fs::remove_file(self.0.join(name));
    }

    fn run(&self, line: &Line) -> Output {
        let stdin = match line.stdin {
            "-" => Stdio::null(),
            name => std::fs::File::open(requests().join(name)).unwrap().into(),
        };
        Command::new(env!("CARGO_BIN_EXE_dta"))
            .args(line.words.split(' '))
            .current_dir(&self.0)
            .stdin(stdin)
            .output()
            .unwrap()
    }

    /// What is different from what the line says; nothing where it holds.
    fn difference(&self, line: &Line) -> Option<String> {
        self.remove("x.dta");
        self.remove("out.dta");
        let before = (line.copy != "-").then(|| given(line.copy));
        if let Some(before) = &before {
            std::fs::write(self.0.join("x.dta"), before).unwrap();
        }
        let output = self.run(line);
        let printed = printed(&output.stdout);
        if printed != line.prints {
            return Some(format!("printed {printed:?}, due {:?}", line.prints));
        }
        let code = output.status.code();
        if line.exit != "-" && code.map(|code| code.to_string()).as_deref() != Some(line.exit) {
            return Some(format!("exit {code:?}, due {}", line.exit));
        }
        let left = self.left(line.leaves, before.as_deref());
        (!left).then(|| format!("what is left is not {}", line.leaves))
    }

    /// Whether what is left is as the line says.
    fn left(&self, leaves: &str, before: Option<&[u8]>) -> bool {
        let x = self.read("x.dta");
        match leaves {
            "-" => true,
            "same" => x.as_deref() == before,
            "no out.dta" => self.read("out.dta").is_none(),
            _ => match (leaves.strip_prefix("out.dta "), leaves.split_once(':')) {
                (Some(name), _) => self.read("out.dta") == Some(given(name)),
                (None, Some((place, hex))) => x == before.map(|before| with(before, place, hex)),
                (None, None) => x == Some(given(leaves)),
            },
        }
    }
}

impl Drop for Room {
    fn drop(&mut self) {
        let _ = std::fs::remove_dir_all(&self.0);
    }
}

/// Without line ends at the end, and without spaces at the ends of lines.
fn printed(bytes: &[u8]) -> String {
    let text: String = bytes.iter().map(|byte| char::from(*byte)).collect();
    let lines = text.trim_end_matches('\n').split('\n');
    let lines: Vec<&str> = lines.map(|line| line.trim_end_matches(' ')).collect();
    lines.join("\n")
}

/// Other bytes at a place.
fn with(before: &[u8], place: &str, hex: &str) -> Vec<u8> {
    let place: usize = place.parse().expect("a place");
    let mut after = before.to_vec();
    for (at, digits) in hex.as_bytes().chunks_exact(2).enumerate() {
        let digits = std::str::from_utf8(digits).expect("hex digits");
        after[place + at] = u8::from_str_radix(digits, 16).expect("hex digits");
    }
    after
}

#[test]
fn every_line_holds_but_those_that_wait() {
    let mut differing = Vec::new();
    let mut waiting = WAITING.to_vec();
    for name in TABLES {
        let room = Room::new(name);
        let table = String::from_utf8(given(&format!("{name}.tsv"))).unwrap();
        let lines = lines(&table);
        assert!(lines.len() > 30, "{} lines", lines.len());
        for line in lines {
            let difference = room.difference(&line);
            let waits = waiting.iter().position(|wait| *wait == (name, line.words));
            match (waits, difference) {
                (None, None) => {}
                (Some(at), Some(_)) => {
                    waiting.remove(at);
                }
                (None, Some(difference)) => {
                    differing.push(format!("{name}: {}: {difference}", line.words));
                }
                (Some(_), None) => differing.push(format!("{name}: {}: it holds", line.words)),
            }
        }
    }
    assert!(differing.is_empty(), "{}", differing.join("\n"));
    assert!(waiting.is_empty(), "no such lines: {waiting:?}");
}

/// Lines that are wrong in one column are found.
#[test]
fn wrong_lines_are_found() {
    let room = Room::new("wrong");
    let right = || Line {
        copy: "files/118-fine.dta",
        words: "check x.dta",
        stdin: "-",
        prints: "118 LSF 2 1 1849".to_string(),
        exit: "0",
        leaves: "same",
    };
    assert_eq!(room.difference(&right()), None);
    let prints = "118 MSF 2 1 1849".to_string();
    let wrong = [
        Line { prints, ..right() },
        Line {
            exit: "1",
            ..right()
        },
        Line {
            leaves: "out.dta files/118-fine.dta",
            ..right()
        },
        Line {
            leaves: "files/118-cut.dta",
            ..right()
        },
        Line {
            leaves: "100:ffff",
            ..right()
        },
        Line {
            words: "check files/118-cut.dta",
            ..right()
        },
    ];
    for (at, line) in wrong.iter().enumerate() {
        assert!(room.difference(line).is_some(), "{at}");
    }
}

/// Every file is named by a table.
#[test]
fn no_file_is_left_over() {
    let tables = TABLES.map(|name| String::from_utf8(given(&format!("{name}.tsv"))).unwrap());
    let mut names = 0;
    for entry in std::fs::read_dir(requests().join("files")).unwrap() {
        let name = entry.unwrap().file_name().into_string().unwrap();
        let named = |table: &String| table.contains(&format!("files/{name}"));
        assert!(tables.iter().any(named), "{name}");
        names += 1;
    }
    assert!(names > 30, "{names} files");
}
