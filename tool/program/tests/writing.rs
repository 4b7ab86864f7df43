//! `dta rewrite` and the file that it writes: there as a whole, or as it was; and the samples, which it made.

use independent::generate::Order;
use independent::readings;
use independent::writer::{write, Target};
use std::os::unix::fs::PermissionsExt;
use std::os::unix::process::CommandExt;
use std::path::{Path, PathBuf};
use std::process::{Command, Output, Stdio};
use std::time::Instant;

struct Folder(PathBuf);

impl Folder {
    fn new(name: &str) -> Folder {
        let folder =
            std::env::temp_dir().join(format!("dta-writing-{name}-{}", std::process::id()));
        let _ = std::fs::remove_dir_all(&folder);
        std::fs::create_dir(&folder).unwrap();
        Folder(folder)
    }

    fn join(&self, name: &str) -> PathBuf {
        self.0.join(name)
    }

    fn names(&self) -> Vec<String> {
        let entries = std::fs::read_dir(&self.0).unwrap();
        let name = |entry: std::io::Result<std::fs::DirEntry>| entry.unwrap().file_name();
        let mut names: Vec<String> = entries
            .map(|entry| name(entry).into_string().unwrap())
            .collect();
        names.sort();
        names
    }
}

impl Drop for Folder {
    fn drop(&mut self) {
        let _ = std::fs::remove_dir_all(&self.0);
    }
}

fn sample(name: &str) -> PathBuf {
    Path::new(env!("CARGO_MANIFEST_DIR"))
        .join("../../samples")
        .join(name)
}

fn program() -> Command {
    Command::new(env!("CARGO_BIN_EXE_dta"))
}

fn rewrite(edition: &str, order: &str, from: &Path, to: &Path) -> Command {
    let mut command = program();
    command.args(["rewrite", "--force", "--edition", edition, "--order", order]);
    command.arg(from).arg(to);
    command
}

fn told(output: &Output) -> String {
    String::from_utf8_lossy(&output.stderr).into_owned()
}

#[test]
fn the_samples_are_what_it_makes_of_the_readings() {
    let folder = Folder::new("samples");
    let made = folder.join("made.dta");
    let target = Target {
        edition: 117,
        order: Order::Msf,
    };
    std::fs::write(&made, write(&readings::dataset(), target)).unwrap();
    for edition in ["113", "114", "115", "117", "118"] {
        let out = folder.join("out.dta");
        assert!(rewrite(edition, "lsf", &made, &out)
            .status()
            .unwrap()
            .success());
        let stored = std::fs::read(sample(&format!("readings-{edition}.dta"))).unwrap();
        assert!(std::fs::read(&out).unwrap() == stored, "edition {edition}");
    }
}

/// A file of some 30 MB, so that writing it takes a while.
fn large() -> Vec<u8> {
    let mut readings = readings::dataset();
    let row = readings.cells.clone();
    let times = 70_000;
    readings.n *= times;
    readings.cells = row
        .iter()
        .cloned()
        .cycle()
        .take(row.len() * times as usize)
        .collect();
    let target = Target {
        edition: 117,
        order: Order::Lsf,
    };
    write(&readings, target)
}

/// Killed at some twenty moments between the start and the end of a rewrite, it leaves the output as it was or as it is to be.
#[test]
fn killed_it_leaves_the_output_whole() {
    let folder = Folder::new("killed");
    let (from, to) = (folder.join("in.dta"), folder.join("out.dta"));
    std::fs::write(&from, large()).unwrap();
    let before = std::fs::read(sample("readings-113.dta")).unwrap();
    std::fs::write(&to, &before).unwrap();
    let start = Instant::now();
    assert!(rewrite("114", "msf", &from, &folder.join("whole.dta"))
        .status()
        .unwrap()
        .success());
    let whole_time = start.elapsed();
    let whole = std::fs::read(folder.join("whole.dta")).unwrap();
    let (mut as_it_was, mut as_it_is_to_be) = (0, 0);
    for part in 0..24 {
        std::fs::write(&to, &before).unwrap();
        let mut child = rewrite("114", "msf", &from, &to)
            .stdout(Stdio::null())
            .stderr(Stdio::null())
            .spawn()
            .unwrap();
        std::thread::sleep(whole_time * part / 20);
        child.kill().unwrap();
        child.wait().unwrap();
        let after = std::fs::read(&to).unwrap();
        if after == before {
            as_it_was += 1;
        } else {
            assert!(
                after == whole,
                "neither as it was nor whole, at part {part}"
            );
            as_it_is_to_be += 1;
        }
    }
    assert!(as_it_was > 5, "{as_it_was} and {as_it_is_to_be}");
    assert!(as_it_was + as_it_is_to_be == 24);
}

/// A program that may not write, or read: run as nobody where the test is run by root.
fn as_nobody(folder: &Folder) -> Command {
    let copy = folder.join("dta");
    // by a process of its own: what this one has open for writing, a child that another test starts meanwhile may have open, too, and then it can't be run
    let copied = Command::new("cp")
        .arg(env!("CARGO_BIN_EXE_dta"))
        .arg(&copy)
        .status()
        .unwrap();
    assert!(copied.success());
    let mut command = Command::new(copy);
    let is_root = std::fs::metadata("/proc/self")
        .is_ok_and(|own| std::os::unix::fs::MetadataExt::uid(&own) == 0);
    if is_root {
        command.uid(65_534).gid(65_534);
    }
    command
}

#[test]
fn without_permission_it_says_so() {
    let folder = Folder::new("permission");
    let locked = folder.join("locked.dta");
    std::fs::copy(sample("readings-113.dta"), &locked).unwrap();
    std::fs::set_permissions(&locked, PermissionsExt::from_mode(0)).unwrap();
    let output = as_nobody(&folder)
        .arg("check")
        .arg(&locked)
        .output()
        .unwrap();
    assert_eq!(output.status.code(), Some(2));
    assert!(
        told(&output).contains("Permission denied"),
        "{}",
        told(&output)
    );
    assert!(output.stdout.is_empty());

    let open = folder.join("open.dta");
    std::fs::copy(sample("readings-113.dta"), &open).unwrap();
    let closed = folder.join("closed");
    std::fs::create_dir(&closed).unwrap();
    std::fs::set_permissions(&closed, PermissionsExt::from_mode(0o555)).unwrap();
    let output = as_nobody(&folder)
        .args(["rewrite", "--edition", "114", "--order", "lsf"])
        .arg(&open)
        .arg(closed.join("out.dta"))
        .output()
        .unwrap();
    assert_eq!(output.status.code(), Some(2));
    assert!(
        told(&output).contains("Permission denied"),
        "{}",
        told(&output)
    );
    assert!(std::fs::read_dir(&closed).unwrap().next().is_none());
}

/// Two that write to the same place at once leave one of their results, and nothing else.
#[test]
fn two_at_once() {
    let folder = Folder::new("two");
    let out = folder.join("out.dta");
    for _ in 0..20 {
        let both: Vec<_> = ["113", "114"]
            .iter()
            .map(|edition| {
                rewrite(edition, "lsf", &sample("readings-117.dta"), &out)
                    .spawn()
                    .unwrap()
            })
            .collect();
        let done: Vec<bool> = both
            .into_iter()
            .map(|mut child| child.wait().unwrap().success())
            .collect();
        assert_eq!(done, [true, true]);
        let written = std::fs::read(&out).unwrap();
        let one =
            |edition| std::fs::read(sample(&format!("readings-{edition}.dta"))).unwrap() == written;
        assert!(one("113") || one("114"));
        assert_eq!(folder.names(), ["out.dta"]);
        std::fs::remove_file(&out).unwrap();
    }
}

/// A link stays, and what it leads to is replaced. One to nothing, to the source or to no regular file is not written.
#[test]
fn through_links() {
    let folder = Folder::new("links");
    let from = sample("readings-117.dta");
    let links = [
        ("link.dta", Path::new("file.dta"), None),
        (
            "nothing.dta",
            Path::new("none.dta"),
            Some("it is a link to nothing"),
        ),
        ("source.dta", &from, Some("it is the file that is read")),
        (
            "device.dta",
            Path::new("/dev/null"),
            Some("it is no regular file"),
        ),
    ];
    for (name, goal, reason) in links {
        let (file, link) = (folder.join("file.dta"), folder.join(name));
        std::fs::write(&file, b"before").unwrap();
        std::os::unix::fs::symlink(goal, &link).unwrap();
        let output = rewrite("113", "lsf", &from, &link).output().unwrap();
        let written = std::fs::read(&file).unwrap();
        match reason {
            None => assert!(written == std::fs::read(sample("readings-113.dta")).unwrap()),
            Some(_) => assert!(written == b"before"),
        }
        let due =
            reason.map(|reason| format!("dta: {} is not written: {reason}\n", link.display()));
        assert_eq!(told(&output), due.unwrap_or_default());
        assert_eq!(
            output.status.code(),
            Some(if reason.is_some() { 2 } else { 0 })
        );
        assert_eq!(std::fs::read_link(&link).unwrap(), goal);
        std::fs::remove_file(&link).unwrap();
        assert_eq!(folder.names(), ["file.dta"]);
    }
}
