//! Records of the program `dta_rounds`, as `rt ci` builds it, and the lines that are due, by the independent writer.

use crate::dataset::{dataset, Dataset};
use crate::generate::Order;
use crate::writer::{rewritten, write, Target, TARGETS};
use crate::{check, stated};
use std::io::Write;
use std::path::Path;
use std::process::{Command, Stdio};

/// The longest file, and the room for a result.
pub const ROOM: usize = 65_536;

const ROUNDS: usize = 3;

/// The record of a file.
pub fn sent(file: &[u8]) -> Vec<u8> {
    [&(file.len() as u64).to_le_bytes(), file].concat()
}

/// 31 times what it was and the next byte, in 32 bits.
fn checksum(file: &[u8]) -> u32 {
    let next = |sum: u32, byte: &u8| sum.wrapping_mul(31).wrapping_add(u32::from(*byte));
    file.iter().fold(0, next)
}

/// The lines that are due for a file.
pub fn due(file: &[u8]) -> String {
    if let Err(number) = check(file) {
        return format!("refused {number}\n");
    }
    let mut due = String::new();
    let mut last = file.to_vec();
    for target in [TARGETS; ROUNDS].concat() {
        let (edition, order) = target.numbers();
        let result = rewritten(&last, edition, order, ROOM as u64);
        let (number, length) = match &result {
            Ok(result) => (0, result.len()),
            Err(number) => (*number, 0),
        };
        let order = match target.order {
            Order::Msf => "MSF",
            Order::Lsf => "LSF",
        };
        due += &format!("{edition} {order} {number} {length}\n");
        last = result.unwrap_or(last);
    }
    due + &format!("{}\n", checksum(&last))
}

/// A stated file, by folder and name.
fn stated_file(name: &str) -> Vec<u8> {
    let named = |stated: &stated::Stated| stated.name == name;
    stated::all().into_iter().find(named).expect(name).file
}

/// A stated file's dataset, changed, as a file.
pub fn changed(name: &str, edition: u8, change: impl Fn(&mut Dataset)) -> Vec<u8> {
    let file = stated_file(name);
    let mut dataset = dataset(&file, &check(&file).expect(name));
    change(&mut dataset);
    let order = Order::Msf;
    write(&dataset, Target { edition, order })
}

/// The files of the stored run: dead bytes everywhere, letters, dates, label tables; a display format too long for 113, a name too long for all but 118, long
/// strings, and a file that is not well formed.
fn stored_files() -> Vec<Vec<u8>> {
    let mut files = [
        "cases/113-lsf-typical.dta",
        "cases/114-msf-sort-all.dta",
        "samples/readstat-113-msf-letters.dta",
        "samples/haven-114-lsf-letters.dta",
        "samples/foreign-113-lsf-dates.dta",
        "samples/pandas-117-msf-labels.dta",
        "samples/readstata13-117-lsf-compress-chars.dta",
        "samples/readstat-117-lsf-strl.dta",
        "cases/117-msf-typical.dta",
        "cases/115-lsf-sort-all.dta",
        "cases/118-lsf-small.dta",
        "cases/118-msf-strl-o-299.dta",
    ]
    .map(stated_file)
    .to_vec();
    files.push(changed("cases/113-lsf-typical.dta", 114, |dataset| {
        dataset.variables[0].format = b"%12345678.9g".to_vec();
    }));
    files.push(changed("cases/118-lsf-small.dta", 118, |dataset| {
        dataset.variables[0].name = b"a_name_of_more_than_thirty_two_bytes".to_vec();
    }));
    let mut cut = stated_file("samples/foreign-113-lsf-dates.dta");
    cut.pop();
    files.push(cut);
    files
}

/// The stored run: what is sent, and what is due.
pub fn stored() -> (Vec<u8>, String) {
    let files = stored_files();
    let sent: Vec<_> = files.iter().map(|file| sent(file)).collect();
    let due: Vec<_> = files.iter().map(|file| due(file)).collect();
    (sent.concat(), due.concat())
}

/// What the program writes for the files.
pub fn written(files: &[Vec<u8>]) -> String {
    let program =
        Path::new(env!("CARGO_MANIFEST_DIR")).join("../../crates/dta_rounds/out/dta_rounds");
    let mut child = Command::new(program)
        .stdin(Stdio::piped())
        .stdout(Stdio::piped())
        .spawn()
        .expect("crates/dta_rounds/out/dta_rounds is there: rt ci builds it");
    let mut stdin = child.stdin.take().unwrap();
    let output = std::thread::scope(|scope| {
        scope.spawn(move || {
            for file in files {
                stdin.write_all(&sent(file)).unwrap();
            }
        });
        child.wait_with_output().unwrap()
    });
    assert!(output.status.success());
    String::from_utf8(output.stdout).unwrap()
}
