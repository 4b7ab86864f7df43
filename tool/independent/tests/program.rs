//! The program `dta_header`, as `rt ci` builds it: the line of a file on standard input.

use independent::stated;
use std::io::Write;
use std::path::Path;
use std::process::{Command, Stdio};

/// What the program writes for these bytes on its standard input.
fn written(input: &[u8]) -> String {
    let program =
        Path::new(env!("CARGO_MANIFEST_DIR")).join("../../crates/dta_header/out/dta_header");
    let mut child = Command::new(program)
        .stdin(Stdio::piped())
        .stdout(Stdio::piped())
        .spawn()
        .expect("crates/dta_header/out/dta_header is there: rt ci builds it");
    let mut stdin = child.stdin.take().unwrap();
    let input = input.to_vec();
    let writer = std::thread::spawn(move || {
        // The program may end before it has read a longer input.
        let _ = stdin.write_all(&input);
    });
    let output = child.wait_with_output().unwrap();
    writer.join().unwrap();
    assert!(output.status.success());
    String::from_utf8(output.stdout).unwrap()
}

#[test]
fn every_stated_file_gets_its_line() {
    let short: Vec<_> = stated::all()
        .into_iter()
        .filter(|stated| stated.file.len() <= 65_536)
        .collect();
    for stated in &short {
        assert_eq!(
            written(&stated.file),
            format!("{}\n", stated.line),
            "{}",
            stated.name
        );
    }
    let count = short.len();
    assert!(count > 350, "{count} files of at most 65,536 bytes");
}

#[test]
fn longer_input_is_too_long() {
    let mut file = vec![0; 65_536];
    assert_eq!(written(&file), "refused 2\n");
    file.push(0);
    assert_eq!(written(&file), "too long\n");
    file[0] = 114;
    assert_eq!(written(&file), "too long\n");
    assert_eq!(written(&[]), "refused 2\n");
    assert_eq!(written(&[114]), "refused 3\n");
}
