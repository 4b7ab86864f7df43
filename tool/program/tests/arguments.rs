//! Arguments of any kind, on files of any kind: the program ends with 0, 1 or 2, and panics on none.

use independent::random::Random;
use independent::stated;
use std::ffi::{OsStr, OsString};
use std::os::unix::ffi::OsStrExt;
use std::process::{Command, Stdio};

const WORDS: [&[u8]; 52] = [
    b"check",
    b"info",
    b"show",
    b"labels",
    b"rewrite",
    b"layout",
    b"ask",
    b"--explain",
    b"--vars",
    b"--from",
    b"--count",
    b"--labels",
    b"--csv",
    b"--edition",
    b"--order",
    b"--force",
    b"--layout",
    b"--plain",
    b"--help",
    b"--",
    b"-",
    b"",
    b"\xff\xfe",
    b"--\xff",
    b"--from=3",
    b"--csv=1",
    b"0",
    b"1",
    b"2",
    b"18446744073709551615",
    b"18446744073709551616",
    b"-1",
    b"113",
    b"114",
    b"115",
    b"116",
    b"117",
    b"118",
    b"msf",
    b"lsf",
    b"cell",
    b"words",
    b"long",
    b"name",
    b"k",
    b"v1",
    b"v1,v2",
    b"1,1",
    b"117,1,2,1,0,153,276,313,400,427,544,649,846,881,900,915,944,956",
    b"118,2,6,8,0,203,326,371,1166,1201,1562,2375,4336,4371,4808,4823,5284,5296",
    b"a,,b",
    b"/nowhere/at/all",
];

#[test]
fn no_arguments_make_it_panic() {
    let mut random = Random::new(7);
    let folder = std::env::temp_dir().join(format!("dta-arguments-{}", std::process::id()));
    let _ = std::fs::remove_dir_all(&folder);
    std::fs::create_dir(&folder).unwrap();
    let all = stated::all();
    let mut ends = [0; 3];
    for _ in 0..1_500 {
        let file = &all[random.below(all.len())].file;
        std::fs::write(folder.join("file.dta"), file).unwrap();
        let mut words: Vec<OsString> = (0..random.below(7))
            .map(|_| match random.below(3) {
                0 => OsString::from("file.dta"),
                _ => OsStr::from_bytes(random.pick(&WORDS)).to_os_string(),
            })
            .collect();
        if random.below(4) > 0 {
            let command = OsStr::from_bytes(WORDS[random.below(7)]);
            words.insert(0, command.to_os_string());
        }
        let output = Command::new(env!("CARGO_BIN_EXE_dta"))
            .args(&words)
            .current_dir(&folder)
            .stdin(Stdio::null())
            .output()
            .unwrap();
        let told = String::from_utf8_lossy(&output.stderr).into_owned();
        assert!(!told.contains("panic"), "{words:?}: {told}");
        match output.status.code() {
            Some(code @ 0..=2) => ends[code as usize] += 1,
            _ => panic!("{words:?}: {:?}", output.status),
        }
    }
    std::fs::remove_dir_all(&folder).unwrap();
    assert!(ends.iter().all(|count| *count > 20), "{ends:?}");
}
