//! `dta check`: the line of each file.

use crate::arguments::Arguments;
use crate::output::{self, Output};
use crate::text::plain;
use crate::{input, End};
use dta::Refusal;
use std::ffi::{OsStr, OsString};
use std::io::{self, Write};
use std::os::unix::ffi::OsStrExt;

pub fn run(given: Vec<OsString>) -> End {
    match Arguments::parse("check", &[("--explain", false)], given) {
        Ok(arguments) if arguments.words().is_empty() => arguments.wrong("a FILE is due"),
        Ok(arguments) => output::write(|output| lines(&arguments, output)),
        Err(end) => end,
    }
}

fn lines(arguments: &Arguments, output: &mut Output) -> io::Result<End> {
    let mut end = End::Done;
    for name in arguments.words() {
        if arguments.words().len() > 1 {
            end = end.max(one(name, Some(name), arguments.has("--explain"), output)?);
        } else {
            end = one(name, None, arguments.has("--explain"), output)?;
        }
    }
    Ok(end)
}

fn one(
    name: &OsStr,
    before: Option<&OsStr>,
    explain: bool,
    output: &mut Output,
) -> io::Result<End> {
    let bytes = match input::read(name) {
        Ok(bytes) => bytes,
        Err(end) => return Ok(end),
    };
    if let Some(name) = before {
        output.write_all(name.as_bytes())?;
        output.write_all(b"\t")?;
    }
    let length = bytes.len();
    match dta::open(&bytes) {
        Ok(file) => {
            let order = file.byte_order().name();
            let (k, n) = (file.variable_count(), file.observation_count());
            writeln!(output, "{} {order} {k} {n} {length}", file.edition())?;
            Ok(End::Done)
        }
        Err(refusal) => {
            writeln!(output, "refused {}", refusal.number())?;
            if explain {
                explained(&bytes, refusal, output)?;
            }
            Ok(End::Refused)
        }
    }
}

/// The rule; and, by a second look that is not proved, the place and what is wrong there.
fn explained(bytes: &[u8], refusal: Refusal, output: &mut Output) -> io::Result<()> {
    writeln!(output, "    rule: {}", refusal.rule())?;
    match independent::explain(bytes) {
        Err(advice) if advice.number == refusal.number() => {
            writeln!(
                output,
                "    advice: at byte {}: {}",
                advice.place,
                plain(advice.what.as_bytes())
            )
        }
        _ => writeln!(output, "    advice: none"),
    }
}
