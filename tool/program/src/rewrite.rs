//! `dta rewrite`: the dataset of a file, in another edition or byte order.

use crate::arguments::{number, Arguments};
use crate::files::Target;
use crate::input::{self, shown, Progress};
use crate::text::plain;
use crate::{output, End};
use dta::{ByteOrder, File, Refusal, Type, Variable};
use independent::edition::Edition;
use std::ffi::{OsStr, OsString};
use std::os::unix::ffi::OsStrExt;
use std::path::Path;

pub fn run(given: Vec<OsString>) -> End {
    told(given).unwrap_or_else(|end| end)
}

fn told(given: Vec<OsString>) -> Result<End, End> {
    let known = [("--edition", true), ("--order", true), ("--force", false)];
    let arguments = Arguments::parse("rewrite", &known, given)?;
    let [from, to] = arguments.exactly(["IN", "OUT"])?;
    let Some(edition) = arguments
        .value("--edition")
        .and_then(|word| number(word.as_bytes()))
    else {
        return Err(arguments.wrong("--edition needs 113, 114, 115, 117 or 118"));
    };
    let order = match arguments.value("--order").map(OsStrExt::as_bytes) {
        Some(b"msf" | b"MSF") => ByteOrder::Msf,
        Some(b"lsf" | b"LSF") => ByteOrder::Lsf,
        _ => return Err(arguments.wrong("--order needs msf or lsf")),
    };
    let target = target(from, to, arguments.has("--force"))?;
    let file = input::open_telling(from)?;
    let progress = Progress::new(from, file.bytes().len() as u64);
    progress.stage("rewriting");
    let result = file.rewritten(edition, order);
    progress.end();
    let bytes = result.map_err(|refusal| refused(&file, from, edition, refusal))?;
    let Some(target) = target else {
        return Ok(output::all(&bytes));
    };
    let progress = Progress::new(to, bytes.len() as u64);
    let written = target.write(&bytes, |done| progress.part("writing", done));
    progress.end();
    written
        .map(|()| End::Done)
        .map_err(|error| not_written(to, &error.to_string()))
}

/// Where the result goes: a file, or nothing for standard output.
fn target(from: &OsStr, to: &OsStr, force: bool) -> Result<Option<Target>, End> {
    if to == "-" {
        return Ok(None);
    }
    let source = if from == "-" {
        OsStr::new("/dev/stdin")
    } else {
        from
    };
    match Target::new(Path::new(to), Path::new(source), force) {
        Ok(target) => Ok(Some(target)),
        Err(reason) => Err(not_written(to, &reason)),
    }
}

fn not_written(to: &OsStr, reason: &str) -> End {
    output::error(&format!("dta: {} is not written: {reason}", shown(to)));
    End::Error
}

fn refused(file: &File<Vec<u8>>, from: &OsStr, edition: u64, refusal: Refusal) -> End {
    let why = match refusal.number() {
        15 => format!(" ({})", why(file, edition)),
        _ => String::new(),
    };
    output::error(&format!("dta: {}: {refusal}{why}", shown(from)));
    input::refused(refusal)
}

/// Why the edition is refused, and which are not.
fn why(file: &File<Vec<u8>>, edition: u64) -> String {
    let Some(to) = Edition::of(edition) else {
        let offered = joined(&dta::EDITIONS, "and");
        return format!("edition {edition} is not offered; {offered} are");
    };
    let unheld = unheld(file, to)
        .unwrap_or_else(|| "the result would be longer than 2,147,483,647 bytes".to_string());
    let holds =
        |other: &u64| Edition::of(*other).is_some_and(|to| self::unheld(file, to).is_none());
    let mut others = dta::EDITIONS.to_vec();
    others.retain(|other| *other != edition && holds(other));
    match &others[..] {
        [] => unheld,
        others => format!("{unheld}; --edition {} holds it", joined(others, "or")),
    }
}

/// `113, 114 and 115`.
fn joined(numbers: &[u64], last: &str) -> String {
    let words: Vec<String> = numbers.iter().map(u64::to_string).collect();
    match &words[..] {
        [] => String::new(),
        [one] => one.clone(),
        [first @ .., end] => format!("{} {last} {end}", first.join(", ")),
    }
}

/// The first thing that the edition can't hold: of a variable, the dataset label, a label block's name.
fn unheld(file: &File<Vec<u8>>, to: &Edition) -> Option<String> {
    let of_variables = || {
        file.variables()
            .find_map(|variable| unheld_of(&variable, to))
    };
    let label = || too_long("the dataset label", file.label(), to.most_label, to);
    let of_blocks = || {
        file.label_sets().find_map(|set| {
            let what = format!("the name of the label set {}", plain(set.name));
            too_long(&what, set.name, to.name - 1, to)
        })
    };
    of_variables().or_else(label).or_else(of_blocks)
}

fn unheld_of(variable: &Variable, to: &Edition) -> Option<String> {
    let (name, number) = (plain(variable.name), to.number);
    let most = to.widest_text();
    match variable.of {
        Type::StrL if !to.tagged => return Some(format!("{name} is strL, which {number} has not")),
        Type::Text(width) if u64::from(width) > most => {
            let what =
                format!("{name} is str{width}, and the widest text of {number} is str{most}");
            return Some(what);
        }
        _ => {}
    }
    [
        ("the name of variable", variable.name, to.name),
        ("the display format of", variable.format, to.format),
        ("the label-set name of", variable.set, to.name),
        ("the variable label of", variable.label, to.variable_label),
    ]
    .into_iter()
    .find_map(|(what, text, width)| too_long(&format!("{what} {name}"), text, width - 1, to))
}

/// A text of more bytes than there is room for.
fn too_long(what: &str, text: &[u8], most: usize, to: &Edition) -> Option<String> {
    let (length, number) = (text.len(), to.number);
    (length > most).then(|| format!("{what} has {length} bytes, and {number} has room for {most}"))
}
