//! `dta ask`: one question, by the file's own layout or by another.

use crate::arguments::{number, Arguments};
use crate::text::hex;
use crate::{input, output, End};
use dta::{Answer, Cell, Part, Question, Type};
use std::ffi::OsString;
use std::os::unix::ffi::OsStrExt;

pub fn run(given: Vec<OsString>) -> End {
    told(given).unwrap_or_else(|end| end)
}

fn told(given: Vec<OsString>) -> Result<End, End> {
    let known = [("--layout", true), ("--plain", true)];
    let arguments = Arguments::parse("ask", &known, given)?;
    let [name, asked, numbers @ ..] = arguments.words() else {
        return Err(arguments.wrong("FILE and QUESTION are due"));
    };
    let question = question(&arguments, asked, numbers)?;
    let plain = arguments.value("--plain").unwrap_or_default().as_bytes();
    let (bytes, layout) = match arguments.value("--layout") {
        Some(value) => {
            let numbers = list(value.as_bytes()).and_then(|numbers| numbers.try_into().ok());
            let Some(layout) = numbers else {
                return Err(arguments.wrong("--layout needs eighteen numbers, joined by commas"));
            };
            (input::read(name)?, layout)
        }
        None => {
            let file = input::open(name)?;
            let layout = file.layout().0;
            (file.into_bytes(), layout)
        }
    };
    let answer = Answer::to(question, &bytes, &layout);
    let end = match answer {
        Answer::Refused(_) => End::Refused,
        _ => End::Done,
    };
    Ok(output::line(&line(question, answer, plain)).max(end))
}

/// Numbers joined by commas.
fn list(numbers: &[u8]) -> Option<Vec<u64>> {
    numbers.split(|byte| *byte == b',').map(number).collect()
}

fn question(arguments: &Arguments, asked: &OsString, given: &[OsString]) -> Result<Question, End> {
    let numbers: Option<Vec<Vec<u64>>> = given.iter().map(|word| list(word.as_bytes())).collect();
    let Some(numbers) = numbers else {
        return Err(arguments.wrong("a variable and an observation are numbers"));
    };
    let numbers = numbers.concat();
    let asked = asked.to_string_lossy();
    let question = match (&*asked, &numbers[..]) {
        ("edition", []) => Question::Edition,
        ("order", []) => Question::ByteOrder,
        ("k", []) => Question::Variables,
        ("n", []) => Question::Observations,
        ("label", []) => Question::Label,
        ("stamp", []) => Question::Stamp,
        ("type", &[i]) => Question::Type(i),
        ("name", &[i]) => Question::Name(i),
        ("format", &[i]) => Question::Format(i),
        ("set", &[i]) => Question::LabelSet(i),
        ("varlabel", &[i]) => Question::VariableLabel(i),
        ("date", &[i]) => Question::Date(i),
        ("sort", &[i]) => Question::SortPlace(i),
        ("cell", &[i, j]) => Question::Cell(i, j),
        ("words", &[i, j]) => Question::Words(i, j),
        ("long", &[i, j]) => Question::LongString(i, j),
        ("edition" | "order" | "k" | "n" | "label" | "stamp", _) => {
            return Err(arguments.wrong(&format!("{asked} takes no number")))
        }
        ("type" | "name" | "format" | "set" | "varlabel" | "date" | "sort", _) => {
            return Err(arguments.wrong(&format!("{asked} needs a variable")))
        }
        ("cell" | "words" | "long", _) => {
            return Err(arguments.wrong(&format!("{asked} needs a variable and an observation")))
        }
        _ => return Err(arguments.wrong("no such question")),
    };
    Ok(question)
}

fn line(question: Question, answer: Answer, plain: &[u8]) -> String {
    match answer {
        Answer::Refused(refusal) => format!("refused {}", refusal.number()),
        Answer::Count(number) => number.to_string(),
        Answer::YesNo(true) => "yes".to_string(),
        Answer::YesNo(false) => "no".to_string(),
        Answer::Type(Type::Text(width)) => format!("text {width}"),
        Answer::Type(of) => crate::text::type_name(of),
        Answer::Part(found) if matches!(question, Question::Words(..)) => part("file", found),
        Answer::Part(text) | Answer::Text(text) => part("text", text),
        Answer::Plain => format!("plain {}", hex(plain)),
        Answer::LongString(kind, contents) => part(&format!("long {kind}"), contents),
        Answer::Cell(cell) => match cell {
            Cell::Whole(number) => format!("whole {number}"),
            Cell::Float(number) => format!("float {:08x}", number.to_bits()),
            Cell::Double(number) => format!("double {:016x}", number.to_bits()),
            Cell::Letter(letter) => format!("letter {letter}"),
            Cell::Between => "between".to_string(),
            Cell::Outside => "outside".to_string(),
            Cell::Reference { v, o } => format!("link {v} {o}"),
            // A text is answered with its place.
            Cell::Text(text) => format!("text {}", hex(text)),
        },
    }
}

fn part(what: &str, part: Part) -> String {
    format!(
        "{what} {} {} {}",
        part.place,
        part.bytes.len(),
        hex(part.bytes)
    )
}
