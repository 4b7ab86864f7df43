//! `dta check`, `dta layout` and `dta ask` on the files of tests/: the lines that are stated, and the independent answers, by the files' own layouts and by wrong ones.

use independent::questions::{ask, numbers, Answer, Cell, Kind, Numbers, Question, Span};
use independent::random::Random;
use independent::{check, stated, wrong};
use std::path::{Path, PathBuf};
use std::process::{Command, Output};

fn tests(name: &str) -> PathBuf {
    Path::new(env!("CARGO_MANIFEST_DIR"))
        .join("../../tests")
        .join(name)
}

fn run(words: &[String]) -> Output {
    Command::new(env!("CARGO_BIN_EXE_dta"))
        .args(words)
        .output()
        .unwrap()
}

fn path(name: &str) -> String {
    tests(name).into_os_string().into_string().unwrap()
}

#[test]
fn every_file_gets_its_line() {
    let all = stated::all();
    assert!(all.len() > 400, "{} files", all.len());
    let mut words = vec!["check".to_string()];
    words.extend(all.iter().map(|stated| path(&stated.name)));
    let output = run(&words);
    let due: String = all
        .iter()
        .map(|stated| format!("{}\t{}\n", path(&stated.name), stated.line))
        .collect();
    assert_eq!(String::from_utf8(output.stdout).unwrap(), due);
    assert_eq!(output.status.code(), Some(1));
    for stated in &all {
        let output = run(&["layout".to_string(), path(&stated.name)]);
        let (due, code) = match check(&stated.file) {
            Ok(layout) => (joined(&numbers(&layout)), 0),
            Err(number) => (format!("refused {number}"), 1),
        };
        assert_eq!(
            String::from_utf8(output.stdout).unwrap(),
            format!("{due}\n"),
            "{}",
            stated.name
        );
        assert_eq!(output.status.code(), Some(code));
    }
}

fn joined(numbers: &Numbers) -> String {
    numbers.map(|number| number.to_string()).join(",")
}

fn hex(bytes: &[u8]) -> String {
    bytes.iter().map(|byte| format!("{byte:02x}")).collect()
}

const PLAIN: &str = "plain words";

fn line(file: &[u8], answer: Answer) -> String {
    let part = |what: &str, span: Span| {
        let bytes = &file[span.place as usize..][..span.length as usize];
        format!("{what} {} {} {}", span.place, span.length, hex(bytes))
    };
    match answer {
        Answer::Refused(number) => format!("refused {number}"),
        Answer::Number(number) => number.to_string(),
        Answer::Date(yes) => if yes { "yes" } else { "no" }.to_string(),
        Answer::Type(of) => match of.kind {
            Kind::Text => format!("text {}", of.width),
            Kind::Strl => "strL".to_string(),
            kind => format!("{kind:?}").to_lowercase(),
        },
        Answer::Text(span) => part("text", span),
        Answer::Words(Some(span)) => part("file", span),
        Answer::Words(None) => format!("plain {}", hex(PLAIN.as_bytes())),
        Answer::Long { kind, contents } => part(&format!("long {kind}"), contents),
        Answer::Cell(cell) => match cell {
            Cell::Whole(number) => format!("whole {number}"),
            Cell::Float(bits) => format!("float {bits:08x}"),
            Cell::Double(bits) => format!("double {bits:016x}"),
            Cell::Letter(letter) => format!("letter {letter}"),
            Cell::Between => "between".to_string(),
            Cell::Outside => "outside".to_string(),
            Cell::Text(span) => part("text", span),
            Cell::Reference { v, o } => format!("link {v} {o}"),
        },
        Answer::Column { .. } => unreachable!("it is not asked"),
    }
}

/// The words for a question.
fn words(question: Question) -> Vec<String> {
    let (name, numbers) = match question {
        Question::Edition => ("edition", vec![]),
        Question::Order => ("order", vec![]),
        Question::K => ("k", vec![]),
        Question::N => ("n", vec![]),
        Question::Label => ("label", vec![]),
        Question::Stamp => ("stamp", vec![]),
        Question::Type(i) => ("type", vec![i]),
        Question::Name(i) => ("name", vec![i]),
        Question::Format(i) => ("format", vec![i]),
        Question::Set(i) => ("set", vec![i]),
        Question::VarLabel(i) => ("varlabel", vec![i]),
        Question::Date(i) => ("date", vec![i]),
        Question::Sort(i) => ("sort", vec![i]),
        Question::Cell(i, j) => ("cell", vec![i, j]),
        Question::Words(i, j) => ("words", vec![i, j]),
        Question::Long(i, j) => ("long", vec![i, j]),
        Question::Column(_) => unreachable!("it is not asked"),
    };
    let numbers = numbers.into_iter().map(|number| number.to_string());
    std::iter::once(name.to_string()).chain(numbers).collect()
}

fn questions(random: &mut Random, layout: &Numbers) -> Vec<Question> {
    let some = |random: &mut Random, most: u64| 1 + random.below(most.min(50) as usize + 1) as u64;
    let (i, j) = (some(random, layout[2]), some(random, layout[3]));
    let mut questions = vec![random.pick(&Question::HEADER)];
    questions.push(Question::of_variable(i)[random.below(7)]);
    questions.extend(Question::of_cell(i, j));
    questions
}

#[test]
fn questions_are_answered_alike() {
    let mut random = Random::new(11);
    let mut asked = 0;
    let mut other = [0; 18];
    for stated in stated::all() {
        let own = check(&stated.file).map(|layout| numbers(&layout));
        let wrong = wrong::layout(
            &mut random,
            own.as_ref().unwrap_or(&other),
            &other,
            stated.file.len(),
        );
        for layout in [own.ok(), Some(wrong)].into_iter().flatten() {
            for question in questions(&mut random, &layout) {
                let mut given = vec!["ask".to_string(), path(&stated.name)];
                if layout == wrong {
                    given.extend(["--layout".to_string(), joined(&layout)]);
                }
                given.extend(words(question));
                given.extend(["--plain".to_string(), PLAIN.to_string()]);
                let output = run(&given);
                let answer = ask(&stated.file, &layout, question);
                let due = line(&stated.file, answer);
                assert_eq!(
                    String::from_utf8(output.stdout).unwrap(),
                    format!("{due}\n"),
                    "{given:?}"
                );
                let refused = matches!(answer, Answer::Refused(_));
                assert_eq!(output.status.code(), Some(i32::from(refused)));
                asked += 1;
            }
        }
        other = own.unwrap_or(other);
    }
    assert!(asked > 1_500, "{asked} questions");
}
