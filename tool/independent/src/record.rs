//! Records of the program `dta_ask`, as `rt ci` builds it, and the lines that are due, by the independent answers.

use crate::questions::{ask, numbers, Answer, Cell, Kind, Numbers, Question, Span, Type};
use crate::{check, stated};
use std::io::Write;
use std::path::Path;
use std::process::{Command, Stdio};

/// The longest file of a record.
pub const LONGEST: usize = 262_144;

/// A file, a layout, a variable and an observation.
pub struct Record {
    pub file: Vec<u8>,
    pub layout: Numbers,
    pub i: u64,
    pub j: u64,
}

impl Record {
    pub fn sent(&self) -> Vec<u8> {
        let mut sent = (self.file.len() as u64).to_le_bytes().to_vec();
        for number in self.layout.iter().chain([&self.i, &self.j]) {
            sent.extend(number.to_le_bytes());
        }
        sent.extend(&self.file);
        sent
    }

    pub fn questions(&self) -> Vec<Question> {
        let mut questions = Question::HEADER.to_vec();
        questions.extend(Question::of_variable(self.i));
        questions.extend(Question::of_cell(self.i, self.j));
        questions
    }

    /// The lines that are due, one for each question.
    pub fn due(&self) -> Vec<Vec<u8>> {
        self.questions()
            .into_iter()
            .map(|question| self.line(ask(&self.file, &self.layout, question)))
            .collect()
    }

    fn part(&self, before: &str, span: Span) -> Vec<u8> {
        let mut line = format!("{before}{} {} ", span.place, span.length).into_bytes();
        line.extend(&self.file[span.place as usize..][..span.length as usize]);
        line
    }

    fn line(&self, answer: Answer) -> Vec<u8> {
        let mut line = match answer {
            Answer::Refused(number) => format!("refused {number}").into_bytes(),
            Answer::Number(number) => number.to_string().into_bytes(),
            Answer::Date(true) => b"yes".to_vec(),
            Answer::Date(false) => b"no".to_vec(),
            Answer::Type(of) => type_name(of).into_bytes(),
            Answer::Text(span) => self.part("text ", span),
            Answer::Column { of, offset, row } => {
                format!("column {offset} {row} {}", type_name(of)).into_bytes()
            }
            Answer::Cell(cell) => self.cell(cell),
            Answer::Long { kind, contents } => self.part(&format!("long {kind} "), contents),
            Answer::Words(Some(span)) => self.part("file ", span),
            Answer::Words(None) => b"plain plain".to_vec(),
        };
        line.push(b'\n');
        line
    }

    fn cell(&self, cell: Cell) -> Vec<u8> {
        match cell {
            Cell::Whole(number) => format!("whole {number}").into_bytes(),
            // A float by the bits of the double of its value.
            Cell::Float(bits) => {
                let double = f64::from(f32::from_bits(bits)).to_bits();
                format!("float {double:016x}").into_bytes()
            }
            Cell::Double(bits) => format!("double {bits:016x}").into_bytes(),
            Cell::Letter(letter) => format!("letter {letter}").into_bytes(),
            Cell::Between => b"between".to_vec(),
            Cell::Outside => b"outside".to_vec(),
            Cell::Text(span) => self.part("text ", span),
            Cell::Reference { v, o } => format!("link {v} {o}").into_bytes(),
        }
    }
}

fn type_name(of: Type) -> String {
    match of.kind {
        Kind::Text => format!("text {}", of.width),
        Kind::Strl => "strL".to_string(),
        Kind::Byte => "byte".to_string(),
        Kind::Int => "int".to_string(),
        Kind::Long => "long".to_string(),
        Kind::Float => "float".to_string(),
        Kind::Double => "double".to_string(),
    }
}

/// The stored run: files with labels, letters, dates, sort lists and long strings. What is sent, and what is due.
pub fn stored() -> (Vec<u8>, Vec<u8>) {
    let names = [
        "cases/117-msf-typical.dta",
        "samples/haven-114-lsf-letters.dta",
        "samples/foreign-113-lsf-dates.dta",
        "samples/readstat-117-lsf-strl.dta",
        "samples/pandas-117-msf-labels.dta",
        "cases/115-lsf-sort-all.dta",
        "cases/118-lsf-small.dta",
        "cases/118-msf-strl-o-299.dta",
    ];
    let all = stated::all();
    let (mut sent, mut due) = (Vec::new(), Vec::new());
    for name in names {
        let stated = all.iter().find(|stated| stated.name == name).expect(name);
        let layout = numbers(&check(&stated.file).expect(name));
        for i in 1..=layout[2] {
            let j = 1 + (i - 1) % layout[3];
            let file = stated.file.clone();
            let record = Record { file, layout, i, j };
            sent.extend(record.sent());
            due.extend(record.due().concat());
        }
    }
    (sent, due)
}

/// What the program writes for the records.
pub fn written(records: &[Record]) -> Vec<u8> {
    let program = Path::new(env!("CARGO_MANIFEST_DIR")).join("../../crates/dta_ask/out/dta_ask");
    let mut child = Command::new(program)
        .stdin(Stdio::piped())
        .stdout(Stdio::piped())
        .spawn()
        .expect("crates/dta_ask/out/dta_ask is there: rt ci builds it");
    let mut stdin = child.stdin.take().unwrap();
    let output = std::thread::scope(|scope| {
        scope.spawn(move || {
            for record in records {
                stdin.write_all(&record.sent()).unwrap();
            }
        });
        child.wait_with_output().unwrap()
    });
    assert!(output.status.success());
    output.stdout
}

/// The first difference between what the program writes and what is due: the record's index and what it is.
pub fn difference(records: &[Record]) -> Option<(usize, String)> {
    let written = written(records);
    let mut rest = &written[..];
    for (index, record) in records.iter().enumerate() {
        for (question, due) in record.questions().into_iter().zip(record.due()) {
            if !rest.starts_with(&due) {
                let got = String::from_utf8_lossy(&rest[..rest.len().min(80)]);
                let due = String::from_utf8_lossy(&due);
                let layout = record.layout;
                return Some((
                    index,
                    format!("{question:?}, layout {layout:?}: {due:?} is due, {got:?} is written"),
                ));
            }
            rest = &rest[due.len()..];
        }
    }
    let more = rest.len();
    (more > 0).then(|| (records.len(), format!("{more} bytes more than are due")))
}
