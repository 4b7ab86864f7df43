//! `dta show`: the cells.

use crate::arguments::Arguments;
use crate::output::{self, Output};
use crate::text::{plain, put_cell};
use crate::{input, End};
use dta::{Cell, Column, File, LongStrings, RowWords, Rows, Type, Variable, Words};
use std::ffi::OsString;
use std::io::{self, Write};
use std::os::unix::ffi::OsStrExt;

/// Observations that are laid out together in columns.
const BLOCK: usize = 1_000;

/// A field that is longer does not widen its column.
const WIDEST: usize = 40;

pub fn run(given: Vec<OsString>) -> End {
    told(given).unwrap_or_else(|end| end)
}

fn told(given: Vec<OsString>) -> Result<End, End> {
    let known = [
        ("--vars", true),
        ("--from", true),
        ("--count", true),
        ("--labels", false),
        ("--csv", false),
    ];
    let arguments = Arguments::parse("show", &known, given)?;
    let [name] = arguments.exactly(["FILE"])?;
    let from = arguments.number("--from")?.unwrap_or(1);
    if from == 0 {
        return Err(arguments.wrong("observations are counted from 1"));
    }
    let count = arguments.number("--count")?.unwrap_or(u64::MAX);
    let file = input::open_telling(name)?;
    let variables = chosen(&arguments, &file)?;
    let mut table = Table::new(&file, &variables, from, count, arguments.has("--labels"));
    Ok(output::write(|output| {
        if arguments.has("--csv") {
            table.csv(output)
        } else {
            table.columns(output)
        }
    }))
}

/// The variables that are shown: all, or those that are named.
fn chosen<'a>(arguments: &Arguments, file: &'a File<Vec<u8>>) -> Result<Vec<Variable<'a>>, End> {
    let Some(names) = arguments.value("--vars") else {
        return Ok(file.variables().collect());
    };
    let mut numbers = std::collections::HashMap::new();
    for variable in file.variables() {
        numbers.entry(variable.name).or_insert(variable);
    }
    let names = names.as_bytes().split(|byte| *byte == b',');
    names
        .map(|name| match numbers.get(name) {
            Some(variable) => Ok(*variable),
            None => Err(arguments.wrong(&format!("no variable {}", plain(name)))),
        })
        .collect()
}

/// Where the cells of the shown variables come from, observation by observation.
enum Cells<'a> {
    /// A column for each of them: they are few.
    Columns(Vec<Column<'a>>),
    /// Whole observations, and which of their cells are shown.
    Rows(Rows<'a>, Vec<Cell<'a>>, Vec<usize>),
}

impl<'a> Cells<'a> {
    fn new(file: &'a File<Vec<u8>>, variables: &[Variable], from: u64) -> Cells<'a> {
        if variables.len() <= 16 && 2 * variables.len() as u64 <= file.variable_count() {
            let columns = variables
                .iter()
                .filter_map(|variable| file.column_from(variable.number, from).ok());
            return Cells::Columns(columns.collect());
        }
        let shown = variables
            .iter()
            .map(|variable| variable.number as usize - 1);
        match file.rows_from(from) {
            Ok(rows) => Cells::Rows(rows, Vec::new(), shown.collect()),
            Err(_) => Cells::Columns(Vec::new()),
        }
    }

    /// Puts the cells of the next observation into `row`; whether there was one.
    fn read(&mut self, row: &mut Vec<Cell<'a>>) -> bool {
        row.clear();
        match self {
            Cells::Columns(columns) => {
                let count = columns.len();
                row.extend(columns.iter_mut().map_while(Iterator::next));
                row.len() == count
            }
            Cells::Rows(rows, all, shown) => {
                let there = rows.read(all);
                row.extend(shown.iter().filter_map(|at| all.get(*at)));
                there
            }
        }
    }
}

/// The label words of the shown variables that have a label set, observation by observation.
struct Labels<'a> {
    /// Nothing where no observation is shown.
    rows: Option<RowWords<'a>>,
    row: Vec<Words<'a>>,
    /// Where the words of each shown variable stand in the row.
    places: Vec<Option<usize>>,
}

impl<'a> Labels<'a> {
    fn new(
        file: &'a File<Vec<u8>>,
        variables: &[Variable],
        from: u64,
        count: u64,
        shown: bool,
    ) -> Labels<'a> {
        let mut labelled = Vec::new();
        let place = |variable: &Variable| {
            (shown && !variable.set.is_empty()).then(|| {
                labelled.push(variable.number);
                labelled.len() - 1
            })
        };
        let places = variables.iter().map(place).collect();
        let rows = file.row_words_from(&labelled, from).ok();
        Labels {
            rows: rows.map(|rows| rows.at_most(count)),
            row: Vec::new(),
            places,
        }
    }

    /// Goes on to the next observation.
    fn read(&mut self) {
        if let Some(rows) = &mut self.rows {
            rows.read(&mut self.row);
        }
    }

    /// The label of the cell of a shown variable.
    fn of(&self, at: usize) -> Option<&'a [u8]> {
        match self.row.get(self.places[at]?)? {
            Words::Label(label) => Some(label),
            Words::Plain => None,
        }
    }
}

struct Table<'a> {
    variables: &'a [Variable<'a>],
    cells: Cells<'a>,
    labels: Labels<'a>,
    longs: Option<LongStrings<'a>>,
    from: u64,
    count: u64,
    row: Vec<Cell<'a>>,
}

impl<'a> Table<'a> {
    fn new(
        file: &'a File<Vec<u8>>,
        variables: &'a [Variable<'a>],
        from: u64,
        count: u64,
        labels: bool,
    ) -> Table<'a> {
        let left = (file.observation_count() + 1).saturating_sub(from);
        let count = count.min(left);
        let has_longs = variables.iter().any(|variable| variable.of == Type::StrL);
        Table {
            variables,
            cells: Cells::new(file, variables, from),
            labels: Labels::new(file, variables, from, count, labels),
            longs: has_longs.then(|| file.long_strings()),
            from,
            count,
            row: Vec::new(),
        }
    }

    /// Puts the fields of the next observation into `fields`, if there is one.
    fn next(&mut self, fields: &mut Vec<Vec<u8>>) -> bool {
        if self.count == 0 || !self.cells.read(&mut self.row) {
            return false;
        }
        self.count -= 1;
        fields.resize_with(self.row.len(), Vec::new);
        self.labels.read();
        for (at, (field, cell)) in fields.iter_mut().zip(&self.row).enumerate() {
            field.clear();
            match self.labels.of(at) {
                Some(label) => field.extend_from_slice(label),
                None => put_cell(field, *cell, self.longs.as_ref()),
            }
        }
        true
    }

    fn csv(&mut self, output: &mut Output) -> io::Result<End> {
        let names: Vec<Vec<u8>> = self
            .variables
            .iter()
            .map(|variable| variable.name.to_vec())
            .collect();
        put_record(&names, output)?;
        let mut fields = Vec::new();
        while self.next(&mut fields) {
            put_record(&fields, output)?;
        }
        Ok(End::Done)
    }

    /// Blocks of observations, each column as wide as its fields in the first block.
    fn columns(&mut self, output: &mut Output) -> io::Result<End> {
        let mut names = vec![String::new()];
        names.extend(self.variables.iter().map(|variable| plain(variable.name)));
        let last = self.from.saturating_add(self.count).saturating_sub(1);
        let mut widths: Vec<usize> = names.iter().map(|name| name.chars().count()).collect();
        widths[0] = last.to_string().len();
        let mut rows = Vec::new();
        let mut fields = Vec::new();
        let mut first = true;
        loop {
            rows.clear();
            while rows.len() < BLOCK && self.next(&mut fields) {
                let mut row = vec![self.from.to_string()];
                row.extend(fields.iter().map(|field| plain(field)));
                rows.push(row);
                self.from += 1;
            }
            if first {
                widen(&mut widths, &rows);
                self.line(&names, &widths, output)?;
                first = false;
            }
            for row in &rows {
                self.line(row, &widths, output)?;
            }
            if rows.len() < BLOCK {
                return Ok(End::Done);
            }
        }
    }

    /// A line of fields: texts to the left, all else to the right.
    fn line(&self, row: &[String], widths: &[usize], output: &mut Output) -> io::Result<()> {
        let mut line = String::new();
        for (at, (field, width)) in row.iter().zip(widths).enumerate() {
            if at > 0 {
                line.push_str("  ");
            }
            let is_text = at > 0 && matches!(self.variables[at - 1].of, Type::Text(_) | Type::StrL);
            let pad = width.saturating_sub(field.chars().count());
            if !is_text {
                line.extend(std::iter::repeat_n(' ', pad));
            }
            line.push_str(field);
            if is_text {
                line.extend(std::iter::repeat_n(' ', pad));
            }
        }
        writeln!(output, "{}", line.trim_end())
    }
}

fn widen(widths: &mut [usize], rows: &[Vec<String>]) {
    for row in rows {
        for (width, field) in widths.iter_mut().zip(row) {
            *width = (*width).max(field.chars().count().min(WIDEST));
        }
    }
}

/// A record of RFC 4180.
fn put_record(fields: &[Vec<u8>], output: &mut Output) -> io::Result<()> {
    for (at, field) in fields.iter().enumerate() {
        if at > 0 {
            output.write_all(b",")?;
        }
        put_field(field, fields.len() == 1, output)?;
    }
    output.write_all(b"\r\n")
}

/// A field, in quotes where it has a comma, a quote or a line's end; an empty one that is alone, too, so that its line is not empty.
fn put_field(field: &[u8], alone: bool, output: &mut Output) -> io::Result<()> {
    let quoted = field
        .iter()
        .any(|byte| matches!(byte, b',' | b'"' | b'\r' | b'\n'));
    if !(quoted || alone && field.is_empty()) {
        return output.write_all(field);
    }
    output.write_all(b"\"")?;
    for part in field.split_inclusive(|byte| *byte == b'"') {
        output.write_all(part)?;
        if part.ends_with(b"\"") {
            output.write_all(b"\"")?;
        }
    }
    output.write_all(b"\"")
}
