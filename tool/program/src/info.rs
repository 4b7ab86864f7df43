//! `dta info`: what a file says of itself and of its variables.

use crate::arguments::Arguments;
use crate::output::{self, Output};
use crate::text::{plain, type_name};
use crate::{input, End};
use dta::File;
use std::ffi::OsString;
use std::io::{self, Write};

pub fn run(given: Vec<OsString>) -> End {
    told(given).unwrap_or_else(|end| end)
}

fn told(given: Vec<OsString>) -> Result<End, End> {
    let arguments = Arguments::parse("info", &[], given)?;
    let [name] = arguments.exactly(["FILE"])?;
    let file = input::open_telling(name)?;
    Ok(output::write(|output| {
        header(&file, output)?;
        variables(&file, output)?;
        Ok(End::Done)
    }))
}

fn header(file: &File<Vec<u8>>, output: &mut Output) -> io::Result<()> {
    let sorted: Vec<String> = file
        .sort_order()
        .into_iter()
        .filter_map(|i| file.variable(i).ok())
        .map(|variable| plain(variable.name))
        .collect();
    for (what, said) in [
        (
            "edition",
            format!("{} {}", file.edition(), file.byte_order().name()),
        ),
        ("label", plain(file.label())),
        ("stamp", plain(file.stamp())),
        ("variables", file.variable_count().to_string()),
        ("observations", file.observation_count().to_string()),
        ("sorted by", sorted.join(" ")),
    ] {
        writeln!(output, "{}", format!("{what:<14}{said}").trim_end())?;
    }
    Ok(())
}

fn variables(file: &File<Vec<u8>>, output: &mut Output) -> io::Result<()> {
    let mut rows = vec![["name", "type", "format", "label set", "label"].map(String::from)];
    rows.extend(file.variables().map(|variable| {
        [
            plain(variable.name),
            type_name(variable.of),
            plain(variable.format),
            plain(variable.set),
            plain(variable.label),
        ]
    }));
    if rows.len() == 1 {
        return Ok(());
    }
    let width = |at: usize| {
        rows.iter()
            .map(|row| row[at].chars().count())
            .max()
            .unwrap_or(0)
    };
    let widths = [width(0), width(1), width(2), width(3), 0];
    writeln!(output)?;
    for row in &rows {
        let fields: Vec<String> = row
            .iter()
            .zip(widths)
            .map(|(field, width)| format!("{field:<width$}"))
            .collect();
        writeln!(output, "{}", fields.join("  ").trim_end())?;
    }
    Ok(())
}
