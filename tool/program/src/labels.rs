//! `dta labels`: the label sets.

use crate::arguments::Arguments;
use crate::text::{label_value, plain};
use crate::{input, output, End};
use std::ffi::OsString;
use std::io::Write;

pub fn run(given: Vec<OsString>) -> End {
    told(given).unwrap_or_else(|end| end)
}

fn told(given: Vec<OsString>) -> Result<End, End> {
    let arguments = Arguments::parse("labels", &[], given)?;
    let [name] = arguments.exactly(["FILE"])?;
    let file = input::open_telling(name)?;
    Ok(output::write(|output| {
        for set in file.label_sets() {
            writeln!(output, "{}", plain(set.name))?;
            for (value, text) in set.entries {
                writeln!(output, "  {}\t{}", label_value(value), plain(text))?;
            }
        }
        Ok(End::Done)
    }))
}
