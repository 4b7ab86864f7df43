//! `dta layout`: edition, byte order, K, N and the fourteen positions.

use crate::arguments::Arguments;
use crate::{input, output, End};
use std::ffi::OsString;

pub fn run(given: Vec<OsString>) -> End {
    told(given).unwrap_or_else(|end| end)
}

fn told(given: Vec<OsString>) -> Result<End, End> {
    let arguments = Arguments::parse("layout", &[], given)?;
    let [name] = arguments.exactly(["FILE"])?;
    let file = input::open(name)?;
    let numbers: Vec<String> = file.layout().0.iter().map(u64::to_string).collect();
    Ok(output::line(&numbers.join(",")))
}
