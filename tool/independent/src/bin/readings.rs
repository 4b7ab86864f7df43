//! Writes the meter readings of `samples/` on standard output, as a file of the edition that is named, or of 117.

use independent::edition::Edition;
use independent::generate::Order;
use independent::readings::dataset;
use independent::writer::write_by;
use std::io::Write;

fn main() -> std::io::Result<()> {
    let named = std::env::args().nth(1).unwrap_or("117".to_string());
    let number: Option<u64> = named.parse().ok();
    match number.and_then(Edition::of) {
        Some(edition) => std::io::stdout().write_all(&write_by(&dataset(), edition, Order::Lsf)),
        None => Err(std::io::Error::other(format!("no edition {named}"))),
    }
}
