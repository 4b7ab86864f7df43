//! Stata `.dta` files of editions 113, 114, 115, 117 and 118, by a proved library: what it answers comes from the facts in the file and from nowhere else.
//!
//! ```no_run
//! let bytes = std::fs::read("readings.dta").unwrap();
//! let file = dta::open(bytes).unwrap();
//! for cell in file.column(1).unwrap() {
//!     println!("{cell:?}");
//! }
//! let other = file.rewritten(114, dta::ByteOrder::Msf).unwrap();
//! ```
//!
//! `open` checks the bytes; a file that is not well formed is refused by its number. Questions are asked of the [`File`]; a variable or an observation that is
//! not there is refused with 16. Variables and observations are counted from 1. Texts are bytes: no code page is assumed.
//!
//! Every byte of a file is read by the proved code alone. This crate hands numbers and slices over, and takes parts of the file by the places and lengths that it
//! was told. [`raw`] has the functions themselves. They need up to 1 MiB of the calling thread's stack.

pub mod raw;

mod answer;
mod cell;
mod file;
mod lists;
mod many;
mod refusal;

pub use answer::{Answer, Part, Question, Type};
pub use cell::{Cell, Words};
pub use file::{open, ByteOrder, File, Layout, Variable};
pub use lists::{Entries, LabelSet, LabelSets, LongString, LongStrings};
pub use many::{Column, ColumnWords, RowWords, Rows};
pub use refusal::Refusal;

/// The editions that are read and written. 116 and 119 are not.
pub const EDITIONS: [u64; 5] = [113, 114, 115, 117, 118];

/// The greatest length of a file in bytes, and the greatest number of observations.
pub const LONGEST: usize = 2_147_483_647;
