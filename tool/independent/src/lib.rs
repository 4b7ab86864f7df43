//! An independent reader of Stata .dta files, editions 113, 114, 115, 117 and 118, and its comparison with the proved one.
//! The reader is written from the paper alone. It serves to test, and to say why a file is refused.

pub mod damage;
pub mod dataset;
pub mod dead;
pub mod edition;
pub mod generate;
pub mod parts;
pub mod proved;
pub mod questions;
pub mod random;
pub mod reader;
pub mod readings;
pub mod record;
pub mod rounds;
pub mod sketch;
pub mod stand_in;
pub mod stated;
pub mod writer;
pub mod wrong;

pub use reader::{check, explain, line, Layout, Refusal};
