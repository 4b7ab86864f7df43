//! The proved library, as compiled.

use crate::reader::{line_of, Layout};
use dta::raw;

/// Edition, byte order, K, N, fourteen positions.
pub const STORED: usize = raw::LAYOUT;

/// The number answered. Eighteen numbers are stored where `layout` has room for them.
pub fn call(file: &[u8], layout: &mut [u64]) -> u8 {
    raw::check(file, layout)
}

/// The number answered and the numbers stored.
pub fn answer(file: &[u8]) -> (u8, [u64; STORED]) {
    // A number that the library doesn't store shows.
    let mut stored = [0x5a5a_5a5a_5a5a_5a5a; STORED];
    let number = call(file, &mut stored);
    (number, stored)
}

/// What the library has to answer where the verdict is this one.
pub fn due(verdict: &Result<Layout, u8>) -> (u8, [u64; STORED]) {
    let mut stored = [0; STORED];
    match verdict {
        Ok(layout) => {
            stored[0] = u64::from(layout.edition);
            stored[1] = u64::from(layout.byte_order);
            stored[2] = u64::from(layout.k);
            stored[3] = u64::from(layout.n);
            stored[4..].copy_from_slice(&layout.positions);
            (0, stored)
        }
        Err(number) => (*number, stored),
    }
}

/// The layout of an accepted file, or the refusal's number. Panics where the answer is neither.
pub fn check(file: &[u8]) -> Result<Layout, u8> {
    let (number, stored) = answer(file);
    if number != 0 {
        assert!(number <= 13, "number {number}");
        assert_eq!(stored, [0; STORED], "the layout with refusal {number}");
        return Err(number);
    }
    Ok(Layout {
        edition: stored[0].try_into().expect("an edition"),
        byte_order: stored[1].try_into().expect("a byte order"),
        k: stored[2].try_into().expect("a K"),
        n: stored[3].try_into().expect("an N"),
        positions: stored[4..].try_into().expect("fourteen positions"),
    })
}

/// As the reader's `line`.
pub fn line(file: &[u8]) -> String {
    line_of(&check(file), file.len())
}

// Rewriting.

/// The number answered. The result's length is stored in the first place of `len`, where it has one.
pub fn call_rewrite(file: &[u8], edition: u64, order: u64, out: &mut [u8], len: &mut [u64]) -> u8 {
    raw::rewrite(file, edition, order, out, len)
}

/// The number answered and the length stored.
pub fn rewrite(file: &[u8], edition: u64, order: u64, out: &mut [u8]) -> (u64, u64) {
    // A length that the library doesn't store shows.
    let mut len = [0x5a5a_5a5a_5a5a_5a5a];
    let number = call_rewrite(file, edition, order, out, &mut len);
    (u64::from(number), len[0])
}
