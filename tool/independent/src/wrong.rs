//! Layouts that are wrong for a file.

use crate::edition::NUMBERS;
use crate::questions::Numbers;
use crate::random::Random;

/// Where the fourteen positions start among the numbers.
const POSITIONS: usize = 4;

/// A layout made from the file's own or from another's, wrong in one or more ways.
pub fn layout(random: &mut Random, own: &Numbers, other: &Numbers, length: usize) -> Numbers {
    let mut layout = match random.below(8) {
        0 => *other,
        1 => any(random, length),
        _ => *own,
    };
    for _ in 0..random.pick(&[1, 1, 1, 1, 2, 2, 3]) {
        spoil(random, &mut layout, own, other, length);
    }
    layout
}

/// Those that are off by one in one number.
pub fn off_by_one(own: &Numbers) -> Vec<Numbers> {
    let with = |item: usize, number: u64| {
        let mut layout = *own;
        layout[item] = number;
        layout
    };
    (0..own.len())
        .flat_map(|item| {
            [
                with(item, own[item].wrapping_add(1)),
                with(item, own[item].wrapping_sub(1)),
            ]
        })
        .collect()
}

/// Another end of the records or of the label blocks.
pub fn other_ends(random: &mut Random, layout: &mut Numbers, length: usize) {
    let end = random.pick(&[POSITIONS + 11, POSITIONS + 12]);
    let by = random.below(80) as u64;
    layout[end] = match random.below(3) {
        0 => length as u64 + by,
        1 => layout[end].saturating_sub(by),
        _ => layout[end].saturating_add(by),
    };
}

fn any(random: &mut Random, length: usize) -> Numbers {
    let mut layout = [0; 18];
    layout[0] = random.pick(&[113, 114, 115, 117, 117, 118, 118]);
    layout[1] = random.pick(&[1, 2]);
    layout[2] = random.pick(&[1, 2, 3, 5, 9, 300]);
    layout[3] = random.pick(&[1, 2, 3, 5, 9, 70_000]);
    for position in &mut layout[POSITIONS..] {
        *position = random.below(length + 2) as u64;
    }
    if random.once_in(2) {
        layout[POSITIONS..].sort_unstable();
    }
    layout
}

fn spoil(random: &mut Random, layout: &mut Numbers, own: &Numbers, other: &Numbers, length: usize) {
    let item = random.below(layout.len());
    let position = random.between(POSITIONS, layout.len() - 1);
    match random.below(16) {
        0 => layout[item] = layout[item].wrapping_add(1),
        1 => layout[item] = layout[item].wrapping_sub(1),
        2 => layout.swap(position, random.between(POSITIONS, own.len() - 1)),
        3 => layout[position] = high(random),
        4 => layout[random.between(2, 3)] = large(random),
        5 => layout[0] = edition(random),
        6 => layout[1] = random.pick(&[1, 1, 2, 2, 0, 3, 256, 257, u64::MAX]),
        7 => layout[item] = other[item],
        8 => layout[position] = random.below(length + 2) as u64,
        9 => {
            // All that lies behind is moved.
            let by = random.below(60) as u64;
            let back = random.once_in(2);
            for place in &mut layout[position..] {
                *place = match back {
                    true => place.saturating_sub(by),
                    false => place.saturating_add(by),
                };
            }
        }
        10 => layout[2] = random.below(own[2].min(50) as usize + 3) as u64,
        11 => layout[3] = random.below(own[3].min(50) as usize + 8) as u64,
        12 | 13 => other_ends(random, layout, length),
        14 => layout[position] = (length as u64).saturating_sub(random.below(100) as u64),
        _ => {
            let by = random.below(20) as u64;
            layout[position] = match random.once_in(2) {
                true => layout[position].saturating_sub(by),
                false => layout[position].saturating_add(by),
            };
        }
    }
}

/// One that is read, or one that isn't.
fn edition(random: &mut Random) -> u64 {
    let known = NUMBERS.map(u64::from);
    match random.once_in(3) {
        true => random.pick(&[0, 112, 116, 119, 256 + 113, 256 + 118, (1 << 32) + 118]),
        false => random.pick(&known),
    }
}

/// Near 2^64, 2^63 or 2^32.
fn high(random: &mut Random) -> u64 {
    let top: u64 = random.pick(&[0, 0, 1 << 63, 1 << 32, 1 << 31]);
    let beside = random.below(400) as u64;
    match random.once_in(4) {
        true if top > 0 => top.wrapping_add(beside),
        _ => top.wrapping_sub(beside),
    }
}

/// A count above those of files, or near it.
fn large(random: &mut Random) -> u64 {
    let counts = [
        32_767,
        65_535,
        65_536,
        2_147_483_647,
        1 << 32,
        1 << 33,
        1 << 61,
        1 << 62,
        1 << 63,
        u64::MAX - 1,
        u64::MAX,
        u64::MAX,
    ];
    match random.once_in(3) {
        true => random.number(),
        false => random.pick(&counts),
    }
}
