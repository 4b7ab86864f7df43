//! Lists about a whole file: its long strings and its label sets.

use crate::answer::slice;
use crate::file::Layout;
use crate::raw;

/// The list that `fill` stores, in room for `room` numbers or as many more as it asks for.
pub(crate) fn list(
    file: &[u8],
    fill: fn(&[u8], &mut [u64], &mut [u64]) -> u8,
    mut room: usize,
) -> Vec<u64> {
    loop {
        let mut list = vec![0; room];
        let mut count = [0];
        let number = fill(file, &mut list, &mut count);
        let count = count[0] as usize;
        match number {
            0 => {
                list.truncate(count);
                return list;
            }
            14 => room = count,
            _ => return Vec::new(),
        }
    }
}

/// The bytes from one position of a file to the next.
pub(crate) fn part(layout: &Layout, position: usize) -> usize {
    let positions = layout.positions();
    positions[position + 1].saturating_sub(positions[position]) as usize
}

/// A long string as it is recorded.
#[derive(Clone, Copy, PartialEq, Eq, Debug)]
pub struct LongString<'a> {
    /// 129: any bytes. 130: a text, whose contents end with a zero.
    pub kind: u8,
    pub contents: &'a [u8],
}

impl<'a> LongString<'a> {
    /// The contents, of a text without its zero.
    pub fn text(&self) -> &'a [u8] {
        match (self.kind, self.contents) {
            (130, [text @ .., 0]) => text,
            (_, contents) => contents,
        }
    }
}

/// The long strings of a file, in the order of the observations and variables that they were recorded for.
pub struct LongStrings<'a> {
    /// Where those of each observation end; none of an observation 0.
    ends: Vec<usize>,
    /// With the variable.
    recorded: Vec<(u64, LongString<'a>)>,
}

impl<'a> LongStrings<'a> {
    pub(crate) fn new(file: &'a [u8], layout: &Layout) -> LongStrings<'a> {
        // A record has at least 16 bytes.
        let room = part(layout, 10) / 16 * raw::LONG_STRING;
        let list = list(file, raw::long_list, room);
        let mut ends = vec![0];
        let mut recorded = Vec::with_capacity(list.len() / raw::LONG_STRING);
        for numbers in list.chunks_exact(raw::LONG_STRING) {
            let long = LongString {
                kind: numbers[2] as u8,
                contents: slice(file, numbers[3], numbers[4]),
            };
            ends.resize(numbers[1] as usize, recorded.len());
            recorded.push((numbers[0], long));
        }
        ends.push(recorded.len());
        LongStrings { ends, recorded }
    }

    /// The long string that a reference means; nothing for (0, 0), the empty text.
    pub fn get(&self, v: u64, o: u64) -> Option<LongString<'a>> {
        let o = usize::try_from(o).ok()?;
        let start = *self.ends.get(o.checked_sub(1)?)?;
        let of_observation = self.recorded.get(start..*self.ends.get(o)?)?;
        let at = of_observation.binary_search_by_key(&v, |(variable, _)| *variable);
        at.ok().map(|at| of_observation[at].1)
    }

    pub fn len(&self) -> usize {
        self.recorded.len()
    }

    pub fn is_empty(&self) -> bool {
        self.recorded.is_empty()
    }
}

/// A label set: its name, and values with their texts, ascending.
#[derive(Clone, Debug)]
pub struct LabelSet<'a> {
    pub name: &'a [u8],
    pub entries: Entries<'a>,
}

/// The entries of a label set: each a value and its text.
#[derive(Clone, Debug)]
pub struct Entries<'a> {
    file: &'a [u8],
    numbers: std::vec::IntoIter<u64>,
}

impl<'a> Iterator for Entries<'a> {
    type Item = (i32, &'a [u8]);

    fn next(&mut self) -> Option<(i32, &'a [u8])> {
        let value = self.numbers.next()? as u32 as i32;
        let place = self.numbers.next()?;
        let length = self.numbers.next()?;
        Some((value, slice(self.file, place, length)))
    }
}

/// The label sets of a file.
pub struct LabelSets<'a> {
    file: &'a [u8],
    numbers: Vec<u64>,
    at: usize,
}

impl<'a> LabelSets<'a> {
    pub(crate) fn new(file: &'a [u8], layout: &Layout) -> LabelSets<'a> {
        // An entry has at least eight bytes, a block forty more.
        let room = part(layout, 11) / 8 * 3 + 3;
        LabelSets {
            file,
            numbers: list(file, raw::set_list, room),
            at: 0,
        }
    }
}

impl<'a> Iterator for LabelSets<'a> {
    type Item = LabelSet<'a>;

    fn next(&mut self) -> Option<LabelSet<'a>> {
        let [place, length, count] = self.numbers.get(self.at..self.at + 3)?.try_into().ok()?;
        let start = self.at + 3;
        let end = start.saturating_add(3 * count as usize);
        let numbers = self.numbers.get(start..end)?.to_vec();
        self.at = end;
        Some(LabelSet {
            name: slice(self.file, place, length),
            entries: Entries {
                file: self.file,
                numbers: numbers.into_iter(),
            },
        })
    }
}
