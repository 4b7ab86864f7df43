//! Accepted files damaged at random.

use crate::edition::{Edition, PADDING, RECORD_V};
use crate::generate::Order;
use crate::parts::{parts, Kind, Part, KINDS};
use crate::random::Random;
use crate::Layout;
use std::ops::Range;

/// An accepted file, ready to be damaged.
#[derive(Clone)]
pub struct Source {
    file: Vec<u8>,
    edition: &'static Edition,
    order: Order,
    positions: [usize; 14],
    parts: Vec<Part>,
    groups: Vec<Range<usize>>,
    /// For each kind, the indexes of its parts.
    by_kind: Vec<Vec<usize>>,
}

impl Source {
    pub fn new(file: Vec<u8>, layout: &Layout) -> Source {
        let found = parts(&file, layout);
        let mut by_kind = vec![Vec::new(); KINDS];
        for (index, part) in found.parts.iter().enumerate() {
            by_kind[part.kind as usize].push(index);
        }
        Source {
            file,
            edition: Edition::known(layout.edition),
            order: Order::from_code(layout.byte_order),
            positions: layout.positions.map(|position| position as usize),
            parts: found.parts,
            groups: found.groups,
            by_kind,
        }
    }

    /// A damaged copy. It may be accepted.
    pub fn damaged(&self, random: &mut Random) -> Vec<u8> {
        let mut copy = self.clone();
        let times = random.pick(&[1, 1, 1, 1, 1, 1, 2, 2, 2, 3, 3, 5]);
        for _ in 0..times {
            copy.damage(random);
        }
        if copy.edition.tagged && random.once_in(2) {
            copy.repair_map();
        }
        copy.file
    }

    /// A copy damaged in its label tables, long strings and cells. Nothing is moved.
    pub fn damaged_in_place(&self, random: &mut Random) -> Vec<u8> {
        const KINDS: [Kind; 18] = [
            Kind::TableLength,
            Kind::BlockName,
            Kind::Entries,
            Kind::Entries,
            Kind::TextLength,
            Kind::Offset,
            Kind::Offset,
            Kind::Offset,
            Kind::Value,
            Kind::Text,
            Kind::Text,
            Kind::StrlV,
            Kind::StrlO,
            Kind::RecordV,
            Kind::RecordO,
            Kind::RecordKind,
            Kind::RecordLength,
            Kind::Cell,
        ];
        let mut copy = self.clone();
        for _ in 0..random.pick(&[1, 1, 2, 3, 5]) {
            let kind = random.pick(&KINDS);
            let found = &copy.by_kind[kind as usize];
            if found.is_empty() {
                continue;
            }
            let index = random.pick(found);
            if kind == Kind::Entries && random.once_in(2) {
                copy.shift_entries(index, random);
            } else {
                copy.change_part_at(index, random);
            }
        }
        copy.file
    }

    /// A copy damaged in a part of that kind, where the file has one.
    pub fn damaged_as(&self, kind: Kind, random: &mut Random) -> Vec<u8> {
        let mut copy = self.clone();
        let found = &copy.by_kind[kind as usize];
        if !found.is_empty() {
            let index = random.pick(found);
            copy.change_part_at(index, random);
        }
        copy.file
    }

    /// Entries more or fewer, in a table as long as it says.
    fn shift_entries(&mut self, index: usize, random: &mut Random) {
        let (entries, text) = (self.parts[index], self.parts[index + 1]);
        let (n, length) = (self.number(entries), self.number(text));
        let by = random.between(1, 3) as u64;
        if n >= by && random.once_in(2) {
            self.store_number(entries, n - by);
            self.store_number(text, length + 8 * by);
        } else if length >= 8 * by {
            self.store_number(entries, n + by);
            self.store_number(text, length - 8 * by);
        }
    }

    fn damage(&mut self, random: &mut Random) {
        match random.below(20) {
            0 | 1 => self.change_byte(random),
            2 => self.cut(random),
            3 => self.insert(random),
            4 => self.remove(random),
            5 => self.change_any_number(random),
            6 | 7 => self.move_parts(random),
            8 => self.random_rest(random),
            9 => self.append(random),
            10 | 11 => self.grow(random),
            _ => self.change_part(random),
        }
    }

    // Edits.

    /// Puts other bytes in the place of some, and moves all that lies behind.
    fn replace(&mut self, range: Range<usize>, bytes: &[u8]) {
        let end = range.end.min(self.file.len());
        let start = range.start.min(end);
        self.file.splice(start..end, bytes.iter().copied());
        let moved = |place: usize| match place {
            _ if place >= end => place - (end - start) + bytes.len(),
            _ => place.min(start + bytes.len()),
        };
        for part in &mut self.parts {
            part.start = moved(part.start);
            part.end = moved(part.end);
        }
        for group in &mut self.groups {
            *group = moved(group.start)..moved(group.end);
        }
        self.positions = self.positions.map(moved);
    }

    /// Stores bytes as far as the file reaches.
    fn store(&mut self, start: usize, bytes: &[u8]) {
        for (place, byte) in self.file.iter_mut().skip(start).zip(bytes) {
            *place = *byte;
        }
    }

    fn store_number(&mut self, part: Part, number: u64) {
        let width = (part.end - part.start).min(8);
        self.store(part.start, &self.order.bytes(number, width));
    }

    fn bytes(&self, range: Range<usize>) -> Vec<u8> {
        let end = range.end.min(self.file.len());
        self.file[range.start.min(end)..end].to_vec()
    }

    fn number(&self, part: Part) -> u64 {
        let mut bytes = self.bytes(part.start..part.end);
        bytes.truncate(8);
        self.order.number(&bytes)
    }

    fn repair_map(&mut self) {
        self.positions[0] = 0;
        self.positions[13] = self.file.len();
        let map = self.positions[1] + 5;
        for item in 0..14 {
            let bytes = self.order.bytes(self.positions[item] as u64, 8);
            self.store(map + 8 * item, &bytes);
        }
    }

    // Places.

    /// A part of any kind that the file has.
    fn any_part(&self, random: &mut Random) -> usize {
        loop {
            let found = &self.by_kind[random.below(KINDS)];
            if !found.is_empty() {
                return random.pick(found);
            }
        }
    }

    fn of_kind(&self, kind: Kind, random: &mut Random) -> Option<Part> {
        let found = &self.by_kind[kind as usize];
        (!found.is_empty()).then(|| self.parts[random.pick(found)])
    }

    /// Any place, or one at or beside a border of a part.
    fn place(&self, random: &mut Random) -> usize {
        let length = self.file.len();
        if random.once_in(3) {
            return random.below(length + 1);
        }
        let start = self.parts[self.any_part(random)].start;
        let place = match random.below(4) {
            0 => start + 1,
            1 => start.saturating_sub(1),
            _ => start,
        };
        place.min(length)
    }

    fn any_range(&self, random: &mut Random) -> Range<usize> {
        if random.once_in(2) {
            return self.groups[random.below(self.groups.len())].clone();
        }
        let part = self.parts[self.any_part(random)];
        part.start..part.end
    }

    // Damages anywhere.

    fn change_byte(&mut self, random: &mut Random) {
        let place = self.place(random);
        let Some(byte) = self.file.get_mut(place) else {
            return;
        };
        *byte = match random.below(6) {
            0 => byte.wrapping_add(1),
            1 => byte.wrapping_sub(1),
            2 => *byte ^ 1 << random.below(8),
            3 => 0,
            4 => 255,
            _ => random.byte(),
        };
    }

    fn cut(&mut self, random: &mut Random) {
        let place = self.place(random);
        self.file.truncate(place);
    }

    fn insert(&mut self, random: &mut Random) {
        let place = self.place(random);
        let length = random.between(1, 9);
        let bytes = match random.below(3) {
            0 => vec![0; length],
            1 => self.bytes(place..place + length),
            _ => random.bytes(length),
        };
        self.replace(place..place, &bytes);
    }

    fn remove(&mut self, random: &mut Random) {
        let place = self.place(random);
        let length = random.between(1, 9);
        self.replace(place..place + length, &[]);
    }

    fn change_any_number(&mut self, random: &mut Random) {
        let start = self.place(random);
        let end = start + random.pick(&[2, 4, 8]);
        let part = Part {
            kind: Kind::Cell,
            start,
            end,
        };
        self.change_number(part, random);
    }

    fn change_number(&mut self, part: Part, random: &mut Random) {
        let number = self.number(part);
        let large = [
            0x7f,
            0x80,
            0xff,
            0x100,
            0x7fff,
            0x8000,
            0xffff,
            0x1_0000,
            0x1_0001,
            0x1fff_ffff,
            0x2000_0000,
            0x7fff_fffe,
            0x7fff_ffff,
            0x8000_0000,
            0x8000_0001,
            0xffff_fff8,
            0xffff_fffe,
            0xffff_ffff,
            1 << 32,
            1 << 40,
            1 << 47,
            1 << 48,
            1 << 63,
            u64::MAX,
        ];
        let small = random.between(1, 40) as u64;
        let changed = match random.below(9) {
            0 | 1 => number.wrapping_add(1),
            2 | 3 => number.wrapping_sub(1),
            4 => number.wrapping_add(small),
            5 => number.wrapping_sub(small),
            6 => 0,
            7 => large[random.below(large.len())].wrapping_add(number),
            _ => large[random.below(large.len())],
        };
        self.store_number(part, changed);
    }

    /// A part doubled or dropped, or two swapped.
    fn move_parts(&mut self, random: &mut Random) {
        let one = self.any_range(random);
        match random.below(6) {
            0 => {
                let bytes = self.bytes(one.clone());
                self.replace(one.end..one.end, &bytes);
            }
            1 => self.replace(one, &[]),
            2 => {
                let other = self.any_range(random);
                self.swap(one, other);
            }
            3 => {
                let following = one.end..one.end + one.len();
                self.swap(one, following);
            }
            4 => {
                // Two groups that follow each other, such as records.
                let first = random.below(self.groups.len());
                if let [one, other, ..] = &self.groups[first..] {
                    self.swap(one.clone(), other.clone());
                }
            }
            _ => {
                let one = self.parts[self.any_part(random)];
                if let Some(other) = self.of_kind(one.kind, random) {
                    self.swap(one.start..one.end, other.start..other.end);
                }
            }
        }
    }

    fn swap(&mut self, one: Range<usize>, other: Range<usize>) {
        let (first, last) = match one.start < other.start {
            true => (one, other),
            false => (other, one),
        };
        if last.start < first.end {
            return;
        }
        let first_bytes = self.bytes(first.clone());
        let last_bytes = self.bytes(last.clone());
        self.replace(last, &first_bytes);
        self.replace(first, &last_bytes);
    }

    fn random_rest(&mut self, random: &mut Random) {
        self.cut(random);
        let length = random.below(200);
        let rest = random.bytes(length);
        self.file.extend(rest);
    }

    fn append(&mut self, random: &mut Random) {
        let length = random.between(1, 50);
        let bytes = match random.below(3) {
            0 => vec![0; length],
            1 => self.bytes(self.file.len().saturating_sub(length)..self.file.len()),
            _ => random.bytes(length),
        };
        self.file.extend(bytes);
    }

    /// Contents or a text made longer or shorter, with the lengths that go with it.
    fn grow(&mut self, random: &mut Random) {
        let kind = random.pick(&[Kind::Skipped, Kind::Contents, Kind::Text]);
        let found = &self.by_kind[kind as usize];
        if found.is_empty() {
            return;
        }
        let index = random.pick(found);
        let Part { start, end, .. } = self.parts[index];
        let place = random.between(start, end);
        if random.once_in(3) {
            let last = random.between(place, end);
            self.replace(place..last, &[]);
        } else {
            let length = random.between(1, 9);
            let bytes = match random.below(3) {
                0 => b"</ch><ch>GSO</lbl>"[..length].to_vec(),
                1 => random.bytes(length),
                _ => random.text(length),
            };
            self.replace(place..place, &bytes);
            // The bytes belong to this part, also where they stand at its start.
            self.parts[index].start = start;
            let previous = &mut self.parts[index - 1];
            *previous = Part {
                start: previous.start.min(start),
                end: start,
                ..*previous
            };
        }
        let length = (self.parts[index].end - start) as u64;
        if kind != Kind::Text {
            return self.store_number(self.parts[index - 1], length);
        }
        let before = |kind: Kind| self.parts[..index].iter().rfind(|part| part.kind == kind);
        let (text, table) = (before(Kind::TextLength), before(Kind::TableLength));
        let (Some(text), Some(table)) = (text.copied(), table.copied()) else {
            return;
        };
        self.store_number(text, length);
        let name = self.edition.name + PADDING;
        let head = start.saturating_sub(table.end + name) as u64;
        self.store_number(table, head + length);
    }

    // Damages by the kind of a part.

    fn change_part(&mut self, random: &mut Random) {
        let index = self.any_part(random);
        self.change_part_at(index, random);
    }

    fn change_part_at(&mut self, index: usize, random: &mut Random) {
        let part = self.parts[index];
        // An earlier damage may have left nothing of it.
        if part.start == part.end || part.start >= self.file.len() {
            return;
        }
        match part.kind {
            Kind::Edition if self.edition.tagged => {
                let digits = [
                    b"117", b"118", b"117", b"118", b"113", b"115", b"116", b"119",
                ];
                let digits = random.pick(&digits);
                self.store(part.start, digits);
            }
            Kind::Edition => {
                let edition = random.pick(&[112, 113, 114, 115, 116, 117, 118, 119, b'<']);
                self.store(part.start, &[edition]);
            }
            Kind::ByteOrder if self.edition.tagged => {
                let order = random.pick(&[b"MSF", b"LSF", b"msf", b"FSM", b"LSM"]);
                self.store(part.start, order);
            }
            Kind::ByteOrder | Kind::FileType => {
                let byte = random.pick(&[0, 1, 2, 3, 255]);
                self.store(part.start, &[byte]);
            }
            Kind::LabelLength => {
                let lengths = [
                    0, 1, 79, 80, 81, 128, 255, 256, 319, 320, 321, 0x4001, 0xffff,
                ];
                self.store_number(part, random.pick(&lengths));
            }
            Kind::N if random.once_in(3) => self.raise(part, random),
            Kind::StampLength => {
                let byte = random.pick(&[0, 1, 16, 17, 18, 255]);
                self.store(part.start, &[byte]);
            }
            Kind::Label | Kind::Stamp => self.change_label(part, random),
            Kind::Tag | Kind::Mark => self.change_tag(part, random),
            Kind::Type => self.change_type(part, random),
            Kind::Name | Kind::Format | Kind::LabelSet | Kind::VariableLabel | Kind::BlockName => {
                self.change_field(part, random)
            }
            Kind::Sort => self.change_sort(part, random),
            Kind::BlockType => {
                let byte = random.pick(&[0, 0, 1, 255]);
                self.store(part.start, &[byte]);
            }
            Kind::StrlV | Kind::StrlO | Kind::RecordV | Kind::RecordO => {
                self.change_reference(part, random);
            }
            Kind::RecordKind => {
                let kind = random.pick(&[0, 128, 129, 130, 131, 255]);
                self.store(part.start, &[kind]);
            }
            Kind::Contents => self.change_contents(part, random),
            Kind::Entries => {
                let number = self.number(part);
                let changed = match random.below(3) {
                    0 => number.wrapping_add(0x2000_0000),
                    1 => random.pick(&[0, 65_536, 65_537]),
                    _ => return self.change_number(part, random),
                };
                self.store_number(part, changed);
            }
            Kind::TextLength if random.once_in(3) => {
                let number = random.pick(&[5_308_416, 5_308_417]);
                self.store_number(part, number);
            }
            Kind::Offset => self.change_offset(index, random),
            Kind::Value => self.change_value(part, random),
            Kind::Text => self.change_text(part, random),
            Kind::Unused | Kind::Padding | Kind::Skipped | Kind::Cell => {
                let bytes = random.bytes(part.end - part.start);
                self.store(part.start, &bytes);
            }
            Kind::K
            | Kind::N
            | Kind::Map
            | Kind::SkippedLength
            | Kind::RecordLength
            | Kind::TableLength
            | Kind::TextLength => self.change_number(part, random),
        }
    }

    /// A higher byte of a number made another.
    fn raise(&mut self, part: Part, random: &mut Random) {
        let width = (part.end - part.start).min(8);
        if width > 1 {
            let byte = random.between(1, 255) as u64;
            let higher = byte << (8 * random.between(1, width - 1));
            self.store_number(part, self.number(part) ^ higher);
        }
    }

    fn change_label(&mut self, part: Part, random: &mut Random) {
        let length = part.end - part.start;
        match random.below(4) {
            0 => self.store(part.start, &vec![b'x'; length]),
            1 => self.store(part.start, &[0]),
            2 => self.store(part.end - 1, &[random.byte()]),
            _ => self.store(part.start + random.below(length), &[0]),
        }
    }

    fn change_tag(&mut self, part: Part, random: &mut Random) {
        let place = random.between(part.start, part.end - 1);
        match random.below(5) {
            0 => self.store(place, &[random.byte()]),
            1 => {
                let byte = self.file.get(place).copied().unwrap_or(0);
                self.store(place, &[byte ^ 0x20]);
            }
            2 => {
                let tag = [
                    "<ch>", "</ch>", "<lbl>", "</lbl>", "GSO", "<data>", "</strls>",
                ];
                let tag = random.pick(&tag);
                self.replace(part.start..part.end, tag.as_bytes());
            }
            3 => self.replace(place..place + 1, &[]),
            _ => {
                if let Some(other) = self.of_kind(Kind::Tag, random) {
                    let tag = self.bytes(other.start..other.end);
                    self.replace(part.start..part.end, &tag);
                }
            }
        }
    }

    fn change_type(&mut self, part: Part, random: &mut Random) {
        let codes: &[u64] = match self.edition.tagged {
            true => &[
                0, 1, 244, 245, 250, 251, 255, 256, 2045, 2046, 32767, 32768, 32769, 65525, 65526,
                65527, 65528, 65529, 65530, 65531, 65535,
            ],
            false => &[0, 1, 243, 244, 245, 250, 251, 252, 253, 254, 255],
        };
        let code = match random.once_in(3) {
            true => match self.of_kind(Kind::Type, random) {
                Some(other) => self.number(other),
                None => 0,
            },
            false => random.pick(codes),
        };
        self.store_number(part, code);
    }

    fn change_field(&mut self, part: Part, random: &mut Random) {
        let length = part.end - part.start;
        let mut field = match random.below(4) {
            0 => self.bytes(part.start..part.end),
            1 => random.bytes(length),
            _ => random.text(length),
        };
        field.resize(length, 0);
        match random.below(4) {
            0 => field[0] = 0,
            1 => field[length - 1] = 0,
            _ => {}
        }
        self.store(part.start, &field);
    }

    fn change_sort(&mut self, part: Part, random: &mut Random) {
        let k = self.by_kind[Kind::Type as usize].len() as u64;
        let number = match random.below(6) {
            0 => 0,
            1 => k,
            2 => k + 1,
            3 => random.number(),
            4 => random.below(k as usize + 2) as u64,
            _ => match self.of_kind(Kind::Sort, random) {
                Some(other) => self.number(other),
                None => 0,
            },
        };
        self.store_number(part, number);
    }

    /// The widths of the two numbers of a cell or record, which stand side by side.
    fn reference_widths(&self, kind: Kind) -> (usize, usize) {
        match kind {
            Kind::StrlV | Kind::StrlO => (self.edition.cell_v, self.edition.cell_o),
            _ => (RECORD_V, self.edition.record_o),
        }
    }

    /// The two numbers, by one of them.
    fn reference(&self, part: Part) -> Range<usize> {
        let (v, o) = self.reference_widths(part.kind);
        let first = match part.kind {
            Kind::StrlV | Kind::RecordV => part.start,
            _ => part.start.saturating_sub(v),
        };
        first..first + v + o
    }

    fn change_reference(&mut self, part: Part, random: &mut Random) {
        let other = self.of_kind(part.kind, random).unwrap_or(part);
        let whole = self.reference(part);
        match random.below(7) {
            0 => self.store(whole.start, &vec![0; whole.len()]),
            1 => self.store_number(part, self.number(other)),
            2 => {
                let reference = self.bytes(self.reference(other));
                self.store(whole.start, &reference);
            }
            3 => self.store_number(part, random.below(7) as u64),
            4 => {
                let reference = self.bytes(whole.clone());
                let (width, _) = self.reference_widths(part.kind);
                if let Some((v, o)) = reference.split_at_checked(width) {
                    let swapped = [o, v].concat();
                    self.store(whole.start, &swapped);
                }
            }
            5 => self.raise(part, random),
            _ => self.change_number(part, random),
        }
    }

    fn change_contents(&mut self, part: Part, random: &mut Random) {
        let length = part.end - part.start;
        match random.below(4) {
            0 => self.store(part.start + random.below(length), &[0]),
            1 => self.store(part.end - 1, &[0]),
            2 => self.store(part.end - 1, &[7]),
            _ => {
                let mut text = random.text(length - 1);
                text.push(0);
                self.store(part.start, &text);
            }
        }
    }

    fn change_offset(&mut self, index: usize, random: &mut Random) {
        let part = self.parts[index];
        let text = self.parts[index..]
            .iter()
            .find(|part| part.kind == Kind::Text);
        let Some(text) = text.copied() else {
            return;
        };
        let bytes = self.bytes(text.start..text.end);
        let length = bytes.len() as u64;
        let last = bytes.iter().rposition(|byte| *byte == 0).unwrap_or(0) as u64;
        match random.below(5) {
            0 => self.store_number(part, length),
            1 => self.store_number(part, length.wrapping_sub(1)),
            2 => self.store_number(part, last),
            3 => self.store_number(part, last + 1),
            _ => self.change_number(part, random),
        }
    }

    fn change_value(&mut self, part: Part, random: &mut Random) {
        let number = self.number(part);
        match random.below(4) {
            0 => self.store_number(part, number ^ 0x8000_0000),
            1 => {
                if let Some(other) = self.of_kind(Kind::Value, random) {
                    self.store_number(part, self.number(other));
                }
            }
            2 => {
                let next = self.bytes(part.end..part.end + 4);
                self.store(part.start, &next);
            }
            _ => self.change_number(part, random),
        }
    }

    fn change_text(&mut self, part: Part, random: &mut Random) {
        let length = part.end - part.start;
        match random.below(3) {
            0 => self.store(part.end - 1, b"x"),
            1 => self.store(part.start, &vec![b'x'; length]),
            _ => self.store(part.start + random.below(length), &[0]),
        }
    }
}
