//! The parts of an accepted file, one after another, found with its layout.

use crate::edition::{Edition, K_WIDTH, PADDING, RECORD_V, SORT_WIDTH, STAMP};
use crate::generate::Order;
use crate::Layout;
use std::ops::Range;

#[derive(Clone, Copy, Debug, PartialEq, Eq)]
pub enum Kind {
    Edition,
    ByteOrder,
    FileType,
    Unused,
    K,
    N,
    LabelLength,
    Label,
    StampLength,
    Stamp,
    Tag,
    Map,
    Type,
    Name,
    Sort,
    Format,
    LabelSet,
    VariableLabel,
    BlockType,
    SkippedLength,
    Skipped,
    Cell,
    StrlV,
    StrlO,
    Mark,
    RecordV,
    RecordO,
    RecordKind,
    RecordLength,
    Contents,
    TableLength,
    BlockName,
    Padding,
    Entries,
    TextLength,
    Offset,
    Value,
    Text,
}

pub const KINDS: usize = Kind::Text as usize + 1;

#[derive(Clone, Copy, Debug)]
pub struct Part {
    pub kind: Kind,
    pub start: usize,
    pub end: usize,
}

#[derive(Clone)]
pub struct Parts {
    /// They cover the file.
    pub parts: Vec<Part>,
    /// Sections, expansion blocks, characteristics, records, label blocks.
    pub groups: Vec<Range<usize>>,
}

/// The parts of a file that has this layout.
pub fn parts(file: &[u8], layout: &Layout) -> Parts {
    let mut walk = Walk {
        file,
        layout,
        edition: Edition::known(layout.edition),
        order: Order::from_code(layout.byte_order),
        at: 0,
        parts: Vec::new(),
        groups: Vec::new(),
    };
    match walk.edition.tagged {
        true => walk.tagged(),
        false => walk.old(),
    }
    assert_eq!(walk.at, file.len());
    for pair in layout.positions.windows(2) {
        if pair[0] < pair[1] {
            walk.groups.push(pair[0] as usize..pair[1] as usize);
        }
    }
    Parts {
        parts: walk.parts,
        groups: walk.groups,
    }
}

struct Walk<'a> {
    file: &'a [u8],
    layout: &'a Layout,
    edition: &'static Edition,
    order: Order,
    at: usize,
    parts: Vec<Part>,
    groups: Vec<Range<usize>>,
}

impl Walk<'_> {
    fn part(&mut self, kind: Kind, width: usize) {
        let start = self.at;
        self.at += width;
        let end = self.at;
        self.parts.push(Part { kind, start, end });
    }

    fn list(&mut self, kind: Kind, count: usize, width: usize) {
        for _ in 0..count {
            self.part(kind, width);
        }
    }

    /// A part that is a number.
    fn number(&mut self, kind: Kind, width: usize) -> usize {
        let start = self.at;
        self.part(kind, width);
        self.order.number(&self.file[start..self.at]) as usize
    }

    /// From `<` or `</` to `>`.
    fn tag(&mut self) {
        let rest = &self.file[self.at..];
        let length = rest.iter().position(|byte| *byte == b'>');
        self.part(Kind::Tag, length.expect("a tag") + 1);
    }

    fn mark_is_next(&self, mark: &str) -> bool {
        self.file[self.at..].starts_with(mark.as_bytes())
    }

    fn k(&self) -> usize {
        usize::from(self.layout.k)
    }

    // Parts that the editions share.

    fn data(&mut self, types: &[usize]) {
        for _ in 0..self.layout.n {
            for code in types {
                self.cell(*code);
            }
        }
    }

    fn cell(&mut self, code: usize) {
        let width = match (self.edition.tagged, code) {
            (true, 32768) => {
                self.part(Kind::StrlV, self.edition.cell_v);
                return self.part(Kind::StrlO, self.edition.cell_o);
            }
            (true, 65526) | (false, 255) => 8,
            (true, 65527 | 65528) | (false, 253 | 254) => 4,
            (true, 65529) | (false, 252) => 2,
            (true, 65530) | (false, 251) => 1,
            _ => code,
        };
        self.part(Kind::Cell, width);
    }

    fn label_block(&mut self) {
        self.part(Kind::TableLength, 4);
        self.part(Kind::BlockName, self.edition.name);
        self.part(Kind::Padding, PADDING);
        let entries = self.number(Kind::Entries, 4);
        let text = self.number(Kind::TextLength, 4);
        self.list(Kind::Offset, entries, 4);
        self.list(Kind::Value, entries, 4);
        self.part(Kind::Text, text);
    }

    /// From the names to the variable labels.
    fn lists(&mut self, between: impl Fn(&mut Self, &dyn Fn(&mut Self))) {
        let (k, edition) = (self.k(), self.edition);
        for (kind, count, width) in [
            (Kind::Name, k, edition.name),
            (Kind::Sort, k + 1, SORT_WIDTH),
            (Kind::Format, k, edition.format),
            (Kind::LabelSet, k, edition.name),
            (Kind::VariableLabel, k, edition.variable_label),
        ] {
            between(self, &|walk| walk.list(kind, count, width));
        }
    }

    // Editions 113, 114 and 115.

    fn old(&mut self) {
        let k = self.k();
        self.part(Kind::Edition, 1);
        self.part(Kind::ByteOrder, 1);
        self.part(Kind::FileType, 1);
        self.part(Kind::Unused, 1);
        self.part(Kind::K, K_WIDTH);
        self.part(Kind::N, self.edition.n);
        self.part(Kind::Label, self.edition.most_label + 1);
        self.part(Kind::Stamp, STAMP + 1);
        let types: Vec<usize> = (0..k).map(|_| self.number(Kind::Type, 1)).collect();
        self.lists(|walk, list| list(walk));
        while self.at < self.layout.positions[9] as usize {
            let start = self.at;
            self.part(Kind::BlockType, 1);
            let length = self.number(Kind::SkippedLength, 4);
            self.part(Kind::Skipped, length);
            self.groups.push(start..self.at);
        }
        self.data(&types);
        while self.at < self.file.len() {
            let start = self.at;
            self.label_block();
            self.groups.push(start..self.at);
        }
    }

    // Editions 117 and 118.

    fn tagged(&mut self) {
        let k = self.k();
        self.tag();
        self.tag();
        self.tag();
        self.part(Kind::Edition, 3);
        self.tag();
        self.between(|walk| walk.part(Kind::ByteOrder, 3));
        self.between(|walk| walk.part(Kind::K, K_WIDTH));
        self.between(|walk| walk.part(Kind::N, walk.edition.n));
        let label_length = self.edition.label_length;
        self.between(|walk| walk.short_text(Kind::LabelLength, label_length, Kind::Label));
        self.between(|walk| walk.short_text(Kind::StampLength, 1, Kind::Stamp));
        self.tag();
        self.between(|walk| walk.list(Kind::Map, 14, 8));
        let mut types = Vec::new();
        self.between(|walk| types = (0..k).map(|_| walk.number(Kind::Type, 2)).collect());
        self.lists(|walk, list| walk.between(list));
        self.between(Walk::characteristics);
        self.between(|walk| walk.data(&types));
        self.between(Walk::records);
        self.between(|walk| {
            while walk.mark_is_next("<lbl>") {
                let start = walk.at;
                walk.between(Walk::label_block);
                walk.groups.push(start..walk.at);
            }
        });
        self.tag();
    }

    fn between(&mut self, contents: impl FnOnce(&mut Self)) {
        self.tag();
        contents(self);
        self.tag();
    }

    fn short_text(&mut self, length: Kind, width: usize, text: Kind) {
        let length = self.number(length, width);
        self.part(text, length);
    }

    fn characteristics(&mut self) {
        while self.mark_is_next("<ch>") {
            let start = self.at;
            self.between(|walk| {
                let length = walk.number(Kind::SkippedLength, 4);
                walk.part(Kind::Skipped, length);
            });
            self.groups.push(start..self.at);
        }
    }

    fn records(&mut self) {
        while self.mark_is_next("GSO") {
            let start = self.at;
            self.part(Kind::Mark, 3);
            self.part(Kind::RecordV, RECORD_V);
            self.part(Kind::RecordO, self.edition.record_o);
            self.part(Kind::RecordKind, 1);
            let length = self.number(Kind::RecordLength, 4);
            self.part(Kind::Contents, length);
            self.groups.push(start..self.at);
        }
    }
}
