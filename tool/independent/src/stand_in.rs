//! Rewriters that are called as the proved one is: a right one, by the independent writer, and wrong ones, which a test has to find.

use crate::dataset::{dataset, outline, Cell, Dataset, Type, Variable};
use crate::edition::Edition;
use crate::generate::Order;
use crate::parts::{parts, Kind, Part};
use crate::writer::{held, held_by, rewritten, write, write_by, Target};
use crate::{check, Layout};

/// File, edition, byte order and output; number and length.
pub type Rewrite = dyn Fn(&[u8], u64, u64, &mut [u8]) -> (u64, u64);

pub fn right(file: &[u8], edition: u64, order: u64, out: &mut [u8]) -> (u64, u64) {
    stored(rewritten(file, edition, order, out.len() as u64), out)
}

fn stored(answer: Result<Vec<u8>, u8>, out: &mut [u8]) -> (u64, u64) {
    match answer {
        Ok(result) => {
            out[..result.len()].copy_from_slice(&result);
            (0, result.len() as u64)
        }
        Err(number) => (u64::from(number), 0),
    }
}

/// Each with what is wrong in it.
pub fn wrong() -> Vec<Wrong> {
    [
        dead_bytes(),
        positions_and_order(),
        what_is_stored(),
        what_is_stored_too(),
        the_answer(),
        which_refusal(),
        the_target(),
        what_is_held(),
        what_is_just_held(),
        what_is_cut(),
        widths(),
        high_bytes(),
        the_dataset(),
        numbers(),
        long_strings(),
        sort_list_and_texts(),
    ]
    .into_iter()
    .flatten()
    .collect()
}

/// What is wrong, and a rewriter that does it.
pub type Wrong = (&'static str, Box<Rewrite>);

fn dead_bytes() -> Vec<Wrong> {
    vec![
        ("dead bytes of a name", copied(Kind::Name)),
        ("dead sort entries", copied(Kind::Sort)),
        ("dead bytes of a format", copied(Kind::Format)),
        ("dead bytes of a label-set name", copied(Kind::LabelSet)),
        (
            "dead bytes of a variable label",
            copied(Kind::VariableLabel),
        ),
        ("dead bytes of an old label", copied(Kind::Label)),
        ("dead bytes of an old stamp", copied(Kind::Stamp)),
        ("dead bytes of a text cell", copied(Kind::Cell)),
        ("dead bytes of a block name", copied(Kind::BlockName)),
        ("padding", copied(Kind::Padding)),
        ("dead bytes of a label text", copied(Kind::Text)),
        ("the unused byte", copied(Kind::Unused)),
        ("unused byte 0", edited(unused_zero)),
        ("expansion blocks kept", edited(blocks_kept)),
        ("characteristics kept", edited(characteristics_kept)),
    ]
}

fn positions_and_order() -> Vec<Wrong> {
    vec![
        (
            "map in the source's order",
            edited(|change| {
                let order = change.source_order();
                change.map(|position| order.bytes(position, 8));
            }),
        ),
        ("map of the source", edited(map_of_source)),
        ("map of zeros", edited(|change| change.map(|_| vec![0; 8]))),
        ("cells in the source's order", edited(cells_unswapped)),
    ]
}

fn what_is_stored() -> Vec<Wrong> {
    vec![
        (
            "nothing stored",
            Box::new(|file, edition, order, out| {
                let mut other = out.to_vec();
                right(file, edition, order, &mut other)
            }),
        ),
        (
            "the header alone stored",
            Box::new(|file, edition, order, out| {
                let mut other = out.to_vec();
                let answer = right(file, edition, order, &mut other);
                let header = 109.min(out.len());
                out[..header].copy_from_slice(&other[..header]);
                answer
            }),
        ),
        (
            "the last byte not stored",
            after(|_, out, answer, before| {
                if let Some(last) = (answer.1 as usize).checked_sub(1) {
                    out[last] = before[last];
                }
            }),
        ),
    ]
}

fn what_is_stored_too() -> Vec<Wrong> {
    vec![
        (
            "zeros behind the result",
            after(|_, out, answer, _| {
                if answer.0 == 0 {
                    out[answer.1 as usize..].fill(0);
                }
            }),
        ),
        (
            "a zero behind the result",
            after(|_, out, answer, _| {
                if answer.0 == 0 && out.len() as u64 > answer.1 {
                    out[answer.1 as usize] = 0;
                }
            }),
        ),
        ("stored with 14", touched(14..=14)),
        ("stored with 15", touched(15..=15)),
        ("stored with 1 to 13", touched(1..=13)),
    ]
}

fn the_answer() -> Vec<Wrong> {
    vec![
        (
            "one more told",
            after(|_, _, answer, _| answer.1 += u64::from(answer.0 == 0)),
        ),
        (
            "a length told with 14",
            after(|_, out, answer, _| {
                if answer.0 == 14 {
                    answer.1 = out.len() as u64 + 1;
                }
            }),
        ),
        (
            "a length told with 15",
            after(|file, _, answer, _| {
                if answer.0 == 15 {
                    answer.1 = file.len() as u64;
                }
            }),
        ),
    ]
}

/// Of more than one refusal, another.
fn which_refusal() -> Vec<Wrong> {
    vec![
        (
            "14 before 15",
            after(|file, out, answer, _| {
                if answer.0 == 15 && out.len() < file.len() {
                    answer.0 = 14;
                }
            }),
        ),
        (
            "15 before 1 to 13",
            Box::new(
                |file, edition, order, out| match Target::offered(edition, order) {
                    Some(_) => right(file, edition, order, out),
                    None => (15, 0),
                },
            ),
        ),
        (
            "14 for an output just long enough",
            Box::new(|file, edition, order, out| {
                let short = out.len().saturating_sub(1);
                right(file, edition, order, &mut out[..short])
            }),
        ),
        (
            "one byte of an output that isn't there",
            Box::new(|file, edition, order, out| {
                let mut longer = [&out[..], &[0]].concat();
                let answer = right(file, edition, order, &mut longer);
                let length = out.len();
                out.copy_from_slice(&longer[..length]);
                answer
            }),
        ),
    ]
}

fn the_target() -> Vec<Wrong> {
    vec![
        (
            "the edition's low byte alone",
            Box::new(|file, edition, order, out| right(file, edition & 0xff, order, out)),
        ),
        (
            "the edition's low half alone",
            Box::new(|file, edition, order, out| right(file, edition & 0xffff_ffff, order, out)),
        ),
        (
            "the order's low half alone",
            Box::new(|file, edition, order, out| right(file, edition, order & 0xffff_ffff, out)),
        ),
        (
            "any order but 1 is LSF",
            Box::new(|file, edition, order, out| {
                right(file, edition, if order == 1 { 1 } else { 2 }, out)
            }),
        ),
        ("116 offered", offered(116, 115)),
        ("119 offered", offered(119, 118)),
        ("112 offered", offered(112, 113)),
        ("115 not offered", offered(115, 0)),
        ("118 not offered", offered(118, 0)),
        ("115 written as 114", offered(115, 114)),
        ("118 written as 117", offered(118, 117)),
    ]
}

/// What a target holds is refused.
fn what_is_held() -> Vec<Wrong> {
    let variable = |also: fn(&Variable, &Edition) -> bool| {
        unheld_too(move |dataset, to| dataset.variables.iter().any(|each| also(each, to)))
    };
    vec![
        (
            "no text of 244 bytes",
            variable(|each, to| !to.tagged && each.of == Type::Text(244)),
        ),
        (
            "no format of 11 bytes",
            variable(|each, to| to.number == 113 && each.format.len() == 11),
        ),
        (
            "no long format in 114 and 115",
            variable(|each, to| [114, 115].contains(&to.number) && each.format.len() > 11),
        ),
        ("no strL at all", variable(|each, _| each.of == Type::Strl)),
        (
            "what 117 doesn't hold, in 118",
            unheld_too(|dataset, to| {
                to.number == 118 && held_by(dataset, Edition::known(117)).is_err()
            }),
        ),
    ]
}

/// As `what_is_held`, of texts that fill their field.
fn what_is_just_held() -> Vec<Wrong> {
    let variable = |also: fn(&Variable, &Edition) -> bool| {
        unheld_too(move |dataset, to| dataset.variables.iter().any(|each| also(each, to)))
    };
    vec![
        (
            "no format that fills the field",
            variable(|each, to| each.format.len() + 1 == to.format),
        ),
        (
            "no name that fills the field",
            variable(|each, to| each.name.len() + 1 == to.name),
        ),
        (
            "no label-set name that fills the field",
            variable(|each, to| each.set.len() + 1 == to.name),
        ),
        (
            "no variable label that fills the field",
            variable(|each, to| each.label.len() + 1 == to.variable_label),
        ),
        (
            "no dataset label of the greatest length",
            unheld_too(|dataset, to| dataset.label.len() == to.most_label),
        ),
        (
            "no block name that fills the field",
            unheld_too(|dataset, to| {
                let mut blocks = dataset.blocks.iter();
                blocks.any(|each| each.name.len() + 1 == to.name)
            }),
        ),
    ]
}

/// What a target can't hold is cut, or written as it is.
fn what_is_cut() -> Vec<Wrong> {
    let variables = |cut: fn(&mut Variable, &Edition)| {
        changed(move |dataset, target| {
            let to = target.widths();
            dataset.variables.iter_mut().for_each(|each| cut(each, to));
        })
    };
    vec![
        (
            "formats cut",
            variables(|each, to| each.format.truncate(to.format - 1)),
        ),
        (
            "names cut",
            variables(|each, to| each.name.truncate(to.name - 1)),
        ),
        (
            "label-set names cut",
            variables(|each, to| each.set.truncate(to.name - 1)),
        ),
        (
            "variable labels cut",
            variables(|each, to| each.label.truncate(to.variable_label - 1)),
        ),
        (
            "a dataset label cut",
            changed(|dataset, target| dataset.label.truncate(target.widths().most_label)),
        ),
        ("a dataset label written whole", Box::new(label_whole)),
        (
            "block names cut",
            changed(|dataset, target| {
                let width = target.widths().name;
                let blocks = dataset.blocks.iter_mut();
                blocks.for_each(|each| each.name.truncate(width - 1));
            }),
        ),
    ]
}

/// An edition written, where it can be, with a width of another.
fn widths() -> Vec<Wrong> {
    vec![
        ("118 with 117's N", other_widths(118, |to| to.n = 4)),
        (
            "118 with 117's label length",
            other_widths(118, |to| to.label_length = 1),
        ),
        ("118 with 117's names", other_widths(118, |to| to.name = 33)),
        (
            "118 with 117's formats",
            other_widths(118, |to| to.format = 49),
        ),
        (
            "118 with 117's variable labels",
            other_widths(118, |to| to.variable_label = 81),
        ),
        (
            "118 with 117's cells",
            other_widths(118, |to| (to.cell_v, to.cell_o) = (4, 4)),
        ),
        (
            "118 with 117's records",
            other_widths(118, |to| to.record_o = 4),
        ),
        (
            "118 with 117's digits",
            other_widths(118, |to| to.number = 117),
        ),
    ]
}

/// Some bytes of a number of 118.
fn high_bytes() -> Vec<Wrong> {
    vec![
        (
            "o in four of its six bytes",
            edited(|change| short_o(change, Kind::StrlO)),
        ),
        (
            "o in four of its eight bytes",
            edited(|change| short_o(change, Kind::RecordO)),
        ),
        ("two bytes of o not stored", after(last_of_o)),
        ("N's high half not stored", after(high_of_n)),
        (
            "115 with 113's formats",
            other_widths(115, |to| to.format = 12),
        ),
    ]
}

fn the_dataset() -> Vec<Wrong> {
    vec![
        ("wide texts cut", changed(texts_cut)),
        ("strLs emptied", changed(strls_emptied)),
        ("label texts packed", changed(labels_packed)),
        ("label texts cut to the last zero", changed(labels_cut)),
        ("one label block of a name", changed(blocks_of_one_name)),
        (
            "no label block without entries",
            changed(|dataset, _| dataset.blocks.retain(|block| !block.entries.is_empty())),
        ),
    ]
}

fn numbers() -> Vec<Wrong> {
    vec![
        ("NaN as the usual one", changed(usual_nan)),
        (
            "minus zero as zero",
            changed(|dataset, _| {
                bits_of(dataset, Type::Float, |bits| match bits {
                    0x8000_0000 => 0,
                    _ => bits,
                });
                bits_of(dataset, Type::Double, |bits| match bits {
                    0x8000_0000_0000_0000 => 0,
                    _ => bits,
                });
            }),
        ),
        (
            "letters above `.` as `.`",
            changed(|dataset, _| {
                bits_of(dataset, Type::Byte, |bits| match bits {
                    0x66..=0x7f => 0x65,
                    _ => bits,
                });
            }),
        ),
    ]
}

fn long_strings() -> Vec<Wrong> {
    vec![
        (
            "long strings cut at a zero",
            changed(|dataset, _| {
                for record in &mut dataset.records {
                    if let (129, Some(zero)) = (
                        record.kind,
                        record.contents.iter().position(|byte| *byte == 0),
                    ) {
                        record.contents.truncate(zero);
                    }
                }
            }),
        ),
        (
            "kinds of long strings all 129",
            changed(|dataset, _| {
                dataset
                    .records
                    .iter_mut()
                    .for_each(|record| record.kind = 129);
            }),
        ),
    ]
}

fn sort_list_and_texts() -> Vec<Wrong> {
    vec![
        ("no sort list", changed(|dataset, _| dataset.sorted.clear())),
        ("no stamp", changed(|dataset, _| dataset.stamp.clear())),
        (
            "a stamp where there is none",
            changed(|dataset, _| {
                if dataset.stamp.is_empty() {
                    dataset.stamp = b"01 Jan 1960 00:00".to_vec();
                }
            }),
        ),
        (
            "a text of full width without its last byte",
            changed(|dataset, _| {
                let types: Vec<Type> = dataset.variables.iter().map(|each| each.of).collect();
                for (cell, of) in dataset.cells.iter_mut().zip(types.iter().cycle()) {
                    if let Cell::Text(text) = cell {
                        text.truncate(of.width() as usize - 1);
                    }
                }
            }),
        ),
    ]
}

// How they are made.

/// The right one, then a change: of file, output, answer, and the output as it came.
fn after(change: impl Fn(&[u8], &mut [u8], &mut (u64, u64), &[u8]) + 'static) -> Box<Rewrite> {
    Box::new(move |file, edition, order, out| {
        let before = out.to_vec();
        let mut answer = right(file, edition, order, out);
        change(file, out, &mut answer, &before);
        answer
    })
}

/// The first byte of the output is stored with these numbers.
fn touched(numbers: std::ops::RangeInclusive<u64>) -> Box<Rewrite> {
    after(move |_, out, answer, _| {
        if let (true, Some(first)) = (numbers.contains(&answer.0), out.first_mut()) {
            *first = !*first;
        }
    })
}

/// A file, a result and the layouts of both.
struct Change<'a> {
    file: &'a [u8],
    from: Layout,
    result: Vec<u8>,
    to: Layout,
}

/// The result is changed before it is stored.
fn edited(change: impl Fn(&mut Change) + 'static) -> Box<Rewrite> {
    Box::new(move |file, edition, order, out| {
        let room = out.len() as u64;
        let result = rewritten(file, edition, order, room).and_then(|result| {
            let from = check(file)?;
            let to = check(&result)?;
            let mut edit = Change {
                file,
                from,
                result,
                to,
            };
            change(&mut edit);
            match edit.result.len() as u64 <= room {
                true => Ok(edit.result),
                false => Err(14),
            }
        });
        stored(result, out)
    })
}

/// The dataset is changed before it is written.
fn changed(change: impl Fn(&mut Dataset, Target) + 'static) -> Box<Rewrite> {
    Box::new(move |file, edition, order, out| {
        let room = out.len() as u64;
        let result = check(file).and_then(|layout| {
            let target = Target::offered(edition, order).ok_or(15)?;
            let mut dataset = dataset(file, &layout);
            change(&mut dataset, target);
            match held(&dataset, target) {
                Err(_) => Err(15),
                Ok(length) if length > room => Err(14),
                Ok(_) => Ok(write(&dataset, target)),
            }
        });
        stored(result, out)
    })
}

/// 15 also for such a dataset.
fn unheld_too(also: impl Fn(&Dataset, &Edition) -> bool + 'static) -> Box<Rewrite> {
    Box::new(move |file, edition, order, out| {
        if let (Ok(layout), Some(to)) = (check(file), Edition::of(edition)) {
            if also(&outline(file, &layout), to) {
                return (15, 0);
            }
        }
        right(file, edition, order, out)
    })
}

/// An edition taken for another.
fn offered(edition: u64, for_it: u64) -> Box<Rewrite> {
    Box::new(move |file, given, order, out| {
        let taken = if given == edition { for_it } else { given };
        right(file, taken, order, out)
    })
}

/// An edition written with other widths, where these hold the dataset; else the right one.
fn other_widths(edition: u8, change: impl Fn(&mut Edition) + 'static) -> Box<Rewrite> {
    let mut widths = Edition::known(edition).clone();
    change(&mut widths);
    Box::new(move |file, given, order, out| {
        let target = Target::offered(given, order).filter(|target| target.edition == edition);
        let (Ok(layout), Some(target)) = (check(file), target) else {
            return right(file, given, order, out);
        };
        let dataset = dataset(file, &layout);
        let fits = dataset.label.len() < 256 || widths.label_length > 1;
        match held_by(&dataset, &widths) {
            Ok(length) if fits && length <= out.len() as u64 => {
                stored(Ok(write_by(&dataset, &widths, target.order)), out)
            }
            _ => right(file, given, order, out),
        }
    })
}

/// A dataset label too long for the target, with the low byte of its length before it.
fn label_whole(file: &[u8], edition: u64, order: u64, out: &mut [u8]) -> (u64, u64) {
    let (Ok(layout), Some(target)) = (check(file), Target::offered(edition, order)) else {
        return right(file, edition, order, out);
    };
    let (mut dataset, to) = (dataset(file, &layout), target.widths());
    let label = dataset.label.clone();
    dataset.label.truncate(to.most_label);
    if !to.tagged || label.len() <= to.most_label || held(&dataset, target).is_err() {
        return right(file, edition, order, out);
    }
    let mut result = write(&dataset, target);
    let text = result.windows(8).position(|bytes| bytes == b"</label>");
    let start = text.expect("the label's end") - to.most_label;
    result[start - 1] = label.len() as u8;
    result.splice(start..start + to.most_label, label);
    match result.len() <= out.len() {
        true => stored(Ok(result), out),
        false => (14, 0),
    }
}

// Changes of a result.

impl Change<'_> {
    fn source_order(&self) -> Order {
        Order::from_code(self.from.byte_order)
    }

    fn tagged(&self) -> bool {
        Edition::known(self.to.edition).tagged
    }

    fn source_tagged(&self) -> bool {
        Edition::known(self.from.edition).tagged
    }

    /// Parts of these kinds, in the file and in the result.
    fn pairs(&self, kinds: &[Kind]) -> Vec<(Part, Part)> {
        let of_kind = |file: &[u8], layout: &Layout| {
            let mut found = parts(file, layout).parts;
            found.retain(|part| kinds.contains(&part.kind));
            found
        };
        let from = of_kind(self.file, &self.from);
        from.into_iter()
            .zip(of_kind(&self.result, &self.to))
            .collect()
    }

    /// As many bytes as both parts have.
    fn copy(&mut self, from: Part, to: Part) {
        let length = (from.end - from.start).min(to.end - to.start);
        let bytes = &self.file[from.start..][..length];
        self.result[to.start..][..length].copy_from_slice(bytes);
    }

    /// Other bytes for each of the map's positions.
    fn map(&mut self, bytes: impl Fn(u64) -> Vec<u8>) {
        if self.tagged() {
            for (item, position) in self.to.positions.into_iter().enumerate() {
                let place = self.to.positions[1] as usize + 5 + 8 * item;
                self.result[place..][..8].copy_from_slice(&bytes(position));
            }
        }
    }

    fn types(&self) -> Vec<Type> {
        let variables = outline(self.file, &self.from).variables;
        variables.iter().map(|each| each.of).collect()
    }
}

/// What stands in the parts of that kind is copied as it is, with its dead bytes.
fn copied(kind: Kind) -> Box<Rewrite> {
    edited(move |change| match kind {
        Kind::Label | Kind::Stamp if change.source_tagged() || change.tagged() => {}
        Kind::Sort => {
            let order = Order::from_code(change.to.byte_order);
            for (from, to) in change.pairs(&[Kind::Sort]) {
                let entry = change
                    .source_order()
                    .number(&change.file[from.start..from.end]);
                change.result[to.start..to.end].copy_from_slice(&order.bytes(entry, 2));
            }
        }
        Kind::Cell => {
            let types = change.types();
            for (cell, (from, to)) in change.pairs(&CELLS).into_iter().enumerate() {
                if let Type::Text(_) = types[cell % types.len()] {
                    change.copy(from, to);
                }
            }
        }
        _ => {
            for (from, to) in change.pairs(&[kind]) {
                change.copy(from, to);
            }
        }
    })
}

/// The first part of each cell.
const CELLS: [Kind; 2] = [Kind::Cell, Kind::StrlV];

fn unused_zero(change: &mut Change) {
    if !change.tagged() {
        change.result[3] = 0;
    }
}

fn cells_unswapped(change: &mut Change) {
    for (from, to) in change.pairs(&[Kind::Cell]) {
        change.copy(from, to);
    }
}

/// The low half of an o that has more than four bytes, at the start of its field.
fn short_o(change: &mut Change, kind: Kind) {
    let order = Order::from_code(change.to.byte_order);
    for (_, to) in change.pairs(&[kind]) {
        let field = &mut change.result[to.start..to.end];
        let o = order.number(field);
        field[4..].fill(0);
        field[..4].copy_from_slice(&order.bytes(o, 4));
    }
}

/// The parts of a kind in a result are left as they were from the fourth byte on.
fn left_as_it_was(kind: Kind, out: &mut [u8], answer: &(u64, u64), before: &[u8]) {
    let result = &out[..answer.1 as usize];
    if let (0, Ok(layout)) = (answer.0, check(result)) {
        let mut found = parts(result, &layout).parts;
        found.retain(|part| part.kind == kind && part.end - part.start > 4);
        for part in found {
            out[part.start + 4..part.end].copy_from_slice(&before[part.start + 4..part.end]);
        }
    }
}

fn last_of_o(_: &[u8], out: &mut [u8], answer: &mut (u64, u64), before: &[u8]) {
    left_as_it_was(Kind::StrlO, out, answer, before);
}

fn high_of_n(_: &[u8], out: &mut [u8], answer: &mut (u64, u64), before: &[u8]) {
    left_as_it_was(Kind::N, out, answer, before);
}

fn map_of_source(change: &mut Change) {
    if change.source_tagged() {
        let order = Order::from_code(change.to.byte_order);
        let (from, to) = (change.from.positions, change.to.positions);
        change.map(|position| {
            let item = to.iter().position(|other| *other == position);
            order.bytes(from[item.expect("a position")], 8)
        });
    }
}

fn blocks_kept(change: &mut Change) {
    let same_order = change.from.byte_order == change.to.byte_order;
    if !change.source_tagged() && !change.tagged() && same_order {
        let [from, to] = [&change.from, &change.to].map(|layout| {
            let positions = layout.positions;
            positions[8] as usize..positions[9] as usize
        });
        let blocks = change.file[from].to_vec();
        change.result.splice(to, blocks);
    }
}

fn characteristics_kept(change: &mut Change) {
    let same_order = change.from.byte_order == change.to.byte_order;
    if change.source_tagged() && change.tagged() && same_order {
        let start = change.from.positions[8] as usize + "<characteristics>".len();
        let end = change.from.positions[9] as usize - "</characteristics>".len();
        let contents = change.file[start..end].to_vec();
        let data = change.to.positions[9];
        let order = change.source_order();
        let more = contents.len() as u64;
        change.map(|position| match position >= data {
            true => order.bytes(position + more, 8),
            false => order.bytes(position, 8),
        });
        let place = data as usize - "</characteristics>".len();
        change.result.splice(place..place, contents);
    }
}

// Changes of a dataset.

fn texts_cut(dataset: &mut Dataset, target: Target) {
    if !target.widths().tagged {
        for variable in &mut dataset.variables {
            if let Type::Text(width) = &mut variable.of {
                *width = 244.min(*width);
            }
        }
        for cell in &mut dataset.cells {
            if let Cell::Text(text) = cell {
                text.truncate(244);
            }
        }
    }
}

fn strls_emptied(dataset: &mut Dataset, target: Target) {
    if !target.widths().tagged {
        for variable in &mut dataset.variables {
            if variable.of == Type::Strl {
                variable.of = Type::Text(1);
            }
        }
        for cell in &mut dataset.cells {
            if let Cell::Reference { .. } = cell {
                *cell = Cell::Text(Vec::new());
            }
        }
        dataset.records.clear();
    }
}

/// The texts one after another.
fn labels_packed(dataset: &mut Dataset, _: Target) {
    for block in &mut dataset.blocks {
        block.text_length = 0;
        for entry in &mut block.entries {
            entry.offset = block.text_length;
            block.text_length += entry.text.len() as u64 + 1;
        }
    }
}

fn labels_cut(dataset: &mut Dataset, _: Target) {
    for block in &mut dataset.blocks {
        let ends = block.entries.iter();
        let ends = ends.map(|entry| entry.offset + entry.text.len() as u64 + 1);
        block.text_length = ends.max().unwrap_or(0);
    }
}

fn blocks_of_one_name(dataset: &mut Dataset, _: Target) {
    let mut seen = Vec::new();
    dataset.blocks.retain(|block| {
        let first = !seen.contains(&block.name);
        seen.push(block.name.clone());
        first
    });
}

fn usual_nan(dataset: &mut Dataset, _: Target) {
    bits_of(dataset, Type::Float, |bits| {
        match f32::from_bits(bits as u32).is_nan() {
            true => 0x7fc0_0000,
            false => bits,
        }
    });
    bits_of(dataset, Type::Double, |bits| {
        match f64::from_bits(bits).is_nan() {
            true => 0x7ff8_0000_0000_0000,
            false => bits,
        }
    });
}

/// Other bits for each cell of that type.
fn bits_of(dataset: &mut Dataset, of: Type, change: impl Fn(u64) -> u64) {
    let types: Vec<Type> = dataset.variables.iter().map(|each| each.of).collect();
    for (cell, cell_of) in dataset.cells.iter_mut().zip(types.iter().cycle()) {
        if let (Cell::Bits(bits), true) = (cell, *cell_of == of) {
            *bits = change(*bits);
        }
    }
}
