//! The dead bytes of an accepted file: they are in no answer.

use crate::edition::Edition;
use crate::generate::Order;
use crate::parts::{parts, Kind, Part};
use crate::Layout;
use std::ops::Range;

/// Their places, ascending.
pub fn dead(file: &[u8], layout: &Layout) -> Vec<usize> {
    let parts = parts(file, layout).parts;
    let edition = Edition::known(layout.edition);
    let mut finder = Finder {
        file,
        order: Order::from_code(layout.byte_order),
        dead: Vec::new(),
    };
    let texts = texts(file, layout, &parts);
    let (mut sort_ended, mut cells) = (false, 0);
    for (index, part) in parts.iter().enumerate() {
        let whole = part.start..part.end;
        match part.kind {
            Kind::Unused | Kind::Padding | Kind::Skipped => finder.dead.extend(whole),
            Kind::Name | Kind::Format | Kind::LabelSet | Kind::VariableLabel | Kind::BlockName => {
                finder.after_zero(whole)
            }
            Kind::Label if !edition.tagged => finder.after_zero(whole),
            Kind::Stamp if !edition.tagged && file[part.start] == 0 => {
                finder.dead.extend(part.start + 1..part.end - 1);
            }
            Kind::Sort if sort_ended => finder.dead.extend(whole),
            Kind::Sort => sort_ended = file[whole] == [0, 0],
            Kind::Cell | Kind::StrlV => {
                if texts[cells % texts.len()] {
                    finder.after_zero(whole);
                }
                cells += 1;
            }
            Kind::Text => finder.label_text(&parts[..index], whole),
            _ => {}
        }
    }
    finder.dead
}

/// For each variable, whether it is text of fixed width.
fn texts(file: &[u8], layout: &Layout, parts: &[Part]) -> Vec<bool> {
    let order = Order::from_code(layout.byte_order);
    let most = Edition::known(layout.edition).widest_text();
    parts
        .iter()
        .filter(|part| part.kind == Kind::Type)
        .map(|part| order.number(&file[part.start..part.end]) <= most)
        .collect()
}

struct Finder<'a> {
    file: &'a [u8],
    order: Order,
    dead: Vec<usize>,
}

impl Finder<'_> {
    /// What follows the first zero of a field, if it has one.
    fn after_zero(&mut self, field: Range<usize>) {
        let zero = field.clone().find(|place| self.file[*place] == 0);
        if let Some(zero) = zero {
            self.dead.extend(zero + 1..field.end);
        }
    }

    /// What is in no entry's text or terminator. The offsets are among the parts before.
    fn label_text(&mut self, before: &[Part], text: Range<usize>) {
        let mut live = vec![false; text.len()];
        let numbers = before
            .iter()
            .rev()
            .take_while(|part| part.kind != Kind::TextLength);
        for part in numbers.filter(|part| part.kind == Kind::Offset) {
            let offset = self.order.number(&self.file[part.start..part.end]) as usize;
            let rest = &self.file[text.start + offset..text.end];
            let zero = rest.iter().position(|byte| *byte == 0).expect("a zero");
            live[offset..=offset + zero].fill(true);
        }
        let dead = text.zip(live).filter(|(_, live)| !live);
        self.dead.extend(dead.map(|(place, _)| place));
    }
}
