//! Cells one after another. The proved library answers some thousand at once.

use crate::answer::Numbers;
use crate::file::Layout;
use crate::lists::part;
use crate::{raw, Cell, Words};

/// The answers that are asked for at once, unless told otherwise.
const ANSWERS: usize = 1024;

/// .. and about many variables, at least.
const ACROSS: usize = 65_536;

/// A function of `raw` that answers about cells one after another.
type Ask = fn(&[u8], &[u64], u64, u64, &mut [u64], &mut [u64]) -> u8;

/// Answers down a column.
struct Down<'a> {
    file: &'a [u8],
    layout: Layout,
    ask: Ask,
    i: u64,
    /// The observation that is asked for next.
    j: u64,
    at_once: usize,
    answers: Vec<u64>,
    next: usize,
    count: usize,
}

impl<'a> Down<'a> {
    fn new(file: &'a [u8], layout: &Layout, ask: Ask, i: u64, j: u64) -> Down<'a> {
        Down {
            file,
            layout: *layout,
            ask,
            i,
            j,
            at_once: ANSWERS,
            answers: Vec::new(),
            next: 0,
            count: 0,
        }
    }

    #[inline]
    fn numbers(&mut self) -> Option<Numbers> {
        if self.next == self.count {
            if self.j > self.layout.observations() {
                return None;
            }
            self.answers.resize(self.at_once * raw::ANSWER, 0);
            let answers = &mut self.answers[..];
            let mut count = [0];
            (self.ask)(
                self.file,
                &self.layout.0,
                self.i,
                self.j,
                answers,
                &mut count,
            );
            self.next = 0;
            self.count = count[0] as usize;
            self.j = self.j.saturating_add(self.count as u64);
            if self.count == 0 {
                return None;
            }
        }
        let start = self.next * raw::ANSWER;
        self.next += 1;
        self.answers[start..start + raw::ANSWER].try_into().ok()
    }
}

/// The cells of a variable, one for each observation.
pub struct Column<'a>(Down<'a>);

impl<'a> Column<'a> {
    pub(crate) fn new(file: &'a [u8], layout: &Layout, i: u64, j: u64) -> Column<'a> {
        Column(Down::new(file, layout, raw::cells_down, i, j))
    }

    /// Asks the library for so many cells at once: more take more memory, fewer more time.
    pub fn at_once(mut self, count: usize) -> Column<'a> {
        self.0.at_once = count.max(1);
        self
    }
}

impl<'a> Iterator for Column<'a> {
    type Item = Cell<'a>;

    fn next(&mut self) -> Option<Cell<'a>> {
        let numbers = self.0.numbers()?;
        Cell::of(numbers, self.0.file)
    }
}

/// The label words of a variable's cells, one for each observation.
pub struct ColumnWords<'a>(Down<'a>);

impl<'a> ColumnWords<'a> {
    pub(crate) fn new(file: &'a [u8], layout: &Layout, i: u64, j: u64) -> ColumnWords<'a> {
        ColumnWords(Down::new(file, layout, raw::words_down, i, j))
    }

    /// As `Column::at_once`.
    pub fn at_once(mut self, count: usize) -> ColumnWords<'a> {
        self.0.at_once = count.max(1);
        self
    }
}

impl<'a> Iterator for ColumnWords<'a> {
    type Item = Words<'a>;

    fn next(&mut self) -> Option<Words<'a>> {
        let numbers = self.0.numbers()?;
        Words::of(numbers, self.0.file)
    }
}

/// The observations, each as the cells of all variables.
pub struct Rows<'a> {
    file: &'a [u8],
    layout: Layout,
    j: u64,
    answers: Vec<u64>,
}

impl<'a> Rows<'a> {
    pub(crate) fn new(file: &'a [u8], layout: &Layout, j: u64) -> Rows<'a> {
        Rows {
            file,
            layout: *layout,
            j,
            answers: vec![0; layout.variables() as usize * raw::ANSWER],
        }
    }

    /// Puts the cells of the next observation into `row`, in place of what was there; whether there was one.
    pub fn read(&mut self, row: &mut Vec<Cell<'a>>) -> bool {
        row.clear();
        let (layout, answers) = (&self.layout.0, &mut self.answers);
        if raw::cells_along(self.file, layout, 1, self.j, answers, &mut []) != 0 {
            return false;
        }
        let answers = self.answers.chunks_exact(raw::ANSWER);
        row.extend(answers.filter_map(|numbers| Cell::of(numbers.try_into().ok()?, self.file)));
        self.j += 1;
        true
    }
}

impl<'a> Iterator for Rows<'a> {
    type Item = Vec<Cell<'a>>;

    fn next(&mut self) -> Option<Vec<Cell<'a>>> {
        let mut row = Vec::new();
        self.read(&mut row).then_some(row)
    }
}

/// The label words of some variables, observation by observation.
pub struct RowWords<'a> {
    file: &'a [u8],
    layout: Layout,
    /// Each variable once, in the order of the label-set names, so that the library finds all label tables in one pass.
    variables: Vec<u64>,
    /// Where each variable stands among them, in the order that is asked for.
    places: Vec<usize>,
    /// The observation that is asked for next, and how many are left.
    j: u64,
    left: u64,
    at_once: usize,
    /// Those of the first variable in some observations, those of the second, ..
    answers: Vec<u64>,
    next: usize,
    count: usize,
}

impl<'a> RowWords<'a> {
    /// Each variable with the name of its label set.
    pub(crate) fn new(
        file: &'a [u8],
        layout: &Layout,
        variables: &[(&[u8], u64)],
        j: u64,
    ) -> RowWords<'a> {
        let mut sorted = variables.to_vec();
        sorted.sort_unstable();
        sorted.dedup();
        let place = |variable| sorted.partition_point(|other| other < variable);
        RowWords {
            file,
            layout: *layout,
            variables: sorted.iter().map(|(_, i)| *i).collect(),
            places: variables.iter().map(place).collect(),
            j,
            left: (layout.observations() + 1).saturating_sub(j),
            at_once: across(layout).div_ceil(sorted.len().max(1)),
            answers: Vec::new(),
            next: 0,
            count: 0,
        }
    }

    /// Asks the library for so many observations at once: more take more memory, fewer more time.
    pub fn at_once(mut self, count: usize) -> RowWords<'a> {
        self.at_once = count.max(1);
        self
    }

    /// Ends after so many observations, and asks for no more.
    pub fn at_most(mut self, count: u64) -> RowWords<'a> {
        self.left = self.left.min(count);
        self
    }

    /// Puts the label words of the next observation into `row`, in the order in which the variables were listed, in place of what was there; whether there was one.
    pub fn read(&mut self, row: &mut Vec<Words<'a>>) -> bool {
        row.clear();
        if self.next == self.count && !self.ask() {
            return false;
        }
        let words = self.places.iter().filter_map(|place| {
            let start = (place * self.count + self.next) * raw::ANSWER;
            let numbers = &self.answers[start..start + raw::ANSWER];
            Words::of(numbers.try_into().ok()?, self.file)
        });
        row.extend(words);
        self.next += 1;
        true
    }

    /// Asks for the next observations; whether there are any. Without a variable nothing is asked.
    fn ask(&mut self) -> bool {
        let rows = self.left.min(self.at_once as u64);
        self.next = 0;
        self.count = rows as usize;
        let room = self.count * self.variables.len() * raw::ANSWER;
        self.answers.resize(room, 0);
        if room > 0 {
            raw::words_across(
                self.file,
                &self.layout.0,
                &self.variables,
                self.j,
                rows,
                &mut self.answers,
                &mut [],
            );
        }
        self.j += rows;
        self.left -= rows;
        rows > 0
    }
}

impl<'a> Iterator for RowWords<'a> {
    type Item = Vec<Words<'a>>;

    fn next(&mut self) -> Option<Vec<Words<'a>>> {
        let mut row = Vec::new();
        self.read(&mut row).then_some(row)
    }
}

/// The answers that are asked for at once about many variables. Each call goes through the type codes, the label blocks and, where they are long, the label texts, so
/// there are no fewer answers than variables, and one for each 48 bytes of label blocks, the fewest that a block has: that is a bounded share for each answer.
fn across(layout: &Layout) -> usize {
    let blocks = part(layout, 11) / 48;
    ACROSS.max(blocks).max(layout.variables() as usize)
}
