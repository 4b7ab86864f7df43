use crate::answer::{Answer, Question, Type};
use crate::lists::{list, part, LabelSets, LongStrings};
use crate::many::{Column, ColumnWords, RowWords, Rows};
use crate::{raw, Cell, Refusal, Words, LONGEST};

#[derive(Clone, Copy, PartialEq, Eq, Debug)]
pub enum ByteOrder {
    /// Most significant byte first.
    Msf,
    /// Least significant byte first.
    Lsf,
}

impl ByteOrder {
    /// 1 or 2.
    pub fn number(self) -> u64 {
        match self {
            ByteOrder::Msf => 1,
            ByteOrder::Lsf => 2,
        }
    }

    pub fn name(self) -> &'static str {
        match self {
            ByteOrder::Msf => "MSF",
            ByteOrder::Lsf => "LSF",
        }
    }
}

/// Edition, byte order, K, N, and the fourteen positions of a file's parts.
#[derive(Clone, Copy, PartialEq, Eq, Debug)]
pub struct Layout(pub [u64; raw::LAYOUT]);

impl Layout {
    pub fn edition(&self) -> u64 {
        self.0[0]
    }

    /// 1 most significant byte first, 2 least.
    pub fn order(&self) -> u64 {
        self.0[1]
    }

    /// K.
    pub fn variables(&self) -> u64 {
        self.0[2]
    }

    /// N.
    pub fn observations(&self) -> u64 {
        self.0[3]
    }

    pub fn positions(&self) -> &[u64] {
        &self.0[4..]
    }
}

/// What a file says of a variable.
#[derive(Clone, Copy, PartialEq, Eq, Debug)]
pub struct Variable<'a> {
    /// Counted from 1.
    pub number: u64,
    pub name: &'a [u8],
    pub of: Type,
    pub format: &'a [u8],
    /// The name of its label set, empty where it has none.
    pub set: &'a [u8],
    pub label: &'a [u8],
    pub is_date: bool,
}

/// An accepted file with its layout. `B` holds the bytes: a `Vec<u8>`, a `&[u8]`, ..
pub struct File<B> {
    bytes: B,
    layout: Layout,
}

/// Checks a file: it with its layout, or the refusal.
pub fn open<B: AsRef<[u8]>>(bytes: B) -> Result<File<B>, Refusal> {
    let mut layout = [0; raw::LAYOUT];
    match raw::check(bytes.as_ref(), &mut layout) {
        0 => Ok(File {
            bytes,
            layout: Layout(layout),
        }),
        number => Err(Refusal::new(number)),
    }
}

impl<B: AsRef<[u8]>> File<B> {
    pub fn bytes(&self) -> &[u8] {
        self.bytes.as_ref()
    }

    pub fn into_bytes(self) -> B {
        self.bytes
    }

    pub fn layout(&self) -> &Layout {
        &self.layout
    }

    pub fn ask(&self, question: Question) -> Answer<'_> {
        Answer::to(question, self.bytes(), &self.layout.0)
    }

    // The header.

    pub fn edition(&self) -> u64 {
        self.layout.edition()
    }

    pub fn byte_order(&self) -> ByteOrder {
        match self.layout.order() {
            1 => ByteOrder::Msf,
            _ => ByteOrder::Lsf,
        }
    }

    /// K.
    pub fn variable_count(&self) -> u64 {
        self.layout.variables()
    }

    /// N.
    pub fn observation_count(&self) -> u64 {
        self.layout.observations()
    }

    /// The dataset label.
    pub fn label(&self) -> &[u8] {
        self.text(Question::Label).unwrap_or_default()
    }

    /// The time stamp, empty where there is none.
    pub fn stamp(&self) -> &[u8] {
        self.text(Question::Stamp).unwrap_or_default()
    }

    // Variables.

    pub fn variable(&self, i: u64) -> Result<Variable<'_>, Refusal> {
        Ok(Variable {
            number: i,
            name: self.text(Question::Name(i))?,
            of: match self.ask(Question::Type(i)) {
                Answer::Type(of) => of,
                other => return Err(refusal(other)),
            },
            format: self.text(Question::Format(i))?,
            set: self.text(Question::LabelSet(i))?,
            label: self.text(Question::VariableLabel(i))?,
            is_date: match self.ask(Question::Date(i)) {
                Answer::YesNo(yes) => yes,
                other => return Err(refusal(other)),
            },
        })
    }

    pub fn variables(&self) -> impl Iterator<Item = Variable<'_>> {
        (1..=self.variable_count()).filter_map(|i| self.variable(i).ok())
    }

    /// The first place of a variable in the sort order, 0 where it has none.
    pub fn sort_place(&self, i: u64) -> Result<u64, Refusal> {
        match self.ask(Question::SortPlace(i)) {
            Answer::Count(place) => Ok(place),
            other => Err(refusal(other)),
        }
    }

    /// The variables by which the observations are sorted, in that order.
    pub fn sort_order(&self) -> Vec<u64> {
        // Each is there once at most.
        let room = self.variable_count() as usize;
        list(self.bytes(), raw::sort_order, room)
    }

    // Cells. Each of these pays for the K type codes; a reader of many cells asks for a column or for rows.

    pub fn cell(&self, i: u64, j: u64) -> Result<Cell<'_>, Refusal> {
        match self.ask(Question::Cell(i, j)) {
            Answer::Cell(cell) => Ok(cell),
            Answer::Text(part) => Ok(Cell::Text(part.bytes)),
            other => Err(refusal(other)),
        }
    }

    /// The label words of a cell, or the plain text where it has none.
    pub fn words<'a>(&'a self, i: u64, j: u64, plain: &'a [u8]) -> Result<&'a [u8], Refusal> {
        match self.ask(Question::Words(i, j)) {
            Answer::Part(part) => Ok(Words::Label(part.bytes).or(plain)),
            Answer::Plain => Ok(Words::Plain.or(plain)),
            other => Err(refusal(other)),
        }
    }

    /// Kind and recorded contents of a cell's long string; 0 and empty where none is meant.
    pub fn long_string(&self, i: u64, j: u64) -> Result<(u8, &[u8]), Refusal> {
        match self.ask(Question::LongString(i, j)) {
            Answer::LongString(kind, part) => Ok((kind, part.bytes)),
            other => Err(refusal(other)),
        }
    }

    // Many cells.

    /// The cells of a variable, one for each observation.
    pub fn column(&self, i: u64) -> Result<Column<'_>, Refusal> {
        self.within(i)?;
        Ok(Column::new(self.bytes(), &self.layout, i, 1))
    }

    /// The cells of a variable, from observation `j` on; refused with 16 where there is no such observation.
    pub fn column_from(&self, i: u64, j: u64) -> Result<Column<'_>, Refusal> {
        self.within(i)?;
        self.begins(j)?;
        Ok(Column::new(self.bytes(), &self.layout, i, j))
    }

    /// The label words of a variable's cells, one for each observation.
    pub fn column_words(&self, i: u64) -> Result<ColumnWords<'_>, Refusal> {
        self.within(i)?;
        Ok(ColumnWords::new(self.bytes(), &self.layout, i, 1))
    }

    /// The label words of a variable's cells, from observation `j` on; refused with 16 where there is no such observation.
    pub fn column_words_from(&self, i: u64, j: u64) -> Result<ColumnWords<'_>, Refusal> {
        self.within(i)?;
        self.begins(j)?;
        Ok(ColumnWords::new(self.bytes(), &self.layout, i, j))
    }

    /// All observations.
    pub fn rows(&self) -> Rows<'_> {
        Rows::new(self.bytes(), &self.layout, 1)
    }

    /// The observations, from observation `j` on; refused with 16 where there is no such observation.
    pub fn rows_from(&self, j: u64) -> Result<Rows<'_>, Refusal> {
        self.begins(j)?;
        Ok(Rows::new(self.bytes(), &self.layout, j))
    }

    /// The label words of some variables, observation by observation. It takes far less time than a column of words for each of many variables.
    pub fn row_words(&self, variables: &[u64]) -> Result<RowWords<'_>, Refusal> {
        let named = self.with_sets(variables)?;
        Ok(RowWords::new(self.bytes(), &self.layout, &named, 1))
    }

    /// The label words of some variables, from observation `j` on; refused with 16 where there is no such observation.
    pub fn row_words_from(&self, variables: &[u64], j: u64) -> Result<RowWords<'_>, Refusal> {
        let named = self.with_sets(variables)?;
        self.begins(j)?;
        Ok(RowWords::new(self.bytes(), &self.layout, &named, j))
    }

    /// All long strings, to be found by the references of cells.
    pub fn long_strings(&self) -> LongStrings<'_> {
        LongStrings::new(self.bytes(), &self.layout)
    }

    /// All label sets, in file order.
    pub fn label_sets(&self) -> LabelSets<'_> {
        LabelSets::new(self.bytes(), &self.layout)
    }

    // Rewriting.

    /// Writes the dataset at the start of `out`, in one of the [`EDITIONS`](crate::EDITIONS) and a byte order: how many bytes. Refused, `out` is as it came.
    pub fn rewrite(
        &self,
        edition: u64,
        order: ByteOrder,
        out: &mut [u8],
    ) -> Result<usize, Refusal> {
        let mut length = [0];
        match raw::rewrite(self.bytes(), edition, order.number(), out, &mut length) {
            0 => Ok(length[0] as usize),
            number => Err(Refusal::new(number)),
        }
    }

    /// The dataset as a file of that edition and byte order.
    pub fn rewritten(&self, edition: u64, order: ByteOrder) -> Result<Vec<u8>, Refusal> {
        let mut room = self.room();
        loop {
            // Not cleared by hand: pages that are not written to are not touched.
            let mut out = vec![0; room];
            match self.rewrite(edition, order, &mut out) {
                Ok(length) => {
                    out.truncate(length);
                    return Ok(out);
                }
                Err(refusal) if refusal.number() == 14 && room < LONGEST => room = LONGEST,
                Err(refusal) => return Err(refusal),
            }
        }
    }

    /// Room for a result in any edition. From 113 to 118, a variable takes 478 bytes more, and a label block, which has at least 48 bytes, 107 more; from 117
    /// to 118, a record of at least 16 bytes takes 4 more. The tags take less than 1,000.
    fn room(&self) -> usize {
        let variables = 478 * self.variable_count() as usize;
        let blocks = 107 * (part(&self.layout, 11) / 48);
        let records = 4 * (part(&self.layout, 10) / 16);
        let length = self.bytes().len();
        (length + variables + blocks + records + 1_000).min(LONGEST)
    }

    fn text(&self, question: Question) -> Result<&[u8], Refusal> {
        match self.ask(question) {
            Answer::Part(part) => Ok(part.bytes),
            other => Err(refusal(other)),
        }
    }

    /// Variables with the names of their label sets; refused with 16 unless all are there.
    fn with_sets(&self, variables: &[u64]) -> Result<Vec<(&[u8], u64)>, Refusal> {
        let named = variables.iter().map(|i| {
            let set = self.text(Question::LabelSet(*i))?;
            Ok((set, *i))
        });
        named.collect()
    }

    /// Refused with 16 unless there is such an observation, from which a run can begin.
    fn begins(&self, j: u64) -> Result<(), Refusal> {
        match (1..=self.observation_count()).contains(&j) {
            true => Ok(()),
            false => Err(Refusal::new(16)),
        }
    }

    /// Refused with 16 unless there is such a variable.
    fn within(&self, i: u64) -> Result<(), Refusal> {
        match self.ask(Question::Type(i)) {
            Answer::Refused(refusal) => Err(refusal),
            _ => Ok(()),
        }
    }
}

/// The refusal, where another answer than a refusal can't be.
fn refusal(answer: Answer) -> Refusal {
    match answer {
        Answer::Refused(refusal) => refusal,
        other => unreachable!("another answer than the question's: {other:?}"),
    }
}
