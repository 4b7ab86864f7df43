//! The editions that are read, and what tells them apart: one table, from documents 01 and 02.

/// Widths are in bytes. Those of texts are with their zero.
#[derive(Clone, Debug, PartialEq, Eq)]
pub struct Edition {
    pub number: u8,
    /// Whether its parts stand between tags.
    pub tagged: bool,
    /// The field of N.
    pub n: usize,
    /// The most bytes of a dataset label.
    pub most_label: usize,
    /// The length before a dataset label; an old label is a field and has none.
    pub label_length: usize,
    /// Names, label-set names and names of label blocks.
    pub name: usize,
    pub format: usize,
    pub variable_label: usize,
    /// The two numbers of a strL cell.
    pub cell_v: usize,
    pub cell_o: usize,
    /// The second number of a record.
    pub record_o: usize,
}

const E113: Edition = Edition {
    number: 113,
    tagged: false,
    n: 4,
    most_label: 80,
    label_length: 0,
    name: 33,
    format: 12,
    variable_label: 81,
    cell_v: 4,
    cell_o: 4,
    record_o: 4,
};

const E114: Edition = Edition {
    number: 114,
    format: 49,
    ..E113
};

const E115: Edition = Edition {
    number: 115,
    ..E114
};

const E117: Edition = Edition {
    number: 117,
    tagged: true,
    label_length: 1,
    ..E114
};

const E118: Edition = Edition {
    number: 118,
    tagged: true,
    n: 8,
    most_label: 320,
    label_length: 2,
    name: 129,
    format: 57,
    variable_label: 321,
    cell_v: 2,
    cell_o: 6,
    record_o: 8,
};

/// Ascending.
pub static EDITIONS: [Edition; 5] = [E113, E114, E115, E117, E118];

/// Their numbers.
pub const NUMBERS: [u8; EDITIONS.len()] = [113, 114, 115, 117, 118];

/// The fields of every edition.
pub const K_WIDTH: usize = 2;
pub const SORT_WIDTH: usize = 2;
pub const STAMP: usize = 17;
pub const PADDING: usize = 3;
pub const RECORD_V: usize = 4;

/// An old header.
pub const OLD_HEADER: usize = 109;

impl Edition {
    /// The edition with that number, if it is read.
    pub fn of(number: impl Into<u64>) -> Option<&'static Edition> {
        let number = number.into();
        EDITIONS
            .iter()
            .find(|edition| u64::from(edition.number) == number)
    }

    /// The edition with that number.
    pub fn known(number: u8) -> &'static Edition {
        Edition::of(number).expect("an edition that is read")
    }

    /// The first 41 bytes of a tagged edition.
    pub fn opening(&self) -> String {
        format!("<stata_dta><header><release>{}</release>", self.number)
    }

    /// A type code.
    pub fn code(&self) -> usize {
        if self.tagged {
            2
        } else {
            1
        }
    }

    /// The widest text of fixed width.
    pub fn widest_text(&self) -> u64 {
        if self.tagged {
            2045
        } else {
            244
        }
    }

    /// Length, name and padding before a label table.
    pub fn block_head(&self) -> usize {
        4 + self.name + PADDING
    }

    /// What follows the `GSO` of a record, up to its contents: v, o, kind and length.
    pub fn record_head(&self) -> usize {
        RECORD_V + self.record_o + 1 + 4
    }
}
