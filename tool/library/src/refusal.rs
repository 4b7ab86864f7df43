use std::fmt;

/// A refusal, by its number from the table of document 01.
#[derive(Clone, Copy, PartialEq, Eq, PartialOrd, Ord, Hash, Debug)]
pub struct Refusal(u8);

impl Refusal {
    pub(crate) fn new(number: u8) -> Refusal {
        Refusal(number)
    }

    /// 1 to 17.
    pub fn number(self) -> u8 {
        self.0
    }

    /// The rule, in the words of the table.
    pub fn rule(self) -> &'static str {
        match self.0 {
            1 => "file over the length bound",
            2 => "starts with none of bytes 113, 114, 115 and the 41 bytes of 117 or 118",
            3 => "a part or tag needs more bytes than remain",
            4 => "a tag differs",
            5 => "byte order, file type, K, N, dataset label or stamp breaks its rule",
            6 => "type code unknown",
            7 => "text field after the header unended, or a name empty",
            8 => "sort list breaks its rule",
            9 => "expansion type 0 with a length",
            10 => "a map position is wrong",
            11 => "a strL reference or record breaks its rule",
            12 => "label table breaks its rule",
            13 => "bytes after `</stata_dta>`",
            14 => "lent output shorter than the result",
            15 => "target edition or order not offered, or it can't hold the dataset",
            16 => "variable not in 1..K or observation not in 1..N",
            17 => "a byte the answer needs lies outside the file, or a type code on the way is unknown",
            _ => "no number of the table",
        }
    }
}

impl fmt::Display for Refusal {
    fn fmt(&self, f: &mut fmt::Formatter) -> fmt::Result {
        write!(f, "refused {}: {}", self.0, self.rule())
    }
}

impl std::error::Error for Refusal {}
