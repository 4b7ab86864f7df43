//! What the commands are.

use crate::{output, End};

pub const GENERAL: &str = "\
dta: what a Stata .dta file (editions 113, 114, 115, 117, 118) says, and the file rewritten

  dta check FILE..                     whether each file is accepted
  dta info FILE                        what the file says of itself and of its variables
  dta show FILE                        its cells
  dta labels FILE                      its label sets
  dta rewrite --edition E --order O IN OUT
                                       the same dataset, in another edition or byte order
  dta layout FILE                      where the parts of the file stand
  dta ask FILE QUESTION [NUMBERS]      one question
  dta bench                            how fast it is
  dta COMMAND --help                   more about a command

FILE may be - for standard input. Exit status: 0 done, 1 refused, 2 wrong arguments or an error of reading or writing.
";

const CHECK: &str = "\
dta check [--explain] FILE..

One line for each file, with its name and a tab in front where there are several:
  EDITION MSF|LSF K N LENGTH    it is accepted
  refused NUMBER                it isn't; the number tells the rule that it breaks first

  --explain   the rule in words, and advice: the place in the file and what is wrong there. The advice comes from a second look that is not proved

Exit status: 0 all accepted, 1 some refused, 2 some could not be read.
";

const INFO: &str = "\
dta info FILE

Label, stamp, edition, byte order, numbers of variables and observations, sort order; and of each variable name, type, display format, label set and label.
Control characters in texts are written out as \\n, \\t, \\x1b; a backslash as \\\\.
";

const SHOW: &str = "\
dta show FILE [--vars NAME,NAME..] [--from N] [--count N] [--labels] [--csv]

The cells, a line for each observation.

  --vars NAME,..  these variables, in this order
  --from N        from observation N on, counted from 1
  --count N       at most N observations
  --labels        label words in place of values that have a label
  --csv           as RFC 4180 has it, with a line of names and texts as they are. Else in columns, with control characters in texts written out

Missing values are ., .a to .z. A float or double between or after them is `between`; a pattern that is no value is `outside`. Numbers read back exactly:
a float is shown as the double of its value.
";

const LABELS: &str = "\
dta labels FILE

The label sets in file order: a line with the name, and for each entry a line with two spaces, the value, a tab and the text. Values that stand for missing
letters are shown as ., .a to .z. Control characters in texts are written out.
";

const REWRITE: &str = "\
dta rewrite --edition 113|114|115|117|118 --order msf|lsf [--force] IN OUT

Writes the dataset of IN to OUT, as a file of that edition and byte order. Bytes that the format leaves unused are set anew.

  --force   replaces OUT where it exists. IN is never replaced

The edition must hold the dataset. Only 117 and 118 have strL, and texts of more than 244 bytes; 113 has display formats of at most 11 bytes, 114, 115 and 117 of at
most 48, 118 of at most 56. All but 118 have names of at most 32 bytes and labels of at most 80, 118 names of at most 128 and labels of at most 320.

IN may be - for standard input, OUT - for standard output. OUT is written beside itself, synced and then renamed: it is there as a whole, or as it was. A
refusal leaves nothing behind; it is told as `refused NUMBER`, with the reason on standard error: what the edition can't hold, and which editions can.
";

const LAYOUT: &str = "\
dta layout FILE

Edition, byte order (1 MSF, 2 LSF), K, N and the fourteen positions of the file's parts: eighteen numbers joined by commas; or refused NUMBER.
";

const ASK: &str = "\
dta ask FILE [--layout NUMBERS] QUESTION [NUMBERS] [--plain TEXT]

One question, by the file's own layout, or by eighteen numbers joined by commas as `dta layout` writes them, right or wrong: the file is not checked then.

  edition order k n label stamp
  type name format set varlabel date sort    VARIABLE
  cell words long                            VARIABLE OBSERVATION

  --plain TEXT   what is shown where a cell has no label

The answer is one line:
  refused NUMBER
  a number; yes or no
  byte, int, long, float, double, strL, text WIDTH
  text PLACE LENGTH HEX
  whole N, float BITS, double BITS, letter K, between, outside, link V O     a cell; or a text
  file PLACE LENGTH HEX, plain HEX                                           label words
  long KIND PLACE LENGTH HEX                                                 a long string
";

const BENCH: &str = "\
dta bench [--size MEGABYTES]

Makes files in memory and times memcpy, checking, reading every cell, reading label words and rewriting on them, at the size (100) and at half of it; and hostile
files; and rewriting files of 118 beside those of 117 with the same data.
";

/// The help of a command.
pub fn of(command: &str) -> Option<&'static str> {
    Some(match command {
        "check" => CHECK,
        "info" => INFO,
        "show" => SHOW,
        "labels" => LABELS,
        "rewrite" => REWRITE,
        "layout" => LAYOUT,
        "ask" => ASK,
        "bench" => BENCH,
        _ => return None,
    })
}

pub fn show(command: Option<&str>) -> End {
    match command {
        None => output::all(GENERAL.as_bytes()),
        Some(command) => match of(command) {
            Some(help) => output::all(help.as_bytes()),
            None => {
                output::error(GENERAL);
                End::Error
            }
        },
    }
}
