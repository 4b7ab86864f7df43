//! The words of a command line: options, by their names, and the others in order.

use crate::output;
use crate::text::plain;
use crate::End;
use std::ffi::{OsStr, OsString};
use std::os::unix::ffi::OsStrExt;

/// An option: its name, with the two dashes, and whether a value follows.
pub type Known = (&'static str, bool);

#[derive(Debug)]
pub struct Arguments {
    command: &'static str,
    options: Vec<(&'static str, OsString)>,
    words: Vec<OsString>,
}

impl Arguments {
    /// Takes the words of a command apart. A single dash is a word; after two dashes all are.
    pub fn parse(
        command: &'static str,
        known: &[Known],
        given: Vec<OsString>,
    ) -> Result<Arguments, End> {
        let mut arguments = Arguments {
            command,
            options: Vec::new(),
            words: Vec::new(),
        };
        let mut given = given.into_iter();
        while let Some(word) = given.next() {
            if word == "--" {
                arguments.words.extend(given);
                break;
            }
            if !word.as_bytes().starts_with(b"--") {
                arguments.words.push(word);
                continue;
            }
            let (name, joined) = split(&word);
            let Some((name, has_value)) = known.iter().find(|(known, _)| name == *known) else {
                return Err(arguments.wrong(&format!("no option {}", plain(word.as_bytes()))));
            };
            if arguments.options.iter().any(|(other, _)| other == name) {
                return Err(arguments.wrong(&format!("{name} is given twice")));
            }
            let value = match (has_value, joined) {
                (false, None) => OsString::new(),
                (false, Some(_)) => return Err(arguments.wrong(&format!("{name} takes no value"))),
                (true, Some(value)) => value,
                (true, None) => match given.next() {
                    Some(value) => value,
                    None => return Err(arguments.wrong(&format!("{name} needs a value"))),
                },
            };
            arguments.options.push((name, value));
        }
        Ok(arguments)
    }

    /// Tells what is wrong with the arguments.
    pub fn wrong(&self, what: &str) -> End {
        let command = self.command;
        output::error(&format!(
            "dta {command}: {what} (see `dta {command} --help`)"
        ));
        End::Error
    }

    pub fn has(&self, name: &str) -> bool {
        self.value(name).is_some()
    }

    pub fn value(&self, name: &str) -> Option<&OsStr> {
        let option = self.options.iter().find(|(known, _)| *known == name);
        option.map(|(_, value)| value.as_os_str())
    }

    /// The value of an option that is a number.
    pub fn number(&self, name: &str) -> Result<Option<u64>, End> {
        match self.value(name) {
            None => Ok(None),
            Some(value) => match number(value.as_bytes()) {
                Some(number) => Ok(Some(number)),
                None => Err(self.wrong(&format!(
                    "{name} needs a number, not {}",
                    plain(value.as_bytes())
                ))),
            },
        }
    }

    pub fn words(&self) -> &[OsString] {
        &self.words
    }

    /// The words, which have to be these.
    pub fn exactly<const COUNT: usize>(
        &self,
        names: [&str; COUNT],
    ) -> Result<[&OsStr; COUNT], End> {
        if self.words.len() != COUNT {
            let due = match COUNT {
                0 => "no word is due".to_string(),
                _ => format!("due: {}", names.join(" ")),
            };
            return Err(self.wrong(&due));
        }
        Ok(std::array::from_fn(|at| self.words[at].as_os_str()))
    }
}

/// `--name=value` is a name and its value.
fn split(word: &OsStr) -> (&str, Option<OsString>) {
    let bytes = word.as_bytes();
    let end = bytes
        .iter()
        .position(|byte| *byte == b'=')
        .unwrap_or(bytes.len());
    let name = std::str::from_utf8(&bytes[..end]).unwrap_or("");
    let value = bytes
        .get(end + 1..)
        .map(|value| OsStr::from_bytes(value).to_os_string());
    (name, value)
}

/// A number of digits alone, of at most 64 bits.
pub fn number(digits: &[u8]) -> Option<u64> {
    if digits.is_empty() || !digits.iter().all(u8::is_ascii_digit) {
        return None;
    }
    std::str::from_utf8(digits).ok()?.parse().ok()
}

#[cfg(test)]
mod tests {
    use super::*;

    fn parse(words: &[&str]) -> Result<Arguments, End> {
        let known = [("--csv", false), ("--from", true)];
        Arguments::parse("show", &known, words.iter().map(OsString::from).collect())
    }

    #[test]
    fn options_and_words() {
        let arguments = parse(&["a", "--from", "7", "-", "--csv", "--", "--from"]).unwrap();
        assert_eq!(arguments.words(), ["a", "-", "--from"]);
        assert_eq!(arguments.number("--from"), Ok(Some(7)));
        assert!(arguments.has("--csv"));
        assert_eq!(
            parse(&["--from=12"]).unwrap().number("--from"),
            Ok(Some(12))
        );
    }

    #[test]
    fn wrong_ones() {
        for words in [
            &["--other"][..],
            &["--from"],
            &["--csv=1"],
            &["--csv", "--csv"],
        ] {
            assert_eq!(parse(words).unwrap_err(), End::Error, "{words:?}");
        }
        for digits in ["", "-1", "+1", "1e3", "18446744073709551616", " 1"] {
            assert_eq!(number(digits.as_bytes()), None, "{digits}");
        }
        assert_eq!(number(b"18446744073709551615"), Some(u64::MAX));
    }
}
