//! Reading a file, or standard input where it is `-`.

use crate::output;
use crate::text::plain;
use crate::End;
use dta::{File, Refusal, LONGEST};
use std::ffi::OsStr;
use std::io::{self, IsTerminal, Read, Write};
use std::os::unix::ffi::OsStrExt;

/// Above this many bytes a terminal is told how far the work is.
const SHOWN_FROM: u64 = 200_000_000;

/// One more than a file may have shows that it is too long: no more is read.
const MOST: usize = LONGEST + 1;

/// The bytes of a file; an error is told.
pub fn read(name: &OsStr) -> Result<Vec<u8>, End> {
    bytes(name).map_err(|reason| {
        output::error(&format!("dta: {}: {reason}", shown(name)));
        End::Error
    })
}

/// An accepted file. A refusal is written as `refused NUMBER`, and an error is told.
pub fn open(name: &OsStr) -> Result<File<Vec<u8>>, End> {
    checked(name)?.map_err(refused)
}

/// An accepted file. A refusal is written as `refused NUMBER`, and the rule is told with it; an error is told.
pub fn open_telling(name: &OsStr) -> Result<File<Vec<u8>>, End> {
    checked(name)?.map_err(|refusal| {
        output::error(&format!("dta: {}: {refusal}", shown(name)));
        refused(refusal)
    })
}

/// Writes a refusal.
pub fn refused(refusal: Refusal) -> End {
    output::line(&format!("refused {}", refusal.number())).max(End::Refused)
}

fn checked(name: &OsStr) -> Result<Result<File<Vec<u8>>, Refusal>, End> {
    let bytes = read(name)?;
    let progress = Progress::new(name, bytes.len() as u64);
    progress.stage("checking");
    let opened = dta::open(bytes);
    progress.end();
    Ok(opened)
}

/// A file's name as it is shown in a message.
pub fn shown(name: &OsStr) -> String {
    match name.as_bytes() {
        b"-" => "standard input".to_string(),
        name => plain(name),
    }
}

fn bytes(name: &OsStr) -> io::Result<Vec<u8>> {
    if name == "-" {
        return take(io::stdin().lock(), 0, &Progress::new(name, 0));
    }
    let file = std::fs::File::open(name)?;
    let length = file.metadata()?.len();
    take(file, length, &Progress::new(name, length))
}

/// All bytes, or one more than a file may have. `length` is how many are awaited.
fn take(mut from: impl Read, length: u64, progress: &Progress) -> io::Result<Vec<u8>> {
    let mut bytes = Vec::new();
    reserve(
        &mut bytes,
        (length.min(MOST as u64) as usize).saturating_add(1),
    )?;
    loop {
        let step = (1 << 24).min(MOST - bytes.len());
        let spare = bytes.capacity() - bytes.len();
        if spare < step.min(1 << 16) {
            let more = bytes.len().max(1 << 16);
            reserve(&mut bytes, more)?;
        }
        let read = from.by_ref().take(step as u64).read_to_end(&mut bytes)?;
        progress.part("reading", bytes.len() as u64);
        if read < step || bytes.len() == MOST {
            progress.end();
            return Ok(bytes);
        }
    }
}

fn reserve(bytes: &mut Vec<u8>, more: usize) -> io::Result<()> {
    bytes
        .try_reserve(more)
        .map_err(|_| io::ErrorKind::OutOfMemory.into())
}

/// A line on a terminal that tells how far the work on a large file is.
pub struct Progress {
    name: String,
    length: u64,
    shown: bool,
}

impl Progress {
    pub fn new(name: &OsStr, length: u64) -> Progress {
        Progress {
            name: shown(name),
            length,
            shown: length > SHOWN_FROM && io::stderr().is_terminal(),
        }
    }

    /// Tells what is being done.
    pub fn stage(&self, doing: &str) {
        self.tell(&format!("{doing} {}", self.name));
    }

    /// Tells what is being done, and how much of it.
    pub fn part(&self, doing: &str, done: u64) {
        let hundredths = 100 * done.min(self.length) / self.length.max(1);
        self.tell(&format!("{doing} {}: {hundredths}%", self.name));
    }

    pub fn end(&self) {
        self.tell("");
    }

    fn tell(&self, line: &str) {
        if self.shown {
            let _ = write!(io::stderr().lock(), "\r\x1b[K{line}");
        }
    }
}
