//! Standard output and standard error. A reader who has gone ends a command quietly.

use crate::End;
use std::io::{self, BufWriter, ErrorKind, StdoutLock, Write};

/// A standard output that collects what is written.
pub struct Output(BufWriter<StdoutLock<'static>>);

impl Output {
    pub fn new() -> Output {
        Output(BufWriter::with_capacity(1 << 16, io::stdout().lock()))
    }

    /// Ends the output: `end`, or an error.
    pub fn finish(mut self, written: io::Result<End>) -> End {
        let flushed = self.0.flush();
        // What could not be written is not tried again.
        let _ = self.0.into_parts();
        match written.and_then(|end| flushed.map(|()| end)) {
            Ok(end) => end,
            Err(reason) => failed(&reason),
        }
    }
}

impl Write for Output {
    fn write(&mut self, bytes: &[u8]) -> io::Result<usize> {
        self.0.write(bytes)
    }

    fn flush(&mut self) -> io::Result<()> {
        self.0.flush()
    }
}

fn failed(reason: &io::Error) -> End {
    if reason.kind() == ErrorKind::BrokenPipe {
        return End::Done;
    }
    error(&format!("dta: standard output: {reason}"));
    End::Error
}

/// Writes through one output.
pub fn write(writing: impl FnOnce(&mut Output) -> io::Result<End>) -> End {
    let mut output = Output::new();
    let written = writing(&mut output);
    output.finish(written)
}

pub fn all(bytes: &[u8]) -> End {
    write(|output| output.write_all(bytes).map(|()| End::Done))
}

pub fn line(line: &str) -> End {
    all(format!("{line}\n").as_bytes())
}

/// Writes a line on standard error. Where that can't be done there is nobody to tell.
pub fn error(line: &str) {
    let _ = writeln!(io::stderr().lock(), "{}", line.trim_end());
}

/// Lets a write past the greatest file size (`ulimit -f`) fail as one to a full disk does, in place of ending the program.
pub fn outlive_limits() {
    const SIGXFSZ: i32 = 25;
    const IGNORE: usize = 1;
    extern "C" {
        fn signal(number: i32, handler: usize) -> usize;
    }
    // SAFETY: no handler is set, the signal is ignored.
    unsafe { signal(SIGXFSZ, IGNORE) };
}
