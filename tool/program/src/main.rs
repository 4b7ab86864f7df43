//! The program `dta`: what a .dta file says, and the file rewritten. What is printed of a file comes from the proved library; only the advice of
//! `check --explain` comes from a second look, and is labelled so.

mod arguments;
mod ask;
mod bench;
mod check;
mod files;
mod help;
mod info;
mod input;
mod labels;
mod layout;
mod output;
mod rewrite;
mod show;
mod text;

use std::ffi::OsString;
use std::process::ExitCode;

/// How a command ends; an error was told already.
#[derive(Clone, Copy, PartialEq, Eq, PartialOrd, Ord, Debug)]
pub enum End {
    Done,
    /// A file, a question or a rewrite was refused.
    Refused,
    /// Wrong arguments, or an error of reading or writing.
    Error,
}

impl End {
    fn code(self) -> ExitCode {
        ExitCode::from(match self {
            End::Done => 0,
            End::Refused => 1,
            End::Error => 2,
        })
    }
}

fn main() -> ExitCode {
    output::outlive_limits();
    let mut given: Vec<OsString> = std::env::args_os().skip(1).collect();
    if given.is_empty() {
        output::error(help::GENERAL);
        return End::Error.code();
    }
    let command = given.remove(0);
    run(&command.to_string_lossy(), given).code()
}

fn run(command: &str, given: Vec<OsString>) -> End {
    if let "--help" | "-h" | "help" = command {
        return help::show(given.first().map(|name| name.to_string_lossy()).as_deref());
    }
    if command == "--version" {
        return output::line(concat!("dta ", env!("CARGO_PKG_VERSION")));
    }
    let Some(help) = help::of(command) else {
        output::error(&format!(
            "dta: no command {}\n{}",
            text::plain(command.as_bytes()),
            help::GENERAL
        ));
        return End::Error;
    };
    if given
        .iter()
        .take_while(|word| *word != "--")
        .any(|word| word == "--help" || word == "-h")
    {
        return output::all(help.as_bytes());
    }
    match command {
        "check" => check::run(given),
        "info" => info::run(given),
        "show" => show::run(given),
        "labels" => labels::run(given),
        "rewrite" => rewrite::run(given),
        "layout" => layout::run(given),
        "ask" => ask::run(given),
        _ => bench::run(given),
    }
}
