//! Prints the line of each file named, or of standard input where none is named.

use std::io::Read;
use std::process::ExitCode;

fn main() -> ExitCode {
    let mut code = ExitCode::SUCCESS;
    let names: Vec<_> = std::env::args_os().skip(1).collect();
    if names.is_empty() {
        let mut file = Vec::new();
        match std::io::stdin().lock().read_to_end(&mut file) {
            Ok(_) => println!("{}", independent::line(&file)),
            Err(error) => {
                eprintln!("standard input: {error}");
                code = ExitCode::FAILURE;
            }
        }
    }
    for name in names {
        match std::fs::read(&name) {
            Ok(file) => println!("{}", independent::line(&file)),
            Err(error) => {
                eprintln!("{}: {error}", name.to_string_lossy());
                code = ExitCode::FAILURE;
            }
        }
    }
    code
}
