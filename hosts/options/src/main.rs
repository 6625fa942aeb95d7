//! Judges the words of the command line and does nothing else. `./serve` runs it before the library is proved.

use serve_options::{parse, told};
use std::process::ExitCode;

fn main() -> ExitCode {
    match parse(std::env::args_os().skip(1)) {
        Ok(_) => ExitCode::SUCCESS,
        Err(message) => told(&message),
    }
}
