//! The command `gimmerskip`. What it does stands in the library beside this file; here it only learns which streams
//! were closed when it began, and ends with the status.

#![deny(unsafe_code)]

#[allow(unsafe_code)]
mod began;

use std::process::ExitCode;

fn main() -> ExitCode {
    let arguments = std::env::args_os().skip(1).collect();
    ExitCode::from(cli::run(arguments, began::closed()) as u8)
}
