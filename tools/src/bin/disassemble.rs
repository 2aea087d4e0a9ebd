//! Prints the compiled macro on standard input as text; fails where its records do not read.
//!
//!     disassemble < chase.macro

use std::io::{Read, Write};
use std::process::ExitCode;

use cue_tools::disassembly::disassemble;

fn main() -> ExitCode {
    let mut bytes = Vec::new();
    if let Err(error) = std::io::stdin().read_to_end(&mut bytes) {
        eprintln!("disassemble: {error}");
        return ExitCode::FAILURE;
    }
    let (text, reads) = disassemble(&bytes);
    if std::io::stdout().write_all(text.as_bytes()).is_err() || !reads {
        return ExitCode::FAILURE;
    }
    ExitCode::SUCCESS
}
