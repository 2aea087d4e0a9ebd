//! Turns the commented text of a table, on standard input, into the table's bytes; with `--back`, a table's bytes into text.
//!
//!     entries < chase.entries > chase.table
//!     entries --back < chase.table

use std::io::{Read, Write};
use std::process::ExitCode;

use cue_tools::entries::{to_table, to_text};

fn converted(back: bool) -> Result<Vec<u8>, String> {
    let mut input = Vec::new();
    std::io::stdin().read_to_end(&mut input).map_err(|error| error.to_string())?;
    if back {
        return to_text(&input).map(String::into_bytes);
    }
    let text = String::from_utf8(input).map_err(|_| "the text is not UTF-8".to_string())?;
    to_table(&text).map_err(|unreadable| unreadable.to_string())
}

fn main() -> ExitCode {
    let arguments: Vec<String> = std::env::args().skip(1).collect();
    let back = match arguments.iter().map(String::as_str).collect::<Vec<_>>()[..] {
        [] => false,
        ["--back"] => true,
        _ => {
            eprintln!("usage: entries < TEXT > TABLE\n       entries --back < TABLE > TEXT");
            return ExitCode::from(2);
        }
    };
    let written = converted(back).and_then(|bytes| std::io::stdout().write_all(&bytes).map_err(|error| error.to_string()));
    match written {
        Ok(()) => ExitCode::SUCCESS,
        Err(what) => {
            eprintln!("entries: {what}");
            ExitCode::FAILURE
        }
    }
}
