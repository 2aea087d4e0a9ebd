//! Compiles the table on standard input by the plain compiler, whose bytes are those of cue_compile (tests/desk_compile.rs holds it to
//! that), so that a macro can be looked at without the library: `compile < x.table | disassemble`.

use std::io::{Read, Write};
use std::process::ExitCode;

use second::plain;

/// More than the longest macro of any table.
const ROOM: usize = 1 << 21;

fn main() -> ExitCode {
    let mut table = Vec::new();
    std::io::stdin().read_to_end(&mut table).expect("standard input can be read");
    let mut out = vec![0; ROOM];
    match plain::compiler::compile(&table, &mut out) {
        Ok(length) => {
            std::io::stdout().write_all(&out[..length]).expect("standard output can be written");
            ExitCode::SUCCESS
        }
        Err((number, place)) => {
            eprintln!("refused {number} {place}");
            ExitCode::FAILURE
        }
    }
}
