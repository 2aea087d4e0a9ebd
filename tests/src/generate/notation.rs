//! Tables and macros in the notation of the papers: `1 0 3, 1 1 2, 14 7 0` is three entries,
//! each kind, a, b; and a macro from lists of numbers.

use crate::evaluator::code::{Body, Instr, Macro, Shape};
use crate::evaluator::table::{bytes_of, Entry};

/// The entries of `kind a b, kind a b, ...`; a line break may stand for a comma.
pub fn entries(text: &str) -> Vec<Entry> {
    let mut list = Vec::new();
    for part in text.split([',', '\n']) {
        let numbers: Vec<i64> = part
            .split_whitespace()
            .map(|word| word.parse().unwrap_or_else(|_| panic!("no number: {word}")))
            .collect();
        match numbers[..] {
            [] => {}
            [kind, a, b] => list.push(Entry { kind: kind as u16, a: a as u16, b: b as i32 }),
            _ => panic!("an entry is three numbers: {part}"),
        }
    }
    list
}

pub fn table(text: &str) -> Vec<u8> {
    bytes_of(&entries(text))
}

/// So many of something, each with its number.
pub fn each(count: usize, what: impl Fn(usize) -> String) -> String {
    (0..count).map(|i| what(i) + ",").collect()
}

/// A body: first address, parameters, result, cell types.
pub fn body(first: u16, parameters: u8, result: u8, cells: &[u8]) -> Body {
    Body { first, parameters, result, cells: cells.to_vec() }
}

/// A shape: address, holds, types from the bottom.
pub fn shape(address: u16, holds: u8, types: &[u8]) -> Shape {
    Shape { address, holds, types: types.to_vec() }
}

/// Instructions `op a b, op a b, ...`.
pub fn code(text: &str) -> Vec<Instr> {
    entries(text)
        .into_iter()
        .map(|e| Instr { op: e.kind as u8, a: e.a as u8, b: e.b })
        .collect()
}

/// A macro of one body without cells.
pub fn root_only(instructions: &str, shapes: Vec<Shape>) -> Macro {
    Macro { classes: Vec::new(), bodies: vec![body(0, 0, 0, &[])], code: code(instructions), shapes }
}

/// The example of paper 01's listing program.
pub const LISTING_EXAMPLE: &str =
    "1 0 3, 1 1 2, 14 7 0, 28 0 0, 40 0 3, 40 0 200, 25 5 0, 28 0 0, 40 0 4, 40 0 9, 20 5 0";
