//! What the generators know of single entries: the kinds, their sorts, how many operands an entry has and where they end.

use crate::evaluator::table::Entry;

pub const KINDS: [u16; 29] = [
    1, 10, 11, 12, 14, 20, 21, 22, 23, 24, 25, 26, 27, 28, 30, 31, 40, 41, 42, 43, 44, 45, 46, 47, 48, 49, 50, 51, 53,
];

/// How many operands an entry of a valid table has.
pub fn operand_count(e: Entry) -> usize {
    match e.kind {
        1 => e.a as usize + e.b as usize,
        53 => e.a as usize + e.b as usize + 1,
        11 | 27 | 45 | 47 => e.b as usize,
        12 => e.b as usize / 256 + 1,
        30 => e.a as usize + 1,
        26 | 46 | 48 | 51 => 1,
        21 | 22 | 24 | 28 | 49 => 2,
        23 | 50 => 3,
        31 => 4,
        _ => 0,
    }
}

/// The entry after an entry's last operand, in a valid table.
pub fn end_of(list: &[Entry], at: usize) -> usize {
    let mut next = at + 1;
    for _ in 0..operand_count(list[at]) {
        next = end_of(list, next);
    }
    next
}

/// 0 a declaration, 1 a statement, 2 an expression.
pub fn sort_of(kind: u16) -> usize {
    match kind {
        10..=14 => 0,
        1 | 20..=31 => 1,
        _ => 2,
    }
}

/// Where the entries of these kinds are.
pub fn of_kinds(list: &[Entry], kinds: &[u16]) -> Vec<usize> {
    (0..list.len()).filter(|&k| kinds.contains(&list[k].kind)).collect()
}
