//! Tables of 2,048 entries that make a check's lookups longest, for the tests and the benchmark.

use crate::evaluator::table::{bytes_of, Entry};
use super::notation::entries;

const MOST: usize = 2_048;

fn entry(kind: u16, a: usize, b: usize) -> Entry {
    Entry { kind, a: a as u16, b: b as i32 }
}

/// What each is, its bytes, and the number of its verdict.
pub fn worst_case_tables() -> [(&'static str, Vec<u8>, u8); 8] {
    [
        ("labels", bytes_of(&labels(MOST - 1)), 0),
        ("gotos to the first", bytes_of(&labels(MOST / 2)), 0),
        ("nested blocks", bytes_of(&nested()), 0),
        ("one name, nested", bytes_of(&hidden()), 0),
        ("parameter, nested", bytes_of(&parameter()), 0),
        ("control, nested", bytes_of(&control()), 0),
        ("references", bytes_of(&references()), 6),
        ("arguments", bytes_of(&arguments()), 4),
    ]
}

/// So many labels, and for the rest gotos to the first.
fn labels(count: usize) -> Vec<Entry> {
    let mut list = vec![entry(1, 0, MOST - 1)];
    list.extend((0..count).map(|name| entry(20, name, 0)));
    list.extend((count + 1..MOST).map(|_| entry(25, 0, 0)));
    list
}

/// 63 blocks, one in the other, with 16 labels each; innermost, gotos to the first label of all.
fn nested() -> Vec<Entry> {
    let (blocks, each) = (63, 16);
    let gotos = MOST - blocks * (1 + each);
    let mut list = Vec::new();
    for block in 0..blocks {
        let last = block == blocks - 1;
        list.push(entry(1, 0, each + if last { gotos } else { 1 }));
        list.extend((0..each).map(|i| entry(20, block * each + i, 0)));
    }
    list.extend((0..gotos).map(|_| entry(25, 0, 0)));
    list
}

/// One name in every block, and one in the root alone, which the innermost block uses.
fn hidden() -> Vec<Entry> {
    let blocks = 32;
    let mut list = entries("1 1 1, 10 1 1");
    for block in 1..blocks - 1 {
        let last = block == blocks - 2;
        let left = MOST - 2 - 2 * (blocks - 2);
        list.push(entry(1, 1, if last { left / 3 + left % 3 } else { 1 }));
        list.push(entry(10, 0, 1));
        if last {
            list.extend((0..left / 3).flat_map(|_| entries("21 0 0, 44 1 0, 44 1 0")));
            list.extend((0..left % 3).map(|_| entry(1, 0, 0)));
        }
    }
    list
}

/// A procedure with one parameter, whose body is blocks, one in the other, with a name each; the innermost uses the parameter (step 2 of section 3 of 000).
fn parameter() -> Vec<Entry> {
    used_inside(entries("1 1 0, 12 2 256, 10 1 1"), 30, "21 0 0, 44 1 0, 44 1 0")
}

/// A loop that controls such blocks, the innermost of which uses its control name (step 3).
fn control() -> Vec<Entry> {
    used_inside(entries("1 0 1, 31 1 0, 40 0 1, 40 0 1, 40 0 1"), 29, "28 0 0, 44 1 0, 44 1 0")
}

/// So many blocks behind these entries, one in the other, with a name each; in the innermost a statement of three entries, again and again.
fn used_inside(mut list: Vec<Entry>, blocks: usize, statement: &str) -> Vec<Entry> {
    let left = MOST - list.len() - 2 * blocks;
    for block in 0..blocks {
        let last = block == blocks - 1;
        list.push(entry(1, 1, if last { left / 3 + left % 3 } else { 1 }));
        list.push(entry(10, 0, 1));
    }
    list.extend((0..left / 3).flat_map(|_| entries(statement)));
    list.extend((0..left % 3).map(|_| entry(1, 0, 0)));
    list
}

/// A class, and variables that refer to it: too many for a body, but each is looked up before that counts.
fn references() -> Vec<Entry> {
    let mut list = entries("1 2046 0, 11 0 1, 10 1 1");
    list.extend((2..MOST - 1).map(|name| entry(10, name, 65_536)));
    list
}

/// A call with far too many arguments, all of which are judged before it.
fn arguments() -> Vec<Entry> {
    let mut list = entries("1 2 1, 10 1 1, 12 2 0, 1 0 0, 27 2 2043");
    list.extend((0..2043).map(|_| entry(44, 1, 0)));
    list
}
