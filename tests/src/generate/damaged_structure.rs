//! Valid tables with damage to their structure: parts removed, doubled and moved with or without their counts, wrong
//! counts, blocks filled to about their limits, names that hide others. damaged_entries.rs changes what single
//! entries say; this changes what stands where.

use crate::evaluator::table::{bytes_of, read_table, Entry};
use super::entries::{end_of, of_kinds, operand_count, sort_of};
use super::loops::near_range;
use super::rng::Rng;

/// The field of an entry that counts an operand.
#[derive(Clone, Copy, PartialEq, Debug)]
pub enum Count {
    /// a: declarations of a block, arms of a case
    A,
    /// b: statements, arguments, values, fields
    B,
    /// 256 of b: parameters
    Parameters,
}

/// An operand that its entry counts.
#[derive(Clone, Copy, Debug)]
pub struct Part {
    pub at: usize,
    pub end: usize,
    pub parent: usize,
    pub count: Count,
}

fn count_of(e: Entry, operand: usize) -> Option<Count> {
    let head = e.a as usize;
    match e.kind {
        1 | 53 if operand < head => Some(Count::A),
        1 | 53 if operand < head + e.b as usize => Some(Count::B),
        11 | 27 | 45 | 47 => Some(Count::B),
        12 if operand < e.b as usize / 256 => Some(Count::Parameters),
        30 if operand > 0 => Some(Count::A),
        _ => None,
    }
}

/// All counted operands of a table that reads.
pub fn parts(list: &[Entry]) -> Vec<Part> {
    let mut all = Vec::new();
    for parent in 0..list.len() {
        let mut at = parent + 1;
        for operand in 0..operand_count(list[parent]) {
            let end = end_of(list, at);
            if let Some(count) = count_of(list[parent], operand) {
                all.push(Part { at, end, parent, count });
            }
            at = end;
        }
    }
    all
}

/// One more or one less.
pub fn recount(e: &mut Entry, count: Count, by: i32) {
    match count {
        Count::A => e.a = e.a.wrapping_add(by as u16),
        Count::B => e.b = e.b.wrapping_add(by),
        Count::Parameters => e.b = e.b.wrapping_add(256 * by),
    }
}

/// A part away; its entry counts on or not.
pub fn remove(list: &mut Vec<Entry>, part: Part, counted: bool) {
    if counted {
        recount(&mut list[part.parent], part.count, -1);
    }
    list.drain(part.at..part.end);
}

/// A part twice, one behind the other.
pub fn double(list: &mut Vec<Entry>, part: Part, counted: bool) {
    if counted {
        recount(&mut list[part.parent], part.count, 1);
    }
    let copy = list[part.at..part.end].to_vec();
    list.splice(part.end..part.end, copy);
}

/// A part away from its place to before another that is not inside it.
pub fn put_before(list: &mut Vec<Entry>, part: Part, other: Part, counted: bool) {
    if counted {
        recount(&mut list[part.parent], part.count, -1);
        recount(&mut list[other.parent], other.count, 1);
    }
    let copy = list[part.at..part.end].to_vec();
    if other.at <= part.at {
        list.drain(part.at..part.end);
        list.splice(other.at..other.at, copy);
    } else {
        list.splice(other.at..other.at, copy);
        list.drain(part.at..part.end);
    }
}

fn move_part(rng: &mut Rng, list: &mut Vec<Entry>, all: &[Part], counted: bool) {
    let part = *rng.pick(all);
    let sort = sort_of(list[part.at].kind);
    let places: Vec<Part> =
        all.iter().copied().filter(|o| sort_of(list[o.at].kind) == sort && (o.at < part.at || o.at >= part.end)).collect();
    if !places.is_empty() {
        let other = *rng.pick(&places);
        put_before(list, part, other, counted);
    }
}

/// Values at which a count of this field changes its meaning.
pub const WRONG_COUNTS: [i32; 14] = [0, 1, 2, 8, 9, 255, 256, 65_535, 65_536, 1 << 24, i32::MAX, i32::MIN, -1, -256];

fn wrong_count(rng: &mut Rng, list: &mut [Entry], all: &[Part]) {
    let part = *rng.pick(all);
    let e = &mut list[part.parent];
    if rng.chance(60) {
        return recount(e, part.count, if rng.chance(50) { 1 } else { -1 });
    }
    match part.count {
        Count::A => e.a = *rng.pick(&WRONG_COUNTS) as u16,
        _ => e.b = *rng.pick(&WRONG_COUNTS),
    }
}

/// New declarations at the start of a block's head.
fn declare(list: &mut Vec<Entry>, block: usize, declarations: Vec<Entry>) {
    list[block].a += declarations.len() as u16;
    list.splice(block + 1..block + 1, declarations);
}

/// Statements, so many, before those of a block.
fn prepend(list: &mut Vec<Entry>, block: usize, count: u16, statements: impl Iterator<Item = Entry>) {
    let first = (0..list[block].a).fold(block + 1, |at, _| end_of(list, at));
    list.splice(first..first, statements);
    list[block].b += count as i32;
}

/// Variables, holds, cases, loops or waiting operands, so many that a limit is near.
fn approach_a_limit(rng: &mut Rng, list: &mut Vec<Entry>) {
    let entry = |kind, a, b| Entry { kind, a, b };
    let block = *rng.pick(&of_kinds(list, &[1, 53]));
    let many = rng.between(1, 34) as u16;
    match rng.below(5) {
        0 => declare(list, block, (0..many).map(|i| entry(10, 40_000 + i, 1 + (i % 3) as i32)).collect()),
        1 => declare(list, block, (0..many % 18).map(|i| entry(14, i, 0)).collect()),
        2 => prepend(list, block, many, (0..many).flat_map(|_| [entry(30, 1, 0), entry(40, 0, 1), entry(1, 0, 0)])),
        3 => {
            let [number, empty] = [entry(40, 0, 1), entry(1, 0, 0)];
            prepend(list, block, many % 12, (0..many % 12).flat_map(|i| [entry(31, i, 0), number, number, number, empty]));
        }
        _ => {
            let numbers = of_kinds(list, &[40]);
            if !numbers.is_empty() {
                let at = *rng.pick(&numbers);
                list.splice(at..at, (0..many).flat_map(|_| [entry(49, 1, 0), entry(40, 0, 1)]));
            }
        }
    }
}

/// A name of the table once more: as a variable of some block, as a label, or as a control name.
fn hide_a_name(rng: &mut Rng, list: &mut Vec<Entry>) {
    let named: Vec<u16> = list.iter().filter(|e| matches!(e.kind, 10..=12 | 20 | 25 | 27 | 31 | 43..=47)).map(|e| e.a).collect();
    let blocks = of_kinds(list, &[1, 53]);
    let name = if named.is_empty() { 7 } else { *rng.pick(&named) };
    let block = *rng.pick(&blocks);
    match rng.below(10) {
        0..=4 => {
            let ty = *rng.pick(&[1, 1, 2, 3, 65_536 + name as i32]);
            declare(list, block, vec![Entry { kind: 10, a: name, b: ty }]);
        }
        5 | 6 => prepend(list, block, 1, std::iter::once(Entry { kind: 20, a: name, b: 0 })),
        _ => control(rng, list, name),
    }
}

/// Some statement becomes what a loop with this control name controls.
fn control(rng: &mut Rng, list: &mut Vec<Entry>, name: u16) {
    let statements: Vec<usize> = (1..list.len()).filter(|&k| sort_of(list[k].kind) == 1).collect();
    if !statements.is_empty() {
        let at = *rng.pick(&statements);
        let bounds = near_range(rng).map(|b| Entry { kind: 40, a: 0, b });
        list.splice(at..at, [Entry { kind: 31, a: name, b: 0 }].into_iter().chain(bounds));
    }
}

/// One to three such damages to a table that reads.
pub fn reshaped_table(rng: &mut Rng, valid: &[Entry]) -> Vec<u8> {
    let mut list = valid.to_vec();
    for _ in 0..1 + rng.below(3) {
        if read_table(&bytes_of(&list)).is_err() {
            break;
        }
        let all = parts(&list);
        let counted = rng.chance(85);
        match rng.below(9) {
            0 | 1 => approach_a_limit(rng, &mut list),
            2 | 3 => hide_a_name(rng, &mut list),
            _ if all.is_empty() => {}
            4 => remove(&mut list, *rng.pick(&all), counted),
            5 => double(&mut list, *rng.pick(&all), counted),
            6 => wrong_count(rng, &mut list, &all),
            _ => move_part(rng, &mut list, &all, counted),
        }
    }
    bytes_of(&list)
}
