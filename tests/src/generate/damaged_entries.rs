//! Valid tables with damage to what single entries say: kinds, names, types, operators, operands exchanged; cut tables.

use crate::evaluator::table::{bytes_of, read_table, Entry};
use super::entries::{end_of, of_kinds, sort_of, KINDS};
use super::rng::Rng;

/// A table with one field changed, an entry removed, doubled or swapped.
fn damage_once(rng: &mut Rng, list: &mut Vec<Entry>) {
    if list.is_empty() {
        list.push(Entry { kind: 1, a: 0, b: 0 });
        return;
    }
    let i = rng.below(list.len());
    let names: Vec<u16> = list.iter().map(|e| e.a).collect();
    match rng.below(13) {
        0 => list[i].kind = *rng.pick(&KINDS),
        1 => list[i].kind = *rng.pick(&[0, 2, 13, 15, 29, 32, 39, 52, 54, 99, 256, 65_535]),
        2 => {
            // An entry of one of these kinds becomes another of the like.
            let like: &[u16] = match list[i].kind {
                40..=42 => &[40, 41, 42],
                44 | 43 => &[43, 44],
                45 | 47 => &[45, 47],
                27 => &[27],
                22 | 24 => &[22, 24],
                25 | 20 => &[25, 20],
                21 | 28 => &[21, 28],
                48 | 46 | 51 => &[51, 48, 46],
                1 | 53 => &[1, 53],
                _ => &KINDS,
            };
            list[i].kind = *rng.pick(like);
        }
        3 => list[i].a = *rng.pick(&names),
        4 => list[i].a = rng.below(64) as u16,
        5 => list[i].a = list[i].a.wrapping_add(*rng.pick(&[1, 65_535])),
        6 => {
            list[i].b = *rng.pick(&[0, 1, 2, 3, 4, -1, 255, 256, 257, 259, 260, 65_535, 65_536, 131_071, 131_072, i32::MIN])
        }
        7 => list[i].b = list[i].b.wrapping_add(*rng.pick(&[1, -1])),
        8 => {
            list.remove(i);
        }
        9 => {
            let e = list[i];
            list.insert(i, e);
        }
        10 => {
            let j = rng.below(list.len());
            list.swap(i, j);
        }
        11 => change_type_or_operator(rng, list),
        _ => change_name(rng, list),
    }
}

/// A name somewhere becomes another.
fn change_name(rng: &mut Rng, list: &mut [Entry]) {
    let names: Vec<u16> = list.iter().map(|e| e.a).collect();
    let some = of_kinds(list, &[10, 11, 12, 20, 25, 27, 31, 43, 44, 45, 46, 47]);
    if !some.is_empty() {
        let k = *rng.pick(&some);
        list[k].a = *rng.pick(&names);
    }
}

/// The type of a kind 10, or an operator, becomes another.
fn change_type_or_operator(rng: &mut Rng, list: &mut [Entry]) {
    let names: Vec<u16> = list.iter().map(|e| e.a).collect();
    let some = of_kinds(list, &[10, 48, 49]);
    if !some.is_empty() {
        let k = *rng.pick(&some);
        match list[k].kind {
            10 => {
                let class = 65_536 + *rng.pick(&names) as i32;
                list[k].b = *rng.pick(&[1, 2, 3, class]);
            }
            48 => list[k].a = rng.between(20, 22) as u16,
            _ => list[k].a = rng.between(1, 15) as u16,
        }
    }
}

/// A loop's control name as a target or a goto's label in what it controls, or as some name there, in the bounds or behind the loop.
fn misuse_control_name(rng: &mut Rng, list: &mut Vec<Entry>) {
    let loops = of_kinds(list, &[31]);
    if loops.is_empty() {
        return;
    }
    let at = *rng.pick(&loops);
    let name = list[at].a;
    let controlled = (0..3).fold(at + 1, |next, _| end_of(list, next));
    let end = end_of(list, controlled);
    let entry = |kind, a, b| Entry { kind, a, b };
    match rng.below(6) {
        0 => {
            list.splice(controlled..end, [entry(21, 0, 0), entry(44, name, 0), entry(40, 0, 9)]);
        }
        1 => {
            list.splice(controlled..end, [entry(25, name, 0)]);
        }
        place => {
            let among = if place == 2 { at + 1..list.len() } else { controlled..end };
            let some: Vec<usize> = among.filter(|&k| matches!(list[k].kind, 10 | 20 | 25 | 27 | 31 | 43..=47)).collect();
            if !some.is_empty() {
                list[*rng.pick(&some)].a = name;
            }
        }
    }
}

/// Damage that mostly leaves the table one tree: names, types and operators changed, and whole
/// operands exchanged or repeated elsewhere. The table must be valid.
fn damage_meaning(rng: &mut Rng, list: &mut Vec<Entry>) {
    let labels: Vec<u16> = list.iter().filter(|e| e.kind == 20).map(|e| e.a).collect();
    match rng.below(12) {
        0 | 1 => change_name(rng, list),
        2 => change_type_or_operator(rng, list),
        3 => {
            let some = of_kinds(list, &[40, 41, 42]);
            if !some.is_empty() {
                let k = *rng.pick(&some);
                list[k] = Entry { kind: *rng.pick(&[40, 41, 42]), a: 0, b: rng.below(2) as i32 };
            }
        }
        4 => {
            // A goto to any label of the table, in the place of a statement.
            let some: Vec<usize> = (1..list.len()).filter(|&k| sort_of(list[k].kind) == 1 && list[k].kind != 20).collect();
            if !some.is_empty() && !labels.is_empty() {
                let k = *rng.pick(&some);
                let end = end_of(list, k);
                let goto = Entry { kind: 25, a: *rng.pick(&labels), b: 0 };
                list.splice(k..end, [goto]);
            }
        }
        5 => {
            // A goto inside a block expression in the place of an expression.
            let some: Vec<usize> = (1..list.len()).filter(|&k| sort_of(list[k].kind) == 2).collect();
            if !some.is_empty() && !labels.is_empty() {
                let k = *rng.pick(&some);
                let goto = Entry { kind: 25, a: *rng.pick(&labels), b: 0 };
                list.splice(k..k, [Entry { kind: 53, a: 0, b: 1 }, goto]);
            }
        }
        6 | 7 => misuse_control_name(rng, list),
        _ => {
            // An operand in the place of another of its sort.
            let from = 1 + rng.below(list.len().max(2) - 1);
            if from >= list.len() {
                return;
            }
            let some: Vec<usize> = (1..list.len()).filter(|&k| sort_of(list[k].kind) == sort_of(list[from].kind)).collect();
            let to = *rng.pick(&some);
            let copy: Vec<Entry> = list[from..end_of(list, from)].to_vec();
            let end = end_of(list, to);
            list.splice(to..end, copy);
        }
    }
}

/// A valid table with one to three damages, or cut, or with bytes behind it.
pub fn damaged_table(rng: &mut Rng, valid: &[Entry]) -> Vec<u8> {
    let mut list = valid.to_vec();
    match rng.below(14) {
        0 => {
            let mut bytes = bytes_of(&list);
            bytes.truncate(rng.below(bytes.len() + 1));
            bytes
        }
        1 => {
            list.truncate(rng.below(list.len() + 1));
            bytes_of(&list)
        }
        2 => {
            let mut bytes = bytes_of(&list);
            for _ in 0..1 + rng.below(16) {
                bytes.push(rng.byte());
            }
            bytes
        }
        3 => {
            let mut bytes = bytes_of(&list);
            let i = rng.below(bytes.len());
            bytes[i] ^= 1 << rng.below(8);
            bytes
        }
        4..=9 => {
            // Damage to the meaning needs one tree to begin with.
            for _ in 0..1 + rng.below(3) {
                if read_table(&bytes_of(&list)).is_ok() {
                    damage_meaning(rng, &mut list);
                }
            }
            bytes_of(&list)
        }
        _ => {
            for _ in 0..1 + rng.below(2) {
                damage_once(rng, &mut list);
            }
            bytes_of(&list)
        }
    }
}
