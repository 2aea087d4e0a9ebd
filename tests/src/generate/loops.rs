//! What the generators know of loops: starts, steps and limits of few turns, anywhere in the 32-bit range; and tables whose events tell
//! every value that their loops take.

use super::programs::EDGES;
use super::rng::Rng;
use crate::evaluator::table::{bytes_of, Entry};

/// Start, step and limit.
pub type Range = [i32; 3];

/// The most turns of a range that is made here.
const MOST_TURNS: i64 = 8;

/// How many turns a loop takes, by division; none where the step is 0.
pub fn turns_of([start, step, limit]: Range) -> i64 {
    let (distance, step) = (limit as i64 - start as i64, step as i64);
    match step {
        0 => 0,
        1.. if distance >= 0 => distance / step + 1,
        ..0 if distance <= 0 => distance / step + 1,
        _ => 0,
    }
}

/// Small numbers; none to four turns.
pub fn near_range(rng: &mut Rng) -> Range {
    let start = rng.between(-3, 20) as i32;
    let step: i32 = *rng.pick(&[1, 1, 1, 2, 3, -1, -1, -2, -3]);
    let limit = match rng.below(5) as i32 {
        0 => start - step.signum() * (1 + rng.below(3) as i32),
        turns => start + step * (turns - 1) + step.signum() * rng.below(step.unsigned_abs() as usize) as i32,
    };
    [start, step, limit]
}

/// Numbers of all sizes, those about the ends of the range among them; at most eight turns.
pub fn far_range(rng: &mut Rng) -> Range {
    loop {
        let little = |rng: &mut Rng| rng.below(6) as i32;
        let large = *rng.pick(&[1, 2, 3, 1 << 30, i32::MAX - 1, i32::MAX]);
        let range = match rng.below(6) {
            // about one of the ends, where the next value passes the range
            0 => [i32::MAX - little(rng), large, i32::MAX - little(rng)],
            1 => [i32::MIN + little(rng), -large - rng.below(2) as i32, i32::MIN + little(rng)],
            // from some value to another, with a step that takes it there in a few turns, or away from it
            way => {
                let (start, limit) = (far_number(rng), far_number(rng));
                let distance = limit as i64 - start as i64;
                let step = distance / (1 + rng.below(5) as i64) + rng.between(-1, 1);
                let step = if way == 2 { -step } else { step };
                [start, step.clamp(i32::MIN as i64, i32::MAX as i64) as i32, limit]
            }
        };
        if range[1] != 0 && turns_of(range) <= MOST_TURNS {
            return range;
        }
    }
}

fn far_number(rng: &mut Rng) -> i32 {
    match rng.below(4) {
        0 => *rng.pick(&[i32::MIN, i32::MAX]),
        1 => rng.next_u64() as i32,
        2 => rng.between(-9, 9) as i32,
        _ => *rng.pick(&EDGES),
    }
}

/// Ranges at which something changes: one turn or two at an end of the 32-bit range, the largest steps, none.
pub const EDGE_RANGES: [Range; 16] = [
    [i32::MAX - 1, 1, i32::MAX],
    [i32::MIN + 1, -1, i32::MIN],
    [i32::MAX, 1, i32::MAX],
    [i32::MIN, -1, i32::MIN],
    [i32::MAX, i32::MIN, i32::MIN],
    [i32::MIN, i32::MAX, i32::MAX],
    [0, i32::MIN, i32::MIN],
    [-1, i32::MAX, i32::MAX],
    [0, i32::MAX, i32::MAX],
    [i32::MAX - 6, 5, i32::MAX],
    [i32::MIN + 6, -5, i32::MIN],
    [i32::MIN, 1, i32::MIN],
    [i32::MAX, -1, i32::MAX],
    [i32::MAX, 1, i32::MIN],
    [i32::MIN, -1, i32::MAX],
    [0, i32::MIN, i32::MAX],
];

/// Some range: one of these, a near one, a far one, or now and then with step zero.
pub fn some_range(rng: &mut Rng) -> Range {
    match rng.below(12) {
        0 => [far_number(rng), 0, far_number(rng)],
        1 | 2 => *rng.pick(&EDGE_RANGES),
        3 | 4 => near_range(rng),
        _ => far_range(rng),
    }
}

fn entry(kind: u16, a: u16, b: i32) -> Entry {
    Entry { kind, a, b }
}

/// The entries of a loop's bounds, each of which may tell by a hold when it is evaluated.
fn bounds(rng: &mut Rng, range: Range, list: &mut Vec<Entry>) {
    for (i, n) in range.into_iter().enumerate() {
        if rng.chance(30) {
            list.extend([entry(53, 1, 0), entry(14, 10 + i as u16, 0)]);
        }
        list.push(entry(40, 0, n));
    }
}

/// A set that tells a byte of this control name's value, the lowest or the highest, as it were.
fn telling(name: u16, [channel, operator, number]: [i32; 3], list: &mut Vec<Entry>) {
    list.extend([entry(28, 0, 0), entry(40, 0, channel), entry(48, 21, 0)]);
    list.extend([entry(49, operator as u16, 0), entry(44, name, 0), entry(40, 0, number)]);
}

/// A loop whose events tell the values that it takes, and in it perhaps another, of another name or of the same; so many at most.
fn telling_loop(rng: &mut Rng, name: u16, range: Range, most: usize, list: &mut Vec<Entry>) {
    list.push(entry(31, name, 0));
    bounds(rng, range, list);
    let (holds, inner) = (rng.below(2), most > 1 && rng.chance(50));
    list.push(entry(1, holds as u16, 2 + inner as i32));
    list.extend((0..holds).map(|_| entry(14, 20 + name, 0)));
    telling(name, [1, 5, 256], list);
    if inner {
        let (short, same) = (near_range(rng), rng.chance(40));
        telling_loop(rng, if same { name } else { name + 1 }, short, most - 1, list);
    }
    telling(name, [2, 4, 1 << 24], list);
}

/// One or two such loops, and a set behind them.
pub fn looping_table(rng: &mut Rng) -> Vec<u8> {
    let loops = 1 + rng.below(2);
    let mut list = vec![entry(1, 0, loops as i32 + 1)];
    for _ in 0..loops {
        let range = some_range(rng);
        telling_loop(rng, 0, range, 3, &mut list);
    }
    list.extend([entry(28, 0, 0), entry(40, 0, 3), entry(40, 0, 255)]);
    bytes_of(&list)
}
