//! Generated run states: reached by steps of the plain machine, or made up, and then damaged
//! field by field and byte by byte, so that sound and unsound ones are both frequent.

use crate::evaluator::code::{Loaded, Macro};
use crate::evaluator::machine::{fresh, step, State};
use crate::evaluator::state::{encode, LENGTH};
use super::rng::Rng;

/// How much there is to a state: activations, records, holds and operands.
fn richness(state: &State) -> usize {
    match state {
        State::Running { records, activations } => {
            let operands: usize = activations.iter().map(|t| t.stack.len()).sum();
            let holds: usize = activations.iter().map(|t| t.holds.len()).sum();
            3 * activations.len() + 2 * records.len() + 2 * holds + operands
        }
        State::Releasing { holds, .. } => holds.len(),
        State::Ended { .. } => 0,
    }
}

/// The state after so many steps, all readings 0.
pub fn after(loaded: &Loaded, steps: usize) -> State {
    let mut state = fresh(&loaded.code);
    for _ in 0..steps {
        step(&loaded.code, &mut state, &mut |_| 0).unwrap();
    }
    state
}

/// A state that some number of steps, at most this many, reaches; mostly a rich one.
pub fn reached(rng: &mut Rng, loaded: &Loaded, most: usize) -> State {
    let mut state = fresh(&loaded.code);
    let mut passed = vec![state.clone()];
    for _ in 0..most {
        if let State::Ended { .. } = state {
            break;
        }
        let mut value = rng.byte();
        if rng.chance(50) {
            value %= 4;
        }
        step(&loaded.code, &mut state, &mut |_| value).expect("a passed macro is never stuck");
        passed.push(state.clone());
    }
    if rng.chance(80) {
        let richest = passed.iter().map(richness).max().unwrap();
        passed.retain(|s| richness(s) * 2 >= richest);
    }
    rng.pick(&passed).clone()
}

/// A state that is releasing or has ended, made up.
fn made_up(rng: &mut Rng) -> State {
    let code = *rng.pick(&[0, 1, 19, 20, 21, 24, 26, 27, 28, 29, 30, 255]);
    if rng.chance(50) {
        State::Ended { code }
    } else {
        let count = if rng.chance(10) { *rng.pick(&[511, 512]) } else { rng.below(6) };
        let most = if rng.chance(80) { 64 } else { 66 };
        State::Releasing { condition: code, holds: (0..count).map(|_| rng.below(most) as u8).collect() }
    }
}

/// The bytes of a state, as they are or with one to three damages.
pub fn state_bytes(rng: &mut Rng, loaded: &Loaded, most_steps: usize) -> Vec<u8> {
    let state = if rng.chance(8) { made_up(rng) } else { reached(rng, loaded, most_steps) };
    let mut bytes = encode(&state);
    let damages = rng.below(3);
    for _ in 0..damages {
        damage(rng, &state, &mut bytes);
    }
    bytes
}

fn nudge(rng: &mut Rng, byte: &mut u8) {
    *byte = byte.wrapping_add(*rng.pick(&[1, 255, 2, 16]));
}

fn damage(rng: &mut Rng, state: &State, bytes: &mut [u8]) {
    let (records, activations) = match state {
        State::Running { records, activations } => (records.len(), activations.len()),
        State::Releasing { holds, .. } => {
            match rng.below(5) {
                0 => bytes[0] = rng.below(4) as u8,
                1 => bytes[1] = *rng.pick(&[0, 19, 20, 23, 27, 28, 29]),
                2 => nudge(rng, &mut bytes[6]),
                3 if !holds.is_empty() => {
                    let i = rng.below(holds.len());
                    bytes[10_528 + i] = *rng.pick(&[0, 63, 64, 255]);
                }
                _ => unused_byte(rng, bytes),
            }
            return;
        }
        State::Ended { .. } => {
            match rng.below(3) {
                0 => bytes[0] = rng.below(4) as u8,
                1 => bytes[1] = *rng.pick(&[0, 1, 19, 20, 23, 27, 28, 29]),
                _ => unused_byte(rng, bytes),
            }
            return;
        }
    };
    let which = rng.below(activations.max(1));
    let at = 32 + 328 * which;
    let depth = bytes[at + 1] as usize;
    match rng.below(24) {
        0 => bytes[0] = rng.below(4) as u8,
        1 => bytes[1] = rng.byte(),
        2 => nudge(rng, &mut bytes[2]),
        3 => nudge(rng, &mut bytes[4]),
        4 => nudge(rng, &mut bytes[6]),
        5 => nudge(rng, &mut bytes[at]),
        6 => nudge(rng, &mut bytes[at + 1]),
        7 => nudge(rng, &mut bytes[at + 2]),
        8 => nudge(rng, &mut bytes[at + 4]),
        9 => bytes[at + 5] = 1,
        // A cell's word, a low byte: any word is an integer or bits, few are a logical or a reference.
        10 | 11 => {
            let cell = rng.below(5);
            bytes[at + 8 + 4 * cell] = *rng.pick(&[0, 1, 2, 3, 200]);
        }
        12 => {
            let cell = rng.below(5);
            bytes[at + 8 + 4 * cell + 1 + rng.below(3)] = *rng.pick(&[0, 1, 128]);
        }
        13 => {
            let cell = rng.below(4);
            bytes[at + 264 + cell] = *rng.pick(&[0, 1, 2, 3, 16, 17]);
        }
        14 | 15 if depth > 0 => {
            let operand = rng.below(depth);
            bytes[at + 136 + 4 * operand] = *rng.pick(&[0, 1, 2, 3, 200]);
        }
        16 if depth > 0 => {
            let operand = rng.below(depth);
            bytes[at + 296 + operand] = *rng.pick(&[1, 2, 3, 16, 17]);
        }
        17 => {
            // A group of an open hold, if there is one.
            let open = bytes[6] as usize;
            let i = rng.below(open.max(1));
            bytes[10_528 + i] = *rng.pick(&[0, 5, 63, 64, 255]);
        }
        18 if records > 0 => {
            let r = 11_040 + 44 * rng.below(records);
            nudge(rng, &mut bytes[r]);
        }
        19 if records > 0 => {
            let r = 11_040 + 44 * rng.below(records);
            bytes[r + 4 + 4 * rng.below(3)] = *rng.pick(&[0, 1, 2, 3, 200]);
        }
        20 if records > 0 => {
            let r = 11_040 + 44 * rng.below(records);
            bytes[r + 36 + rng.below(3)] = *rng.pick(&[1, 2, 3, 16, 17]);
        }
        21 => {
            // One record more, of class 0, its field words 0: sound if its types are right.
            let r = 11_040 + 44 * records;
            if records < 256 {
                bytes[4] = bytes[4].wrapping_add(1);
                for k in 0..8 {
                    bytes[r + 36 + k] = *rng.pick(&[1, 1, 1, 2, 16]);
                }
            }
        }
        22 => {
            // Another place in the code, the rest as it is.
            bytes[at + 4] = rng.below(25) as u8;
        }
        _ => unused_byte(rng, bytes),
    }
}

/// One structure of a state, an activation, a record, a hold, a value's word or its type byte, copied over another of its kind,
/// exchanged with it or made 0. Mostly among the first of them, which are in use.
pub fn move_structure(rng: &mut Rng, bytes: &mut [u8]) {
    let activation = 32 + 328 * rng.below(1 + bytes[2] as usize).min(31);
    let record = 11_040 + 44 * rng.below(1 + bytes[4] as usize).min(255);
    // The first of them, their size and how many there are.
    let (first, size, count) = *rng.pick(&[
        (32, 328, 32),
        (10_528, 1, 512),
        (11_040, 44, 256),
        (activation, 1, 6),
        (activation + 8, 4, 32),
        (activation + 136, 4, 32),
        (activation + 264, 1, 32),
        (activation + 296, 1, 32),
        (record + 4, 4, 8),
        (record + 36, 1, 8),
    ]);
    let most = if rng.chance(80) { count.min(4) } else { count };
    let (one, other) = (first + size * rng.below(most), first + size * rng.below(most));
    match rng.below(5) {
        0 => bytes[one..one + size].fill(0),
        1 | 2 => bytes.copy_within(one..one + size, other),
        _ => (0..size).for_each(|i| bytes.swap(one + i, other + i)),
    }
}

/// An activation gets some operands more, of likely types: as if a call had not taken its arguments.
pub fn add_operands(rng: &mut Rng, bytes: &mut [u8]) {
    let at = 32 + 328 * rng.below(bytes[2].clamp(1, 32) as usize);
    for _ in 0..1 + rng.below(3) {
        let depth = bytes[at + 1] as usize;
        if depth < 32 {
            bytes[at + 296 + depth] = *rng.pick(&[1, 1, 1, 2, 3, 16, 17]);
            bytes[at + 1] += 1;
        }
    }
}

/// Which bytes a state uses (docs/STATE.md).
pub fn used(m: &Macro, state: &State) -> Vec<bool> {
    // Where runs of used bytes begin, and how long they are.
    let mut runs = Vec::new();
    match state {
        State::Running { records, activations } => {
            runs.extend([(0, 1), (2, 1), (4, 4)]);
            for (k, t) in activations.iter().enumerate() {
                let at = 32 + 328 * k;
                let (cells, operands) = (m.bodies[t.body].cells.len(), t.stack.len());
                runs.extend([(at, 3), (at + 4, 2), (at + 8, 4 * cells), (at + 136, 4 * operands), (at + 264, cells), (at + 296, operands)]);
            }
            runs.push((10_528, activations.iter().map(|t| t.holds.len()).sum()));
            for (k, r) in records.iter().enumerate() {
                let (at, fields) = (11_040 + 44 * k, r.fields.len());
                runs.extend([(at, 1), (at + 4, 4 * fields), (at + 36, fields)]);
            }
        }
        State::Releasing { holds, .. } => runs.extend([(0, 2), (6, 2), (10_528, holds.len())]),
        State::Ended { .. } => runs.push((0, 2)),
    }
    let mut used = vec![false; LENGTH];
    for (from, count) in runs {
        used[from..from + count].fill(true);
    }
    used
}

/// A byte that few states use.
fn unused_byte(rng: &mut Rng, bytes: &mut [u8]) {
    let place = match rng.below(6) {
        0 => 3,
        1 => 8 + rng.below(24),
        2 => 32 + 3 + 328 * rng.below(32),
        3 => LENGTH - 1 - rng.below(2_272),
        4 => rng.below(LENGTH),
        _ => 10_528 + 16 + rng.below(400),
    };
    bytes[place] = rng.byte();
}
