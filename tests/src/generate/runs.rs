//! Input of runs and executions: macros that pass, lists of runs with their allowances and banks of readings, and readings from a seed.

use super::edge_cases::{edge_macro, long_macro};
use super::macros::{good_macro, Size};
use super::rng::Rng;
use crate::evaluator::code::{judge_macro, Macro};
use crate::evaluator::machine::{fresh, step, State};

/// "reading k of fader n = (SEED + 31*k + 7*n) mod 256"
pub fn oracle(seed: u8) -> impl Fn(usize, u8) -> u8 {
    move |k, n| (seed as usize + 31 * k + 7 * n as usize) as u8
}

/// One run's input.
#[derive(Clone, Copy, Debug, PartialEq)]
pub struct Run {
    /// 64, or a length that 11 refuses.
    pub length: usize,
    pub seed: u8,
    pub allowance: u16,
}

impl Run {
    /// "bank byte i, from 0, is (s + 11*i) mod 256"
    pub fn bank(&self) -> Vec<u8> {
        (0..self.length).map(|i| (self.seed as usize + 11 * i) as u8).collect()
    }
}

pub fn some_run(rng: &mut Rng, largest: u16) -> Run {
    let length = match rng.below(12) {
        0 => *rng.pick(&[63, 65, 0]),
        _ => 64,
    };
    let allowance = match rng.below(10) {
        0 => 0,
        1 => 1,
        2 => 2,
        3..=5 => rng.below(12) as u16,
        6 | 7 => rng.below(60) as u16,
        _ => largest,
    };
    Run { length, seed: rng.byte(), allowance: allowance.min(largest) }
}

pub fn some_runs(rng: &mut Rng, most: usize, largest: u16) -> Vec<Run> {
    let count = 1 + rng.below(most);
    (0..count).map(|_| some_run(rng, largest)).collect()
}

/// Whether a macro goes on for so many steps, all readings 100.
fn lives(m: &Macro, steps: usize) -> bool {
    let mut state = fresh(m);
    (0..steps).all(|_| step(m, &mut state, &mut |_| 100).is_ok() && !matches!(state, State::Ended { .. }))
}

/// Some macro that passes, mostly one that does not end at once.
pub fn passing_macro(rng: &mut Rng) -> Macro {
    loop {
        let m = match rng.below(20) {
            0 => long_macro(rng),
            1 => match judge_macro(&edge_macro(rng)) {
                Ok(loaded) => loaded.code,
                Err(_) => continue,
            },
            2 => good_macro(rng, Size { bodies: 8, instructions: 40, classes: 6 }),
            _ => good_macro(rng, Size { bodies: 3, instructions: 16, classes: 2 }),
        };
        if rng.chance(20) || lives(&m, 25) {
            return m;
        }
    }
}
