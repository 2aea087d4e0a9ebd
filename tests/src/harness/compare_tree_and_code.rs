//! Holds tree execution and compiled code against each other: the same readings, the same
//! items in the same order, the same end; or both go on, one trace the beginning of the other.

use std::collections::HashMap;

use crate::evaluator::answer::{Event, Item};
use crate::evaluator::code::{judge_macro, write_macro, Loaded};
use crate::evaluator::compiler::compile;
use crate::evaluator::execute::{execute, Budget, Execution};
use crate::evaluator::machine::{fresh, step, State};
use crate::evaluator::state::{decode, encode, sound};
use crate::evaluator::table::Tree;

/// What the plain machine did in so many steps.
#[derive(Clone, Debug, PartialEq)]
pub struct Walk {
    pub items: Vec<Item>,
    pub end: Option<u8>,
    pub steps: u64,
}

/// What a walk checks of the states it passes.
#[derive(Clone, Copy, PartialEq)]
pub enum StateChecks {
    None,
    /// Every state is sound, and its bytes give it back.
    EveryState,
}

/// Steps from the fresh state until the end, so many steps, or more than so many items. Fails
/// loudly on a stuck state, on an unsound one, and on holds that an end leaves open.
pub fn walk(
    loaded: &Loaded,
    oracle: &mut dyn FnMut(usize, u8) -> u8,
    most_steps: u64,
    most_items: usize,
    checks: StateChecks,
) -> Result<Walk, String> {
    let mut state = fresh(&loaded.code);
    let mut items = Vec::new();
    let mut readings = 0;
    let mut steps = 0;
    loop {
        if checks == StateChecks::EveryState {
            if !sound(loaded, &state) {
                return Err(format!("unsound after {steps} steps: {state:?}"));
            }
            if decode(&loaded.code, &encode(&state)).as_ref() != Some(&state) {
                return Err(format!("the bytes do not give back the state after {steps} steps: {state:?}"));
            }
        }
        if let State::Ended { code } = state {
            balanced(&items)?;
            return Ok(Walk { items, end: Some(code), steps });
        }
        if steps >= most_steps || items.len() > most_items {
            return Ok(Walk { items, end: None, steps });
        }
        let mut read = |fader: u8| {
            readings += 1;
            oracle(readings - 1, fader)
        };
        match step(&loaded.code, &mut state, &mut read) {
            Ok(item) => items.extend(item),
            Err(stuck) => return Err(format!("stuck ({stuck:?}) after {steps} steps: {state:?}")),
        }
        steps += 1;
    }
}

/// At an end, "A group held twice is released twice": of every group as many releases as holds.
pub fn balanced(items: &[Item]) -> Result<(), String> {
    let mut open: HashMap<u8, i64> = HashMap::new();
    for item in items {
        match item {
            Item::Event(Event::Hold { group }) => *open.entry(*group).or_default() += 1,
            Item::Event(Event::Release { group }) => *open.entry(*group).or_default() -= 1,
            _ => {}
        }
    }
    if open.values().any(|n| *n != 0) {
        return Err(format!("holds and releases differ: {items:?}"));
    }
    Ok(())
}

/// The execution of an accepted tree, once it has been found to agree with its compiled code.
pub fn agreed_execution(tree: &Tree, oracle: &dyn Fn(usize, u8) -> u8, budget: Budget, checks: StateChecks) -> Result<(Execution, Walk), String> {
    let m = compile(tree);
    let loaded = judge_macro(&write_macro(&m)).map_err(|r| format!("the compiled macro is refused: {r:?}"))?;
    if loaded.code != m {
        return Err("the compiled macro does not read back as it was written".to_string());
    }
    let x = execute(tree, &mut |k, n| oracle(k, n), budget);
    // Between two spendings of fuel no instruction is done twice, so this many steps are enough.
    let enough = (x.fuel + 2) * (m.code.len() as u64 + 2) + 1_000;
    let most_items = if x.end.is_some() { usize::MAX } else { x.items.len() };
    let w = walk(&loaded, &mut |k, n| oracle(k, n), enough, most_items, checks)?;
    if x.end.is_some() {
        if w.items != x.items || w.end != x.end {
            return Err(format!("tree {:?} {:?}, code {:?} {:?}", x.end, x.items, w.end, w.items));
        }
    } else if w.items.len() < x.items.len() || w.items[..x.items.len()] != x.items[..] {
        return Err(format!("tree goes on {:?}, code {:?} {:?}", x.items, w.end, w.items));
    }
    Ok((x, w))
}
