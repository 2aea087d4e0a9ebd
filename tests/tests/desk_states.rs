//! `cue_run` on states that no start or run left: damaged byte by byte and structure by structure, made up, noise. Each is refused by 10
//! with nothing written, or runs as the second evaluator runs what it decodes; and bytes that a state does not use never count.
#![cfg(desk)]

use second::evaluator::answer::{Answer, Refusal};
use second::evaluator::code::{judge_macro, write_macro, Loaded, Macro};
use second::evaluator::machine::State;
use second::evaluator::state::{encode, LENGTH};
use second::generate::edge_cases::{deep_macro, edge_state, endless_records, endless_recursion, long_macro};
use second::generate::macros::{good_macro, Size};
use second::generate::notation::{body, code};
use second::generate::rng::Rng;
use second::generate::states::{add_operands, after, move_structure, reached, state_bytes, used};
use second::harness::compare_machines::{run, started, AnswerCounts};
use second::harness::setup::{case_count, with_large_stack};

const UNSOUND: Answer = Answer::Refusal(Refusal { number: 10, place: 0 });

fn loaded_of(m: Macro) -> (Loaded, Vec<u8>) {
    let code = write_macro(&m);
    (judge_macro(&code).expect("it passes"), code)
}

/// Every byte of a running, a releasing and an ended state changed, one at a time and in three ways: where it is not in use nothing changes.
#[test]
fn every_byte() {
    with_large_stack(|| {
        let (loaded, code) = loaded_of(deep_macro().code);
        let releasing = State::Releasing { condition: 23, holds: vec![63, 0, 7, 7] };
        for (state, unsound) in [(after(&loaded, 30), 180..400), (releasing, 10..20), (State::Ended { code: 27 }, 3..6)] {
            let good = encode(&state);
            let counts = used(&loaded.code, &state);
            let mut same = good.clone();
            let whole = run(&code, &mut same, &[5; 64], 3);
            let mut refused = 0;
            for i in 0..LENGTH {
                for change in [1, 255, 128] {
                    let mut bytes = good.clone();
                    bytes[i] = bytes[i].wrapping_add(change);
                    // Of the bytes not in use every seventh is enough.
                    if !counts[i] && (i % 7 != 0 || change != 1) {
                        continue;
                    }
                    let answer = run(&code, &mut bytes, &[5; 64], 3);
                    refused += (answer == UNSOUND) as usize;
                    assert!(counts[i] || (answer == whole && bytes == same), "byte {i} is not in use");
                }
            }
            println!("{refused} refused of {} bytes in use, three ways each", counts.iter().filter(|u| **u).count());
            assert!(unsound.contains(&refused), "{refused} of {state:?}");
        }
    });
}

/// Generated states, as they are or damaged, and what a first run leaves of them run on.
#[test]
fn damaged_states() {
    with_large_stack(|| {
        let count = case_count(40_000);
        let mut seen = AnswerCounts::default();
        let deep_one = deep_macro();
        for seed in 0..count {
            let mut rng = Rng::new(23_000_000 + seed as u64);
            let loaded = match rng.below(8) {
                0 | 1 => deep_one.clone(),
                2 => loaded_of(long_macro(&mut rng)).0,
                _ => loaded_of(good_macro(&mut rng, Size { bodies: 3, instructions: 20, classes: 3 })).0,
            };
            let code = write_macro(&loaded.code);
            let mut bytes = match rng.below(4) {
                0 if loaded.code == deep_one.code => edge_state(&mut rng, &loaded),
                0 | 1 => {
                    let mut bytes = encode(&reached(&mut rng, &loaded, 60));
                    let change = *rng.pick(&[move_structure, move_structure, add_operands]);
                    (0..1 + rng.below(2)).for_each(|_| change(&mut rng, &mut bytes));
                    bytes
                }
                _ => state_bytes(&mut rng, &loaded, 60),
            };
            for _ in 0..3 {
                let bank: Vec<u8> = (0..64).map(|_| rng.byte()).collect();
                let allowance = *rng.pick(&[0, 1, 2, 7, 100]);
                let answer = run(&code, &mut bytes, &bank, allowance);
                seen.note(&answer);
                if answer == UNSOUND {
                    break;
                }
            }
        }
        println!("{count} states: {seen:?}");
        // Only many states can be asked to be spread.
        let unsound = seen.times(0, 10);
        assert!(count < 1_000 || (unsound > count / 4 && unsound < count * 3 / 4), "{seen:?}");
        assert!(count < 1_000 || [2, 4, 5, 6].iter().all(|tag| seen.times(*tag, 0) > count / 60), "{seen:?}");
    });
}

/// "all but the top at a call of the next, arguments taken": with an argument still there, or other operands more, a state is unsound, also
/// where the macro had operands of these types at these depths before.
#[test]
fn arguments_not_taken() {
    let m = Macro {
        classes: vec![],
        bodies: vec![body(0, 0, 0, &[]), body(9, 1, 0, &[1])],
        code: code("1 0 5, 1 0 5, 1 0 5, 1 0 5, 7 1 0, 7 1 0, 7 1 0, 10 0 1, 0 0 0, 11 0 0"),
        shapes: vec![],
    };
    let (loaded, code) = loaded_of(m);
    let called = encode(&after(&loaded, 8));
    assert_eq!((called[2], called[32 + 1]), (2, 0));
    for operands in 0..=4 {
        let mut bytes = called.clone();
        bytes[32 + 1] = operands;
        bytes[32 + 296..32 + 296 + operands as usize].fill(1);
        assert_eq!(run(&code, &mut bytes, &[0; 64], 0) == UNSOUND, operands > 0, "{operands}");
    }
}

/// The top at the same place of its body's twin, ten instructions on or back: its body, its address or both are no longer what they were, and
/// where it is called by its own caller none of that is sound.
#[test]
fn the_place_of_another_body() {
    let (loaded, code) = loaded_of(deep_macro().code);
    let mut tops = [0; 3];
    for steps in 0..80 {
        let State::Running { activations, .. } = after(&loaded, steps) else { break };
        let top = &activations[activations.len() - 1];
        tops[top.body] += 1;
        if top.body == 0 {
            continue;
        }
        let good = encode(&after(&loaded, steps));
        let at = 32 + 328 * (activations.len() - 1);
        let (twin, there) = if top.body == 1 { (2, top.address + 10) } else { (1, top.address - 10) };
        for (body, address) in [(twin, top.address), (top.body, there), (twin, there)] {
            let mut bytes = good.clone();
            bytes[at] = body as u8;
            bytes[at + 4] = address as u8;
            assert_eq!(run(&code, &mut bytes, &[0; 64], 1), UNSOUND, "body {body} at {address} after {steps} steps");
        }
    }
    assert!(tops.iter().all(|n| *n > 10), "{tops:?}");
}

/// All bytes that a state does not use become noise: it runs as it does without, and afterwards they are 0.
#[test]
fn noise_where_nothing_is_used() {
    with_large_stack(|| {
        for seed in 0..case_count(4_000) {
            let mut rng = Rng::new(24_000_000 + seed as u64);
            let m = if rng.chance(30) { long_macro(&mut rng) } else { good_macro(&mut rng, Size { bodies: 3, instructions: 20, classes: 3 }) };
            let (loaded, code) = loaded_of(m);
            let state = reached(&mut rng, &loaded, 400);
            let mut clean = encode(&state);
            let counts = used(&loaded.code, &state);
            let mut noisy: Vec<u8> = (0..LENGTH).map(|i| if counts[i] { clean[i] } else { rng.byte() }).collect();
            let allowance = rng.below(9) as u16;
            let answer = run(&code, &mut noisy, &[1; 64], allowance);
            assert_eq!(answer, run(&code, &mut clean, &[1; 64], allowance));
            assert!(answer != UNSOUND && noisy == clean);
        }
    });
}

/// Bytes that are no state, of every phase.
#[test]
fn noise() {
    let (_, code) = loaded_of(deep_macro().code);
    let mut rng = Rng::new(25_000_000);
    let mut seen = AnswerCounts::default();
    let count = case_count(4_000);
    for i in 0..count {
        let most = *rng.pick(&[2, 4, 40, 256]);
        let mut bytes: Vec<u8> = (0..LENGTH).map(|_| rng.below(most) as u8).collect();
        bytes[0] = (i % 4) as u8;
        bytes[1] = *rng.pick(&[0, 19, 20, 27, 28, 29, 255]);
        bytes[7] = rng.below(4) as u8;
        seen.note(&run(&code, &mut bytes, &[0; 64], 2));
    }
    let sound = [seen.times(6, 0), seen.times(3, 0), seen.times(3, 20), seen.times(3, 27), seen.times(3, 28)];
    assert!(count < 1_000 || (seen.times(0, 10) > count / 4 && sound.iter().all(|n| *n > count / 100)), "{seen:?}");
}

/// What the header and the activations count, at its limit and one over.
#[test]
fn counts_at_their_limits() {
    // 32 activations with 32 cells, 16 holds and 32 operands each: 512 holds.
    let (_, code) = loaded_of(endless_recursion(32, 16, 32));
    let mut full = started(&code);
    while full[2] < 32 || full[32 + 31 * 328 + 1] < 32 {
        run(&code, &mut full, &[0; 64], 1);
    }
    assert_eq!((full[6], full[7]), (0, 2));
    let refused = |code: &[u8], state: &[u8], changes: &[(usize, u8)]| {
        let mut bytes = state.to_vec();
        changes.iter().for_each(|(place, byte)| bytes[*place] = *byte);
        run(code, &mut bytes, &[0; 64], 0) == UNSOUND
    };
    assert!(!refused(&code, &full, &[]));
    let header = [(2, 33), (2, 31), (2, 0), (6, 1), (7, 1), (7, 3)];
    let root = [(32 + 1, 33), (32 + 1, 31), (32 + 2, 17), (32 + 2, 15)];
    for (place, byte) in header.into_iter().chain(root).chain([(10_528 + 511, 64)]) {
        assert!(refused(&code, &full, &[(place, byte)]), "{place} {byte}");
    }
    assert!(!refused(&code, &full, &[(10_528 + 511, 63)]));
    // 256 records: the 257th is not made.
    let (_, code) = loaded_of(endless_records(7));
    let mut full = started(&code);
    while full[5] == 0 {
        run(&code, &mut full, &[0; 64], 1);
    }
    assert_eq!((full[4], full[5]), (0, 1));
    assert!(!refused(&code, &full, &[]));
    assert!(refused(&code, &full, &[(4, 1)]));
    // The last record's reference, to the one before it, may be to itself, and to no 257th.
    let last = 11_040 + 44 * 255 + 4 + 4 * 7;
    assert_eq!((full[last], full[last + 1]), (255, 0));
    assert!(!refused(&code, &full, &[(last, 0), (last + 1, 1)]));
    assert!(refused(&code, &full, &[(last, 1), (last + 1, 1)]));
    // 512 holds of a releasing state, and 513.
    let releasing = encode(&State::Releasing { condition: 20, holds: vec![63; 512] });
    assert!(!refused(&code, &releasing, &[]));
    assert!(refused(&code, &releasing, &[(6, 1)]));
    // 0 and the conditions end, nothing else; a condition releases.
    for number in 0..=255 {
        let condition = (20..=28).contains(&number);
        assert_eq!(!refused(&code, &encode(&State::Ended { code: number }), &[]), number == 0 || condition);
        assert_eq!(!refused(&code, &encode(&State::Releasing { condition: number, holds: vec![1] }), &[]), condition);
        assert!(number < 3 || refused(&code, &full, &[(0, number)]));
    }
}
