//! The run state's bytes: the layout of docs/STATE.md, which states are sound, what runs do
//! with them; and generated states, damaged or not.

use second::evaluator::answer::{Answer, Event, Refusal};
use second::evaluator::code::*;
use second::evaluator::machine::*;
use second::evaluator::state::*;
use second::evaluator::values::Value;
use second::generate::macros::{good_macro, Size};
use second::generate::notation::{body, code, root_only, shape};
use second::generate::rng::Rng;
use second::generate::states::{after, state_bytes};
use second::harness::setup::{case_count, with_large_stack};
use second::harness::verdicts::loads;

/// The root makes a record, holds 7, calls body 1 with (5, true) while an integer waits below;
/// body 1 holds 9, and stands with bits on its stack.
fn sample() -> Loaded {
    let m = Macro {
        classes: vec![vec![1, 16]],
        bodies: vec![body(0, 0, 0, &[16, 2]), body(12, 2, 3, &[1, 2, 3])],
        code: code(
            "1 0 -2, 4 0 0, 12 0 0, 6 0 0, 17 0 7, 1 0 77, 1 0 5, 2 0 1, 10 0 1, 20 24 0, 18 0 0, 20 24 0,
             17 0 9, 3 0 -1, 18 0 0, 11 0 0",
        ),
        shapes: vec![shape(10, 1, &[]), ],
    };
    judge_macro(&write_macro(&m)).unwrap()
}

#[test]
fn the_layout() {
    let loaded = sample();
    let state = after(&loaded, 11);
    assert!(sound(&loaded, &state));
    let bytes = encode(&state);
    assert_eq!(bytes.len(), 24_576);
    // header: running, 2 activations, 1 record, 2 holds
    assert_eq!(bytes[..10], [0, 0, 2, 0, 1, 0, 2, 0, 0, 0]);
    // the root: body 0, one operand (77), one hold, waiting at its call (8)
    assert_eq!(bytes[32..40], [0, 1, 1, 0, 8, 0, 0, 0]);
    // its cells: record 0 (word 1), false; their types
    assert_eq!(bytes[40..48], [1, 0, 0, 0, 0, 0, 0, 0]);
    assert_eq!(bytes[32 + 264..32 + 267], [16, 2, 0]);
    assert_eq!(bytes[32 + 136..32 + 141], [77, 0, 0, 0, 0]);
    assert_eq!(bytes[32 + 296..32 + 298], [1, 0]);
    // body 1 at 14, #FFFFFFFF on its stack
    let second = 32 + 328;
    assert_eq!(bytes[second..second + 8], [1, 1, 1, 0, 14, 0, 0, 0]);
    assert_eq!(bytes[second + 8..second + 24], [5, 0, 0, 0, 1, 0, 0, 0, 0, 0, 0, 0, 0, 0, 0, 0]);
    assert_eq!(bytes[second + 136..second + 141], [255, 255, 255, 255, 0]);
    assert_eq!(bytes[second + 264..second + 268], [1, 2, 3, 0]);
    assert_eq!(bytes[second + 296..second + 298], [3, 0]);
    // holds from the root up
    assert_eq!(bytes[10_528..10_531], [7, 9, 0]);
    // the record: class 0, −2, null
    assert_eq!(bytes[11_040..11_048], [0, 0, 0, 0, 254, 255, 255, 255]);
    assert_eq!(bytes[11_048..11_052], [0, 0, 0, 0]);
    assert_eq!(bytes[11_040 + 36..11_040 + 39], [1, 16, 0]);
    // nothing else
    let used: usize = bytes.iter().filter(|b| **b != 0).count();
    assert_eq!(used, 3 + 3 + (1 + 2) + (1 + 1) + 4 + 2 + 3 + 4 + 1 + 2 + 4 + 2);
    assert_eq!(decode(&loaded.code, &bytes), Some(state));
}

/// Every byte of a state changed, one at a time: a byte not in use changes nothing, and a
/// changed state is either refused or another sound state.
#[test]
fn every_byte_of_a_state() {
    let loaded = sample();
    let code = write_macro(&loaded.code);
    let state = after(&loaded, 11);
    let good = encode(&state);
    let mut same = 0;
    let mut other = 0;
    let mut refused = 0;
    for i in 0..LENGTH {
        let mut bytes = good.clone();
        bytes[i] = bytes[i].wrapping_add(1);
        match sound_state(&loaded, &bytes) {
            Some(read) if read == state => same += 1,
            Some(_) => other += 1,
            None => {
                refused += 1;
                let before = bytes.clone();
                let answer = run_bytes(&code, &mut bytes, &[0; 64], 9);
                assert_eq!(answer, Answer::Refusal(Refusal { number: 10, place: 0 }));
                assert_eq!(bytes, before);
            }
        }
    }
    println!("{same} {other} {refused}");
    // In use: 6 of the header; 5 + 5 × 2 + 5 and 5 + 5 × 3 + 5 of the activations; 2 holds; 1 + 5 × 2
    // of the record.
    assert_eq!(LENGTH - same, 6 + 20 + 25 + 2 + 11);
    // Bytes of integers and bits, and both groups, may change freely: 77, 5, #FFFFFFFF, −2, #0;
    // false may become true, and the record's null the record itself.
    assert_eq!(other, 5 * 4 + 2 + 2);
    assert_eq!(refused, LENGTH - same - other);
}

#[test]
fn what_is_sound() {
    let loaded = sample();
    let change = |how: &dyn Fn(&mut Vec<Record>, &mut Vec<Activation>)| {
        let mut state = after(&loaded, 11);
        if let State::Running { records, activations } = &mut state {
            how(records, activations);
        }
        let told = sound(&loaded, &state);
        // What cannot be written in bytes is looked at as a state only.
        if let Some(read) = decode(&loaded.code, &encode(&state)) {
            assert_eq!(told, sound(&loaded, &read));
        }
        told
    };
    assert!(change(&|_, _| {}));
    assert!(!change(&|_, t| t.clear()));
    assert!(!change(&|_, t| {
        t.remove(0);
    }));
    // the root alone at its call, arguments taken: not where the loading rules allow a top
    assert!(!change(&|_, t| {
        t.pop();
    }));
    // with its arguments it is
    assert!(change(&|_, t| {
        t.pop();
        t[0].stack.extend([Value::Integer(9), Value::Logical(false)]);
    }));
    // addresses: of another state, outside the body, of the other body
    assert!(!change(&|_, t| t[1].address = 13));
    assert!(change(&|_, t| {
        t[1].address = 13;
        t[1].stack.clear();
    }));
    assert!(!change(&|_, t| t[1].address = 16));
    assert!(!change(&|_, t| t[1].address = 9));
    assert!(!change(&|_, t| t[0].address = 7));
    // holds: too few, another group, no group
    assert!(!change(&|_, t| t[1].holds.clear()));
    assert!(change(&|_, t| t[1].holds[0] = 63));
    assert!(!change(&|_, t| t[1].holds[0] = 64));
    // values of other types
    assert!(!change(&|_, t| t[0].stack[0] = Value::Bits(77)));
    assert!(!change(&|_, t| t[1].cells[1] = Value::Integer(1)));
    // references: null, a record never made, one of no such class
    assert!(change(&|_, t| t[0].cells[0] = Value::Reference { class: 0, record: None }));
    assert!(!change(&|_, t| t[0].cells[0] = Value::Reference { class: 0, record: Some(1) }));
    assert!(change(&|r, _| r[0].fields[1] = Value::Reference { class: 0, record: Some(0) }));
    assert!(!change(&|r, _| r[0].fields[1] = Value::Reference { class: 0, record: Some(256) }));
    assert!(!change(&|r, _| r[0].class = 1));
    assert!(!change(&|r, _| r.clear()));
    // records: 256 and 257
    assert!(change(&|r, _| r.resize(256, r[0].clone())));
    assert!(!change(&|r, _| r.resize(257, r[0].clone())));
    // the same activation twice: body 1 does not stand at a call
    assert!(!change(&|_, t| t.push(t[1].clone())));
    // releasing and ended
    for code in 0..=255u8 {
        let condition = (20..=28).contains(&code);
        assert_eq!(sound(&loaded, &State::Ended { code }), code == 0 || condition);
        assert_eq!(sound(&loaded, &State::Releasing { condition: code, holds: vec![0, 63] }), condition);
    }
    assert!(!sound(&loaded, &State::Releasing { condition: 20, holds: vec![64] }));
    assert!(sound(&loaded, &State::Releasing { condition: 20, holds: vec![1; 512] }));
}

/// "all but the top at a call of the next": of that body and no other like it. "each reference
/// is null or a made record of its class": of that class and no other like it.
#[test]
fn the_next_body_and_the_own_class() {
    let m = Macro {
        classes: vec![vec![1], vec![1]],
        bodies: vec![body(0, 0, 0, &[16, 17]), body(8, 0, 0, &[]), body(9, 0, 0, &[])],
        code: code("1 0 1, 12 0 0, 6 0 0, 1 0 2, 12 1 0, 6 0 1, 10 0 1, 0 0 0, 11 0 0, 11 0 0"),
        shapes: vec![],
    };
    let loaded = judge_macro(&write_macro(&m)).unwrap();
    let called = after(&loaded, 7);
    let bytes = encode(&called);
    assert_eq!(sound_state(&loaded, &bytes), Some(called));
    // the second activation becomes body 2 at its first address
    let mut other = bytes.clone();
    other[32 + 328] = 2;
    other[32 + 328 + 4] = 9;
    assert!(decode(&m, &other).is_some());
    assert_eq!(sound_state(&loaded, &other), None);
    // each of the root's references becomes one to the other's record
    for (cell, word) in [(0, 2), (1, 1)] {
        let mut other = bytes.clone();
        other[32 + 8 + 4 * cell] = word;
        assert!(decode(&m, &other).is_some());
        assert_eq!(sound_state(&loaded, &other), None);
    }
}

/// Thirty-two activations are sound, and the thirty-third call is a condition.
#[test]
fn thirty_two_activations() {
    let m = Macro {
        classes: vec![],
        bodies: vec![body(0, 0, 0, &[]), body(2, 0, 0, &[])],
        code: code("10 0 1, 0 0 0, 17 0 3, 10 0 1, 18 0 0, 11 0 0"),
        shapes: vec![],
    };
    let loaded = judge_macro(&write_macro(&m)).unwrap();
    let mut state = fresh(&m);
    let mut steps = 0;
    loop {
        assert!(sound(&loaded, &state));
        assert_eq!(decode(&m, &encode(&state)), Some(state.clone()));
        if let State::Running { activations, .. } = &state {
            assert!(activations.len() <= 32);
        } else {
            break;
        }
        step(&m, &mut state, &mut |_| 0).unwrap();
        steps += 1;
    }
    // 31 calls, 31 holds, and the call that is one too many
    assert_eq!(steps, 63);
    assert_eq!(state, State::Releasing { condition: 26, holds: vec![3; 31] });
    // "each step gives one release, ... and once none is open one more step ends"
    for _ in 0..31 {
        assert_eq!(run(&m, &mut state, &[0; 64], 1), Ok(Answer::Event { steps: 1, event: Event::Release { group: 3 } }));
    }
    assert_eq!(run(&m, &mut state, &[0; 64], 0), Ok(Answer::AllowanceUsed { steps: 0 }));
    assert_eq!(run(&m, &mut state, &[0; 64], 9), Ok(Answer::End { steps: 1, code: 26 }));
    assert_eq!(run(&m, &mut state, &[0; 64], 9), Ok(Answer::End { steps: 0, code: 26 }));
    // a 33rd activation is not sound
    let mut full = fresh(&m);
    for _ in 0..62 {
        step(&m, &mut full, &mut |_| 0).unwrap();
    }
    assert!(sound(&loaded, &full));
    if let State::Running { activations, .. } = &mut full {
        let last = activations[31].clone();
        activations.push(Activation { address: 2, holds: vec![], ..last });
    }
    assert!(!sound(&loaded, &full));
}

/// Allowances: an event on the last step is an event; the condition's step gives none.
#[test]
fn allowances() {
    let m = root_only("17 0 5, 1 0 1, 1 0 2, 15 0 0, 2 0 0, 19 0 0, 20 24 0", vec![]);
    assert_eq!(loads(&m), (0, 0));
    let bank = [0; 64];
    let mut s = fresh(&m);
    assert_eq!(run(&m, &mut s, &bank, 0), Ok(Answer::AllowanceUsed { steps: 0 }));
    assert_eq!(run(&m, &mut s, &bank, 1), Ok(Answer::Event { steps: 1, event: Event::Hold { group: 5 } }));
    assert_eq!(run(&m, &mut s, &bank, 2), Ok(Answer::AllowanceUsed { steps: 2 }));
    assert_eq!(run(&m, &mut s, &bank, 1), Ok(Answer::Event { steps: 1, event: Event::Set { channel: 1, level: 2 } }));
    // the assert's step is the second; the release comes with the third
    assert_eq!(run(&m, &mut s, &bank, 2), Ok(Answer::AllowanceUsed { steps: 2 }));
    assert_eq!(run(&m, &mut s, &bank, 65_535), Ok(Answer::Event { steps: 1, event: Event::Release { group: 5 } }));
    assert_eq!(run(&m, &mut s, &bank, 65_535), Ok(Answer::End { steps: 1, code: 23 }));
    assert_eq!(run(&m, &mut s, &bank, 65_535), Ok(Answer::End { steps: 0, code: 23 }));
    // all in one
    let mut s = fresh(&m);
    run(&m, &mut s, &bank, 65_535).unwrap();
    run(&m, &mut s, &bank, 65_535).unwrap();
    assert_eq!(run(&m, &mut s, &bank, 65_535), Ok(Answer::Event { steps: 3, event: Event::Release { group: 5 } }));
    // a loop uses the largest allowance up
    let m = root_only("8 0 0", vec![shape(0, 0, &[])]);
    let mut s = fresh(&m);
    assert_eq!(run(&m, &mut s, &bank, 65_535), Ok(Answer::AllowanceUsed { steps: 65_535 }));
    assert_eq!(run(&m, &mut s, &bank, 65_535).unwrap().packed(), 2 + (65_535 << 8));
}

/// "op 16 reads fader n in the n-th of its run's 64 bytes"
#[test]
fn readings_are_of_their_run() {
    let m = root_only("1 0 1, 1 0 64, 16 0 0, 15 0 0, 1 0 2, 1 0 1, 16 0 0, 15 0 0, 0 0 0", vec![]);
    assert_eq!(loads(&m), (0, 0));
    let bank: Vec<u8> = (1..=64).collect();
    let other: Vec<u8> = (101..=164).collect();
    let mut s = fresh(&m);
    assert_eq!(run(&m, &mut s, &bank, 2), Ok(Answer::AllowanceUsed { steps: 2 }));
    assert_eq!(run(&m, &mut s, &other, 9), Ok(Answer::Event { steps: 2, event: Event::Set { channel: 1, level: 164 } }));
    assert_eq!(run(&m, &mut s, &bank, 9), Ok(Answer::Event { steps: 4, event: Event::Set { channel: 2, level: 1 } }));
}

/// The plain machine says why it is stuck, on macros that the check refuses.
#[test]
fn ways_to_be_stuck() {
    let stuck = |m: &Macro| {
        assert_eq!(loads(m).0, 9);
        let mut s = fresh(m);
        for _ in 0..100 {
            if let Err(why) = step(m, &mut s, &mut |_| 0) {
                return Some(why);
            }
            if let State::Ended { .. } = s {
                return None;
            }
        }
        None
    };
    let root = |text: &str| stuck(&root_only(text, vec![]));
    assert_eq!(root("1 0 1"), Some(Stuck::NoNextStep));
    assert_eq!(root("8 0 7"), Some(Stuck::NoNextStep));
    assert_eq!(root("11 0 0"), Some(Stuck::NoNextStep));
    assert_eq!(root("99 0 0"), Some(Stuck::NoNextStep));
    assert_eq!(root("2 0 1, 1 0 1, 7 1 0, 20 24 0"), Some(Stuck::Type));
    assert_eq!(root("15 0 0, 0 0 0"), Some(Stuck::Frames));
    assert_eq!(root("18 0 0, 0 0 0"), Some(Stuck::Frames));
    assert_eq!(root("17 0 1, 0 0 0"), Some(Stuck::GroupHeld));
    assert_eq!(root("8 0 1, 1 0 1, 8 0 1"), Some(Stuck::Frames));
    let mut m = root_only("1 0 1, 12 0 0, 13 1 0, 20 24 0", vec![]);
    m.classes = vec![vec![1], vec![1]];
    assert_eq!(stuck(&m), Some(Stuck::Record));
    let mut m = root_only("10 0 1, 0 0 0, 17 0 1, 11 0 0", vec![]);
    m.bodies.push(body(2, 0, 0, &[]));
    assert_eq!(stuck(&m), Some(Stuck::GroupHeld));
    let mut m = root_only("10 0 1, 0 0 0, 1 0 1, 11 0 0", vec![]);
    m.bodies.push(body(2, 0, 2, &[]));
    assert_eq!(stuck(&m), Some(Stuck::Type));
}

/// Generated states: what is sound runs without being stuck into sound states; what is not is
/// refused by 10 and left alone; bytes not in use do not matter.
#[test]
fn generated_states() {
    with_large_stack(|| {
        let mut sound_ones = 0;
        let count = case_count(6_000);
        for seed in 0..count {
            let mut rng = Rng::new(10_000_000 + seed as u64);
            let m = good_macro(&mut rng, Size { bodies: 3, instructions: 20, classes: 3 });
            let code = write_macro(&m);
            let loaded = judge_macro(&code).unwrap();
            let mut bytes = state_bytes(&mut rng, &loaded, 40);
            let before = bytes.clone();
            let bank: Vec<u8> = (0..64).map(|_| rng.byte()).collect();
            match sound_state(&loaded, &bytes) {
                None => {
                    let answer = run_bytes(&code, &mut bytes, &bank, 5);
                    assert_eq!(answer, Answer::Refusal(Refusal { number: 10, place: 0 }));
                    assert_eq!(bytes, before);
                }
                Some(mut state) => {
                    sound_ones += 1;
                    let answer = run_bytes(&code, &mut bytes, &bank, 0);
                    assert!(matches!(answer, Answer::AllowanceUsed { steps: 0 } | Answer::End { steps: 0, .. }));
                    // "what a run leaves has them 0"
                    assert_eq!(bytes, encode(&state));
                    for _ in 0..40 {
                        if let State::Ended { .. } = state {
                            break;
                        }
                        step(&m, &mut state, &mut |n| bank[n as usize - 1]).unwrap();
                        assert!(sound(&loaded, &state), "state {seed}");
                        assert_eq!(decode(&m, &encode(&state)).as_ref(), Some(&state));
                    }
                }
            }
        }
        println!("{sound_ones} of {count} sound");
        assert!(sound_ones > count / 4 && sound_ones < count * 3 / 4);
    });
}
