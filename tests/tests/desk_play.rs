//! `cue_play`, through the C interface, against the second evaluator and against the same list of `cue_run` calls: lists of plays and runs from a start
//! on, over random room and allowances; refusals; states that no start or run left.
#![cfg(desk)]

use second::evaluator::code::{judge_macro, write_macro};
use second::evaluator::state::LENGTH;
use second::generate::macros::{damaged_macro, good_macro, Size};
use second::generate::notation::{root_only, shape};
use second::generate::rng::Rng;
use second::generate::runs::{passing_macro, some_run};
use second::generate::states::state_bytes;
use second::harness::compare_machines::{play, run, started, AnswerCounts};
use second::harness::setup::{case_count, with_large_stack};

/// Bytes for answers that hold something already; mostly room for a few events, and some bytes over.
fn some_answers(rng: &mut Rng) -> Vec<u8> {
    let length = match rng.below(8) {
        0 => rng.below(9),
        1 => 8 * 300,
        2 => 8,
        _ => rng.below(8 * 12),
    };
    (0..length).map(|_| rng.byte()).collect()
}

/// Plays and runs in any order, on the bytes that the call before left; once in a while one that 8 to 11 refuse.
#[test]
fn lists_of_plays_and_runs() {
    with_large_stack(|| {
        let count = case_count(30_000);
        let mut seen = AnswerCounts::default();
        for seed in 0..count {
            let mut rng = Rng::new(24_000_000 + seed as u64);
            let m = passing_macro(&mut rng);
            let code = write_macro(&m);
            let mut state = started(&code);
            let largest = if rng.chance(3) { 65_535 } else { 300 };
            for _ in 0..1 + rng.below(10) {
                let one = some_run(&mut rng, largest);
                if rng.chance(25) {
                    run(&code, &mut state, &one.bank(), one.allowance);
                    continue;
                }
                let mut answers = some_answers(&mut rng);
                if rng.chance(6) {
                    let mut short = state[..LENGTH - rng.below(2)].to_vec();
                    let damaged = damaged_macro(&mut rng, &m);
                    seen.note_numbers(play(&damaged, &mut short, &one.bank(), one.allowance, &mut answers));
                }
                seen.note_numbers(play(&code, &mut state, &one.bank(), one.allowance, &mut answers));
            }
        }
        println!("{count} lists: {seen:?}");
        // Only many lists can be asked to be spread.
        for (tag, number, part) in [(2, 0, 2), (3, 0, 2), (8, 0, 2), (0, 8, 20), (0, 9, 20), (0, 10, 100), (0, 11, 20)] {
            assert!(count < 10_000 || seen.times(tag, number) > count / part, "{tag} {number}: {seen:?}");
        }
    });
}

/// States as runs leave them and damaged ones, with noise in the bytes that they do not use.
#[test]
fn plays_of_damaged_states() {
    with_large_stack(|| {
        let count = case_count(5_000);
        let mut seen = AnswerCounts::default();
        for seed in 0..count {
            let mut rng = Rng::new(25_000_000 + seed as u64);
            let m = good_macro(&mut rng, Size { bodies: 3, instructions: 20, classes: 3 });
            let code = write_macro(&m);
            let mut state = state_bytes(&mut rng, &judge_macro(&code).unwrap(), 60);
            let one = some_run(&mut rng, 300);
            seen.note_numbers(play(&code, &mut state, &one.bank(), one.allowance, &mut some_answers(&mut rng)));
        }
        assert!(count < 1_000 || [(0, 10), (2, 0), (3, 0), (8, 0)].iter().all(|(tag, number)| seen.times(*tag, *number) > count / 50), "{seen:?}");
    });
}

/// A chase of two sets, over and over: what is answered, and which bytes are written, at every room and every allowance.
#[test]
fn every_room_and_allowance() {
    let m = root_only("1 0 3, 1 0 200, 15 0 0, 1 0 4, 1 0 100, 15 0 0, 8 0 0", vec![shape(0, 0, &[])]);
    let code = write_macro(&m);
    let fresh = started(&code);
    // set 3 200 after 3 steps; set 4 100 after 3 more; then the first after 4
    let events = [[4, 3, 3, 200], [4, 3, 4, 100], [4, 4, 3, 200], [4, 3, 4, 100]].map(|[tag, steps, first, second]: [u64; 4]| tag + (steps << 8) + (first << 24) + (second << 40));
    for room in 0..=33 {
        for allowance in 0..=20 {
            let mut state = fresh.clone();
            let mut answers = vec![0xee; room];
            let told = play(&code, &mut state, &[0; 64], allowance, &mut answers);
            let fit = [3, 6, 10, 13].iter().filter(|&&steps| steps <= allowance).count().min(room / 8);
            let full = fit == room / 8;
            let steps = if full { [0, 3, 6, 10, 13][fit] } else { allowance };
            assert_eq!(told, [if full { 8 } else { 2 }, steps as u64, 0, fit as u64], "room {room}, allowance {allowance}");
            let wanted: Vec<u8> = events[..fit].iter().flat_map(|event| event.to_le_bytes()).collect();
            assert!(answers[..8 * fit] == wanted && answers[8 * fit..].iter().all(|byte| *byte == 0xee));
        }
    }
}

/// Without room for an event nothing is written, not even bytes that the state does not use; the tests are made all the same.
#[test]
fn no_room() {
    let code = write_macro(&root_only("17 0 7, 18 0 0, 0 0 0", vec![]));
    let mut state = started(&code);
    state[LENGTH - 1] = 77;
    let before = state.clone();
    for room in 0..8 {
        assert_eq!(play(&code, &mut state, &[0; 64], 9, &mut vec![1; room]), [8, 0, 0, 0]);
        assert_eq!(play(&code, &mut state, &[0; 63], 9, &mut vec![1; room]), [0, 0, 11, 0]);
        assert_eq!(play(&code[1..], &mut state, &[0; 64], 9, &mut vec![1; room]), [0, 0, 8, 0]);
        assert_eq!(state, before);
    }
    assert_eq!(play(&code, &mut state, &[0; 64], 9, &mut vec![0; 24]), [3, 3, 0, 2]);
    assert_ne!(state[LENGTH - 1], 77);
    // the end again, also without allowance
    assert_eq!(play(&code, &mut state, &[0; 64], 0, &mut vec![0; 8]), [3, 0, 0, 0]);
}
