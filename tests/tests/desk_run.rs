//! `cue_start` and `cue_run`, through the C interface, against the second evaluator: lists of runs from a start on, in which the second
//! evaluator's machine goes along and never sees the bytes; refusals in between; the order of the refusals; endless macros.
#![cfg(desk)]

use second::evaluator::answer::{Answer, Event, Item, Refusal};
use second::evaluator::code::{write_macro, Macro};
use second::evaluator::compiler::compile;
use second::evaluator::machine::{fresh, State};
use second::evaluator::names::judge_table;
use second::evaluator::state::LENGTH;
use second::generate::edge_cases::{endless_counter, endless_records, endless_recursion};
use second::generate::macros::damaged_macro;
use second::generate::notation::{self, body, root_only, shape, table, LISTING_EXAMPLE};
use second::generate::rng::Rng;
use second::generate::runs::{passing_macro, some_run, some_runs, Run};
use second::harness::compare_machines::{run, run_along, start, AnswerCounts};
use second::harness::compare_tree_and_code::balanced;
use second::harness::desk;
use second::harness::setup::{case_count, with_large_stack};

fn refusal(number: u8, place: usize) -> Answer {
    Answer::Refusal(Refusal { number, place })
}

/// A run that must be refused, on a copy of the state: another macro, a state of another length, or both.
fn refused_between(rng: &mut Rng, m: &Macro, code: &[u8], state: &[u8], one: &Run, seen: &mut AnswerCounts) {
    let damaged = if rng.chance(60) { damaged_macro(rng, m) } else { code.to_vec() };
    let mut copy = state.to_vec();
    if rng.chance(40) {
        copy.resize(*rng.pick(&[0, 1, 63, 4_096, LENGTH - 1, LENGTH + 1, 2 * LENGTH]), 0);
    }
    seen.note(&run(&damaged, &mut copy, &one.bank(), one.allowance));
}

/// A start on noise and a list of runs; the items must balance where it ends. The runs done.
fn follow(rng: &mut Rng, m: &Macro, runs: &[Run], seen: &mut AnswerCounts) -> usize {
    let code = write_macro(m);
    let noise = rng.byte();
    let mut state: Vec<u8> = (0..LENGTH).map(|i| noise.wrapping_mul(i as u8)).collect();
    assert_eq!(start(&code, &mut state), None);
    let mut machine = fresh(m);
    let mut items = Vec::new();
    let mut ended = 0;
    for (done, one) in runs.iter().enumerate() {
        if rng.chance(6) {
            refused_between(rng, m, &code, &state, one, seen);
        }
        let answer = run_along(m, &code, &mut machine, &mut state, &one.bank(), one.allowance);
        seen.note(&answer);
        match answer {
            Answer::Event { event, .. } => items.push(Item::Event(event)),
            Answer::End { .. } => {
                balanced(&items).unwrap();
                ended += 1;
                // The end again, and a bank that 11 refuses, are enough.
                if ended == 3 {
                    return done + 1;
                }
            }
            _ => {}
        }
    }
    runs.len()
}

#[test]
fn lists_of_runs() {
    with_large_stack(|| {
        let count = case_count(100_000);
        let mut seen = AnswerCounts::default();
        let mut done = 0;
        for seed in 0..count {
            let mut rng = Rng::new(20_000_000 + seed as u64);
            let m = passing_macro(&mut rng);
            let largest = if rng.chance(3) { 65_535 } else { 300 };
            let runs = some_runs(&mut rng, 16, largest);
            done += follow(&mut rng, &m, &runs, &mut seen);
        }
        println!("{count} lists, {done} runs: {seen:?}");
        // Only many lists can be asked to be spread.
        let often = |tag, number, part| assert!(count < 10_000 || seen.times(tag, number) > count / part, "{tag} {number}: {seen:?}");
        for tag in [2, 4, 5, 6] {
            often(tag, 0, 4);
        }
        for number in [8, 9, 10, 11] {
            often(0, number, 20);
        }
        often(3, 0, 10);
        for condition in 20..=28 {
            often(3, condition, 2_000);
        }
    });
}

/// The whole list again with other allowances: the same events and the same end, whatever the slices.
#[test]
fn slices_do_not_matter() {
    with_large_stack(|| {
        let mut open = 0;
        let count = case_count(2_000);
        for seed in 0..count {
            let mut rng = Rng::new(21_000_000 + seed as u64);
            let m = passing_macro(&mut rng);
            let whole = said(&m, |_| 2_000);
            let sliced = said(&m, |k| [1, 7, 0, 2, 300, 3][k % 6]);
            assert_eq!(whole, sliced);
            open += whole.1.is_none() as usize;
        }
        assert!(count < 1_000 || (open > count / 50 && open < count / 2), "{open} of {count} go on");
    });
}

/// The events of the first 2,000 steps, and the end, in slices of these allowances; all readings 100.
fn said(m: &Macro, allowance: impl Fn(usize) -> u16) -> (Vec<Event>, Option<u64>) {
    let code = write_macro(m);
    let mut state = vec![0; LENGTH];
    desk::start(&code, &mut state);
    let mut events = Vec::new();
    let mut left = 2_000;
    for k in 0.. {
        let given = desk::unpacked(desk::run(&code, &mut state, &[100; 64], allowance(k).min(left)));
        left -= given[1] as u16;
        match given {
            [3, _, end, _] => return (events, Some(end)),
            [4, _, channel, level] => events.push(Event::Set { channel: channel as u16, level: level as u8 }),
            [5, _, group, _] => events.push(Event::Hold { group: group as u8 }),
            [6, _, group, _] => events.push(Event::Release { group: group as u8 }),
            _ => assert_eq!(given[0], 2),
        }
        if left == 0 {
            break;
        }
    }
    (events, None)
}

/// Macros that never end use up whatever they are allowed, or go on to a limit.
#[test]
fn endless_macros() {
    let endless = [
        root_only("8 0 0", vec![shape(0, 0, &[])]),
        root_only("17 0 3, 18 0 0, 8 0 0", vec![shape(0, 0, &[])]),
        endless_counter(40_000),
        endless_counter(1),
        endless_records(7),
        endless_recursion(32, 16, 32),
    ];
    let mut seen = AnswerCounts::default();
    for (i, m) in endless.iter().enumerate() {
        let mut rng = Rng::new(22_000_000 + i as u64);
        let one = |allowance| Run { length: 64, allowance, ..some_run(&mut rng, 1) };
        let runs: Vec<Run> = [65_535, 20_011].repeat(20).into_iter().map(one).collect();
        follow(&mut rng, m, &runs, &mut seen);
    }
    assert!(seen.times(2, 0) > 60 && seen.times(3, 0) == 0, "{seen:?}");
}

/// Every list of faults: the macro 8, 9 or neither, the state's length or bytes or neither, the readings or neither; the first counts.
#[test]
fn refusals_in_order() {
    let good = root_only("17 0 7, 18 0 0, 0 0 0", vec![]);
    let passes = write_macro(&good);
    let unread = [&passes[..], b"Z"].concat();
    let broken = write_macro(&root_only("17 0 7, 18 0 0, 11 0 0", vec![]));
    let mut fresh_state = vec![1; LENGTH];
    assert_eq!(start(&passes, &mut fresh_state), None);
    let mut unsound = fresh_state.clone();
    unsound[2] = 33;
    let states = [fresh_state.clone(), unsound, fresh_state[1..].to_vec(), Vec::new()];
    for (code, first) in [(&passes, None), (&unread, Some((8, 6))), (&broken, Some((9, 2)))] {
        for (k, state) in states.iter().enumerate() {
            let second = if k == 0 { None } else { Some((10, 0)) };
            let mut lent = state.clone();
            let told = start(code, &mut lent).map(|r| (r.number, r.place));
            assert_eq!(told, first.or(if k < 2 { None } else { second }));
            for length in [0, 1, 63, 64, 65, 1_000] {
                let third = if length == 64 { None } else { Some((11, 0)) };
                let answer = run(code, &mut state.clone(), &vec![0; length], 1);
                let wanted = first.or(second).or(third).map(|(number, place)| refusal(number, place));
                assert_eq!(answer, wanted.unwrap_or(Answer::Event { steps: 1, event: Event::Hold { group: 7 } }));
            }
        }
    }
}

/// "24,575 bytes": lengths about the right one, whatever the bytes.
#[test]
fn lengths_of_a_state() {
    let code = write_macro(&root_only("0 0 0", vec![]));
    for length in [0, 1, 2, 31, 32, 64, LENGTH / 2, LENGTH - 2, LENGTH - 1, LENGTH, LENGTH + 1, LENGTH + 2, 65_536] {
        for byte in [0, 2, 255] {
            let mut state = vec![byte; length];
            let refused = start(&code, &mut state) == Some(Refusal { number: 10, place: 0 });
            assert_eq!(refused, length != LENGTH);
            let answer = run(&code, &mut state, &[0; 64], 65_535);
            assert_eq!(answer == refusal(10, 0), length != LENGTH);
        }
    }
}

/// 11 is given for a state that is releasing and for an ended one too, and changes nothing.
#[test]
fn readings_of_wrong_length() {
    let m = root_only("17 0 7, 20 24 0", vec![]);
    let code = write_macro(&m);
    let mut state = vec![0; LENGTH];
    assert_eq!(start(&code, &mut state), None);
    let release = Answer::Event { steps: 1, event: Event::Release { group: 7 } };
    let hold = Answer::Event { steps: 1, event: Event::Hold { group: 7 } };
    for wanted in [hold, Answer::AllowanceUsed { steps: 1 }, release, Answer::End { steps: 1, code: 24 }, Answer::End { steps: 0, code: 24 }] {
        for length in [0, 63, 65] {
            assert_eq!(run(&code, &mut state, &vec![9; length], 1), refusal(11, 0));
        }
        assert_eq!(run(&code, &mut state, &[9; 64], 1), wanted);
    }
}

/// "op 16 reads fader n in the n-th of its run's 64 bytes": each fader, and each reading.
#[test]
fn every_fader_and_reading() {
    let bank: Vec<u8> = (0..64).map(|i| 255 - 3 * i as u8).collect();
    for fader in 0..=65 {
        let code = write_macro(&root_only(&format!("1 0 5, 1 0 {fader}, 16 0 0, 15 0 0, 0 0 0"), vec![]));
        let mut state = vec![0; LENGTH];
        start(&code, &mut state);
        let answer = run(&code, &mut state, &bank, 9);
        match fader {
            1..=64 => assert_eq!(answer, Answer::Event { steps: 4, event: Event::Set { channel: 5, level: bank[fader - 1] } }),
            // The condition's step, and the one that ends.
            _ => assert_eq!(answer, Answer::End { steps: 4, code: 25 }),
        }
    }
}

/// The macro of the paper's listing, in every slice.
#[test]
fn the_listing_in_slices() {
    let m = compile(&judge_table(&table(LISTING_EXAMPLE)).unwrap());
    let hold = Event::Hold { group: 7 };
    let set = Event::Set { channel: 3, level: 200 };
    for allowance in [1, 2, 3, 4, 100, 2_000] {
        assert_eq!(said(&m, |_| allowance), (vec![hold, set, Event::Release { group: 7 }], Some(0)));
    }
    let mut machine = fresh(&m);
    let mut state = vec![0; LENGTH];
    let code = write_macro(&m);
    start(&code, &mut state);
    while !matches!(run_along(&m, &code, &mut machine, &mut state, &[0; 64], 1), Answer::End { .. }) {}
    assert_eq!(machine, State::Ended { code: 0 });
}

/// A condition inside a called procedure, with holds 3, 4 open in it and 1, 2 in the root (`releases-of-all` in crates/examples/specs/More):
/// all are released, the procedure's last first, then the root's.
#[test]
fn a_condition_releases_the_callers_holds_too() {
    let root = "17 0 1, 17 0 2, 10 0 1, 18 0 0, 18 0 0, 0 0 0";
    let procedure = "17 0 3, 17 0 4, 2 0 0, 19 0 0, 18 0 0, 18 0 0, 11 0 0";
    let m = Macro {
        classes: vec![],
        bodies: vec![body(0, 0, 0, &[]), body(6, 0, 0, &[])],
        code: notation::code(&format!("{root}, {procedure}")),
        shapes: vec![],
    };
    let code = write_macro(&m);
    let mut machine = fresh(&m);
    let mut state = vec![0; LENGTH];
    assert_eq!(start(&code, &mut state), None);
    let hold = |steps, group| Answer::Event { steps, event: Event::Hold { group } };
    let release = |steps, group| Answer::Event { steps, event: Event::Release { group } };
    for wanted in [hold(1, 1), hold(1, 2), hold(2, 3), hold(1, 4), release(3, 4), release(1, 3), release(1, 2), release(1, 1), Answer::End { steps: 1, code: 23 }] {
        assert_eq!(run_along(&m, &code, &mut machine, &mut state, &[0; 64], 9), wanted);
    }
}
