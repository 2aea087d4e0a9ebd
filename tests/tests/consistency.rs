//! Generated programs: tree execution and compiled code agree; every accepted table compiles
//! to a macro that passes; no passed macro is ever stuck; every state passed is sound and its
//! bytes give it back. The number of cases follows CUE_CASES.

use second::evaluator::answer::Answer;
use second::evaluator::code::{judge_macro, write_macro};
use second::evaluator::compiler::compile;
use second::evaluator::execute::{budget, execute};
use second::evaluator::machine::{fresh, run, State};
use second::evaluator::names::judge_table;
use second::evaluator::state::{decode, encode, run_bytes, sound, start, LENGTH};
use second::evaluator::table::{bytes_of, read_table, write_tree, Entry};
use second::generate::macros::{good_macro, unfiltered_macro, Size};
use second::generate::programs::{plan, program, some_program, some_size, unfiltered_program, Plan};
use second::generate::rng::Rng;
use second::generate::runs::{oracle, some_runs};
use second::harness::compare_tree_and_code::{agreed_execution, walk, StateChecks};
use second::harness::setup::{case_count, with_large_stack};

/// How many percent of the programs are small, middle and large; the others are very large.
const SIZES: [usize; 3] = [50, 30, 15];

#[test]
fn tree_and_code_agree() {
    with_large_stack(|| {
        let mut ends = [0usize; 29];
        let mut going = 0;
        let mut largest = 0;
        let count = case_count(20_000);
        for seed in 0..count {
            let mut rng = Rng::new(seed as u64);
            let size = some_size(&mut rng, SIZES);
            let tree = some_program(&mut rng, size);
            largest = largest.max(write_tree(&tree).len());
            match agreed_execution(&tree, &oracle(rng.byte()), budget(2_000), StateChecks::None) {
                Ok((x, _)) => match x.end {
                    Some(end) => ends[end as usize] += 1,
                    None => going += 1,
                },
                Err(why) => panic!("program {seed}: {why}"),
            }
        }
        println!("ends {ends:?}, going {going}, largest table {largest} entries");
        // The generator reaches every end, else this test looks at too little.
        if count >= 3_000 {
            assert!(ends[0] > count / 5, "{ends:?}");
            for condition in 20..=28 {
                assert!(ends[condition] > 0, "no program ends by {condition}: {ends:?}");
            }
            assert!(going > 0 && largest > 1_000);
        }
    });
}

#[test]
fn every_state_of_a_program_is_sound() {
    with_large_stack(|| {
        for seed in 0..case_count(2_000) {
            let mut rng = Rng::new(1_000_000 + seed as u64);
            let size = 5 + rng.below(120);
            let tree = some_program(&mut rng, size);
            if let Err(why) = agreed_execution(&tree, &oracle(rng.byte()), budget(30), StateChecks::EveryState) {
                panic!("program {seed}: {why}");
            }
        }
    });
}

#[test]
fn passed_macros_are_never_stuck() {
    with_large_stack(|| {
        let mut ended = 0;
        let mut events = 0;
        let count = case_count(10_000);
        for seed in 0..count {
            let mut rng = Rng::new(2_000_000 + seed as u64);
            let size = Size { bodies: 1 + rng.below(6), instructions: 5 + rng.below(60), classes: 3 };
            let m = good_macro(&mut rng, size);
            let loaded = judge_macro(&write_macro(&m)).unwrap();
            let reading = oracle(rng.byte());
            let checks = if seed % 4 == 0 { StateChecks::EveryState } else { StateChecks::None };
            let most = if checks == StateChecks::EveryState { 150 } else { 3_000 };
            match walk(&loaded, &mut |k, n| reading(k, n), most, usize::MAX, checks) {
                Ok(w) => {
                    ended += w.end.is_some() as usize;
                    events += w.items.len();
                }
                Err(why) => panic!("macro {seed}: {why}"),
            }
        }
        println!("{ended} of {count} ended, {events} items");
        assert!(ended > count / 3 && ended < count && events > count);
    });
}

/// The generators waste little: nearly everything they make passes before it is filtered.
#[test]
fn generators_make_mostly_valid_things() {
    with_large_stack(|| {
        let mut accepted = 0;
        let mut passed = 0;
        for seed in 0..400 {
            let mut rng = Rng::new(3_000_000 + seed);
            let size = some_size(&mut rng, SIZES);
            let made = plan(&mut rng, size);
            let tree = unfiltered_program(&mut rng, made);
            accepted += judge_table(&bytes_of(&write_tree(&tree))).is_ok() as usize;
            let m = unfiltered_macro(&mut rng, Size { bodies: 4, instructions: 30, classes: 3 });
            passed += judge_macro(&write_macro(&m)).is_ok() as usize;
        }
        println!("accepted {accepted}, passed {passed} of 400");
        assert!(accepted > 280, "{accepted} of 400");
        assert!(passed > 380, "{passed} of 400");
    });
}

/// A loop that is to end by 27 makes records of any class, not always of the first.
#[test]
fn provoked_records_are_of_any_class() {
    with_large_stack(|| {
        // How often such a loop makes records of the class that was made first, second, and so on.
        let mut made = [0usize; 4];
        for seed in 0..1_000 {
            let mut rng = Rng::new(9_000_000 + seed);
            let tree = program(&mut rng, Plan { entries: 200, wild: false, forever: 0, provoke: Some(27) });
            let list = write_tree(&tree);
            let head: Vec<Entry> = tree.root.head.iter().map(|declaration| list[declaration.at]).collect();
            // Where the head has been shuffled, the classes do not stand first and in their order.
            let classes = head.iter().filter(|e| e.kind == 11).count();
            if head.len() < classes + 5 || head[..classes].iter().any(|e| e.kind != 11) {
                continue;
            }
            for loops in list.windows(5) {
                // while true do v := record ..., or assert record ... = null
                if matches!([0, 1, 2, 3, 4].map(|k| loops[k].kind), [24, 41, 21, 44, 47] | [24, 41, 26, 49, 47]) {
                    let class = head.iter().position(|e| *e == Entry { kind: 11, a: loops[4].a, b: e.b });
                    made[class.expect("the class is declared")] += 1;
                }
            }
        }
        println!("{made:?}");
        assert!(made.iter().all(|n| *n > 20), "{made:?}");
    });
}

#[test]
fn tables_read_back_as_they_were_written() {
    with_large_stack(|| {
        for seed in 0..case_count(300) {
            let mut rng = Rng::new(4_000_000 + seed as u64);
            let size = some_size(&mut rng, SIZES);
            let table = bytes_of(&write_tree(&some_program(&mut rng, size)));
            let tree = read_table(&table).unwrap();
            assert_eq!(bytes_of(&write_tree(&tree)), table);
        }
    });
}

/// Runs on bytes are runs of the plain machine, with the state's bytes its encoding.
#[test]
fn runs_on_bytes_are_runs_of_the_machine() {
    with_large_stack(|| {
        let mut refused = 0;
        let mut answered_again = 0;
        for seed in 0..case_count(2_000) {
            let mut rng = Rng::new(5_000_000 + seed as u64);
            let m = if rng.chance(50) {
                good_macro(&mut rng, Size { bodies: 4, instructions: 25, classes: 3 })
            } else {
                let size = 5 + rng.below(60);
                compile(&some_program(&mut rng, size))
            };
            let code = write_macro(&m);
            let loaded = judge_macro(&code).unwrap();
            let mut bytes: Vec<u8> = (0..LENGTH).map(|_| rng.byte()).collect();
            start(&code, &mut bytes).unwrap();
            let mut state = fresh(&m);
            for r in some_runs(&mut rng, 12, 2_000) {
                let before = bytes.clone();
                let ended_before = matches!(state, State::Ended { .. });
                let answer = run_bytes(&code, &mut bytes, &r.bank(), r.allowance);
                let plain = run(&m, &mut state, &r.bank(), r.allowance).unwrap();
                assert_eq!(answer, plain);
                assert_eq!(bytes, encode(&state));
                assert!(sound(&loaded, &state));
                match answer {
                    Answer::Refusal(refusal) => {
                        assert_eq!((refusal.number, refusal.place), (11, 0));
                        assert_ne!(r.length, 64);
                        assert_eq!(bytes, before);
                        refused += 1;
                    }
                    Answer::End { steps, .. } => {
                        assert_eq!(steps == 0, ended_before);
                        answered_again += ended_before as usize;
                    }
                    Answer::AllowanceUsed { steps } => assert_eq!(steps, r.allowance),
                    Answer::Event { steps, .. } => assert!(steps >= 1 && steps <= r.allowance),
                }
            }
        }
        println!("{refused} refused by 11, {answered_again} ends answered again");
        assert!(refused > 0 && answered_again > 0);
    });
}

/// The events that a list of runs answers are those of the tree, whatever the allowances; the
/// oracle is that of the banks used.
#[test]
fn runs_give_the_events_of_the_tree() {
    with_large_stack(|| {
        let mut ended = 0;
        let count = case_count(4_000);
        for seed in 0..count {
            let mut rng = Rng::new(6_000_000 + seed as u64);
            let size = 5 + rng.below(80);
            let tree = some_program(&mut rng, size);
            let m = compile(&tree);
            let bank: Vec<u8> = (0..64).map(|_| rng.byte()).collect();
            let mut state = fresh(&m);
            let mut events = Vec::new();
            let mut end = None;
            let mut steps = 0u64;
            while end.is_none() && steps < 20_000 {
                let allowance = *rng.pick(&[0, 1, 2, 3, 7, 20, 100, 65_535]);
                let answer = run(&m, &mut state, &bank, allowance.min(5_000)).unwrap();
                steps += answer.numbers()[1].max(1);
                match answer {
                    Answer::Event { event, .. } => events.push(event),
                    Answer::End { code, .. } => end = Some(code),
                    _ => {}
                }
            }
            let x = execute(&tree, &mut |_, n| bank[n as usize - 1], budget(20_000));
            let said = x.events();
            if end.is_some() {
                ended += 1;
                assert_eq!((&events, end), (&said, x.end), "program {seed}");
            } else {
                assert!(said.starts_with(&events) || events.starts_with(&said), "program {seed}");
            }
        }
        assert!(ended > count / 2);
    });
}

/// Reading a macro's bytes gives the macro, and its bytes give it back.
#[test]
fn macros_read_back_as_they_were_written() {
    for seed in 0..case_count(300) {
        let mut rng = Rng::new(7_000_000 + seed as u64);
        let m = good_macro(&mut rng, Size { bodies: 5, instructions: 30, classes: 4 });
        let loaded = judge_macro(&write_macro(&m)).unwrap();
        assert_eq!(loaded.code, m);
        assert_eq!(loaded.found.len(), m.code.len());
        let state = fresh(&m);
        assert_eq!(decode(&m, &encode(&state)), Some(state));
    }
}
