//! `cue_run` at every condition and every limit of a run, each by name: what arises at which step, the releases after it, the end.
#![cfg(desk)]

use second::evaluator::answer::{Answer, Event};
use second::evaluator::code::{write_macro, Macro};
use second::evaluator::machine::fresh;
use second::generate::edge_cases::{endless_records, endless_recursion};
use second::generate::notation::{body, code, root_only, shape};
use second::harness::compare_machines::{run, run_along, started};

fn used(steps: u16) -> Answer {
    Answer::AllowanceUsed { steps }
}

fn end(steps: u16, code: u8) -> Answer {
    Answer::End { steps, code }
}

fn release(steps: u16, group: u8) -> Answer {
    Answer::Event { steps, event: Event::Release { group } }
}

/// After two holds these instructions must end by this condition, in the step of the last of them; then the holds are released, the last
/// first, and one more step ends.
fn ends_by(condition: u8, instructions: &str) {
    let list = code(instructions);
    let steps = list.len() as u16;
    // A body does not run past its end, and nothing follows a stop.
    let last = if list[list.len() - 1].op == 20 { "" } else { ", 20 24 0" };
    let m = Macro { classes: vec![vec![1, 16]], ..root_only(&format!("17 0 5, 17 0 9, {instructions}{last}"), vec![]) };
    let bytes = write_macro(&m);
    let mut state = started(&bytes);
    let mut next = |allowance| run(&bytes, &mut state, &[200; 64], allowance);
    assert_eq!(next(9), Answer::Event { steps: 1, event: Event::Hold { group: 5 } });
    assert_eq!(next(9), Answer::Event { steps: 1, event: Event::Hold { group: 9 } });
    assert_eq!(next(steps - 1), used(steps - 1), "{instructions}");
    assert_eq!(next(2), release(2, 9), "{instructions}");
    assert_eq!(next(0), used(0));
    assert_eq!(next(65_535), release(1, 5));
    assert_eq!(next(1), end(1, condition), "{instructions}");
    assert_eq!(next(0), end(0, condition));
    assert_eq!(next(65_535), end(0, condition));
}

/// These instructions go through, up to the stop behind them.
fn goes_through(instructions: &str) {
    ends_by(24, &format!("{instructions}, 20 24 0"));
}

#[test]
fn condition_20_result_outside_32_bits() {
    ends_by(20, "1 0 2147483647, 1 0 1, 7 1 0");
    ends_by(20, "1 0 -2147483648, 1 0 1, 7 2 0");
    ends_by(20, "1 0 65536, 1 0 32768, 7 3 0");
    ends_by(20, "1 0 -2147483648, 1 0 -1, 7 3 0");
    ends_by(20, "1 0 -2147483648, 1 0 -1, 7 4 0");
    ends_by(20, "1 0 -2147483648, 7 20 0");
    ends_by(20, "1 0 -2147483648, 7 21 0");
    goes_through("1 0 2147483646, 1 0 1, 7 1 0");
    goes_through("1 0 -2147483647, 1 0 1, 7 2 0");
    goes_through("1 0 65536, 1 0 -32768, 7 3 0");
    goes_through("1 0 -2147483648, 1 0 -1, 7 5 0");
    goes_through("1 0 -2147483647, 7 21 0");
}

#[test]
fn condition_21_zero_divisor() {
    ends_by(21, "1 0 1, 1 0 0, 7 4 0");
    ends_by(21, "1 0 1, 1 0 0, 7 5 0");
    // before the range
    ends_by(21, "1 0 -2147483648, 1 0 0, 7 4 0");
}

#[test]
fn condition_22_field_of_null() {
    ends_by(22, "4 0 0, 13 0 0");
    ends_by(22, "4 0 0, 13 0 1");
    ends_by(22, "4 0 0, 1 0 7, 14 0 0");
    ends_by(22, "4 0 0, 4 0 0, 14 0 1");
    goes_through("1 0 3, 4 0 0, 12 0 0, 13 0 1");
    ends_by(22, "1 0 3, 4 0 0, 12 0 0, 13 0 1, 13 0 0");
}

#[test]
fn condition_23_assert_false() {
    ends_by(23, "2 0 0, 19 0 0");
    ends_by(23, "1 0 1, 1 0 2, 7 10 0, 19 0 0");
    goes_through("2 0 1, 19 0 0");
}

#[test]
fn condition_24_stop() {
    ends_by(24, "20 24 0");
    ends_by(24, "1 0 1, 2 0 1, 3 0 1, 20 24 0");
}

#[test]
fn condition_28_stop() {
    ends_by(28, "20 28 0");
    ends_by(28, "1 0 1, 2 0 1, 3 0 1, 20 28 0");
}

#[test]
fn condition_25_out_of_range() {
    for (channel, level) in [(0, 0), (513, 0), (-1, 0), (i32::MIN, 0), (65_537, 0), (1, 256), (512, -1), (1, i32::MIN), (1, 65_536), (0, 256)] {
        ends_by(25, &format!("1 0 {channel}, 1 0 {level}, 15 0 0"));
    }
    for fader in [0, 65, -1, 256 + 1, i32::MIN, i32::MAX] {
        ends_by(25, &format!("1 0 {fader}, 16 0 0"));
    }
    goes_through("1 0 1, 16 0 0, 1 0 64, 16 0 0, 7 10 0");
}

/// "channel 512 passes, 513: 25"
#[test]
fn channels_and_levels_that_pass() {
    for (channel, level) in [(1, 0), (512, 255), (1, 255), (512, 0), (256, 128)] {
        let bytes = write_macro(&root_only(&format!("1 0 {channel}, 1 0 {level}, 15 0 0, 0 0 0"), vec![]));
        let mut state = started(&bytes);
        assert_eq!(run(&bytes, &mut state, &[0; 64], 65_535), Answer::Event { steps: 3, event: Event::Set { channel, level } });
        assert_eq!(run(&bytes, &mut state, &[0; 64], 65_535), end(1, 0));
    }
}

/// "33rd open activation, the root counting 1": with 16 holds in each, the 512 are released from the top down.
#[test]
fn condition_26_and_512_holds() {
    for (cells, holds, operands) in [(0, 0, 0), (32, 16, 32), (1, 16, 0), (0, 1, 31)] {
        let m = endless_recursion(cells, holds, operands);
        let bytes = write_macro(&m);
        let mut machine = fresh(&m);
        let mut state = started(&bytes);
        let mut next = |allowance| run_along(&m, &bytes, &mut machine, &mut state, &[0; 64], allowance);
        for level in 0..32 {
            for hold in 0..holds {
                // The call before the first hold, with the operands before it.
                let steps = if hold > 0 || level == 0 { 1 } else { operands as u16 + 2 };
                assert_eq!(next(65_535), Answer::Event { steps, event: Event::Hold { group: 63 - hold as u8 } });
            }
        }
        // With no holds nothing has happened yet: 31 calls go, each behind its operands.
        let before = if holds == 0 { 32 * operands as u16 + 31 } else { operands as u16 };
        assert_eq!(next(before), used(before));
        // The 32nd call is the condition's step.
        assert_eq!(next(1), used(1));
        for _ in 0..32 {
            for hold in (0..holds).rev() {
                assert_eq!(next(65_535), release(1, 63 - hold as u8));
            }
        }
        assert_eq!(next(65_535), end(1, 26));
    }
}

/// The 32nd activation may return, and be entered again.
#[test]
fn thirty_two_activations_and_back() {
    // Body 1 counts down and calls itself while the count is not 0: the root calls it with 30, and then with 31.
    for (count, wanted) in [(30, 0), (31, 26)] {
        let m = Macro {
            classes: vec![],
            bodies: vec![body(0, 0, 0, &[1]), body(4, 1, 1, &[1])],
            code: code(&format!(
                "1 0 {count}, 10 0 1, 6 0 0, 0 0 0,
                 5 0 0, 1 0 0, 7 10 0, 9 0 10, 1 0 77, 11 0 0, 5 0 0, 1 0 1, 7 2 0, 10 0 1, 11 0 0"
            )),
            shapes: vec![shape(10, 0, &[])],
        };
        let bytes = write_macro(&m);
        let mut state = started(&bytes);
        let mut machine = fresh(&m);
        let answer = loop {
            match run_along(&m, &bytes, &mut machine, &mut state, &[0; 64], 7) {
                Answer::AllowanceUsed { .. } => {}
                answer => break answer,
            }
        };
        assert!(matches!(answer, Answer::End { code, .. } if code == wanted), "{answer:?}");
    }
}

/// "256 records pass", and the 257th is the condition.
#[test]
fn condition_27_the_257th_record() {
    for integers in [0, 7] {
        let m = endless_records(integers);
        let bytes = write_macro(&m);
        let mut state = started(&bytes);
        // A round: the values, the reference, the making, the storing, the jump.
        let round = integers as u16 + 4;
        for made in 1..=256 {
            assert_eq!(run(&bytes, &mut state, &[0; 64], round), used(round));
            assert_eq!((state[4] as usize, state[5] as usize), (made % 256, made / 256));
        }
        assert_eq!(run(&bytes, &mut state, &[0; 64], round - 3), used(round - 3));
        assert_eq!(run(&bytes, &mut state, &[0; 64], 1), used(1));
        assert_eq!(run(&bytes, &mut state, &[0; 64], 1), end(1, 27));
    }
}

/// 32 operands, 32 cells, 16 holds in one activation.
#[test]
fn a_body_at_its_limits() {
    let pushes: Vec<String> = (0..32).map(|n| format!("1 0 {n}")).collect();
    let stores: Vec<String> = (0..32).map(|n| format!("6 0 {n}")).collect();
    let loads: Vec<String> = (0..32).rev().map(|n| format!("5 1 {n}")).collect();
    let adds = vec!["7 1 0".to_string(); 31];
    let all = [pushes, stores, loads, adds, vec!["1 0 9, 15 0 0, 0 0 0".to_string()]].concat().join(",");
    let m = Macro { bodies: vec![body(0, 0, 0, &[1; 32])], ..root_only(&all, vec![]) };
    let bytes = write_macro(&m);
    for slice in [1, 5, 32, 65_535] {
        let mut state = started(&bytes);
        let answer = loop {
            match run(&bytes, &mut state, &[0; 64], slice) {
                Answer::AllowanceUsed { .. } => {}
                answer => break answer,
            }
        };
        // 0 + 1 + ... + 31
        assert!(matches!(answer, Answer::Event { event: Event::Set { channel: 496, level: 9 }, .. }), "{answer:?}");
    }
}
