//! Macro records (8, with the record's number) and loading rules (9, with the lowest faulty
//! address), sentence by sentence; and generated damage.

use second::evaluator::code::*;
use second::generate::macros::{damaged_macro, disordered_macro, good_macro, Size};
use second::generate::notation::{body, code, root_only, shape};
use second::generate::rng::Rng;
use second::generate::runs::oracle;
use second::harness::compare_tree_and_code::{walk, StateChecks};
use second::harness::setup::{case_count, with_large_stack};
use second::harness::verdicts::{loaded, loads};
use second::plain;

/// Two classes, the root with an integer and a reference, a function of one integer.
fn sample() -> Macro {
    Macro {
        classes: vec![vec![1, 17], vec![2]],
        bodies: vec![body(0, 0, 0, &[1, 16]), body(6, 1, 1, &[1, 2])],
        code: code("1 0 3, 10 0 1, 6 0 0, 4 1 0, 9 0 0, 0 0 0, 5 0 0, 11 0 0"),
        shapes: vec![],
    }
}

/// The same with a logical for op 9, a jump to address 5 and an SH there: it passes.
fn mended_sample() -> Macro {
    let mut m = sample();
    m.code[3] = Instr { op: 2, a: 0, b: 1 };
    m.code[4].b = 5;
    m.shapes.push(shape(5, 0, &[]));
    m
}

#[test]
fn a_sample_that_needs_mending() {
    // op 9 on a reference
    assert_eq!(loads(&sample()), (9, 4));
    let mut m = sample();
    m.code[3] = Instr { op: 2, a: 0, b: 1 };
    // no SH at the jump's target
    assert_eq!(loads(&m), (9, 4));
    let mut m = mended_sample();
    assert_eq!(loads(&m), (0, 0));
    // a jump out of the body
    m.code[4].b = 6;
    assert_eq!(loads(&m), (9, 4));
}

/// The place of 8: the record's number.
#[test]
fn records_that_do_not_read() {
    let good = write_records(&mended_sample());
    let n = good.len();
    // every mark, and every record cut short at every place
    for i in 0..n {
        let mut records = good.clone();
        records[i][1] = b'Q';
        assert_eq!(loaded(&records.concat()), (8, i));
        for length in 0..good[i].len() {
            let mut records = good[..=i].to_vec();
            records[i].truncate(length);
            assert_eq!(loaded(&records.concat()), (8, i));
        }
    }
    // bytes behind ZZ
    let mut bytes = good.concat();
    bytes.push(0);
    assert_eq!(loaded(&bytes), (8, n));
    // a record missing: the next one's mark or length is wrong at its place
    let mut records = good.clone();
    records.remove(1);
    assert_eq!(loaded(&records.concat()), (8, 2));
    // counts that lie
    for (k, place) in [(2, 3), (3, 5), (4, 13), (6, 14)] {
        let mut records = good.clone();
        records[0][k] += 1;
        assert_eq!(loaded(&records.concat()), (8, place), "count at {k}");
    }
    assert_eq!(loaded(&[]), (8, 0));
}

#[test]
fn counts_types_and_addresses_that_do_not_read() {
    let change = |how: &dyn Fn(&mut Macro)| {
        let mut m = mended_sample();
        how(&mut m);
        loads(&m)
    };
    // type bytes: 0, 4, 15, a class that is not there
    for byte in [0, 4, 15, 18, 32, 255] {
        assert_eq!(change(&|m| m.classes[1][0] = byte), (8, 2));
        assert_eq!(change(&|m| m.bodies[0].cells[0] = byte), (8, 3));
        assert_eq!(change(&|m| m.shapes[0].types.push(byte)), (8, 13));
        if byte != 0 {
            assert_eq!(change(&|m| m.bodies[1].result = byte), (8, 4));
        }
    }
    // a class may name a later class
    assert_eq!(change(&|m| m.classes[0][0] = 17), (0, 0));
    // more parameters than cells
    assert_eq!(change(&|m| m.bodies[1].parameters = 3), (8, 4));
    // first addresses
    assert_eq!(change(&|m| m.bodies[0].first = 1), (8, 3));
    assert_eq!(change(&|m| m.bodies[1].first = 0), (8, 4));
    assert_eq!(change(&|m| m.bodies[1].first = 8), (8, 4));
    // shapes
    assert_eq!(change(&|m| m.shapes[0].address = 8), (8, 13));
    assert_eq!(change(&|m| m.shapes.push(shape(5, 0, &[]))), (8, 14));
    // no instructions at all: the root's first address names nothing
    assert_eq!(loads(&root_only("", vec![])), (8, 1));
}

/// One op after the other with every a and b that is out of range or unused and not 0.
#[test]
fn operands_of_ops() {
    let one = |text: &str| loads(&root_only(&format!("{text}, 20 24 0"), vec![]));
    for good in ["1 0 -5", "2 0 0", "2 0 1", "3 0 -1", "17 0 0", "17 0 63", "20 24 0", "20 28 0"] {
        let expected = if good.starts_with("20") { (9, 0) } else { (0, 0) };
        // op 20 without an SH behind it is a fault at the op
        assert_eq!(one(good), expected, "{good}");
    }
    for bad in [
        "0 1 0", "0 0 1", "1 1 0", "2 1 0", "2 0 2", "2 0 -1", "3 1 0", "4 0 0", "5 0 0", "5 1 0", "5 2 0", "6 0 0", "7 1 0",
        "7 0 0", "8 0 1", "9 0 1", "10 0 0", "10 0 1", "11 0 0", "12 0 0", "13 0 0", "14 0 0", "15 0 0", "16 0 0", "17 0 64",
        "17 0 -1", "17 1 0", "18 0 0", "19 0 0", "20 0 0", "20 1 0", "20 24 1", "21 0 0", "255 0 0",
    ] {
        assert_eq!(one(bad), (9, 0), "{bad}");
    }
    // unused fields of the rest, behind what they need
    let behind = |before: &str, op: &str| loads(&root_only(&format!("{before}, {op}, 20 24 0"), vec![]));
    for (before, good, bads) in [
        ("1 0 1, 1 0 1", "7 1 0", vec!["7 1 1", "7 14 0", "7 22 0", "7 23 0", "7 16 0"]),
        ("1 0 1, 1 0 1", "15 0 0", vec!["15 1 0", "15 0 1"]),
        ("1 0 1, 1 0 1", "16 0 0", vec!["16 1 0", "16 0 1"]),
        ("17 0 5, 2 0 1", "18 0 0", vec!["18 1 0", "18 0 1"]),
        ("17 0 5, 2 0 1", "19 0 0", vec!["19 1 0", "19 0 1"]),
    ] {
        assert_eq!(behind(before, good), (0, 0), "{good}");
        for bad in bads {
            assert_eq!(behind(before, bad), (9, 2), "{bad}");
        }
    }
}

/// "Op 20 stops by its a, 24 or 28." (paper 02, ticket 1): any other a, that of older macros too, is a fault at the op; the last of a body
/// and one with an SH behind it.
#[test]
fn stops_by_their_a() {
    let judged = |text: String, shapes: Vec<Shape>| {
        let m = root_only(&text, shapes);
        let verdict = loads(&m);
        assert_eq!(plain::loader::load(&write_macro(&m)), verdict, "the plain loader: {text}");
        verdict
    };
    for a in 0..=255 {
        let expected = if a == 24 || a == 28 { (0, 0) } else { (9, 1) };
        assert_eq!(judged(format!("1 0 1, 20 {a} 0"), vec![]), expected, "{a}");
        assert_eq!(judged(format!("1 0 1, 20 {a} 0, 0 0 0"), vec![shape(2, 0, &[])]), expected, "{a}");
    }
    for b in [1, -1, 24, 28, i32::MIN] {
        assert_eq!(judged(format!("1 0 1, 20 24 {b}"), vec![]), (9, 1));
        assert_eq!(judged(format!("1 0 1, 20 28 {b}"), vec![]), (9, 1));
    }
}

#[test]
fn classes_in_code() {
    let with = |text: &str| {
        let mut m = root_only(text, vec![]);
        m.classes = vec![vec![1, 17], vec![2]];
        loads(&m)
    };
    // the first field's value is deepest
    assert_eq!(with("1 0 5, 4 1 0, 12 0 0, 13 0 1, 13 1 0, 19 0 0, 0 0 0"), (0, 0));
    assert_eq!(with("4 1 0, 1 0 5, 12 0 0, 20 24 0"), (9, 2));
    // reference below value
    assert_eq!(with("4 0 0, 1 0 5, 14 0 0, 0 0 0"), (0, 0));
    assert_eq!(with("1 0 5, 4 0 0, 14 0 0, 0 0 0"), (9, 2));
    // a field or class that is not there, another class's reference
    assert_eq!(with("4 0 0, 13 0 2, 20 24 0"), (9, 1));
    assert_eq!(with("4 0 0, 13 0 -1, 20 24 0"), (9, 1));
    assert_eq!(with("4 0 0, 13 1 0, 20 24 0"), (9, 1));
    assert_eq!(with("4 2 0, 20 24 0"), (9, 0));
    assert_eq!(with("4 0 1, 20 24 0"), (9, 0));
    assert_eq!(with("2 0 1, 12 1 1, 20 24 0"), (9, 1));
    assert_eq!(with("2 0 1, 12 2 0, 20 24 0"), (9, 1));
    // = of two references of one class, not of two
    assert_eq!(with("4 0 0, 4 0 0, 7 10 0, 20 24 0"), (0, 0));
    assert_eq!(with("4 0 0, 4 1 0, 7 10 0, 20 24 0"), (9, 2));
}

#[test]
fn cells_of_the_root_and_own() {
    let mut m = Macro {
        classes: vec![],
        bodies: vec![body(0, 0, 0, &[2]), body(3, 0, 0, &[1, 3])],
        code: code("5 1 0, 6 0 0, 0 0 0, 5 1 0, 19 0 0, 5 0 1, 6 0 1, 11 0 0"),
        shapes: vec![],
    };
    // "Ops 5 and 6 with a = 1 may stand in the root."
    assert_eq!(loads(&m), (0, 0));
    m.code[5] = Instr { op: 5, a: 1, b: 1 };
    assert_eq!(loads(&m), (9, 5));
    m.code[5] = Instr { op: 5, a: 0, b: 0 };
    assert_eq!(loads(&m), (9, 6));
    m.code[5] = Instr { op: 5, a: 2, b: 1 };
    assert_eq!(loads(&m), (9, 5));
}

#[test]
fn shapes_and_jumps() {
    // "At an SH the state equals it": the fault is at the SH
    assert_eq!(loads(&root_only("1 0 1, 20 24 0", vec![shape(1, 0, &[1])])), (0, 0));
    assert_eq!(loads(&root_only("1 0 1, 20 24 0", vec![shape(1, 0, &[2])])), (9, 1));
    assert_eq!(loads(&root_only("1 0 1, 20 24 0", vec![shape(1, 1, &[1])])), (9, 1));
    // also at a first address
    assert_eq!(loads(&root_only("0 0 0", vec![shape(0, 0, &[])])), (0, 0));
    assert_eq!(loads(&root_only("20 24 0", vec![shape(0, 1, &[])])), (9, 0));
    // a jump to a first address needs an SH there
    assert_eq!(loads(&root_only("8 0 0", vec![shape(0, 0, &[])])), (0, 0));
    assert_eq!(loads(&root_only("8 0 0", vec![])), (9, 0));
    // a jump with another state: the fault is at the jump
    assert_eq!(loads(&root_only("17 0 1, 8 0 2, 20 24 0", vec![shape(2, 1, &[])])), (0, 0));
    assert_eq!(loads(&root_only("17 0 1, 8 0 2, 20 24 0", vec![shape(2, 2, &[])])), (9, 1));
    // addresses that are none
    for target in ["-1", "1", "65536", "2147483647", "-2147483648"] {
        assert_eq!(loads(&root_only(&format!("8 0 {target}"), vec![shape(0, 0, &[])])), (9, 0), "{target}");
    }
    // "A jump stays in its body": not into the one before, nor the one behind, SH or not
    let mut m = root_only("8 0 0, 8 0 1", vec![shape(0, 0, &[]), shape(1, 0, &[])]);
    m.bodies.push(body(1, 0, 0, &[]));
    assert_eq!(loads(&m), (0, 0));
    m.code[1].b = 0;
    assert_eq!(loads(&m), (9, 1));
    m.code[0].b = 1;
    assert_eq!(loads(&m), (9, 0));
    // "After ops 0, 8, 11, 20 comes an SH or the body's end": the fault is at the op
    assert_eq!(loads(&root_only("20 24 0, 0 0 0", vec![])), (9, 0));
    assert_eq!(loads(&root_only("20 24 0, 0 0 0", vec![shape(1, 0, &[])])), (0, 0));
    assert_eq!(loads(&root_only("0 0 0, 18 0 0, 0 0 0", vec![shape(1, 1, &[])])), (0, 0));
    // "Code after 0, 8, 11, 20 is judged from its SH, reached or not"
    assert_eq!(loads(&root_only("0 0 0, 18 0 0, 0 0 0", vec![shape(1, 0, &[])])), (9, 1));
    // "no body runs past its end": the last op
    assert_eq!(loads(&root_only("1 0 1", vec![])), (9, 0));
    assert_eq!(loads(&root_only("2 0 1, 9 0 0", vec![shape(0, 0, &[])])), (9, 1));
    // the lowest address that has a fault
    assert_eq!(loads(&root_only("1 0 1, 1 0 1, 20 24 0, 99 0 0", vec![shape(2, 0, &[1])])), (9, 2));
}

#[test]
fn ends_and_returns() {
    // op 0: root only, empty stack, no holds
    assert_eq!(loads(&root_only("1 0 1, 0 0 0", vec![])), (9, 1));
    assert_eq!(loads(&root_only("17 0 1, 0 0 0", vec![])), (9, 1));
    assert_eq!(loads(&root_only("17 0 1, 18 0 0, 0 0 0", vec![])), (0, 0));
    assert_eq!(loads(&root_only("18 0 0, 0 0 0", vec![])), (9, 0));
    // op 11: procedures only, exactly the result, no holds
    let procedure = |result: u8, text: &str| {
        let mut m = root_only(&format!("0 0 0, {text}"), vec![]);
        m.bodies.push(body(1, 0, result, &[]));
        loads(&m)
    };
    assert_eq!(procedure(0, "11 0 0"), (0, 0));
    assert_eq!(procedure(0, "0 0 0"), (9, 1));
    assert_eq!(procedure(1, "11 0 0"), (9, 1));
    assert_eq!(procedure(1, "1 0 4, 11 0 0"), (0, 0));
    assert_eq!(procedure(1, "2 0 1, 11 0 0"), (9, 2));
    assert_eq!(procedure(1, "1 0 4, 1 0 4, 11 0 0"), (9, 3));
    assert_eq!(procedure(0, "17 0 4, 11 0 0"), (9, 2));
    assert_eq!(procedure(0, "20 24 0"), (0, 0));
    // the root with parameters or a result: at its first address
    let mut m = root_only("0 0 0", vec![]);
    m.bodies[0] = body(0, 1, 0, &[1]);
    assert_eq!(loads(&m), (9, 0));
    m.bodies[0] = body(0, 0, 1, &[1]);
    assert_eq!(loads(&m), (9, 0));
}

#[test]
fn calls_in_code() {
    let with = |text: &str| {
        let mut m = root_only(&format!("{text}, 0 0 0"), vec![]);
        let first = m.code.len() as u16;
        m.bodies.push(body(first, 2, 3, &[1, 2, 1]));
        m.code.extend(code("3 0 7, 11 0 0"));
        m.bodies[0].cells = vec![3];
        loads(&m)
    };
    // the first argument deepest; a result of any type
    assert_eq!(with("1 0 1, 2 0 1, 10 0 1, 6 0 0"), (0, 0));
    assert_eq!(with("2 0 1, 1 0 1, 10 0 1, 6 0 0"), (9, 2));
    assert_eq!(with("2 0 1, 10 0 1, 6 0 0"), (9, 1));
    assert_eq!(with("1 0 1, 2 0 1, 10 0 0, 6 0 0"), (9, 2));
    assert_eq!(with("1 0 1, 2 0 1, 10 0 2, 6 0 0"), (9, 2));
    assert_eq!(with("1 0 1, 2 0 1, 10 1 1, 6 0 0"), (9, 2));
}

/// Macros that passed until their shapes were taken out of order: 8 at the first that is not above the one before it.
#[test]
fn shapes_out_of_order() {
    let (mut falling, mut equal) = (0, 0);
    let count = case_count(10_000);
    for seed in 0..count {
        let mut rng = Rng::new(9_500_000 + seed as u64);
        let mut m = disordered_macro(&mut rng, Size { bodies: 3, instructions: 12, classes: 2 }, 60);
        let later = (1..m.shapes.len()).find(|&k| m.shapes[k].address <= m.shapes[k - 1].address).expect("they do not rise");
        assert_eq!(loads(&m), (8, 1 + m.classes.len() + m.bodies.len() + m.code.len() + later), "{m:?}");
        if m.shapes[later].address == m.shapes[later - 1].address {
            equal += 1;
        } else {
            m.shapes.sort_by_key(|s| s.address);
            assert_eq!(loads(&m), (0, 0), "{m:?}");
            falling += 1;
        }
    }
    // Only many cases can be asked to be spread.
    assert!(count < 1_000 || falling.min(equal) > count / 4, "{falling} fall, {equal} are equal");
}

/// Damaged macros: judging is total, places are in range, and whatever still passes is never
/// stuck and passes only sound states.
#[test]
fn damaged_macros_are_judged() {
    with_large_stack(|| {
        let mut tally = [0usize; 3];
        let count = case_count(20_000);
        for seed in 0..count {
            let mut rng = Rng::new(9_000_000 + seed as u64);
            let size = Size { bodies: 4, instructions: 4 + rng.below(30), classes: 3 };
            let good = good_macro(&mut rng, size);
            let bytes = damaged_macro(&mut rng, &good);
            match judge_macro(&bytes) {
                Ok(l) => {
                    tally[0] += 1;
                    assert_eq!(write_macro(&l.code), bytes);
                    if let Err(why) = walk(&l, &mut oracle(rng.byte()), 60, usize::MAX, StateChecks::EveryState) {
                        panic!("macro {seed}: {why}");
                    }
                }
                Err(refusal) => {
                    assert!(refusal.number == 8 || refusal.number == 9);
                    tally[refusal.number as usize - 7] += 1;
                    if refusal.number == 9 {
                        assert!(refusal.place < read_macro(&bytes).unwrap().code.len());
                    }
                }
            }
        }
        println!("{tally:?}");
        // Only many cases can be asked to be spread.
        assert!(count < 1_000 || tally.iter().all(|n| *n > count / 10), "{tally:?}");
    });
}
