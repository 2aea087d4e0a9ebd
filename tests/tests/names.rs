//! Names, types and reach: which number at which entry, sentence by sentence of paper 01 (the decided
//! points are in desk_check_decisions.rs); and generated damage, which is judged without ever failing.

use second::evaluator::names::judge_table;
use second::evaluator::table::{bytes_of, read_table, write_tree};
use second::generate::damaged_entries::damaged_table;
use second::generate::judged_tables::{judged_table, refused_table};
use second::generate::programs::some_program;
use second::generate::rng::Rng;
use second::harness::setup::{case_count, with_large_stack};
use second::harness::verdicts::{judged, verdict};

/// "inner before outer, left to right"
#[test]
fn the_first_fault_in_postorder() {
    // the undefined variable 2 (entry 5) is inside the wrong + (entry 4)
    assert_eq!(verdict("1 1 1, 10 1 1, 21 0 0, 44 1 0, 49 1 0, 44 2 0, 41 0 1"), (3, 5));
    // the target before the value
    assert_eq!(verdict("1 0 1, 21 0 0, 44 1 0, 44 2 0"), (3, 2));
    // a procedure's body before the procedure itself: twice at entry 3, but inside it a goto
    assert_eq!(verdict("1 2 0, 12 1 0, 1 0 0, 12 1 0, 25 9 0"), (3, 4));
    assert_eq!(verdict("1 2 0, 12 1 0, 1 0 0, 12 1 0, 1 0 0"), (3, 3));
    // statement operands before the statement's own fault
    assert_eq!(verdict("1 0 1, 22 0 0, 40 0 1, 25 4 0"), (3, 3));
    assert_eq!(verdict("1 0 1, 22 0 0, 40 0 1, 1 0 0"), (4, 1));
}

/// "among that entry's faults the least number"
#[test]
fn the_least_number_at_one_entry() {
    // a procedure that is twice and whose body has the wrong type
    assert_eq!(verdict("1 2 0, 10 1 1, 12 1 1, 41 0 1"), (3, 2));
    // an undefined function with wrong arguments
    assert_eq!(verdict("1 0 1, 27 1 1, 40 0 1"), (3, 1));
}

/// "a procedure sees its own names and the root's"
#[test]
fn what_a_procedure_sees() {
    assert_eq!(verdict("1 2 0, 10 1 1, 12 2 0, 21 0 0, 44 1 0, 40 0 1"), (0, 0));
    // a variable of a block inside the root is not the root's
    assert_eq!(verdict("1 1 1, 12 2 0, 21 0 0, 44 1 0, 40 0 1, 1 1 0, 10 1 1"), (3, 3));
    // nor is another procedure's parameter
    assert_eq!(verdict("1 2 0, 12 2 256, 10 1 1, 1 0 0, 12 3 0, 21 0 0, 44 1 0, 40 0 1"), (3, 6));
    // a parameter hides the root's variable, and the procedure's own name
    assert_eq!(verdict("1 1 0, 12 1 257, 10 1 1, 44 1 0"), (0, 0));
    assert_eq!(verdict("1 1 0, 12 1 257, 10 1 1, 45 1 1, 40 0 1"), (4, 3));
}

/// "A type 65,536 + n: n is looked up from the block in whose head the kind 10 stands".
#[test]
fn types_that_name_classes() {
    let class = "11 1 1, 10 2 1";
    assert_eq!(verdict(&format!("1 2 0, {class}, 10 3 65537")), (0, 0));
    assert_eq!(verdict(&format!("1 2 0, {class}, 10 3 65538")), (4, 3));
    assert_eq!(verdict(&format!("1 2 0, {class}, 10 3 65540")), (3, 3));
    // a parameter is looked up from its parameter block
    assert_eq!(verdict(&format!("1 2 0, {class}, 12 3 256, 10 1 65537, 1 0 0")), (4, 4));
    assert_eq!(verdict(&format!("1 2 0, {class}, 12 3 256, 10 4 65537, 1 0 0")), (0, 0));
    // null and record look the class up where they stand
    assert_eq!(verdict(&format!("1 1 1, {class}, 1 1 1, 10 1 1, 26 0 0, 49 10 0, 43 1 0, 43 1 0")), (4, 7));
    assert_eq!(verdict(&format!("1 1 1, {class}, 26 0 0, 49 10 0, 43 1 0, 47 1 1, 40 0 1")), (0, 0));
    assert_eq!(verdict(&format!("1 1 1, {class}, 26 0 0, 49 10 0, 43 1 0, 47 1 1, 41 0 1")), (4, 6));
    assert_eq!(verdict(&format!("1 1 1, {class}, 26 0 0, 49 10 0, 43 1 0, 47 1 0")), (4, 6));
}

#[test]
fn calls() {
    let head = "12 1 256, 10 5 1, 1 0 0, 12 2 258, 10 5 2, 44 5 0";
    let call = |text: &str| verdict(&format!("1 2 1, {head}, {text}"));
    assert_eq!(call("27 1 1, 40 0 1"), (0, 0));
    assert_eq!(call("27 1 1, 41 0 1"), (4, 7));
    assert_eq!(call("27 1 0"), (4, 7));
    assert_eq!(call("27 1 2, 40 0 1, 40 0 1"), (4, 7));
    assert_eq!(call("27 2 1, 41 0 1"), (4, 7));
    assert_eq!(call("26 0 0, 45 2 1, 41 0 1"), (0, 0));
    assert_eq!(call("26 0 0, 45 2 1, 40 0 1"), (4, 8));
    assert_eq!(call("26 0 0, 45 1 1, 40 0 1"), (4, 8));
    assert_eq!(call("26 0 0, 44 2 0"), (4, 8));
}

#[test]
fn gotos() {
    // a sibling's label: 3
    assert_eq!(verdict("1 0 2, 1 0 1, 20 1 0, 25 1 0"), (3, 3));
    // out of loops, arms and blocks, freely
    assert_eq!(
        verdict("1 0 2, 24 0 0, 41 0 1, 30 1 0, 40 0 1, 22 0 0, 41 0 1, 1 0 1, 25 1 0, 20 1 0"),
        (0, 0)
    );
    // into a block: not visible
    assert_eq!(verdict("1 0 2, 25 1 0, 1 0 1, 20 1 0"), (3, 1));
    // a block inside a block expression still may not leave it
    assert_eq!(verdict("1 0 2, 20 1 0, 26 0 0, 53 0 1, 1 0 1, 25 1 0, 41 0 1"), (5, 5));
    // a label between: the inner one is found, on this side of the boundary
    assert_eq!(verdict("1 0 2, 20 1 0, 26 0 0, 53 0 2, 20 1 0, 1 0 1, 25 1 0, 41 0 1"), (0, 0));
}

/// "Types must be identical", operator by operator.
#[test]
fn operand_types() {
    let of = ["40 0 1", "41 0 1", "42 0 1", "43 1 0"];
    let mut fit = Vec::new();
    for operator in 1..=15 {
        for (i, x) in of.iter().enumerate() {
            for (j, y) in of.iter().enumerate() {
                // = of the result with itself, so that any type is taken by the assert
                let e = format!("49 {operator} 0, {x}, {y}");
                let (number, place) = verdict(&format!("1 1 1, 11 1 1, 10 2 1, 26 0 0, 49 10 0, {e}, {e}"));
                if number == 0 {
                    fit.push((operator, i, j));
                } else {
                    assert_eq!((number, place), (4, 5));
                }
            }
        }
    }
    let mut asked = Vec::new();
    for operator in 1..=15 {
        match operator {
            1..=9 => asked.push((operator, 0, 0)),
            10 | 11 => asked.extend([(operator, 0, 0), (operator, 1, 1), (operator, 2, 2), (operator, 3, 3)]),
            12 | 13 => asked.extend([(operator, 1, 1), (operator, 2, 2)]),
            _ => asked.push((operator, 2, 0)),
        }
    }
    assert_eq!(fit, asked);
    for (operator, right) in [(20, [true, false, false, false]), (21, [true, false, false, false]), (22, [false, true, true, false])] {
        for (x, fits) in of.iter().zip(right) {
            let e = format!("48 {operator} 0, {x}");
            let number = verdict(&format!("1 1 1, 11 1 1, 10 2 1, 26 0 0, 49 10 0, {e}, {e}")).0;
            assert_eq!(number == 0, fits, "{operator} {x}");
        }
    }
}

/// Where each kind may stand.
#[test]
fn kinds_in_their_places() {
    // a label as an arm, a body or a loop's statement
    assert_eq!(verdict("1 0 1, 24 0 0, 41 0 1, 20 1 0"), (2, 3));
    assert_eq!(verdict("1 0 1, 30 1 0, 40 0 1, 20 1 0"), (2, 3));
    assert_eq!(verdict("1 1 0, 12 1 0, 20 1 0"), (2, 2));
    // a statement for an expression, an expression for a statement, a declaration for either
    assert_eq!(verdict("1 0 1, 26 0 0, 25 1 0"), (2, 2));
    assert_eq!(verdict("1 0 1, 40 0 1"), (2, 1));
    assert_eq!(verdict("1 0 1, 10 1 1"), (2, 1));
    assert_eq!(verdict("1 1 0, 25 1 0"), (2, 1));
    // a hold as a field or a parameter
    assert_eq!(verdict("1 1 0, 11 1 1, 14 1 0"), (2, 2));
    assert_eq!(verdict("1 1 0, 12 1 256, 14 1 0, 1 0 0"), (2, 2));
    // a root that is no block; what comes behind the root
    assert_eq!(verdict("53 0 0, 40 0 1"), (2, 0));
    assert_eq!(verdict("1 0 2, 1 0 0"), (2, 2));
    // a target's own operand may be anything
    assert_eq!(verdict("1 0 1, 21 0 0, 46 1 0, 40 0 1, 40 0 1"), (3, 2));
}

/// A kind that paper 01 does not name reads nowhere, and each named one only as its sort.
#[test]
fn every_kind_everywhere() {
    let statements = [1, 20, 21, 22, 23, 24, 25, 26, 27, 28, 30, 31];
    let declarations = [10, 11, 12, 14];
    let expressions = [40, 41, 42, 43, 44, 45, 46, 47, 48, 49, 50, 51, 53];
    for kind in (0..400).chain([65_535]) {
        // An entry that reads if its kind does: what is missing behind it shows at a later place.
        let a = match kind {
            30 => 1,
            48 => 20,
            49 => 1,
            1 | 10 | 11 | 12 | 14 | 20 | 25 | 27 | 31 | 43..=47 | 53 => 1,
            _ => 0,
        };
        let b = i32::from(matches!(kind, 10 | 11));
        let refused_at = |text: String, at: usize| verdict(&text) == (2, at);
        assert_eq!(refused_at(format!("1 0 1, {kind} {a} {b}"), 1), !statements.contains(&kind), "statement {kind}");
        assert_eq!(refused_at(format!("1 1 0, {kind} {a} {b}"), 1), !declarations.contains(&kind), "declaration {kind}");
        assert_eq!(refused_at(format!("1 0 1, 26 0 0, {kind} {a} {b}"), 2), !expressions.contains(&kind), "expression {kind}");
        assert_eq!(refused_at(format!("1 0 1, 21 0 0, {kind} {a} {b}"), 2), !matches!(kind, 44 | 46), "target {kind}");
        assert_eq!(refused_at(format!("{kind} 1 {b}"), 0), kind != 1, "root {kind}");
    }
}

/// 2 comes before every 3, 4, 5; all of these before 6.
#[test]
fn two_before_three_before_six() {
    assert_eq!(verdict("1 0 2, 25 9 0, 99 0 0"), (2, 2));
    let mut text = String::from("1 33 1");
    for i in 0..33 {
        text.push_str(&format!(", 10 {i} 1"));
    }
    assert_eq!(verdict(&format!("{text}, 25 40 0")), (3, 34));
    assert_eq!(verdict(&format!("{text}, 1 0 0")), (6, 0));
}

/// Damaged tables: judging is total, a place is an entry (or the count), and an accepted
/// table is the table of its tree.
#[test]
fn damaged_tables_are_judged() {
    with_large_stack(|| {
        let mut tally = [0usize; 7];
        let count = case_count(20_000);
        for seed in 0..count {
            let mut rng = Rng::new(8_000_000 + seed as u64);
            let size = 4 + rng.below(60);
            let valid = write_tree(&some_program(&mut rng, size));
            let bytes = damaged_table(&mut rng, &valid);
            match judge_table(&bytes) {
                Ok(tree) => {
                    tally[0] += 1;
                    assert_eq!(bytes_of(&write_tree(&tree)), bytes);
                }
                Err(refusal) => {
                    tally[refusal.number as usize] += 1;
                    let entry_count = bytes.len() / 8;
                    match refusal.number {
                        1 => assert_eq!(refusal.place, 0),
                        2 => assert!(refusal.place <= entry_count),
                        _ => assert!(refusal.place < entry_count && read_table(&bytes).is_ok()),
                    }
                }
            }
        }
        println!("{tally:?}");
        if count >= 4_000 {
            assert!(tally[..6].iter().all(|n| *n > 0), "{tally:?}");
        }
    });
}

#[test]
fn tables_made_to_be_refused_are_refused() {
    with_large_stack(|| {
        for number in 1..=6 {
            let mut rng = Rng::new(number as u64);
            let mut hits = 0;
            for _ in 0..60 {
                hits += (judged(&refused_table(&mut rng, number)).0 == number) as usize;
            }
            assert!(hits > 20, "{number}: {hits} of 60");
            assert_eq!(judged(&judged_table(&mut rng, number, 30)).0, number);
        }
        assert_eq!(judged(&judged_table(&mut Rng::new(0), 0, 30)), (0, 0));
    });
}
