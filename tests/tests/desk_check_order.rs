//! Which of two faults in one table `cue_check` tells: 2 before all others, then the first in postorder, at one
//! entry the least of 3, 4, 5, then 6, procedures first. Every two of a list of faults, in every two places.
#![cfg(desk)]

use second::generate::notation::entries;
use second::harness::verdicts::verdict;

/// A statement with one fault: its number, its entry counted from the statement, and the statement. The root
/// has a variable 1 and a label 5.
struct Fault {
    number: u8,
    at: usize,
    text: String,
}

fn faults() -> Vec<Fault> {
    // What is over a limit: a need of 33, 33 variables, 17 holds, 11 loops.
    let needy = format!("28 0 0, 40 0 1, {} 40 0 1", "49 1 0, 40 0 1,".repeat(31));
    let variables: String = (100..133).map(|name| format!(", 10 {name} 1")).collect();
    let loops = format!("{} 1 0 0", "31 8 0, 40 0 1, 40 0 1, 40 0 1,".repeat(11));
    let list: [(u8, usize, String); 20] = [
        (2, 0, "99 0 0".into()),
        (2, 2, "28 0 0, 40 0 1, 41 0 2".into()),
        (2, 3, "28 0 0, 53 0 1, 1 0 0, 20 9 0, 40 0 1".into()),
        (2, 4, "31 8 0, 40 0 1, 40 0 1, 40 0 1, 20 9 0".into()),
        (3, 0, "25 90 0".into()),
        (3, 2, "28 0 0, 40 0 1, 44 90 0".into()),
        (3, 2, "1 1 1, 10 8 1, 20 8 0".into()),
        (3, 0, "27 90 1, 40 0 1".into()),
        (3, 1, "31 8 0, 44 8 0, 40 0 1, 40 0 1, 1 0 0".into()),
        (4, 0, "25 1 0".into()),
        (4, 1, "28 0 0, 49 1 0, 41 0 1, 40 0 1, 40 0 2".into()),
        (4, 0, "22 0 0, 40 0 1, 1 0 0".into()),
        (4, 5, "31 8 0, 40 0 1, 40 0 1, 40 0 1, 21 0 0, 44 8 0, 40 0 1".into()),
        (4, 0, "31 8 0, 40 0 1, 41 0 1, 40 0 1, 1 0 0".into()),
        (5, 3, "28 0 0, 40 0 1, 53 0 1, 25 5 0, 40 0 2".into()),
        (5, 2, "24 0 0, 53 0 1, 25 5 0, 41 0 1, 1 0 0".into()),
        (6, 0, needy),
        (6, 0, format!("1 33 0{variables}")),
        (6, 0, format!("1 17 0{}", ", 14 3 0".repeat(17))),
        (6, 0, loops),
    ];
    list.into_iter().map(|(number, at, text)| Fault { number, at, text }).collect()
}

fn length(text: &str) -> usize {
    entries(text).len()
}

/// Where the fault stands: the entry at which its statement begins, and the entry of its body.
#[derive(Clone, Copy)]
struct Stands {
    at: usize,
    body: usize,
}

/// Of two faults, the first in postorder and in the order of the bodies, the one that is told.
fn told(first: (&Fault, Stands), second: (&Fault, Stands)) -> (u8, usize) {
    let rank = |number: u8| match number {
        2 => 0,
        6 => 2,
        _ => 1,
    };
    let (fault, stands) = if rank(second.0.number) < rank(first.0.number) { second } else { first };
    (fault.number, if fault.number == 6 { stands.body } else { stands.at + fault.at })
}

/// Every two faults, in a table that this makes of their statements.
fn every_pair(table: impl Fn(&str, &str) -> (String, Stands, Stands)) {
    for first in &faults() {
        for second in &faults() {
            let (text, one, other) = table(&first.text, &second.text);
            assert_eq!(verdict(&text), told((first, one), (second, other)), "{text}");
        }
    }
}

#[test]
fn each_fault_alone() {
    for fault in &faults() {
        let stands = Stands { at: 2, body: 0 };
        assert_eq!(verdict(&format!("1 1 2, 10 1 1, {}, 20 5 0", fault.text)), told((fault, stands), (fault, stands)));
        let stands = Stands { at: 3, body: 2 };
        assert_eq!(verdict(&format!("1 2 1, 10 1 1, 12 2 0, {}, 20 5 0", fault.text)), told((fault, stands), (fault, stands)));
    }
}

#[test]
fn one_statement_after_the_other() {
    every_pair(|x, y| {
        let other = Stands { at: 2 + length(x), body: 0 };
        (format!("1 1 3, 10 1 1, {x}, {y}, 20 5 0"), Stands { at: 2, body: 0 }, other)
    });
}

#[test]
fn a_procedure_before_the_root() {
    every_pair(|x, y| {
        let other = Stands { at: 3 + length(x), body: 0 };
        (format!("1 2 2, 10 1 1, 12 2 0, {x}, {y}, 20 5 0"), Stands { at: 3, body: 2 }, other)
    });
}

#[test]
fn one_procedure_after_the_other() {
    every_pair(|x, y| {
        let body = 3 + length(x);
        let other = Stands { at: body + 1, body };
        (format!("1 3 1, 10 1 1, 12 2 0, {x}, 12 3 0, {y}, 20 5 0"), Stands { at: 3, body: 2 }, other)
    });
}

/// In the arms of a statement, in blocks at different depths, and in the statements of a block expression.
#[test]
fn inside_statements_of_every_kind() {
    let inside = |before: &'static str, behind: &'static str| {
        every_pair(move |x, y| {
            let one = Stands { at: 2 + length(before), body: 0 };
            let other = Stands { at: one.at + length(x), body: 0 };
            (format!("1 1 2, 10 1 1, {before}, {x}, {y}{behind}, 20 5 0"), one, other)
        })
    };
    inside("23 0 0, 41 0 1", "");
    inside("30 2 0, 40 0 1", "");
    inside("1 1 2, 10 7 1", "");
    inside("1 0 1, 24 0 0, 41 0 1, 1 0 2", "");
    inside("31 7 0, 40 0 1, 40 0 1, 40 0 1, 1 0 2", "");
    inside("31 7 0, 40 0 1, 53 0 2", ", 40 0 1, 40 0 1, 1 0 0");
    inside("28 0 0, 40 0 1, 53 0 2", ", 40 0 3");
}

/// An entry with a fault of its own around a statement with a fault: the inner one is told, but for 2 and 6.
#[test]
fn inner_before_outer() {
    // A test, an index, a bound or an operand of the wrong type; a procedure whose name is there already, or whose body is of another type.
    let around = [
        (4, "1 1 2, 10 1 1", "22 0 0, 40 0 1", "20 5 0"),
        (4, "1 1 2, 10 1 1", "23 0 0, 40 0 1, 1 0 0", "20 5 0"),
        (4, "1 1 2, 10 1 1", "24 0 0, 42 0 1", "20 5 0"),
        (4, "1 1 2, 10 1 1", "30 1 0, 41 0 1", "20 5 0"),
        (4, "1 1 2, 10 1 1", "31 7 0, 41 0 1, 40 0 1, 40 0 1", "20 5 0"),
        (4, "1 1 2, 10 1 1", "31 7 0, 40 0 1, 40 0 1, 42 0 1", "20 5 0"),
        (4, "1 1 2, 10 1 1", "31 7 0, 41 0 1, 53 0 1", "40 0 1, 40 0 1, 1 0 0, 20 5 0"),
        (4, "1 1 2, 10 1 1", "28 0 0, 41 0 1, 53 0 1", "40 0 2, 20 5 0"),
        (4, "1 1 2, 10 1 1", "21 0 0, 44 1 0, 53 0 1", "41 0 1, 20 5 0"),
        (3, "1 2 1, 10 1 1", "12 1 0", "20 5 0"),
        (4, "1 2 1, 10 1 1", "12 2 1, 53 0 1", "41 0 1, 20 5 0"),
    ];
    for (number, before, outer, behind) in around {
        let outer_fault = Fault { number, at: 0, text: outer.into() };
        let from = length(before);
        let body = if outer.starts_with("12") { from } else { 0 };
        for inner in &faults() {
            let text = format!("{before}, {outer}, {}, {behind}", inner.text);
            let stands = Stands { at: from + length(outer), body };
            assert_eq!(verdict(&text), told((inner, stands), (&outer_fault, Stands { at: from, body })), "{text}");
        }
    }
}

/// "at one entry 3, 4, 5 in that order": entries that have both 3 and 4.
#[test]
fn the_least_number_at_one_entry() {
    // a kind 10 that is twice and whose type is no class; the same as a parameter and as a field
    assert_eq!(verdict("1 2 0, 10 1 1, 10 1 65537"), (3, 2));
    assert_eq!(verdict("1 1 0, 12 9 512, 10 1 1, 10 1 65537, 1 0 0"), (3, 3));
    assert_eq!(verdict("1 1 0, 11 9 2, 10 1 1, 10 1 65537"), (3, 3));
    // a procedure that is twice and whose body is of another type
    assert_eq!(verdict("1 2 0, 10 1 1, 12 1 1, 41 0 1"), (3, 2));
    // a name that is undefined and operands that fit nothing
    assert_eq!(verdict("1 0 1, 27 1 2, 41 0 1, 40 0 1"), (3, 1));
    assert_eq!(verdict("1 0 1, 26 0 0, 45 1 2, 41 0 1, 40 0 1"), (3, 2));
    assert_eq!(verdict("1 0 1, 26 0 0, 47 1 2, 41 0 1, 40 0 1"), (3, 2));
    assert_eq!(verdict("1 0 1, 26 0 0, 46 1 0, 41 0 1"), (3, 2));
}

/// "6 the body's entry, procedures first", whatever of cells, holds and need is over.
#[test]
fn bodies_over_their_limits() {
    let over: Vec<String> = faults().into_iter().filter(|f| f.number == 6).map(|f| f.text).collect();
    for x in &over {
        for y in &over {
            assert_eq!(verdict(&format!("1 2 1, 12 1 0, 1 0 0, 12 2 0, {x}, {y}")), (6, 3));
            assert_eq!(verdict(&format!("1 3 0, 12 1 0, {x}, 12 2 0, 1 0 0, 12 3 0, {y}")), (6, 1));
            assert_eq!(verdict(&format!("1 3 1, 12 1 0, 1 0 0, 12 2 0, {x}, 12 3 0, 1 0 0, {y}")), (6, 3));
            assert_eq!(verdict(&format!("1 2 2, 12 1 0, 1 0 0, 12 2 0, 1 0 0, {x}, {y}")), (6, 0));
        }
    }
}
