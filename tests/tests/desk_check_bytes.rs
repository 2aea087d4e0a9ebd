//! `cue_check` on any bytes: a table of every kind damaged in every place, tables that end anywhere, counts
//! that lie, nesting and length at their limits, noise. `judged` holds the three checks to each other.
#![cfg(desk)]

use second::evaluator::table::{bytes_of, write_tree, Entry, MOST_BYTES};
use second::generate::damaged_structure::{double, parts, put_before, recount, remove, Count, WRONG_COUNTS};
use second::generate::entries::KINDS;
use second::generate::notation::{entries, table, LISTING_EXAMPLE};
use second::generate::programs::some_program;
use second::generate::rng::Rng;
use second::generate::worst_case_tables::worst_case_tables;
use second::harness::setup::{case_count, with_large_stack};
use second::harness::verdicts::{judged, verdict};

/// An accepted table with every kind of entry and every sort of count.
const EVERY_KIND: &str = "1 8 10
    11 1 2, 10 2 1, 10 3 65537
    10 4 1, 10 5 2, 10 6 3, 10 7 65537
    12 8 513, 10 9 1, 10 10 1, 49 1 0, 44 9 0, 44 10 0
    12 11 256, 10 12 65537, 1 1 2, 14 3 0, 25 13 0, 20 13 0
    14 63 0
    20 14 0
    21 0 0, 44 4 0, 45 8 2, 40 0 1, 40 0 -5
    21 0 0, 46 2 0, 44 7 0, 48 20 0, 44 4 0
    21 0 0, 44 7 0, 47 1 2, 40 0 3, 43 1 0
    22 0 0, 49 12 0, 44 5 0, 41 0 1, 25 14 0
    23 0 0, 49 6 0, 44 4 0, 51 0 0, 40 0 2, 27 11 1, 44 7 0, 1 0 0
    24 0 0, 48 22 0, 44 5 0, 26 0 0, 49 10 0, 44 6 0, 42 0 -1
    28 0 0, 40 0 1, 53 1 1, 10 4 1, 21 0 0, 44 4 0, 40 0 9, 50 0 0, 41 0 0, 44 4 0, 40 0 8
    30 2 0, 40 0 2, 1 0 0, 28 0 0, 40 0 1, 40 0 2
    31 4 0, 44 4 0, 40 0 1, 40 0 3, 28 0 0, 44 4 0, 40 0 5";

#[test]
fn the_table_of_every_kind_is_accepted() {
    assert_eq!(verdict(EVERY_KIND), (0, 0));
    for kind in KINDS {
        assert!(entries(EVERY_KIND).iter().any(|e| e.kind == kind), "no kind {kind}");
    }
}

#[test]
fn every_byte_of_every_value() {
    let mut bytes = table(EVERY_KIND);
    let mut accepted = 0;
    for i in 0..bytes.len() {
        let right = bytes[i];
        for value in 0..=255 {
            bytes[i] = value;
            accepted += (judged(&bytes) == (0, 0)) as usize;
        }
        bytes[i] = right;
    }
    // Every constant at least, and nowhere near all.
    let constants = entries(EVERY_KIND).iter().filter(|e| matches!(e.kind, 40 | 42)).count();
    assert!(accepted > 4 * 256 * constants && accepted < 256 * bytes.len() / 8, "{accepted}");
}

#[test]
fn every_entry_by_every_kind() {
    let list = entries(EVERY_KIND);
    for i in 0..list.len() {
        for kind in KINDS.into_iter().chain([0, 2, 13, 15, 29, 32, 39, 52, 54, 99, 257, 65_535]) {
            for a in [0, 1, 4, 8, 20, 63, 64, 65_535] {
                for b in [0, 1, 2, 256, 65_537, 131_072, -1, i32::MIN, i32::MAX] {
                    let mut other = list.clone();
                    other[i] = Entry { kind, a, b };
                    judged(&bytes_of(&other));
                }
            }
        }
    }
}

#[test]
fn every_two_entries_exchanged() {
    let list = entries(EVERY_KIND);
    for i in 0..list.len() {
        for j in 0..i {
            let mut other = list.clone();
            other.swap(i, j);
            judged(&bytes_of(&other));
        }
    }
}

#[test]
fn every_part_removed_doubled_and_moved() {
    let list = entries(EVERY_KIND);
    let all = parts(&list);
    for &part in &all {
        for counted in [true, false] {
            let changed = |change: &dyn Fn(&mut Vec<Entry>)| {
                let mut other = list.clone();
                change(&mut other);
                judged(&bytes_of(&other))
            };
            let removed = changed(&|other| remove(other, part, counted));
            let doubled = changed(&|other| double(other, part, counted));
            if !counted {
                assert_eq!((removed.0, doubled.0), (2, 2), "the count of {part:?} is wrong");
            }
            for &other_part in all.iter().filter(|o| o.at < part.at || o.at >= part.end) {
                changed(&|other| put_before(other, part, other_part, counted));
            }
        }
    }
}

#[test]
fn wrong_counts() {
    let list = entries(EVERY_KIND);
    for part in parts(&list) {
        let mut lies = vec![list[part.parent]; WRONG_COUNTS.len() + 2];
        for (e, lie) in lies.iter_mut().zip(WRONG_COUNTS) {
            match part.count {
                Count::A => e.a = lie as u16,
                _ => e.b = lie,
            }
        }
        recount(&mut lies[WRONG_COUNTS.len()], part.count, 1);
        recount(&mut lies[WRONG_COUNTS.len() + 1], part.count, -1);
        for lie in lies.into_iter().filter(|e| *e != list[part.parent]) {
            let mut other = list.clone();
            other[part.parent] = lie;
            assert_eq!(judged(&bytes_of(&other)).0, 2, "{part:?} {lie:?}");
        }
    }
    // Whatever a count says, where the entries run out the place is their number.
    assert_eq!(verdict("1 65535 2147483647"), (2, 1));
    assert_eq!(verdict("1 0 2147483647, 1 0 0, 20 1 0"), (2, 3));
    assert_eq!(verdict("1 0 1, 27 1 2147483647, 40 0 1"), (2, 3));
    assert_eq!(verdict("1 0 1, 30 65535 0, 40 0 1, 1 0 0"), (2, 4));
    assert_eq!(verdict("1 0 1, 26 0 0, 53 65535 2147483647, 10 1 1"), (2, 4));
}

#[test]
fn negative_counts() {
    for b in [-1, -2, -256, -65_536, i32::MIN] {
        assert_eq!(verdict(&format!("1 0 {b}")), (2, 0));
        assert_eq!(verdict(&format!("1 1 0, 11 1 {b}, 10 2 1")), (2, 1));
        assert_eq!(verdict(&format!("1 1 0, 12 1 {b}, 1 0 0")), (2, 1));
        for kind in [1, 27] {
            assert_eq!(verdict(&format!("1 0 1, {kind} 0 {b}")), (2, 1));
        }
        for kind in [45, 47, 53] {
            assert_eq!(verdict(&format!("1 0 1, 26 0 0, {kind} 0 {b}, 41 0 1")), (2, 2));
        }
    }
}

#[test]
fn b_at_both_ends_of_32_bits() {
    for b in [i32::MIN, i32::MIN + 1, i32::MAX - 1, i32::MAX] {
        for kind in [40, 42] {
            assert_eq!(verdict(&format!("1 0 1, 26 0 0, 49 10 0, {kind} 0 {b}, {kind} 0 0")), (0, 0));
        }
        let list = entries(EVERY_KIND);
        for i in 0..list.len() {
            let mut other = list.clone();
            other[i].b = b;
            let (number, place) = judged(&bytes_of(&other));
            match list[i].kind {
                40 | 42 => assert_eq!((number, place), (0, 0)),
                // The count runs on to an entry that is no operand of its sort, or to the end.
                1 | 27 | 45 | 47 | 53 if b > 0 => assert!(number == 2 && place > i && place <= list.len()),
                _ => assert_eq!((number, place), (2, i)),
            }
        }
    }
}

/// Every prefix of a table, and the table with bytes behind it.
fn ends_anywhere(bytes: &[u8]) {
    let count = bytes.len() / 8;
    let mut longer = bytes.to_vec();
    longer.extend((0..17).map(|i| if i == 0 { 1 } else { 0 }));
    for length in 0..=longer.len() {
        let expected = match length {
            _ if length == 0 || length % 8 != 0 || length > MOST_BYTES => (1, 0),
            _ if length < bytes.len() => (2, length / 8),
            _ if length == bytes.len() => (0, 0),
            _ => (2, count),
        };
        assert_eq!(judged(&longer[..length]), expected);
    }
}

#[test]
fn tables_that_end_anywhere() {
    with_large_stack(|| {
        ends_anywhere(&table(EVERY_KIND));
        ends_anywhere(&table(LISTING_EXAMPLE));
        let mut rng = Rng::new(5);
        for size in [5, 20, 60, 200, 200] {
            ends_anywhere(&bytes_of(&write_tree(&some_program(&mut rng, size))));
        }
    });
}

#[test]
fn entries_2048_and_2049() {
    let blocks = |n: i32| format!("1 0 {n},{}", "1 0 0,".repeat(n as usize));
    assert_eq!(verdict(&blocks(2_046)), (0, 0));
    assert_eq!(verdict(&blocks(2_047)), (0, 0));
    assert_eq!(verdict(&blocks(2_048)), (1, 0));
    let mut bytes = table(&blocks(2_047));
    ends_anywhere(&bytes);
    bytes[8 * 2_047] = 99;
    assert_eq!(judged(&bytes), (2, 2_047));
    bytes.truncate(8 * 2_047);
    assert_eq!(judged(&bytes), (2, 2_047));
    // Far longer than any table may be.
    assert_eq!(judged(&vec![0; 2 * MOST_BYTES]), (1, 0));
}

/// Each kind that nests: how many levels it goes down, what stands before and behind the nested operand, and the innermost.
const NESTING: [(usize, &str, &str, &str); 16] = [
    (1, "1 0 1,", "", "1 0 0"),
    (1, "22 0 0, 41 0 1,", "", "1 0 0"),
    (1, "23 0 0, 41 0 1, 1 0 0,", "", "1 0 0"),
    (1, "23 0 0, 41 0 1,", "1 0 0,", "1 0 0"),
    (1, "24 0 0, 41 0 1,", "", "1 0 0"),
    (1, "30 1 0, 40 0 1,", "", "1 0 0"),
    (1, "31 5 0, 40 0 1, 40 0 1, 40 0 2,", "", "1 0 0"),
    (2, "31 5 0, 40 0 1, 53 0 1,", "40 0 1, 40 0 2, 1 0 0,", "1 0 0"),
    (2, "26 0 0, 53 0 1,", "41 0 1,", "1 0 0"),
    (1, "48 20 0,", "", "40 0 1"),
    (1, "49 1 0,", "40 0 1,", "40 0 1"),
    (1, "50 0 0, 41 0 1,", "40 0 2,", "40 0 1"),
    (1, "51 0 0,", "", "40 0 1"),
    (1, "53 0 0,", "", "40 0 1"),
    (1, "45 1 1,", "", "40 0 1"),
    (3, "53 0 1, 26 0 0, 49 10 0, 40 0 1,", "40 0 1,", "40 0 1"),
];

#[test]
fn nesting_64_and_65_by_every_kind() {
    for (levels, before, behind, leaf) in NESTING {
        // The function takes an integer. What nests stands at depth 2 or 3 in the root, or at depth 3 as a body.
        let function = "12 1 257, 10 2 1, 44 2 0,";
        let places = match leaf {
            "1 0 0" => [(format!("1 1 1, {function}"), "", 2), (format!("1 2 0, {function} 12 3 0,"), "", 3)],
            _ => [(format!("1 1 1, {function} 28 0 0,"), "40 0 1", 3), (format!("1 2 0, {function} 12 3 1,"), "", 3)],
        };
        for ((start, end, first), depth) in places.iter().flat_map(|place| [63, 64, 65, 66].map(|depth| (place, depth))) {
            let steps = (depth - first) / levels;
            // What is left to the depth, by a kind that goes down by one.
            let one = if leaf == "1 0 0" { "1 0 1," } else { "48 20 0," };
            let inside = format!("{}{}", one.repeat(depth - first - steps * levels), leaf);
            let text = format!("{start}{}{inside},{}{end}", before.repeat(steps), behind.repeat(steps));
            let (number, place) = verdict(&text);
            if depth <= 64 {
                // Many cases, loops and waiting operands are over a body's limits, which are judged last.
                assert!(matches!(number, 0 | 6), "{text}");
            } else {
                assert_eq!(number, 2, "{text}");
                // The table up to there has no fault but that it ends early.
                assert_eq!(judged(&table(&text)[..8 * place]), (2, place), "{text}");
            }
        }
    }
    // A table that ends where an entry would be too deep.
    assert_eq!(verdict(&"1 0 1,".repeat(64)), (2, 64));
}

#[test]
fn worst_case_tables_for_lookups() {
    for (what, bytes, number) in worst_case_tables() {
        assert_eq!(bytes.len(), MOST_BYTES, "{what}");
        assert_eq!(judged(&bytes).0, number, "{what}");
    }
}

#[test]
fn noise() {
    let mut rng = Rng::new(6);
    for i in 0..case_count(4_000) {
        let length = if i % 100 == 0 { rng.below(2 * MOST_BYTES) } else { rng.below(400) };
        let bytes: Vec<u8> = (0..length).map(|_| rng.byte()).collect();
        judged(&bytes);
        // Small numbers are more often kinds and counts.
        let mut small: Vec<u8> = (0..length / 8 * 8).map(|_| *rng.pick(&[0, 0, 0, 0, 1, 1, 2, 10, 20, 40, 44, 49])).collect();
        if small.len() >= 8 {
            small[..8].copy_from_slice(&table("1 1 2"));
        }
        judged(&small);
    }
}
