//! `cue_load`, through the C interface, against the second evaluator: number and place.
#![cfg(desk)]

use second::evaluator::answer::{Answer, Refusal};
use second::evaluator::code::{judge_macro, write_macro, Macro};
use second::generate::edge_cases::edge_macro;
use second::generate::macros::{damaged_macro, good_macro, Size};
use second::generate::notation::{body, code, root_only, shape};
use second::generate::rng::Rng;
use second::harness::compare_machines::{play, run, start, started};
use second::harness::desk;
use second::harness::setup::{case_count, with_large_stack};
use second::plain;

fn expected(bytes: &[u8]) -> [u64; 4] {
    match judge_macro(bytes) {
        Ok(_) => [1, 0, 0, 0],
        Err(Refusal { number, place }) => [0, 0, number as u64, place as u64],
    }
}

fn agrees(bytes: &[u8]) {
    let wanted = expected(bytes);
    assert_eq!(desk::unpacked(desk::load(bytes)), wanted, "macro {bytes:?}");
    let plain = plain::loader::load(bytes);
    let plain = if plain.0 == 0 { [1, 0, 0, 0] } else { [0, 0, plain.0 as u64, plain.1 as u64] };
    assert_eq!(plain, wanted, "the plain loader, macro {bytes:?}");
}

fn given(m: &Macro) -> [u64; 4] {
    let bytes = write_macro(m);
    agrees(&bytes);
    desk::unpacked(desk::load(&bytes))
}

#[test]
fn generated_and_damaged_macros() {
    with_large_stack(|| {
        let mut rng = Rng::new(3);
        let mut seen = [0usize; 3];
        let count = case_count(120_000);
        for i in 0..count {
            let bytes = match i % 8 {
                0 => edge_macro(&mut rng),
                1 => write_macro(&good_macro(&mut rng, Size { bodies: 3, instructions: 10, classes: 2 })),
                2 if i % 512 == 2 => write_macro(&good_macro(&mut rng, Size { bodies: 20, instructions: 40, classes: 16 })),
                _ => {
                    let good = good_macro(&mut rng, Size { bodies: 3, instructions: 8, classes: 2 });
                    damaged_macro(&mut rng, &good)
                }
            };
            agrees(&bytes);
            seen[match desk::unpacked(desk::load(&bytes))[..] {
                [1, ..] => 0,
                [0, _, 8, _] => 1,
                _ => 2,
            }] += 1;
        }
        // Only many cases can be asked to be spread.
        assert!(count < 1_000 || seen.iter().all(|n| *n > count / 20), "all three answers are frequent: {seen:?}");
    });
}

#[test]
fn bytes_that_are_no_macro() {
    let mut rng = Rng::new(4);
    for length in 0..400 {
        let noise: Vec<u8> = (0..length).map(|_| rng.byte()).collect();
        agrees(&noise);
        // A head that lies, and then noise.
        let mut lying = b"HD".to_vec();
        lying.extend((0..length).map(|_| *rng.pick(&[0, 1, 2, 16, 64, 255, b'C', b'L', b'B', b'D', b'I', b'N'])));
        agrees(&lying);
    }
}

#[test]
fn every_truncation() {
    let m = root_only("17 0 7, 1 0 3, 1 0 200, 15 0 0, 18 0 0, 8 0 10, 18 0 0, 1 0 4, 1 0 9, 15 0 0, 0 0 0", vec![
        shape(6, 1, &[]),
        shape(10, 0, &[]),
    ]);
    let bytes = write_macro(&m);
    for length in 0..=bytes.len() {
        agrees(&bytes[..length]);
    }
    assert_eq!(given(&m), [1, 0, 0, 0]);
}

/// A root that ends, and procedures that return.
fn bodies(n: usize) -> Macro {
    let mut list = vec![body(0, 0, 0, &[])];
    list.extend((1..n).map(|i| body(i as u16, 0, 0, &[])));
    let text: Vec<&str> = (0..n).map(|i| if i == 0 { "0 0 0" } else { "11 0 0" }).collect();
    Macro { classes: Vec::new(), bodies: list, code: code(&text.join(",")), shapes: Vec::new() }
}

fn with_classes(n: usize, fields: usize) -> Macro {
    Macro { classes: vec![vec![1; fields]; n], ..bodies(1) }
}

#[test]
fn counts_at_their_limits() {
    assert_eq!(given(&bodies(64)), [1, 0, 0, 0]);
    assert_eq!(given(&bodies(65)), [0, 0, 8, 0]);
    assert_eq!(given(&with_classes(16, 8)), [1, 0, 0, 0]);
    assert_eq!(given(&with_classes(17, 8)), [0, 0, 8, 0]);
    assert_eq!(given(&with_classes(1, 0)), [0, 0, 8, 1]);
    assert_eq!(given(&with_classes(2, 9)), [0, 0, 8, 1]);
}

#[test]
fn cells_operands_and_holds_at_their_limits() {
    for (cells, answer) in [(32, [1, 0, 0, 0]), (33, [0, 0, 9, 0])] {
        let m = Macro { bodies: vec![body(0, 0, 0, &vec![1; cells])], ..bodies(1) };
        assert_eq!(given(&m), answer);
    }
    for (n, answer) in [(32, [1, 0, 0, 0]), (33, [0, 0, 9, 32])] {
        let text = format!("{}20 24 0", "1 0 7,".repeat(n));
        assert_eq!(given(&root_only(&text, Vec::new())), answer);
    }
    for (n, answer) in [(16, [1, 0, 0, 0]), (17, [0, 0, 9, 16])] {
        let text = format!("{}20 24 0", "17 0 63,".repeat(n));
        assert_eq!(given(&root_only(&text, Vec::new())), answer);
    }
    for (holds, depth, answer) in [(16, 0, [1, 0, 0, 0]), (17, 0, [0, 0, 9, 1]), (0, 32, [1, 0, 0, 0]), (0, 33, [0, 0, 9, 1])] {
        assert_eq!(given(&root_only("0 0 0, 20 24 0", vec![shape(1, holds, &vec![1; depth])])), answer);
    }
}

/// So many instructions with jumps from everywhere to everywhere. About one in `spread` pieces of code is a goto, and a shape stands behind it.
fn jumping(rng: &mut Rng, instructions: usize, spread: usize) -> Macro {
    let (goto, fork, set) = (1, 2, 3);
    let mut pieces = Vec::new();
    let mut length = 1;
    while length < instructions {
        let piece = if rng.below(spread) == 0 { goto } else { *rng.pick(&[fork, set]) };
        let piece = piece.min(instructions - length);
        pieces.push((length - 1, piece));
        length += piece;
    }
    let mut targets = vec![0];
    for pair in pieces.windows(2) {
        if pair[0].1 == goto || rng.below(2 * spread) == 0 {
            targets.push(pair[1].0);
        }
    }
    // the end, behind a goto
    if pieces.last().is_some_and(|last| last.1 == goto) {
        targets.push(instructions - 1);
    }
    let mut text = Vec::new();
    for (_, piece) in &pieces {
        let target = rng.pick(&targets);
        text.push(match piece {
            1 => format!("8 0 {target}"),
            2 => format!("2 0 1, 9 0 {target}"),
            _ => "1 0 1, 1 0 1, 15 0 0".to_string(),
        });
    }
    text.push("0 0 0".to_string());
    root_only(&text.join(","), targets.iter().map(|address| shape(*address as u16, 0, &[])).collect())
}

/// Every number of instructions at which the loading check's index of shapes has another size, and those beside it: macros that pass, and the same
/// without one of their shapes, or with one that has a hold.
#[test]
fn jumps_among_shapes_near_and_far() {
    let mut rng = Rng::new(31);
    let mut refused = 0;
    for instructions in [2, 7, 8, 9, 17, 511, 512, 513, 8_191, 8_192, 8_193, 65_534, 65_535] {
        for spread in [1, 2, 4, 40] {
            let m = jumping(&mut rng, instructions, spread);
            assert_eq!(m.code.len(), instructions);
            assert_eq!(given(&m), [1, 0, 0, 0]);
            let damaged = rng.below(m.shapes.len());
            let mut less = m.clone();
            less.shapes.remove(damaged);
            let mut held = m.clone();
            held.shapes[damaged].holds = 1;
            refused += [less, held].iter().filter(|m| given(m)[..3] == [0, 0, 9]).count();
        }
    }
    assert!(refused > 60, "{refused}");
}

#[test]
fn jumps_at_the_first_and_last_address() {
    let at = |target: i32, shapes: Vec<_>| given(&root_only(&format!("8 0 {target}, 0 0 0"), shapes));
    assert_eq!(at(0, vec![shape(0, 0, &[]), shape(1, 0, &[])]), [1, 0, 0, 0]);
    assert_eq!(at(1, vec![shape(1, 0, &[])]), [1, 0, 0, 0]);
    assert_eq!(at(2, vec![shape(1, 0, &[])]), [0, 0, 9, 0]);
    assert_eq!(at(0, vec![shape(1, 0, &[])]), [0, 0, 9, 0]);
    assert_eq!(at(-1, vec![shape(1, 0, &[])]), [0, 0, 9, 0]);
}

/// SH records "shall come by rising address; a macro with others is refused by 8 at the first SH out of order" (paper 02, ticket 10), by
/// every call, and nothing lent is written. Each shape here is the state found at its address, so nothing but the order is wrong.
#[test]
fn shapes_by_rising_address() {
    let with = |addresses: &[u16]| {
        let found = |address: &u16| match address {
            4 => shape(4, 1, &[]),
            7 => shape(7, 2, &[1, 1]),
            _ => shape(9, 2, &[2]),
        };
        let text = "17 0 7, 1 0 3, 1 0 200, 15 0 0, 17 0 8, 1 0 4, 1 0 9, 15 0 0, 2 0 1, 19 0 0, 18 0 0, 18 0 0, 0 0 0";
        root_only(text, addresses.iter().map(found).collect())
    };
    assert_eq!(given(&with(&[4, 7, 9])), [1, 0, 0, 0]);
    assert_eq!(given(&with(&[4, 9])), [1, 0, 0, 0]);
    let fresh = started(&write_macro(&with(&[4, 9])));
    // HD, BD and 13 IN stand before the first SH.
    for (addresses, place) in [(&[4, 9, 7][..], 15 + 2), (&[4, 4], 15 + 1), (&[9, 4], 15 + 1)] {
        let m = with(addresses);
        let told = [0, 0, 8, place as u64];
        assert_eq!(given(&m), told, "{addresses:?}");
        let (code, refusal) = (write_macro(&m), Refusal { number: 8, place });
        let (mut state, mut answers) = (fresh.clone(), vec![0xee; 80]);
        assert_eq!(start(&code, &mut state), Some(refusal));
        assert_eq!(run(&code, &mut state, &[0; 64], 9), Answer::Refusal(refusal));
        assert_eq!(play(&code, &mut state, &[0; 64], 9, &mut answers), told);
        assert!(state == fresh && answers == [0xee; 80], "{addresses:?}");
    }
}

/// As many instructions and shapes as the counts can say.
#[test]
fn the_largest_macro() {
    let n = 65_535;
    let mut text = "1 0 7, 20 24 0,".repeat(n / 2);
    text.push_str("20 24 0");
    let shapes: Vec<_> = (0..n as u16).map(|i| shape(i, 0, if i % 2 == 1 && (i as usize) < n - 1 { &[1] } else { &[] })).collect();
    let m = root_only(&text, shapes);
    assert_eq!(given(&m), [1, 0, 0, 0]);
    let mut bytes = write_macro(&m);
    let last = bytes.len() - 3;
    bytes[last] = 17;
    agrees(&bytes);
}
