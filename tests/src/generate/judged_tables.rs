//! Tables made for a verdict: accepted, or refused by a given number.

use crate::evaluator::answer::number_and_place;
use crate::evaluator::names::judge_table;
use crate::evaluator::table::{bytes_of, write_tree, Entry};
use super::damaged_entries::damaged_table;
use super::notation;
use super::programs::some_program;
use super::rng::Rng;

/// A table made to be refused by this number (or, now and then, only nearly).
pub fn refused_table(rng: &mut Rng, number: u8) -> Vec<u8> {
    let table = |text: &str| notation::table(text);
    match number {
        1 => match rng.below(3) {
            0 => Vec::new(),
            1 => {
                let mut bytes = table("1 0 1, 28 0 0, 40 0 3, 40 0 4");
                bytes.truncate(1 + rng.below(bytes.len()));
                bytes
            }
            _ => {
                let mut bytes = table("1 0 0");
                for _ in 0..1 + rng.below(7) {
                    bytes.push(rng.byte());
                }
                bytes
            }
        },
        2 => {
            let texts = [
                "99 0 0",
                "1 0 1, 21 0 0, 40 0 1, 40 0 1",
                "1 0 -1",
                "1 0 1, 22 0 0, 41 0 1, 20 3 0",
                "1 0 1, 1 1 0, 11 4 1, 10 5 1",
                "1 1 0, 11 4 0",
                "1 1 0, 11 4 9",
                "1 1 0, 12 4 4, 40 0 1",
                "1 1 0, 12 4 2304, 10 1 1",
                "1 1 0, 12 4 -256, 1 0 0",
                "1 1 0, 14 64 0",
                "1 1 0, 10 1 131072",
                "1 1 0, 10 1 65535",
                "1 1 0, 10 1 0",
                "1 0 1, 30 0 0, 40 0 1",
                "1 0 1, 28 0 0, 48 19 0, 40 0 1, 40 0 1",
                "1 0 1, 28 0 0, 49 16 0, 40 0 1, 40 0 1, 40 0 1",
                "1 0 0, 1 0 0",
                "1 0 2, 20 1 0",
                "1 0 1, 26 0 0, 41 0 2",
                "1 0 1, 26 0 0, 41 1 1",
                "1 0 1, 25 1 1",
                "1 0 1, 27 1 -1",
                "21 0 0, 44 0 0, 40 0 0",
                "1 0 1, 31 5 1, 40 0 1, 40 0 1, 40 0 3, 1 0 0",
                "1 0 1, 31 5 0, 40 0 1, 40 0 1, 40 0 3, 20 5 0",
                "1 0 1, 31 5 0, 40 0 1, 40 0 1, 1 0 0",
                "1 1 0, 31 5 0, 40 0 1, 40 0 1, 40 0 3, 1 0 0",
                "1 0 1, 31 5 0, 40 0 1, 40 0 1, 40 0 3",
            ];
            table(rng.pick::<&str>(&texts))
        }
        3 => {
            let texts = [
                "1 0 1, 25 5 0",
                "1 2 0, 10 1 1, 10 1 2",
                "1 1 1, 10 1 1, 20 1 0",
                "1 0 2, 20 1 0, 20 1 0",
                "1 1 0, 11 1 1, 10 1 1",
                "1 2 0, 11 1 2, 10 2 1, 10 3 2, 10 2 1",
                "1 1 0, 12 1 512, 10 2 1, 10 2 1, 1 0 0",
                "1 1 0, 10 1 65540",
                "1 0 2, 1 0 1, 20 1 0, 25 1 0",
                "1 2 0, 12 1 0, 1 0 1, 20 4 0, 12 2 0, 25 4 0",
                "1 0 1, 21 0 0, 44 1 0, 40 0 1",
                "1 1 1, 10 1 1, 21 0 0, 44 1 0, 46 2 0, 40 0 1",
                "1 0 1, 26 0 0, 49 10 0, 43 7 0, 43 7 0",
                "1 0 1, 27 3 0",
                "1 1 1, 10 1 1, 21 0 0, 44 1 0, 49 1 0, 44 2 0, 41 0 1",
                "1 0 1, 31 5 0, 44 5 0, 40 0 1, 40 0 3, 1 0 0",
                "1 0 1, 31 5 0, 40 0 1, 40 0 1, 44 5 0, 1 0 0",
                "1 0 2, 31 5 0, 40 0 1, 40 0 1, 40 0 3, 1 0 0, 28 0 0, 44 5 0, 40 0 1",
                "1 1 1, 12 1 0, 28 0 0, 44 5 0, 40 0 1, 31 5 0, 40 0 1, 40 0 1, 40 0 3, 27 1 0",
            ];
            table(rng.pick::<&str>(&texts))
        }
        4 => {
            let texts = [
                "1 1 1, 10 1 1, 21 0 0, 44 1 0, 49 1 0, 41 0 1, 40 0 1",
                "1 1 1, 10 1 1, 25 1 0",
                "1 1 0, 10 1 65537",
                "1 1 1, 10 1 1, 27 1 0",
                "1 1 1, 12 1 1, 40 0 1, 27 1 0",
                "1 1 1, 12 1 0, 1 0 0, 26 0 0, 49 10 0, 45 1 0, 40 0 1",
                "1 1 0, 12 1 1, 41 0 1",
                "1 1 0, 12 1 2, 40 0 1",
                "1 2 0, 11 1 1, 10 2 1, 12 3 256, 10 1 65537, 1 0 0",
                "1 1 1, 11 1 1, 10 2 1, 1 1 0, 10 1 65537",
                "1 1 1, 11 1 1, 10 2 1, 26 0 0, 49 10 0, 47 1 2, 40 0 1, 40 0 1, 43 1 0",
                "1 1 1, 11 1 1, 10 2 1, 1 1 0, 10 2 65537",
                "1 2 1, 11 1 1, 10 2 1, 11 3 1, 10 4 1, 28 0 0, 46 2 0, 43 3 0, 40 0 1",
                "1 0 1, 22 0 0, 40 0 1, 1 0 0",
                "1 0 1, 24 0 0, 42 0 1, 1 0 0",
                "1 0 1, 30 1 0, 41 0 1, 1 0 0",
                "1 0 1, 28 0 0, 40 0 1, 42 0 1",
                "1 0 1, 28 0 0, 40 0 1, 51 0 0, 41 0 1",
                "1 0 1, 26 0 0, 50 0 0, 41 0 1, 41 0 1, 40 0 1",
                "1 0 1, 26 0 0, 48 22 0, 40 0 1",
                "1 0 1, 26 0 0, 49 12 0, 41 0 1, 42 0 1",
                "1 0 1, 26 0 0, 49 10 0, 49 14 0, 42 0 1, 42 0 1, 42 0 1",
                "1 1 1, 12 1 256, 10 1 1, 1 0 0, 27 1 0",
                "1 1 1, 12 1 256, 10 1 1, 1 0 0, 27 1 1, 41 0 1",
                "1 2 0, 10 1 1, 12 1 1, 41 0 1",
                "1 0 1, 31 5 0, 40 0 1, 40 0 1, 40 0 3, 21 0 0, 44 5 0, 40 0 9",
                "1 1 1, 10 5 1, 31 5 0, 40 0 1, 40 0 1, 40 0 3, 1 0 1, 21 0 0, 44 5 0, 44 5 0",
                "1 0 2, 31 5 0, 40 0 1, 40 0 1, 40 0 3, 25 5 0, 20 5 0",
                "1 1 1, 12 5 0, 1 0 0, 31 5 0, 40 0 1, 40 0 1, 40 0 3, 27 5 0",
                "1 1 1, 11 5 1, 10 6 1, 31 5 0, 40 0 1, 40 0 1, 40 0 3, 1 1 0, 10 7 65541",
                "1 0 1, 31 5 0, 41 0 1, 40 0 1, 40 0 3, 1 0 0",
                "1 0 1, 31 5 0, 40 0 1, 42 0 1, 40 0 3, 1 0 0",
                "1 0 1, 31 5 0, 40 0 1, 40 0 1, 41 0 1, 1 0 0",
            ];
            table(rng.pick::<&str>(&texts))
        }
        5 => {
            let texts = [
                "1 1 1, 12 1 0, 25 5 0, 20 5 0",
                "1 1 1, 12 1 0, 1 0 1, 25 5 0, 20 5 0",
                "1 1 1, 12 1 256, 10 5 1, 22 0 0, 41 0 1, 1 0 1, 25 6 0, 20 6 0",
                "1 0 2, 20 5 0, 28 0 0, 53 0 1, 25 5 0, 40 0 1, 40 0 1",
                "1 0 2, 28 0 0, 40 0 1, 53 0 1, 1 0 1, 25 5 0, 40 0 1, 20 5 0",
                "1 1 0, 12 1 1, 53 0 1, 20 5 0, 53 0 1, 25 5 0, 40 0 1",
                "1 0 1, 26 0 0, 53 0 2, 20 5 0, 1 0 0, 49 10 0, 53 0 1, 25 5 0, 40 0 1, 40 0 2",
                "1 1 1, 12 1 1, 53 0 1, 22 0 0, 41 0 0, 25 5 0, 40 0 1, 20 5 0",
                "1 0 2, 20 5 0, 22 0 0, 53 0 1, 25 5 0, 40 0 1, 1 0 0",
                "1 0 2, 20 5 0, 31 6 0, 40 0 1, 53 0 1, 25 5 0, 40 0 1, 40 0 3, 1 0 0",
                "1 0 2, 20 5 0, 31 6 0, 40 0 1, 40 0 1, 40 0 3, 28 0 0, 53 0 1, 25 5 0, 44 6 0, 40 0 1",
                "1 1 1, 12 1 0, 31 6 0, 40 0 1, 40 0 1, 40 0 3, 25 5 0, 20 5 0",
            ];
            let mut list = notation::entries(rng.pick::<&str>(&texts));
            let add = rng.below(200) as u16;
            for e in &mut list {
                if matches!(e.kind, 20 | 25) {
                    e.a += add;
                }
            }
            bytes_of(&list)
        }
        _ => {
            // 6: variables, holds (together or nested), loops, need.
            let mut list = Vec::new();
            let put = |list: &mut Vec<Entry>, kind, a, b| list.push(Entry { kind, a, b });
            let inside = rng.chance(40);
            let holds = 15 + rng.below(4);
            let root_extra = rng.below(2) as u16;
            match rng.below(5) {
                0 => {
                    let count = 31 + rng.below(4) as u16;
                    put(&mut list, 1, count, 0);
                    for i in 0..count {
                        put(&mut list, 10, i, 1 + (i % 3) as i32);
                    }
                }
                1 if inside => {
                    put(&mut list, 1, 1 + root_extra, 0);
                    if root_extra == 1 {
                        put(&mut list, 14, 3, 0);
                    }
                    put(&mut list, 12, 9, 0);
                    put(&mut list, 1, holds as u16, 0);
                    for _ in 0..holds {
                        put(&mut list, 14, rng.below(64) as u16, 0);
                    }
                }
                1 => {
                    put(&mut list, 1, holds as u16, 0);
                    for _ in 0..holds {
                        put(&mut list, 14, rng.below(64) as u16, 0);
                    }
                }
                2 => {
                    let outer = 1 + rng.below(holds - 1);
                    put(&mut list, 1, outer as u16, 1);
                    for _ in 0..outer {
                        put(&mut list, 14, rng.below(64) as u16, 0);
                    }
                    let statement = rng.chance(50);
                    if statement {
                        put(&mut list, 1, (holds - outer) as u16, 0);
                    } else {
                        put(&mut list, 26, 0, 0);
                        put(&mut list, 53, (holds - outer) as u16, 0);
                    }
                    for _ in 0..holds - outer {
                        put(&mut list, 14, rng.below(64) as u16, 0);
                    }
                    if !statement {
                        put(&mut list, 41, 0, 1);
                    }
                }
                3 => {
                    // loops, one in the other, and variables beside them
                    let variables = 2 + rng.below(4) as u16;
                    put(&mut list, 1, variables, 1);
                    for i in 0..variables {
                        put(&mut list, 10, i, 1);
                    }
                    for i in 0..10 {
                        put(&mut list, 31, i, 0);
                        for _ in 0..3 {
                            put(&mut list, 40, 0, 1);
                        }
                    }
                    put(&mut list, 1, 0, 0);
                }
                _ => {
                    // `record of eight` nested in its last value needs seven more each time:
                    // 1 + 7 × 4 = 29 for four; the rest by + on the right.
                    let pluses = 2 + rng.below(4);
                    put(&mut list, 1, 1, 1);
                    put(&mut list, 12, 1, 256 * 8 + 1);
                    for i in 0..8 {
                        put(&mut list, 10, i, 1);
                    }
                    put(&mut list, 40, 0, 1);
                    put(&mut list, 28, 0, 0);
                    put(&mut list, 40, 0, 1);
                    for _ in 0..4 {
                        put(&mut list, 45, 1, 8);
                        for i in 0..7 {
                            put(&mut list, 40, 0, i);
                        }
                    }
                    for _ in 0..pluses {
                        put(&mut list, 49, 1, 0);
                        put(&mut list, 40, 0, 1);
                    }
                    put(&mut list, 40, 0, 1);
                }
            }
            bytes_of(&list)
        }
    }
}

/// A table made to be refused by some number.
pub fn some_refused_table(rng: &mut Rng) -> Vec<u8> {
    let number = 1 + rng.below(6) as u8;
    refused_table(rng, number)
}

/// A table of at most about `most` entries that the judge gives this number (0: accepts).
pub fn judged_table(rng: &mut Rng, number: u8, most: usize) -> Vec<u8> {
    for _ in 0..60 {
        let size = 3 + rng.below(most);
        let valid = write_tree(&some_program(rng, size));
        if valid.len() > most {
            continue;
        }
        let bytes = if number == 0 && rng.chance(70) {
            bytes_of(&valid)
        } else if number == 6 || (number != 0 && rng.chance(12)) {
            refused_table(rng, number)
        } else {
            damaged_table(rng, &valid)
        };
        if number_and_place(&judge_table(&bytes)).0 == number {
            return bytes;
        }
    }
    loop {
        let bytes = if number == 0 { notation::table("1 0 0") } else { refused_table(rng, number) };
        if number_and_place(&judge_table(&bytes)).0 == number {
            return bytes;
        }
    }
}
