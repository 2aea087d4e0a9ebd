//! `cue_check`, through the C interface, against the second evaluator: number and place of every refusal,
//! over generated, damaged and random tables. `judged` holds the three checks to each other.
#![cfg(desk)]

use second::evaluator::table::{bytes_of, write_tree, Entry};
use second::generate::damaged_entries::damaged_table;
use second::generate::damaged_structure::reshaped_table;
use second::generate::edge_cases::edge_table;
use second::generate::judged_tables::some_refused_table;
use second::generate::programs::some_program;
use second::generate::rng::Rng;
use second::generate::untyped_tables::{untyped_table, random_entries};
use second::harness::setup::{case_count, with_large_stack};
use second::harness::verdicts::judged;

/// A valid table, small as a rule.
fn valid_table(rng: &mut Rng) -> Vec<Entry> {
    let size = match rng.below(400) {
        0 => 200 + rng.below(1_700),
        1..=40 => 60 + rng.below(140),
        _ => 4 + rng.below(56),
    };
    write_tree(&some_program(rng, size))
}

/// How often each number was given, 0 for accepted, and how many places were not among the first entries.
#[derive(Debug, Default)]
struct Tally {
    numbers: [usize; 7],
    far: usize,
}

impl Tally {
    fn count(&mut self, bytes: &[u8]) {
        let (number, place) = judged(bytes);
        self.numbers[number as usize] += 1;
        self.far += (place > 8) as usize;
    }

    /// Each of these numbers in more than one of a hundred cases; only many cases can be asked to be spread.
    fn spread(&self, numbers: &[usize]) {
        let count: usize = self.numbers.iter().sum();
        println!("{self:?}");
        if count >= 4_000 {
            assert!(numbers.iter().all(|n| self.numbers[*n] > count / 100), "{self:?}");
            assert!(self.far > count / 50, "{self:?}");
        }
    }
}

/// So many cases, a valid table for each eight of them.
fn tally(seed: u64, count: usize, mut made: impl FnMut(&mut Rng, &[Entry], usize) -> Vec<u8> + Send) -> Tally {
    with_large_stack(move || {
        let mut tally = Tally::default();
        let mut rng = Rng::new(seed);
        let mut valid = Vec::new();
        for i in 0..count {
            if i % 8 == 0 {
                valid = valid_table(&mut rng);
            }
            tally.count(&made(&mut rng, &valid, i));
        }
        tally
    })
}

#[test]
fn generated_and_damaged_tables() {
    let tally = tally(1, case_count(150_000), |rng, valid, i| if i % 8 == 0 { bytes_of(valid) } else { damaged_table(rng, valid) });
    tally.spread(&[0, 1, 2, 3, 4, 5]);
}

#[test]
fn reshaped_tables() {
    let tally = tally(2, case_count(120_000), |rng, valid, _| reshaped_table(rng, valid));
    tally.spread(&[0, 2, 3, 4, 6]);
}

#[test]
fn untyped_tables() {
    with_large_stack(|| {
        let mut tally = Tally::default();
        let mut rng = Rng::new(3);
        for i in 0..case_count(150_000) {
            let entries = 2 + rng.below(40);
            tally.count(&match i % 8 {
                0 => random_entries(&mut rng),
                1 => edge_table(&mut rng),
                2 => some_refused_table(&mut rng),
                _ => untyped_table(&mut rng, entries),
            });
        }
        tally.spread(&[0, 2, 3, 4, 5, 6]);
    });
}
