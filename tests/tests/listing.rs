//! The proved listing program, crates/listing/out/listing: what it prints of a table is what the second evaluator lists, with the end sheet of paper
//! 02 (ticket 4); the second evaluator's listing is the machine's and the tree's.
#![cfg(desk)]

use std::io::Write;
use std::path::{Path, PathBuf};
use std::process::{Command, Stdio};

use second::evaluator::answer::Refusal;
use second::evaluator::table::{bytes_of, write_tree};
use second::generate::damaged_entries::damaged_table;
use second::generate::edge_cases::{deciding_table, edge_table};
use second::generate::end_sheets::{self, Case};
use second::generate::judged_tables::some_refused_table;
use second::generate::loops::looping_table;
use second::generate::notation::table;
use second::generate::programs::{plan, program, some_program, some_size};
use second::generate::rng::Rng;
use second::harness::listings::{listed, printed_lines, Listing};
use second::harness::setup::{case_count, with_large_stack};

/// From the repository's root.
fn path(name: &str) -> PathBuf {
    Path::new(env!("CARGO_MANIFEST_DIR")).join("..").join(name)
}

/// What the program prints of these bytes on its standard input.
fn printed(bytes: &[u8]) -> String {
    let program = path("crates/listing/out/listing");
    assert!(program.exists(), "there is no {}: run 'rt run' in crates/listing first", program.display());
    let mut child = Command::new(program).stdin(Stdio::piped()).stdout(Stdio::piped()).spawn().expect("the listing program runs");
    child.stdin.take().unwrap().write_all(bytes).unwrap();
    let output = child.wait_with_output().unwrap();
    assert!(output.status.success(), "the listing program ends with {}: table {bytes:?}", output.status);
    String::from_utf8(output.stdout).unwrap()
}

fn text(lines: &[String]) -> String {
    lines.iter().map(|line| format!("{line}\n")).collect()
}

#[test]
fn the_stored_listings() {
    let mut count = 0;
    for file in std::fs::read_dir(path("examples")).expect("examples/ is there") {
        let file = file.unwrap().path();
        if file.extension().is_some_and(|sort| sort == "table") {
            let wanted = std::fs::read_to_string(file.with_extension("listing")).unwrap();
            assert_eq!(printed(&std::fs::read(&file).unwrap()), wanted, "{file:?}");
            count += 1;
        }
    }
    assert_eq!(count, 12);
}

// Tables with the listing that is written down.

fn assert_printed(cases: Vec<Case>) {
    assert!(!cases.is_empty());
    for Case { what, bytes, lines } in cases {
        assert_eq!(printed(&bytes), text(&lines), "{what}");
    }
}

#[test]
fn the_examples_of_the_end_sheet() {
    assert_printed(end_sheets::examples());
}

#[test]
fn dropped_readings_and_late_releases() {
    assert_printed(end_sheets::dropped_readings());
    assert_printed(end_sheets::releases_after_conditions());
}

#[test]
fn many_events() {
    assert_printed(end_sheets::many_events());
}

/// "after `refused` none"
#[test]
fn refused_tables() {
    assert_printed(end_sheets::refused());
    // more than is read
    assert_eq!(printed(&[0; 20_000]), "refused 1 0\n");
}

/// "Step 65,535 giving an event: the event, totals, `open 0`; ending: `end`."
#[test]
fn at_the_bound() {
    assert_printed(end_sheets::at_the_bound());
}

/// As the second evaluator lists it.
fn assert_listed(bytes: &[u8]) -> Result<Listing, Refusal> {
    let listed = listed(bytes, 0);
    assert_eq!(printed(bytes), text(&printed_lines(&listed)), "table {bytes:?}");
    listed
}

/// Endless macros whose 65,535 steps are mostly events, or mostly readings.
#[test]
fn endless_macros() {
    with_large_stack(|| {
        let endless = |body: &str| assert_listed(&table(&format!("1 0 1, 24 0 0, 41 0 1, {body}"))).unwrap();
        let sets = endless("28 0 0, 40 0 512, 40 0 255");
        let holds = endless(&format!("1 16 0, {}", "14 63 0,".repeat(16)));
        let readings = endless("26 0 0, 49 10 0, 51 0 0, 40 0 1, 51 0 0, 40 0 64");
        assert!(sets.sheet.sets > 10_000 && sets.end.is_none(), "{:?}", sets.sheet);
        assert!(holds.sheet.holds > 20_000 && holds.sheet.releases > 20_000 && holds.end.is_none(), "{:?}", holds.sheet);
        assert!(readings.sheet.readings > 10_000 && readings.events.is_empty() && readings.end.is_none(), "{:?}", readings.sheet);
    });
}

// Generated tables.

/// A program of any size and plan, some of them endless; or a table that is refused, or nearly.
fn some_table(rng: &mut Rng) -> Vec<u8> {
    match rng.below(20) {
        0 => edge_table(rng),
        1 => some_refused_table(rng),
        2 | 3 => {
            let size = 4 + rng.below(56);
            let valid = write_tree(&some_program(rng, size));
            damaged_table(rng, &valid)
        }
        4 => deciding_table(rng),
        5 => looping_table(rng),
        _ => {
            let size = some_size(rng, [60, 30, 9]);
            let mut made = plan(rng, size);
            if rng.chance(30) {
                made.forever = 70;
            }
            bytes_of(&write_tree(&program(rng, made)))
        }
    }
}

/// What the tables were.
#[derive(Default, Debug)]
struct Spread {
    refused: usize,
    ended: usize,
    by_condition: usize,
    open: usize,
    ended_with_readings: usize,
    open_with_readings: usize,
    /// Readings and no event, or events and no reading.
    readings_alone: usize,
    events_alone: usize,
    events: usize,
    readings: usize,
}

impl Spread {
    fn note(&mut self, listed: &Result<Listing, Refusal>) {
        let Ok(Listing { events, sheet, end }) = listed else {
            self.refused += 1;
            return;
        };
        self.ended += end.is_some() as usize;
        self.by_condition += end.is_some_and(|code| code > 0) as usize;
        self.open += end.is_none() as usize;
        self.ended_with_readings += (end.is_some() && sheet.readings > 0) as usize;
        self.open_with_readings += (end.is_none() && sheet.readings > 0) as usize;
        self.readings_alone += (events.is_empty() && sheet.readings > 0) as usize;
        self.events_alone += (!events.is_empty() && sheet.readings == 0) as usize;
        self.events += events.len();
        self.readings += sheet.readings;
    }

    /// Only many tables can be asked to be spread.
    fn assert(&self, count: usize) {
        println!("{count} tables: {self:?}");
        if count < 500 {
            return;
        }
        assert!(self.refused > count / 20 && self.ended > count / 3 && self.by_condition > count / 8 && self.open > count / 50, "{self:?}");
        assert!(self.ended_with_readings > count / 8 && self.open_with_readings > count / 80, "{self:?}");
        assert!(self.readings_alone > count / 80 && self.events_alone > count / 8, "{self:?}");
        assert!(self.events > 10 * count && self.readings > 10 * count, "{self:?}");
    }
}

#[test]
fn generated_tables() {
    with_large_stack(|| {
        let count = case_count(1_000);
        let mut spread = Spread::default();
        for seed in 0..count {
            let mut rng = Rng::new(51_000_000 + seed as u64);
            spread.note(&assert_listed(&some_table(&mut rng)));
        }
        spread.assert(count);
    });
}
