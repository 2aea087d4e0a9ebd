//! The end sheet (paper 02, ticket 4) on the tree and on the plain machine: its examples, and that the readings which runs hand over beside
//! their answers are those of the tree's trace, whatever the allowances.

use second::evaluator::answer::{Answer, Event, Item};
use second::evaluator::code::{judge_macro, Macro};
use second::evaluator::compiler::compile;
use second::evaluator::execute::{budget, execute};
use second::evaluator::machine::{fresh, run_counted, step, State};
use second::evaluator::names::judge_table;
use second::evaluator::table::{bytes_of, write_tree, Tree};
use second::generate::end_sheets::{at_the_bound, dropped_readings, examples, many_events, refused, releases_after_conditions, Case};
use second::generate::programs::{plan, program, some_size};
use second::generate::rng::Rng;
use second::generate::runs::some_run;
use second::harness::listings::{listing_of, Listing, Sheet};
use second::harness::setup::{case_count, with_large_stack};
use second::plain;

/// Tree and machine give the listing that is written down.
fn assert_listed(cases: Vec<Case>, count: usize) {
    with_large_stack(|| {
        assert_eq!(cases.len(), count);
        for Case { what, bytes, lines } in cases {
            assert_eq!(listing_of(&bytes, 0), lines, "{what}");
        }
    });
}

#[test]
fn the_examples() {
    assert_listed(examples(), 4);
}

/// "a reading whose value is dropped counts", "a fader out of range takes no reading"
#[test]
fn readings_whose_value_is_dropped() {
    assert_listed(dropped_readings(), 14);
}

#[test]
fn releases_after_a_condition_count() {
    assert_listed(releases_after_conditions(), 2);
}

#[test]
fn totals_of_many_events() {
    assert_listed(many_events(), 8);
}

#[test]
fn no_totals_after_refused() {
    assert_listed(refused(), 10);
}

/// "Step 65,535 giving an event: the event, totals, `open 0`; ending: `end`."
#[test]
fn totals_at_the_bound() {
    assert_listed(at_the_bound(), 1 + 14 + 1 + 7);
}

/// "Each total equals the number of such lines printed", counted in the listing's text.
#[test]
fn totals_are_counts_of_lines() {
    let sheet = Sheet { sets: 12, holds: 3, releases: 0, readings: 65_535 };
    assert_eq!(sheet.lines(), ["sets 12", "holds 3", "releases 0", "readings 65535"]);
    with_large_stack(|| {
        for Case { what, bytes, .. } in [dropped_readings(), releases_after_conditions(), at_the_bound()].into_iter().flatten() {
            let lines = listing_of(&bytes, 0);
            for (word, total) in [("set ", "sets"), ("hold ", "holds"), ("release ", "releases")] {
                let count = lines.iter().filter(|line| line.starts_with(word)).count();
                assert_eq!(lines.iter().filter(|line| **line == format!("{total} {count}")).count(), 1, "{what}: {lines:?}");
            }
        }
    });
}

// Runs in slices.

/// What a list of runs gave.
#[derive(Default)]
struct Runs {
    listing: Listing,
    /// The bank of each reading taken, by the numbers that the runs hand over.
    banks: Vec<Vec<u8>>,
    steps: u64,
    refused: usize,
    /// Runs with more than one reading.
    several: usize,
    /// Whether a run without an event or end took readings.
    carried: bool,
}

/// The readings that so many steps take, one at a time.
fn readings_of_steps(m: &Macro, state: &mut State, bank: &[u8], steps: u64) -> u16 {
    let mut taken = 0;
    for _ in 0..steps {
        let mut read = |fader: u8| {
            taken += 1;
            bank[fader as usize - 1]
        };
        step(m, state, &mut read).unwrap();
    }
    taken
}

/// Runs with random allowances, each with a bank of its own, a refused one among them now and then, until an end or so many runs.
fn some_runs(rng: &mut Rng, m: &Macro, most: usize) -> Runs {
    let mut runs = Runs::default();
    let mut state = fresh(m);
    let largest = if rng.chance(10) { 65_535 } else { 400 };
    for _ in 0..most {
        let one = some_run(rng, largest);
        let bank = one.bank();
        let mut stepped = state.clone();
        let (answer, readings) = run_counted(m, &mut state, &bank, one.allowance).unwrap();
        let steps = answer.numbers()[1];
        assert_eq!(readings_of_steps(m, &mut stepped, &bank, steps), readings);
        assert_eq!(stepped, state);
        runs.steps += steps;
        runs.several += (readings > 1) as usize;
        runs.refused += matches!(answer, Answer::Refusal(_)) as usize;
        runs.carried |= matches!(answer, Answer::AllowanceUsed { .. }) && readings > 0;
        runs.listing.note(&answer, readings);
        runs.banks.extend(vec![bank; readings as usize]);
        if let Answer::End { code, .. } = answer {
            // the end again takes none
            let again = run_counted(m, &mut state, &[0; 64], one.allowance).unwrap();
            assert_eq!(again, (Answer::End { steps: 0, code }, 0));
            break;
        }
    }
    runs
}

/// The plain compiler's macro.
fn plainly(tree: &Tree) -> Macro {
    let mut code = vec![0; 1 << 21];
    let length = plain::compiler::compile(&bytes_of(&write_tree(tree)), &mut code).unwrap();
    judge_macro(&code[..length]).unwrap().code
}

#[derive(Default, Debug)]
struct Spread {
    ended: usize,
    by_condition: usize,
    open: usize,
    readings: usize,
    ended_with: usize,
    open_with: usize,
    refused: usize,
    several: usize,
    carried: usize,
}

impl Spread {
    fn note(&mut self, runs: &Runs) {
        let end = runs.listing.end;
        let some = (runs.listing.sheet.readings > 0) as usize;
        self.ended += end.is_some() as usize;
        self.by_condition += end.is_some_and(|code| code > 0) as usize;
        self.open += end.is_none() as usize;
        self.readings += runs.listing.sheet.readings;
        self.ended_with += end.map_or(0, |_| some);
        self.open_with += end.map_or(some, |_| 0);
        self.refused += runs.refused;
        self.several += runs.several;
        self.carried += runs.carried as usize;
    }
}

/// The readings that runs hand over, summed up, are those of the tree's trace: of all of it, or of as much as the steps carried.
#[test]
fn readings_of_runs_are_those_of_the_tree() {
    with_large_stack(|| {
        let count = case_count(6_000);
        let mut spread = Spread::default();
        for seed in 0..count {
            let mut rng = Rng::new(50_000_000 + seed as u64);
            let size = some_size(&mut rng, [60, 30, 9]);
            let mut made = plan(&mut rng, size);
            if rng.chance(10) {
                made.forever = 70;
            }
            let tree = program(&mut rng, made);
            let m = if seed % 2 == 0 { plainly(&tree) } else { compile(&tree) };
            // some are left after a few runs
            let most = *rng.pick(&[1_000, 80, 80, 80, 80, 80, 12, 5, 2]);
            let runs = some_runs(&mut rng, &m, most);
            // a reading that the runs did not come to is 0
            let oracle = |k: usize, fader: u8| runs.banks.get(k).map_or(0, |bank| bank[fader as usize - 1]);
            runs.listing.assert_of_tree(&tree, &oracle, runs.steps);
            spread.note(&runs);
        }
        println!("{count} programs: {spread:?}");
        if count >= 2_000 {
            assert!(spread.ended > count / 3 && spread.by_condition > count / 8 && spread.open > count / 20, "{spread:?}");
            assert!(spread.ended_with > count / 10 && spread.open_with > count / 50 && spread.readings > count, "{spread:?}");
            assert!(spread.refused > count / 10 && spread.several > count / 50 && spread.carried > count / 20, "{spread:?}");
        }
    });
}

/// The readings of single steps: each is in the sum of the run that took it, whatever the slices.
#[test]
fn every_slice_of_a_macro_with_readings() {
    let Case { bytes, .. } = examples().remove(1);
    let tree = judge_table(&bytes).unwrap();
    let m = plainly(&tree);
    for slice in 1..=12 {
        let mut state = fresh(&m);
        let mut given = Vec::new();
        loop {
            let (answer, readings) = run_counted(&m, &mut state, &[0; 64], slice).unwrap();
            given.push(readings);
            if matches!(answer, Answer::End { .. }) {
                break;
            }
        }
        assert_eq!(given.iter().sum::<u16>(), 2, "{slice}: {given:?}");
    }
    let items = execute(&tree, &mut |_, _| 0, budget(9)).items;
    let reading = Item::Reading { fader: 3, value: 0 };
    assert_eq!(items, [reading, reading, Item::Event(Event::Set { channel: 1, level: 0 })]);
}
