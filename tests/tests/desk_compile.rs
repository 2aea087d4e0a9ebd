//! `cue_compile`, through the C interface: random programs of all sizes are checked, compiled, loaded, started and run, and do what the
//! second evaluator's execution of their tree does; the bytes are those of the plain compiler; refused tables, and every room.
#![cfg(desk)]

use std::cell::RefCell;
use std::collections::BTreeMap;
use std::path::Path;

use second::evaluator::answer::{Answer, Event, Item, Refusal};
use second::evaluator::code::{judge_macro, Macro};
use second::evaluator::execute::{budget, execute};
use second::evaluator::machine::{fresh, step, State};
use second::evaluator::names::judge_table;
use second::evaluator::state::LENGTH;
use second::evaluator::table::{bytes_of, entries_of, write_tree, Entry, Tree};
use second::generate::damaged_entries::damaged_table;
use second::generate::damaged_structure::reshaped_table;
use second::generate::edge_cases::{deciding_table, edge_table};
use second::generate::judged_tables::some_refused_table;
use second::generate::notation::table;
use second::generate::programs::{plan, program, some_program, some_size};
use second::generate::rng::Rng;
use second::generate::runs::some_run;
use second::generate::untyped_tables::{untyped_table, random_entries};
use second::generate::worst_case_tables::worst_case_tables;
use second::harness::compare_machines::run_along;
use second::harness::desk::{self, compiled, MOST_MACRO_BYTES};
use second::harness::setup::{case_count, with_large_stack};
use second::harness::verdicts::judged;
use second::plain;

// Compiling.

thread_local! {
    static OUT: RefCell<Vec<u8>> = RefCell::new(vec![0; MOST_MACRO_BYTES]);
}

/// The bytes of the plain compiler, or its refusal.
fn plainly(table: &[u8]) -> Result<Vec<u8>, (u8, usize)> {
    OUT.with_borrow_mut(|out| {
        let length = plain::compiler::compile(table, out)?;
        Ok(out[..length].to_vec())
    })
}

/// The macro of an accepted table: the bytes of the plain compiler, in exactly their room; it passes the loading check, and the addresses
/// of its shapes rise.
fn macro_of(table: &[u8]) -> (Vec<u8>, Macro) {
    let wanted = plainly(table).expect("the table is accepted");
    let code = compiled(table, wanted.len()).expect("there is room");
    assert!(code == wanted, "other bytes than the plain compiler's: table {table:?}");
    assert_eq!(desk::unpacked(desk::load(&code)), [1, 0, 0, 0], "no compiled macro is refused: table {table:?}");
    let m = judge_macro(&code).expect("no compiled macro is refused").code;
    assert!(m.shapes.windows(2).all(|pair| pair[0].address < pair[1].address), "shapes rise: table {table:?}");
    (code, m)
}

// Runs.

/// What a list of runs of a macro answered, and what it was fed.
#[derive(Default)]
struct Runs {
    events: Vec<Event>,
    end: Option<u8>,
    steps: u64,
    runs: usize,
    /// Fader and value of every reading, in order: the value is that of the bank of the run in which the reading falls.
    readings: Vec<(u8, u8)>,
    /// Whether two of them came from different banks.
    banks: bool,
}

/// The readings that a run takes; the second evaluator's machine does it on a copy of its state.
fn readings_of(m: &Macro, machine: &State, bank: &[u8], allowance: u16) -> Vec<(u8, u8)> {
    let mut state = machine.clone();
    let mut taken = Vec::new();
    for _ in 0..if bank.len() == 64 { allowance } else { 0 } {
        if matches!(state, State::Ended { .. }) {
            break;
        }
        let mut read = |fader: u8| {
            let value = bank[fader as usize - 1];
            taken.push((fader, value));
            value
        };
        if let Some(Item::Event(_)) = step(m, &mut state, &mut read).expect("a passed macro is never stuck") {
            break;
        }
    }
    taken
}

/// A start, and runs with random allowances and banks, a refused one among them now and then, until an end or so many runs.
fn some_runs(rng: &mut Rng, m: &Macro, code: &[u8], most: usize) -> Runs {
    let noise = rng.byte();
    let mut state = vec![noise; LENGTH];
    assert_eq!(desk::unpacked(desk::start(code, &mut state)), [1, 0, 0, 0]);
    let mut machine = fresh(m);
    // Where the second evaluator's machine and three plain ones go along, every byte of the state is compared; that takes its time.
    let along = rng.chance(6);
    let mut list = Runs::default();
    let mut bank_before = None;
    let largest = if rng.chance(10) { 65_535 } else { 400 };
    while list.runs < most && list.end.is_none() {
        let mut one = some_run(rng, largest);
        if rng.chance(50) {
            one.allowance = largest;
        }
        let bank = one.bank();
        let taken = readings_of(m, &machine, &bank, one.allowance);
        if !taken.is_empty() {
            list.banks |= bank_before.is_some_and(|before| before != bank);
            bank_before = Some(bank.clone());
        }
        list.readings.extend(taken);
        let answer = if along {
            run_along(m, code, &mut machine, &mut state, &bank, one.allowance)
        } else {
            let answer = second::evaluator::machine::run(m, &mut machine, &bank, one.allowance).expect("a passed macro is never stuck");
            assert_eq!(desk::run(code, &mut state, &bank, one.allowance), answer.packed());
            answer
        };
        list.runs += 1;
        list.steps += answer.numbers()[1];
        match answer {
            Answer::Event { event, .. } => list.events.push(event),
            Answer::End { code, .. } => list.end = Some(code),
            Answer::AllowanceUsed { .. } => {}
            Answer::Refusal(refusal) => assert_eq!((refusal, bank.len() == 64), (Refusal { number: 11, place: 0 }, false)),
        }
    }
    list
}

/// The tree, read to as the runs were, says the same: all of it where the runs ended; where they are still open, what they answered is
/// the beginning.
fn as_the_tree(tree: &Tree, list: &Runs) {
    let mut oracle = |k: usize, fader: u8| match list.readings.get(k) {
        Some((asked, value)) => {
            assert_eq!(*asked, fader, "reading {k} is of another fader");
            *value
        }
        // A reading that the runs did not come to.
        None => 0,
    };
    // Every step of the tree that costs fuel takes the machine a step.
    let x = execute(tree, &mut oracle, budget(list.steps + 2));
    let events = x.events();
    if list.end.is_some() {
        assert_eq!((x.end, &events), (list.end, &list.events));
        assert_eq!(x.items.len(), list.events.len() + list.readings.len());
    } else {
        assert!(events.starts_with(&list.events), "tree {events:?}, runs {:?}", list.events);
    }
}

// What the programs were.

#[derive(Default, Debug)]
struct Spread {
    ends: BTreeMap<u8, usize>,
    open: usize,
    /// How many programs have an entry of each kind.
    kinds: BTreeMap<u16, usize>,
    largest: usize,
    longest: usize,
    runs: usize,
    events: usize,
    readings: usize,
    banks: usize,
}

impl Spread {
    fn note(&mut self, list: &[Entry], m: &Macro, runs: &Runs) {
        match runs.end {
            Some(end) => *self.ends.entry(end).or_default() += 1,
            None => self.open += 1,
        }
        let mut kinds: Vec<u16> = list.iter().map(|e| e.kind).collect();
        kinds.sort_unstable();
        kinds.dedup();
        for kind in kinds {
            *self.kinds.entry(kind).or_default() += 1;
        }
        self.largest = self.largest.max(list.len());
        self.longest = self.longest.max(m.code.len());
        self.runs += runs.runs;
        self.events += runs.events.len();
        self.readings += runs.readings.len();
        self.banks += runs.banks as usize;
    }

    /// Every kind, every end and programs that go on, each often; only many programs can be asked to be spread.
    fn assert(&self, count: usize) {
        println!("{count} programs: {self:?}");
        if count < 5_000 {
            return;
        }
        let kinds = [1, 10, 11, 12, 14, 20, 21, 22, 23, 24, 25, 26, 27, 28, 30, 31, 40, 41, 42, 43, 44, 45, 46, 47, 48, 49, 50, 51, 53];
        for kind in kinds {
            assert!(self.kinds.get(&kind).is_some_and(|n| *n > count / 50), "kind {kind}: {self:?}");
        }
        assert!(self.ends[&0] > count / 5, "{self:?}");
        for condition in 20..=28 {
            assert!(self.ends.get(&condition).is_some_and(|n| *n > count / 2_000), "condition {condition}: {self:?}");
        }
        assert!(self.open > count / 200 && self.open < count / 2, "{self:?}");
        assert!(self.largest > 1_500 && self.longest > 1_500, "{self:?}");
        assert!(self.events > 4 * count && self.readings > count / 2 && self.banks > count / 100, "{self:?}");
    }
}

#[test]
fn programs_do_what_their_tree_does() {
    with_large_stack(|| {
        let count = case_count(100_000);
        let mut spread = Spread::default();
        for seed in 0..count {
            let mut rng = Rng::new(40_000_000 + seed as u64);
            let bytes = match rng.below(20) {
                0 => deciding_table(&mut rng),
                _ => {
                    let size = some_size(&mut rng, [60, 30, 9]);
                    let mut made = plan(&mut rng, size);
                    if rng.chance(8) {
                        made.forever = 70;
                    }
                    bytes_of(&write_tree(&program(&mut rng, made)))
                }
            };
            assert_eq!(desk::checked(&bytes), (0, 0));
            let tree = judge_table(&bytes).unwrap();
            let (code, m) = macro_of(&bytes);
            let most = if rng.chance(5) { 2_000 } else { 80 };
            let runs = some_runs(&mut rng, &m, &code, most);
            as_the_tree(&tree, &runs);
            spread.note(&entries_of(&bytes), &m, &runs);
        }
        spread.assert(count);
    });
}

// Refusals.

/// The compiler refuses as the check does, whatever the room; and a table that it accepts is compiled, or refused by 7.
fn as_the_check(bytes: &[u8], room: usize) -> u8 {
    let (number, place) = judged(bytes);
    let given = compiled(bytes, room);
    match plainly(bytes) {
        Ok(wanted) => {
            assert_eq!(number, 0);
            let enough = wanted.len() <= room;
            assert_eq!(given, if enough { Ok(wanted) } else { Err(Refusal { number: 7, place: 0 }) }, "room {room}, table {bytes:?}");
            if enough {
                0
            } else {
                7
            }
        }
        Err(refused) => {
            assert_eq!(refused, (number, place));
            assert_eq!(given, Err(Refusal { number, place }), "room {room}, table {bytes:?}");
            number
        }
    }
}

#[test]
fn damaged_tables_as_the_check() {
    with_large_stack(|| {
        let count = case_count(100_000);
        let mut numbers = [0usize; 8];
        let mut rng = Rng::new(41);
        let mut valid = Vec::new();
        for i in 0..count {
            if i % 8 == 0 {
                let size = 4 + rng.below(56);
                valid = write_tree(&some_program(&mut rng, size));
            }
            let bytes = match i % 8 {
                0 => bytes_of(&valid),
                1 => edge_table(&mut rng),
                2 => some_refused_table(&mut rng),
                3 => reshaped_table(&mut rng, &valid),
                4 if rng.chance(50) => random_entries(&mut rng),
                4 => {
                    let entries = 2 + rng.below(40);
                    untyped_table(&mut rng, entries)
                }
                _ => damaged_table(&mut rng, &valid),
            };
            let room = if rng.chance(50) { 8_192 } else { rng.below(600) };
            numbers[as_the_check(&bytes, room) as usize] += 1;
        }
        println!("{count} tables: {numbers:?}");
        assert!(count < 4_000 || numbers.iter().all(|n| *n > count / 200), "{numbers:?}");
    });
}

/// 7: "output shorter than the macro", and no other room.
#[test]
fn every_room() {
    with_large_stack(|| {
        for seed in 0..case_count(2_000) {
            let mut rng = Rng::new(42_000_000 + seed as u64);
            let size = 5 + rng.below(100);
            let bytes = bytes_of(&write_tree(&some_program(&mut rng, size)));
            let length = plainly(&bytes).unwrap().len();
            for room in [0, 1, 2, 7, 8, length / 2, length - 9, length - 2, length - 1] {
                assert_eq!(as_the_check(&bytes, room), 7);
            }
            for room in [length, length + 1, length + 2, length + 8, length + 1 + rng.below(4_096)] {
                assert_eq!(as_the_check(&bytes, room), 0);
            }
        }
    });
}

/// The tables of examples/.
fn examples() -> Vec<Vec<u8>> {
    let folder = Path::new(env!("CARGO_MANIFEST_DIR")).join("../examples");
    let paths = std::fs::read_dir(folder).expect("examples/ is there").map(|file| file.unwrap().path());
    paths.filter(|path| path.extension().is_some_and(|sort| sort == "table")).map(|path| std::fs::read(path).unwrap()).collect()
}

/// "Equal tables then compile to equal bytes" (paper 02, ticket 10): whatever the room is and whatever stood in it.
#[test]
fn equal_tables_compile_to_equal_bytes() {
    with_large_stack(|| {
        let mut rng = Rng::new(44);
        let mut tables = examples();
        assert!(!tables.is_empty());
        for _ in 0..case_count(5_000) {
            let size = some_size(&mut rng, [60, 30, 9]);
            tables.push(bytes_of(&write_tree(&some_program(&mut rng, size))));
        }
        for bytes in tables {
            let (code, _) = macro_of(&bytes);
            for before in [0, 255, rng.byte()] {
                let mut out = vec![before; code.len() + rng.below(4_096)];
                assert_eq!(desk::unpacked(desk::compile(&bytes, &mut out)), [1, 0, 0, code.len() as u64]);
                assert!(out[..code.len()] == code, "other bytes in {} bytes of {before}: table {bytes:?}", out.len());
            }
        }
    });
}

/// Bytes that are no table: 1 comes first, whatever the room.
#[test]
fn no_table() {
    for length in [0, 1, 7, 9, 16_377, 16_383, 16_385, 16_392, 20_000] {
        for room in [0, 1, 100] {
            assert_eq!(as_the_check(&vec![0; length], room), 1);
        }
    }
    assert_eq!(as_the_check(&vec![0; 16_384], 0), 2);
    // Accepted, but no byte is lent.
    assert_eq!(as_the_check(&table("1 0 0"), 0), 7);
}

#[test]
fn worst_case_tables_as_the_check() {
    with_large_stack(|| {
        for (what, bytes, number) in worst_case_tables() {
            assert_eq!(as_the_check(&bytes, MOST_MACRO_BYTES), number, "{what}");
        }
    });
}

// Certain programs.

/// What runs of a program in the papers' notation answer, and how they end.
fn events_of(text: &str) -> (Vec<Event>, Option<u8>) {
    let bytes = table(text);
    let (code, m) = macro_of(&bytes);
    let runs = some_runs(&mut Rng::new(43), &m, &code, 2_000);
    as_the_tree(&judge_table(&bytes).unwrap(), &runs);
    (runs.events, runs.end)
}

fn set(channel: u16, level: u8) -> Event {
    Event::Set { channel, level }
}

fn hold(group: u8) -> Event {
    Event::Hold { group }
}

fn release(group: u8) -> Event {
    Event::Release { group }
}

/// "A goto that releases the innermost block's holds only."
#[test]
fn a_goto_out_of_two_blocks() {
    let text = "1 1 2, 14 9 0, 1 1 1, 14 1 0, 1 2 1, 14 2 0, 14 3 0, 25 5 0, 20 5 0";
    let events = vec![hold(9), hold(1), hold(2), hold(3), release(3), release(2), release(1), release(9)];
    assert_eq!(events_of(text), (events, Some(0)));
}

/// "Resetting a block's variables on a backward goto inside it."
#[test]
fn a_backward_goto_keeps_variables() {
    let text = "1 0 1, 1 1 4, 10 1 1, 20 5 0, 28 0 0, 40 0 1, 44 1 0, 21 0 0, 44 1 0, 49 1 0, 44 1 0, 40 0 1,\
        22 0 0, 49 6 0, 44 1 0, 40 0 3, 25 5 0";
    assert_eq!(events_of(text), (vec![set(1, 0), set(1, 1), set(1, 2)], Some(0)));
}

/// "Logical `X and Y` is Y only where X is true, and `or` likewise."
#[test]
fn and_and_or_have_short_cuts() {
    let never = "49 10 0, 49 4 0, 40 0 1, 40 0 0, 40 0 1";
    let shown = |test: &str| events_of(&format!("1 0 1, 23 0 0, {test}, 28 0 0, 40 0 1, 40 0 1, 28 0 0, 40 0 1, 40 0 0"));
    assert_eq!(shown(&format!("49 12 0, 41 0 0, {never}")), (vec![set(1, 0)], Some(0)));
    assert_eq!(shown(&format!("49 13 0, 41 0 1, {never}")), (vec![set(1, 1)], Some(0)));
    assert_eq!(shown(&format!("49 12 0, 41 0 1, {never}")), (vec![], Some(21)));
    assert_eq!(shown(&format!("49 13 0, 41 0 0, {never}")), (vec![], Some(21)));
}

/// "Releasing after a condition only what the current procedure holds."
#[test]
fn a_condition_releases_the_callers_holds() {
    let text = "1 2 1, 12 1 0, 1 1 1, 14 2 0, 26 0 0, 41 0 0, 14 1 0, 1 1 1, 14 3 0, 27 1 0";
    let events = vec![hold(1), hold(3), hold(2), release(2), release(3), release(1)];
    assert_eq!(events_of(text), (events, Some(23)));
}

/// The most instructions that are known of a table (L12): a goto out of 16 holds as every arm of a case, 22 for each.
#[test]
fn the_most_instructions() {
    with_large_stack(|| {
        let arms = 2_048 - 21;
        let text = format!("1 0 2, {}, 20 5 0", gotos_out_of_holds(arms));
        let bytes = table(&text);
        assert_eq!(bytes.len(), 16_384);
        let (_, m) = macro_of(&bytes);
        assert_eq!(m.code.len(), 22 * arms + 35 + 1);
        let (events, end) = events_of(&text);
        assert_eq!((events.len(), end), (32, Some(0)));
    });
}

/// The same in a block expression while 30 values wait, so that the shapes are long: the longest macro that is known.
#[test]
fn the_longest_macro() {
    with_large_stack(|| {
        let arms = 2_048 - 83;
        let waiting = "49 1 0, 40 0 1, ".repeat(29);
        let text = format!("1 0 1, 28 0 0, 40 0 1, {waiting} 53 0 2, {}, 20 5 0, 40 0 1", gotos_out_of_holds(arms));
        let bytes = table(&text);
        assert_eq!(bytes.len(), 16_384);
        // docs/REFERENCE.md has this number
        assert_eq!(macro_of(&bytes).0.len(), 488_186);
        let (events, end) = events_of(&text);
        assert_eq!((events.len(), events.last(), end), (33, Some(&set(1, 30)), Some(0)));
    });
}

/// A block with 16 holds, and in it a case that takes the last of its arms; each is a goto to label 5.
fn gotos_out_of_holds(arms: usize) -> String {
    format!("1 16 1 {}, 30 {arms} 0, 40 0 {arms} {}", ", 14 7 0".repeat(16), ", 25 5 0".repeat(arms))
}
