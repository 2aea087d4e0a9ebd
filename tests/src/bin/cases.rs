//! Prints cases for the prover: `cases SORT SEED COUNT`, SORT one of tables, executions,
//! compiled, macros, runs, states. Each case is one line ending in ` ∷`; the last line is `[]`.

use second::evaluator::answer::{number_and_place, Event, Item};
use second::evaluator::code::{judge_macro, write_macro, Loaded};
use second::evaluator::compiler::compile;
use second::evaluator::execute::{execute, Budget, Execution};
use second::evaluator::machine::{fresh, run, run_counted, step, State};
use second::evaluator::names::judge_table;
use second::evaluator::state::{sound_state, LENGTH};
use second::evaluator::table::{bytes_of, write_tree, Tree};
use second::generate::edge_cases::{deciding_table, deep_macro, edge_macro, edge_state, edge_table};
use second::generate::judged_tables::judged_table;
use second::generate::loops::looping_table;
use second::generate::macros::{disordered_macro, good_macro, judged_macro, Size};
use second::generate::programs::{plan, program, some_program};
use second::generate::rng::Rng;
use second::generate::runs::{oracle, some_runs, Run};
use second::generate::states::state_bytes;

fn main() {
    let arguments: Vec<String> = std::env::args().collect();
    let usage = "usage: cases tables|executions|compiled|macros|runs|states SEED COUNT";
    if arguments.len() != 4 {
        eprintln!("{usage}");
        std::process::exit(2);
    }
    let sort = arguments[1].clone();
    let seed: u64 = arguments[2].parse().expect(usage);
    let count: usize = arguments[3].parse().expect(usage);
    // Generators and evaluators call themselves deeply.
    second::harness::setup::with_large_stack(|| print_cases(&sort, seed, count));
}

fn print_cases(sort: &str, seed: u64, count: usize) {
    // What is compiled are other programs than those that are executed.
    let stream = if sort == "compiled" { 1_000_000 } else { 0 };
    let mut rng = Rng::new(seed + stream);
    for i in 0..count {
        let line = match sort {
            "tables" => table_case(&mut rng, i),
            "macros" => macro_case(&mut rng, i),
            "executions" | "compiled" => execution_case(&mut rng, i),
            "runs" => run_case(&mut rng, i),
            "states" => state_case(&mut rng, i),
            _ => {
                eprintln!("no such sort of cases: {sort}");
                std::process::exit(2);
            }
        };
        println!("{line} ∷");
    }
    println!("[]");
}

/// `bytes N 0xHEX`: the number whose little-endian base-256 digits are the bytes.
fn bytes_text(bytes: &[u8]) -> String {
    format!("bytes {} {}", bytes.len(), number_text(bytes))
}

fn number_text(bytes: &[u8]) -> String {
    let mut hex = String::new();
    for byte in bytes.iter().rev() {
        if hex.is_empty() {
            if *byte != 0 {
                hex.push_str(&format!("{byte:x}"));
            }
        } else {
            hex.push_str(&format!("{byte:02x}"));
        }
    }
    if hex.is_empty() {
        hex.push('0');
    }
    format!("0x{hex}")
}

fn list_text(numbers: &[u64]) -> String {
    if numbers.is_empty() {
        return "[]".to_string();
    }
    let mut text = String::from("(");
    for n in numbers {
        text.push_str(&format!("{n} ∷ "));
    }
    text.push_str("[])");
    text
}

/// `judged (bytes N 0xHEX) NUMBER PLACE`
fn table_case(rng: &mut Rng, i: usize) -> String {
    const WANTED: [u8; 18] = [0, 2, 3, 0, 4, 5, 0, 4, 6, 0, 3, 2, 0, 5, 4, 0, 1, 3];
    let wanted = WANTED[i % WANTED.len()];
    let bytes = if i % 4 == 1 { edge_table(rng) } else { judged_table(rng, wanted, 30) };
    let (number, place) = number_and_place(&judge_table(&bytes));
    format!("judged ({}) {number} {place}", bytes_text(&bytes))
}

/// `loaded (bytes N 0xHEX) NUMBER PLACE`
fn macro_case(rng: &mut Rng, i: usize) -> String {
    const WANTED: [u8; 9] = [0, 8, 9, 0, 9, 8, 0, 9, 9];
    let wanted = WANTED[i % WANTED.len()];
    let size = Size { bodies: 3, instructions: 10, classes: 2 };
    let bytes = match i % 8 {
        1 | 5 => edge_macro(rng),
        // Random damage takes shapes out of order too seldom for so few cases.
        3 => write_macro(&disordered_macro(rng, size, 25)),
        _ => judged_macro(rng, wanted, size, 25),
    };
    let (number, place) = number_and_place(&judge_macro(&bytes));
    format!("loaded ({}) {number} {place}", bytes_text(&bytes))
}

// Executions.

/// The plain steps that the compiled program takes, if it ends within this many.
fn plain_steps(tree: &Tree, seed: u8, most: usize) -> Option<usize> {
    let m = compile(tree);
    let mut state = fresh(&m);
    let read = oracle(seed);
    let mut k = 0;
    for steps in 0..=most {
        if let State::Ended { .. } = state {
            return Some(steps);
        }
        let mut reading = |n: u8| {
            k += 1;
            read(k - 1, n)
        };
        step(&m, &mut state, &mut reading).expect("a compiled program is never stuck");
    }
    None
}

fn item_numbers(items: &[Item]) -> Vec<u64> {
    let mut numbers = Vec::new();
    for item in items {
        numbers.extend_from_slice(&match *item {
            Item::Event(Event::Set { channel, level }) => [1, channel as u64, level as u64],
            Item::Event(Event::Hold { group }) => [2, group as u64, 0],
            Item::Event(Event::Release { group }) => [3, group as u64, 0],
            Item::Reading { fader, value } => [4, fader as u64, value as u64],
        });
    }
    numbers
}

/// `executed (bytes N 0xHEX) SEED FUEL END (ITEMS)`
fn execution_case(rng: &mut Rng, i: usize) -> String {
    match i % 8 {
        1 => return deciding_case(rng),
        5 => return looping_case(rng),
        _ => {}
    }
    let forever = i % 12 == 6;
    // Each condition in turn, 0 between them; 26 and 27 take many steps, so they come less often.
    const ENDS: [u8; 13] = [0, 20, 0, 21, 22, 0, 23, 24, 0, 25, 0, 28, 0];
    let wanted = match i % 33 {
        31 => 26,
        _ => ENDS[i % ENDS.len()],
    };
    for attempt in 0.. {
        let size = if i.is_multiple_of(3) { 5 + rng.below(15) } else { 10 + rng.below(35) };
        let mut made = plan(rng, size);
        made.provoke = if wanted >= 20 { Some(wanted) } else { None };
        made.forever = if forever { 60 } else { 0 };
        let tree = program(rng, made);
        let table = bytes_of(&write_tree(&tree));
        if table.len() > 50 * 8 {
            continue;
        }
        let seed = rng.byte();
        if forever {
            if let Some((fuel, x)) = going(rng, &tree, seed) {
                return executed(&table, seed, fuel, 999, &x);
            }
            continue;
        }
        let x = execute(&tree, &mut oracle(seed), Budget { fuel: 400, line: u64::MAX, items: 150 });
        let end = match x.end {
            Some(end) => end,
            None => continue,
        };
        let most_steps = if end == 26 { 700 } else { 300 };
        // After many tries any end is taken.
        let patience = if wanted == 26 { 400 } else { 60 };
        if (end == wanted || attempt > patience) && plain_steps(&tree, seed, most_steps).is_some() {
            return executed(&table, seed, x.fuel, end as u64, &x);
        }
    }
    unreachable!()
}

/// A program in which operators decide on operands that are nearly equal.
fn deciding_case(rng: &mut Rng) -> String {
    let table = deciding_table(rng);
    let tree = judge_table(&table).expect("a deciding table is accepted");
    let x = execute(&tree, &mut oracle(0), Budget { fuel: 400, line: u64::MAX, items: 150 });
    let end = x.end.expect("it has no loop");
    executed(&table, 0, x.fuel, end as u64, &x)
}

/// A program whose events tell the values of its loops, at the ends of the 32-bit range as often as not.
fn looping_case(rng: &mut Rng) -> String {
    loop {
        let table = looping_table(rng);
        let tree = judge_table(&table).expect("a looping table is accepted");
        let x = execute(&tree, &mut oracle(0), Budget { fuel: 400, line: u64::MAX, items: 150 });
        if let (Some(end), true, Some(_)) = (x.end, table.len() <= 50 * 8, plain_steps(&tree, 0, 300)) {
            return executed(&table, 0, x.fuel, end as u64, &x);
        }
    }
}

/// A fuel at which the execution is still going, and an execution that is longer than any
/// trace at that fuel: it stops only when what is spent along one line passes the fuel.
fn going(rng: &mut Rng, tree: &Tree, seed: u8) -> Option<(u64, Execution)> {
    let fuel = rng.between(6, 40) as u64;
    let x = execute(tree, &mut oracle(seed), Budget { fuel: 5_000, line: fuel + 4, items: 200 });
    // Stopped by the line and by nothing else.
    if x.end.is_none() && x.line > fuel + 4 && x.items.len() <= 200 {
        Some((fuel, x))
    } else {
        None
    }
}

fn executed(table: &[u8], seed: u8, fuel: u64, end: u64, x: &Execution) -> String {
    let items = list_text(&item_numbers(&x.items));
    format!("executed ({}) {seed} {fuel} {end} {items}", bytes_text(table))
}

// Runs and states.

/// A small macro that passes: made directly, or compiled from a small program.
fn small_macro(rng: &mut Rng) -> Loaded {
    loop {
        let m = if rng.chance(60) {
            good_macro(rng, Size { bodies: 3, instructions: 10, classes: 2 })
        } else {
            let size = 5 + rng.below(14);
            compile(&some_program(rng, size))
        };
        if m.code.len() > 25 {
            continue;
        }
        // Mostly macros in which something happens: calls, records, holds, readings.
        let sorts = [10, 12, 17, 16, 15].iter().filter(|op| m.code.iter().any(|i| i.op == **op)).count();
        if sorts < 2 && !rng.chance(15) {
            continue;
        }
        return judge_macro(&write_macro(&m)).expect("a good macro passes");
    }
}

/// `ran (bytes N 0xHEX) (RUNS) (ANSWERS)`; an answer is tag, steps, first, second and the readings that the run took.
fn run_case(rng: &mut Rng, i: usize) -> String {
    const MOST_STEPS: u64 = 300;
    loop {
        let loaded = small_macro(rng);
        let mut runs = Vec::new();
        let mut state = fresh(&loaded.code);
        let mut answers = Vec::new();
        let mut steps = 0;
        for mut r in some_runs(rng, 8, if i.is_multiple_of(4) { 65_535 } else { 60 }) {
            // Not too many ends that are only answered again.
            if matches!(state, State::Ended { .. }) && rng.chance(60) {
                break;
            }
            // An allowance that would be used up whole is made smaller.
            let mut probe = state.clone();
            let given = run(&loaded.code, &mut probe, &r.bank(), r.allowance).expect("never stuck");
            if given.numbers()[1] + steps > MOST_STEPS {
                r = Run { allowance: rng.below(40) as u16, ..r };
            }
            let (answer, readings) = run_counted(&loaded.code, &mut state, &r.bank(), r.allowance).expect("never stuck");
            steps += answer.numbers()[1];
            answers.extend_from_slice(&answer.numbers());
            answers.push(readings as u64);
            runs.push(r);
        }
        let events = answers.chunks(5).filter(|a| a[0] >= 3).count();
        if steps > MOST_STEPS || (events == 0 && !rng.chance(15)) {
            continue;
        }
        // Two cases of three have a run that takes a reading, and every sixth one that takes several.
        let wanted = [0, 1, 1, 0, 1, 2][i % 6];
        if answers.chunks(5).all(|a| a[4] < wanted) {
            continue;
        }
        let mut numbers = Vec::new();
        for r in &runs {
            numbers.extend_from_slice(&[r.length as u64, r.seed as u64, r.allowance as u64]);
        }
        let bytes = write_macro(&loaded.code);
        return format!("ran ({}) {} {}", bytes_text(&bytes), list_text(&numbers), list_text(&answers));
    }
}

/// `held (bytes N 0xHEX) (SEGMENTS) FLAG`
fn state_case(rng: &mut Rng, i: usize) -> String {
    if i % 3 == 1 {
        let loaded = deep_macro();
        let bytes = edge_state(rng, &loaded);
        return held(&loaded, &bytes);
    }
    let wanted = i.is_multiple_of(2);
    loop {
        let loaded = small_macro(rng);
        let bytes = state_bytes(rng, &loaded, 40);
        // A large state only now and then, and an ended one, too.
        let used = bytes.iter().filter(|b| **b != 0).count();
        if (used > 400 || bytes[0] == 2) && !rng.chance(10) {
            continue;
        }
        // Mostly with more than the root alone, or with records.
        if bytes[0] == 0 && bytes[2] < 2 && bytes[4] == 0 && !rng.chance(8) {
            continue;
        }
        if sound_state(&loaded, &bytes).is_some() == wanted {
            return held(&loaded, &bytes);
        }
    }
}

fn held(loaded: &Loaded, bytes: &[u8]) -> String {
    let flag = sound_state(loaded, bytes).is_some();
    let code = write_macro(&loaded.code);
    format!("held ({}) {} {}", bytes_text(&code), segments_text(bytes), flag as u8)
}

/// GAP zero bytes, then N bytes, and so on, then zeros up to 24,576 bytes in all.
fn segments_text(bytes: &[u8]) -> String {
    assert_eq!(bytes.len(), LENGTH);
    let mut text = String::new();
    let mut written = 0;
    while let Some(first) = (written..LENGTH).find(|&k| bytes[k] != 0) {
        // A segment ends where eight zeros follow.
        let mut last = first;
        let mut k = first;
        while k < LENGTH && k <= last + 8 {
            if bytes[k] != 0 {
                last = k;
            }
            k += 1;
        }
        let segment = &bytes[first..=last];
        text.push_str(&format!("segment {} {} {} ∷ ", first - written, segment.len(), number_text(segment)));
        written = last + 1;
    }
    if text.is_empty() {
        return "[]".to_string();
    }
    format!("({text}[])")
}
