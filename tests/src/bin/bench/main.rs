//! Benchmarks: the proved library beside plain Rust on the same bytes, in one run. Not a test.
//!
//!     (cd ../crates/desk && rt lib) && cargo run --profile speed --offline --bin bench [PART...] [store]
//!
//! Parts: load, check, compile, machine, programs, chase; none named: all. At the end each ratio of the machine to the plain one is held to the one stored in
//! tests/bench.ratios, and a line says SLOWER where it is a fifth above; with the word store they are stored instead.

#[cfg(desk)]
mod chase;
#[cfg(desk)]
mod lua;
#[cfg(desk)]
mod programs;
#[cfg(desk)]
mod ratios;

#[cfg(desk)]
fn main() {
    const PARTS: [&str; 6] = ["load", "check", "compile", "machine", "programs", "chase"];
    let words: Vec<String> = std::env::args().skip(1).collect();
    let (store, parts): (Vec<&String>, Vec<&String>) = words.iter().partition(|word| *word == "store");
    if let Some(other) = parts.iter().find(|part| !PARTS.contains(&part.as_str())) {
        eprintln!("bench: there is no part {other}; there are {PARTS:?}");
        std::process::exit(2);
    }
    let wanted = |part: &str| parts.is_empty() || parts.iter().any(|word| *word == part);
    let mut ratios = ratios::Ratios::read();
    if wanted("load") {
        load::table();
    }
    if wanted("check") {
        check::table();
    }
    if wanted("compile") {
        compile::table();
        compile::to_first_event();
    }
    if wanted("machine") {
        runs::steps(&mut ratios);
        runs::fixed();
    }
    if wanted("programs") {
        programs::table_of_rounds(&mut ratios);
    }
    if wanted("chase") {
        chase::table_of_events();
        chase::table_of_loops();
    }
    if store.is_empty() {
        ratios.compare();
    } else {
        ratios.store();
    }
}

#[cfg(not(desk))]
fn main() {
    eprintln!("bench: there is no crates/desk/out/libdesk.a: run 'rt lib' in crates/desk first");
    std::process::exit(2);
}

/// The nanoseconds that this thread has been at work, whatever else the machine does.
#[cfg(desk)]
fn worked() -> f64 {
    #[repr(C)]
    struct Time {
        seconds: i64,
        nanoseconds: i64,
    }
    extern "C" {
        fn clock_gettime(clock: i32, time: *mut Time) -> i32;
    }
    const THREAD: i32 = 3;
    let mut time = Time { seconds: 0, nanoseconds: 0 };
    // SAFETY: C's function fills the time it is given.
    assert_eq!(unsafe { clock_gettime(THREAD, &mut time) }, 0);
    time.seconds as f64 * 1e9 + time.nanoseconds as f64
}

/// What one call of each takes, in nanoseconds: the least of many measurements, since whatever disturbs one only adds; in turn, so that
/// what slows the machine for a while slows all of them.
#[cfg(desk)]
fn in_turn<const N: usize>(works: [&mut dyn FnMut() -> u64; N]) -> [f64; N] {
    let timed = |work: &mut dyn FnMut() -> u64, calls: u32| {
        let start = worked();
        for _ in 0..calls {
            std::hint::black_box(work());
        }
        (worked() - start) / calls as f64
    };
    let mut least = [f64::INFINITY; N];
    for round in 0..100 {
        for i in 0..N {
            let calls = if round == 0 { 3 } else { (5e5 / least[i]).ceil() as u32 };
            least[i] = least[i].min(timed(works[i], calls));
        }
    }
    least
}

#[cfg(desk)]
fn nanoseconds(mut work: impl FnMut() -> u64) -> f64 {
    in_turn([&mut work])[0]
}

#[cfg(desk)]
mod load {
    use super::nanoseconds;
    use second::evaluator::code::{write_macro, Macro};
    use second::generate::notation::{body, code, shape};
    use second::harness::desk;
    use second::plain;

    /// Counting, testing and jumping, eight instructions at a time, each time to the next eight.
    pub fn counting(instructions: usize) -> Vec<u8> {
        let blocks = (instructions - 4) / 8;
        let mut text = String::new();
        let mut shapes = Vec::new();
        for k in 0..blocks {
            let next = 8 * (k + 1);
            text.push_str(&format!("5 0 0, 1 0 1, 7 1 0, 6 0 0, 5 0 0, 1 0 100, 7 6 0, 9 0 {next},"));
            shapes.push(shape(next as u16, 0, &[]));
        }
        text.push_str("1 0 1, 1 0 2, 15 0 0, 0 0 0");
        write_macro(&Macro { classes: Vec::new(), bodies: vec![body(0, 0, 0, &[1])], code: code(&text), shapes })
    }

    pub fn table() {
        println!("loading check: ns per instruction, one run, same bytes");
        println!("{:>13} {:>10} {:>10} {:>7}", "instructions", "cue_load", "plain", "ratio");
        for n in [20, 200, 2_000, 40_000] {
            let bytes = counting(n);
            assert_eq!(desk::unpacked(desk::load(&bytes)), [1, 0, 0, 0]);
            assert_eq!(plain::loader::load(&bytes), (0, 0));
            let count = (n - 4) / 8 * 8 + 4;
            let proved = nanoseconds(|| desk::load(&bytes)) / count as f64;
            let plain = nanoseconds(|| plain::loader::load(&bytes).1 as u64) / count as f64;
            println!("{count:>13} {proved:>10.2} {plain:>10.2} {:>7.2}", proved / plain);
        }
    }
}

#[cfg(desk)]
mod check {
    use super::in_turn;
    use second::evaluator::table::{bytes_of, write_tree, Entry};
    use second::generate::notation::entries;
    use second::generate::programs::{program, Plan};
    use second::generate::rng::Rng;
    use second::generate::worst_case_tables::worst_case_tables;
    use second::harness::desk;
    use second::harness::verdicts::judged;
    use second::plain;

    /// Counting, testing, a call and a held block, over and over, filled up by empty blocks to so many entries.
    fn counting(count: usize) -> Vec<u8> {
        filled("1 3 0, 10 1 1, 10 2 1, 12 3 256, 10 4 1, 28 0 0, 40 0 1, 44 4 0", count)
    }

    /// The same behind these entries: a root, its declarations and its first statements.
    pub fn filled(first: &str, count: usize) -> Vec<u8> {
        let mut list = entries(first);
        let statements = [
            entries("21 0 0, 44 1 0, 49 1 0, 44 1 0, 40 0 1"),
            entries("22 0 0, 49 6 0, 44 1 0, 40 0 100, 28 0 0, 40 0 1, 44 2 0"),
            entries("27 3 1, 49 3 0, 44 1 0, 40 0 2"),
            entries("1 1 1, 14 7 0, 21 0 0, 44 2 0, 51 0 0, 44 1 0"),
        ];
        for statement in statements.iter().cycle() {
            if list.len() + statement.len() > count {
                break;
            }
            list.extend(statement);
            list[0].b += 1;
        }
        list[0].b += (count - list.len()) as i32;
        list.resize(count, Entry { kind: 1, a: 0, b: 0 });
        bytes_of(&list)
    }

    /// Programs as the tests make them, of about so many entries.
    fn generated(count: usize) -> Vec<Vec<u8>> {
        let mut rng = Rng::new(count as u64);
        let plan = Plan { entries: count, wild: false, forever: 0, provoke: None };
        let mut made = || write_tree(&program(&mut rng, plan));
        (0..40).map(|_| bytes_of(&made())).collect()
    }

    fn row(what: &str, tables: &[Vec<u8>]) {
        let count: usize = tables.iter().map(|t| t.len() / 8).sum();
        for t in tables {
            judged(t);
        }
        let mut proved = || tables.iter().map(|t| desk::check(t)).sum();
        let mut plain = || tables.iter().map(|t| plain::check::check(t).1 as u64).sum();
        let [proved, plain] = in_turn([&mut proved, &mut plain]).map(|time| time / count as f64);
        println!("{what:>20} {:>8} {proved:>10.2} {plain:>10.2} {:>7.2}", count / tables.len(), proved / plain);
    }

    pub fn table() {
        println!("table check: ns per entry, one run, same bytes");
        println!("{:>20} {:>8} {:>10} {:>10} {:>7}", "table", "entries", "cue_check", "plain", "ratio");
        ordinary(row);
        for (what, table, _) in worst_case_tables() {
            row(what, &[table]);
        }
    }

    /// A row for each size of ordinary tables.
    pub fn ordinary(row: impl Fn(&str, &[Vec<u8>])) {
        for count in [10, 200, 2_048] {
            row("counting", &[counting(count)]);
        }
        for count in [10, 200, 2_000] {
            row("generated", &generated(count));
        }
    }
}

#[cfg(desk)]
mod compile {
    use super::check::{filled, ordinary};
    use super::in_turn;
    use second::evaluator::state::LENGTH;
    use second::generate::worst_case_tables::worst_case_tables;
    use second::harness::desk::{self, MOST_MACRO_BYTES};
    use second::plain;
    use second::plain::machine::IN_BYTES;

    /// The length of the macro in `out`, by the proved compiler and by the plain one.
    fn proved(table: &[u8], out: &mut [u8]) -> usize {
        let [tag, _, _, length] = desk::unpacked(desk::compile(table, out));
        assert_eq!(tag, 1);
        length as usize
    }

    fn plain(table: &[u8], out: &mut [u8]) -> usize {
        plain::compiler::compile(table, out).expect("the table is accepted")
    }

    /// Both write the same bytes. The output is not cleared between calls.
    fn row(what: &str, tables: &[Vec<u8>]) {
        let count: usize = tables.iter().map(|t| t.len() / 8).sum();
        let (mut one, mut other) = (vec![0; MOST_MACRO_BYTES], vec![0; MOST_MACRO_BYTES]);
        let mut bytes = 0;
        for t in tables {
            let (length, same) = (proved(t, &mut one), plain(t, &mut other));
            assert!(one[..length] == other[..same]);
            bytes += length;
        }
        let mut by_proved = || tables.iter().map(|t| proved(t, &mut one) as u64).sum();
        let mut by_plain = || tables.iter().map(|t| plain(t, &mut other) as u64).sum();
        let mut check = || tables.iter().map(|t| desk::check(t)).sum();
        let times = in_turn([&mut by_proved, &mut by_plain, &mut check]);
        let [proved, plain, check] = times.map(|time| time / count as f64);
        print!("{what:>20} {:>8} {:>8} {proved:>12.2} {plain:>10.2} {:>7.2}", count / tables.len(), bytes / tables.len(), proved / plain);
        println!(" {check:>10.2} {:>7.2}", proved / check);
    }

    pub fn table() {
        println!("compiler: ns per entry, the check inside it, one run, same bytes; and beside the check alone");
        print!("{:>20} {:>8} {:>8} {:>12} {:>10} {:>7}", "table", "entries", "macro", "cue_compile", "plain", "ratio");
        println!(" {:>10} {:>7}", "cue_check", "ratio");
        ordinary(row);
        for (what, table, number) in worst_case_tables() {
            if number == 0 {
                row(what, &[table]);
            }
        }
    }

    /// The whole way: compile, start, and a run that gives the event of the first statement.
    pub fn to_first_event() {
        println!("from a table to its first event (compile, start, run): ns in all and per entry, one run, same bytes");
        println!("{:>20} {:>12} {:>10} {:>7} {:>10} {:>10}", "entries", "proved", "plain", "ratio", "per entry", "plain");
        for count in [10, 200, 2_048] {
            let table = filled("1 3 1, 10 1 1, 10 2 1, 12 3 256, 10 4 1, 1 0 0, 28 0 0, 40 0 1, 40 0 255", count);
            let mut one = (vec![0; MOST_MACRO_BYTES], vec![0; LENGTH]);
            let mut other = one.clone();
            let mut by_proved = || {
                let (code, state) = (&mut one.0, &mut one.1);
                let length = proved(&table, code);
                desk::start(&code[..length], state);
                desk::run(&code[..length], state, &[0; 64], 100)
            };
            let mut by_plain = || {
                let (code, state) = (&mut other.0, &mut other.1);
                let length = plain(&table, code);
                plain::machine::start(&code[..length], state);
                plain::machine::run::<IN_BYTES>(&code[..length], state, &[0; 64], 100)
            };
            // set 1 255
            let first = |answer: u64| desk::unpacked(answer)[0] == 4 && desk::unpacked(answer)[2..] == [1, 255];
            assert!(first(by_proved()) && first(by_plain()));
            let [proved, plain] = in_turn([&mut by_proved, &mut by_plain]);
            let each = |time: f64| time / count as f64;
            println!("{count:>20} {proved:>12.0} {plain:>10.0} {:>7.2} {:>10.2} {:>10.2}", proved / plain, each(proved), each(plain));
        }
    }
}

#[cfg(desk)]
mod runs {
    use super::ratios::Ratios;
    use super::{in_turn, load};
    use second::evaluator::code::{write_macro, Macro};
    use second::evaluator::state::LENGTH;
    use second::generate::edge_cases::endless_records;
    use second::generate::notation::{body, code, shape};
    use second::harness::desk;
    use second::plain;
    use second::plain::machine::{BESIDE_BYTES, IN_BYTES, IN_LOCALS};

    type Run = fn(&[u8], &mut [u8], &[u8], u16) -> u64;

    /// The proved run, the plain one, the plain one that keeps place, address and depth beside the bytes, and the one that has also the top operand in locals.
    const RUNS: [Run; 4] = [desk::run, plain::machine::run::<IN_BYTES>, plain::machine::run::<BESIDE_BYTES>, plain::machine::run::<IN_LOCALS>];

    /// Counts to 100 in a cell, again and again.
    fn count() -> Macro {
        Macro {
            classes: Vec::new(),
            bodies: vec![body(0, 0, 0, &[1])],
            code: code("1 0 0, 6 0 0, 5 0 0, 1 0 1, 7 1 0, 6 0 0, 5 0 0, 1 0 100, 7 6 0, 9 0 0, 8 0 2"),
            shapes: vec![shape(0, 0, &[]), shape(2, 0, &[])],
        }
    }

    /// Calls a function of two arguments that gives their sum, again and again.
    fn call() -> Macro {
        Macro {
            classes: Vec::new(),
            bodies: vec![body(0, 0, 0, &[1]), body(5, 2, 1, &[1, 1])],
            code: code("1 0 3, 1 0 4, 10 0 1, 6 0 0, 8 0 0, 5 0 0, 5 0 1, 7 1 0, 11 0 0"),
            shapes: vec![shape(0, 0, &[])],
        }
    }

    /// Sets bits in a field of a record, which it reaches by a field of another, again and again.
    fn fields() -> Macro {
        Macro {
            classes: vec![vec![3], vec![16]],
            bodies: vec![body(0, 0, 0, &[17])],
            code: code("3 0 0, 12 0 0, 12 1 0, 6 0 0, 5 0 0, 13 1 0, 5 0 0, 13 1 0, 13 0 0, 3 0 1, 7 13 0, 14 0 0, 8 0 4"),
            shapes: vec![shape(4, 0, &[])],
        }
    }

    /// Reads a fader into a cell, again and again.
    fn faders() -> Macro {
        Macro {
            classes: Vec::new(),
            bodies: vec![body(0, 0, 0, &[1])],
            code: code("1 0 1, 16 0 0, 6 0 0, 8 0 0"),
            shapes: vec![shape(0, 0, &[])],
        }
    }

    /// As much as a state can hold: 255 records of eight fields, then 31 calls with 31 operands below each, of bodies with 32 cells.
    fn full() -> Macro {
        let making = format!("{} 5 0 1, 12 0 0, 6 0 1, 5 0 0, 1 0 1, 7 1 0, 6 0 0", "1 0 7,".repeat(7));
        let calling = format!("{} 10 0 1, 20 24 0", "1 0 7,".repeat(31));
        Macro {
            classes: vec![vec![1, 1, 1, 1, 1, 1, 1, 16]],
            bodies: vec![body(0, 0, 0, &[vec![1], vec![16; 31]].concat()), body(52, 0, 0, &[16; 32])],
            code: code(&format!("{making}, 5 0 0, 1 0 255, 7 6 0, 9 0 19, 8 0 0, {calling}, {calling}")),
            shapes: vec![shape(0, 0, &[]), shape(19, 0, &[])],
        }
    }

    fn started(code: &[u8]) -> Vec<u8> {
        let mut state = vec![0; LENGTH];
        assert_eq!(desk::unpacked(desk::start(code, &mut state)), [1, 0, 0, 0]);
        state
    }

    /// A run from this state, of just so many steps.
    fn timed(run: Run, code: &[u8], state: &[u8], steps: u16) -> impl FnMut() -> u64 {
        let (code, state) = (code.to_vec(), state.to_vec());
        let mut copy = state.clone();
        move || {
            copy.copy_from_slice(&state);
            let answer = run(&code, &mut copy, &[0; 64], steps);
            assert_eq!(answer, 2 + ((steps as u64) << 8));
            answer
        }
    }

    /// What a step takes: a run of many, less the same run with none.
    pub fn steps(ratios: &mut Ratios) {
        println!("machine: ns per step, one run, same bytes");
        println!("{:>13} {:>10} {:>10} {:>7} {:>10} {:>7} {:>10} {:>7}", "loop", "cue_run", "plain", "ratio", "beside", "ratio", "in locals", "ratio");
        // Of the records 255 are made.
        let loops = [
            ("counting", count(), 65_535),
            ("calls", call(), 65_535),
            ("fields", fields(), 65_535),
            ("faders", faders(), 65_535),
            ("records", endless_records(3), 7 * 255),
        ];
        for (name, m, steps) in loops {
            let code = write_macro(&m);
            let state = started(&code);
            let mut many = RUNS.map(|run| timed(run, &code, &state, steps));
            let mut none = RUNS.map(|run| timed(run, &code, &state, 0));
            let many = in_turn(many.each_mut().map(|work| work as &mut dyn FnMut() -> u64));
            let none = in_turn(none.each_mut().map(|work| work as &mut dyn FnMut() -> u64));
            let [proved, plain, beside, locals] = [0, 1, 2, 3].map(|i| (many[i] - none[i]) / steps as f64);
            print!("{name:>13} {proved:>10.2}");
            for other in [plain, beside, locals] {
                print!(" {other:>10.2} {:>7.2}", proved / other);
            }
            println!();
            ratios.note(&format!("machine {name}"), proved / plain);
        }
    }

    /// A run that takes no step: what it takes in all, and beyond the loading check alone.
    pub fn fixed() {
        println!("a run of no step: ns in all, and beyond the loading check; one run, same bytes");
        println!("{:>13} {:>10} {:>10} {:>7} {:>10} {:>10}", "instructions", "cue_run", "plain", "ratio", "beyond", "plain");
        for n in [20, 200, 2_000] {
            let code = load::counting(n);
            row(&n.to_string(), &code, &started(&code));
        }
        let code = write_macro(&full());
        let mut state = started(&code);
        while state[2] < 32 {
            desk::run(&code, &mut state, &[0; 64], 1);
        }
        assert_eq!(state[4], 255);
        row("full state", &code, &state);
    }

    fn row(name: &str, code: &[u8], state: &[u8]) {
        // A run of no step leaves the state as it is.
        let (mut one, mut other) = (state.to_vec(), state.to_vec());
        let mut proved = || desk::run(code, &mut one, &[0; 64], 0);
        let mut plain = || plain::machine::run::<IN_BYTES>(code, &mut other, &[0; 64], 0);
        let mut load = || desk::load(code);
        let mut plain_load = || plain::loader::load(code).1 as u64;
        let [proved, plain, load, plain_load] = in_turn([&mut proved, &mut plain, &mut load, &mut plain_load]);
        println!("{name:>13} {proved:>10.0} {plain:>10.0} {:>7.2} {:>10.0} {:>10.0}", proved / plain, proved - load, plain - plain_load);
    }
}
