//! Whole programs, compiled from their tables, beside the plain machine and beside Lua on the same program's text.

use second::evaluator::state::LENGTH;
use second::generate::notation::table;
use second::harness::desk::{self, MOST_MACRO_BYTES};
use second::plain;
use second::plain::machine::IN_BYTES;

use crate::in_turn;
use crate::lua;
use crate::ratios::Ratios;

type Run = fn(&[u8], &mut [u8], &[u8], u16) -> u64;

/// A program that goes so many rounds and gives its result, which is 0 to 131,071, by one event; and its text in Lua.
struct Program {
    name: &'static str,
    rounds: u64,
    entries: String,
    lua: String,
}

/// The event by which a program gives name 2: the channel is the result div 256, + 1, the level the result rem 256.
const GIVE: &str = "28 0 0, 49 1 0, 49 4 0, 44 2 0, 40 0 256, 40 0 1, 49 5 0, 44 2 0, 40 0 256";

/// Names: 1 i, 2 the result, 3 fib, 4 its parameter, 5 the class, 6 its field, 7 the record.
fn programs() -> Vec<Program> {
    let counting = |begin: &str, end: &str| Program {
        name: "counting",
        rounds: 100_000,
        entries: format!("1 1 2, 10 2 1, 24 0 0, 49 6 0, 44 2 0, 40 0 100000, 21 0 0, 44 2 0, 49 1 0, 44 2 0, 40 0 1, {GIVE}"),
        lua: format!("{begin} i = 0 while i < 100000 do i = i + 1 end return {end}"),
    };
    vec![
        counting("local", "i"),
        Program { name: "counting, globals", ..counting("", "i") },
        Program {
            name: "hash",
            rounds: 50_000,
            entries: format!(
                "1 2 2, 10 1 1, 10 2 1, 24 0 0, 49 6 0, 44 1 0, 40 0 50000, 1 0 2, 21 0 0, 44 1 0, 49 1 0, 44 1 0, 40 0 1,
                 21 0 0, 44 2 0, 49 5 0, 49 1 0, 49 3 0, 44 2 0, 40 0 31, 44 1 0, 40 0 65521, {GIVE}"
            ),
            lua: "local i, s = 0, 0 while i < 50000 do i = i + 1 s = (s * 31 + i) % 65521 end return s".to_string(),
        },
        Program {
            name: "fib(22), a call",
            rounds: 57_313,
            entries: format!(
                "1 2 2, 10 2 1, 12 3 257, 10 4 1, 50 0 0, 49 6 0, 44 4 0, 40 0 2, 44 4 0, 49 1 0, 45 3 1, 49 2 0, 44 4 0, 40 0 1,
                 45 3 1, 49 2 0, 44 4 0, 40 0 2, 21 0 0, 44 2 0, 45 3 1, 40 0 22, {GIVE}"
            ),
            lua: "local function fib(n) if n < 2 then return n else return fib(n - 1) + fib(n - 2) end end return fib(22)".to_string(),
        },
        Program {
            name: "fields",
            rounds: 50_000,
            entries: format!(
                "1 4 4, 10 1 1, 10 2 1, 11 5 1, 10 6 1, 10 7 65541, 21 0 0, 44 7 0, 47 5 1, 40 0 0, 24 0 0, 49 6 0, 44 1 0, 40 0 50000, 1 0 2,
                 21 0 0, 44 1 0, 49 1 0, 44 1 0, 40 0 1, 21 0 0, 46 6 0, 44 7 0, 49 1 0, 46 6 0, 44 7 0, 44 1 0,
                 21 0 0, 44 2 0, 49 5 0, 46 6 0, 44 7 0, 40 0 65521, {GIVE}"
            ),
            lua: "local i, r = 0, { value = 0 } while i < 50000 do i = i + 1 r.value = r.value + i end return r.value % 65521".to_string(),
        },
    ]
}

/// The program's macro, and its fresh state.
pub fn started(entries: &str) -> (Vec<u8>, Vec<u8>) {
    let mut code = vec![0; MOST_MACRO_BYTES];
    let [tag, _, refusal, length] = desk::unpacked(desk::compile(&table(entries), &mut code));
    assert_eq!(tag, 1, "refused by {refusal}, at {length}");
    code.truncate(length as usize);
    let mut state = vec![0; LENGTH];
    assert_eq!(desk::unpacked(desk::start(&code, &mut state)), [1, 0, 0, 0]);
    (code, state)
}

/// The result and the steps of a program, by runs of all the steps that one can take.
fn result(run: Run, code: &[u8], state: &mut [u8]) -> (u64, u64) {
    let mut taken = 0;
    loop {
        let [tag, steps, channel, level] = desk::unpacked(run(code, state, &[0; 64], 65_535));
        taken += steps;
        match tag {
            2 => {}
            4 => return ((channel - 1) * 256 + level, taken),
            _ => panic!("a program gives its result: {tag}"),
        }
    }
}

/// What a round takes, with start, runs and all that a run checks.
pub fn table_of_rounds(ratios: &mut Ratios) {
    println!("programs from their tables: ns per round, one run; Lua 5.4 with local variables but for one row");
    print!("{:>18} {:>8} {:>10} {:>10} {:>7}", "program", "steps", "cue_run", "plain", "ratio");
    println!(" {:>10} {:>7}", "Lua", "ratio");
    for program in programs() {
        let (code, fresh) = started(&program.entries);
        let (mut one, mut other) = (fresh.clone(), fresh.clone());
        let (expected, steps) = result(desk::run, &code, &mut one);
        let timed = |run: Run, state: &mut Vec<u8>| {
            state.copy_from_slice(&fresh);
            let answer = result(run, &code, state);
            assert_eq!(answer, (expected, steps));
            answer.0
        };
        let mut proved = || timed(desk::run, &mut one);
        let mut plain = || timed(plain::machine::run::<IN_BYTES>, &mut other);
        let mut lua = lua::Program::new(&program.lua);
        let times = match &mut lua {
            None => in_turn([&mut proved, &mut plain]).to_vec(),
            Some(lua) => {
                assert_eq!(lua.run(), expected, "{}", program.name);
                in_turn([&mut proved, &mut plain, &mut || lua.run()]).to_vec()
            }
        };
        let each = |i: usize| times[i] / program.rounds as f64;
        print!("{:>18} {:>8.2} {:>10.2}", program.name, steps as f64 / program.rounds as f64, each(0));
        for other in 1..times.len() {
            print!(" {:>10.2} {:>7.2}", each(other), times[0] / times[other]);
        }
        println!();
        ratios.note(&format!("program {}", program.name), times[0] / times[1]);
    }
    if !cfg!(lua) {
        println!("Lua is left out: there is no liblua5.4 (Debian's liblua5.4-dev)");
    }
}
