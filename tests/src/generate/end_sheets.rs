//! Tables for the end sheet (paper 02, ticket 4), each with the listing that it has, all readings 0: the examples, readings and releases
//! that are easily forgotten, many events, refusals, and macros that come to a listing's 65,535th step at every place of their end.

use super::notation::{each, table, LISTING_EXAMPLE};
use crate::evaluator::code::judge_macro;
use crate::evaluator::machine::{fresh, step, State};
use crate::plain;

/// A table and the lines of its listing.
pub struct Case {
    pub what: String,
    pub bytes: Vec<u8>,
    pub lines: Vec<String>,
}

/// The lines are written as one text, with commas, as the papers do.
fn case(what: &str, bytes: Vec<u8>, lines: &str) -> Case {
    Case { what: what.to_string(), bytes, lines: lines.split(", ").map(str::to_string).collect() }
}

/// The examples of ticket 4, in their order.
pub fn examples() -> Vec<Case> {
    let sum = "1 0 1, 28 0 0, 40 0 1, 49 1 0, 51 0 0, 40 0 3, 51 0 0, 40 0 3";
    let out_of_range = "1 1 1, 14 5 0, 28 0 0, 40 0 1, 51 0 0, 40 0 65";
    vec![
        case("(a)", table(LISTING_EXAMPLE), "hold 7, set 3 200, release 7, sets 1, holds 1, releases 1, readings 0, end 0"),
        case("(b)", table(sum), "set 1 0, sets 1, holds 0, releases 0, readings 2, end 0"),
        case("(c)", table(out_of_range), "hold 5, release 5, sets 0, holds 1, releases 1, readings 0, end 25"),
        case("(d)", vec![1, 0, 0, 0, 0, 0, 0], "refused 1 0"),
    ]
}

/// Readings whose value is dropped, and some that are not taken: tables without events.
pub fn dropped_readings() -> Vec<Case> {
    let silent = |what, text, readings, end| {
        case(what, table(text), &format!("sets 0, holds 0, releases 0, readings {readings}, end {end}"))
    };
    let reading_loop = "1 1 1, 10 1 1, 31 5 0, 40 0 1, 40 0 1, 49 1 0, 51 0 0, 40 0 1, 40 0 3, 21 0 0, 44 1 0, 51 0 0, 44 5 0";
    vec![
        silent("SET(1, FADER(1) + 1 div 0)", "1 0 1, 28 0 0, 40 0 1, 49 1 0, 51 0 0, 40 0 1, 49 4 0, 40 0 1, 40 0 0", 1, 21),
        silent("SET(1, 1 div 0 + FADER(1))", "1 0 1, 28 0 0, 40 0 1, 49 1 0, 49 4 0, 40 0 1, 40 0 0, 51 0 0, 40 0 1", 0, 21),
        silent("SET(513, FADER(1))", "1 0 1, 28 0 0, 40 0 513, 51 0 0, 40 0 1", 1, 25),
        silent("the outer fader is 0", "1 0 1, 28 0 0, 40 0 1, 51 0 0, 51 0 0, 40 0 1", 1, 25),
        silent("a parameter that is not used", "1 1 1, 12 1 256, 10 2 1, 1 0 0, 27 1 1, 51 0 0, 40 0 64", 1, 0),
        silent("a function, its value not used", "1 2 1, 12 1 1, 51 0 0, 40 0 1, 10 2 1, 21 0 0, 44 2 0, 45 1 0", 1, 0),
        silent("a null target, after the value", "1 1 1, 11 1 1, 10 2 1, 21 0 0, 46 2 0, 43 1 0, 51 0 0, 40 0 1", 1, 22),
        silent("CASE FADER(1)", "1 0 1, 30 1 0, 51 0 0, 40 0 1, 1 0 0", 1, 24),
        silent("ASSERT FADER(1) = 1", "1 0 1, 26 0 0, 49 10 0, 51 0 0, 40 0 1, 40 0 1", 1, 23),
        silent("IF false and FADER(1) = 0", "1 0 1, 22 0 0, 49 12 0, 41 0 0, 49 10 0, 51 0 0, 40 0 1, 40 0 0, 1 0 0", 0, 0),
        silent("IF true or FADER(1) = 0", "1 0 1, 22 0 0, 49 13 0, 41 0 1, 49 10 0, 51 0 0, 40 0 1, 40 0 0, 1 0 0", 0, 0),
        silent("a loop's bounds, and step zero", "1 0 1, 31 5 0, 51 0 0, 40 0 1, 51 0 0, 40 0 2, 51 0 0, 40 0 3, 1 0 0", 3, 28),
        silent("a loop's limit, once, and a fader in each turn", reading_loop, 4, 0),
        // the argument of the 33rd activation is read, too
        silent("an endless self-call", "1 1 1, 12 1 256, 10 2 1, 27 1 1, 51 0 0, 40 0 1, 27 1 1, 40 0 0", 31, 26),
    ]
}

/// Releases after a condition: those of all activations.
pub fn releases_after_conditions() -> Vec<Case> {
    let callers = "1 2 1, 14 1 0, 12 5 0, 1 1 2, 14 2 0, 28 0 0, 40 0 9, 51 0 0, 40 0 1, 26 0 0, 41 0 0, 1 1 1, 14 3 0, 27 5 0";
    let twice = "1 1 1, 14 5 0, 1 1 1, 14 5 0, 30 1 0, 40 0 2, 1 0 0";
    vec![
        case(
            "the callers' holds",
            table(callers),
            "hold 1, hold 3, hold 2, set 9 0, release 2, release 3, release 1, sets 1, holds 3, releases 3, readings 1, end 23",
        ),
        case("a group held twice", table(twice), "hold 5, hold 5, release 5, release 5, sets 0, holds 2, releases 2, readings 0, end 24"),
    ]
}

/// So many rounds of a set with a reading, and a reading more: about 512 events, which the listing program takes together, and 1,024.
pub fn many_events() -> Vec<Case> {
    let many = |count: usize| {
        let round = "21 0 0, 44 1 0, 49 1 0, 44 1 0, 40 0 1, 28 0 0, 40 0 1, 51 0 0, 40 0 1";
        let rounds = format!("24 0 0, 49 6 0, 44 1 0, 40 0 {count}, 1 0 2, {round}");
        let bytes = table(&format!("1 1 2, 10 1 1, {rounds}, 21 0 0, 44 1 0, 51 0 0, 40 0 1"));
        let sets = "set 1 0, ".repeat(count);
        case(&format!("{count} sets"), bytes, &format!("{sets}sets {count}, holds 0, releases 0, readings {}, end 0", count + 1))
    };
    [0, 1, 511, 512, 513, 1_023, 1_024, 1_025].map(many).into()
}

/// "after `refused` none": a table refused by each number that a listing can give, and tables longer than it reads.
pub fn refused() -> Vec<Case> {
    let alone = |text: &str, line: &str| case(line, table(text), line);
    let variables = format!("1 33 0, {}", each(33, |i| format!("10 {i} 1")));
    let gotos_out_of_holds = format!("1 0 2, 1 16 500, {} {} 20 5 0", "14 1 0,".repeat(16), "25 5 0,".repeat(500));
    vec![
        alone("", "refused 1 0"),
        case("16,385 bytes", vec![0; 16_385], "refused 1 0"),
        case("16,392 bytes", vec![0; 16_392], "refused 1 0"),
        case("16,384 bytes", vec![0; 16_384], "refused 2 0"),
        alone("1 0 1, 99 0 0", "refused 2 1"),
        alone("1 0 1, 25 5 0", "refused 3 1"),
        alone("1 0 1, 26 0 0, 51 0 0, 40 0 1", "refused 4 1"),
        alone("1 1 1, 12 1 0, 25 5 0, 20 5 0", "refused 5 2"),
        alone(&variables, "refused 6 0"),
        alone(&gotos_out_of_holds, "refused 7 0"),
    ]
}

// The bound of a listing.

/// A hold, rounds of a reading each, gotos to the next statement, and these statements.
fn rounds_and_gotos(rounds: usize, gotos: usize, statements: usize, tail: &str) -> Vec<u8> {
    let fading = format!("24 0 0, 49 6 0, 44 1 0, 40 0 {rounds}, 21 0 0, 44 1 0, 49 1 0, 49 1 0, 44 1 0, 51 0 0, 40 0 1, 40 0 1");
    let hops = each(gotos, |i| format!("25 {} 0, 20 {} 0", 10 + i, 10 + i));
    table(&format!("1 2 {}, 10 1 1, 14 7 0, {fading}, {hops} {tail}", 1 + 2 * gotos + statements))
}

/// The steps that a macro takes to its end, that of the plain compiler's code; all readings 0.
fn steps_to_end(bytes: &[u8]) -> usize {
    let mut code = vec![0; 4_096];
    let length = plain::compiler::compile(bytes, &mut code).expect("it is accepted");
    let m = judge_macro(&code[..length]).expect("a compiled macro passes").code;
    let mut state = fresh(&m);
    let mut steps = 0;
    while !matches!(state, State::Ended { .. }) {
        step(&m, &mut state, &mut |_| 0).expect("a passed macro is never stuck");
        steps += 1;
    }
    steps
}

/// Such a table that ends with this step, and its rounds.
fn ending_with_step(last: usize, statements: usize, tail: &str) -> (Vec<u8>, usize) {
    let steps = |rounds, gotos| steps_to_end(&rounds_and_gotos(rounds, gotos, statements, tail));
    let (base, round) = (steps(0, 0), steps(1, 0) - steps(0, 0));
    assert_eq!(steps(0, 1), base + 1, "a goto is a step");
    let (rounds, gotos) = ((last - base) / round, (last - base) % round);
    assert_eq!(steps(rounds, gotos), last);
    (rounds_and_gotos(rounds, gotos, statements, tail), rounds)
}

/// What the last steps of a macro do, in their order.
#[derive(Clone, Copy, PartialEq)]
enum Does {
    Nothing,
    Reads,
    Sets,
    Releases,
    Ends,
}

/// The listing of a macro that does not come to its last steps, this many: "before `open` as far as the steps taken carry it".
fn without_last_steps(missing: usize, rounds: usize, tail: &[Does], end: u8) -> Vec<String> {
    let done = &tail[..tail.len() - missing];
    let count = |what| done.iter().filter(|does| **does == what).count();
    let (sets, releases, readings) = (count(Does::Sets), count(Does::Releases), rounds + count(Does::Reads));
    let mut lines = vec!["hold 7".to_string()];
    lines.extend(vec!["set 1 0".to_string(); sets]);
    lines.extend(vec!["release 7".to_string(); releases]);
    lines.extend([format!("sets {sets}"), "holds 1".to_string(), format!("releases {releases}"), format!("readings {readings}")]);
    lines.push(if count(Does::Ends) == 1 { format!("end {end}") } else { "open 0".to_string() });
    lines
}

/// Macros whose 65,535th step is each of their last in turn: a set, a release, a reading, a condition, the end; and those that end a step
/// before.
pub fn at_the_bound() -> Vec<Case> {
    use Does::*;
    // SET(1, FADER(2)); SET(2, FADER(3) + 1 div FADER(4))
    let condition = "28 0 0, 40 0 1, 51 0 0, 40 0 2, 28 0 0, 40 0 2, 49 1 0, 51 0 0, 40 0 3, 49 4 0, 40 0 1, 51 0 0, 40 0 4";
    let by_condition = [Nothing, Nothing, Reads, Sets, Nothing, Nothing, Reads, Nothing, Nothing, Reads, Nothing, Releases, Ends];
    // SET(1, FADER(2))
    let by_end = [Nothing, Nothing, Reads, Sets, Releases, Ends];
    let tails = [(21, 2, condition, &by_condition[..]), (0, 1, "28 0 0, 40 0 1, 51 0 0, 40 0 2", &by_end[..])];
    let mut cases = Vec::new();
    for (end, statements, tail, does) in tails {
        // one step to spare
        let (bytes, rounds) = ending_with_step(65_534, statements, tail);
        cases.push(Case { what: format!("end {end}, a step to spare"), bytes, lines: without_last_steps(0, rounds, does, end) });
        for missing in 0..=does.len() {
            let (bytes, rounds) = ending_with_step(65_535 + missing, statements, tail);
            let lines = without_last_steps(missing, rounds, does, end);
            cases.push(Case { what: format!("end {end}, {missing} steps short"), bytes, lines });
        }
    }
    cases
}
