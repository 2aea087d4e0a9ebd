//! Request 1 of paper 02: `for` loops, and op 20 by its a. The request's examples (a) to (f), then each of its decisions, on the second evaluator, the plain
//! check and compiler and, where it is linked, the library through its C interface. One name in every choice of places: lookup.rs. Loops in
//! generated programs: generated_loops.rs.

use second::evaluator::code::{judge_macro, Instr, Macro};
use second::evaluator::machine::State;
use second::evaluator::state::encode;
use second::evaluator::table::entries_of;
use second::generate::loops::{looping_table, near_range, EDGE_RANGES};
use second::generate::notation::table;
use second::generate::rng::Rng;
#[cfg(desk)]
use second::harness::listings::LISTED_STEPS;
use second::harness::listings::{listing_of, without_sheet, LISTED_ROOM};
use second::harness::setup::{case_count, with_large_stack};
use second::harness::verdicts::{judged, verdict};
use second::plain;

const ACCEPTED: (u8, usize) = (0, 0);

// Tables.

/// A loop with this control name over these numbers: five entries, the fifth the first of what it controls.
fn loop_over(name: u16, [start, step, limit]: [i32; 3], controlled: &str) -> String {
    format!("31 {name} 0, 40 0 {start}, 40 0 {step}, 40 0 {limit}, {controlled}")
}

/// SET(channel, level), the level an expression.
fn set(channel: u16, level: &str) -> String {
    format!("28 0 0, 40 0 {channel}, {level}")
}

/// An expression that gives this number and tells by a set on this channel when it does.
fn telling(channel: u16, n: i32) -> String {
    format!("53 0 1, {}, 40 0 {n}", set(channel, "40 0 9"))
}

/// So many sums that wait for this expression, all in a set's level: it needs `sums` + 1 more than the expression.
fn waiting(sums: usize, innermost: &str) -> String {
    set(1, &format!("{}{innermost}", "49 1 0, 40 0 1, ".repeat(sums)))
}

// What a table does.

/// Events and end of a table, all readings 0: of its tree, and of the machine with two compilers' code; of the library where it is linked.
fn told_of(bytes: &[u8]) -> String {
    let told = without_sheet(&listing_of(bytes, 0).join("\n"));
    #[cfg(desk)]
    assert_eq!(by_library(bytes), told, "{:?}", entries_of(bytes));
    told
}

/// The same as one line, of a table in the papers' notation.
fn told(text: &str) -> String {
    told_of(&table(text)).trim_end().replace('\n', ", ")
}

/// By `cue_compile`, whose bytes are those of the plain compiler, `cue_start` and `cue_play`, which a list of calls of `cue_run` is held to.
#[cfg(desk)]
fn by_library(bytes: &[u8]) -> String {
    use second::harness::compare_machines::{play, started};
    use second::harness::desk::{compiled, unpacked};
    let code = compiled(bytes, LISTED_ROOM).expect("it is accepted, and there is room");
    assert!(code == plain_code(bytes), "other bytes than the plain compiler's: {:?}", entries_of(bytes));
    let mut answers = vec![0; 8 * 1_000];
    let [tag, _, end, events] = play(&code, &mut started(&code), &[0; 64], LISTED_STEPS, &mut answers);
    let event = |answer: &[u8]| match unpacked(u64::from_le_bytes(answer.try_into().unwrap())) {
        [4, _, channel, level] => format!("set {channel} {level}\n"),
        [5, _, group, 0] => format!("hold {group}\n"),
        [6, _, group, 0] => format!("release {group}\n"),
        other => panic!("no event: {other:?}"),
    };
    assert_eq!(tag, 3, "it ends");
    answers.chunks(8).take(events as usize).map(event).collect::<String>() + &format!("end {end}\n")
}

fn plain_code(bytes: &[u8]) -> Vec<u8> {
    let mut out = vec![0; LISTED_ROOM];
    let length = plain::compiler::compile(bytes, &mut out).expect("it is accepted");
    out.truncate(length);
    out
}

fn macro_of(text: &str) -> Macro {
    judge_macro(&plain_code(&table(text))).expect("no compiled macro is refused").code
}

// The examples.

#[test]
fn example_a_three_turns() {
    assert_eq!(told("1 0 1, 31 5 0, 40 0 1, 40 0 1, 40 0 3, 28 0 0, 44 5 0, 40 0 7"), "set 1 7, set 2 7, set 3 7, end 0");
}

/// How often a loop over these numbers turns, and how it ends.
fn turns(range: [i32; 3]) -> String {
    told(&format!("1 0 1, {}", loop_over(5, range, &set(1, "40 0 1"))))
}

const NONE: &str = "end 0";
const ONE: &str = "set 1 1, end 0";
const TWO: &str = "set 1 1, set 1 1, end 0";

#[test]
fn example_b_two_turns_at_the_upper_end() {
    assert_eq!(turns([2147483646, 1, 2147483647]), TWO);
    assert_eq!(turns([-2147483647, -1, -2147483648]), TWO);
}

#[test]
fn example_c_two_turns_with_the_largest_step() {
    assert_eq!(turns([2147483647, -2147483648, -2147483648]), TWO);
    assert_eq!(turns([-2147483648, 2147483647, 2147483647]), "set 1 1, set 1 1, set 1 1, end 0");
}

#[test]
fn example_d_step_zero() {
    assert_eq!(turns([5, 0, 1]), "end 28");
    assert_eq!(told(&format!("1 0 1, 31 5 0, 40 0 5, 40 0 0, 49 4 0, 40 0 1, 40 0 0, {}", set(1, "40 0 1"))), "end 21");
}

#[test]
fn example_e_an_assignment_to_the_control_name() {
    assert_eq!(verdict("1 0 1, 31 5 0, 40 0 1, 40 0 1, 40 0 3, 21 0 0, 44 5 0, 40 0 9"), (4, 6));
}

#[test]
fn example_f_the_control_name_in_the_start() {
    let in_the_start = "31 5 0, 44 5 0, 40 0 1, 40 0 3, 28 0 0, 44 5 0, 40 0 7";
    assert_eq!(verdict(&format!("1 0 1, {in_the_start}")), (3, 2));
    assert_eq!(told(&format!("1 1 2, 10 5 1, 21 0 0, 44 5 0, 40 0 2, {in_the_start}")), "set 2 7, set 3 7, end 0");
}

// 1.1: the layout.

#[test]
fn the_layout() {
    assert_eq!(verdict(&format!("1 0 1, {}", loop_over(5, [1, 1, 3], "1 0 0"))), ACCEPTED);
    for name in [0, 1, 65_535] {
        assert_eq!(verdict(&format!("1 0 1, {}", loop_over(name, [1, 1, 3], "1 0 0"))), ACCEPTED);
    }
    for b in [1, -1, 3, 65_536, i32::MIN, i32::MAX] {
        assert_eq!(verdict(&format!("1 0 1, 31 5 {b}, 40 0 1, 40 0 1, 40 0 3, 1 0 0")), (2, 1));
    }
    // three expressions, then a statement, and no label
    let sorts = ["1 0 0, 40 0 1, 40 0 3, 1 0 0", "40 0 1, 1 0 0, 40 0 3, 1 0 0", "40 0 1, 40 0 1, 1 0 0, 1 0 0", "40 0 1, 40 0 1, 40 0 3, 40 0 1"];
    for (i, operands) in sorts.iter().enumerate() {
        assert_eq!(verdict(&format!("1 0 1, 31 5 0, {operands}")), (2, 2 + i));
    }
    assert_eq!(verdict(&format!("1 0 1, {}", loop_over(5, [1, 1, 3], "20 6 0"))), (2, 5));
    assert_eq!(verdict("1 0 1, 31 5 0, 40 0 1, 40 0 1, 40 0 3"), (2, 5));
    // where a statement stands and nowhere else
    let empty = loop_over(5, [1, 1, 3], "1 0 0");
    for around in ["12 9 0,", "12 9 0, 22 0 0, 41 0 1,", "12 9 0, 24 0 0, 41 0 0,", "12 9 0, 30 1 0, 40 0 1,", "12 9 0, 31 6 0, 40 0 1, 40 0 1, 40 0 1,"] {
        assert_eq!(verdict(&format!("1 1 0, {around} {empty}")), ACCEPTED, "{around}");
    }
    assert_eq!(verdict(&format!("1 1 0, {empty}")), (2, 1));
    assert_eq!(verdict(&format!("1 0 1, 26 0 0, {empty}")), (2, 2));
    assert_eq!(verdict(&format!("1 0 1, 21 0 0, {empty}, 40 0 1")), (2, 2));
    assert_eq!(verdict(&empty), (2, 0));
}

/// What a loop controls, and its bounds, are one deeper than the loop.
#[test]
fn the_depth() {
    for (behind, controlled) in [("", ", 40 0 1, 40 0 1, 40 0 1, 1 0 0"), (", 40 0 1, 1 0 0", ", 40 0 1, 40 0 1")] {
        let deep = |blocks: usize| verdict(&format!("{} 31 5 0{controlled}{behind}", "1 0 1,".repeat(blocks)));
        assert_eq!(deep(62), ACCEPTED);
        assert_eq!(deep(63), (2, 64));
    }
}

// 1.2 and 1.3: where the control name is in sight.

#[test]
fn the_bounds_are_outside() {
    let outside = |bounds: &str| verdict(&format!("1 0 1, 31 5 0, {bounds}, 1 0 0"));
    assert_eq!(outside("44 5 0, 40 0 1, 40 0 1"), (3, 2));
    assert_eq!(outside("40 0 1, 44 5 0, 40 0 1"), (3, 3));
    assert_eq!(outside("40 0 1, 40 0 1, 44 5 0"), (3, 4));
    assert_eq!(outside("40 0 1, 40 0 1, 53 0 1, 28 0 0, 40 0 1, 44 5 0, 40 0 1"), (3, 7));
    // where the name is another's there, it is that one's: of an outer logical, of an outer loop
    assert_eq!(verdict("1 1 1, 10 5 2, 31 5 0, 40 0 1, 44 5 0, 40 0 1, 1 0 0"), (4, 2));
    let inner = format!("31 5 0, 44 5 0, 40 0 1, 49 1 0, 44 5 0, 40 0 1, {}", set(1, "44 5 0"));
    assert_eq!(told(&format!("1 0 1, {}", loop_over(5, [10, 10, 20], &inner))), "set 1 10, set 1 11, set 1 20, set 1 21, end 0");
}

#[test]
fn behind_the_loop_the_name_is_what_it_was() {
    let one_turn = loop_over(5, [7, 1, 7], &set(1, "44 5 0"));
    assert_eq!(verdict(&format!("1 0 2, {one_turn}, {}", set(2, "44 5 0"))), (3, 10));
    assert_eq!(told(&format!("1 1 3, 10 5 1, 21 0 0, 44 5 0, 40 0 3, {one_turn}, {}", set(2, "44 5 0"))), "set 1 7, set 2 3, end 0");
    // also where the loop is left by a goto
    let left = loop_over(5, [7, 1, 9], &format!("1 0 2, {}, 25 6 0", set(1, "44 5 0")));
    assert_eq!(told(&format!("1 1 3, 10 5 1, {left}, 20 6 0, {}", set(2, "44 5 0"))), "set 1 7, set 2 0, end 0");
}

#[test]
fn it_may_be_declared_again() {
    // as a variable and as a label of the block that the loop controls
    let again = loop_over(5, [1, 1, 2], &format!("1 1 2, 10 5 1, 21 0 0, 44 5 0, 49 1 0, 44 5 0, 40 0 4, {}", set(1, "44 5 0")));
    assert_eq!(told(&format!("1 0 1, {again}")), "set 1 4, set 1 4, end 0");
    assert_eq!(verdict(&format!("1 0 1, {}", loop_over(5, [1, 1, 2], "1 0 2, 25 5 0, 20 5 0"))), ACCEPTED);
    assert_eq!(verdict(&format!("1 0 1, {}", loop_over(5, [1, 1, 2], "1 2 0, 10 5 1, 10 5 1"))), (3, 7));
    // and beside a variable or a label of that name in the same block, which it hides inside
    assert_eq!(verdict(&format!("1 1 1, 10 5 2, {}", loop_over(5, [1, 1, 2], &set(1, "44 5 0")))), ACCEPTED);
    assert_eq!(verdict(&format!("1 0 3, 20 5 0, {}, 25 5 0", loop_over(5, [1, 1, 2], &set(1, "44 5 0")))), ACCEPTED);
}

#[test]
fn nested_loops_of_one_name() {
    let inner = loop_over(5, [20, 1, 21], &set(2, "44 5 0"));
    let outer = loop_over(5, [1, 1, 2], &format!("1 0 3, {}, {inner}, {}", set(1, "44 5 0"), set(3, "44 5 0")));
    let turn = |n: i32| format!("set 1 {n}, set 2 20, set 2 21, set 3 {n}, ");
    assert_eq!(told(&format!("1 0 1, {outer}")), format!("{}{}end 0", turn(1), turn(2)));
}

// 1.4 and 1.5: what it is.

#[test]
fn it_is_an_integer() {
    let value = |text: &str| verdict(&format!("1 1 1, 12 9 256, 10 1 1, 1 0 0, {}", loop_over(5, [1, 1, 3], text)));
    for used in ["28 0 0, 44 5 0, 44 5 0", "30 1 0, 44 5 0, 1 0 0", "27 9 1, 44 5 0", "28 0 0, 40 0 1, 51 0 0, 44 5 0", "31 6 0, 44 5 0, 44 5 0, 44 5 0, 1 0 0"] {
        assert_eq!(value(used), ACCEPTED, "{used}");
    }
    assert_eq!(value("26 0 0, 44 5 0"), (4, 8));
    assert_eq!(value("26 0 0, 49 10 0, 44 5 0, 42 0 1"), (4, 9));
}

#[test]
fn it_cannot_be_assigned() {
    let controlled = |text: &str| verdict(&format!("1 1 1, 10 5 1, {}", loop_over(5, [1, 1, 3], text)));
    assert_eq!(controlled("21 0 0, 44 5 0, 40 0 9"), (4, 7));
    // at the target, before the value's own faults and whatever the value's type
    assert_eq!(controlled("21 0 0, 44 5 0, 44 8 0"), (4, 7));
    assert_eq!(controlled("21 0 0, 44 5 0, 41 0 1"), (4, 7));
    // in blocks, loops and block expressions inside
    assert_eq!(controlled("1 0 1, 21 0 0, 44 5 0, 40 0 9"), (4, 8));
    assert_eq!(controlled("31 6 0, 40 0 1, 40 0 1, 40 0 1, 21 0 0, 44 5 0, 40 0 9"), (4, 11));
    assert_eq!(controlled("28 0 0, 40 0 1, 53 0 1, 21 0 0, 44 5 0, 40 0 9, 40 0 1"), (4, 10));
    // but what is declared there is another
    assert_eq!(controlled("1 1 1, 10 5 1, 21 0 0, 44 5 0, 40 0 9"), ACCEPTED);
    assert_eq!(controlled("21 0 0, 44 6 0, 40 0 9"), (3, 7));
    // in the bounds it is the outer variable, which may be assigned
    assert_eq!(verdict("1 1 1, 10 5 1, 31 5 0, 53 0 1, 21 0 0, 44 5 0, 40 0 9, 44 5 0, 40 0 1, 40 0 3, 1 0 0"), ACCEPTED);
}

#[test]
fn it_is_no_label() {
    assert_eq!(verdict(&format!("1 0 1, {}", loop_over(5, [1, 1, 3], "25 5 0"))), (4, 5));
    // it hides a label, also one that lies beyond a block expression
    assert_eq!(verdict(&format!("1 0 2, 20 5 0, {}", loop_over(5, [1, 1, 3], "25 5 0"))), (4, 6));
    let out = loop_over(5, [1, 1, 3], "26 0 0, 53 0 1, 25 5 0, 41 0 1");
    assert_eq!(verdict(&format!("1 0 2, 20 5 0, {out}")), (4, 8));
    let out = loop_over(6, [1, 1, 3], "26 0 0, 53 0 1, 25 5 0, 41 0 1");
    assert_eq!(verdict(&format!("1 0 2, 20 5 0, {out}")), (5, 8));
}

/// A variable, a class, a field, a proper procedure, a function and a label, each with a use that only it fits: a control name hides all of them.
#[test]
fn it_hides_names_of_every_sort() {
    let head = "1 4 2, 10 1 2, 11 2 1, 10 3 1, 12 4 0, 1 0 0, 12 5 1, 40 0 1, 20 6 0";
    let uses = [
        (1, "26 0 0, 44 1 0", 0),
        (2, "26 0 0, 49 10 0, 43 2 0, 43 2 0", 2),
        (2, "26 0 0, 49 10 0, 47 2 1, 40 0 1, 43 2 0", 2),
        (2, "1 1 0, 10 7 65538", 1),
        (3, "28 0 0, 40 0 1, 46 3 0, 43 2 0", 2),
        (4, "27 4 0", 0),
        (5, "28 0 0, 40 0 1, 45 5 0", 2),
        (6, "25 6 0", 0),
    ];
    for (name, used, at) in uses {
        assert_eq!(verdict(&format!("{head}, {}", loop_over(9, [1, 1, 3], used))), ACCEPTED, "{used}");
        // a logical of that name is an integer now, so that the assert is at fault
        assert_eq!(verdict(&format!("{head}, {}", loop_over(name, [1, 1, 3], used))), (4, 13 + at), "{used}");
    }
}

#[test]
fn a_called_procedure_does_not_see_it() {
    let called = |root: &str, count: usize| format!("1 {count} 1, {root}12 9 0, {}, {}", set(1, "44 5 0"), loop_over(5, [7, 1, 8], "27 9 0"));
    assert_eq!(verdict(&called("", 1)), (3, 4));
    assert_eq!(told(&called("10 5 1, ", 2)), "set 1 0, set 1 0, end 0");
}

// 1.6: types.

#[test]
fn the_bounds_are_integers() {
    let of_type = ["40 0 1", "41 0 1", "42 0 1", "43 1 0"];
    let head = "1 1 1, 11 1 1, 10 2 1";
    for (k, ((start, step), limit)) in of_type.iter().flat_map(|a| of_type.iter().map(move |b| (a, b))).flat_map(|ab| of_type.iter().map(move |c| (ab, c))).enumerate() {
        let text = format!("{head}, 31 5 0, {start}, {step}, {limit}");
        assert_eq!(verdict(&format!("{text}, 1 0 0")), if k == 0 { ACCEPTED } else { (4, 3) }, "{text}");
        // judged after what the loop controls, and after the bounds' own faults
        assert_eq!(verdict(&format!("{text}, 25 8 0")), (3, 7), "{text}");
        assert_eq!(verdict(&format!("{head}, 31 5 0, {start}, {step}, 49 1 0, {limit}, 41 0 1, 1 0 0")), (4, 6), "{text}");
    }
}

// 1.7 and 1.8: limits.

#[test]
fn a_loop_takes_three_cells() {
    let variables = |count: usize| (100..100 + count).map(|name| format!("10 {name} 1, ")).collect::<String>();
    let one = loop_over(5, [1, 1, 1], "1 0 0");
    // side by side, none is shared; and one in the other
    let beside = |loops: usize, more: usize| verdict(&format!("1 {more} {loops}, {}{}", variables(more), format!("{one}, ").repeat(loops)));
    let nested = |loops: usize, more: usize| {
        let outer = "31 5 0, 40 0 1, 40 0 1, 40 0 1, ".repeat(loops);
        verdict(&format!("1 {more} 1, {}{outer}1 0 0", variables(more)))
    };
    for cells in [&beside as &dyn Fn(usize, usize) -> (u8, usize), &nested] {
        assert_eq!(cells(10, 2), ACCEPTED);
        assert_eq!(cells(10, 3), (6, 0));
        assert_eq!(cells(1, 29), ACCEPTED);
        assert_eq!(cells(1, 30), (6, 0));
        assert_eq!(cells(11, 0), (6, 0));
    }
    // in a procedure they are that body's, with its parameters; in a block expression and in a bound, too
    let procedure = |own: usize| verdict(&format!("1 1 0, 12 9 512, 10 1 1, 10 2 1, 1 {own} 1, {}{one}", variables(own)));
    assert_eq!(procedure(27), ACCEPTED);
    assert_eq!(procedure(28), (6, 1));
    let bound = |own: usize| verdict(&format!("1 {own} 1, {}31 6 0, 40 0 1, 40 0 1, 53 0 1, {one}, 40 0 1, 1 0 0", variables(own)));
    assert_eq!(bound(26), ACCEPTED);
    assert_eq!(bound(27), (6, 0));
}

#[test]
fn what_a_loop_needs() {
    let sums = |count: usize| format!("{}40 0 1", "49 1 0, 40 0 1, ".repeat(count));
    // start alone, one more for the step, two more for the limit; what it controls by itself
    for (before, behind) in [(0, ", 40 0 1, 40 0 1, 1 0 0"), (1, ", 40 0 1, 1 0 0"), (2, ", 1 0 0")] {
        let need = |count: usize| verdict(&format!("1 0 1, 31 5 0, {}{}{behind}", "40 0 1, ".repeat(before), sums(count)));
        assert_eq!(need(31 - before), ACCEPTED, "{before}");
        assert_eq!(need(32 - before), (6, 0), "{before}");
    }
    let controlled = |count: usize| verdict(&format!("1 0 1, {}", loop_over(5, [1, 1, 1], &waiting(count, "40 0 1"))));
    assert_eq!(controlled(30), ACCEPTED);
    assert_eq!(controlled(31), (6, 0));
    // at least three, while so many wait
    let inside = format!("53 0 1, {}, 40 0 1", loop_over(5, [1, 1, 2], "1 0 0"));
    assert_eq!(verdict(&format!("1 0 1, {}", waiting(28, &inside))), ACCEPTED);
    assert_eq!(verdict(&format!("1 0 1, {}", waiting(29, &inside))), (6, 0));
}

// 1.9: start, step, limit, and then 28.

#[test]
fn the_bounds_are_evaluated_once_in_their_order() {
    let bounds = [telling(1, 4), telling(2, 1), telling(3, 5)].join(", ");
    assert_eq!(told(&format!("1 0 1, 31 5 0, {bounds}, {}", set(9, "44 5 0"))), "set 1 9, set 2 9, set 3 9, set 9 4, set 9 5, end 0");
    // changing what a bound read changes nothing
    let growing = format!("31 5 0, 40 0 1, 40 0 1, 44 1 0, 1 0 2, 21 0 0, 44 1 0, 40 0 9, {}", set(9, "44 5 0"));
    assert_eq!(told(&format!("1 1 2, 10 1 1, 21 0 0, 44 1 0, 40 0 2, {growing}")), "set 9 1, set 9 2, end 0");
}

#[test]
fn step_zero_is_found_after_the_limit() {
    let bounds = |start: i32, limit: i32| format!("31 5 0, {}, {}, {}, {}", telling(1, start), telling(2, 0), telling(3, limit), set(9, "44 5 0"));
    // where turns would come, where none would, and where one would
    for (start, limit) in [(1, 5), (5, 1), (3, 3), (i32::MIN, i32::MAX), (i32::MAX, i32::MIN)] {
        assert_eq!(told(&format!("1 0 1, {}", bounds(start, limit))), "set 1 9, set 2 9, set 3 9, end 28");
    }
    // conditions in the three come first, in their order
    let overflow = "49 1 0, 40 0 2147483647, 40 0 1";
    let divisor = "49 4 0, 40 0 1, 40 0 0";
    for (bounds, end) in [
        (["40 0 1", "40 0 0", divisor], "end 21"),
        (["40 0 1", divisor, overflow], "end 21"),
        ([overflow, "40 0 0", divisor], "end 20"),
        (["40 0 1", "49 2 0, 40 0 3, 40 0 3", "40 0 1"], "end 28"),
        (["40 0 1", "51 0 0, 40 0 64", "40 0 1"], "end 28"),
    ] {
        assert_eq!(told(&format!("1 0 1, 31 5 0, {}, 1 0 0", bounds.join(", "))), end);
    }
}

/// 28 lets go what is held, as every condition does: the callers' holds, too.
#[test]
fn step_zero_releases_all_holds() {
    let procedure = format!("12 9 0, 1 1 1, 14 3 0, {}", loop_over(5, [1, 0, 3], "1 0 0"));
    let outer = loop_over(6, [1, 1, 2], "1 1 1, 14 2 0, 27 9 0");
    assert_eq!(told(&format!("1 2 1, 14 1 0, {procedure}, {outer}")), "hold 1, hold 2, hold 3, release 3, release 2, release 1, end 28");
}

// 1.10 and 1.11: the turns.

#[test]
fn turns_up_and_down() {
    let shown = |range| told(&format!("1 0 1, {}", loop_over(5, range, &set(1, "44 5 0"))));
    assert_eq!(shown([1, 2, 6]), "set 1 1, set 1 3, set 1 5, end 0");
    assert_eq!(shown([1, 2, 5]), "set 1 1, set 1 3, set 1 5, end 0");
    assert_eq!(shown([6, -2, 1]), "set 1 6, set 1 4, set 1 2, end 0");
    assert_eq!(shown([6, -2, 2]), "set 1 6, set 1 4, set 1 2, end 0");
    assert_eq!(shown([3, 1, 3]), "set 1 3, end 0");
    assert_eq!(shown([3, -1, 3]), "set 1 3, end 0");
    assert_eq!(shown([3, 100, 4]), "set 1 3, end 0");
    for none in [[3, 1, 2], [3, -1, 4], [3, 2147483647, 2], [3, -2147483648, 4], [-2147483648, -1, 2147483647], [2147483647, 1, -2147483648]] {
        assert_eq!(turns(none), NONE);
    }
}

/// "A loop whose next value would pass the 32-bit range ends there without a condition."
#[test]
fn the_next_value_passes_the_range() {
    let (least, most) = (i32::MIN, i32::MAX);
    for once in [[most, 1, most], [least, -1, least], [most, most, most], [1, most, most], [-1, least, least]] {
        assert_eq!(turns(once), ONE, "{once:?}");
    }
    for twice in [[most - 7, 6, most], [least + 8, -6, least], [0, most, most], [0, least, least], [-1, most, most]] {
        assert_eq!(turns(twice), TWO, "{twice:?}");
    }
    // a hold of the block around is let go by the block's end, not by a condition, and what follows is done
    let text = format!("1 0 1, 1 1 2, 14 4 0, {}, {}", loop_over(5, [2147483647, 1, 2147483647], "1 0 0"), set(1, "40 0 1"));
    assert_eq!(told(&text), "hold 4, set 1 1, release 4, end 0");
}

/// What a loop over these numbers does, in at most five turns: counted up from the start with room to spare.
fn counted([start, step, limit]: [i32; 3]) -> String {
    if step == 0 {
        return "end 28".to_string();
    }
    let mut told = String::new();
    let (mut value, mut turns) = (start as i64, 0);
    while turns < 5 && (if step > 0 { value <= limit as i64 } else { value >= limit as i64 }) {
        told.push_str(&format!("set 1 {}, set 2 {}, ", value.abs() % 256, value.abs() / (1 << 24)));
        value += step as i64;
        turns += 1;
    }
    format!("{told}set 3 {turns}, end 0")
}

/// Starts, steps and limits at both ends of the 32-bit range and about zero, each with each: every value of the first five turns, and how many there are.
#[test]
fn every_choice_of_bounds() {
    let about = [i32::MIN, i32::MIN + 1, i32::MIN / 2, i32::MIN / 3, -3, -1, 0, 1, 2, 3, i32::MAX / 3, i32::MAX / 2, i32::MAX - 1, i32::MAX];
    let byte = |operator: u16, n: i32| format!("48 21 0, 49 {operator} 0, 44 5 0, 40 0 {n}");
    let controlled = format!(
        "1 0 4, {}, {}, 21 0 0, 44 1 0, 49 1 0, 44 1 0, 40 0 1, 22 0 0, 49 10 0, 44 1 0, 40 0 5, 25 6 0",
        set(1, &byte(5, 256)),
        set(2, &byte(4, 1 << 24))
    );
    let mut ends = [0; 7];
    for start in about {
        for step in about {
            for limit in about {
                let wanted = counted([start, step, limit]);
                let text = format!("1 1 3, 10 1 1, {}, 20 6 0, {}", loop_over(5, [start, step, limit], &controlled), set(3, "44 1 0"));
                assert_eq!(told(&text), wanted, "{start} step {step} until {limit}");
                ends[if step == 0 { 6 } else { wanted.matches("set 1").count() }] += 1;
            }
        }
    }
    // no turn, one, two, three, four, five or more, and step zero: each often
    assert!(ends.iter().all(|n| *n > 20), "{ends:?}");
}

// 1.12: gotos.

#[test]
fn gotos_and_loops() {
    // out of two loops and their holds, to a label around them
    let inner = loop_over(6, [1, 1, 3], "1 1 2, 14 2 0, 28 0 0, 44 5 0, 44 6 0, 22 0 0, 49 10 0, 44 6 0, 40 0 2, 25 8 0");
    let outer = loop_over(5, [4, 1, 9], &format!("1 1 1, 14 1 0, {inner}"));
    let events = "hold 1, hold 2, set 4 1, release 2, hold 2, set 4 2, release 2, release 1, set 7 7, end 0";
    assert_eq!(told(&format!("1 0 3, {outer}, 20 8 0, 28 0 0, 40 0 7, 40 0 7")), events);
    // to a label inside, ahead: the rest of the turn is passed over, and the next turn comes
    let skipping = format!("1 0 4, 22 0 0, 49 10 0, 44 5 0, 40 0 2, 25 8 0, {}, 20 8 0, {}", set(1, "44 5 0"), set(2, "44 5 0"));
    assert_eq!(told(&format!("1 0 1, {}", loop_over(5, [1, 1, 3], &skipping))), "set 1 1, set 2 1, set 2 2, set 1 3, set 2 3, end 0");
    // back to a label before the loop: it is entered anew, its bounds are evaluated again
    let again = loop_over(5, [1, 1, 2], &format!("1 0 3, {}, 21 0 0, 44 1 0, 49 1 0, 44 1 0, 40 0 1, 22 0 0, 49 10 0, 44 1 0, 40 0 1, 25 8 0", set(1, "44 5 0")));
    assert_eq!(told(&format!("1 1 2, 10 1 1, 20 8 0, {again}")), "set 1 1, set 1 1, set 1 2, end 0");
    // back inside one turn: its value stays
    let within = format!("1 1 4, 10 1 1, 20 8 0, {}, 21 0 0, 44 1 0, 49 1 0, 44 1 0, 40 0 1, 22 0 0, 49 6 0, 44 1 0, 40 0 2, 25 8 0", set(1, "44 5 0"));
    assert_eq!(told(&format!("1 0 1, {}", loop_over(5, [1, 1, 2], &within))), "set 1 1, set 1 1, set 1 2, set 1 2, end 0");
    // what stands inside is not seen from outside, nor from the bounds
    assert_eq!(verdict(&format!("1 0 2, {}, 25 8 0", loop_over(5, [1, 1, 2], "1 0 1, 20 8 0"))), (3, 7));
    assert_eq!(verdict("1 0 1, 31 5 0, 53 0 1, 25 8 0, 40 0 1, 40 0 1, 40 0 1, 1 0 1, 20 8 0"), (3, 3));
    // no barrier: but a bound's block expression is one
    assert_eq!(verdict("1 0 2, 20 8 0, 31 5 0, 40 0 1, 40 0 1, 53 0 1, 25 8 0, 40 0 1, 1 0 0"), (5, 6));
    assert_eq!(verdict(&format!("1 1 1, 12 9 0, {}, 20 8 0", loop_over(5, [1, 1, 2], "25 8 0"))), (5, 6));
}

/// Each turn enters what it controls anew: variables start again, holds are taken and let go.
#[test]
fn each_turn_is_a_block_of_its_own() {
    let block = format!("1 2 2, 10 1 1, 14 4 0, 21 0 0, 44 1 0, 49 1 0, 44 1 0, 44 5 0, {}", set(1, "44 1 0"));
    let turn = |n: i32| format!("hold 4, set 1 {n}, release 4, ");
    assert_eq!(told(&format!("1 0 1, {}", loop_over(5, [3, -1, 2], &block))), format!("{}{}end 0", turn(3), turn(2)));
}

/// A loop's value, step and limit are an activation's own, also where what it controls calls the procedure again.
#[test]
fn recursion_in_a_loop() {
    // P(n): for i := n step 1 until n + 1 do begin set(n, i); if n < 2 then P(n + 1) end
    let deeper = "22 0 0, 49 6 0, 44 1 0, 40 0 2, 27 9 1, 49 1 0, 44 1 0, 40 0 1";
    let body = format!("31 5 0, 44 1 0, 40 0 1, 49 1 0, 44 1 0, 40 0 1, 1 0 2, 28 0 0, 44 1 0, 44 5 0, {deeper}");
    let inner = "set 2 2, set 2 3, ";
    assert_eq!(told(&format!("1 1 1, 12 9 256, 10 1 1, {body}, 27 9 1, 40 0 1")), format!("set 1 1, {inner}set 1 2, {inner}end 0"));
    // a function with a loop in its body, called in a loop's limit: 1 + 2 + 3 turns
    let sum = "12 9 257, 10 1 1, 53 1 1, 10 2 1, 31 5 0, 40 0 1, 40 0 1, 44 1 0, 21 0 0, 44 2 0, 49 1 0, 44 2 0, 44 5 0, 44 2 0";
    assert_eq!(told(&format!("1 1 1, {sum}, 31 5 0, 40 0 4, 40 0 1, 45 9 1, 40 0 3, {}", set(1, "44 5 0"))), "set 1 4, set 1 5, set 1 6, end 0");
}

// 1.13: the code.

/// What the compiler writes for one loop (docs/REFERENCE.md), its cells before those inside its bounds and what it controls.
#[test]
fn the_code_of_a_loop() {
    let m = macro_of("1 1 1, 10 1 1, 31 5 0, 53 1 0, 10 2 2, 40 0 1, 40 0 1, 40 0 3, 1 1 1, 10 6 3, 21 0 0, 44 1 0, 44 5 0");
    assert_eq!(m.bodies[0].cells, [1, 1, 1, 1, 2, 3]);
    // two for the variable, two and one for the start's block, the step, the limit
    let x = 7;
    assert_eq!(m.code[x..x + 3], [6, 6, 6].iter().zip([3, 2, 1]).map(|(op, b)| Instr { op: *op, a: 0, b }).collect::<Vec<_>>());
    assert_eq!(m.code[x + 7], Instr { op: 20, a: 28, b: 0 });
    let controlled = x + 48;
    assert_eq!(m.code[controlled + 2..controlled + 4], [Instr { op: 5, a: 0, b: 1 }, Instr { op: 6, a: 0, b: 0 }]);
    let end = controlled + 4 + 13;
    // a shape where start, step and limit lie on the stack, and wherever a jump lands
    let shapes: Vec<(usize, usize)> = m.shapes.iter().map(|s| (s.address as usize, s.types.len())).collect();
    assert_eq!(shapes, [(x, 3), (x + 8, 0), (x + 29, 0), (x + 44, 0), (x + 48, 0), (end, 0)]);
    assert_eq!(m.code.len(), end + 1);
}

/// While 29 operands wait and 16 holds are open: the need that the check allows is enough for the code, and shapes have all of them.
#[test]
fn a_loop_while_operands_wait() {
    let inside = format!("53 1 2, 10 3 1, {}, {}, 44 3 0", loop_over(5, [1, 1, 3], "21 0 0, 44 3 0, 49 1 0, 44 3 0, 44 5 0"), set(2, "44 3 0"));
    // the set inside needs two, the sum in the loop three
    let text = format!("1 16 1, {}{}", "14 7 0, ".repeat(16), waiting(28, &inside));
    let (holds, releases) = ("hold 7, ".repeat(16), "release 7, ".repeat(16));
    assert_eq!(told(&text), format!("{holds}set 2 6, set 1 34, {releases}end 0"));
    let shapes = macro_of(&text).shapes;
    assert_eq!(shapes.iter().map(|s| (s.holds, s.types.len())).collect::<Vec<_>>(), [(16, 32), (16, 29), (16, 29), (16, 29), (16, 29), (16, 29)]);
}

// 1.14 and 1.15: op 20 and its condition.

#[test]
fn a_case_stops_by_24_and_a_loop_by_28() {
    let text = format!("1 0 2, 30 1 0, 40 0 1, 1 0 0, {}", loop_over(5, [1, 1, 3], "1 0 0"));
    let stops: Vec<Instr> = macro_of(&text).code.into_iter().filter(|i| i.op == 20).collect();
    assert_eq!(stops, [24, 28].map(|a| Instr { op: 20, a, b: 0 }));
}

/// Older macros with a case are compiled afresh: their op 20 has a 0.
#[cfg(desk)]
#[test]
fn the_library_loads_stops_by_their_a() {
    use second::evaluator::code::write_macro;
    use second::generate::notation::root_only;
    use second::harness::desk::{load, unpacked};
    for a in 0..=255 {
        let given = unpacked(load(&write_macro(&root_only(&format!("17 0 5, 20 {a} 0"), vec![]))));
        assert_eq!(given, if a == 24 || a == 28 { [1, 0, 0, 0] } else { [0, 0, 9, 1] }, "{a}");
        assert_eq!(unpacked(load(&write_macro(&root_only(&format!("20 24 {a}"), vec![]))))[2], if a == 0 { 0 } else { 9 });
        assert_eq!(unpacked(load(&write_macro(&root_only(&format!("20 28 {a}"), vec![]))))[2], if a == 0 { 0 } else { 9 });
    }
}

/// A releasing or an ended state may carry 28, whatever the macro: this one has no op 20 at all.
#[test]
fn states_of_any_macro_carry_28() {
    use second::evaluator::answer::{Answer, Event, Refusal};
    use second::evaluator::state::run_bytes;
    let code = plain_code(&table("1 0 0"));
    let run = |state: &mut Vec<u8>, allowance: u16| {
        #[cfg(desk)]
        return second::harness::compare_machines::run(&code, state, &[0; 64], allowance);
        #[cfg(not(desk))]
        run_bytes(&code, state, &[0; 64], allowance)
    };
    let mut releasing = encode(&State::Releasing { condition: 28, holds: vec![6] });
    assert_eq!(run(&mut releasing, 9), Answer::Event { steps: 1, event: Event::Release { group: 6 } });
    assert_eq!(run(&mut releasing, 9), Answer::End { steps: 1, code: 28 });
    assert_eq!(run(&mut releasing, 9), Answer::End { steps: 0, code: 28 });
    assert_eq!(releasing, encode(&State::Ended { code: 28 }));
    for code in [19, 29, 30] {
        let refused = Answer::Refusal(Refusal { number: 10, place: 0 });
        assert_eq!(run(&mut encode(&State::Ended { code }), 9), refused);
        assert_eq!(run(&mut encode(&State::Releasing { condition: code, holds: vec![] }), 9), refused);
    }
    assert!(run_bytes(&code, &mut encode(&State::Ended { code: 28 }), &[0; 64], 0) == Answer::End { steps: 0, code: 28 });
}

// Generated loops.

/// Tables whose events tell the values of their loops, at the ends of the 32-bit range as often as not.
#[test]
fn generated_loops_tell_their_values() {
    with_large_stack(|| {
        let count = case_count(4_000);
        let mut ends = [0; 2];
        for seed in 0..count {
            let bytes = looping_table(&mut Rng::new(60_000_000 + seed as u64));
            assert_eq!(judged(&bytes), ACCEPTED);
            let told = told_of(&bytes);
            ends[match told.lines().last() {
                Some("end 0") => 0,
                Some("end 28") => 1,
                other => panic!("{other:?}: {:?}", entries_of(&bytes)),
            }] += 1;
        }
        assert!(count < 1_000 || ends.iter().all(|n| *n > count / 20), "{ends:?}");
    });
}

/// The ranges that generators choose from are short, and some have no turn.
#[test]
fn generated_ranges_are_short() {
    let mut rng = Rng::new(62);
    let mut counts = [0; 5];
    for _ in 0..2_000 {
        let range = near_range(&mut rng);
        counts[counted(range).matches("set 1").count()] += 1;
    }
    assert!(counts.iter().all(|n| *n > 100), "{counts:?}");
    for range in EDGE_RANGES {
        assert_eq!(turns(range).matches("set").count(), counted(range).matches("set 1").count(), "{range:?}");
    }
}
