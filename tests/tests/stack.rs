//! The stack that each function takes, beside what include/desk.h says of it: never more, and not so much less that the header is an old one's.
#![cfg(desk)]

use std::path::Path;

use second::evaluator::answer::{Answer, Event, Refusal};
use second::evaluator::code::write_macro;
use second::evaluator::state::LENGTH;
use second::generate::edge_cases::endless_counter;
use second::generate::notation::table;
use second::harness::desk;
use second::harness::painted_stack::with_stack;
use second::plain;

/// "Stack: under N bytes", in the comment above the function's declaration.
fn stated(function: &str) -> usize {
    let header = std::fs::read_to_string(Path::new(env!("CARGO_MANIFEST_DIR")).join("../include/desk.h")).unwrap();
    let (above, _) = header.split_once(&format!("uint64_t {function}(")).expect(function);
    let (_, comment) = above.rsplit_once("/*").expect(function);
    let (_, number) = comment.split_once("Stack: under ").expect(function);
    number.split(' ').next().unwrap().replace(',', "").parse().expect(function)
}

/// The most that calls of a function took.
fn hold_to_header(function: &str, most: usize) {
    let stated = stated(function);
    assert!(most < stated, "{function} takes {most} bytes of stack, and the header says under {stated}");
    assert!(stated < most + most / 20, "{function} takes {most} bytes of stack at the most, and the header still says under {stated}");
}

/// Tables 64 deep, or as deep as a body's limits allow, by each of the entries that may stand in themselves.
fn deepest_tables() -> Vec<Vec<u8>> {
    let set = |around: &str, behind: &str| format!("1 0 1, 28 0 0, 40 0 1, {}40 0 5{}", around.repeat(61), behind.repeat(61));
    let tables = [
        format!("1 0 1 {}, 1 0 0", ", 22 0 0, 41 0 1".repeat(62)),
        format!("1 0 1 {}, 1 0 0", ", 23 0 0, 41 0 1".repeat(62)) + &", 1 0 0".repeat(62),
        format!("1 0 1 {}, 1 0 0", ", 24 0 0, 41 0 1".repeat(62)),
        format!("1 0 1 {}, 1 0 0", ", 30 1 0, 40 0 1".repeat(31)),
        format!("1 0 1 {}{}, 1 0 0", ", 22 0 0, 41 0 1".repeat(52), ", 31 5 0, 40 0 1, 40 0 1, 40 0 1".repeat(10)),
        format!("1 0 1 {}, 1 0 0 {}", ", 31 5 0, 40 0 1, 40 0 1, 53 0 1".repeat(10), ", 40 0 1, 1 0 0".repeat(10)),
        format!("{} 1 0 0", "1 0 1, ".repeat(63)),
        set("48 20 0, ", ""),
        set("49 1 0, ", ", 40 0 1"),
        set("51 0 0, ", ""),
        format!("1 0 1, 26 0 0, 49 6 0, {}53 0 1, 1 0 0, 40 0 1, 40 0 1", "51 0 0, ".repeat(59)),
        format!("1 0 1, 26 0 0, {}41 0 1{}", "50 0 0, ".repeat(61), ", 41 0 1, 41 0 1".repeat(61)),
        set("53 0 0, ", ""),
        format!("1 0 1 {}, 1 0 0 {}", ", 26 0 0, 53 0 1".repeat(31), ", 41 0 1".repeat(31)),
        set("45 1 1, ", "").replacen("1 0 1", "1 1 1, 12 1 257, 10 2 1, 44 2 0", 1),
    ];
    tables.iter().map(|text| table(text)).collect()
}

/// Fors in the bounds of fors, in block expressions, as deep as a table goes: more cells than a body has, which is found after the walk of the names.
fn deepest_refused() -> Vec<u8> {
    let (around, behind) = (", 31 5 0, 53 0 1".repeat(31), ", 40 0 1, 40 0 1, 40 0 1, 1 0 0".repeat(31));
    table(&format!("1 0 1{around}, 1 0 0{behind}"))
}

#[test]
fn of_the_table_check_and_the_compiler() {
    let (refused, used) = with_stack(|| desk::check(&deepest_refused()));
    assert_eq!(desk::unpacked(refused), [0, 0, 6, 0]);
    let (mut check, mut compile) = (used, 0);
    for deepest in deepest_tables() {
        let (checked, used) = with_stack(|| desk::check(&deepest));
        assert_eq!(checked, 1);
        check = check.max(used);
        let mut out = vec![0; 65_536];
        let length = plain::compiler::compile(&deepest, &mut out).unwrap();
        let (compiled, used) = with_stack(|| desk::compile(&deepest, &mut out));
        assert_eq!(desk::unpacked(compiled), [1, 0, 0, length as u64]);
        compile = compile.max(used);
    }
    hold_to_header("cue_check", check);
    hold_to_header("cue_compile", compile);
}

/// Of a long macro: of the index of shapes all is used.
#[test]
fn of_load_start_run_and_play() {
    let code = write_macro(&endless_counter(40_000));
    let fresh = || {
        let mut state = vec![0; LENGTH];
        assert_eq!(desk::start(&code, &mut state), 1);
        state
    };
    let (loaded, used) = with_stack(|| desk::load(&code));
    assert_eq!(loaded, 1);
    hold_to_header("cue_load", used);
    let (started, used) = with_stack(|| desk::start(&code, &mut vec![0; LENGTH]));
    assert_eq!(started, 1);
    hold_to_header("cue_start", used);
    // a state that is sound, and one of wrong length
    let held = Answer::Event { steps: 1, event: Event::Hold { group: 9 } }.packed();
    let unsound = Answer::Refusal(Refusal { number: 10, place: 0 }).packed();
    for (from, answer) in [(0, held), (1, unsound)] {
        let mut state = fresh();
        let (ran, used) = with_stack(|| desk::run(&code, &mut state[from..], &[0; 64], 9));
        assert_eq!(ran, answer);
        hold_to_header("cue_run", used);
    }
    for (from, answer) in [(0, [2, 9, 0, 1]), (1, desk::unpacked(unsound))] {
        let mut state = fresh();
        let (played, used) = with_stack(|| desk::play(&code, &mut state[from..], &[0; 64], 9, &mut [0; 800]));
        assert_eq!(desk::unpacked(played), answer);
        hold_to_header("cue_play", used);
    }
}
