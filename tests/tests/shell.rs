//! A desk's shell in C (shell.c) over include/desk.h and the static library: compiled without a warning, it takes a table through check,
//! compile, start and play and prints the events and the end that a listing has.
#![cfg(desk)]

use std::io::Write;
use std::path::{Path, PathBuf};
use std::process::{Command, Stdio};

use second::evaluator::code::{write_macro, Macro};
use second::generate::edge_cases::endless_counter;
use second::generate::notation::{root_only, table, LISTING_EXAMPLE};
use second::harness::listings::without_sheet;

/// The shell, compiled for this test alone.
fn compiled(name: &str) -> PathBuf {
    compiled_from("shell.c", name)
}

/// A program in C over the header and the library.
fn compiled_from(source: &str, name: &str) -> PathBuf {
    let tests = Path::new(env!("CARGO_MANIFEST_DIR"));
    let program = Path::new(env!("CARGO_TARGET_TMPDIR")).join(name);
    let status = Command::new("gcc")
        .args(["-std=c99", "-pedantic", "-Wall", "-Wextra", "-Werror", "-O2"])
        .arg(format!("-I{}", tests.join("../include").display()))
        .arg("-o")
        .args([&program, &tests.join(source), &tests.join("../crates/desk/out/libdesk.a")])
        .status()
        .expect("gcc runs");
    assert!(status.success());
    program
}

/// What the shell prints of these bytes on its standard input, and whether it was content.
fn printed(shell: &Path, arguments: &[&str], input: &[u8]) -> (String, bool) {
    let mut child = Command::new(shell).args(arguments).stdin(Stdio::piped()).stdout(Stdio::piped()).spawn().expect("the shell runs");
    child.stdin.take().unwrap().write_all(input).unwrap();
    let output = child.wait_with_output().unwrap();
    (String::from_utf8(output.stdout).unwrap(), output.status.success())
}

/// Tables: from the first refusal to an end.
#[test]
fn a_shell_in_c() {
    let shell = compiled("shell");
    let prints = |text: &str, lines: &str, content: bool| assert_eq!(printed(&shell, &[], &table(text)), (lines.to_string(), content), "{text}");
    prints(LISTING_EXAMPLE, "refused 11 0\nhold 7\nset 3 200\nrelease 7\nend 0\n", true);
    prints("1 2 1, 14 7 0, 14 63 0, 30 1 0, 40 0 2, 1 0 0", "refused 11 0\nhold 7\nhold 63\nrelease 63\nrelease 7\nend 24\n", true);
    prints("1 1 1, 14 9 0, 24 0 0, 41 0 1, 1 0 0", "refused 11 0\nhold 9\nopen 0\n", true);
    prints("", "refused 1 0\n", false);
    prints("1 0 1, 99 0 0", "refused 2 1\n", false);
    prints("1 0 1, 25 5 0", "refused 3 1\n", false);
    prints("1 0 1, 26 0 0, 40 0 1", "refused 4 1\n", false);
    prints("1 1 1, 12 1 0, 25 5 0, 20 5 0", "refused 5 2\n", false);
    prints(&format!("1 33 0 {}", (0..33).map(|name| format!(", 10 {name} 1")).collect::<String>()), "refused 6 0\n", false);
    // 16,384 bytes are a table, and one more is none
    let labels: String = (1..2_048).map(|name| format!(", 20 {name} 0")).collect();
    let longest = table(&format!("1 0 2047 {labels}"));
    assert_eq!(printed(&shell, &[], &longest), ("refused 11 0\nend 0\n".to_string(), true));
    assert_eq!(printed(&shell, &[], &[&longest[..], &[0]].concat()), ("refused 1 0\n".to_string(), false));
    // many events
    let sets = ", 28 0 0, 40 0 1, 40 0 1".repeat(682);
    prints(&format!("1 0 682 {sets}"), &format!("refused 11 0\n{}end 0\n", "set 1 1\n".repeat(682)), true);
    // a macro of more than 65,536 bytes
    let gotos = ", 25 5 0".repeat(500);
    prints(&format!("1 0 2, 1 16 500 {} {gotos}, 20 5 0", ", 14 1 0".repeat(16)), "refused 7 0\n", false);
}

/// Compiled macros: the loading check's refusals.
#[test]
fn a_shell_in_c_loads_macros() {
    let shell = compiled("loading-shell");
    let prints = |m: &Macro, lines: &str, content: bool| assert_eq!(printed(&shell, &["macro"], &write_macro(m)), (lines.to_string(), content));
    prints(&root_only("17 0 7, 17 0 63, 20 24 0", vec![]), "refused 11 0\nhold 7\nhold 63\nrelease 63\nrelease 7\nend 24\n", true);
    prints(&endless_counter(1_000_000), "refused 11 0\nhold 9\nopen 0\n", true);
    prints(&root_only("1 0 7, 11 0 0", vec![]), "refused 9 1\n", false);
    // HD, BD, IN, and half of ZZ
    let cut = write_macro(&root_only("0 0 0", vec![]));
    assert_eq!(printed(&shell, &["macro"], &cut[..cut.len() - 1]), ("refused 8 3\n".to_string(), false));
}

/// The example of one call a frame: all its events are those of the listing, and the frames go on where the steps of one are used.
#[test]
fn one_call_a_frame() {
    let frames = compiled_from("../examples/frames.c", "frames");
    let example = |name: &str| Path::new(env!("CARGO_MANIFEST_DIR")).join("../examples").join(name);
    let table = std::fs::read(example("chase.table")).unwrap();
    let listing = std::fs::read_to_string(example("chase.listing")).unwrap();
    let (text, content) = printed(&frames, &[], &table);
    let (heads, events): (Vec<&str>, Vec<&str>) = text.lines().partition(|line| line.starts_with("frame"));
    assert!(content && heads.len() > 1, "{text}");
    assert_eq!(events, without_sheet(&listing).lines().collect::<Vec<_>>());
    // so many frames and no more
    let (first, _) = printed(&frames, &["1"], &table);
    assert!(text.starts_with(&first) && first.lines().filter(|line| line.starts_with("frame")).count() == 1, "{first}");
}
