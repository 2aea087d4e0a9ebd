//! The macros of examples/: the table is what its commented text stands for, and the listing beside it is what the tree does, what the
//! machine does with two compilers' code and, but for the readings, which it does not count, what the proved library does where it is linked.

use std::collections::BTreeSet;
use std::path::{Path, PathBuf};

use cue_tools::entries::{to_table, to_text};
use second::evaluator::code::{judge_macro, write_macro};
use second::evaluator::compiler::compile;
use second::evaluator::names::judge_table;
use second::generate::notation::{table, LISTING_EXAMPLE};
use second::harness::listings::{listed, without_sheet, Listing};
use second::harness::setup::with_large_stack;
use second::harness::verdicts::judged;

fn folder() -> PathBuf {
    Path::new(env!("CARGO_MANIFEST_DIR")).join("../examples")
}

/// The names of the examples: each has a text, a table and a listing. Beside them stand the scripts `list` and `show`, and the program `frames.c`.
fn names() -> BTreeSet<String> {
    let mut names = BTreeSet::new();
    for file in std::fs::read_dir(folder()).expect("examples/ is there") {
        let path = file.unwrap().path();
        let part = |part: Option<&std::ffi::OsStr>| part.unwrap_or_default().to_str().unwrap().to_string();
        let (name, sort) = (part(path.file_stem()), part(path.extension()));
        if ["list", "show", "frames.c"].iter().any(|beside| path.ends_with(beside)) {
            continue;
        }
        assert!(["entries", "table", "listing"].contains(&sort.as_str()), "{path:?} is no part of an example");
        names.insert(name);
    }
    names
}

fn bytes_of(name: &str, sort: &str) -> Vec<u8> {
    let path = folder().join(format!("{name}.{sort}"));
    std::fs::read(&path).unwrap_or_else(|error| panic!("{path:?}: {error}"))
}

fn text_of(name: &str, sort: &str) -> String {
    String::from_utf8(bytes_of(name, sort)).expect("a text")
}

#[test]
fn there_are_twelve_examples() {
    assert_eq!(names().len(), 12, "{:?}", names());
}

/// Text to table and back: the table is that of the text, and its text without comments gives it again.
#[test]
fn texts_and_tables_are_the_same() {
    for name in names() {
        let bytes = bytes_of(&name, "table");
        assert_eq!(to_table(&text_of(&name, "entries")).unwrap(), bytes, "{name}: make the table anew, tools/: entries < {name}.entries > {name}.table");
        assert_eq!(to_table(&to_text(&bytes).unwrap()).unwrap(), bytes, "{name}");
    }
    assert_eq!(bytes_of("listing", "table"), table(LISTING_EXAMPLE));
}

/// Texts that people read: no line is too long, every line is an entry, a comment or empty, and operands stand further in than their entry by a step.
#[test]
fn texts_are_laid_out_as_their_tree() {
    for name in names() {
        let text = text_of(&name, "entries");
        let entries = second::evaluator::table::entries_of(&bytes_of(&name, "table"));
        // How many entries are still to come at each depth.
        let mut left = vec![1];
        let mut next = 0;
        for line in text.lines() {
            assert!(line.len() <= 120 && line.is_ascii(), "{name}: {line}");
            let entry = line.split('#').next().unwrap();
            if entry.trim().is_empty() {
                continue;
            }
            while left.last() == Some(&0) {
                left.pop();
            }
            let depth = left.len() - 1;
            assert_eq!(entry.len() - entry.trim_start().len(), 2 * depth, "{name}: {line}");
            *left.last_mut().unwrap() -= 1;
            left.push(second::generate::entries::operand_count(entries[next]));
            next += 1;
        }
        assert_eq!(next, entries.len());
    }
}

// Listings.

#[test]
fn listings() {
    with_large_stack(|| {
        for name in names() {
            let bytes = bytes_of(&name, "table");
            let wanted = text_of(&name, "listing");
            assert_eq!(judged(&bytes), (0, 0), "{name}");
            // the tree, and the machine with the plain compiler's code
            let listing = listed(&bytes, 0).unwrap();
            assert_eq!(listing.text(), wanted, "{name}");
            // the machine with other code, whose 65,535 steps may take more readings or fewer
            let code = write_macro(&compile(&judge_table(&bytes).unwrap()));
            let other = Listing::of_macro(&judge_macro(&code).unwrap().code, 0).text();
            match listing.end {
                Some(_) => assert_eq!(other, wanted, "{name}"),
                None => assert_eq!(without_sheet(&other), without_sheet(&wanted), "{name}"),
            }
        }
    });
}

/// The same through the C interface, whose answers tell the sets, holds and releases.
#[cfg(desk)]
#[test]
fn listings_of_the_library() {
    use second::harness::compare_machines::{run, started};
    use second::harness::desk::compiled;
    use second::harness::listings::{without_readings, LISTED_ROOM};
    for name in names() {
        let code = compiled(&bytes_of(&name, "table"), LISTED_ROOM).unwrap();
        let mut state = started(&code);
        let listing = Listing::of_runs(|allowance| (run(&code, &mut state, &[0; 64], allowance), 0));
        assert_eq!(without_readings(&listing.text()), without_readings(&text_of(&name, "listing")), "{name}");
    }
}

/// README's first command, over the proved library: the desk's shell in C prints each example's events and end, after the refusal of a bank
/// of 63 readings that it lends first.
#[cfg(desk)]
#[test]
fn show_prints_the_events() {
    for name in names() {
        let table = folder().join(format!("{name}.table"));
        let shown = std::process::Command::new("bash").args([folder().join("show"), table]).output().expect("bash runs");
        assert!(shown.status.success(), "{name}: {}", String::from_utf8_lossy(&shown.stderr));
        let wanted = format!("refused 11 0\n{}", without_sheet(&text_of(&name, "listing")));
        assert_eq!(String::from_utf8_lossy(&shown.stdout), wanted, "{name}");
    }
}
