//! docs/REFERENCE.md is right: its table, listing and macro are those of examples/listing, and its C program prints
//! the events and ends of listings.

use std::path::Path;

use cue_tools::disassembly::disassemble;
use cue_tools::entries::to_table;
use second::plain;

fn file(name: &str) -> Vec<u8> {
    let path = Path::new(env!("CARGO_MANIFEST_DIR")).join("..").join(name);
    std::fs::read(&path).unwrap_or_else(|error| panic!("{path:?}: {error}"))
}

fn text(name: &str) -> String {
    String::from_utf8(file(name)).unwrap()
}

/// What stands between the fences with this word in the reference.
fn fenced(word: &str) -> String {
    let reference = text("docs/REFERENCE.md");
    let (_, behind) = reference.split_once(&format!("```{word}\n")).expect("a block of that sort");
    behind.split_once("```").unwrap().0.to_string()
}

#[test]
fn the_table_the_listing_and_the_macro() {
    let table = to_table(&fenced("entries")).unwrap();
    assert_eq!(table, file("examples/listing.table"));
    assert_eq!(fenced("listing"), text("examples/listing.listing"));
    let mut out = vec![0; 1 << 16];
    let length = plain::compiler::compile(&table, &mut out).unwrap();
    assert_eq!(disassemble(&out[..length]), (fenced("macro"), true));
}

/// Every definition that the reference names is there.
#[test]
fn the_definitions_are_there() {
    let reference = text("docs/REFERENCE.md");
    let mut named = 0;
    for word in reference.split('`').skip(1).step_by(2) {
        if word.contains("/specs/") && word != "crate/specs/File" {
            let path = format!("crates/{word}.antt");
            assert!(!file(&path).is_empty());
            named += 1;
        }
    }
    assert!(named > 20, "{named}");
}

#[cfg(desk)]
#[test]
fn the_program_in_c() {
    use std::io::Write;
    use std::process::{Command, Stdio};

    use second::harness::listings::without_sheet;
    let folder = Path::new(env!("CARGO_TARGET_TMPDIR"));
    let root = Path::new(env!("CARGO_MANIFEST_DIR")).join("..");
    let (source, program) = (folder.join("reference.c"), folder.join("reference"));
    std::fs::write(&source, fenced("c")).unwrap();
    let status = Command::new("gcc")
        .args(["-std=c99", "-pedantic", "-Wall", "-Wextra", "-Werror", "-O2"])
        .arg(format!("-I{}", root.join("include").display()))
        .arg("-o")
        .args([&program, &source, &root.join("crates/desk/out/libdesk.a")])
        .status()
        .expect("gcc runs");
    assert!(status.success());
    for name in ["listing", "chase", "condition_in_call", "recursion"] {
        let mut child = Command::new(&program).stdin(Stdio::piped()).stdout(Stdio::piped()).spawn().expect("the program runs");
        child.stdin.take().unwrap().write_all(&file(&format!("examples/{name}.table"))).unwrap();
        let printed = String::from_utf8(child.wait_with_output().unwrap().stdout).unwrap();
        assert_eq!(printed, without_sheet(&text(&format!("examples/{name}.listing"))), "{name}");
    }
}
