//! The files that the Rattle program `vectors` is run on are those that the second evaluator writes.

use std::process::Command;

fn printed(what: &str) -> Vec<u8> {
    let run = Command::new(env!("CARGO_BIN_EXE_vectors")).arg(what).output().expect("vectors runs");
    assert!(run.status.success());
    run.stdout
}

fn stored(name: &str) -> Vec<u8> {
    std::fs::read(format!("{}/../crates/vectors/{name}", env!("CARGO_MANIFEST_DIR"))).expect("the file is there")
}

#[test]
fn stored_input_is_what_the_evaluator_writes() {
    assert_eq!(printed("input"), stored("stdin"));
}

#[test]
fn stored_output_is_what_the_evaluator_expects() {
    assert_eq!(printed("output"), stored("stdout"));
}
