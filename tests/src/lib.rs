//! What the tests, the benchmarks and the cases for the prover are made of, in four groups.

/// The second evaluator: what paper 01 says, written once more from the papers alone; plain rather than quick, comments cite the sentence.
pub mod evaluator;
/// Cases: programs, tables, macros and run states, generated at random from a seed, at the limits, damaged or written down as the papers do.
pub mod generate;
/// What drives the evaluators and the proved library on the same cases and compares them.
pub mod harness;
/// Check, compiler, loading check and machine in plain Rust for speed: to measure the proved code against, and to compare it with byte for byte.
pub mod plain;
