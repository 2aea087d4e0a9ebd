//! Cases for the tests, the prover and the benchmarks: made at random from a seed, at the limits, damaged, or from the papers' notation.

pub mod damaged_entries;
pub mod damaged_structure;
pub mod edge_cases;
pub mod end_sheets;
pub mod entries;
pub mod judged_tables;
pub mod loops;
pub mod macros;
pub mod notation;
pub mod programs;
pub mod rng;
pub mod runs;
pub mod states;
pub mod untyped_tables;
pub mod worst_case_tables;
