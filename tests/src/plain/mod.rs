//! The library's functions once more in plain Rust, written for speed as a good C programmer would: what the benchmarks measure the
//! proved code against. The tests hold them to the second evaluator and, byte for byte, to the proved library.

pub mod check;
pub mod compiler;
pub mod loader;
pub mod machine;
mod state;
