//! Tables and compiled macros as text, for people. Nothing here judges: the library's checks say what is accepted.

pub mod disassembly;
pub mod entries;
