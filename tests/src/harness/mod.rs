//! Drives the evaluators, the plain versions and, where it is linked, the proved library on the same cases and compares what they answer.

#[cfg(desk)]
pub mod compare_machines;
pub mod compare_tree_and_code;
#[cfg(desk)]
pub mod desk;
#[cfg(desk)]
mod guarded_memory;
pub mod listings;
#[cfg(desk)]
pub mod painted_stack;
pub mod setup;
pub mod verdicts;
