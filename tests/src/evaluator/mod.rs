//! The second evaluator: paper 01 ("Cue macros in ALGOL W") written once more in Rust, from the
//! papers alone. The prover's definitions and the proved code are held against it, so it is plain
//! rather than quick; comments cite the paper's sentence.

pub mod answer;
pub mod code;
pub mod compiler;
pub mod execute;
pub mod limits;
pub mod machine;
pub mod names;
pub mod state;
pub mod table;
pub mod values;
