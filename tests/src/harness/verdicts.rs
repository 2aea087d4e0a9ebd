//! Verdicts on tables and macros as number and place. Every table check there is, the proved one too where it is linked, must give the same.

use crate::evaluator::answer::number_and_place;
use crate::evaluator::code::{judge_macro, write_macro, Macro};
use crate::evaluator::names::judge_table;
use crate::generate::notation::table;
use crate::plain;

/// The verdict on a table: number and place, (0, 0) where it is accepted. The plain check must give
/// the same, and so must the proved one where it is linked.
pub fn judged(bytes: &[u8]) -> (u8, usize) {
    let verdict = number_and_place(&judge_table(bytes));
    assert_eq!(plain::check::check(bytes), verdict, "the plain check, table {bytes:?}");
    #[cfg(desk)]
    assert_eq!(super::desk::checked(bytes), verdict, "cue_check, table {bytes:?}");
    verdict
}

/// The verdict on a table in the papers' notation.
pub fn verdict(text: &str) -> (u8, usize) {
    judged(&table(text))
}

/// The verdict on a macro's bytes.
pub fn loaded(bytes: &[u8]) -> (u8, usize) {
    number_and_place(&judge_macro(bytes))
}

/// The verdict on a macro in parts.
pub fn loads(m: &Macro) -> (u8, usize) {
    loaded(&write_macro(m))
}
