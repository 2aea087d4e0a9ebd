//! The C interface of the proved library (include/desk.h), declared for Rust, and its answers unpacked.

use std::cell::RefCell;

use crate::evaluator::answer::{refuse, Refusal};
use crate::evaluator::table::MOST_BYTES;
use super::guarded_memory::GuardedMemory;

extern "C" {
    fn cue_load(code: *const u8, n: usize) -> u64;
    fn cue_check(table: *const u8, n: usize) -> u64;
    fn cue_compile(table: *const u8, n: usize, out: *mut u8, room: usize) -> u64;
    fn cue_start(code: *const u8, n: usize, state: *mut u8, len: usize) -> u64;
    fn cue_run(code: *const u8, n: usize, state: *mut u8, len: usize, readings: *const u8, m: usize, allowance: u16) -> u64;
    fn cue_play(
        code: *const u8,
        n: usize,
        state: *mut u8,
        len: usize,
        readings: *const u8,
        m: usize,
        allowance: u16,
        answers: *mut u8,
        k: usize,
    ) -> u64;
}

/// "packed = tag + 2^8 × steps + 2^24 × first + 2^40 × second"
pub fn unpacked(packed: u64) -> [u64; 4] {
    [packed & 0xff, packed >> 8 & 0xffff, packed >> 24 & 0xffff, packed >> 40]
}

/// The loading check's answer.
pub fn load(code: &[u8]) -> u64 {
    // SAFETY: the function reads code and nothing else, for any bytes and any length.
    unsafe { cue_load(code.as_ptr(), code.len()) }
}

/// The table check's answer.
pub fn check(table: &[u8]) -> u64 {
    // SAFETY: the function reads table and nothing else, for any bytes and any length.
    unsafe { cue_check(table.as_ptr(), table.len()) }
}

/// The compiler's answer.
pub fn compile(table: &[u8], out: &mut [u8]) -> u64 {
    // SAFETY: the function reads table, writes out and touches nothing else, for any bytes and any lengths.
    unsafe { cue_compile(table.as_ptr(), table.len(), out.as_mut_ptr(), out.len()) }
}

/// The answer of a start.
pub fn start(code: &[u8], state: &mut [u8]) -> u64 {
    // SAFETY: the function reads code, writes state and touches nothing else, for any bytes and any lengths.
    unsafe { cue_start(code.as_ptr(), code.len(), state.as_mut_ptr(), state.len()) }
}

/// The answer of a run.
pub fn run(code: &[u8], state: &mut [u8], readings: &[u8], allowance: u16) -> u64 {
    // SAFETY: the function reads code and readings, reads and writes state and touches nothing else, for any bytes and any lengths.
    unsafe { cue_run(code.as_ptr(), code.len(), state.as_mut_ptr(), state.len(), readings.as_ptr(), readings.len(), allowance) }
}

/// The answer of a play.
pub fn play(code: &[u8], state: &mut [u8], readings: &[u8], allowance: u16, answers: &mut [u8]) -> u64 {
    let (n, len, m, k) = (code.len(), state.len(), readings.len(), answers.len());
    // SAFETY: the function reads code and readings, reads and writes state and answers and touches nothing else, for any bytes and any lengths.
    unsafe { cue_play(code.as_ptr(), n, state.as_mut_ptr(), len, readings.as_ptr(), m, allowance, answers.as_mut_ptr(), k) }
}

/// More than the longest macro of any table: 45,120 instructions (L12), a shape at each with 32 types, and the heads.
pub const MOST_MACRO_BYTES: usize = 1 << 21;

thread_local! {
    static TABLE: RefCell<GuardedMemory> = RefCell::new(GuardedMemory::new(2 * MOST_BYTES));
    static MACRO: RefCell<GuardedMemory> = RefCell::new(GuardedMemory::new(MOST_MACRO_BYTES));
}

/// Number and place of the table check's verdict on bytes lent to it, (0, 0) where it accepts.
pub fn checked(table: &[u8]) -> (u8, usize) {
    let answer = TABLE.with_borrow_mut(|lent| lent.lend(table, check));
    match unpacked(answer) {
        [1, 0, 0, 0] => (0, 0),
        [0, 0, number @ 1..=6, place] => (number as u8, place as usize),
        other => panic!("no answer of a table check: {other:?}, table {table:?}"),
    }
}

/// The macro of a table in so much room, both lent between closed pages, or the refusal. What is not the macro's must stay: all of the
/// room at a refusal, else what is behind the macro.
pub fn compiled(table: &[u8], room: usize) -> Result<Vec<u8>, Refusal> {
    let noise: Vec<u8> = (0..room).map(|i| (i * 167 + 13) as u8).collect();
    TABLE.with_borrow_mut(|lent_table| {
        MACRO.with_borrow_mut(|lent_macro| {
            let (answer, left) = lent_table.lend(table, |table| lent_macro.lend_to_write(&noise, |out| compile(table, out)));
            match unpacked(answer) {
                [1, 0, 0, length] if length as usize <= room => {
                    let length = length as usize;
                    assert!(left[length..] == noise[length..], "bytes behind the macro stay: table {table:?}");
                    Ok(left[..length].to_vec())
                }
                [0, 0, number @ 1..=7, place] => {
                    assert!(left == noise, "a refusal writes nothing: table {table:?}");
                    refuse(number as u8, place as usize)
                }
                other => panic!("no answer of a compiler in {room} bytes: {other:?}, table {table:?}"),
            }
        })
    })
}
