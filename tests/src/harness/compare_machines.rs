//! Start, run and play by the proved library, by the plain machine and by the second evaluator, on the same bytes: all must give the same
//! answer and leave the same bytes; the proved library gets memory between closed pages.

use std::cell::RefCell;
use std::collections::BTreeMap;

use crate::evaluator::answer::{Answer, Refusal};
use crate::evaluator::code::Macro;
use crate::evaluator::machine::{self, State};
use crate::evaluator::state::{self, encode};
use super::desk;
use super::guarded_memory::GuardedMemory;
use crate::plain;
use crate::plain::machine::{BESIDE_BYTES, IN_BYTES, IN_LOCALS};

/// What is lent to a call, and what must come of it.
struct Call<'a> {
    code: &'a [u8],
    readings: &'a [u8],
    allowance: u16,
    before: &'a [u8],
    answer: u64,
    after: &'a [u8],
}

/// Memory to lend for macros, readings and states.
struct Memory {
    code: GuardedMemory,
    readings: GuardedMemory,
    state: GuardedMemory,
    answers: GuardedMemory,
}

thread_local! {
    static MEMORY: RefCell<Memory> =
        RefCell::new(Memory { code: GuardedMemory::new(1 << 20), readings: GuardedMemory::new(4_096), state: GuardedMemory::new(1 << 16), answers: GuardedMemory::new(1 << 16) });
}

impl Call<'_> {
    /// The call by the proved library, on memory that is lent to it.
    fn by_desk(&self, who: &str, work: impl FnOnce(&[u8], &mut [u8], &[u8]) -> u64) {
        MEMORY.with_borrow_mut(|Memory { code, readings, state, .. }| {
            let (answer, after) = code.lend(self.code, |code| {
                readings.lend(self.readings, |readings| state.lend_to_write(self.before, |state| work(code, state, readings)))
            });
            self.compare(who, answer, after);
        });
    }

    /// The call by a plain machine.
    fn by_plain(&self, who: &str, work: impl FnOnce(&mut [u8]) -> u64) {
        let mut state = self.before.to_vec();
        let answer = work(&mut state);
        self.compare(who, answer, &state);
    }

    fn compare(&self, who: &str, answer: u64, after: &[u8]) {
        if answer != self.answer {
            self.fail(who, &format!("answers {:?}, not {:?}", desk::unpacked(answer), desk::unpacked(self.answer)));
        }
        if after != self.after {
            let i = (0..after.len()).find(|&i| after[i] != self.after[i]).unwrap();
            self.fail(who, &format!("leaves {} as byte {i} of the state, not {}", after[i], self.after[i]));
        }
    }

    /// Tells the whole case; of the state the bytes that are not 0.
    fn fail(&self, who: &str, what: &str) -> ! {
        let state: Vec<(usize, u8)> = self.before.iter().copied().enumerate().filter(|(_, b)| *b != 0).take(2_000).collect();
        let Call { code, readings, allowance, before, .. } = self;
        let length = before.len();
        panic!("{who} {what}\nmacro {code:?}\nreadings {readings:?}\nallowance {allowance}\nstate of {length} bytes {state:?}");
    }

    fn started(&self) {
        self.by_desk("cue_start", |code, state, _| desk::start(code, state));
        self.by_plain("the plain start", |state| plain::machine::start(self.code, state));
    }

    fn ran(&self) {
        let Call { code, readings, allowance, .. } = *self;
        self.by_desk("cue_run", |code, state, readings| desk::run(code, state, readings, allowance));
        self.by_plain("the plain run", |state| plain::machine::run::<IN_BYTES>(code, state, readings, allowance));
        self.by_plain("the plain run beside bytes", |state| plain::machine::run::<BESIDE_BYTES>(code, state, readings, allowance));
        self.by_plain("the plain run in locals", |state| plain::machine::run::<IN_LOCALS>(code, state, readings, allowance));
    }
}

/// A start on any bytes: the refusal, if it is refused.
pub fn start(code: &[u8], state: &mut Vec<u8>) -> Option<Refusal> {
    let before = state.clone();
    let refusal = state::start(code, state).err();
    let answer = refusal.map_or(1, |r| Answer::Refusal(r).packed());
    Call { code, readings: &[], allowance: 0, before: &before, answer, after: state }.started();
    refusal
}

/// The fresh state of a macro that passes, written over bytes that were something else.
pub fn started(code: &[u8]) -> Vec<u8> {
    let mut state: Vec<u8> = (0..state::LENGTH).map(|i| (i * 7 + 1) as u8).collect();
    assert_eq!(start(code, &mut state), None);
    state
}

/// A run on any bytes.
pub fn run(code: &[u8], state: &mut Vec<u8>, readings: &[u8], allowance: u16) -> Answer {
    let before = state.clone();
    let answer = state::run_bytes(code, state, readings, allowance);
    Call { code, readings, allowance, before: &before, answer: answer.packed(), after: state }.ran();
    answer
}

/// A run of a macro that passes, which the second evaluator's machine goes along with by itself: it never sees the bytes.
pub fn run_along(m: &Macro, code: &[u8], machine: &mut State, state: &mut Vec<u8>, readings: &[u8], allowance: u16) -> Answer {
    let answer = machine::run(m, machine, readings, allowance).expect("a passed macro is never stuck");
    let after = encode(machine);
    Call { code, readings, allowance, before: state, answer: answer.packed(), after: &after }.ran();
    *state = after;
    answer
}

/// A play by a list of calls of `cue_run`: with what is left of the allowance, as long as they give events and there is room.
fn by_runs(code: &[u8], state: &mut [u8], readings: &[u8], allowance: u16, answers: &mut [u8]) -> [u64; 4] {
    if let [0, _, number, place] = desk::unpacked(desk::run(code, &mut state.to_vec(), readings, 0)) {
        return [0, 0, number, place];
    }
    let mut taken = 0;
    for i in 0..answers.len() / 8 {
        let answer = desk::run(code, state, readings, allowance - taken as u16);
        let [tag, steps, first, _] = desk::unpacked(answer);
        taken += steps;
        if !(4..=6).contains(&tag) {
            return [tag, taken, first, i as u64];
        }
        answers[8 * i..8 * i + 8].copy_from_slice(&answer.to_le_bytes());
    }
    [8, taken, 0, (answers.len() / 8) as u64]
}

/// A play on any bytes, its answer's numbers: by the second evaluator, by the proved library and by the library's runs.
pub fn play(code: &[u8], state: &mut Vec<u8>, readings: &[u8], allowance: u16, answers: &mut Vec<u8>) -> [u64; 4] {
    let (before, lent) = (state.clone(), answers.clone());
    let wanted = state::play_bytes(code, state, readings, allowance, answers);
    let case = || format!("\nmacro {code:?}\nreadings {readings:?}\nallowance {allowance}, {} bytes for answers", lent.len());
    let (mut run_state, mut run_answers) = (before.clone(), lent.clone());
    let ran = by_runs(code, &mut run_state, readings, allowance, &mut run_answers);
    assert!((ran, &run_state, &run_answers) == (wanted, &*state, &*answers), "cue_run, again and again, answers {ran:?}, not {wanted:?}{}", case());
    MEMORY.with_borrow_mut(|memory| {
        let ((answer, left), after) = memory.code.lend(code, |code| {
            memory.readings.lend(readings, |readings| {
                let (answer, after) = memory.state.lend_to_write(&before, |state| {
                    let (answer, left) = memory.answers.lend_to_write(&lent, |answers| desk::play(code, state, readings, allowance, answers));
                    (answer, left.to_vec())
                });
                (answer, after.to_vec())
            })
        });
        let given = desk::unpacked(answer);
        assert!(given == wanted, "cue_play answers {given:?}, not {wanted:?}{}", case());
        assert!(after == *state, "cue_play leaves another state{}", case());
        assert!(left == *answers, "cue_play writes other answers{}", case());
    });
    wanted
}

/// How often each answer was given: by its tag and, for a refusal or an end, its number.
#[derive(Default, Debug)]
pub struct AnswerCounts(BTreeMap<(u64, u64), usize>);

impl AnswerCounts {
    pub fn note(&mut self, answer: &Answer) {
        self.note_numbers(answer.numbers());
    }

    pub fn note_numbers(&mut self, [tag, _, first, _]: [u64; 4]) {
        *self.0.entry((tag, if tag == 0 || tag == 3 { first } else { 0 })).or_default() += 1;
    }

    pub fn times(&self, tag: u64, number: u64) -> usize {
        *self.0.get(&(tag, number)).unwrap_or(&0)
    }
}
