//! The machine once more, written plainly for speed: start and run in place on a state's bytes, as a good C programmer would. It is what
//! the proved machine is measured against; the tests hold it, too, against the readable one.

use crate::evaluator::answer::{Answer, Event, Refusal};
use super::loader::{half, records, walk, Records};
use super::state::{Lent, FRAME, FRAMES, HOLDS, RECORD, RECORDS};

fn refused(number: u8, place: usize) -> u64 {
    Answer::Refusal(Refusal { number, place }).packed()
}

pub fn start(code: &[u8], state: &mut [u8]) -> u64 {
    let r = match records(code) {
        Ok(r) => r,
        Err(i) => return refused(8, i),
    };
    if let Some(i) = walk(code, &r, |_, _, _| {}) {
        return refused(9, i);
    }
    match state.try_into() {
        Ok(bytes) => Lent(bytes).write_fresh(code, &r),
        Err(_) => return refused(10, 0),
    }
    1
}

/// What is kept of the top activation between steps: nothing, so that each step reads it from the bytes and writes it back; its place, address and
/// depth beside the bytes, which are written at each step; or these and the top operand instead of the bytes.
pub const IN_BYTES: u8 = 0;
pub const BESIDE_BYTES: u8 = 1;
pub const IN_LOCALS: u8 = 2;

pub fn run<const KEPT: u8>(code: &[u8], state: &mut [u8], readings: &[u8], allowance: u16) -> u64 {
    let r = match records(code) {
        Ok(r) => r,
        Err(i) => return refused(8, i),
    };
    let mut s = match state.try_into() {
        Ok(bytes) => Lent(bytes),
        Err(_) => return walk(code, &r, |_, _, _| {}).map_or(refused(10, 0), |i| refused(9, i)),
    };
    match s.inspect(code, &r) {
        Err(i) => return refused(9, i),
        Ok(false) => return refused(10, 0),
        Ok(true) => {}
    }
    let readings = match readings.try_into() {
        Ok(bank) => bank,
        Err(_) => return refused(11, 0),
    };
    s.clear_unused(code, &r);
    Machine::<KEPT> { code, r: &r, s, readings }.run(allowance).packed()
}

/// What a step of a running state gives.
enum Out {
    Goes,
    Gives(Event),
    Ends,
    Condition(u8),
}

/// The top activation: its place, its operands, its address; if kept in locals also its top operand, whose bytes are 0 meanwhile.
#[derive(Clone, Copy)]
struct Top {
    f: usize,
    n: usize,
    i: usize,
    w: u32,
    t: u8,
}

struct Machine<'a, const KEPT: u8> {
    code: &'a [u8],
    r: &'a Records,
    s: Lent<'a>,
    readings: &'a [u8; 64],
}

impl<const KEPT: u8> Machine<'_, KEPT> {
    const LOCALS: bool = KEPT == IN_LOCALS;

    fn run(&mut self, allowance: u16) -> Answer {
        match self.s.byte(0) {
            0 => self.run_on(allowance),
            1 => self.release(0, allowance),
            _ => Answer::End { steps: 0, code: self.s.byte(1) as u8 },
        }
    }

    fn run_on(&mut self, allowance: u16) -> Answer {
        let mut steps = 0;
        let mut top = self.fetch();
        while steps < allowance {
            steps += 1;
            if KEPT == IN_BYTES {
                top = self.fetch();
            }
            match self.step(&mut top) {
                Out::Goes => {}
                Out::Gives(event) => {
                    self.keep(top);
                    return Answer::Event { steps, event };
                }
                Out::Ends => {
                    self.drop_all(2, 0);
                    return Answer::End { steps, code: 0 };
                }
                Out::Condition(c) => {
                    self.drop_all(1, c);
                    return self.release(steps, allowance);
                }
            }
        }
        self.keep(top);
        Answer::AllowanceUsed { steps }
    }

    /// The last taken hold, or the end once none is open.
    fn release(&mut self, steps: u16, allowance: u16) -> Answer {
        if steps == allowance {
            return Answer::AllowanceUsed { steps };
        }
        let h = self.s.half(6);
        if h == 0 {
            self.s.put_byte(0, 2);
            return Answer::End { steps: steps + 1, code: self.s.byte(1) as u8 };
        }
        let group = self.s.byte(HOLDS + h - 1) as u8;
        self.s.put_byte(HOLDS + h - 1, 0);
        self.s.put_half(6, h - 1);
        Answer::Event { steps: steps + 1, event: Event::Release { group } }
    }

    /// No activations and no records more.
    fn drop_all(&mut self, phase: usize, code: u8) {
        let (n, records) = (self.s.byte(2), self.s.half(4));
        self.s.clear(FRAMES, FRAMES + FRAME * n);
        self.s.clear(RECORDS, RECORDS + RECORD * records);
        self.s.put_byte(0, phase);
        self.s.put_byte(1, code as usize);
        self.s.put_byte(2, 0);
        self.s.put_half(4, 0);
    }

    #[inline(always)]
    fn fetch(&mut self) -> Top {
        let f = FRAMES + FRAME * (self.s.byte(2) - 1);
        let mut top = Top { f, n: self.s.byte(f + 1), i: self.s.half(f + 4), w: 0, t: 0 };
        if Self::LOCALS {
            self.raise(&mut top);
        }
        top
    }

    #[inline(always)]
    fn keep(&mut self, top: Top) {
        if Self::LOCALS {
            self.lower(top);
            self.s.put_byte(top.f + 1, top.n);
            self.s.put_half(top.f + 4, top.i);
        }
    }

    #[inline(always)]
    fn put_operand(&mut self, f: usize, k: usize, w: u32, t: u8) {
        self.s.put_word(f + 136 + 4 * k, w);
        self.s.put_byte(f + 296 + k, t as usize);
    }

    #[inline(always)]
    fn operand(&self, f: usize, k: usize) -> (u32, u8) {
        (self.s.word(f + 136 + 4 * k), self.s.byte(f + 296 + k) as u8)
    }

    /// The top operand, if there is one, from its bytes into the locals.
    #[inline(always)]
    fn raise(&mut self, top: &mut Top) {
        if top.n > 0 {
            (top.w, top.t) = self.operand(top.f, top.n - 1);
            self.put_operand(top.f, top.n - 1, 0, 0);
        }
    }

    /// And back.
    #[inline(always)]
    fn lower(&mut self, top: Top) {
        if top.n > 0 {
            self.put_operand(top.f, top.n - 1, top.w, top.t);
        }
    }

    #[inline(always)]
    fn push(&mut self, top: &mut Top, w: u32, t: u8) {
        if Self::LOCALS {
            self.lower(*top);
            (top.w, top.t) = (w, t);
        } else {
            self.put_operand(top.f, top.n, w, t);
            self.s.put_byte(top.f + 1, top.n + 1);
        }
        top.n += 1;
    }

    #[inline(always)]
    fn top(&self, top: &Top) -> (u32, u8) {
        if Self::LOCALS { (top.w, top.t) } else { self.operand(top.f, top.n - 1) }
    }

    #[inline(always)]
    fn set_top(&mut self, top: &mut Top, w: u32, t: u8) {
        if Self::LOCALS {
            (top.w, top.t) = (w, t);
        } else {
            self.put_operand(top.f, top.n - 1, w, t);
        }
    }

    #[inline(always)]
    fn pop(&mut self, top: &mut Top) -> (u32, u8) {
        let value = self.top(top);
        top.n -= 1;
        if Self::LOCALS {
            self.raise(top);
        } else {
            self.put_operand(top.f, top.n, 0, 0);
            self.s.put_byte(top.f + 1, top.n);
        }
        value
    }

    #[inline(always)]
    fn go(&mut self, top: &mut Top, i: usize) -> Out {
        top.i = i;
        if !Self::LOCALS {
            self.s.put_half(top.f + 4, i);
        }
        Out::Goes
    }

    /// A byte of the macro, whose places the loading check has shown to lie inside.
    #[inline(always)]
    fn code_byte(&self, p: usize) -> u8 {
        debug_assert!(p < self.code.len());
        // SAFETY: as said.
        unsafe { *self.code.get_unchecked(p) }
    }

    #[inline(always)]
    fn code_word(&self, p: usize) -> u32 {
        debug_assert!(p + 4 <= self.code.len());
        // SAFETY: as said.
        u32::from_le_bytes(unsafe { self.code.as_ptr().add(p).cast::<[u8; 4]>().read() })
    }

    #[inline(always)]
    fn step(&mut self, top: &mut Top) -> Out {
        let p = self.r.base + 8 * top.i;
        let (op, a, b) = (self.code_byte(p + 2), self.code_byte(p + 3), self.code_word(p + 4));
        match op {
            0 => return Out::Ends,
            1..=3 => self.push(top, b, op),
            4 => self.push(top, 0, 16 + a),
            5 => {
                let (word, ty) = cell(top.f, a, b);
                self.push(top, self.s.word(word), self.s.byte(ty) as u8);
            }
            6 => {
                let (w, t) = self.pop(top);
                let (word, ty) = cell(top.f, a, b);
                self.s.put_word(word, w);
                self.s.put_byte(ty, t as usize);
            }
            7 => {
                if let Some(c) = self.operate(top, a) {
                    return Out::Condition(c);
                }
            }
            8 => return self.go(top, b as usize),
            9 => {
                if self.pop(top).0 == 0 {
                    return self.go(top, b as usize);
                }
            }
            10 => {
                if self.s.byte(2) == 32 {
                    return Out::Condition(26);
                }
                self.call(*top, b as usize);
                *top = self.fetch();
                return Out::Goes;
            }
            11 => {
                let result = if top.n > 0 { Some(self.top(top)) } else { None };
                self.leave(*top);
                *top = self.fetch();
                if let Some((w, t)) = result {
                    self.push(top, w, t);
                }
            }
            12 => {
                if self.s.half(4) == 256 {
                    return Out::Condition(27);
                }
                let word = self.make(top, a);
                self.push(top, word, 16 + a);
            }
            13 => {
                let (w, _) = self.top(top);
                if w == 0 {
                    return Out::Condition(22);
                }
                let (word, ty) = field(w, b);
                self.set_top(top, self.s.word(word), self.s.byte(ty) as u8);
            }
            14 => {
                let (w, t) = self.pop(top);
                let (x, _) = self.pop(top);
                if x == 0 {
                    return Out::Condition(22);
                }
                let (word, ty) = field(x, b);
                self.s.put_word(word, w);
                self.s.put_byte(ty, t as usize);
            }
            15 => {
                let (level, _) = self.pop(top);
                let (channel, _) = self.pop(top);
                if channel.wrapping_sub(1) > 511 || level > 255 {
                    return Out::Condition(25);
                }
                self.go(top, top.i + 1);
                return Out::Gives(Event::Set { channel: channel as u16, level: level as u8 });
            }
            16 => {
                let n = self.top(top).0.wrapping_sub(1);
                if n > 63 {
                    return Out::Condition(25);
                }
                self.set_top(top, self.readings[n as usize] as u32, 1);
            }
            17 => {
                self.take_hold(top.f, b as usize);
                self.go(top, top.i + 1);
                return Out::Gives(Event::Hold { group: b as u8 });
            }
            18 => {
                let group = self.let_hold(top.f);
                self.go(top, top.i + 1);
                return Out::Gives(Event::Release { group });
            }
            19 => {
                if self.pop(top).0 == 0 {
                    return Out::Condition(23);
                }
            }
            _ => return Out::Condition(a),
        }
        self.go(top, top.i + 1)
    }

    /// The condition, if there is one.
    #[inline(always)]
    fn operate(&mut self, top: &mut Top, a: u8) -> Option<u8> {
        let (y, _) = if a < 20 { self.pop(top) } else { (0, 0) };
        let (x, t) = self.top(top);
        let (p, q) = (x as i32, y as i32);
        let number = match a {
            1 => p.checked_add(q),
            2 => p.checked_sub(q),
            3 => p.checked_mul(q),
            4 | 5 if q == 0 => return Some(21),
            4 => p.checked_div(q),
            5 => Some(p.wrapping_rem(q)),
            20 => p.checked_neg(),
            21 => p.checked_abs(),
            _ => {
                let (w, t) = other(a, t, x, y);
                self.set_top(top, w, t);
                return None;
            }
        };
        match number {
            Some(z) => self.set_top(top, z as u32, 1),
            None => return Some(20),
        }
        None
    }

    /// A new activation of body b above the top.
    fn call(&mut self, top: Top, b: usize) {
        self.keep(top);
        let q = self.r.bodies[b];
        let (parameters, cells) = (self.code_byte(q + 4) as usize, self.code_byte(q + 6) as usize);
        let g = top.f + FRAME;
        let first = top.n - parameters;
        for j in 0..parameters {
            let (w, t) = self.operand(top.f, first + j);
            self.put_operand(top.f, first + j, 0, 0);
            self.s.put_word(g + 8 + 4 * j, w);
            self.s.put_byte(g + 264 + j, t as usize);
        }
        for j in parameters..cells {
            self.s.put_byte(g + 264 + j, self.code_byte(q + 7 + j) as usize);
        }
        self.s.put_byte(top.f + 1, first);
        self.s.put_byte(g, b);
        self.s.put_half(g + 4, half(self.code, q + 2));
        self.s.put_byte(2, self.s.byte(2) + 1);
    }

    /// The top activation goes; what it had is cleared.
    fn leave(&mut self, top: Top) {
        self.s.clear(top.f, top.f + FRAME);
        self.s.put_byte(2, self.s.byte(2) - 1);
    }

    /// A record of class a from the operands; the word of its reference.
    fn make(&mut self, top: &mut Top, a: u8) -> u32 {
        if Self::LOCALS {
            self.lower(*top);
        }
        let made = self.s.half(4);
        let fields = self.code_byte(self.r.classes[a as usize] + 2) as usize;
        let p = RECORDS + RECORD * made;
        top.n -= fields;
        self.s.put_byte(p, a as usize);
        for j in 0..fields {
            let (w, t) = self.operand(top.f, top.n + j);
            self.put_operand(top.f, top.n + j, 0, 0);
            self.s.put_word(p + 4 + 4 * j, w);
            self.s.put_byte(p + 36 + j, t as usize);
        }
        self.s.put_half(4, made + 1);
        if Self::LOCALS {
            self.raise(top);
        }
        made as u32 + 1
    }

    fn take_hold(&mut self, f: usize, group: usize) {
        let h = self.s.half(6);
        self.s.put_byte(HOLDS + h, group);
        self.s.put_half(6, h + 1);
        self.s.put_byte(f + 2, self.s.byte(f + 2) + 1);
    }

    fn let_hold(&mut self, f: usize) -> u8 {
        let h = self.s.half(6) - 1;
        let group = self.s.byte(HOLDS + h) as u8;
        self.s.put_byte(HOLDS + h, 0);
        self.s.put_half(6, h);
        self.s.put_byte(f + 2, self.s.byte(f + 2) - 1);
        group
    }
}

/// Cell b of the top itself (a 0) or of the root (1): where its word and its type byte stand.
#[inline(always)]
fn cell(f: usize, a: u8, b: u32) -> (usize, usize) {
    let f = if a == 0 { f } else { FRAMES };
    (f + 8 + 4 * b as usize, f + 264 + b as usize)
}

/// Field b of the record that a reference's word names, which is not null: where its word and its type byte stand.
#[inline(always)]
fn field(w: u32, b: u32) -> (usize, usize) {
    let p = RECORDS + RECORD * (w as usize - 1);
    (p + 4 + 4 * b as usize, p + 36 + b as usize)
}

/// The operators that end in no condition: orderings, equality, logic, shifts.
#[inline(always)]
fn other(a: u8, t: u8, x: u32, y: u32) -> (u32, u8) {
    let (p, q) = (x as i32, y as i32);
    let truth = |b: bool| (b as u32, 2);
    let left = |n: i64| match n {
        0..=31 => (x << n, t),
        -31..=-1 => (x >> -n, t),
        _ => (0, t),
    };
    match a {
        6 => truth(p < q),
        7 => truth(p <= q),
        8 => truth(p > q),
        9 => truth(p >= q),
        10 => truth(x == y),
        11 => truth(x != y),
        12 => (x & y, t),
        13 => (x | y, t),
        14 => left(q as i64),
        15 => left(-(q as i64)),
        _ if t == 2 => (1 - x, t),
        _ => (!x, t),
    }
}
