//! A run state's 24,576 bytes for the machine beside this file: read and written as C does, tested for soundness in one walk of the macro,
//! cleared where a state does not use them. Written for speed; the tests hold it, too, against the readable one.

use crate::evaluator::answer::is_condition;
use crate::evaluator::state::LENGTH;
use super::loader::{half, walk, Records, Stack};

pub(crate) const FRAMES: usize = 32;
pub(crate) const FRAME: usize = 328;
pub(crate) const HOLDS: usize = 10_528;
pub(crate) const RECORDS: usize = 11_040;
pub(crate) const RECORD: usize = 44;

/// The lent bytes. As in C no index is checked; a build with debug assertions, as the tests', checks all.
pub(crate) struct Lent<'a>(pub(crate) &'a mut [u8; LENGTH]);

impl Lent<'_> {
    #[inline(always)]
    fn array<const N: usize>(&self, p: usize) -> [u8; N] {
        debug_assert!(p + N <= LENGTH);
        // SAFETY: places are computed from counts that the soundness test has bounded.
        unsafe { self.0.as_ptr().add(p).cast::<[u8; N]>().read() }
    }

    #[inline(always)]
    fn put<const N: usize>(&mut self, p: usize, bytes: [u8; N]) {
        debug_assert!(p + N <= LENGTH);
        // SAFETY: as above.
        unsafe { self.0.as_mut_ptr().add(p).cast::<[u8; N]>().write(bytes) }
    }

    #[inline(always)]
    pub(crate) fn byte(&self, p: usize) -> usize {
        self.array::<1>(p)[0] as usize
    }

    #[inline(always)]
    pub(crate) fn half(&self, p: usize) -> usize {
        u16::from_le_bytes(self.array(p)) as usize
    }

    #[inline(always)]
    pub(crate) fn word(&self, p: usize) -> u32 {
        u32::from_le_bytes(self.array(p))
    }

    #[inline(always)]
    pub(crate) fn put_byte(&mut self, p: usize, n: usize) {
        self.put(p, [n as u8]);
    }

    #[inline(always)]
    pub(crate) fn put_half(&mut self, p: usize, n: usize) {
        self.put(p, (n as u16).to_le_bytes());
    }

    #[inline(always)]
    pub(crate) fn put_word(&mut self, p: usize, w: u32) {
        self.put(p, w.to_le_bytes());
    }

    #[inline(always)]
    pub(crate) fn clear(&mut self, from: usize, to: usize) {
        self.0[from..to].fill(0);
    }

    /// Whether a word is a value of this type.
    fn fits(&self, t: u8, w: u32) -> bool {
        match t {
            2 => w < 2,
            16.. if w != 0 => w as usize <= self.half(4) && self.byte(RECORDS + RECORD * (w as usize - 1)) == t as usize - 16,
            _ => true,
        }
    }

    /// Whether the values with type bytes at `at` and words at `words` are of these types.
    fn row(&self, types: &[u8], at: usize, words: usize) -> bool {
        self.0[at..at + types.len()] == *types && (0..types.len()).all(|j| self.fits(types[j], self.word(words + 4 * j)))
    }

    fn groups(&self, h: usize) -> bool {
        h <= 512 && self.0[HOLDS..HOLDS + h].iter().all(|g| *g < 64)
    }

    /// Whether activation k, of n, fits the state found at its address, in body b.
    fn stands(&self, code: &[u8], r: &Records, n: usize, k: usize, b: usize, found: &Stack) -> bool {
        let p = FRAMES + FRAME * k;
        if self.byte(p) != b || self.byte(p + 2) != found.holds as usize {
            return false;
        }
        let mut depth = found.depth;
        if k + 1 < n {
            let (at, next) = (r.base + 8 * self.half(p + 4), self.byte(p + FRAME));
            if code[at + 2] != 10 || code[at + 4..at + 8] != (next as u32).to_le_bytes() || next >= r.bodies.len() {
                return false;
            }
            // A fault of the macro may be found only later.
            match depth.checked_sub(code[r.bodies[next] + 4] as usize) {
                Some(left) => depth = left,
                None => return false,
            }
        }
        self.byte(p + 1) == depth && self.row(&found.types[..depth], p + 296, p + 136)
    }

    /// The least address, from i on, at which one of n activations stands.
    fn wanted(&self, n: usize, i: usize) -> usize {
        (0..n).map(|k| self.half(FRAMES + FRAME * k + 4)).filter(|a| *a >= i).min().unwrap_or(usize::MAX)
    }

    /// What of a running state needs no state found by the loading rules.
    fn rest_fits(&self, code: &[u8], r: &Records, n: usize) -> bool {
        let mut open = 0;
        for k in 0..n {
            let p = FRAMES + FRAME * k;
            let q = r.bodies[self.byte(p)];
            open += self.byte(p + 2);
            if !self.row(&code[q + 7..q + 7 + code[q + 6] as usize], p + 264, p + 8) {
                return false;
            }
        }
        let records = (0..self.half(4)).all(|k| {
            let p = RECORDS + RECORD * k;
            match r.classes.get(self.byte(p)) {
                Some(q) => self.row(&code[q + 3..q + 3 + code[q + 2] as usize], p + 36, p + 4),
                None => false,
            }
        });
        records && self.half(6) == open && self.groups(open)
    }

    /// The lowest address with a fault of the macro, or whether the state is sound.
    pub(crate) fn inspect(&self, code: &[u8], r: &Records) -> Result<bool, usize> {
        let counts = self.byte(0) == 0 && (1..=32).contains(&self.byte(2)) && self.half(4) <= 256 && self.byte(FRAMES) == 0;
        let n = if counts { self.byte(2) } else { 0 };
        let mut next = self.wanted(n, 0);
        let mut stood = 0;
        let fault = walk(code, r, |i, b, found| {
            if i == next {
                stood += (0..n).filter(|k| self.half(FRAMES + FRAME * k + 4) == i && self.stands(code, r, n, *k, b, found)).count();
                next = self.wanted(n, i + 1);
            }
        });
        match (fault, self.byte(0)) {
            (Some(i), _) => Err(i),
            (None, 0) => Ok(counts && stood == n && self.rest_fits(code, r, n)),
            (None, 1) => Ok(is_condition(self.byte(1) as u8) && self.groups(self.half(6))),
            (None, phase) => Ok(phase == 2 && (self.byte(1) == 0 || is_condition(self.byte(1) as u8))),
        }
    }

    /// Makes 0 what a sound state does not use.
    pub(crate) fn clear_unused(&mut self, code: &[u8], r: &Records) {
        let (n, records, h) = (self.byte(2), self.half(4), self.half(6));
        match self.byte(0) {
            0 => {
                self.put_byte(1, 0);
                self.put_byte(3, 0);
                self.clear(8, 32);
                for k in 0..n {
                    let p = FRAMES + FRAME * k;
                    let (cells, depth) = (code[r.bodies[self.byte(p)] + 6] as usize, self.byte(p + 1));
                    self.put_byte(p + 3, 0);
                    self.put_half(p + 6, 0);
                    self.clear(p + 8 + 4 * cells, p + 136);
                    self.clear(p + 136 + 4 * depth, p + 264);
                    self.clear(p + 264 + cells, p + 296);
                    self.clear(p + 296 + depth, p + 328);
                }
                self.clear(FRAMES + FRAME * n, HOLDS);
                self.clear(HOLDS + h, RECORDS);
                for k in 0..records {
                    let p = RECORDS + RECORD * k;
                    let fields = code[r.classes[self.byte(p)] + 2] as usize;
                    self.clear(p + 1, p + 4);
                    self.clear(p + 4 + 4 * fields, p + 36);
                    self.clear(p + 36 + fields, p + RECORD);
                }
                self.clear(RECORDS + RECORD * records, LENGTH);
            }
            1 => {
                self.clear(2, 6);
                self.clear(8, HOLDS);
                self.clear(HOLDS + h, LENGTH);
            }
            _ => self.clear(2, LENGTH),
        }
    }

    /// The root alone, at its first address, its cells as variables start.
    pub(crate) fn write_fresh(&mut self, code: &[u8], r: &Records) {
        let q = r.bodies[0];
        let cells = code[q + 6] as usize;
        self.clear(0, LENGTH);
        self.put_byte(2, 1);
        self.put_half(FRAMES + 4, half(code, q + 2));
        self.0[FRAMES + 264..FRAMES + 264 + cells].copy_from_slice(&code[q + 7..q + 7 + cells]);
    }
}
