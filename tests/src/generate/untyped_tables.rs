//! Tables that keep to the layout, made without regard to names and types: few names, so that they hide each
//! other, come twice and stand for the wrong thing. And random entries of known kinds, which seldom make a tree.

use crate::evaluator::table::{bytes_of, Entry};
use super::entries::KINDS;
use super::rng::Rng;

struct Untyped<'r> {
    rng: &'r mut Rng,
    list: Vec<Entry>,
    /// How many names there are.
    names: usize,
    left: i64,
}

/// A tree of about so many entries, of which one now and then is spoilt.
pub fn untyped_table(rng: &mut Rng, entries: usize) -> Vec<u8> {
    let names = 2 + rng.below(7);
    let mut maker = Untyped { rng, list: Vec::new(), names, left: entries as i64 };
    maker.root();
    let mut list = maker.list;
    if rng.chance(8) {
        let k = rng.below(list.len());
        list[k] = some_entry(rng);
    }
    bytes_of(&list)
}

/// Entries of known kinds, one after the other.
pub fn random_entries(rng: &mut Rng) -> Vec<u8> {
    let mut list = vec![Entry { kind: 1, a: rng.below(3) as u16, b: rng.below(4) as i32 }];
    for _ in 0..rng.below(30) {
        list.push(some_entry(rng));
    }
    bytes_of(&list)
}

fn some_entry(rng: &mut Rng) -> Entry {
    let a = *rng.pick(&[0, 0, 0, 1, 1, 2, 3, 10, 20, 63, 64, 65_535]);
    let b = *rng.pick(&[0, 0, 0, 1, 1, 2, 3, 256, 257, 65_537, 131_072, -1, i32::MIN, i32::MAX]);
    Entry { kind: *rng.pick(&KINDS), a, b }
}

impl Untyped<'_> {
    fn put(&mut self, kind: u16, a: u16, b: i32) {
        self.left -= 1;
        self.list.push(Entry { kind, a, b });
    }

    fn name(&mut self) -> u16 {
        self.rng.below(self.names) as u16
    }

    fn ty(&mut self) -> i32 {
        match self.rng.below(20) {
            0 => 2,
            1 => 3,
            2 | 3 => 65_536 + self.name() as i32,
            _ => 1,
        }
    }

    fn variable(&mut self) {
        let (name, ty) = (self.name(), self.ty());
        self.put(10, name, ty);
    }

    fn root(&mut self) {
        let (declarations, statements) = (self.rng.below(5), 1 + self.rng.below(4));
        self.put(1, declarations as u16, statements as i32);
        for _ in 0..declarations {
            let name = self.name();
            match self.rng.below(8) {
                0 => {
                    let fields = 1 + self.rng.below(2);
                    self.put(11, name, fields as i32);
                    (0..fields).for_each(|_| self.variable());
                }
                1..=3 => {
                    let (parameters, result) = (self.rng.below(3), *self.rng.pick(&[0, 0, 0, 1, 1, 2]));
                    self.put(12, name, 256 * parameters as i32 + result);
                    (0..parameters).for_each(|_| self.variable());
                    // Half of the bodies are blocks, which may define the names of the parameters again.
                    match (result, self.rng.chance(50)) {
                        (0, true) => self.block(1, 3),
                        (0, false) => self.statement(3, false),
                        (_, true) => {
                            self.block(53, 3);
                            self.expression(4);
                        }
                        (_, false) => self.expression(3),
                    }
                }
                4 => self.put(14, name, 0),
                _ => self.variable(),
            }
        }
        (0..statements).for_each(|_| self.statement(2, true));
    }

    fn block(&mut self, kind: u16, depth: usize) {
        let (declarations, statements) = (self.rng.below(3), self.rng.below(4));
        self.put(kind, declarations as u16, statements as i32);
        for _ in 0..declarations {
            if self.rng.chance(85) {
                self.variable();
            } else {
                self.put(14, 9, 0);
            }
        }
        (0..statements).for_each(|_| self.statement(depth + 1, true));
    }

    fn statement(&mut self, depth: usize, label_may_stand: bool) {
        let name = self.name();
        if self.left <= 0 || depth > 60 {
            return self.put(1, 0, 0);
        }
        match self.rng.below(18) {
            0..=2 if label_may_stand => self.put(20, name, 0),
            3..=5 => self.put(25, name, 0),
            6 | 7 => self.block(1, depth),
            8 => {
                let kind = *self.rng.pick(&[22, 23, 24, 30]);
                let arms = 1 + (kind == 23) as u16;
                self.put(kind, if kind == 30 { arms } else { 0 }, 0);
                if kind == 30 {
                    self.expression(depth + 1);
                } else {
                    self.test(depth + 1);
                }
                (0..arms).for_each(|_| self.statement(depth + 1, false));
            }
            9 => {
                self.put(26, 0, 0);
                self.test(depth + 1);
            }
            10 => {
                let arguments = self.rng.below(2);
                self.put(27, name, arguments as i32);
                (0..arguments).for_each(|_| self.expression(depth + 1));
            }
            11 | 12 => {
                self.put(28, 0, 0);
                (0..2).for_each(|_| self.expression(depth + 1));
            }
            13 | 14 => {
                self.put(31, name, 0);
                (0..3).for_each(|_| self.expression(depth + 1));
                self.statement(depth + 1, false);
            }
            _ => {
                self.put(21, 0, 0);
                if self.rng.chance(80) {
                    self.put(44, name, 0);
                } else {
                    self.put(46, name, 0);
                    self.expression(depth + 2);
                }
                self.expression(depth + 1);
            }
        }
    }

    fn test(&mut self, depth: usize) {
        match self.rng.below(4) {
            0 => self.expression(depth),
            1 => self.put(41, 0, 1),
            _ => {
                let operator = self.rng.between(6, 11) as u16;
                self.put(49, operator, 0);
                (0..2).for_each(|_| self.expression(depth + 1));
            }
        }
    }

    fn expression(&mut self, depth: usize) {
        let name = self.name();
        let kind = if self.left <= 0 || depth > 60 { *self.rng.pick(&[40, 44]) } else { *self.rng.pick(&EXPRESSIONS) };
        match kind {
            40 | 42 => self.put(kind, 0, 7),
            41 => self.put(41, 0, 1),
            43 | 44 => self.put(kind, name, 0),
            45 | 47 => {
                let operands = self.rng.below(3);
                self.put(kind, name, operands as i32);
                (0..operands).for_each(|_| self.expression(depth + 1));
            }
            53 => {
                self.block(53, depth);
                self.expression(depth + 1);
            }
            50 => {
                self.put(50, 0, 0);
                self.test(depth + 1);
                (0..2).for_each(|_| self.expression(depth + 1));
            }
            49 => {
                let operator = if self.rng.chance(80) { 1 + self.rng.below(5) } else { 1 + self.rng.below(15) };
                self.put(49, operator as u16, 0);
                (0..2).for_each(|_| self.expression(depth + 1));
            }
            _ => {
                let a = match kind {
                    46 => name,
                    48 => *self.rng.pick(&[20, 21, 22]),
                    _ => 0,
                };
                self.put(kind, a, 0);
                self.expression(depth + 1);
            }
        }
    }
}

/// Leaves and integers more often than what they are joined by.
const EXPRESSIONS: [u16; 24] =
    [40, 40, 40, 40, 40, 44, 44, 44, 44, 44, 44, 44, 41, 42, 43, 45, 46, 47, 48, 49, 49, 50, 51, 53];
