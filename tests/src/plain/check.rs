//! The table check once more, written plainly for speed: one pass that reads the table and adds up its
//! limits, one that judges names and types; no tree is built, the names in sight stand in arrays. It is
//! what the proved check is measured against; the tests hold it, too, against the readable one.

use crate::evaluator::table::{MOST_BYTES, MOST_CLASSES, MOST_DEPTH, MOST_PROCEDURES};

/// A refusal's number and place.
type Refused = (u8, usize);

/// 0 and 0, or the refusal's number and place.
pub fn check(table: &[u8]) -> Refused {
    match accepted(table) {
        Ok(_) => (0, 0),
        Err(refused) => refused,
    }
}

/// The entries of each entry's tree, where the table is accepted.
pub(crate) fn accepted(table: &[u8]) -> Result<Vec<u16>, Refused> {
    if table.is_empty() || table.len() > MOST_BYTES || !table.len().is_multiple_of(8) {
        return Err((1, 0));
    }
    let mut reader = Reader::new(table);
    if let Err(place) = reader.table() {
        return Err((2, place));
    }
    Judge::new(table, &reader.size).root()?;
    match reader.over {
        Some(place) => Err((6, place)),
        None => Ok(reader.size),
    }
}

#[derive(Clone, Copy)]
pub(crate) struct Entry {
    pub(crate) kind: u16,
    pub(crate) a: u16,
    pub(crate) b: i32,
}

pub(crate) fn entry(table: &[u8], at: usize) -> Entry {
    let word = u64::from_le_bytes(table[8 * at..8 * at + 8].try_into().unwrap());
    Entry { kind: word as u16, a: (word >> 16) as u16, b: (word >> 32) as i32 }
}

// Reading (2) and limits (6).

/// What an entry and all below it take of its body's limits.
#[derive(Clone, Copy)]
struct Used {
    need: u32,
    cells: u32,
    holds: u32,
}

const LEAF: Used = Used { need: 1, cells: 0, holds: 0 };

impl Used {
    /// One operand more, while so many values wait.
    fn join(&mut self, operand: Used, waiting: u32) {
        self.need = self.need.max(waiting + operand.need);
        self.cells += operand.cells;
        self.holds = self.holds.max(operand.holds);
    }

    fn exceeds(&self) -> bool {
        self.cells > 32 || self.holds > 16 || self.need > 32
    }
}

struct Reader<'t> {
    table: &'t [u8],
    next: usize,
    /// The entries of each entry's tree.
    size: Vec<u16>,
    /// The first body over its limits.
    over: Option<usize>,
}

/// What an entry takes, or the first entry that does not read.
type Reads = Result<Used, usize>;

impl<'t> Reader<'t> {
    fn new(table: &'t [u8]) -> Reader<'t> {
        Reader { table, next: 0, size: vec![0; table.len() / 8], over: None }
    }

    fn table(&mut self) -> Result<(), usize> {
        let root = self.root()?;
        if self.next < self.size.len() {
            return Err(self.next);
        }
        if self.over.is_none() && root.exceeds() {
            self.over = Some(0);
        }
        Ok(())
    }

    #[inline(always)]
    fn take(&mut self, depth: usize) -> Result<(usize, Entry), usize> {
        let at = self.next;
        if at == self.size.len() || depth > MOST_DEPTH {
            return Err(at);
        }
        self.next += 1;
        Ok((at, entry(self.table, at)))
    }

    #[inline(always)]
    fn done(&mut self, at: usize, used: Used) -> Reads {
        self.size[at] = (self.next - at) as u16;
        Ok(used)
    }

    fn root(&mut self) -> Reads {
        let (at, e) = self.take(1)?;
        if e.kind != 1 || e.b < 0 {
            return Err(at);
        }
        let (mut classes, mut procedures) = (0, 0);
        let mut own = LEAF;
        for _ in 0..e.a {
            let (at, d) = self.take(2)?;
            match d.kind {
                11 => {
                    classes += 1;
                    if classes > MOST_CLASSES || !(1..=8).contains(&d.b) {
                        return Err(at);
                    }
                    self.typed(d.b)?;
                    self.done(at, LEAF)?;
                }
                12 => {
                    procedures += 1;
                    if procedures > MOST_PROCEDURES {
                        return Err(at);
                    }
                    self.procedure(at, d.b)?;
                }
                _ => self.declaration(at, d, &mut own)?,
            }
        }
        self.parts(e.b, 2, own)
    }

    fn procedure(&mut self, at: usize, heading: i32) -> Result<(), usize> {
        let (parameters, result) = (heading / 256, heading % 256);
        if heading < 0 || parameters > 8 || result > 3 {
            return Err(at);
        }
        self.typed(parameters)?;
        let mut used = if result == 0 { self.statement(3, false)? } else { self.expression(3)? };
        used.cells += parameters as u32;
        if self.over.is_none() && used.exceeds() {
            self.over = Some(at);
        }
        self.done(at, LEAF)?;
        Ok(())
    }

    /// Fields or parameters.
    fn typed(&mut self, count: i32) -> Result<(), usize> {
        for _ in 0..count {
            let (at, e) = self.take(3)?;
            if e.kind != 10 || !is_type(e.b) {
                return Err(at);
            }
            self.size[at] = 1;
        }
        Ok(())
    }

    /// What may stand in every head.
    fn declaration(&mut self, at: usize, e: Entry, own: &mut Used) -> Result<(), usize> {
        match e.kind {
            10 if is_type(e.b) => own.cells += 1,
            14 if e.a <= 63 && e.b == 0 => own.holds += 1,
            _ => return Err(at),
        }
        self.size[at] = 1;
        Ok(())
    }

    fn head(&mut self, count: u16, depth: usize) -> Reads {
        let mut own = LEAF;
        for _ in 0..count {
            let (at, e) = self.take(depth)?;
            self.declaration(at, e, &mut own)?;
        }
        Ok(own)
    }

    /// The labels and statements of a block, whose head takes this.
    fn parts(&mut self, count: i32, depth: usize, own: Used) -> Reads {
        let mut inside = Used { holds: 0, ..own };
        for _ in 0..count {
            let used = self.statement(depth, true)?;
            inside.join(used, 0);
        }
        inside.holds += own.holds;
        Ok(inside)
    }

    fn statement(&mut self, depth: usize, label_may_stand: bool) -> Reads {
        let (at, e) = self.take(depth)?;
        let plain = e.a == 0 && e.b == 0;
        let below = depth + 1;
        let used = match e.kind {
            1 if e.b >= 0 => {
                let own = self.head(e.a, below)?;
                self.parts(e.b, below, own)?
            }
            20 if label_may_stand && e.b == 0 => LEAF,
            21 if plain => {
                if self.next < self.size.len() && !matches!(entry(self.table, self.next).kind, 44 | 46) {
                    return Err(self.next);
                }
                self.expressions(2, below)?
            }
            22 | 24 if plain => self.guarded(1, below)?,
            23 if plain => self.guarded(2, below)?,
            25 if e.b == 0 => LEAF,
            26 if plain => self.expression(below)?,
            27 if e.b >= 0 => self.expressions(e.b, below)?,
            28 if plain => self.expressions(2, below)?,
            30 if e.a >= 1 && e.b == 0 => {
                let mut used = self.guarded(e.a, below)?;
                used.need = used.need.max(2);
                used.cells += 1;
                used
            }
            31 if e.b == 0 => {
                let mut used = self.expressions(3, below)?;
                let statement = self.statement(below, false)?;
                used.join(statement, 0);
                used.cells += 3;
                used
            }
            _ => return Err(at),
        };
        self.done(at, used)
    }

    /// An expression and the statements that it guards.
    fn guarded(&mut self, count: u16, depth: usize) -> Reads {
        let mut used = self.expression(depth)?;
        for _ in 0..count {
            let statement = self.statement(depth, false)?;
            used.join(statement, 0);
        }
        Ok(used)
    }

    fn expressions(&mut self, count: i32, depth: usize) -> Reads {
        let mut used = LEAF;
        for waiting in 0..count {
            let operand = self.expression(depth)?;
            used.join(operand, waiting as u32);
        }
        Ok(used)
    }

    fn expression(&mut self, depth: usize) -> Reads {
        let (at, e) = self.take(depth)?;
        let below = depth + 1;
        let used = match e.kind {
            40 | 42 if e.a == 0 => LEAF,
            41 if e.a == 0 && matches!(e.b, 0 | 1) => LEAF,
            43 | 44 if e.b == 0 => LEAF,
            45 | 47 if e.b >= 0 => self.expressions(e.b, below)?,
            46 if e.b == 0 => self.expression(below)?,
            48 if matches!(e.a, 20..=22) && e.b == 0 => self.expression(below)?,
            49 if matches!(e.a, 1..=15) && e.b == 0 => self.expressions(2, below)?,
            50 if e.a == 0 && e.b == 0 => self.expressions(3, below)?,
            51 if e.a == 0 && e.b == 0 => self.expression(below)?,
            53 if e.b >= 0 => {
                let own = self.head(e.a, below)?;
                let mut used = self.parts(e.b, below, own)?;
                let mut value = self.expression(below)?;
                value.holds += own.holds;
                used.join(value, 0);
                used
            }
            _ => return Err(at),
        };
        self.done(at, used)
    }
}

fn is_type(code: i32) -> bool {
    matches!(code, 1..=3 | 65_536..=131_071)
}

// Names, types and reach (3, 4, 5). A type is its code in the table.

const INTEGER: i32 = 1;
const LOGICAL: i32 = 2;
const BITS: i32 = 3;

fn reference(class: u16) -> i32 {
    65_536 + class as i32
}

#[derive(Clone, Copy, PartialEq)]
enum Sort {
    Variable,
    /// The control name of a loop: an integer that is not assigned.
    Control,
    Label,
    Class,
    /// Of the class of this name.
    Field(u16),
    Procedure,
}

/// What a name stands for: the entry that defines it, and that entry's b.
#[derive(Clone, Copy)]
struct Definition {
    sort: Sort,
    at: u16,
    b: i32,
}

struct Judge<'t> {
    table: &'t [u8],
    size: &'t [u16],
    next: usize,
    /// The names in sight, the innermost last, and beside each what it stands for.
    names: Vec<u16>,
    definitions: Vec<Definition>,
    /// How many of them lie outside the innermost procedure or block expression.
    wall: usize,
    /// The entries that define a name which their block has already.
    twice: [u64; 32],
}

impl<'t> Judge<'t> {
    fn new(table: &'t [u8], size: &'t [u16]) -> Judge<'t> {
        let room = size.len();
        let (names, definitions) = (Vec::with_capacity(room), Vec::with_capacity(room));
        Judge { table, size, next: 0, names, definitions, wall: 0, twice: [0; 32] }
    }

    fn define(&mut self, block: usize, name: u16, at: usize, sort: Sort, b: i32) {
        if self.names[block..].contains(&name) {
            self.twice[at / 64] |= 1 << (at % 64);
        } else {
            self.names.push(name);
            self.definitions.push(Definition { sort, at: at as u16, b });
        }
    }

    fn find(&self, name: u16) -> Option<(usize, Definition)> {
        let i = self.names.iter().rposition(|n| *n == name)?;
        Some((i, self.definitions[i]))
    }

    fn close(&mut self, block: usize) {
        self.names.truncate(block);
        self.definitions.truncate(block);
    }

    fn once(&self, at: usize) -> Result<(), Refused> {
        if self.twice[at / 64] >> (at % 64) & 1 == 1 {
            return Err((3, at));
        }
        Ok(())
    }

    #[inline(always)]
    fn take(&mut self) -> (usize, Entry) {
        let at = self.next;
        self.next += 1;
        (at, entry(self.table, at))
    }

    fn root(&mut self) -> Result<(), Refused> {
        let (_, e) = self.take();
        let mut at = 1;
        for _ in 0..e.a {
            let d = entry(self.table, at);
            match d.kind {
                10 => self.define(0, d.a, at, Sort::Variable, d.b),
                11 => {
                    self.define(0, d.a, at, Sort::Class, d.b);
                    self.open_typed(0, at + 1, d.b, Sort::Field(d.a));
                }
                12 => self.define(0, d.a, at, Sort::Procedure, d.b),
                _ => {}
            }
            at += self.size[at] as usize;
        }
        self.open_labels(0, at, e.b);
        for _ in 0..e.a {
            let (at, d) = self.take();
            match d.kind {
                10 => self.variable(at, d.b)?,
                11 => {
                    self.head(d.b)?;
                    self.once(at)?;
                }
                12 => self.procedure(at, d)?,
                _ => {}
            }
        }
        self.statements(e.b)
    }

    fn procedure(&mut self, at: usize, d: Entry) -> Result<(), Refused> {
        let (parameters, result) = (d.b / 256, d.b % 256);
        let (block, wall) = (self.names.len(), self.wall);
        self.wall = block;
        self.open_typed(block, self.next, parameters, Sort::Variable);
        self.head(parameters)?;
        let mut right = true;
        if result == 0 {
            self.statement()?;
        } else {
            right = self.expression()? == result;
        }
        self.close(block);
        self.wall = wall;
        self.once(at)?;
        demand(right, at)
    }

    /// Fields, parameters, or the variables of a head.
    fn open_typed(&mut self, block: usize, from: usize, count: i32, sort: Sort) {
        for at in from..from + count as usize {
            let e = entry(self.table, at);
            if e.kind == 10 {
                self.define(block, e.a, at, sort, e.b);
            }
        }
    }

    fn open_labels(&mut self, block: usize, from: usize, count: i32) {
        let mut at = from;
        for _ in 0..count {
            let e = entry(self.table, at);
            if e.kind == 20 {
                self.define(block, e.a, at, Sort::Label, 0);
            }
            at += self.size[at] as usize;
        }
    }

    /// A block's names, its head and its statements; the names stay in sight.
    fn block(&mut self, e: Entry) -> Result<(), Refused> {
        let block = self.names.len();
        self.open_typed(block, self.next, e.a as i32, Sort::Variable);
        self.open_labels(block, self.next + e.a as usize, e.b);
        self.head(e.a as i32)?;
        self.statements(e.b)
    }

    fn head(&mut self, count: i32) -> Result<(), Refused> {
        for _ in 0..count {
            let (at, e) = self.take();
            if e.kind == 10 {
                self.variable(at, e.b)?;
            }
        }
        Ok(())
    }

    fn variable(&self, at: usize, ty: i32) -> Result<(), Refused> {
        self.once(at)?;
        if ty >= 65_536 {
            self.class(at, ty as u16)?;
        }
        Ok(())
    }

    fn class(&self, at: usize, name: u16) -> Result<Definition, Refused> {
        match self.find(name) {
            None => Err((3, at)),
            Some((_, d)) if d.sort == Sort::Class => Ok(d),
            Some(_) => Err((4, at)),
        }
    }

    fn statements(&mut self, count: i32) -> Result<(), Refused> {
        for _ in 0..count {
            self.statement()?;
        }
        Ok(())
    }

    fn statement(&mut self) -> Result<(), Refused> {
        let (at, e) = self.take();
        match e.kind {
            1 => {
                let block = self.names.len();
                self.block(e)?;
                self.close(block);
                Ok(())
            }
            20 => self.once(at),
            21 => {
                let target = self.target()?;
                let value = self.expression()?;
                demand(target == value, at)
            }
            22 | 24 => self.guarded(at, 1, LOGICAL),
            23 => self.guarded(at, 2, LOGICAL),
            25 => match self.find(e.a) {
                None => Err((3, at)),
                Some((_, d)) if d.sort != Sort::Label => Err((4, at)),
                Some((i, _)) if i < self.wall => Err((5, at)),
                Some(_) => Ok(()),
            },
            26 => self.guarded(at, 0, LOGICAL),
            27 => {
                let result = self.call(at, e)?;
                demand(result == 0, at)
            }
            28 => {
                let channel = self.expression()?;
                let level = self.expression()?;
                demand(channel == INTEGER && level == INTEGER, at)
            }
            30 => self.guarded(at, e.a as i32, INTEGER),
            _ => {
                let bounds = [self.expression()?, self.expression()?, self.expression()?];
                let block = self.names.len();
                self.define(block, e.a, at, Sort::Control, INTEGER);
                self.statement()?;
                self.close(block);
                demand(bounds == [INTEGER; 3], at)
            }
        }
    }

    /// The type of a variable or field that is assigned.
    fn target(&mut self) -> Result<i32, Refused> {
        if entry(self.table, self.next).kind != 44 {
            return self.expression();
        }
        let (at, e) = self.take();
        match self.find(e.a) {
            None => Err((3, at)),
            Some((_, d)) if d.sort == Sort::Variable => Ok(d.b),
            Some(_) => Err((4, at)),
        }
    }

    fn guarded(&mut self, at: usize, count: i32, asked: i32) -> Result<(), Refused> {
        let test = self.expression()?;
        self.statements(count)?;
        demand(test == asked, at)
    }

    /// The result's type, 0 of a proper procedure.
    fn call(&mut self, at: usize, e: Entry) -> Result<i32, Refused> {
        let found = self.find(e.a);
        match found {
            Some((_, d)) if d.sort == Sort::Procedure => {
                let fits = self.operands(e.b, d.at as usize + 1, d.b / 256)?;
                demand(fits, at)?;
                Ok(d.b % 256)
            }
            _ => {
                self.operands(e.b, 0, 0)?;
                Err((if found.is_none() { 3 } else { 4 }, at))
            }
        }
    }

    /// Whether the operands are as many as the entries from this one on declare, each of its type.
    fn operands(&mut self, count: i32, from: usize, declared: i32) -> Result<bool, Refused> {
        let mut fits = count == declared;
        for i in 0..count {
            let given = self.expression()?;
            fits = fits && given == entry(self.table, from + i as usize).b;
        }
        Ok(fits)
    }

    fn expression(&mut self) -> Result<i32, Refused> {
        let (at, e) = self.take();
        match e.kind {
            40 => Ok(INTEGER),
            41 => Ok(LOGICAL),
            42 => Ok(BITS),
            43 => {
                self.class(at, e.a)?;
                Ok(reference(e.a))
            }
            44 => match self.find(e.a) {
                None => Err((3, at)),
                Some((_, d)) if matches!(d.sort, Sort::Variable | Sort::Control) => Ok(d.b),
                Some(_) => Err((4, at)),
            },
            45 => match self.call(at, e)? {
                0 => Err((4, at)),
                result => Ok(result),
            },
            46 => {
                let given = self.expression()?;
                match self.find(e.a) {
                    None => Err((3, at)),
                    Some((_, Definition { sort: Sort::Field(class), b, .. })) if given == reference(class) => Ok(b),
                    Some(_) => Err((4, at)),
                }
            }
            47 => self.record(at, e),
            48 => {
                let x = self.expression()?;
                demand(if e.a == 22 { x == LOGICAL || x == BITS } else { x == INTEGER }, at)?;
                Ok(x)
            }
            49 => {
                let x = self.expression()?;
                let y = self.expression()?;
                binary(e.a, x, y).ok_or((4, at))
            }
            50 => {
                let test = self.expression()?;
                let then = self.expression()?;
                let other = self.expression()?;
                demand(test == LOGICAL && then == other, at)?;
                Ok(then)
            }
            51 => {
                let x = self.expression()?;
                demand(x == INTEGER, at)?;
                Ok(INTEGER)
            }
            _ => {
                let (block, wall) = (self.names.len(), self.wall);
                self.wall = block;
                self.block(e)?;
                let value = self.expression()?;
                self.close(block);
                self.wall = wall;
                Ok(value)
            }
        }
    }

    fn record(&mut self, at: usize, e: Entry) -> Result<i32, Refused> {
        match self.class(at, e.a) {
            Ok(d) => {
                let fits = self.operands(e.b, d.at as usize + 1, d.b)?;
                demand(fits, at)?;
                Ok(reference(e.a))
            }
            Err(refused) => {
                self.operands(e.b, 0, 0)?;
                Err(refused)
            }
        }
    }
}

fn binary(operator: u16, x: i32, y: i32) -> Option<i32> {
    let integers = x == INTEGER && y == INTEGER;
    match operator {
        1..=5 if integers => Some(INTEGER),
        6..=9 if integers => Some(LOGICAL),
        10 | 11 if x == y => Some(LOGICAL),
        12 | 13 if x == y && (x == LOGICAL || x == BITS) => Some(x),
        14 | 15 if x == BITS && y == INTEGER => Some(BITS),
        _ => None,
    }
}

/// 4 at the entry unless it is as asked.
fn demand(as_asked: bool, at: usize) -> Result<(), Refused> {
    if as_asked {
        Ok(())
    } else {
        Err((4, at))
    }
}
