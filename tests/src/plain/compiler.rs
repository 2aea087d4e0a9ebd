//! The compiler once more, written plainly for speed: the table check, a dry walk over the table that resolves names and says where the
//! code of every part ends, and one that writes. No tree is built. It is what the proved compiler is measured against, and since it
//! takes the same decisions (crates/compile_code/specs/Compile), its bytes must be the same: the tests hold it to that.

use super::check::{accepted, entry, Entry};

const INTEGER: u8 = 1;
const LOGICAL: u8 = 2;
const BITS: u8 = 3;
/// The type byte of a reference, without the class number.
const REFERENCE: u8 = 16;

/// The length of the macro, written at the front of `out`; or the refusal's number and place, and nothing is written.
pub fn compile(table: &[u8], out: &mut [u8]) -> Result<usize, (u8, usize)> {
    let size = accepted(table)?;
    let mut notes = Notes::new(size.len());
    let dry = Walk::new(table, &size, &mut notes, Count::default()).bodies();
    let Heads { classes, bodies, cells, pen } = dry;
    let fields: usize = classes.iter().map(|class| class.fields).sum();
    let heads = 8 + 3 * classes.len() + fields + 7 * bodies.len() + cells.len();
    let length = heads + 8 * pen.address + pen.bytes + 2;
    if out.len() < length {
        return Err((7, 0));
    }
    let mut at = 0;
    let mut put = |bytes: &[u8]| {
        out[at..at + bytes.len()].copy_from_slice(bytes);
        at += bytes.len();
    };
    let [low, high] = (pen.address as u16).to_le_bytes();
    let [few, many] = (pen.shapes as u16).to_le_bytes();
    put(&[b'H', b'D', classes.len() as u8, bodies.len() as u8, low, high, few, many]);
    for class in &classes {
        put(&[b'C', b'L', class.fields as u8]);
        put(&notes.tag[class.at + 1..class.at + 1 + class.fields]);
    }
    for body in &bodies {
        let [low, high] = (body.first as u16).to_le_bytes();
        let types = &cells[body.cells.clone()];
        put(&[b'B', b'D', low, high, body.parameters, body.result, types.len() as u8]);
        put(types);
    }
    let writing = Write { out: &mut out[..length], at: heads, shape: heads + 8 * pen.address, address: 0, waits: false };
    let Heads { pen, .. } = Walk::new(table, &size, &mut notes, writing).bodies();
    pen.out[length - 2..].copy_from_slice(b"ZZ");
    Ok(length)
}

/// What the dry walk finds out, by entry.
struct Notes {
    /// A declared variable: its cell; a field: 256 × class + place; a class, a procedure: its number; a use of one: the same, 256 more
    /// where a procedure uses a variable of the root's; a goto: the label; a case: its cell; a loop: the first of its three.
    note: Vec<u16>,
    /// The type byte of what is declared or evaluated, 0 for none; a label: the holds open in its block; a goto: its releases.
    tag: Vec<u8>,
    /// The address after its code.
    end: Vec<u16>,
}

impl Notes {
    fn new(count: usize) -> Notes {
        Notes { note: vec![0; count], tag: vec![0; count], end: vec![0; count] }
    }
}

/// What becomes of an op, and of a shape found before the next op.
trait Pen {
    const DRY: bool;
    fn address(&self) -> usize;
    fn op(&mut self, op: u8, a: u8, b: i32);
    fn mark(&mut self, holds: usize, types: &[u8]);
}

#[derive(Default)]
struct Count {
    address: usize,
    shapes: usize,
    /// Of the SH records.
    bytes: usize,
    /// A shape has been met since the last op.
    waits: bool,
}

impl Pen for Count {
    const DRY: bool = true;

    fn address(&self) -> usize {
        self.address
    }

    #[inline(always)]
    fn op(&mut self, _: u8, _: u8, _: i32) {
        self.address += 1;
        self.waits = false;
    }

    #[inline(always)]
    fn mark(&mut self, _: usize, types: &[u8]) {
        if !self.waits {
            self.shapes += 1;
            self.bytes += 6 + types.len();
            self.waits = true;
        }
    }
}

struct Write<'o> {
    out: &'o mut [u8],
    /// Where the next IN and the next SH are written.
    at: usize,
    shape: usize,
    address: usize,
    waits: bool,
}

impl Pen for Write<'_> {
    const DRY: bool = false;

    fn address(&self) -> usize {
        self.address
    }

    #[inline(always)]
    fn op(&mut self, op: u8, a: u8, b: i32) {
        let word = u64::from_le_bytes([b'I', b'N', op, a, 0, 0, 0, 0]) | (b as u32 as u64) << 32;
        self.out[self.at..self.at + 8].copy_from_slice(&word.to_le_bytes());
        self.at += 8;
        self.address += 1;
        self.waits = false;
    }

    #[inline(always)]
    fn mark(&mut self, holds: usize, types: &[u8]) {
        if !self.waits {
            let [low, high] = (self.address as u16).to_le_bytes();
            let at = self.shape;
            self.out[at..at + 6].copy_from_slice(&[b'S', b'H', low, high, holds as u8, types.len() as u8]);
            self.out[at + 6..at + 6 + types.len()].copy_from_slice(types);
            self.shape += 6 + types.len();
            self.waits = true;
        }
    }
}

struct Class {
    at: usize,
    name: u16,
    fields: usize,
}

struct Body {
    first: usize,
    parameters: u8,
    result: u8,
    /// Among the cells of all bodies.
    cells: std::ops::Range<usize>,
}

/// What the records before the code are made of, and the pen.
struct Heads<P> {
    classes: Vec<Class>,
    bodies: Vec<Body>,
    cells: Vec<u8>,
    pen: P,
}

struct Walk<'t, P> {
    table: &'t [u8],
    size: &'t [u16],
    notes: &'t mut Notes,
    next: usize,
    classes: Vec<Class>,
    bodies: Vec<Body>,
    /// The type bytes of all bodies' cells, and how many of them are other bodies'.
    cells: Vec<u8>,
    own: usize,
    /// The names in sight, the innermost last, and beside each the entry that defines it; how many are the root's, seen from a
    /// procedure. Only the dry walk looks names up.
    names: Vec<u16>,
    places: Vec<u16>,
    globals: usize,
    holds: usize,
    /// The types of the operands on the working stack.
    stack: Vec<u8>,
    pen: P,
}

/// What a block leaves behind: names in sight and open holds before it.
struct Outside {
    names: usize,
    holds: usize,
}

impl<'t, P: Pen> Walk<'t, P> {
    fn new(table: &'t [u8], size: &'t [u16], notes: &'t mut Notes, pen: P) -> Walk<'t, P> {
        let room = if P::DRY { size.len() } else { 0 };
        Walk {
            table,
            size,
            notes,
            next: 0,
            classes: Vec::new(),
            bodies: Vec::new(),
            cells: Vec::new(),
            own: 0,
            names: Vec::with_capacity(room),
            places: Vec::with_capacity(room),
            globals: 0,
            holds: 0,
            stack: Vec::with_capacity(32),
            pen,
        }
    }

    // Bodies.

    /// The root, then the procedures.
    fn bodies(mut self) -> Heads<P> {
        let (_, e) = self.take();
        if P::DRY {
            self.number_globals(e.a);
            self.type_declarations();
        }
        for _ in 0..e.a {
            let at = self.next;
            self.declaration(at);
            self.next += self.size[at] as usize;
        }
        self.open_labels(e.b);
        self.statements(e.b);
        self.release(self.holds);
        self.holds = 0;
        self.op(0, 0, 0);
        self.body(0, 0, 0);
        self.globals = self.names.len();
        let mut at = 1;
        for _ in 0..e.a {
            self.next = at;
            if entry(self.table, at).kind == 12 {
                self.procedure();
            }
            at += self.size[at] as usize;
        }
        Heads { classes: self.classes, bodies: self.bodies, cells: self.cells, pen: self.pen }
    }

    /// A body is done: it began at this address.
    fn body(&mut self, first: usize, parameters: u8, result: u8) {
        if P::DRY {
            self.bodies.push(Body { first, parameters, result, cells: self.own..self.cells.len() });
            self.own = self.cells.len();
        }
    }

    fn procedure(&mut self) {
        let (_, e) = self.take();
        let (parameters, result) = ((e.b / 256) as usize, (e.b % 256) as u8);
        let first = self.pen.address();
        if P::DRY {
            for at in self.next..self.next + parameters {
                self.new_cell(at, self.notes.tag[at]);
                self.define(entry(self.table, at).a, at);
            }
        }
        self.next += parameters;
        if result == 0 {
            self.statement();
        } else {
            self.expression();
            self.stack.clear();
        }
        self.op(11, 0, 0);
        self.body(first, parameters as u8, result);
        self.names.truncate(self.globals);
        self.places.truncate(self.globals);
    }

    // Names, of the dry walk.

    /// The root's names but for its labels; classes, fields and procedures are numbered.
    fn number_globals(&mut self, count: u16) {
        let mut at = 1;
        let mut procedures = 0;
        for _ in 0..count {
            let e = entry(self.table, at);
            match e.kind {
                10 => self.define(e.a, at),
                11 => {
                    let class = self.classes.len();
                    self.classes.push(Class { at, name: e.a, fields: e.b as usize });
                    self.notes.note[at] = class as u16;
                    self.notes.tag[at] = REFERENCE + class as u8;
                    self.define(e.a, at);
                    for i in 0..e.b as usize {
                        self.notes.note[at + 1 + i] = (256 * class + i) as u16;
                        self.define(entry(self.table, at + 1 + i).a, at + 1 + i);
                    }
                }
                12 => {
                    procedures += 1;
                    self.notes.note[at] = procedures;
                    self.notes.tag[at] = (e.b % 256) as u8;
                    self.define(e.a, at);
                }
                _ => {}
            }
            at += self.size[at] as usize;
        }
    }

    /// The type byte of every variable, parameter and field.
    fn type_declarations(&mut self) {
        for at in 0..self.size.len() {
            let e = entry(self.table, at);
            if e.kind == 10 {
                self.notes.tag[at] = match self.classes.iter().position(|class| e.b == 65_536 + class.name as i32) {
                    Some(class) => REFERENCE + class as u8,
                    None => e.b as u8,
                };
            }
        }
    }

    fn define(&mut self, name: u16, at: usize) {
        self.names.push(name);
        self.places.push(at as u16);
    }

    /// Which of the names in sight this is, and the entry that defines it.
    fn find(&self, name: u16) -> (usize, usize) {
        let i = self.names.iter().rposition(|n| *n == name).expect("an accepted table's names are defined");
        (i, self.places[i] as usize)
    }

    /// What a name stands for at an entry that uses it; in a procedure, 256 more for a variable of the root's.
    fn settle(&mut self, at: usize, e: Entry) {
        if P::DRY {
            let (i, place) = self.find(e.a);
            let roots = e.kind == 44 && i < self.globals;
            self.notes.note[at] = self.notes.note[place] + if roots { 256 } else { 0 };
            self.notes.tag[at] = self.notes.tag[place];
        }
    }

    /// The cell that an entry stands for.
    fn new_cell(&mut self, at: usize, ty: u8) {
        if P::DRY {
            self.notes.note[at] = (self.cells.len() - self.own) as u16;
            self.cells.push(ty);
        }
    }

    // Ops and shapes.

    #[inline(always)]
    fn take(&mut self) -> (usize, Entry) {
        let at = self.next;
        self.next += 1;
        (at, entry(self.table, at))
    }

    #[inline(always)]
    fn op(&mut self, op: u8, a: u8, b: i32) {
        self.pen.op(op, a, b);
    }

    /// Jumps: the dry walk does not know where to.
    fn jump(&mut self, op: u8, at: usize, further: i32) {
        let to = self.notes.end[at] as i32 + further;
        self.op(op, 0, to);
    }

    fn mark(&mut self) {
        self.pen.mark(self.holds, &self.stack);
    }

    fn done(&mut self, at: usize) {
        if P::DRY {
            self.notes.end[at] = self.pen.address() as u16;
        }
    }

    fn push(&mut self, op: u8, a: u8, b: i32, ty: u8) {
        self.op(op, a, b);
        self.stack.push(ty);
    }

    fn drop(&mut self, count: usize) {
        self.stack.truncate(self.stack.len() - count);
    }

    fn release(&mut self, count: usize) {
        for _ in 0..count {
            self.op(18, 0, 0);
        }
    }

    // Blocks.

    fn declaration(&mut self, at: usize) {
        let e = entry(self.table, at);
        match e.kind {
            10 => {
                let ty = self.notes.tag[at];
                self.new_cell(at, ty);
                match ty {
                    REFERENCE.. => self.op(4, ty - REFERENCE, 0),
                    _ => self.op(ty, 0, 0),
                }
                self.op(6, 0, self.notes.note[at] as i32);
            }
            14 => {
                self.op(17, 0, e.a as i32);
                self.holds += 1;
            }
            _ => {}
        }
    }

    /// Labels among the statements that come next.
    fn open_labels(&mut self, count: i32) {
        if P::DRY {
            let mut at = self.next;
            for _ in 0..count {
                let e = entry(self.table, at);
                if e.kind == 20 {
                    self.define(e.a, at);
                    self.notes.tag[at] = self.holds as u8;
                }
                at += self.size[at] as usize;
            }
        }
    }

    /// A block's head and its statements; its names stay in sight and its holds open.
    fn block(&mut self, e: Entry) -> Outside {
        let outside = Outside { names: self.names.len(), holds: self.holds };
        for at in self.next..self.next + e.a as usize {
            let d = entry(self.table, at);
            if P::DRY && d.kind == 10 {
                self.define(d.a, at);
            }
            self.declaration(at);
        }
        self.next += e.a as usize;
        self.open_labels(e.b);
        self.statements(e.b);
        outside
    }

    fn close(&mut self, outside: Outside) {
        self.names.truncate(outside.names);
        self.places.truncate(outside.names);
        self.release(self.holds - outside.holds);
        self.holds = outside.holds;
    }

    fn statements(&mut self, count: i32) {
        for _ in 0..count {
            self.statement();
        }
    }

    // Statements.

    fn statement(&mut self) {
        let (at, e) = self.take();
        match e.kind {
            1 => {
                let outside = self.block(e);
                self.close(outside);
            }
            20 => self.mark(),
            21 => self.assign(),
            22 => {
                self.test(0);
                self.statement();
                self.mark();
            }
            23 => {
                self.test(1);
                self.statement();
                self.jump(8, at, 0);
                self.mark();
                self.statement();
                self.mark();
            }
            24 => {
                let again = self.pen.address();
                self.mark();
                self.test(1);
                self.statement();
                self.op(8, 0, again as i32);
                self.mark();
            }
            25 => {
                if P::DRY {
                    let (_, label) = self.find(e.a);
                    self.notes.note[at] = label as u16;
                    self.notes.tag[at] = self.holds as u8 - self.notes.tag[label];
                }
                self.release(self.notes.tag[at] as usize);
                self.jump(8, self.notes.note[at] as usize, 0);
                self.mark();
            }
            26 => {
                self.expression();
                self.op(19, 0, 0);
                self.drop(1);
            }
            27 => self.call(at, e),
            28 => {
                self.expressions(2);
                self.op(15, 0, 0);
                self.drop(2);
            }
            30 => self.case(at, e.a),
            _ => self.turns(at, e.a),
        }
        self.done(at);
    }

    fn assign(&mut self) {
        let (at, e) = self.take();
        let field = e.kind == 46;
        if field {
            self.expression();
        }
        self.settle(at, e);
        self.expression();
        let [place, class] = self.notes.note[at].to_le_bytes();
        if field {
            self.op(14, class, place as i32);
            self.drop(2);
        } else {
            self.op(6, class, place as i32);
            self.drop(1);
        }
    }

    /// An expression, and a jump so many ops behind the statement or expression that comes next if it is false.
    fn test(&mut self, further: i32) {
        self.expression();
        self.jump(9, self.next, further);
        self.drop(1);
    }

    fn case(&mut self, at: usize, arms: u16) {
        self.new_cell(at, INTEGER);
        let cell = self.notes.note[at] as i32;
        self.expression();
        self.op(6, 0, cell);
        self.drop(1);
        for i in 1..=arms as i32 {
            self.op(5, 0, cell);
            self.op(1, 0, i);
            self.op(7, 10, 0);
            self.jump(9, self.next, 1);
            self.statement();
            self.jump(8, at, 0);
            self.mark();
        }
        self.op(20, 24, 0);
        self.mark();
    }

    /// A loop's value, step and limit are in three cells on end. Before the first turn the limit becomes the last value from which another
    /// turn is due, one less where the step is negative, so that after each turn one comparison decides, and no sum passes the 32-bit range;
    /// where no value has another turn behind it, step and limit become such that none is due.
    fn turns(&mut self, at: usize, control: u16) {
        let [value, step, limit] = self.new_cells(at);
        self.expressions(3);
        self.mark();
        self.ops(&[(6, 0, limit), (6, 0, step), (6, 0, value)]);
        self.drop(3);
        let up = self.pen.address() as i32 + 26;
        let (once, turn) = (up + 15, up + 19);
        // step zero
        self.ops(&[(5, 0, step), (1, 0, 0), (7, 10, 0), (9, 0, up - 21), (20, 28, 0)]);
        self.mark();
        self.ops(&[(5, 0, step), (1, 0, 0), (7, 6, 0), (9, 0, up)]);
        // down: limit := limit - step - 1
        self.ops(&[(5, 0, value), (5, 0, limit), (7, 9, 0)]);
        self.jump(9, at, 0);
        self.ops(&[(5, 0, limit), (1, 0, i32::MAX), (5, 0, step), (7, 1, 0), (7, 7, 0), (9, 0, once)]);
        self.ops(&[(5, 0, limit), (5, 0, step), (7, 2, 0), (1, 0, 1), (7, 2, 0), (6, 0, limit), (8, 0, turn)]);
        self.mark();
        // up: limit := limit - step
        self.ops(&[(5, 0, value), (5, 0, limit), (7, 7, 0)]);
        self.jump(9, at, 0);
        self.ops(&[(5, 0, limit), (1, 0, i32::MIN), (5, 0, step), (7, 1, 0), (7, 9, 0), (9, 0, once)]);
        self.ops(&[(5, 0, limit), (5, 0, step), (7, 2, 0), (6, 0, limit), (8, 0, turn)]);
        self.mark();
        self.ops(&[(1, 0, -1), (6, 0, step), (1, 0, i32::MAX), (6, 0, limit)]);
        self.mark();
        let outside = self.names.len();
        if P::DRY {
            self.notes.tag[at] = INTEGER;
            self.define(control, at);
        }
        self.statement();
        self.names.truncate(outside);
        self.places.truncate(outside);
        // another turn is due where (step < 0) = (value > limit)
        self.ops(&[(5, 0, step), (1, 0, 0), (7, 6, 0), (5, 0, value), (5, 0, limit), (7, 8, 0), (7, 10, 0)]);
        self.jump(9, at, 0);
        self.ops(&[(5, 0, value), (5, 0, step), (7, 1, 0), (6, 0, value), (8, 0, turn)]);
        self.mark();
    }

    /// Three integer cells on end, the first of which the entry stands for.
    fn new_cells(&mut self, at: usize) -> [i32; 3] {
        self.new_cell(at, INTEGER);
        if P::DRY {
            self.cells.extend([INTEGER; 2]);
        }
        let first = self.notes.note[at] as i32;
        [first, first + 1, first + 2]
    }

    fn ops(&mut self, ops: &[(u8, u8, i32)]) {
        for &(op, a, b) in ops {
            self.op(op, a, b);
        }
    }

    fn call(&mut self, at: usize, e: Entry) {
        self.expressions(e.b);
        self.settle(at, e);
        self.op(10, 0, self.notes.note[at] as i32);
        self.drop(e.b as usize);
        if self.notes.tag[at] != 0 {
            self.stack.push(self.notes.tag[at]);
        }
    }

    // Expressions: each leaves one type more on the stack.

    fn expressions(&mut self, count: i32) {
        for _ in 0..count {
            self.expression();
        }
    }

    fn expression(&mut self) {
        let (at, e) = self.take();
        match e.kind {
            40 => self.push(1, 0, e.b, INTEGER),
            41 => self.push(2, 0, e.b, LOGICAL),
            42 => self.push(3, 0, e.b, BITS),
            43 => {
                self.settle(at, e);
                let class = self.notes.note[at] as u8;
                self.push(4, class, 0, REFERENCE + class);
            }
            44 => {
                self.settle(at, e);
                let [cell, owner] = self.notes.note[at].to_le_bytes();
                self.push(5, owner, cell as i32, self.notes.tag[at]);
            }
            45 => self.call(at, e),
            46 => {
                self.expression();
                self.settle(at, e);
                let [place, class] = self.notes.note[at].to_le_bytes();
                self.drop(1);
                self.push(13, class, place as i32, self.notes.tag[at]);
            }
            47 => {
                self.expressions(e.b);
                self.settle(at, e);
                let class = self.notes.note[at] as u8;
                self.drop(e.b as usize);
                self.push(12, class, 0, REFERENCE + class);
            }
            48 => {
                self.expression();
                self.op(7, e.a as u8, 0);
            }
            49 => self.binary(at, e.a as u8),
            50 => {
                self.test(1);
                self.expression();
                self.jump(8, at, 0);
                self.drop(1);
                self.mark();
                self.expression();
                self.mark();
            }
            51 => {
                self.expression();
                self.op(16, 0, 0);
            }
            _ => {
                let outside = self.block(e);
                self.expression();
                self.close(outside);
            }
        }
        self.done(at);
    }

    fn binary(&mut self, at: usize, operator: u8) {
        self.expression();
        let ty = self.stack[self.stack.len() - 1];
        match (operator, ty) {
            (12, LOGICAL) => {
                self.jump(9, self.next, 1);
                self.drop(1);
                self.expression();
                self.jump(8, at, 0);
                self.drop(1);
                self.mark();
                self.push(2, 0, 0, LOGICAL);
                self.mark();
            }
            (13, LOGICAL) => {
                self.drop(1);
                self.op(9, 0, self.pen.address() as i32 + 3);
                self.op(2, 0, 1);
                self.jump(8, at, 0);
                self.mark();
                self.expression();
                self.mark();
            }
            _ => {
                if matches!(operator, 12 | 13) {
                    self.mark();
                }
                self.expression();
                self.drop(2);
                let result = if matches!(operator, 6..=11) { LOGICAL } else { ty };
                self.push(7, operator, 0, result);
            }
        }
    }
}
