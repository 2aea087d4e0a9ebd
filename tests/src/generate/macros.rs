//! Generated macros, made directly as code and not from trees: well-typed ones with jumps of
//! every direction and dead code, and damaged ones.

use crate::evaluator::answer::number_and_place;
use crate::evaluator::code::{byte_of_type, judge_macro, type_of_byte, write_macro, write_records, Body, Instr, Macro, Shape};
use crate::evaluator::values::{binary_type, unary_type};
use super::programs::EDGES;
use super::rng::Rng;

/// A place to jump to: its state, and its address once it is placed.
struct Label {
    holds: usize,
    types: Vec<u8>,
    address: Option<usize>,
}

struct Make<'r> {
    rng: &'r mut Rng,
    classes: Vec<Vec<u8>>,
    bodies: Vec<Body>,
    code: Vec<Instr>,
    shapes: Vec<Shape>,
    /// Of the body being made.
    body: usize,
    holds: usize,
    types: Vec<u8>,
    labels: Vec<Label>,
    /// (address of the jump, label), to be filled in.
    jumps: Vec<(usize, usize)>,
}

const INTEGER: u8 = 1;
const LOGICAL: u8 = 2;

/// How large a generated macro is.
#[derive(Clone, Copy, Debug)]
pub struct Size {
    pub bodies: usize,
    /// About how many instructions a body has.
    pub instructions: usize,
    pub classes: usize,
}

/// A macro that passes the loading check.
pub fn good_macro(rng: &mut Rng, size: Size) -> Macro {
    loop {
        let m = make(rng, size);
        if judge_macro(&write_macro(&m)).is_ok() {
            return m;
        }
    }
}

/// The same without the filter, to see how often it is needed.
pub fn unfiltered_macro(rng: &mut Rng, size: Size) -> Macro {
    make(rng, size)
}

fn make(rng: &mut Rng, size: Size) -> Macro {
    let class_count = rng.below(size.classes + 1);
    let mut classes: Vec<Vec<u8>> = Vec::new();
    for _ in 0..class_count {
        let most = if rng.chance(10) { 8 } else { 3 };
        let count = 1 + rng.below(most);
        classes.push((0..count).map(|_| some_type(rng, class_count)).collect());
    }
    let body_count = 1 + rng.below(size.bodies);
    let mut bodies = Vec::new();
    for i in 0..body_count {
        let cell_count = if rng.chance(4) { 32 } else { rng.below(6) };
        let cells: Vec<u8> = (0..cell_count).map(|_| some_type(rng, class_count)).collect();
        let parameters = if i == 0 {
            0
        } else if rng.chance(5) {
            cell_count
        } else {
            rng.below(cell_count.min(3) + 1)
        };
        let result = if i == 0 || rng.chance(50) { 0 } else { some_type(rng, class_count) };
        bodies.push(Body { first: 0, parameters: parameters as u8, result, cells });
    }
    let mut m = Make {
        rng,
        classes,
        bodies,
        code: Vec::new(),
        shapes: Vec::new(),
        body: 0,
        holds: 0,
        types: Vec::new(),
        labels: Vec::new(),
        jumps: Vec::new(),
    };
    for body in 0..body_count {
        m.make_body(body, size.instructions);
    }
    Macro { classes: m.classes, bodies: m.bodies, code: m.code, shapes: m.shapes }
}

fn some_type(rng: &mut Rng, classes: usize) -> u8 {
    match rng.below(9) {
        0..=4 => 1,
        5 => 2,
        6 => 3,
        _ if classes > 0 => 16 + rng.below(classes) as u8,
        _ => 1,
    }
}

impl Make<'_> {
    fn emit(&mut self, op: u8, a: u8, b: i32) {
        self.code.push(Instr { op, a, b });
    }

    fn shape_here(&mut self) {
        let address = self.code.len() as u16;
        if self.shapes.iter().all(|s| s.address != address) {
            self.shapes.push(Shape { address, holds: self.holds as u8, types: self.types.clone() });
        }
    }

    fn make_body(&mut self, body: usize, instructions: usize) {
        self.body = body;
        self.bodies[body].first = self.code.len() as u16;
        self.holds = 0;
        self.types = Vec::new();
        self.labels = Vec::new();
        self.jumps = Vec::new();
        if self.rng.chance(20) {
            self.shape_here();
            self.labels.push(Label { holds: 0, types: Vec::new(), address: Some(self.code.len()) });
        }
        let start = self.code.len();
        let length = 1 + self.rng.below(instructions);
        while self.code.len() - start < length {
            self.piece();
        }
        // Every label must stand somewhere; the first may be reached by falling into it.
        loop {
            let open: Vec<usize> = (0..self.labels.len()).filter(|&i| self.labels[i].address.is_none()).collect();
            if open.is_empty() {
                break;
            }
            let label = *self.rng.pick(&open);
            if self.rng.chance(50) {
                self.finish();
            } else {
                self.become_like(label);
            }
            self.place(label);
        }
        self.finish();
        let jumps = std::mem::take(&mut self.jumps);
        for (at, label) in jumps {
            self.code[at].b = self.labels[label].address.unwrap() as i32;
        }
    }

    /// The label stands here; what is on the stack is the label's.
    fn place(&mut self, label: usize) {
        self.holds = self.labels[label].holds;
        self.types = self.labels[label].types.clone();
        self.labels[label].address = Some(self.code.len());
        self.shape_here();
    }

    fn stop(&mut self) {
        let condition = *self.rng.pick(&[24, 28]);
        self.emit(20, condition, 0);
    }

    /// End or return (or stop); what comes behind needs a shape.
    fn finish(&mut self) {
        if self.rng.chance(8) {
            self.stop();
            return;
        }
        let result = self.bodies[self.body].result;
        let types = if result == 0 { Vec::new() } else { vec![result] };
        self.change_to(0, &types);
        self.emit(if self.body == 0 { 0 } else { 11 }, 0, 0);
    }

    fn become_like(&mut self, label: usize) {
        let types = self.labels[label].types.clone();
        self.change_to(self.labels[label].holds, &types);
    }

    fn change_to(&mut self, holds: usize, types: &[u8]) {
        while self.holds > holds {
            self.emit(18, 0, 0);
            self.holds -= 1;
        }
        while self.holds < holds {
            self.hold();
        }
        while self.types.len() > types.len() || self.types[..] != types[..self.types.len()] {
            self.drop_top();
        }
        for ty in &types[self.types.len()..] {
            self.push_value(*ty);
        }
    }

    fn hold(&mut self) {
        let group = self.rng.below(64) as i32;
        self.emit(17, 0, group);
        self.holds += 1;
    }

    fn cells_of(&self, ty: u8) -> Vec<(u8, i32)> {
        let mut list = Vec::new();
        for (i, t) in self.bodies[self.body].cells.iter().enumerate() {
            if *t == ty {
                list.push((0, i as i32));
            }
        }
        for (i, t) in self.bodies[0].cells.iter().enumerate() {
            if *t == ty {
                list.push((1, i as i32));
            }
        }
        list
    }

    /// Takes the top value away without a condition.
    fn drop_top(&mut self) {
        let ty = *self.types.last().unwrap();
        let cells = self.cells_of(ty);
        if !cells.is_empty() && self.rng.chance(70) {
            let (a, b) = *self.rng.pick(&cells);
            self.emit(6, a, b);
            self.types.pop();
            return;
        }
        if ty == LOGICAL {
            // Go to the next address if false: both ways lead there.
            self.types.pop();
            let next = self.code.len() as i32 + 1;
            self.emit(9, 0, next);
            self.shape_here();
            return;
        }
        let n = self.types.len();
        if n >= 2 && self.types[n - 2] == ty {
            let operator = *self.rng.pick(&[10, 11]);
            self.emit(7, operator, 0);
            self.types.pop();
            self.types.pop();
            self.types.push(LOGICAL);
            return;
        }
        if n < 32 {
            self.push_constant(ty);
            self.emit(7, 10, 0);
            self.types.pop();
            self.types.pop();
            self.types.push(LOGICAL);
            return;
        }
        // A full stack and no cell: an integer or bits may still become a logical value's
        // neighbour; here the body simply stops.
        self.stop();
        self.types.pop();
        self.shape_here();
    }

    fn push_constant(&mut self, ty: u8) {
        match ty {
            1 => {
                let n = self.number();
                self.emit(1, 0, n);
            }
            2 => {
                let n = self.rng.below(2) as i32;
                self.emit(2, 0, n);
            }
            3 => {
                let n = self.number();
                self.emit(3, 0, n);
            }
            _ => self.emit(4, ty - 16, 0),
        }
        self.types.push(ty);
    }

    fn number(&mut self) -> i32 {
        match self.rng.below(10) {
            0 => self.rng.next_u64() as i32,
            1 | 2 => *self.rng.pick(&EDGES),
            _ => self.rng.between(0, 70) as i32,
        }
    }

    fn push_value(&mut self, ty: u8) {
        let cells = self.cells_of(ty);
        if !cells.is_empty() && self.rng.chance(50) {
            let (a, b) = *self.rng.pick(&cells);
            self.emit(5, a, b);
            self.types.push(ty);
            return;
        }
        if ty >= 16 && self.rng.chance(60) {
            let fields = self.classes[(ty - 16) as usize].clone();
            if self.types.len() + fields.len() <= 32 {
                for field in &fields {
                    self.push_constant(*field);
                }
                for _ in &fields {
                    self.types.pop();
                }
                self.emit(12, ty - 16, 0);
                self.types.push(ty);
                return;
            }
        }
        self.push_constant(ty);
    }

    /// One piece of code that keeps the rules.
    fn piece(&mut self) {
        let depth = self.types.len();
        if depth > 28 || (depth > 3 && self.rng.chance(30)) {
            self.drop_top();
            return;
        }
        let top = self.types.last().copied();
        match self.rng.below(40) {
            0..=7 => {
                let ty = some_type(self.rng, self.classes.len());
                self.push_value(ty);
            }
            8 | 9 => {
                // set, mostly in range
                let channel = if self.rng.chance(80) { self.rng.between(1, 512) as i32 } else { self.number() };
                let level = if self.rng.chance(80) { self.rng.below(256) as i32 } else { self.number() };
                self.emit(1, 0, channel);
                if self.rng.chance(30) {
                    self.emit(1, 0, 1 + level.rem_euclid(64));
                    self.emit(16, 0, 0);
                } else {
                    self.emit(1, 0, level);
                }
                self.emit(15, 0, 0);
            }
            10..=12 if self.holds < 16 => self.hold(),
            13 | 14 if self.holds > 0 => {
                self.emit(18, 0, 0);
                self.holds -= 1;
            }
            15..=19 => self.operator(),
            20 if top == Some(INTEGER) => self.emit(16, 0, 0),
            21 if top == Some(LOGICAL) => {
                self.emit(19, 0, 0);
                self.types.pop();
            }
            22..=24 => self.jump_if(),
            25 | 26 => self.jump(),
            27 | 28 => self.shape_here_or_label(),
            29..=31 => self.call(),
            32 | 33 => self.field(),
            34 | 35 => {
                if top.is_some() {
                    self.drop_top();
                }
            }
            36 => {
                // Dead code behind an end of some sort.
                self.finish();
                let dead = self.some_state();
                self.labels.push(dead);
                let label = self.labels.len() - 1;
                self.place(label);
            }
            _ => {
                let ty = some_type(self.rng, self.classes.len());
                self.push_constant(ty);
            }
        }
    }

    fn shape_here_or_label(&mut self) {
        self.shape_here();
        self.labels.push(Label { holds: self.holds, types: self.types.clone(), address: Some(self.code.len()) });
    }

    /// A state near the present one or an arbitrary one.
    fn some_state(&mut self) -> Label {
        match self.rng.below(4) {
            0 => Label { holds: 0, types: Vec::new(), address: None },
            1 => Label { holds: self.holds, types: self.types.clone(), address: None },
            _ => {
                let holds = self.rng.below(4);
                let depth = self.rng.below(4);
                let classes = self.classes.len();
                let types = (0..depth).map(|_| some_type(self.rng, classes)).collect();
                Label { holds, types, address: None }
            }
        }
    }

    /// An old or a new label.
    fn some_label(&mut self) -> usize {
        if !self.labels.is_empty() && self.rng.chance(60) {
            return self.rng.below(self.labels.len());
        }
        let label = self.some_state();
        self.labels.push(label);
        self.labels.len() - 1
    }

    fn jump_if(&mut self) {
        let label = self.some_label();
        self.become_like(label);
        if self.types.len() >= 32 {
            return;
        }
        match self.rng.below(3) {
            0 => self.push_constant(LOGICAL),
            _ => {
                if self.types.len() >= 30 {
                    self.push_constant(LOGICAL);
                } else {
                    // a fader decides
                    let fader = self.rng.between(1, 64) as i32;
                    let bound = self.rng.below(256) as i32;
                    self.emit(1, 0, fader);
                    self.emit(16, 0, 0);
                    self.emit(1, 0, bound);
                    let operator = self.rng.between(6, 11) as u8;
                    self.emit(7, operator, 0);
                    self.types.push(LOGICAL);
                }
            }
        }
        self.jumps.push((self.code.len(), label));
        self.emit(9, 0, 0);
        self.types.pop();
    }

    fn jump(&mut self) {
        let label = self.some_label();
        self.become_like(label);
        self.jumps.push((self.code.len(), label));
        self.emit(8, 0, 0);
        // What follows: a label that waits for its place, or dead code.
        let open: Vec<usize> = (0..self.labels.len()).filter(|&i| self.labels[i].address.is_none()).collect();
        if !open.is_empty() && self.rng.chance(70) {
            let label = *self.rng.pick(&open);
            self.place(label);
        } else {
            let dead = self.some_state();
            self.labels.push(dead);
            let label = self.labels.len() - 1;
            self.place(label);
        }
    }

    fn operator(&mut self) {
        let classes = self.classes.len();
        let typed = |byte: u8| type_of_byte(byte, classes).unwrap();
        let n = self.types.len();
        let mut fit = Vec::new();
        if n >= 1 {
            for operator in 20..=22u16 {
                if let Some(ty) = unary_type(operator, typed(self.types[n - 1])) {
                    fit.push((operator, 1, ty));
                }
            }
        }
        if n >= 2 {
            for operator in 1..=15u16 {
                if let Some(ty) = binary_type(operator, typed(self.types[n - 2]), typed(self.types[n - 1])) {
                    fit.push((operator, 2, ty));
                }
            }
        }
        if fit.is_empty() {
            let ty = self.types.last().copied().unwrap_or(INTEGER);
            if n < 30 {
                self.push_value(ty);
            }
            return;
        }
        let (operator, takes, ty) = *self.rng.pick(&fit);
        self.emit(7, operator as u8, 0);
        self.types.truncate(n - takes);
        self.types.push(byte_of_type(ty));
    }

    fn call(&mut self) {
        if self.bodies.len() == 1 {
            return;
        }
        let body = 1 + self.rng.below(self.bodies.len() - 1);
        // Calls of later bodies end; others now and then, after a fader's test.
        if body <= self.body && self.rng.chance(70) {
            return;
        }
        let parameters: Vec<u8> = self.bodies[body].cells[..self.bodies[body].parameters as usize].to_vec();
        if self.types.len() + parameters.len() + 1 > 32 {
            return;
        }
        for ty in &parameters {
            if self.types.len() < 24 {
                self.push_value(*ty);
            } else {
                self.push_constant(*ty);
            }
        }
        self.emit(10, 0, body as i32);
        for _ in &parameters {
            self.types.pop();
        }
        if self.bodies[body].result != 0 {
            self.types.push(self.bodies[body].result);
        }
    }

    fn field(&mut self) {
        if self.classes.is_empty() || self.types.len() > 20 {
            return;
        }
        let class = self.rng.below(self.classes.len());
        let field = self.rng.below(self.classes[class].len());
        let ty = self.classes[class][field];
        self.push_value(16 + class as u8);
        if self.rng.chance(50) {
            self.emit(13, class as u8, field as i32);
            self.types.pop();
            self.types.push(ty);
        } else {
            self.push_value(ty);
            self.emit(14, class as u8, field as i32);
            self.types.pop();
            self.types.pop();
        }
    }
}

// Damaged macros.

/// A macro with something wrong in its parts, its records or its bytes (or, now and then,
/// still right).
pub fn damaged_macro(rng: &mut Rng, good: &Macro) -> Vec<u8> {
    let mut m = good.clone();
    match rng.below(10) {
        0..=4 => {
            for _ in 0..1 + rng.below(2) {
                damage_parts(rng, &mut m);
            }
            write_macro(&m)
        }
        5..=7 => damage_records(rng, &m),
        8 => {
            let mut bytes = write_macro(&m);
            let i = rng.below(bytes.len());
            bytes[i] = match rng.below(3) {
                0 => bytes[i] ^ (1 << rng.below(8)),
                1 => bytes[i].wrapping_add(1),
                _ => rng.byte(),
            };
            bytes
        }
        _ => {
            let mut bytes = write_macro(&m);
            match rng.below(3) {
                0 => bytes.truncate(rng.below(bytes.len())),
                1 => {
                    for _ in 0..1 + rng.below(3) {
                        bytes.push(*rng.pick(b"ZQIN\0"));
                    }
                }
                _ => {
                    let i = rng.below(bytes.len());
                    bytes.remove(i);
                }
            }
            bytes
        }
    }
}

fn damage_parts(rng: &mut Rng, m: &mut Macro) {
    let n = m.code.len();
    let i = rng.below(n);
    match rng.below(24) {
        0 => m.code[i].op = rng.below(23) as u8,
        1 => m.code[i].a = m.code[i].a.wrapping_add(1),
        2 => m.code[i].b = m.code[i].b.wrapping_add(*rng.pick(&[1, -1, 256])),
        3 => m.code[i].b = *rng.pick(&[-1, 0, 1, 2, 63, 64, 65_535, 65_536, i32::MAX, i32::MIN]),
        4 => {
            // A jump elsewhere.
            let jumps: Vec<usize> = (0..n).filter(|&k| matches!(m.code[k].op, 8 | 9)).collect();
            if !jumps.is_empty() {
                let k = *rng.pick(&jumps);
                m.code[k].b = rng.below(n + 2) as i32;
            }
        }
        5 if !m.shapes.is_empty() => {
            let k = rng.below(m.shapes.len());
            m.shapes.remove(k);
        }
        6 if !m.shapes.is_empty() => {
            let k = rng.below(m.shapes.len());
            m.shapes[k].holds = m.shapes[k].holds.wrapping_add(*rng.pick(&[1, 255, 17]));
        }
        7 if !m.shapes.is_empty() => {
            let k = rng.below(m.shapes.len());
            let ty = *rng.pick(&[1, 2, 3, 16, 17]);
            if rng.chance(50) || m.shapes[k].types.is_empty() {
                m.shapes[k].types.push(ty);
            } else {
                m.shapes[k].types.pop();
            }
        }
        8 if !m.shapes.is_empty() => {
            let k = rng.below(m.shapes.len());
            m.shapes[k].address = rng.below(n + 2) as u16;
            if rng.chance(50) {
                m.shapes.sort_by_key(|s| s.address);
            }
        }
        9 if !m.shapes.is_empty() => {
            // A second shape at an address, behind the first or behind all.
            let k = rng.below(m.shapes.len());
            let mut s = m.shapes[k].clone();
            if rng.chance(50) {
                s.holds = s.holds.wrapping_add(1);
            }
            let place = if rng.chance(50) { k + 1 } else { m.shapes.len() };
            m.shapes.insert(place, s);
        }
        10 => {
            let k = rng.below(m.bodies.len());
            m.bodies[k].result = *rng.pick(&[0, 1, 2, 3, 4, 15, 16, 17, 32, 255]);
        }
        11 => {
            let k = rng.below(m.bodies.len());
            m.bodies[k].parameters = m.bodies[k].parameters.wrapping_add(*rng.pick(&[1, 255]));
        }
        12 => {
            let k = rng.below(m.bodies.len());
            m.bodies[k].first = m.bodies[k].first.wrapping_add(*rng.pick(&[1, 65_535]));
        }
        13 => {
            let k = rng.below(m.bodies.len());
            let ty = *rng.pick(&[1, 2, 3, 16, 0, 4, 31]);
            let count = *rng.pick(&[1, 1, 2, 27, 33]);
            for _ in 0..count {
                m.bodies[k].cells.push(ty);
            }
        }
        14 => {
            let k = rng.below(m.bodies.len());
            m.bodies[k].cells.pop();
        }
        15 if !m.classes.is_empty() => {
            let k = rng.below(m.classes.len());
            let f = rng.below(m.classes[k].len());
            m.classes[k][f] = *rng.pick(&[0, 1, 2, 3, 4, 15, 16, 17, 18, 31, 32]);
        }
        16 => {
            // An instruction more or less; what points behind it is left as it is.
            if rng.chance(50) && n > 1 {
                m.code.remove(i);
            } else {
                let extra = m.code[i];
                m.code.insert(i, extra);
            }
        }
        17 => {
            let (op, a) = *rng.pick(&[(0, 0), (11, 0), (18, 0), (19, 0), (20, 24), (15, 0), (16, 0)]);
            m.code[i] = Instr { op, a, b: 0 };
        }
        18 => m.code[i] = Instr { op: 17, a: 0, b: 3 },
        19 => {
            let j = rng.below(n);
            m.code.swap(i, j);
        }
        20 => {
            // So many pushes or holds that a limit is passed, or nearly.
            let (instr, count) = if rng.chance(50) {
                (Instr { op: 17, a: 0, b: 5 }, 15 + rng.below(4))
            } else {
                (Instr { op: 1, a: 0, b: 5 }, 31 + rng.below(3))
            };
            m.shapes.clear();
            m.code = vec![instr; count];
            m.code.push(Instr { op: 20, a: 24, b: 0 });
            m.bodies.truncate(1);
        }
        21 if m.shapes.len() > 1 => disorder(rng, &mut m.shapes),
        // A stop by its a: in the place of what ends or stops, where there is any, or of something else.
        23 => {
            let stops: Vec<usize> = (0..n).filter(|&k| matches!(m.code[k].op, 0 | 11 | 20)).collect();
            let k = if stops.is_empty() { i } else { *rng.pick(&stops) };
            m.code[k] = some_stop(rng);
        }
        _ => m.code[i].b = 0,
    }
}

/// Op 20 with an a about 24 and 28, or that of older macros, and mostly b 0.
pub fn some_stop(rng: &mut Rng) -> Instr {
    let a = *rng.pick(&[24, 24, 24, 24, 28, 28, 28, 28, 0, 20, 23, 25, 27, 29, 255]);
    let b = if rng.chance(90) { 0 } else { *rng.pick(&[1, -1, 24, 28, i32::MIN]) };
    Instr { op: 20, a, b }
}

/// Takes rising shapes, at least two, out of order: two of them, neighbours or not, change places, or one gets its neighbour's address.
fn disorder(rng: &mut Rng, shapes: &mut [Shape]) {
    let later = 1 + rng.below(shapes.len() - 1);
    let before = later - 1;
    match rng.below(4) {
        0 => shapes.swap(before, later),
        1 => shapes.swap(rng.below(later), later),
        2 => shapes[later].address = shapes[before].address,
        _ => shapes[before].address = shapes[later].address,
    }
}

fn damage_records(rng: &mut Rng, m: &Macro) -> Vec<u8> {
    let mut records = write_records(m);
    let n = records.len();
    let i = rng.below(n);
    match rng.below(7) {
        0 => {
            records.remove(i);
        }
        1 => {
            let r = records[i].clone();
            records.insert(i, r);
        }
        2 => {
            let j = rng.below(n);
            records.swap(i, j);
        }
        3 => {
            let mark = *rng.pick(&[b"QQ", b"HD", b"CL", b"BD", b"IN", b"SH", b"ZZ", b"in"]);
            records[i][0] = mark[0];
            records[i][1] = mark[1];
        }
        4 => {
            // Counts of HD that lie.
            let k = rng.between(2, 7) as usize;
            let step = *rng.pick(&[1, 255, 64]);
            records[0][k] = records[0][k].wrapping_add(step);
        }
        5 => {
            let length = records[i].len();
            records[i].truncate(rng.below(length));
        }
        _ => {
            if records[i].len() > 2 {
                let k = 2 + rng.below(records[i].len() - 2);
                records[i][k] = *rng.pick(&[0, 1, 2, 3, 4, 9, 15, 16, 17, 31, 32, 33, 255]);
            }
        }
    }
    records.concat()
}

/// A macro that passes, with at most so many instructions.
fn short_macro(rng: &mut Rng, size: Size, most: usize) -> Macro {
    loop {
        let good = good_macro(rng, size);
        if good.code.len() <= most {
            return good;
        }
    }
}

/// A macro that passed until its shapes were taken out of order, with at most so many instructions.
pub fn disordered_macro(rng: &mut Rng, size: Size, most: usize) -> Macro {
    loop {
        let mut m = short_macro(rng, size, most);
        if m.shapes.len() > 1 {
            disorder(rng, &mut m.shapes);
            return m;
        }
    }
}

/// Bytes that the loading check gives this number (0: passes).
pub fn judged_macro(rng: &mut Rng, number: u8, size: Size, most: usize) -> Vec<u8> {
    loop {
        let good = short_macro(rng, size, most);
        let bytes = if number == 0 && rng.chance(85) { write_macro(&good) } else { damaged_macro(rng, &good) };
        if number_and_place(&judge_macro(&bytes)).0 == number {
            return bytes;
        }
    }
}
