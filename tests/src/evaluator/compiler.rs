//! A simple compiler from an accepted tree to a macro, so that tree and machine can be held
//! against each other ("Free are the compiled code and SH order"; the order no longer, by
//! ticket 10 of paper 02). An SH stands wherever a jump lands and behind every op 0, 8, 11 and
//! 20 that is not a body's last.

use std::collections::{BTreeMap, HashMap};

use super::code::{byte_of_type, Body as CodeBody, Instr, Macro, Shape};
use super::table::*;
use super::values::Type;

const INTEGER: u8 = 1;
const LOGICAL: u8 = 2;

/// Where a variable lives: a cell of the body's own or of the root's (op 5 and 6, a).
#[derive(Clone, Copy)]
struct Place {
    a: u8,
    cell: usize,
    ty: u8,
}

/// A jump's target, placed or not yet.
type Target = usize;

/// A block that is open while its statements are compiled.
struct Open {
    variables: HashMap<Name, Place>,
    labels: HashMap<Name, Target>,
    /// Holds open inside it, its own included.
    holds: usize,
}

struct ClassInfo {
    number: u8,
    types: Vec<u8>,
}

struct FieldInfo {
    class: u8,
    position: usize,
    ty: u8,
}

struct ProcedureInfo {
    body: usize,
    parameters: usize,
    result: Option<u8>,
}

struct Compiler {
    classes: HashMap<Name, ClassInfo>,
    fields: HashMap<Name, FieldInfo>,
    procedures: HashMap<Name, ProcedureInfo>,
    code: Vec<Instr>,
    shapes: BTreeMap<usize, (usize, Vec<u8>)>,
    /// The addresses of placed targets, and the jumps that wait for one.
    targets: Vec<Option<usize>>,
    jumps: Vec<(usize, Target)>,
    /// The root's variables, which procedures see.
    root: HashMap<Name, Place>,
    // Of the body being compiled.
    cells: Vec<u8>,
    open: Vec<Open>,
    holds: usize,
    stack: Vec<u8>,
    /// The last op was 0, 8, 11 or 20: what follows needs an SH.
    stopped: bool,
}

pub fn compile(tree: &Tree) -> Macro {
    let mut c = Compiler {
        classes: HashMap::new(),
        fields: HashMap::new(),
        procedures: HashMap::new(),
        code: Vec::new(),
        shapes: BTreeMap::new(),
        targets: Vec::new(),
        jumps: Vec::new(),
        root: HashMap::new(),
        cells: Vec::new(),
        open: Vec::new(),
        holds: 0,
        stack: Vec::new(),
        stopped: false,
    };
    // Class numbers first, since a field's type may name a later class.
    let mut numbers = HashMap::new();
    for d in &tree.root.head {
        if let DeclKind::Class(class) = &d.kind {
            let number = numbers.len() as u16;
            numbers.insert(class.name, number);
        }
    }
    let byte = |ty: Type| match ty {
        Type::Reference(name) => 16 + numbers[&name] as u8,
        ty => byte_of_type(ty),
    };
    let mut class_records = Vec::new();
    let mut procedures = Vec::new();
    for d in &tree.root.head {
        match &d.kind {
            DeclKind::Class(class) => {
                let number = numbers[&class.name] as u8;
                let types: Vec<u8> = class.fields.iter().map(|f| byte(f.ty)).collect();
                for (position, f) in class.fields.iter().enumerate() {
                    c.fields.insert(f.name, FieldInfo { class: number, position, ty: byte(f.ty) });
                }
                class_records.push(types.clone());
                c.classes.insert(class.name, ClassInfo { number, types });
            }
            DeclKind::Procedure(p) => {
                procedures.push(p);
                c.procedures.insert(
                    p.name,
                    ProcedureInfo { body: procedures.len(), parameters: p.parameters.len(), result: p.result().map(byte) },
                );
            }
            _ => {}
        }
    }
    let mut bodies = Vec::new();

    // The root.
    c.block_inside(&tree.root, |c, block| {
        c.root = c.open[0].variables.clone();
        for place in c.root.values_mut() {
            place.a = 1;
        }
        c.statements(block);
    });
    c.emit(0, 0, 0);
    bodies.push(CodeBody { first: 0, parameters: 0, result: 0, cells: std::mem::take(&mut c.cells) });

    // The procedures.
    for p in procedures {
        let first = c.code.len() as u16;
        c.stopped = false;
        let mut variables = HashMap::new();
        for v in &p.parameters {
            let ty = byte(v.ty);
            variables.insert(v.name, Place { a: 0, cell: c.cells.len(), ty });
            c.cells.push(ty);
        }
        c.open.push(Open { variables, labels: HashMap::new(), holds: 0 });
        match &p.body {
            Body::Statement(s) => c.statement(s),
            Body::Expression(_, e) => c.expression(e),
        }
        c.open.pop();
        c.emit(11, 0, 0);
        c.stack.clear();
        let result = p.result().map_or(0, byte);
        bodies.push(CodeBody { first, parameters: p.parameters.len() as u8, result, cells: std::mem::take(&mut c.cells) });
    }
    for (at, target) in &c.jumps {
        c.code[*at].b = c.targets[*target].expect("every target is placed") as i32;
    }
    let shapes = c
        .shapes
        .into_iter()
        .map(|(address, (holds, types))| Shape { address: address as u16, holds: holds as u8, types })
        .collect();
    Macro { classes: class_records, bodies, code: c.code, shapes }
}

impl Compiler {
    fn byte(&self, ty: Type) -> u8 {
        match ty {
            Type::Reference(name) => 16 + self.classes[&name].number,
            ty => byte_of_type(ty),
        }
    }

    // Instructions, jumps and shapes.

    fn emit(&mut self, op: u8, a: u8, b: i32) {
        if self.stopped {
            self.shape_here();
        }
        self.code.push(Instr { op, a, b });
        self.stopped = matches!(op, 0 | 8 | 11 | 20);
    }

    fn shape_here(&mut self) {
        let here = (self.holds, self.stack.clone());
        let old = self.shapes.insert(self.code.len(), here.clone());
        assert!(old.is_none() || old == Some(here), "one address, one state");
    }

    fn target(&mut self) -> Target {
        self.targets.push(None);
        self.targets.len() - 1
    }

    fn jump(&mut self, op: u8, target: Target) {
        self.jumps.push((self.code.len(), target));
        self.emit(op, 0, 0);
    }

    fn land(&mut self, target: Target) {
        self.shape_here();
        self.stopped = false;
        self.targets[target] = Some(self.code.len());
    }

    fn push(&mut self, op: u8, a: u8, b: i32, ty: u8) {
        self.emit(op, a, b);
        self.stack.push(ty);
    }

    fn drop(&mut self, count: usize) {
        self.stack.truncate(self.stack.len() - count);
    }

    /// A binary operator that gives this type.
    fn operate(&mut self, operator: u8, ty: u8) {
        self.drop(2);
        self.push(7, operator, 0, ty);
    }

    fn find(&self, name: Name) -> Place {
        for open in self.open.iter().rev() {
            if let Some(place) = open.variables.get(&name) {
                return *place;
            }
        }
        self.root[&name]
    }

    // Blocks.

    /// Enters a block, compiles what is inside, and lets its holds go.
    fn block_inside<'t>(&mut self, block: &'t Block, inside: impl FnOnce(&mut Compiler, &'t Block)) {
        let mut variables = HashMap::new();
        let mut labels = HashMap::new();
        let outside = self.holds;
        for d in &block.head {
            match &d.kind {
                DeclKind::Variable(v) => {
                    let ty = self.byte(v.ty);
                    let cell = self.cells.len();
                    self.cells.push(ty);
                    variables.insert(v.name, Place { a: 0, cell, ty });
                    match ty {
                        1..=3 => self.push(ty, 0, 0, ty),
                        _ => self.push(4, ty - 16, 0, ty),
                    }
                    self.emit(6, 0, cell as i32);
                    self.drop(1);
                }
                DeclKind::Hold(group) => {
                    self.emit(17, 0, *group as i32);
                    self.holds += 1;
                }
                DeclKind::Class(_) | DeclKind::Procedure(_) => {}
            }
        }
        for s in &block.statements {
            if let StmtKind::Label(name) = s.kind {
                let target = self.target();
                labels.insert(name, target);
            }
        }
        self.open.push(Open { variables, labels, holds: self.holds });
        inside(self, block);
        self.open.pop();
        while self.holds > outside {
            self.emit(18, 0, 0);
            self.holds -= 1;
        }
    }

    fn statements(&mut self, block: &Block) {
        for s in &block.statements {
            self.statement(s);
        }
    }

    // Statements.

    fn statement(&mut self, s: &Stmt) {
        match &s.kind {
            StmtKind::Block(block) => self.block_inside(block, |c, block| c.statements(block)),
            StmtKind::Label(name) => {
                let target = self.open.last().unwrap().labels[name];
                self.land(target);
            }
            StmtKind::Assign(target, value) => match &target.kind {
                ExprKind::Variable(name) => {
                    self.expression(value);
                    let place = self.find(*name);
                    self.emit(6, place.a, place.cell as i32);
                    self.drop(1);
                }
                ExprKind::Field(name, reference) => {
                    self.expression(reference);
                    self.expression(value);
                    let field = &self.fields[name];
                    let (class, position) = (field.class, field.position);
                    self.emit(14, class, position as i32);
                    self.drop(2);
                }
                _ => unreachable!("a target is a variable or a field"),
            },
            StmtKind::If(test, then) => {
                let end = self.target();
                self.test(test, end);
                self.statement(then);
                self.land(end);
            }
            StmtKind::IfElse(test, then, other) => {
                let otherwise = self.target();
                let end = self.target();
                self.test(test, otherwise);
                self.statement(then);
                self.jump(8, end);
                self.land(otherwise);
                self.statement(other);
                self.land(end);
            }
            StmtKind::While(test, body) => {
                let again = self.target();
                let end = self.target();
                self.land(again);
                self.test(test, end);
                self.statement(body);
                self.jump(8, again);
                self.land(end);
            }
            StmtKind::Goto(name) => {
                // "It leaves exactly the blocks that do not contain the label."
                let block = self.open.iter().rposition(|open| open.labels.contains_key(name)).unwrap();
                let target = self.open[block].labels[name];
                let here = self.holds;
                while self.holds > self.open[block].holds {
                    self.emit(18, 0, 0);
                    self.holds -= 1;
                }
                self.jump(8, target);
                self.holds = here;
            }
            StmtKind::Assert(test) => {
                self.expression(test);
                self.emit(19, 0, 0);
                self.drop(1);
            }
            StmtKind::Call(name, arguments) => self.call(*name, arguments),
            StmtKind::Set(channel, level) => {
                self.expression(channel);
                self.expression(level);
                self.emit(15, 0, 0);
                self.drop(2);
            }
            StmtKind::Case(index, arms) => {
                let cell = self.cells.len() as i32;
                self.cells.push(INTEGER);
                let end = self.target();
                self.expression(index);
                self.emit(6, 0, cell);
                self.drop(1);
                for (i, arm) in arms.iter().enumerate() {
                    let next = self.target();
                    self.push(5, 0, cell, INTEGER);
                    self.push(1, 0, i as i32 + 1, INTEGER);
                    self.operate(10, LOGICAL);
                    self.jump_if_false(next);
                    self.statement(arm);
                    self.jump(8, end);
                    self.land(next);
                }
                self.emit(20, 24, 0);
                self.land(end);
            }
            StmtKind::For(f) => self.turns(f),
        }
    }

    /// "Each loop counts three cells": value, step and limit. Before a turn the value is held to the
    /// limit; after it, to the values from which a step does not pass the 32-bit range.
    fn turns(&mut self, f: &For) {
        let [value, step, limit] = [0, 1, 2].map(|i| (self.cells.len() + i) as i32);
        self.cells.extend([INTEGER; 3]);
        for e in [&f.start, &f.step, &f.limit] {
            self.expression(e);
        }
        for cell in [limit, step, value] {
            self.emit(6, 0, cell);
            self.drop(1);
        }
        let (again, end) = (self.target(), self.target());
        self.push(5, 0, step, INTEGER);
        self.push(1, 0, 0, INTEGER);
        self.operate(10, LOGICAL);
        self.jump_if_false(again);
        self.emit(20, 28, 0);
        self.land(again);
        self.within([value, step], [limit; 2].map(|cell| move |c: &mut Compiler| c.push(5, 0, cell, INTEGER)), end);
        let control = Place { a: 0, cell: value as usize, ty: INTEGER };
        self.open.push(Open { variables: HashMap::from([(f.control, control)]), labels: HashMap::new(), holds: self.holds });
        self.statement(&f.body);
        self.open.pop();
        let last_before = |edge: i32| {
            move |c: &mut Compiler| {
                c.push(1, 0, edge, INTEGER);
                c.push(5, 0, step, INTEGER);
                c.operate(2, INTEGER);
            }
        };
        self.within([value, step], [i32::MIN, i32::MAX].map(last_before), end);
        self.push(5, 0, value, INTEGER);
        self.push(5, 0, step, INTEGER);
        self.operate(1, INTEGER);
        self.emit(6, 0, value);
        self.drop(1);
        self.jump(8, again);
        self.land(end);
    }

    /// Goes to the end unless the value is at least the lower bound, where the step is negative, or
    /// at most the upper one, where it is not; each bound is what its code leaves on the stack.
    fn within(&mut self, [value, step]: [i32; 2], [lower, upper]: [impl Fn(&mut Compiler); 2], end: Target) {
        let (up, inside) = (self.target(), self.target());
        self.push(5, 0, step, INTEGER);
        self.push(1, 0, 0, INTEGER);
        self.operate(6, LOGICAL);
        self.jump_if_false(up);
        for (bound, operator, behind) in [(&lower, 9, up), (&upper, 7, inside)] {
            self.push(5, 0, value, INTEGER);
            bound(self);
            self.operate(operator, LOGICAL);
            self.jump_if_false(end);
            self.jump(8, inside);
            self.land(behind);
        }
    }

    /// Goes to the target if the expression is false.
    fn test(&mut self, e: &Expr, otherwise: Target) {
        self.expression(e);
        self.jump_if_false(otherwise);
    }

    fn jump_if_false(&mut self, target: Target) {
        self.jump(9, target);
        self.drop(1);
    }

    fn call(&mut self, name: Name, arguments: &[Expr]) {
        for e in arguments {
            self.expression(e);
        }
        let p = &self.procedures[&name];
        let (body, parameters, result) = (p.body, p.parameters, p.result);
        self.emit(10, 0, body as i32);
        self.drop(parameters);
        if let Some(ty) = result {
            self.stack.push(ty);
        }
    }

    // Expressions: each leaves one value more on the stack.

    fn expression(&mut self, e: &Expr) {
        match &e.kind {
            ExprKind::Integer(n) => self.push(1, 0, *n, 1),
            ExprKind::Logical(truth) => self.push(2, 0, *truth as i32, 2),
            ExprKind::Bits(bits) => self.push(3, 0, *bits as i32, 3),
            ExprKind::Null(class) => {
                let number = self.classes[class].number;
                self.push(4, number, 0, 16 + number);
            }
            ExprKind::Variable(name) => {
                let place = self.find(*name);
                self.push(5, place.a, place.cell as i32, place.ty);
            }
            ExprKind::Function(name, arguments) => self.call(*name, arguments),
            ExprKind::Field(name, reference) => {
                self.expression(reference);
                let field = &self.fields[name];
                let (class, position, ty) = (field.class, field.position, field.ty);
                self.emit(13, class, position as i32);
                self.drop(1);
                self.stack.push(ty);
            }
            ExprKind::Record(class, values) => {
                for value in values {
                    self.expression(value);
                }
                let number = self.classes[class].number;
                let count = self.classes[class].types.len();
                self.emit(12, number, 0);
                self.drop(count);
                self.stack.push(16 + number);
            }
            ExprKind::Unary(operator, x) => {
                self.expression(x);
                self.emit(7, *operator as u8, 0);
            }
            ExprKind::Binary(operator, x, y) => {
                self.expression(x);
                let ty = *self.stack.last().unwrap();
                if matches!(operator, 12 | 13) && ty == LOGICAL {
                    self.shortened(*operator, y);
                    return;
                }
                self.expression(y);
                let result = match operator {
                    6..=11 => LOGICAL,
                    _ => ty,
                };
                self.operate(*operator as u8, result);
            }
            ExprKind::If(test, then, other) => {
                let otherwise = self.target();
                let end = self.target();
                self.test(test, otherwise);
                self.expression(then);
                self.jump(8, end);
                self.drop(1);
                self.land(otherwise);
                self.expression(other);
                self.land(end);
            }
            ExprKind::Fader(x) => {
                self.expression(x);
                self.emit(16, 0, 0);
            }
            ExprKind::Block(block, value) => self.block_inside(block, |c, block| {
                c.statements(block);
                c.expression(value);
            }),
        }
    }

    /// The rest of a logical `and` or `or`, its first operand being on the stack.
    fn shortened(&mut self, operator: u16, y: &Expr) {
        let otherwise = self.target();
        let end = self.target();
        self.jump_if_false(otherwise);
        if operator == 12 {
            self.expression(y);
        } else {
            self.push(2, 0, 1, LOGICAL);
        }
        self.jump(8, end);
        self.drop(1);
        self.land(otherwise);
        if operator == 12 {
            self.push(2, 0, 0, LOGICAL);
        } else {
            self.expression(y);
        }
        self.land(end);
    }
}
