//! Generated programs, valid and of all sizes: made as trees, directed by types and scopes, and
//! then filtered by the judge.

use crate::evaluator::names::judge_table;
use crate::evaluator::table::*;
use crate::evaluator::values::Type;
use super::loops::{far_range, near_range, Range};
use super::rng::Rng;

/// How a program is to be made.
#[derive(Clone, Copy, Debug)]
pub struct Plan {
    /// About how many entries the table has.
    pub entries: usize,
    /// Edge values, unguarded divisors and null references are used freely.
    pub wild: bool,
    /// Percent of loops and backward gotos that have no counter.
    pub forever: usize,
    /// A statement that ends by this condition stands somewhere.
    pub provoke: Option<u8>,
}

/// A plan for about so many entries; mostly terminating.
pub fn plan(rng: &mut Rng, entries: usize) -> Plan {
    let provoke = if rng.chance(40) { Some(rng.between(20, 28) as u8) } else { None };
    Plan { entries, wild: rng.chance(35), forever: if rng.chance(15) { 40 } else { 0 }, provoke }
}

/// A valid program; nearly every try is accepted, the others are made again.
pub fn program(rng: &mut Rng, plan: Plan) -> Tree {
    loop {
        let tree = Generator::new(rng, plan).program();
        let bytes = bytes_of(&write_tree(&tree));
        if let Ok(tree) = judge_table(&bytes) {
            return tree;
        }
    }
}

/// A valid program of about so many entries, by some plan.
pub fn some_program(rng: &mut Rng, entries: usize) -> Tree {
    let made = plan(rng, entries);
    program(rng, made)
}

/// A number of entries, all sizes, the small ones more often: up to 40, 200 and 800 in so many percent of the cases, else up to 2,000.
pub fn some_size(rng: &mut Rng, [small, middle, large]: [usize; 3]) -> usize {
    let percent = rng.below(100);
    if percent < small {
        5 + rng.below(36)
    } else if percent < small + middle {
        40 + rng.below(160)
    } else if percent < small + middle + large {
        200 + rng.below(600)
    } else {
        800 + rng.below(1_200)
    }
}

/// A program without the filter, to see how often it is needed.
pub fn unfiltered_program(rng: &mut Rng, plan: Plan) -> Tree {
    Generator::new(rng, plan).program()
}

/// Numbers where something changes.
pub const EDGES: [i32; 24] = [
    0, 1, -1, 2, -2, 7, -7, 31, 32, 33, -31, -32, -33, 64, 65, 255, 256, 512, 513, 46341, 65536, i32::MAX, i32::MIN, i32::MIN + 1,
];

#[derive(Clone, Copy, PartialEq)]
enum What {
    Variable { ty: Type, fixed: bool },
    /// Whether the label lies ahead of the statement being made.
    Label { ahead: bool },
    Class(usize),
    Field(usize, usize),
    Procedure(usize),
}

#[derive(Clone, Copy, PartialEq)]
enum Sort {
    Block,
    BlockExpression,
    Parameters,
}

struct Scope {
    sort: Sort,
    names: Vec<(Name, What)>,
}

struct ClassPlan {
    name: Name,
    fields: Vec<(Name, Type)>,
}

struct ProcedurePlan {
    name: Name,
    parameters: Vec<(Name, Type)>,
    result: Option<Type>,
}

struct Generator<'r> {
    rng: &'r mut Rng,
    plan: Plan,
    /// Entries that may still be made before only leaves are.
    left: i64,
    classes: Vec<ClassPlan>,
    procedures: Vec<ProcedurePlan>,
    scopes: Vec<Scope>,
    /// Of the body being made.
    cells: usize,
    holds: usize,
    procedure: Option<usize>,
    /// The control names of the loops around, the innermost last.
    controls: Vec<Name>,
    provoke: Option<u8>,
}

fn stmt(kind: StmtKind) -> Stmt {
    Stmt { at: 0, kind }
}

fn expr(kind: ExprKind) -> Expr {
    Expr { at: 0, kind }
}

pub fn integer(n: i32) -> Expr {
    expr(ExprKind::Integer(n))
}

fn variable(name: Name) -> Expr {
    expr(ExprKind::Variable(name))
}

fn binary(operator: u16, left: Expr, right: Expr) -> Expr {
    expr(ExprKind::Binary(operator, Box::new(left), Box::new(right)))
}

fn decl(kind: DeclKind) -> Decl {
    Decl { at: 0, kind }
}

fn block(head: Vec<Decl>, statements: Vec<Stmt>) -> Stmt {
    stmt(StmtKind::Block(Block { head, statements }))
}

impl<'r> Generator<'r> {
    fn new(rng: &'r mut Rng, plan: Plan) -> Generator<'r> {
        Generator {
            rng,
            plan,
            // Statements begun are finished, so a program grows past its budget by a fifth.
            left: plan.entries as i64 * 4 / 5,
            classes: Vec::new(),
            procedures: Vec::new(),
            scopes: Vec::new(),
            cells: 0,
            holds: 0,
            procedure: None,
            controls: Vec::new(),
            provoke: plan.provoke,
        }
    }

    // Names.

    fn find(&self, name: Name) -> Option<What> {
        for scope in self.scopes.iter().rev() {
            for (n, what) in &scope.names {
                if *n == name {
                    return Some(*what);
                }
            }
        }
        None
    }

    /// A name that this list does not use yet.
    fn fresh(&mut self, used: &[Name]) -> Name {
        loop {
            let name = match self.rng.below(20) {
                0 => 65_535 - self.rng.below(3) as u16,
                1..=5 => self.rng.below(400) as u16,
                _ => self.rng.below(14) as u16,
            };
            // A class hidden by another name leaves its null out of reach, so it is rarely hidden.
            let hides = self.classes.iter().any(|c| c.name == name) && !(self.plan.entries < 60 && self.rng.chance(30));
            if !used.contains(&name) && !hides {
                return name;
            }
        }
    }

    fn variables_of(&self, ty: Type, to_assign: bool) -> Vec<Name> {
        let mut list = Vec::new();
        for scope in &self.scopes {
            for (name, what) in &scope.names {
                if let What::Variable { ty: t, fixed } = what {
                    if *t == ty && !(to_assign && *fixed) && self.find(*name) == Some(*what) && !list.contains(name) {
                        list.push(*name);
                    }
                }
            }
        }
        list
    }

    fn seen_classes(&self) -> Vec<usize> {
        (0..self.classes.len()).filter(|&i| self.find(self.classes[i].name) == Some(What::Class(i))).collect()
    }

    fn seen_procedures(&self, result: Option<Type>) -> Vec<usize> {
        (0..self.procedures.len())
            .filter(|&i| self.procedures[i].result == result && self.find(self.procedures[i].name) == Some(What::Procedure(i)))
            .collect()
    }

    fn seen_fields(&self, ty: Type) -> Vec<(usize, usize)> {
        let mut list = Vec::new();
        for (c, class) in self.classes.iter().enumerate() {
            for (f, (name, t)) in class.fields.iter().enumerate() {
                if *t == ty && self.find(*name) == Some(What::Field(c, f)) {
                    list.push((c, f));
                }
            }
        }
        list
    }

    /// Labels that a goto here may reach, with whether they lie ahead.
    fn seen_labels(&self) -> Vec<(Name, bool)> {
        let mut list = Vec::new();
        for scope in self.scopes.iter().rev() {
            for (name, what) in &scope.names {
                if let What::Label { ahead } = what {
                    if self.find(*name) == Some(*what) {
                        list.push((*name, *ahead));
                    }
                }
            }
            if scope.sort != Sort::Block {
                break;
            }
        }
        list
    }

    fn some_type(&mut self) -> Type {
        let classes = self.seen_classes();
        match self.rng.below(8) {
            0..=3 => Type::Integer,
            4 => Type::Logical,
            5 => Type::Bits,
            _ if !classes.is_empty() => {
                let c = *self.rng.pick(&classes);
                Type::Reference(self.classes[c].name)
            }
            _ => Type::Integer,
        }
    }

    // The whole program.

    fn program(&mut self) -> Tree {
        let size = self.plan.entries;
        let class_count = match self.plan.provoke {
            Some(22) | Some(27) => 1 + self.rng.below(1 + size / 60),
            _ => self.rng.below(1 + size / 14),
        }
        .min(if size > 1000 { 16 } else { 4 });
        let procedure_count = match self.plan.provoke {
            Some(26) => 1 + self.rng.below(1 + size / 60),
            _ => self.rng.below(2 + size / 18),
        }
        .min(if size > 1000 { 63 } else { 6 });
        let root_variables = self.rng.below(2 + (size / 6).min(9));
        let root_holds = if self.rng.chance(40) { self.rng.below(1 + (size / 8).min(4)) } else { 0 };
        let root_labels = if self.rng.chance(45) { 1 + self.rng.below(2) } else { 0 };

        // The names of the root's head, all before any type is chosen.
        let mut used = Vec::new();
        let mut names = Vec::new();
        for c in 0..class_count {
            let name = self.fresh(&used);
            used.push(name);
            names.push((name, What::Class(c)));
            let mut fields = Vec::new();
            let most = if self.rng.chance(5) { 8 } else { 3 };
            for f in 0..1 + self.rng.below(most) {
                let name = self.fresh(&used);
                used.push(name);
                names.push((name, What::Field(c, f)));
                fields.push((name, Type::Integer));
            }
            self.classes.push(ClassPlan { name, fields });
        }
        for p in 0..procedure_count {
            let name = self.fresh(&used);
            used.push(name);
            names.push((name, What::Procedure(p)));
            let mut parameters = Vec::new();
            let mut own = Vec::new();
            let most = if self.rng.chance(6) { 9 } else { 3 };
            for _ in 0..self.rng.below(most) {
                let name = self.fresh(&own);
                own.push(name);
                parameters.push((name, Type::Integer));
            }
            self.procedures.push(ProcedurePlan { name, parameters, result: None });
        }
        let mut variables = Vec::new();
        for _ in 0..root_variables {
            let name = self.fresh(&used);
            used.push(name);
            variables.push(name);
            names.push((name, What::Variable { ty: Type::Integer, fixed: false }));
        }
        let mut labels = Vec::new();
        for _ in 0..root_labels {
            let name = self.fresh(&used);
            used.push(name);
            labels.push(name);
            names.push((name, What::Label { ahead: true }));
        }
        self.scopes.push(Scope { sort: Sort::Block, names });

        // Types.
        for c in 0..class_count {
            for f in 0..self.classes[c].fields.len() {
                self.classes[c].fields[f].1 = self.some_type();
            }
        }
        for p in 0..procedure_count {
            self.scopes.push(Scope {
                sort: Sort::Parameters,
                names: self.procedures[p].parameters.iter().map(|(n, ty)| (*n, What::Variable { ty: *ty, fixed: false })).collect(),
            });
            for k in 0..self.procedures[p].parameters.len() {
                self.procedures[p].parameters[k].1 = if k == 0 && self.rng.chance(60) { Type::Integer } else { self.some_type() };
            }
            self.scopes.pop();
            self.procedures[p].result = match self.rng.below(6) {
                0..=2 => None,
                3 | 4 => Some(Type::Integer),
                _ => Some(*self.rng.pick(&[Type::Logical, Type::Bits])),
            };
        }
        for name in &variables {
            let ty = self.some_type();
            self.retype(*name, ty);
        }

        let mut head = Vec::new();
        for c in 0..class_count {
            let class = &self.classes[c];
            let fields = class.fields.iter().map(|(name, ty)| Variable { at: 0, name: *name, ty: *ty }).collect();
            head.push(decl(DeclKind::Class(Class { at: 0, name: class.name, fields })));
            self.left -= 1 + self.classes[c].fields.len() as i64;
        }
        for name in &variables {
            head.push(self.variable_decl(*name));
        }
        let share = self.left / (procedure_count as i64 + 2);
        for p in 0..procedure_count {
            let all = self.left;
            self.left = share;
            head.push(self.procedure(p));
            self.left = all - (share - self.left);
        }
        self.cells = root_variables;
        for _ in 0..root_holds {
            head.push(decl(DeclKind::Hold(self.rng.below(64) as u8)));
            self.left -= 1;
        }
        self.holds = root_holds;
        if self.rng.chance(50) {
            self.rng.shuffle(&mut head);
        }
        self.procedure = None;
        let mut statements = self.statements(&labels, 2, 1 + (size / 10).min(30));
        if let Some(condition) = self.provoke.take() {
            if let Some(stmt) = self.provocation(condition, 2) {
                statements.push(stmt);
            }
        }
        while self.left > 12 {
            statements.push(self.statement(2));
        }
        self.scopes.pop();
        Tree { root: Block { head, statements } }
    }

    fn retype(&mut self, name: Name, ty: Type) {
        for entry in &mut self.scopes.last_mut().unwrap().names {
            if entry.0 == name {
                entry.1 = What::Variable { ty, fixed: false };
            }
        }
    }

    fn variable_decl(&mut self, name: Name) -> Decl {
        self.left -= 1;
        match self.find(name) {
            Some(What::Variable { ty, .. }) => decl(DeclKind::Variable(Variable { at: 0, name, ty })),
            _ => unreachable!(),
        }
    }

    fn procedure(&mut self, p: usize) -> Decl {
        let parameters: Vec<(Name, Type)> = self.procedures[p].parameters.clone();
        let result = self.procedures[p].result;
        let name = self.procedures[p].name;
        self.left -= 1 + parameters.len() as i64;
        self.cells = parameters.len();
        self.holds = 0;
        self.procedure = Some(p);
        self.scopes.push(Scope {
            sort: Sort::Parameters,
            names: parameters.iter().map(|(n, ty)| (*n, What::Variable { ty: *ty, fixed: false })).collect(),
        });
        let body = match result {
            None => Body::Statement(self.procedure_statement(p)),
            Some(ty) => Body::Expression(ty, self.procedure_expression(p, ty)),
        };
        self.scopes.pop();
        decl(DeclKind::Procedure(Procedure {
            at: 0,
            name,
            parameters: parameters.iter().map(|(name, ty)| Variable { at: 0, name: *name, ty: *ty }).collect(),
            body,
        }))
    }

    /// Often `if n > 0 then ... p(n - 1)`, so that recursion ends.
    fn procedure_statement(&mut self, p: usize) -> Stmt {
        let first = self.procedures[p].parameters.first().copied();
        match first {
            Some((n, Type::Integer)) if self.rng.chance(50) && self.left > 10 => {
                let again = self.call_again(p, n);
                let before = self.block_statement(5, 2);
                self.left -= 8;
                let test = binary(8, variable(n), integer(0));
                stmt(StmtKind::If(test, Box::new(block(Vec::new(), vec![before, again]))))
            }
            _ if self.rng.chance(75) => self.block_statement(3, 3),
            _ => self.statement(3),
        }
    }

    /// A procedure's call of itself with a lesser first argument, now and then in a loop of two turns.
    fn call_again(&mut self, p: usize, n: Name) -> Stmt {
        let name = self.procedures[p].name;
        let looped = self.rng.chance(30);
        if looped {
            let control = self.fresh(&[n, name]);
            self.open_loop(control);
        }
        let call = stmt(StmtKind::Call(name, self.lesser_arguments(p, n)));
        if looped {
            self.left -= 4;
            return self.close_loop([1, 1, 2].map(integer), call);
        }
        call
    }

    fn procedure_expression(&mut self, p: usize, ty: Type) -> Expr {
        let first = self.procedures[p].parameters.first().copied();
        match first {
            Some((n, Type::Integer)) if self.rng.chance(50) && self.left > 10 => {
                let arguments = self.lesser_arguments(p, n);
                let name = self.procedures[p].name;
                self.left -= 8;
                let mut again = expr(ExprKind::Function(name, arguments));
                if ty == Type::Integer {
                    again = binary(1, variable(n), again);
                }
                let test = binary(8, variable(n), integer(0));
                let other = self.expression(ty, 5, 20);
                expr(ExprKind::If(Box::new(test), Box::new(again), Box::new(other)))
            }
            _ if self.rng.chance(60) => self.block_expression(ty, 3, 30),
            _ => self.expression(ty, 3, 30),
        }
    }

    fn lesser_arguments(&mut self, p: usize, n: Name) -> Vec<Expr> {
        let parameters = self.procedures[p].parameters.clone();
        let mut arguments = vec![binary(2, variable(n), integer(1))];
        for (_, ty) in &parameters[1..] {
            arguments.push(self.leaf(*ty));
        }
        arguments
    }

    // Blocks.

    /// A head (its names are opened and stay open), and the labels that its statements define.
    fn open_block(&mut self, sort: Sort) -> (Vec<Decl>, Vec<Name>, usize) {
        let mut used = Vec::new();
        let mut variables = Vec::new();
        let mut labels = Vec::new();
        let mut names = Vec::new();
        let most = if self.rng.chance(3) { 9 } else { 3 };
        for _ in 0..self.rng.below(most) {
            if self.cells < 32 {
                self.cells += 1;
                let name = match self.controls.last() {
                    // declared again
                    Some(control) if used.is_empty() && self.rng.chance(15) => *control,
                    _ => self.fresh(&used),
                };
                used.push(name);
                variables.push(name);
                names.push((name, What::Variable { ty: Type::Integer, fixed: false }));
            }
        }
        if self.rng.chance(35) {
            for _ in 0..1 + self.rng.below(2) {
                let name = self.fresh(&used);
                used.push(name);
                labels.push(name);
                names.push((name, What::Label { ahead: true }));
            }
        }
        self.scopes.push(Scope { sort, names });
        let mut head = Vec::new();
        for name in &variables {
            let ty = self.some_type();
            self.retype(*name, ty);
            head.push(self.variable_decl(*name));
        }
        let mut holds = 0;
        if self.rng.chance(45) {
            for _ in 0..1 + self.rng.below(2) {
                if self.holds < 16 {
                    self.holds += 1;
                    holds += 1;
                    self.left -= 1;
                    let group = self.rng.below(64) as u8;
                    let place = self.rng.below(head.len() + 1);
                    head.insert(place, decl(DeclKind::Hold(group)));
                }
            }
        }
        (head, labels, holds)
    }

    fn block_statement(&mut self, depth: usize, most: usize) -> Stmt {
        self.left -= 1;
        let (head, labels, holds) = self.open_block(Sort::Block);
        let count = self.rng.below(most + 1);
        let statements = self.statements(&labels, depth + 1, count);
        self.scopes.pop();
        self.holds -= holds;
        block(head, statements)
    }

    fn block_expression(&mut self, ty: Type, depth: usize, need: usize) -> Expr {
        self.block_with(depth, |g| g.expression(ty, depth + 1, need))
    }

    /// A block expression with this value.
    fn block_with(&mut self, depth: usize, value: impl FnOnce(&mut Self) -> Expr) -> Expr {
        self.left -= 1;
        let (head, labels, holds) = self.open_block(Sort::BlockExpression);
        let count = self.rng.below(3);
        let statements = self.statements(&labels, depth + 1, count);
        let value = value(self);
        self.scopes.pop();
        self.holds -= holds;
        expr(ExprKind::Block(Block { head, statements }, Box::new(value)))
    }

    /// So many statements, and the labels among them.
    fn statements(&mut self, labels: &[Name], depth: usize, count: usize) -> Vec<Stmt> {
        let mut places: Vec<usize> = labels.iter().map(|_| self.rng.below(count + 1)).collect();
        places.sort();
        let mut list = Vec::new();
        for i in 0..=count {
            for (k, place) in places.iter().enumerate() {
                if *place == i {
                    self.left -= 1;
                    list.push(stmt(StmtKind::Label(labels[k])));
                    for entry in &mut self.scopes.last_mut().unwrap().names {
                        if entry.0 == labels[k] {
                            entry.1 = What::Label { ahead: false };
                        }
                    }
                }
            }
            if i < count {
                list.push(self.statement(depth));
            }
        }
        list
    }

    // Statements.

    fn statement(&mut self, depth: usize) -> Stmt {
        self.left -= 1;
        if depth >= 58 || self.left <= 2 {
            return self.small_statement(depth);
        }
        if let Some(condition) = self.provoke {
            if self.rng.chance(12) {
                if let Some(stmt) = self.provocation(condition, depth) {
                    self.provoke = None;
                    return stmt;
                }
            }
        }
        match self.rng.below(29) {
            0..=5 => self.set(depth),
            6..=9 => self.assignment(depth),
            10 | 11 => {
                let test = self.expression(Type::Logical, depth + 1, 32);
                let then = self.statement(depth + 1);
                stmt(StmtKind::If(test, Box::new(then)))
            }
            12 => {
                let test = self.expression(Type::Logical, depth + 1, 32);
                let then = self.statement(depth + 1);
                let other = self.statement(depth + 1);
                stmt(StmtKind::IfElse(test, Box::new(then), Box::new(other)))
            }
            13 | 14 => self.loop_statement(depth),
            15..=17 => self.goto(depth),
            18 => {
                let test = if self.plan.wild {
                    self.expression(Type::Logical, depth + 1, 32)
                } else {
                    let e = self.expression(Type::Integer, depth + 3, 30);
                    self.left -= 2;
                    binary(11, binary(5, e, integer(2)), integer(5))
                };
                stmt(StmtKind::Assert(test))
            }
            19 | 20 => self.call(depth),
            21 | 22 => self.case(depth),
            23 | 24 => self.block_statement(depth, 4),
            _ => self.for_statement(depth),
        }
    }

    fn small_statement(&mut self, depth: usize) -> Stmt {
        match self.rng.below(4) {
            0 => {
                let labels: Vec<(Name, bool)> = self.seen_labels().into_iter().filter(|l| l.1).collect();
                if labels.is_empty() {
                    block(Vec::new(), Vec::new())
                } else {
                    stmt(StmtKind::Goto(self.rng.pick(&labels).0))
                }
            }
            1 => self.assignment(depth),
            _ => self.set(depth),
        }
    }

    fn set(&mut self, depth: usize) -> Stmt {
        let channel = match self.rng.below(12) {
            0 => integer(*self.rng.pick(&[1, 512])),
            1 if self.plan.wild => integer(*self.rng.pick(&[0, 512, 513, -1, i32::MAX])),
            2 if self.left > 8 && depth < 50 => {
                let e = self.expression(Type::Integer, depth + 4, 20);
                self.left -= 5;
                binary(1, expr(ExprKind::Unary(21, Box::new(binary(5, e, integer(512))))), integer(1))
            }
            _ => integer(self.rng.between(1, 512) as i32),
        };
        let level = match self.rng.below(8) {
            0 => integer(*self.rng.pick(&[0, 255])),
            1 if self.plan.wild => integer(*self.rng.pick(&[-1, 255, 256])),
            2 => self.fader(depth + 1),
            3 if self.plan.wild => self.expression(Type::Integer, depth + 1, 30),
            4..=6 if self.left > 4 && depth < 50 => {
                let e = self.expression(Type::Integer, depth + 3, 20);
                self.left -= 3;
                expr(ExprKind::Unary(21, Box::new(binary(5, e, integer(256)))))
            }
            _ => integer(self.rng.below(256) as i32),
        };
        stmt(StmtKind::Set(channel, level))
    }

    fn assignment(&mut self, depth: usize) -> Stmt {
        for _ in 0..4 {
            let ty = self.some_type();
            if self.left > 3 && self.rng.chance(25) {
                let fields = self.seen_fields(ty);
                if !fields.is_empty() {
                    let (c, f) = *self.rng.pick(&fields);
                    let class = self.classes[c].name;
                    let name = self.classes[c].fields[f].0;
                    let reference = self.reference(class, depth + 2, 32);
                    let target = expr(ExprKind::Field(name, Box::new(reference)));
                    let value = self.expression(ty, depth + 1, 31);
                    return stmt(StmtKind::Assign(target, value));
                }
            }
            let names = self.variables_of(ty, true);
            if !names.is_empty() {
                let name = *self.rng.pick(&names);
                let value = self.expression(ty, depth + 1, 31);
                return stmt(StmtKind::Assign(variable(name), value));
            }
        }
        self.set(depth)
    }

    /// `begin integer c; while c < k do begin ...; c := c + 1 end end`, or a test of a fader,
    /// or now and then a loop without end.
    fn loop_statement(&mut self, depth: usize) -> Stmt {
        if self.rng.chance(self.plan.forever) {
            let test = if self.rng.chance(50) { expr(ExprKind::Logical(true)) } else { self.expression(Type::Logical, depth + 1, 32) };
            let body = self.statement(depth + 1);
            return stmt(StmtKind::While(test, Box::new(body)));
        }
        if self.rng.chance(30) {
            let fader = self.fader(depth + 2);
            self.left -= 2;
            let test = binary(6, fader, integer(self.rng.between(0, 200) as i32));
            let body = self.statement(depth + 1);
            return stmt(StmtKind::While(test, Box::new(body)));
        }
        if self.cells >= 32 {
            return self.set(depth);
        }
        self.cells += 1;
        let counter = self.fresh(&[]);
        self.scopes.push(Scope { sort: Sort::Block, names: vec![(counter, What::Variable { ty: Type::Integer, fixed: true })] });
        self.left -= 11;
        let rounds = self.rng.between(0, 4) as i32;
        let test = binary(6, variable(counter), integer(rounds));
        let count = 1 + self.rng.below(2);
        let mut inside = Vec::new();
        for _ in 0..count {
            inside.push(self.statement(depth + 3));
        }
        inside.push(stmt(StmtKind::Assign(variable(counter), binary(1, variable(counter), integer(1)))));
        self.scopes.pop();
        let whole = stmt(StmtKind::While(test, Box::new(block(Vec::new(), inside))));
        let head = vec![decl(DeclKind::Variable(Variable { at: 0, name: counter, ty: Type::Integer }))];
        block(head, vec![whole])
    }

    // Loops with a control name.

    /// The control name comes into sight, and the loop takes its cells.
    fn open_loop(&mut self, control: Name) {
        self.cells += 3;
        self.controls.push(control);
        self.scopes.push(Scope { sort: Sort::Block, names: vec![(control, What::Variable { ty: Type::Integer, fixed: true })] });
    }

    fn close_loop(&mut self, [start, step, limit]: [Expr; 3], body: Stmt) -> Stmt {
        self.scopes.pop();
        let control = self.controls.pop().expect("a loop is open");
        stmt(StmtKind::For(Box::new(For { control, start, step, limit, body })))
    }

    /// Few turns, up or down, near 0 or at the ends of the 32-bit range; now and then so many that they do not end.
    fn for_statement(&mut self, depth: usize) -> Stmt {
        if self.cells + 3 > 32 {
            return self.set(depth);
        }
        self.left -= 4;
        let range = if self.rng.chance(self.plan.forever) {
            *self.rng.pick(&[[1, 1, i32::MAX], [0, -1, i32::MIN], [i32::MIN, 1, i32::MAX], [i32::MAX, -3, -5]])
        } else if self.rng.chance(30) {
            far_range(self.rng)
        } else {
            near_range(self.rng)
        };
        let bounds = self.bounds(range, depth + 1);
        let control = match self.controls.last() {
            // nested loops of one name
            Some(around) if self.rng.chance(25) => *around,
            _ => self.fresh(&[]),
        };
        self.open_loop(control);
        let body = match self.rng.below(10) {
            0..=4 => self.block_statement(depth + 1, 3),
            5 | 6 if self.left > 6 && depth < 50 => self.for_statement(depth + 1),
            _ => self.statement(depth + 1),
        };
        self.close_loop(bounds, body)
    }

    fn bounds(&mut self, [start, step, limit]: Range, depth: usize) -> [Expr; 3] {
        let start = self.bound(start, true, depth, 30);
        let step = self.bound(step, self.plan.wild, depth, 29);
        [start, step, self.bound(limit, true, depth, 28)]
    }

    /// A number as start, step or limit: itself, the value of some expression, or not quite itself.
    fn bound(&mut self, n: i32, about: bool, depth: usize, need: usize) -> Expr {
        let roomy = self.left > 8 && depth < 50;
        let small = n.unsigned_abs() < 1_000;
        match self.rng.below(12) {
            0..=2 if about && small && roomy => {
                self.left -= 4;
                let seen = self.variables_of(Type::Integer, false);
                let e = match self.controls.last() {
                    Some(control) if seen.contains(control) && self.rng.chance(70) => variable(*control),
                    _ => self.expression(Type::Integer, depth + 2, need),
                };
                binary(1, binary(5, e, integer(3)), integer(n))
            }
            3 if roomy => self.block_with(depth, |_| integer(n)),
            4 if n != i32::MIN => {
                self.left -= 1;
                expr(ExprKind::Unary(20, Box::new(integer(-n))))
            }
            5 => {
                self.left -= 2;
                binary(1, integer(n / 2), integer(n - n / 2))
            }
            _ => integer(n),
        }
    }

    /// Ahead, freely; backward with a counter: `begin v := v + 1; if v < k then goto L end`.
    fn goto(&mut self, depth: usize) -> Stmt {
        let labels = self.seen_labels();
        if labels.is_empty() {
            return self.set(depth);
        }
        let (label, ahead) = *self.rng.pick(&labels);
        let goto = stmt(StmtKind::Goto(label));
        if ahead {
            if self.rng.chance(50) {
                return goto;
            }
            let test = self.expression(Type::Logical, depth + 1, 32);
            return stmt(StmtKind::If(test, Box::new(goto)));
        }
        if self.rng.chance(self.plan.forever) {
            return goto;
        }
        let counters = self.variables_of(Type::Integer, true);
        if counters.is_empty() || self.left < 8 {
            let fader = self.fader(depth + 2);
            let test = binary(6, fader, integer(self.rng.between(0, 150) as i32));
            return stmt(StmtKind::If(test, Box::new(goto)));
        }
        self.left -= 10;
        let v = *self.rng.pick(&counters);
        let count = stmt(StmtKind::Assign(variable(v), binary(1, variable(v), integer(1))));
        let test = binary(6, variable(v), integer(self.rng.between(1, 6) as i32));
        let jump = stmt(StmtKind::If(test, Box::new(goto)));
        block(Vec::new(), vec![count, jump])
    }

    fn call(&mut self, depth: usize) -> Stmt {
        let mut procedures = self.seen_procedures(None);
        if !self.plan.wild {
            // Only earlier ones, so that calls end; the guarded recursion is made elsewhere.
            procedures.retain(|&p| self.procedure.is_none_or(|own| p < own));
        }
        if procedures.is_empty() {
            return self.set(depth);
        }
        let p = *self.rng.pick(&procedures);
        let arguments = self.arguments(p, depth, 32);
        stmt(StmtKind::Call(self.procedures[p].name, arguments))
    }

    fn arguments(&mut self, p: usize, depth: usize, need: usize) -> Vec<Expr> {
        let types: Vec<Type> = self.procedures[p].parameters.iter().map(|(_, ty)| *ty).collect();
        let mut arguments = Vec::new();
        for (i, ty) in types.iter().enumerate() {
            if i == 0 && *ty == Type::Integer {
                self.left -= 1;
                arguments.push(integer(self.rng.between(-1, 3) as i32));
            } else {
                arguments.push(self.expression(*ty, depth + 1, need.saturating_sub(i)));
            }
        }
        arguments
    }

    fn case(&mut self, depth: usize) -> Stmt {
        if self.cells >= 32 {
            return self.set(depth);
        }
        self.cells += 1;
        let count = 1 + self.rng.below(4);
        let index = match self.rng.below(4) {
            0 => integer(self.rng.between(if self.plan.wild { 0 } else { 1 }, count as i64) as i32),
            1 if self.plan.wild => self.expression(Type::Integer, depth + 1, 32),
            _ => {
                let fader = self.fader(depth + 3);
                self.left -= 4;
                binary(1, binary(5, fader, integer(count as i32)), integer(1))
            }
        };
        let mut arms = Vec::new();
        for _ in 0..count {
            arms.push(self.statement(depth + 1));
        }
        stmt(StmtKind::Case(index, arms))
    }

    /// A statement that ends by this condition, if one can be made here.
    fn provocation(&mut self, condition: u8, depth: usize) -> Option<Stmt> {
        if depth > 50 {
            return None;
        }
        self.left -= 5;
        let set = |level: Expr| stmt(StmtKind::Set(integer(1), level));
        match condition {
            20 => {
                let (operator, left, right) = *self.rng.pick(&[
                    (1, i32::MAX, 1),
                    (2, i32::MIN, 1),
                    (3, 46341, 46341),
                    (4, i32::MIN, -1),
                    (1, i32::MIN, -1),
                    (2, 0, i32::MIN),
                ]);
                if self.rng.chance(25) {
                    let operator = *self.rng.pick(&[20, 21]);
                    return Some(set(expr(ExprKind::Unary(operator, Box::new(integer(i32::MIN))))));
                }
                Some(set(binary(operator, integer(left), integer(right))))
            }
            21 => {
                let operator = *self.rng.pick(&[4, 5]);
                let left = *self.rng.pick(&EDGES);
                Some(set(binary(operator, integer(left), integer(0))))
            }
            22 => {
                for _ in 0..6 {
                    let ty = self.some_type();
                    let fields = self.seen_fields(ty);
                    if fields.is_empty() {
                        continue;
                    }
                    let (c, f) = *self.rng.pick(&fields);
                    let class = self.classes[c].name;
                    if self.find(class) != Some(What::Class(c)) {
                        continue;
                    }
                    let name = self.classes[c].fields[f].0;
                    let null = expr(ExprKind::Null(class));
                    let field = expr(ExprKind::Field(name, Box::new(null)));
                    if ty == Type::Integer && self.rng.chance(50) {
                        return Some(set(field));
                    }
                    let value = self.expression(ty, depth + 1, 31);
                    return Some(stmt(StmtKind::Assign(field, value)));
                }
                None
            }
            23 => Some(stmt(StmtKind::Assert(binary(10, integer(1), integer(2))))),
            24 => {
                if self.cells >= 32 {
                    return None;
                }
                self.cells += 1;
                let count = 1 + self.rng.below(3);
                let index = *self.rng.pick(&[0, count as i32 + 1, -1, i32::MIN, i32::MAX]);
                let arms = (0..count).map(|_| block(Vec::new(), Vec::new())).collect();
                Some(stmt(StmtKind::Case(integer(index), arms)))
            }
            25 => Some(match self.rng.below(3) {
                0 => stmt(StmtKind::Set(integer(*self.rng.pick(&[0, 513, -1, i32::MIN])), integer(5))),
                1 => set(integer(*self.rng.pick(&[256, -1, i32::MAX]))),
                _ => set(expr(ExprKind::Fader(Box::new(integer(*self.rng.pick(&[0, 65, -1, i32::MAX])))))),
            }),
            26 => {
                // A call of itself without end, from within a procedure's body.
                let own = self.procedure?;
                let result = self.procedures[own].result;
                if !self.seen_procedures(result).contains(&own) {
                    return None;
                }
                let types: Vec<Type> = self.procedures[own].parameters.iter().map(|(_, ty)| *ty).collect();
                let arguments: Vec<Expr> = types.iter().map(|ty| self.leaf(*ty)).collect();
                let name = self.procedures[own].name;
                Some(match result {
                    None => stmt(StmtKind::Call(name, arguments)),
                    Some(Type::Integer) => set(expr(ExprKind::Function(name, arguments))),
                    Some(_) => {
                        let call = expr(ExprKind::Function(name, arguments.clone()));
                        let again = expr(ExprKind::Function(name, arguments));
                        stmt(StmtKind::Assert(binary(10, call, again)))
                    }
                })
            }
            27 => {
                // A loop that makes records of some class.
                let classes = self.seen_classes();
                if classes.is_empty() {
                    return None;
                }
                let c = *self.rng.pick(&classes);
                let class = self.classes[c].name;
                let names = self.variables_of(Type::Reference(class), true);
                let types: Vec<Type> = self.classes[c].fields.iter().map(|f| f.1).collect();
                let values: Vec<Expr> = types.iter().map(|ty| self.leaf(*ty)).collect();
                let record = expr(ExprKind::Record(class, values));
                let inside = if names.is_empty() {
                    let null = expr(ExprKind::Null(class));
                    stmt(StmtKind::Assert(binary(11, record, null)))
                } else {
                    stmt(StmtKind::Assign(variable(*self.rng.pick(&names)), record))
                };
                Some(stmt(StmtKind::While(expr(ExprKind::Logical(true)), Box::new(inside))))
            }
            28 => {
                if self.cells + 3 > 32 {
                    return None;
                }
                let [start, limit] = [*self.rng.pick(&EDGES), *self.rng.pick(&EDGES)].map(integer);
                let n = self.number();
                let step = if self.rng.chance(60) { integer(0) } else { binary(2, integer(n), integer(n)) };
                let control = self.fresh(&[]);
                self.open_loop(control);
                let body = self.set(depth + 1);
                Some(self.close_loop([start, step, limit], body))
            }
            _ => None,
        }
    }

    // Expressions. `need` is the working need that the place still allows.

    fn number(&mut self) -> i32 {
        if self.plan.wild && self.rng.chance(40) {
            if self.rng.chance(20) {
                self.rng.next_u64() as i32
            } else {
                *self.rng.pick(&EDGES)
            }
        } else {
            self.rng.between(-3, 20) as i32
        }
    }

    fn leaf(&mut self, ty: Type) -> Expr {
        self.left -= 1;
        let names = self.variables_of(ty, false);
        if !names.is_empty() && self.rng.chance(60) {
            return variable(*self.rng.pick(&names));
        }
        match ty {
            Type::Integer => integer(self.number()),
            Type::Logical => expr(ExprKind::Logical(self.rng.chance(50))),
            Type::Bits => expr(ExprKind::Bits(self.number() as u32)),
            Type::Reference(class) => {
                let seen = self.seen_classes().iter().any(|&c| self.classes[c].name == class);
                if seen || names.is_empty() {
                    // Where the class is hidden and there is no variable, the judge turns it down.
                    expr(ExprKind::Null(class))
                } else {
                    variable(*self.rng.pick(&names))
                }
            }
        }
    }

    fn fader(&mut self, depth: usize) -> Expr {
        self.left -= 2;
        let number = if self.plan.wild && self.left > 4 && depth < 50 && self.rng.chance(20) {
            self.expression(Type::Integer, depth + 1, 20)
        } else {
            integer(self.rng.between(1, 64) as i32)
        };
        expr(ExprKind::Fader(Box::new(number)))
    }

    fn expression(&mut self, ty: Type, depth: usize, need: usize) -> Expr {
        if self.left <= 1 || depth >= 60 || need < 3 {
            return self.leaf(ty);
        }
        // Forms that every type has.
        match self.rng.below(14) {
            0 if self.left > 4 => {
                self.left -= 1;
                let test = self.expression(Type::Logical, depth + 1, need);
                let then = self.expression(ty, depth + 1, need - 1);
                let other = self.expression(ty, depth + 1, need - 2);
                return expr(ExprKind::If(Box::new(test), Box::new(then), Box::new(other)));
            }
            1 if self.left > 4 => return self.block_expression(ty, depth, need),
            2 => {
                let mut functions = self.seen_procedures(Some(ty));
                if !self.plan.wild {
                    functions.retain(|&p| self.procedure.is_none_or(|own| p < own));
                }
                if !functions.is_empty() {
                    self.left -= 1;
                    let p = *self.rng.pick(&functions);
                    let arguments = self.arguments(p, depth, need);
                    return expr(ExprKind::Function(self.procedures[p].name, arguments));
                }
            }
            3 | 4 => {
                let fields = self.seen_fields(ty);
                if !fields.is_empty() {
                    self.left -= 1;
                    let (c, f) = *self.rng.pick(&fields);
                    let class = self.classes[c].name;
                    let name = self.classes[c].fields[f].0;
                    let reference = self.reference(class, depth + 1, need);
                    return expr(ExprKind::Field(name, Box::new(reference)));
                }
            }
            5..=8 => return self.leaf(ty),
            _ => {}
        }
        self.left -= 1;
        match ty {
            Type::Integer => match self.rng.below(8) {
                0 => {
                    self.left += 1;
                    self.fader(depth)
                }
                1 => {
                    let e = self.expression(Type::Integer, depth + 1, need);
                    expr(ExprKind::Unary(*self.rng.pick(&[20, 21]), Box::new(e)))
                }
                2 => {
                    let left = self.expression(Type::Integer, depth + 1, need);
                    let right = if self.plan.wild {
                        self.expression(Type::Integer, depth + 1, need - 1)
                    } else {
                        self.left -= 1;
                        integer(*self.rng.pick(&[1, 2, 3, 7, -2, 10, -1, 100]))
                    };
                    binary(*self.rng.pick(&[4, 5]), left, right)
                }
                _ => {
                    let operator = *self.rng.pick(&[1, 1, 2, 2, 3]);
                    let (left, right) = self.operands(Type::Integer, Type::Integer, depth, need);
                    binary(operator, left, right)
                }
            },
            Type::Logical => match self.rng.below(8) {
                0 => self.complement(ty, depth, need),
                1 | 2 => self.conjunction(ty, depth, need),
                3 => {
                    let ty = self.some_type();
                    let (left, right) = self.operands(ty, ty, depth, need);
                    binary(*self.rng.pick(&[10, 11]), left, right)
                }
                4 => {
                    let fader = self.fader(depth + 1);
                    self.left -= 1;
                    binary(self.rng.between(6, 9) as u16, fader, integer(self.rng.below(256) as i32))
                }
                _ => {
                    let (left, right) = self.operands(Type::Integer, Type::Integer, depth, need);
                    binary(self.rng.between(6, 11) as u16, left, right)
                }
            },
            Type::Bits => match self.rng.below(6) {
                0 => self.complement(ty, depth, need),
                1 | 2 => self.conjunction(ty, depth, need),
                _ => {
                    let (left, right) = self.operands(Type::Bits, Type::Integer, depth, need);
                    binary(*self.rng.pick(&[14, 15]), left, right)
                }
            },
            Type::Reference(class) => {
                self.left += 1;
                self.reference(class, depth, need)
            }
        }
    }

    /// The two operands of a binary operator.
    fn operands(&mut self, left: Type, right: Type, depth: usize, need: usize) -> (Expr, Expr) {
        let left = self.expression(left, depth + 1, need);
        (left, self.expression(right, depth + 1, need - 1))
    }

    /// `not` of a logical value or of bits.
    fn complement(&mut self, ty: Type, depth: usize, need: usize) -> Expr {
        let e = self.expression(ty, depth + 1, need);
        expr(ExprKind::Unary(22, Box::new(e)))
    }

    /// `and` or `or` of two logical values or of bits.
    fn conjunction(&mut self, ty: Type, depth: usize, need: usize) -> Expr {
        let (left, right) = self.operands(ty, ty, depth, need);
        binary(*self.rng.pick(&[12, 13]), left, right)
    }

    /// A reference; in a tame program mostly no null.
    fn reference(&mut self, class: Name, depth: usize, need: usize) -> Expr {
        let names = self.variables_of(Type::Reference(class), false);
        if !names.is_empty() && self.rng.chance(45) {
            self.left -= 1;
            return variable(*self.rng.pick(&names));
        }
        let seen = self.seen_classes().into_iter().find(|&c| self.classes[c].name == class);
        match seen {
            Some(c) if need >= 10 && self.left > 2 && depth < 58 && !(self.plan.wild && self.rng.chance(30)) => {
                self.left -= 1;
                let types: Vec<Type> = self.classes[c].fields.iter().map(|f| f.1).collect();
                let mut values = Vec::new();
                for (i, ty) in types.iter().enumerate() {
                    values.push(if self.rng.chance(50) { self.leaf(*ty) } else { self.expression(*ty, depth + 1, need - i) });
                }
                expr(ExprKind::Record(class, values))
            }
            _ => self.leaf(Type::Reference(class)),
        }
    }
}
