//! The syntax table: entries of 8 bytes in prefix order, the tree they stand for, reading
//! a table (refusals 1 and 2 with their place) and writing a tree back.

use super::answer::{refuse, Refusal};
use super::values::{is_binary, is_unary, Type};

/// "At most 2,048 entries, nesting at most 64 deep; the root, a block (kind 1), is depth 1."
pub const MOST_BYTES: usize = 16_384;
pub const MOST_DEPTH: usize = 64;
/// "Kinds 11 and 12 stand only in the root's head, at most 16 and 63."
pub const MOST_CLASSES: usize = 16;
pub const MOST_PROCEDURES: usize = 63;

/// "Entries of 8 bytes: kind (u16), a (u16), b (32 bits, signed)".
#[derive(Clone, Copy, PartialEq, Eq, Debug)]
pub struct Entry {
    pub kind: u16,
    pub a: u16,
    pub b: i32,
}

pub fn entries_of(bytes: &[u8]) -> Vec<Entry> {
    let mut entries = Vec::new();
    for e in bytes.chunks_exact(8) {
        entries.push(Entry {
            kind: u16::from_le_bytes([e[0], e[1]]),
            a: u16::from_le_bytes([e[2], e[3]]),
            b: i32::from_le_bytes([e[4], e[5], e[6], e[7]]),
        });
    }
    entries
}

pub fn bytes_of(entries: &[Entry]) -> Vec<u8> {
    let mut bytes = Vec::new();
    for e in entries {
        bytes.extend_from_slice(&e.kind.to_le_bytes());
        bytes.extend_from_slice(&e.a.to_le_bytes());
        bytes.extend_from_slice(&e.b.to_le_bytes());
    }
    bytes
}

// The tree. `at` is the number of the entry from which a node was read (0 in trees that a
// generator makes); a tree that was read and one that was made are compared as tables.

pub type Name = u16;

#[derive(Clone, Debug, PartialEq)]
pub struct Stmt {
    pub at: usize,
    pub kind: StmtKind,
}

#[derive(Clone, Debug, PartialEq)]
pub enum StmtKind {
    /// 1 block (a declarations, b statements)
    Block(Block),
    /// 20 label a
    Label(Name),
    /// 21 assign (variable or field E, value E)
    Assign(Expr, Expr),
    /// 22 if (E, S)
    If(Expr, Box<Stmt>),
    /// 23 if-else (E, S, S)
    IfElse(Expr, Box<Stmt>, Box<Stmt>),
    /// 24 while (E, S)
    While(Expr, Box<Stmt>),
    /// 25 goto a
    Goto(Name),
    /// 26 assert (E)
    Assert(Expr),
    /// 27 call a with b arguments
    Call(Name, Vec<Expr>),
    /// 28 set (channel E, level E)
    Set(Expr, Expr),
    /// 30 case (E, then a statements, a at least 1)
    Case(Expr, Vec<Stmt>),
    /// 31 for (paper 02, ticket 1)
    For(Box<For>),
}

/// "Kind 31, a the control name, takes start, step and limit expressions and a statement."
#[derive(Clone, Debug, PartialEq)]
pub struct For {
    pub control: Name,
    pub start: Expr,
    pub step: Expr,
    pub limit: Expr,
    pub body: Stmt,
}

/// The head and the statements of a block (kind 1) or of a block expression (kind 53).
#[derive(Clone, Debug, PartialEq)]
pub struct Block {
    pub head: Vec<Decl>,
    pub statements: Vec<Stmt>,
}

#[derive(Clone, Debug, PartialEq)]
pub struct Decl {
    pub at: usize,
    pub kind: DeclKind,
}

#[derive(Clone, Debug, PartialEq)]
pub enum DeclKind {
    /// 10 variable a of type b
    Variable(Variable),
    /// 11 class a with b fields, each a kind 10
    Class(Class),
    /// 12 procedure a
    Procedure(Procedure),
    /// 14 hold group a (0 to 63)
    Hold(u8),
}

/// A kind 10: a variable, a field or a parameter.
#[derive(Clone, Copy, Debug, PartialEq)]
pub struct Variable {
    pub at: usize,
    pub name: Name,
    pub ty: Type,
}

#[derive(Clone, Debug, PartialEq)]
pub struct Class {
    pub at: usize,
    pub name: Name,
    pub fields: Vec<Variable>,
}

#[derive(Clone, Debug, PartialEq)]
pub struct Procedure {
    pub at: usize,
    pub name: Name,
    pub parameters: Vec<Variable>,
    pub body: Body,
}

/// "its body: S when result is 0, E when result is 1, 2 or 3"
#[derive(Clone, Debug, PartialEq)]
pub enum Body {
    Statement(Stmt),
    Expression(Type, Expr),
}

impl Procedure {
    pub fn result(&self) -> Option<Type> {
        match self.body {
            Body::Statement(_) => None,
            Body::Expression(ty, _) => Some(ty),
        }
    }
}

#[derive(Clone, Debug, PartialEq)]
pub struct Expr {
    pub at: usize,
    pub kind: ExprKind,
}

#[derive(Clone, Debug, PartialEq)]
pub enum ExprKind {
    /// 40 integer b
    Integer(i32),
    /// 41 logical b (0 or 1)
    Logical(bool),
    /// 42 bits b
    Bits(u32),
    /// 43 null of class a
    Null(Name),
    /// 44 variable a
    Variable(Name),
    /// 45 function a with b arguments
    Function(Name, Vec<Expr>),
    /// 46 field a of (E)
    Field(Name, Box<Expr>),
    /// 47 record of class a from b values
    Record(Name, Vec<Expr>),
    /// 48 unary a (E)
    Unary(u16, Box<Expr>),
    /// 49 binary a (E, E)
    Binary(u16, Box<Expr>, Box<Expr>),
    /// 50 if-expression (E, E, E)
    If(Box<Expr>, Box<Expr>, Box<Expr>),
    /// 51 fader (E)
    Fader(Box<Expr>),
    /// 53 block expression (a declarations, b statements, then E)
    Block(Block, Box<Expr>),
}

/// The whole table: the root's block, which is entry 0.
#[derive(Clone, Debug, PartialEq)]
pub struct Tree {
    pub root: Block,
}

// Reading.

/// "Types: 1 integer, 2 logical, 3 bits, 65,536 + class name for a reference."
pub fn type_of_code(b: i32) -> Option<Type> {
    match b {
        1 => Some(Type::Integer),
        2 => Some(Type::Logical),
        3 => Some(Type::Bits),
        65_536..=131_071 => Some(Type::Reference((b - 65_536) as u16)),
        _ => None,
    }
}

pub fn code_of_type(ty: Type) -> i32 {
    match ty {
        Type::Integer => 1,
        Type::Logical => 2,
        Type::Bits => 3,
        Type::Reference(class) => 65_536 + class as i32,
    }
}

/// Refusals 1 and 2, or the tree.
pub fn read_table(bytes: &[u8]) -> Result<Tree, Refusal> {
    // 1: "empty, over 16,384 bytes, or not in eights"
    if bytes.is_empty() || bytes.len() > MOST_BYTES || !bytes.len().is_multiple_of(8) {
        return refuse(1, 0);
    }
    let entries = entries_of(bytes);
    let mut reader = Reader { entries: &entries, next: 0, classes: 0, procedures: 0 };
    let root = reader.root()?;
    // "An entry after the one tree is the first that does not read."
    if reader.next < entries.len() {
        return refuse(2, reader.next);
    }
    Ok(Tree { root })
}

/// Reads from left to right; `next` is the entry that is read next.
struct Reader<'a> {
    entries: &'a [Entry],
    next: usize,
    classes: usize,
    procedures: usize,
}

impl Reader<'_> {
    /// The next entry. "2: the first that does not read, or the entry count where the table
    /// ends early"; an entry at depth 65 does not read.
    fn take(&mut self, depth: usize) -> Result<(usize, Entry), Refusal> {
        let at = self.next;
        if at == self.entries.len() {
            return refuse(2, at);
        }
        if depth > MOST_DEPTH {
            return refuse(2, at);
        }
        self.next = at + 1;
        Ok((at, self.entries[at]))
    }

    /// "the root, a block (kind 1), is depth 1"
    fn root(&mut self) -> Result<Block, Refusal> {
        let (at, e) = self.take(1)?;
        if e.kind != 1 || e.b < 0 {
            return refuse(2, at);
        }
        self.block(e, 1, true)
    }

    /// What follows a kind 1 or kind 53: a declarations, then b statements, among which
    /// labels may stand. The count b has been tested not to be negative.
    fn block(&mut self, e: Entry, depth: usize, is_root: bool) -> Result<Block, Refusal> {
        let mut head = Vec::new();
        for _ in 0..e.a {
            head.push(self.declaration(depth + 1, is_root)?);
        }
        let mut statements = Vec::new();
        for _ in 0..e.b {
            statements.push(self.statement(depth + 1, true)?);
        }
        Ok(Block { head, statements })
    }

    fn declaration(&mut self, depth: usize, in_root_head: bool) -> Result<Decl, Refusal> {
        let (at, e) = self.take(depth)?;
        let kind = match e.kind {
            10 => DeclKind::Variable(variable_of(at, e)?),
            11 if in_root_head => {
                // "class a with b fields, 1 to 8, each a kind 10"; at most 16 classes
                self.classes += 1;
                if !(1..=8).contains(&e.b) || self.classes > MOST_CLASSES {
                    return refuse(2, at);
                }
                let mut fields = Vec::new();
                for _ in 0..e.b {
                    fields.push(self.variable(depth + 1)?);
                }
                DeclKind::Class(Class { at, name: e.a, fields })
            }
            12 if in_root_head => {
                // "procedure a, b = 256 × parameters (0 to 8) + result"; at most 63
                self.procedures += 1;
                let parameter_count = e.b / 256;
                let result = e.b % 256;
                if e.b < 0 || parameter_count > 8 || result > 3 || self.procedures > MOST_PROCEDURES {
                    return refuse(2, at);
                }
                let mut parameters = Vec::new();
                for _ in 0..parameter_count {
                    parameters.push(self.variable(depth + 1)?);
                }
                let body = match type_of_code(result) {
                    None => Body::Statement(self.statement(depth + 1, false)?),
                    Some(ty) => Body::Expression(ty, self.expression(depth + 1)?),
                };
                DeclKind::Procedure(Procedure { at, name: e.a, parameters, body })
            }
            14 => {
                // "hold group a (0 to 63)"
                if e.a > 63 || e.b != 0 {
                    return refuse(2, at);
                }
                DeclKind::Hold(e.a as u8)
            }
            _ => return refuse(2, at),
        };
        Ok(Decl { at, kind })
    }

    /// A field or a parameter: a kind 10 and nothing else.
    fn variable(&mut self, depth: usize) -> Result<Variable, Refusal> {
        let (at, e) = self.take(depth)?;
        if e.kind != 10 {
            return refuse(2, at);
        }
        variable_of(at, e)
    }

    fn statement(&mut self, depth: usize, label_may_stand: bool) -> Result<Stmt, Refusal> {
        let (at, e) = self.take(depth)?;
        // "A field not named below is 0."
        let a_unused = e.a == 0;
        let b_unused = e.b == 0;
        let kind = match e.kind {
            1 if e.b >= 0 => StmtKind::Block(self.block(e, depth, false)?),
            20 if label_may_stand && b_unused => StmtKind::Label(e.a),
            21 if a_unused && b_unused => {
                let target = self.target(depth + 1)?;
                let value = self.expression(depth + 1)?;
                StmtKind::Assign(target, value)
            }
            22 if a_unused && b_unused => {
                let test = self.expression(depth + 1)?;
                let then = self.statement(depth + 1, false)?;
                StmtKind::If(test, Box::new(then))
            }
            23 if a_unused && b_unused => {
                let test = self.expression(depth + 1)?;
                let then = self.statement(depth + 1, false)?;
                let other = self.statement(depth + 1, false)?;
                StmtKind::IfElse(test, Box::new(then), Box::new(other))
            }
            24 if a_unused && b_unused => {
                let test = self.expression(depth + 1)?;
                let body = self.statement(depth + 1, false)?;
                StmtKind::While(test, Box::new(body))
            }
            25 if b_unused => StmtKind::Goto(e.a),
            26 if a_unused && b_unused => StmtKind::Assert(self.expression(depth + 1)?),
            27 if e.b >= 0 => StmtKind::Call(e.a, self.expressions(e.b, depth + 1)?),
            28 if a_unused && b_unused => {
                let channel = self.expression(depth + 1)?;
                let level = self.expression(depth + 1)?;
                StmtKind::Set(channel, level)
            }
            30 if e.a >= 1 && b_unused => {
                let index = self.expression(depth + 1)?;
                let mut arms = Vec::new();
                for _ in 0..e.a {
                    arms.push(self.statement(depth + 1, false)?);
                }
                StmtKind::Case(index, arms)
            }
            31 if b_unused => {
                let start = self.expression(depth + 1)?;
                let step = self.expression(depth + 1)?;
                let limit = self.expression(depth + 1)?;
                let body = self.statement(depth + 1, false)?;
                StmtKind::For(Box::new(For { control: e.a, start, step, limit, body }))
            }
            _ => return refuse(2, at),
        };
        Ok(Stmt { at, kind })
    }

    /// "variable or field E": a kind 44 or 46. "Assigning to a kind 40: the place is the 40".
    fn target(&mut self, depth: usize) -> Result<Expr, Refusal> {
        if let Some(e) = self.entries.get(self.next) {
            if e.kind != 44 && e.kind != 46 {
                return refuse(2, self.next);
            }
        }
        self.expression(depth)
    }

    fn expressions(&mut self, count: i32, depth: usize) -> Result<Vec<Expr>, Refusal> {
        let mut list = Vec::new();
        for _ in 0..count {
            list.push(self.expression(depth)?);
        }
        Ok(list)
    }

    fn expression(&mut self, depth: usize) -> Result<Expr, Refusal> {
        let (at, e) = self.take(depth)?;
        let a_unused = e.a == 0;
        let b_unused = e.b == 0;
        let kind = match e.kind {
            40 if a_unused => ExprKind::Integer(e.b),
            41 if a_unused && (e.b == 0 || e.b == 1) => ExprKind::Logical(e.b == 1),
            42 if a_unused => ExprKind::Bits(e.b as u32),
            43 if b_unused => ExprKind::Null(e.a),
            44 if b_unused => ExprKind::Variable(e.a),
            45 if e.b >= 0 => ExprKind::Function(e.a, self.expressions(e.b, depth + 1)?),
            46 if b_unused => ExprKind::Field(e.a, Box::new(self.expression(depth + 1)?)),
            47 if e.b >= 0 => ExprKind::Record(e.a, self.expressions(e.b, depth + 1)?),
            48 if is_unary(e.a) && b_unused => ExprKind::Unary(e.a, Box::new(self.expression(depth + 1)?)),
            49 if is_binary(e.a) && b_unused => {
                let x = self.expression(depth + 1)?;
                let y = self.expression(depth + 1)?;
                ExprKind::Binary(e.a, Box::new(x), Box::new(y))
            }
            50 if a_unused && b_unused => {
                let test = self.expression(depth + 1)?;
                let then = self.expression(depth + 1)?;
                let other = self.expression(depth + 1)?;
                ExprKind::If(Box::new(test), Box::new(then), Box::new(other))
            }
            51 if a_unused && b_unused => ExprKind::Fader(Box::new(self.expression(depth + 1)?)),
            53 if e.b >= 0 => {
                let block = self.block(e, depth, false)?;
                let value = self.expression(depth + 1)?;
                ExprKind::Block(block, Box::new(value))
            }
            _ => return refuse(2, at),
        };
        Ok(Expr { at, kind })
    }
}

fn variable_of(at: usize, e: Entry) -> Result<Variable, Refusal> {
    match type_of_code(e.b) {
        Some(ty) => Ok(Variable { at, name: e.a, ty }),
        None => refuse(2, at),
    }
}

// Writing.

/// The table of a tree: each entry before its operands.
pub fn write_tree(tree: &Tree) -> Vec<Entry> {
    let mut out = Vec::new();
    write_block(&mut out, 1, &tree.root);
    out
}

fn put(out: &mut Vec<Entry>, kind: u16, a: u16, b: i32) {
    out.push(Entry { kind, a, b });
}

fn write_block(out: &mut Vec<Entry>, kind: u16, block: &Block) {
    put(out, kind, block.head.len() as u16, block.statements.len() as i32);
    for d in &block.head {
        write_declaration(out, d);
    }
    for s in &block.statements {
        write_statement(out, s);
    }
}

fn write_variable(out: &mut Vec<Entry>, v: &Variable) {
    put(out, 10, v.name, code_of_type(v.ty));
}

fn write_declaration(out: &mut Vec<Entry>, d: &Decl) {
    match &d.kind {
        DeclKind::Variable(v) => write_variable(out, v),
        DeclKind::Class(class) => {
            put(out, 11, class.name, class.fields.len() as i32);
            for f in &class.fields {
                write_variable(out, f);
            }
        }
        DeclKind::Procedure(p) => {
            let result = p.result().map_or(0, code_of_type);
            put(out, 12, p.name, 256 * p.parameters.len() as i32 + result);
            for v in &p.parameters {
                write_variable(out, v);
            }
            match &p.body {
                Body::Statement(s) => write_statement(out, s),
                Body::Expression(_, e) => write_expression(out, e),
            }
        }
        DeclKind::Hold(group) => put(out, 14, *group as u16, 0),
    }
}

fn write_statement(out: &mut Vec<Entry>, s: &Stmt) {
    match &s.kind {
        StmtKind::Block(block) => write_block(out, 1, block),
        StmtKind::Label(name) => put(out, 20, *name, 0),
        StmtKind::Assign(target, value) => {
            put(out, 21, 0, 0);
            write_expression(out, target);
            write_expression(out, value);
        }
        StmtKind::If(test, then) => {
            put(out, 22, 0, 0);
            write_expression(out, test);
            write_statement(out, then);
        }
        StmtKind::IfElse(test, then, other) => {
            put(out, 23, 0, 0);
            write_expression(out, test);
            write_statement(out, then);
            write_statement(out, other);
        }
        StmtKind::While(test, body) => {
            put(out, 24, 0, 0);
            write_expression(out, test);
            write_statement(out, body);
        }
        StmtKind::Goto(name) => put(out, 25, *name, 0),
        StmtKind::Assert(test) => {
            put(out, 26, 0, 0);
            write_expression(out, test);
        }
        StmtKind::Call(name, arguments) => {
            put(out, 27, *name, arguments.len() as i32);
            write_expressions(out, arguments);
        }
        StmtKind::Set(channel, level) => {
            put(out, 28, 0, 0);
            write_expression(out, channel);
            write_expression(out, level);
        }
        StmtKind::Case(index, arms) => {
            put(out, 30, arms.len() as u16, 0);
            write_expression(out, index);
            for arm in arms {
                write_statement(out, arm);
            }
        }
        StmtKind::For(f) => {
            put(out, 31, f.control, 0);
            for e in [&f.start, &f.step, &f.limit] {
                write_expression(out, e);
            }
            write_statement(out, &f.body);
        }
    }
}

fn write_expressions(out: &mut Vec<Entry>, list: &[Expr]) {
    for e in list {
        write_expression(out, e);
    }
}

fn write_expression(out: &mut Vec<Entry>, e: &Expr) {
    match &e.kind {
        ExprKind::Integer(b) => put(out, 40, 0, *b),
        ExprKind::Logical(b) => put(out, 41, 0, *b as i32),
        ExprKind::Bits(b) => put(out, 42, 0, *b as i32),
        ExprKind::Null(class) => put(out, 43, *class, 0),
        ExprKind::Variable(name) => put(out, 44, *name, 0),
        ExprKind::Function(name, arguments) => {
            put(out, 45, *name, arguments.len() as i32);
            write_expressions(out, arguments);
        }
        ExprKind::Field(name, reference) => {
            put(out, 46, *name, 0);
            write_expression(out, reference);
        }
        ExprKind::Record(class, values) => {
            put(out, 47, *class, values.len() as i32);
            write_expressions(out, values);
        }
        ExprKind::Unary(operator, x) => {
            put(out, 48, *operator, 0);
            write_expression(out, x);
        }
        ExprKind::Binary(operator, x, y) => {
            put(out, 49, *operator, 0);
            write_expression(out, x);
            write_expression(out, y);
        }
        ExprKind::If(test, then, other) => {
            put(out, 50, 0, 0);
            write_expression(out, test);
            write_expression(out, then);
            write_expression(out, other);
        }
        ExprKind::Fader(x) => {
            put(out, 51, 0, 0);
            write_expression(out, x);
        }
        ExprKind::Block(block, value) => {
            write_block(out, 53, block);
            write_expression(out, value);
        }
    }
}
