//! A body's limits (refusal 6): "A body has at most 32 cells (parameters, variables of all
//! its blocks, one per case), 16 holds open together, and a working need of 32."; "Each loop
//! counts three cells." (paper 02, ticket 1)

use super::answer::{refuse, Refusal};
use super::table::*;

pub const MOST_CELLS: usize = 32;
pub const MOST_HOLDS: usize = 16;
pub const MOST_NEED: usize = 32;

/// "6 the body's entry, procedures first"
pub fn judge_limits(tree: &Tree) -> Result<(), Refusal> {
    for d in &tree.root.head {
        if let DeclKind::Procedure(p) = &d.kind {
            let kept = procedure_cells(p) <= MOST_CELLS
                && procedure_holds(p) <= MOST_HOLDS
                && procedure_need(p) <= MOST_NEED;
            if !kept {
                return refuse(6, p.at);
            }
        }
    }
    let kept = block_cells(&tree.root) <= MOST_CELLS
        && block_holds(&tree.root) <= MOST_HOLDS
        && block_need(&tree.root) <= MOST_NEED;
    if !kept {
        return refuse(6, 0);
    }
    Ok(())
}

/// The operands of an entry that are statements or expressions, in order.
enum Part<'t> {
    S(&'t Stmt),
    E(&'t Expr),
}

fn statement_parts(s: &Stmt) -> Vec<Part<'_>> {
    match &s.kind {
        StmtKind::Block(block) => block.statements.iter().map(Part::S).collect(),
        StmtKind::Label(_) | StmtKind::Goto(_) => Vec::new(),
        StmtKind::Assign(target, value) => vec![Part::E(target), Part::E(value)],
        StmtKind::If(test, then) => vec![Part::E(test), Part::S(then)],
        StmtKind::IfElse(test, then, other) => vec![Part::E(test), Part::S(then), Part::S(other)],
        StmtKind::While(test, body) => vec![Part::E(test), Part::S(body)],
        StmtKind::Assert(test) => vec![Part::E(test)],
        StmtKind::Call(_, arguments) => arguments.iter().map(Part::E).collect(),
        StmtKind::Set(channel, level) => vec![Part::E(channel), Part::E(level)],
        StmtKind::Case(index, arms) => {
            let mut parts = vec![Part::E(index)];
            parts.extend(arms.iter().map(Part::S));
            parts
        }
        StmtKind::For(f) => vec![Part::E(&f.start), Part::E(&f.step), Part::E(&f.limit), Part::S(&f.body)],
    }
}

fn expression_parts(e: &Expr) -> Vec<Part<'_>> {
    match &e.kind {
        ExprKind::Integer(_)
        | ExprKind::Logical(_)
        | ExprKind::Bits(_)
        | ExprKind::Null(_)
        | ExprKind::Variable(_) => Vec::new(),
        ExprKind::Function(_, list) | ExprKind::Record(_, list) => list.iter().map(Part::E).collect(),
        ExprKind::Field(_, x) | ExprKind::Unary(_, x) | ExprKind::Fader(x) => vec![Part::E(x)],
        ExprKind::Binary(_, x, y) => vec![Part::E(x), Part::E(y)],
        ExprKind::If(x, y, z) => vec![Part::E(x), Part::E(y), Part::E(z)],
        ExprKind::Block(block, value) => {
            let mut parts: Vec<Part> = block.statements.iter().map(Part::S).collect();
            parts.push(Part::E(value));
            parts
        }
    }
}

// Working need.

/// "An entry needs the largest over i of i − 1 plus the need of its i-th operand, at least 1;
/// an operand that is a statement counts its own need alone".
fn need_of_operands(parts: &[Part]) -> usize {
    let mut need = 1;
    for (before, part) in parts.iter().enumerate() {
        need = need.max(match part {
            Part::S(s) => statement_need(s),
            Part::E(e) => before + expression_need(e),
        });
    }
    need
}

/// "a declaration 1, and a block or block expression counts as its neediest part"; "an empty
/// block, a label and a goto need 1". So the declarations add nothing to the least, 1.
fn neediest(parts: &[Part]) -> usize {
    let mut need = 1;
    for part in parts {
        need = need.max(match part {
            Part::S(s) => statement_need(s),
            Part::E(e) => expression_need(e),
        });
    }
    need
}

pub fn statement_need(s: &Stmt) -> usize {
    let parts = statement_parts(s);
    match s.kind {
        StmtKind::Block(_) => neediest(&parts),
        // "a case needs at least 2"
        StmtKind::Case(..) => need_of_operands(&parts).max(2),
        _ => need_of_operands(&parts),
    }
}

pub fn expression_need(e: &Expr) -> usize {
    let parts = expression_parts(e);
    match e.kind {
        ExprKind::Block(..) => neediest(&parts),
        _ => need_of_operands(&parts),
    }
}

pub fn block_need(block: &Block) -> usize {
    let parts: Vec<Part> = block.statements.iter().map(Part::S).collect();
    neediest(&parts)
}

/// "a procedure's need is its body operand's"
pub fn procedure_need(p: &Procedure) -> usize {
    match &p.body {
        Body::Statement(s) => statement_need(s),
        Body::Expression(_, e) => expression_need(e),
    }
}

// Cells: "parameters, every variable of every block of the body (siblings share nothing),
// one integer cell per case"; three per loop.

pub fn block_cells(block: &Block) -> usize {
    let variables = block.head.iter().filter(|d| matches!(d.kind, DeclKind::Variable(_))).count();
    variables + block.statements.iter().map(statement_cells).sum::<usize>()
}

fn parts_cells(parts: &[Part]) -> usize {
    let mut cells = 0;
    for part in parts {
        cells += match part {
            Part::S(s) => statement_cells(s),
            Part::E(e) => expression_cells(e),
        };
    }
    cells
}

pub fn statement_cells(s: &Stmt) -> usize {
    match &s.kind {
        StmtKind::Block(block) => block_cells(block),
        StmtKind::Case(..) => 1 + parts_cells(&statement_parts(s)),
        StmtKind::For(_) => 3 + parts_cells(&statement_parts(s)),
        _ => parts_cells(&statement_parts(s)),
    }
}

pub fn expression_cells(e: &Expr) -> usize {
    match &e.kind {
        ExprKind::Block(block, value) => block_cells(block) + expression_cells(value),
        _ => parts_cells(&expression_parts(e)),
    }
}

pub fn procedure_cells(p: &Procedure) -> usize {
    let body = match &p.body {
        Body::Statement(s) => statement_cells(s),
        Body::Expression(_, e) => expression_cells(e),
    };
    p.parameters.len() + body
}

// Holds: "the largest sum of hold counts along nested blocks and block expressions of one
// body. Callers do not count."

fn own_holds(block: &Block) -> usize {
    block.head.iter().filter(|d| matches!(d.kind, DeclKind::Hold(_))).count()
}

pub fn block_holds(block: &Block) -> usize {
    let inside = block.statements.iter().map(statement_holds).max().unwrap_or(0);
    own_holds(block) + inside
}

fn parts_holds(parts: &[Part]) -> usize {
    let mut holds = 0;
    for part in parts {
        holds = holds.max(match part {
            Part::S(s) => statement_holds(s),
            Part::E(e) => expression_holds(e),
        });
    }
    holds
}

pub fn statement_holds(s: &Stmt) -> usize {
    match &s.kind {
        StmtKind::Block(block) => block_holds(block),
        _ => parts_holds(&statement_parts(s)),
    }
}

pub fn expression_holds(e: &Expr) -> usize {
    match &e.kind {
        ExprKind::Block(block, _) => own_holds(block) + parts_holds(&expression_parts(e)),
        _ => parts_holds(&expression_parts(e)),
    }
}

pub fn procedure_holds(p: &Procedure) -> usize {
    match &p.body {
        Body::Statement(s) => statement_holds(s),
        Body::Expression(_, e) => expression_holds(e),
    }
}
