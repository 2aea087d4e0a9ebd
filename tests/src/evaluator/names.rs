//! Scopes, types and reach: the faults 3, 4 and 5, and the judgement of a whole table.
//!
//! "The refusal is that of the first entry in postorder (inner before outer, left to right)
//! that has a fault, and among that entry's faults the least number." So the walk goes in
//! postorder, stops at the first fault, and tests 3 before 4 before 5 at each entry.

use std::collections::{hash_map, HashMap, HashSet};

use super::answer::{refuse, Refusal};
use super::limits::judge_limits;
use super::table::*;
use super::values::{binary_type, unary_type, Type};

/// "Table entries are judged inner before outer, left to right, after 1 and 2; at one entry
/// 3, 4, 5 in that order; then 6".
pub fn judge_table(bytes: &[u8]) -> Result<Tree, Refusal> {
    let tree = read_table(bytes)?;
    judge_names(&tree)?;
    judge_limits(&tree)?;
    Ok(tree)
}

/// What a name stands for.
#[derive(Clone, Copy)]
enum Meaning<'t> {
    /// A variable or a parameter.
    Variable(Type),
    Label,
    /// "The control name is an integer of the loop only and cannot be assigned" (paper 02, ticket 1).
    Control,
    Class(&'t Class),
    Field(&'t Class, Type),
    Procedure(&'t Procedure),
}

type Definitions<'t> = HashMap<Name, Meaning<'t>>;

/// A block as section 3 of 000 speaks of it: "A statement following a procedure heading or a
/// for clause is considered to be a block." A body that is a kind 1 or 53 is that one block,
/// any other is a block without names.
struct NamedBlock<'t> {
    /// Of its declarations and labels, in one name space.
    names: Definitions<'t>,
    heading: Heading<'t>,
    /// A kind 53, which no goto leaves.
    is_expression: bool,
}

/// What stands before a block.
enum Heading<'t> {
    Nothing,
    /// The formal parameters of a procedure heading.
    Parameters(Definitions<'t>),
    /// The control identifier of a for clause.
    Control(Name),
}

struct Names<'t> {
    /// From the root's block inward.
    blocks: Vec<NamedBlock<'t>>,
    /// The entries that define a name which an earlier entry of the same block defines:
    /// "3: the second of two".
    twice: HashSet<usize>,
}

pub fn judge_names(tree: &Tree) -> Result<(), Refusal> {
    let mut names = Names { blocks: Vec::new(), twice: HashSet::new() };
    names.block(&tree.root, Heading::Nothing)
}

impl<'t> Names<'t> {
    /// The definitions of a block or a heading, which come in the order of their entries.
    /// "Of two definitions the first by index is what a lookup finds."
    fn definitions(&mut self, list: Vec<(usize, Name, Meaning<'t>)>) -> Definitions<'t> {
        let mut names = HashMap::new();
        for (at, name, meaning) in list {
            match names.entry(name) {
                hash_map::Entry::Vacant(place) => {
                    place.insert(meaning);
                }
                hash_map::Entry::Occupied(_) => {
                    self.twice.insert(at);
                }
            }
        }
        names
    }

    fn close(&mut self) -> Option<NamedBlock<'t>> {
        self.blocks.pop()
    }

    fn find(&self, name: Name) -> Option<Meaning<'t>> {
        self.identify(name).map(|(meaning, _)| meaning)
    }

    /// The rules of section 3 of 000, and whether what is found lies beyond a procedure or a
    /// block expression.
    fn identify(&self, name: Name) -> Option<(Meaning<'t>, bool)> {
        let mut beyond = false;
        for block in self.blocks.iter().rev() {
            // Step 1. "If the identifier is defined by a declaration of a quantity or by its
            // standing as a label within the smallest block"
            if let Some(meaning) = block.names.get(&name) {
                return Some((*meaning, beyond));
            }
            match &block.heading {
                Heading::Nothing => {}
                // Step 2. "Otherwise, if that block is a procedure body and if the given identifier
                // is identical with a formal parameter"
                Heading::Parameters(parameters) => {
                    if let Some(meaning) = parameters.get(&name) {
                        return Some((*meaning, beyond));
                    }
                    beyond = true;
                }
                // Step 3. "Otherwise, if that block is preceded by a for clause and the identifier
                // is identical to the control identifier of that for clause"
                Heading::Control(control) => {
                    if *control == name {
                        return Some((Meaning::Control, beyond));
                    }
                }
            }
            // "Otherwise, these rules are applied considering the smallest block embracing the
            // block which has previously been considered."
            beyond |= block.is_expression;
        }
        None
    }

    /// A block; it stays open nowhere.
    fn block(&mut self, block: &'t Block, heading: Heading<'t>) -> Result<(), Refusal> {
        self.open_block(block, heading, false);
        self.block_parts(block)?;
        self.close();
        Ok(())
    }

    /// A block expression, and its type.
    fn block_expression(&mut self, block: &'t Block, value: &'t Expr, heading: Heading<'t>) -> Result<Type, Refusal> {
        self.open_block(block, heading, true);
        self.block_parts(block)?;
        let ty = self.expression(value)?;
        self.close();
        Ok(ty)
    }

    /// "All names of a head are visible throughout it." "Fields belong to the root's head,
    /// labels to their block, parameters to one around the body."
    fn open_block(&mut self, block: &'t Block, heading: Heading<'t>, is_expression: bool) {
        let mut definitions = Vec::new();
        for d in &block.head {
            match &d.kind {
                DeclKind::Variable(v) => definitions.push((v.at, v.name, Meaning::Variable(v.ty))),
                DeclKind::Class(class) => {
                    definitions.push((class.at, class.name, Meaning::Class(class)));
                    for f in &class.fields {
                        definitions.push((f.at, f.name, Meaning::Field(class, f.ty)));
                    }
                }
                DeclKind::Procedure(p) => definitions.push((p.at, p.name, Meaning::Procedure(p))),
                // "A hold is not a name."
                DeclKind::Hold(_) => {}
            }
        }
        for s in &block.statements {
            if let StmtKind::Label(name) = s.kind {
                definitions.push((s.at, name, Meaning::Label));
            }
        }
        let names = self.definitions(definitions);
        self.blocks.push(NamedBlock { names, heading, is_expression });
    }

    fn block_parts(&mut self, block: &'t Block) -> Result<(), Refusal> {
        for d in &block.head {
            self.declaration(d)?;
        }
        for s in &block.statements {
            self.statement(s)?;
        }
        Ok(())
    }

    fn declaration(&mut self, d: &'t Decl) -> Result<(), Refusal> {
        match &d.kind {
            DeclKind::Variable(v) => self.variable(v),
            DeclKind::Class(class) => {
                for f in &class.fields {
                    self.variable(f)?;
                }
                self.not_twice(class.at)
            }
            DeclKind::Procedure(p) => self.procedure(p),
            DeclKind::Hold(_) => Ok(()),
        }
    }

    fn not_twice(&self, at: usize) -> Result<(), Refusal> {
        if self.twice.contains(&at) {
            return refuse(3, at);
        }
        Ok(())
    }

    /// A kind 10. "A type 65,536 + n: n is looked up from the block in whose head the kind 10
    /// stands. Undefined: 3. No class: 4. Both at that kind 10."
    fn variable(&self, v: &Variable) -> Result<(), Refusal> {
        self.not_twice(v.at)?;
        if let Type::Reference(class) = v.ty {
            self.class(v.at, class)?;
        }
        Ok(())
    }

    /// The class of this name, or 3 or 4 at the entry.
    fn class(&self, at: usize, name: Name) -> Result<&'t Class, Refusal> {
        match self.find(name) {
            None => refuse(3, at),
            Some(Meaning::Class(class)) => Ok(class),
            Some(_) => refuse(4, at),
        }
    }

    fn procedure(&mut self, p: &'t Procedure) -> Result<(), Refusal> {
        let mut parameters = Vec::new();
        for v in &p.parameters {
            parameters.push((v.at, v.name, Meaning::Variable(v.ty)));
        }
        let heading = Heading::Parameters(self.definitions(parameters));
        self.open_heading(heading);
        for v in &p.parameters {
            self.variable(v)?;
        }
        let right_type = match &p.body {
            Body::Statement(s) => self.body_statement(s).map(|_| true)?,
            Body::Expression(result, e) => self.body_expression(e)? == *result,
        };
        self.not_twice(p.at)?;
        // "A function body's type other than its result: 4 at the kind 12."
        if !right_type {
            return refuse(4, p.at);
        }
        Ok(())
    }

    /// A heading and, behind it, a block without names, until what follows is known to be one with some.
    fn open_heading(&mut self, heading: Heading<'t>) {
        self.blocks.push(NamedBlock { names: HashMap::new(), heading, is_expression: false });
    }

    /// The heading that was opened for a body: the body's own block has it, if it is one.
    fn heading(&mut self) -> Heading<'t> {
        self.close().map_or(Heading::Nothing, |block| block.heading)
    }

    /// A procedure's body or what a for clause controls, its heading being open.
    fn body_statement(&mut self, s: &'t Stmt) -> Result<(), Refusal> {
        if let StmtKind::Block(block) = &s.kind {
            let heading = self.heading();
            return self.block(block, heading);
        }
        self.statement(s)?;
        self.close();
        Ok(())
    }

    fn body_expression(&mut self, e: &'t Expr) -> Result<Type, Refusal> {
        if let ExprKind::Block(block, value) = &e.kind {
            let heading = self.heading();
            return self.block_expression(block, value, heading);
        }
        let ty = self.expression(e)?;
        self.close();
        Ok(ty)
    }

    fn statement(&mut self, s: &'t Stmt) -> Result<(), Refusal> {
        match &s.kind {
            StmtKind::Block(block) => self.block(block, Heading::Nothing),
            StmtKind::Label(_) => self.not_twice(s.at),
            StmtKind::Assign(target, value) => {
                let target = self.target(target)?;
                let value = self.expression(value)?;
                // "Types must be identical"
                demand(target == value, s.at)
            }
            StmtKind::If(test, then) => {
                let test = self.expression(test)?;
                self.statement(then)?;
                demand(test == Type::Logical, s.at)
            }
            StmtKind::IfElse(test, then, other) => {
                let test = self.expression(test)?;
                self.statement(then)?;
                self.statement(other)?;
                demand(test == Type::Logical, s.at)
            }
            StmtKind::While(test, body) => {
                let test = self.expression(test)?;
                self.statement(body)?;
                demand(test == Type::Logical, s.at)
            }
            StmtKind::Goto(name) => self.goto(s.at, *name),
            StmtKind::Assert(test) => {
                let test = self.expression(test)?;
                demand(test == Type::Logical, s.at)
            }
            StmtKind::Call(name, arguments) => {
                // "27 of a function procedure ...: 4 at that entry"
                let result = self.call(s.at, *name, arguments)?;
                demand(result.is_none(), s.at)
            }
            StmtKind::Set(channel, level) => {
                let channel = self.expression(channel)?;
                let level = self.expression(level)?;
                demand(channel == Type::Integer && level == Type::Integer, s.at)
            }
            StmtKind::Case(index, arms) => {
                let index = self.expression(index)?;
                for arm in arms {
                    self.statement(arm)?;
                }
                demand(index == Type::Integer, s.at)
            }
            StmtKind::For(f) => {
                // The control name is not in sight yet: "they can not depend on the control
                // identifier" (000, 7.8.1).
                let types = [self.expression(&f.start)?, self.expression(&f.step)?, self.expression(&f.limit)?];
                self.open_heading(Heading::Control(f.control));
                self.body_statement(&f.body)?;
                demand(types == [Type::Integer; 3], s.at)
            }
        }
    }

    /// A target's type: a control name is of a wrong sort there.
    fn target(&mut self, e: &'t Expr) -> Result<Type, Refusal> {
        match e.kind {
            ExprKind::Variable(name) if matches!(self.find(name), Some(Meaning::Control)) => refuse(4, e.at),
            _ => self.expression(e),
        }
    }

    /// "goto: no visible definition 3; visible and no label 4; a visible label across a
    /// procedure or block-expression boundary 5."
    fn goto(&self, at: usize, name: Name) -> Result<(), Refusal> {
        match self.identify(name) {
            None => refuse(3, at),
            // "within its body and not out of a block expression"
            Some((Meaning::Label, true)) => refuse(5, at),
            Some((Meaning::Label, false)) => Ok(()),
            Some(_) => refuse(4, at),
        }
    }

    fn expressions(&mut self, list: &'t [Expr]) -> Result<Vec<Type>, Refusal> {
        let mut types = Vec::new();
        for e in list {
            types.push(self.expression(e)?);
        }
        Ok(types)
    }

    /// A call's arguments and its procedure; its result's type, None of a proper procedure.
    fn call(&mut self, at: usize, name: Name, arguments: &'t [Expr]) -> Result<Option<Type>, Refusal> {
        let given = self.expressions(arguments)?;
        match self.find(name) {
            None => refuse(3, at),
            Some(Meaning::Procedure(p)) => {
                let asked: Vec<Type> = p.parameters.iter().map(|v| v.ty).collect();
                demand(given == asked, at)?;
                Ok(p.result())
            }
            Some(_) => refuse(4, at),
        }
    }

    /// The type of an expression that has no fault.
    fn expression(&mut self, e: &'t Expr) -> Result<Type, Refusal> {
        match &e.kind {
            ExprKind::Integer(_) => Ok(Type::Integer),
            ExprKind::Logical(_) => Ok(Type::Logical),
            ExprKind::Bits(_) => Ok(Type::Bits),
            ExprKind::Null(name) => {
                self.class(e.at, *name)?;
                Ok(Type::Reference(*name))
            }
            ExprKind::Variable(name) => match self.find(*name) {
                None => refuse(3, e.at),
                Some(Meaning::Variable(ty)) => Ok(ty),
                Some(Meaning::Control) => Ok(Type::Integer),
                Some(_) => refuse(4, e.at),
            },
            ExprKind::Function(name, arguments) => match self.call(e.at, *name, arguments)? {
                Some(result) => Ok(result),
                // "45 of a proper one ...: 4 at that entry"
                None => refuse(4, e.at),
            },
            ExprKind::Field(name, reference) => {
                let given = self.expression(reference)?;
                match self.find(*name) {
                    None => refuse(3, e.at),
                    // "the operand's type is the owning class's, else 4 at the 46"
                    Some(Meaning::Field(class, ty)) if given == Type::Reference(class.name) => Ok(ty),
                    Some(_) => refuse(4, e.at),
                }
            }
            ExprKind::Record(name, values) => {
                let given = self.expressions(values)?;
                let class = self.class(e.at, *name)?;
                let asked: Vec<Type> = class.fields.iter().map(|f| f.ty).collect();
                demand(given == asked, e.at)?;
                Ok(Type::Reference(*name))
            }
            ExprKind::Unary(operator, x) => {
                let x = self.expression(x)?;
                match unary_type(*operator, x) {
                    Some(ty) => Ok(ty),
                    None => refuse(4, e.at),
                }
            }
            ExprKind::Binary(operator, x, y) => {
                let x = self.expression(x)?;
                let y = self.expression(y)?;
                match binary_type(*operator, x, y) {
                    Some(ty) => Ok(ty),
                    None => refuse(4, e.at),
                }
            }
            ExprKind::If(test, then, other) => {
                let test = self.expression(test)?;
                let then = self.expression(then)?;
                let other = self.expression(other)?;
                demand(test == Type::Logical && then == other, e.at)?;
                Ok(then)
            }
            ExprKind::Fader(x) => {
                let x = self.expression(x)?;
                demand(x == Type::Integer, e.at)?;
                Ok(Type::Integer)
            }
            ExprKind::Block(block, value) => self.block_expression(block, value, Heading::Nothing),
        }
    }
}

/// 4 at the entry unless it is as asked.
fn demand(as_asked: bool, at: usize) -> Result<(), Refusal> {
    if as_asked {
        Ok(())
    } else {
        refuse(4, at)
    }
}
