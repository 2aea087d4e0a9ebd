//! Executing a tree by names and blocks, as paper 01 says under "How the tree runs" and
//! document 000 in section 7. Nothing is compiled: a variable is looked up in the blocks
//! that are open, a goto leaves blocks until it stands in the one that has the label.

use std::collections::HashMap;

use super::answer::{Event, Item};
use super::table::*;
use super::values::{binary, fader_range, initial, set_range, settle, unary, Trouble, Type, Value};

/// Where an execution is left, if it has not ended by then.
#[derive(Clone, Copy, Debug)]
pub struct Budget {
    /// The most fuel.
    pub fuel: u64,
    /// The most fuel along one line (see `Execution::line`).
    pub line: u64,
    /// The most items.
    pub items: usize,
}

pub fn budget(fuel: u64) -> Budget {
    Budget { fuel, line: u64::MAX, items: usize::MAX }
}

#[derive(Clone, Debug, PartialEq)]
pub struct Execution {
    pub items: Vec<Item>,
    /// 0 or a condition; None where it was still going.
    pub end: Option<u8>,
    /// 1 + loop rounds and turns after the first + caught gotos + calls, all in all.
    pub fuel: u64,
    /// The same counted along the line of what is not yet finished: rounds of a loop that is
    /// over, and calls that have returned, no longer count. The most that was reached.
    pub line: u64,
}

impl Execution {
    /// The items without the readings.
    pub fn events(&self) -> Vec<Event> {
        let event = |item: &Item| match item {
            Item::Event(event) => Some(*event),
            Item::Reading { .. } => None,
        };
        self.items.iter().filter_map(event).collect()
    }
}

/// What a statement leaves: execution goes on behind it, or a goto is on its way.
enum Flow {
    Next,
    Goto(Name),
}

/// Why execution stops.
enum Stop {
    Condition(u8),
    Budget,
}

impl From<Trouble> for Stop {
    fn from(trouble: Trouble) -> Stop {
        match trouble {
            Trouble::Condition(number) => Stop::Condition(number),
            Trouble::Type => unreachable!("an accepted table has no wrong type"),
        }
    }
}

/// The variables of the blocks that an activation has open, the innermost last.
struct Activation {
    blocks: Vec<HashMap<Name, Value>>,
}

struct Record {
    fields: Vec<Value>,
}

struct Executor<'t, 'o> {
    procedures: HashMap<Name, &'t Procedure>,
    /// The position of each field in its class.
    fields: HashMap<Name, usize>,
    oracle: &'o mut dyn FnMut(usize, u8) -> u8,
    /// The root's first.
    activations: Vec<Activation>,
    records: Vec<Record>,
    /// All open holds, the first taken first.
    open: Vec<u8>,
    items: Vec<Item>,
    readings: usize,
    budget: Budget,
    fuel: u64,
    line: u64,
    longest_line: u64,
}

/// "33rd open activation, the root counting 1"; "257th record made"
pub const MOST_ACTIVATIONS: usize = 32;
pub const MOST_RECORDS: usize = 256;

/// Executes an accepted tree. The oracle gives the k-th reading of the execution (k from 0)
/// of fader n. Calls itself deeply: give it a large stack.
pub fn execute(tree: &Tree, oracle: &mut dyn FnMut(usize, u8) -> u8, budget: Budget) -> Execution {
    let mut procedures = HashMap::new();
    let mut fields = HashMap::new();
    for d in &tree.root.head {
        match &d.kind {
            DeclKind::Procedure(p) => {
                procedures.insert(p.name, p);
            }
            DeclKind::Class(class) => {
                for (position, f) in class.fields.iter().enumerate() {
                    fields.insert(f.name, position);
                }
            }
            _ => {}
        }
    }
    let mut executor = Executor {
        procedures,
        fields,
        oracle,
        activations: vec![Activation { blocks: Vec::new() }],
        records: Vec::new(),
        open: Vec::new(),
        items: Vec::new(),
        readings: 0,
        budget,
        fuel: 1,
        line: 1,
        longest_line: 1,
    };
    let end = match executor.block(&tree.root) {
        Ok(Flow::Next) => Some(0),
        Ok(Flow::Goto(_)) => unreachable!("a goto reaches a label of its body"),
        Err(Stop::Condition(number)) => {
            // "A condition (20 to 27) stops execution, releases every open hold, last first,
            // and ends."; so does 28.
            while let Some(group) = executor.open.pop() {
                executor.items.push(Item::Event(Event::Release { group }));
            }
            Some(number)
        }
        Err(Stop::Budget) => None,
    };
    Execution { items: executor.items, end, fuel: executor.fuel, line: executor.longest_line }
}

impl<'t> Executor<'t, '_> {
    fn say(&mut self, item: Item) -> Result<(), Stop> {
        self.items.push(item);
        if self.items.len() > self.budget.items {
            return Err(Stop::Budget);
        }
        Ok(())
    }

    /// One more round, turn, caught goto or call.
    fn spend(&mut self) -> Result<(), Stop> {
        self.fuel += 1;
        self.line += 1;
        self.longest_line = self.longest_line.max(self.line);
        if self.fuel > self.budget.fuel || self.line > self.budget.line {
            return Err(Stop::Budget);
        }
        Ok(())
    }

    fn activation(&mut self) -> &mut Activation {
        self.activations.last_mut().unwrap()
    }

    /// "Names follow section 3 of 000: innermost block first"; "a procedure sees its own names
    /// and the root's", that is, those of the root's block.
    fn cell(&mut self, name: Name) -> &mut Value {
        let own = self.activations.len() - 1;
        let found = self.activations[own].blocks.iter().rposition(|block| block.contains_key(&name));
        let (activation, block) = match found {
            Some(block) => (own, block),
            None => (0, 0),
        };
        self.activations[activation].blocks[block].get_mut(&name).expect("an accepted table's names are defined")
    }

    // Blocks.

    /// "Variables of a block start at 0, false, #0 or null each time the block is entered."
    /// "Holds are taken in order when a block is entered". How many holds were taken.
    fn enter(&mut self, block: &'t Block) -> Result<usize, Stop> {
        let mut variables = HashMap::new();
        let mut holds = 0;
        for d in &block.head {
            match &d.kind {
                DeclKind::Variable(v) => {
                    variables.insert(v.name, initial(v.ty));
                }
                DeclKind::Hold(group) => {
                    self.open.push(*group);
                    self.say(Item::Event(Event::Hold { group: *group }))?;
                    holds += 1;
                }
                DeclKind::Class(_) | DeclKind::Procedure(_) => {}
            }
        }
        self.activation().blocks.push(variables);
        Ok(holds)
    }

    /// "and released last first on every way out"
    fn leave(&mut self, holds: usize) -> Result<(), Stop> {
        for _ in 0..holds {
            let group = self.open.pop().unwrap();
            self.say(Item::Event(Event::Release { group }))?;
        }
        self.activation().blocks.pop();
        Ok(())
    }

    fn block(&mut self, block: &'t Block) -> Result<Flow, Stop> {
        let line = self.line;
        let holds = self.enter(block)?;
        let flow = self.statements(block)?;
        self.leave(holds)?;
        self.line = line;
        Ok(flow)
    }

    /// The statements of a block in order. A goto to a label of this block is caught here and
    /// goes on behind the label; "It leaves exactly the blocks that do not contain the label."
    fn statements(&mut self, block: &'t Block) -> Result<Flow, Stop> {
        let mut next = 0;
        while next < block.statements.len() {
            match self.statement(&block.statements[next])? {
                Flow::Next => next += 1,
                Flow::Goto(name) => {
                    let label = block.statements.iter().position(|s| matches!(s.kind, StmtKind::Label(l) if l == name));
                    match label {
                        Some(place) => {
                            self.spend()?;
                            next = place + 1;
                        }
                        None => return Ok(Flow::Goto(name)),
                    }
                }
            }
        }
        Ok(Flow::Next)
    }

    // Statements.

    fn statement(&mut self, s: &'t Stmt) -> Result<Flow, Stop> {
        match &s.kind {
            StmtKind::Block(block) => return self.block(block),
            StmtKind::Label(_) => {}
            StmtKind::Assign(target, value) => self.assign(target, value)?,
            StmtKind::If(test, then) => {
                if self.test(test)? {
                    return self.statement(then);
                }
            }
            StmtKind::IfElse(test, then, other) => {
                if self.test(test)? {
                    return self.statement(then);
                }
                return self.statement(other);
            }
            StmtKind::While(test, body) => {
                let line = self.line;
                while self.test(test)? {
                    match self.statement(body)? {
                        Flow::Next => self.spend()?,
                        Flow::Goto(name) => {
                            self.line = line;
                            return Ok(Flow::Goto(name));
                        }
                    }
                }
                self.line = line;
            }
            StmtKind::Goto(name) => return Ok(Flow::Goto(*name)),
            StmtKind::Assert(test) => {
                // 23: "assert false"
                if !self.test(test)? {
                    return Err(Stop::Condition(23));
                }
            }
            StmtKind::Call(name, arguments) => {
                self.call(*name, arguments)?;
            }
            StmtKind::Set(channel, level) => {
                let channel = self.integer(channel)?;
                let level = self.integer(level)?;
                let (channel, level) = set_range(channel, level)?;
                self.say(Item::Event(Event::Set { channel, level }))?;
            }
            StmtKind::Case(index, arms) => {
                // 24: "case index not 1 to a"
                let index = self.integer(index)?;
                if index < 1 || index as i64 > arms.len() as i64 {
                    return Err(Stop::Condition(24));
                }
                return self.statement(&arms[index as usize - 1]);
            }
            StmtKind::For(f) => return self.turns(f),
        }
        Ok(Flow::Next)
    }

    /// "The three are evaluated once, in that order." Then the statement is executed for one value
    /// after the other, each time in a block of its own that has the control name.
    fn turns(&mut self, f: &'t For) -> Result<Flow, Stop> {
        let start = self.integer(&f.start)? as i64;
        let step = self.integer(&f.step)? as i64;
        let limit = self.integer(&f.limit)? as i64;
        // 28: "step zero, found after the limit"
        if step == 0 {
            return Err(Stop::Condition(28));
        }
        // "The index N of the last statement is determined by N < (E3 - E1)/E2 < N + 1. If N < 0,
        // then it is understood that the sequence is empty." (000, 7.8.1) The first sign is read as
        // <=, since no N fits a whole quotient otherwise.
        let last = ((limit - start) * step.signum()).div_euclid(step.abs());
        let line = self.line;
        for index in 0..=last {
            // "every occurrence of the control identifier is replaced by the value of the expression
            // (E1 + I x E2)": between start and limit, and so within 32 bits
            let value = start + index * step;
            self.activation().blocks.push(HashMap::from([(f.control, Value::Integer(value as i32))]));
            let flow = self.statement(&f.body)?;
            self.activation().blocks.pop();
            if let Flow::Goto(_) = flow {
                self.line = line;
                return Ok(flow);
            }
            // "A loop whose next value would pass the 32-bit range ends there without a condition."
            if settle(value + step).is_ok() {
                self.spend()?;
            }
        }
        self.line = line;
        Ok(Flow::Next)
    }

    /// "a target's reference before the value, and a null target ends by 22 after the value"
    fn assign(&mut self, target: &'t Expr, value: &'t Expr) -> Result<(), Stop> {
        match &target.kind {
            ExprKind::Variable(name) => {
                let value = self.expression(value)?;
                *self.cell(*name) = value;
            }
            ExprKind::Field(name, reference) => {
                let reference = self.expression(reference)?;
                let value = self.expression(value)?;
                let record = self.record(reference)?;
                let position = self.fields[name];
                self.records[record].fields[position] = value;
            }
            _ => unreachable!("a target is a variable or a field"),
        }
        Ok(())
    }

    /// 22: "field of null"
    fn record(&self, reference: Value) -> Result<usize, Stop> {
        match reference {
            Value::Reference { record: Some(record), .. } => Ok(record),
            Value::Reference { record: None, .. } => Err(Stop::Condition(22)),
            _ => unreachable!("an accepted table has no wrong type"),
        }
    }

    /// Arguments from left to right, then 26, then the body. The result of a function.
    fn call(&mut self, name: Name, arguments: &'t [Expr]) -> Result<Option<Value>, Stop> {
        let mut values = Vec::new();
        for e in arguments {
            values.push(self.expression(e)?);
        }
        let line = self.line;
        self.spend()?;
        if self.activations.len() == MOST_ACTIVATIONS {
            return Err(Stop::Condition(26));
        }
        let p = self.procedures[&name];
        let mut parameters = HashMap::new();
        for (v, value) in p.parameters.iter().zip(values) {
            parameters.insert(v.name, value);
        }
        self.activations.push(Activation { blocks: vec![parameters] });
        let result = match &p.body {
            Body::Statement(s) => match self.statement(s)? {
                Flow::Next => None,
                Flow::Goto(_) => unreachable!("a goto reaches a label of its body"),
            },
            Body::Expression(_, e) => Some(self.expression(e)?),
        };
        self.activations.pop();
        self.line = line;
        Ok(result)
    }

    // Expressions.

    fn test(&mut self, e: &'t Expr) -> Result<bool, Stop> {
        match self.expression(e)? {
            Value::Logical(truth) => Ok(truth),
            _ => unreachable!("an accepted table has no wrong type"),
        }
    }

    fn integer(&mut self, e: &'t Expr) -> Result<i32, Stop> {
        match self.expression(e)? {
            Value::Integer(n) => Ok(n),
            _ => unreachable!("an accepted table has no wrong type"),
        }
    }

    /// "Operands are evaluated left to right".
    fn expression(&mut self, e: &'t Expr) -> Result<Value, Stop> {
        match &e.kind {
            ExprKind::Integer(n) => Ok(Value::Integer(*n)),
            ExprKind::Logical(truth) => Ok(Value::Logical(*truth)),
            ExprKind::Bits(bits) => Ok(Value::Bits(*bits)),
            ExprKind::Null(class) => Ok(initial(Type::Reference(*class))),
            ExprKind::Variable(name) => Ok(*self.cell(*name)),
            ExprKind::Function(name, arguments) => Ok(self.call(*name, arguments)?.expect("a function has a result")),
            ExprKind::Field(name, reference) => {
                let reference = self.expression(reference)?;
                let record = self.record(reference)?;
                Ok(self.records[record].fields[self.fields[name]])
            }
            ExprKind::Record(class, values) => {
                let mut fields = Vec::new();
                for value in values {
                    fields.push(self.expression(value)?);
                }
                // 27: "257th record made", after its values
                if self.records.len() == MOST_RECORDS {
                    return Err(Stop::Condition(27));
                }
                self.records.push(Record { fields });
                Ok(Value::Reference { class: *class, record: Some(self.records.len() - 1) })
            }
            ExprKind::Unary(operator, x) => {
                let x = self.expression(x)?;
                Ok(unary(*operator, x)?)
            }
            ExprKind::Binary(operator, x, y) => {
                let x = self.expression(x)?;
                // "Logical `X and Y` is Y only where X is true, and `or` likewise."
                match (operator, x) {
                    (12, Value::Logical(false)) => return Ok(Value::Logical(false)),
                    (13, Value::Logical(true)) => return Ok(Value::Logical(true)),
                    _ => {}
                }
                let y = self.expression(y)?;
                Ok(binary(*operator, x, y)?)
            }
            ExprKind::If(test, then, other) => {
                if self.test(test)? {
                    self.expression(then)
                } else {
                    self.expression(other)
                }
            }
            ExprKind::Fader(x) => {
                let fader = fader_range(self.integer(x)?)?;
                let value = (self.oracle)(self.readings, fader);
                self.readings += 1;
                self.say(Item::Reading { fader, value })?;
                Ok(Value::Integer(value as i32))
            }
            ExprKind::Block(block, value) => {
                // "its E is evaluated inside the block, then the holds are let go, then the
                // value is handed over"
                let line = self.line;
                let holds = self.enter(block)?;
                match self.statements(block)? {
                    Flow::Next => {}
                    Flow::Goto(_) => unreachable!("no goto leaves a block expression"),
                }
                let value = self.expression(value)?;
                self.leave(holds)?;
                self.line = line;
                Ok(value)
            }
        }
    }
}
