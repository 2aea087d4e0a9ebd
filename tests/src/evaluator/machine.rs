//! The plain machine of paper 01, "Running": one step at a time on a decoded macro, every
//! value with its type, every way to be stuck named. Nothing here calls the loading check.

use super::answer::{is_stop, Answer, Event, Item, Refusal};
use super::code::{byte_of_type, type_of_byte, Macro};
use super::values::{binary, fader_range, initial, is_binary, is_unary, set_range, unary, Trouble, Type, Value};

/// "activations from the root up: body, address, cells, working stack, holds, each value
/// with its type"
#[derive(Clone, Debug, PartialEq)]
pub struct Activation {
    pub body: usize,
    pub address: usize,
    pub cells: Vec<Value>,
    pub stack: Vec<Value>,
    pub holds: Vec<u8>,
}

#[derive(Clone, Debug, PartialEq)]
pub struct Record {
    pub class: u8,
    pub fields: Vec<Value>,
}

/// "It keeps records, a condition or end once reached, and activations".
#[derive(Clone, Debug, PartialEq)]
pub enum State {
    Running { records: Vec<Record>, activations: Vec<Activation> },
    /// The condition, and the holds still open, the first taken first.
    Releasing { condition: u8, holds: Vec<u8> },
    Ended { code: u8 },
}

/// The ways to be stuck.
#[derive(Clone, Copy, Debug, PartialEq)]
pub enum Stuck {
    /// "the address is outside its body, or the op there is not allowed in that body"
    NoNextStep,
    /// "an operand, cell, field or result is not as the op asks"
    Type,
    /// "13 or 14 works on another class, or a number never made"
    Record,
    /// "a cell, operand or hold is missing, or a body's limit passed"
    Frames,
    /// "at the end, more holds than releases of it were given": seen here as soon as an op 0
    /// or an op 11 would drop an open hold.
    GroupHeld,
}

pub const MOST_ACTIVATIONS: usize = 32;
pub const MOST_RECORDS: usize = 256;
const MOST_CELLS: usize = 32;
const MOST_OPERANDS: usize = 32;
const MOST_HOLDS: usize = 16;

/// "Fresh, it has the root alone, at its first address."
pub fn fresh(m: &Macro) -> State {
    State::Running { records: Vec::new(), activations: vec![new_activation(m, 0, Vec::new())] }
}

/// "(arguments fill its first cells; other cells, and the root's, start as variables do)"
fn new_activation(m: &Macro, body: usize, arguments: Vec<Value>) -> Activation {
    let mut cells = arguments;
    for byte in &m.bodies[body].cells[cells.len()..] {
        let ty = type_of_byte(*byte, m.classes.len()).expect("a read macro's type bytes name types");
        cells.push(initial(ty));
    }
    Activation { body, address: m.bodies[body].first as usize, cells, stack: Vec::new(), holds: Vec::new() }
}

/// What ends a step early.
enum Halt {
    Stuck(Stuck),
    Condition(u8),
}

impl From<Stuck> for Halt {
    fn from(stuck: Stuck) -> Halt {
        Halt::Stuck(stuck)
    }
}

impl From<Trouble> for Halt {
    fn from(trouble: Trouble) -> Halt {
        match trouble {
            Trouble::Type => Halt::Stuck(Stuck::Type),
            Trouble::Condition(number) => Halt::Condition(number),
        }
    }
}

/// One step. What it says, if anything; the state moves. A reading is taken from `read`,
/// which is given the fader's number. An ended state has no step: ask before.
pub fn step(m: &Macro, state: &mut State, read: &mut dyn FnMut(u8) -> u8) -> Result<Option<Item>, Stuck> {
    match state {
        State::Ended { .. } => Err(Stuck::NoNextStep),
        State::Releasing { condition, holds } => {
            // "After a condition's step, each step gives one release, the top's last first,
            // then likewise those below it, and once none is open one more step ends."
            match holds.pop() {
                Some(group) => Ok(Some(Item::Event(Event::Release { group }))),
                None => {
                    *state = State::Ended { code: *condition };
                    Ok(None)
                }
            }
        }
        State::Running { records, activations } => {
            let (item, ended) = match do_op(m, records, activations, read) {
                Ok(done) => done,
                Err(Halt::Stuck(stuck)) => return Err(stuck),
                Err(Halt::Condition(condition)) => {
                    let holds = activations.iter().flat_map(|t| t.holds.clone()).collect();
                    *state = State::Releasing { condition, holds };
                    return Ok(None);
                }
            };
            if ended {
                // "op 0 ends by 0"
                *state = State::Ended { code: 0 };
            }
            Ok(item)
        }
    }
}

fn pop(top: &mut Activation) -> Result<Value, Halt> {
    top.stack.pop().ok_or(Halt::Stuck(Stuck::Frames))
}

fn push(top: &mut Activation, value: Value) -> Result<(), Halt> {
    if top.stack.len() >= MOST_OPERANDS {
        return Err(Stuck::Frames.into());
    }
    top.stack.push(value);
    Ok(())
}

fn pop_integer(top: &mut Activation) -> Result<i32, Halt> {
    match pop(top)? {
        Value::Integer(n) => Ok(n),
        _ => Err(Stuck::Type.into()),
    }
}

fn pop_logical(top: &mut Activation) -> Result<bool, Halt> {
    match pop(top)? {
        Value::Logical(truth) => Ok(truth),
        _ => Err(Stuck::Type.into()),
    }
}

/// The value if it has the type that this byte names.
fn of_type(value: Value, byte: u8) -> Result<Value, Halt> {
    if byte_of_type(value.ty()) == byte {
        Ok(value)
    } else {
        Err(Stuck::Type.into())
    }
}

/// The number of the record that 13 or 14 works on. 22: "field of null".
fn record_of(reference: Value, class: u8, records: &[Record]) -> Result<usize, Halt> {
    match reference {
        Value::Reference { class: own, .. } if own != class as u16 => Err(Stuck::Record.into()),
        Value::Reference { record: None, .. } => Err(Halt::Condition(22)),
        Value::Reference { record: Some(number), .. } => match records.get(number) {
            Some(record) if record.class == class => Ok(number),
            _ => Err(Stuck::Record.into()),
        },
        _ => Err(Stuck::Type.into()),
    }
}

/// "A step does the op at the top's address: it pops operands, pushes the result, and goes on
/// or to a jump's b." What it says, and whether it was the end.
fn do_op(
    m: &Macro,
    records: &mut Vec<Record>,
    activations: &mut Vec<Activation>,
    read: &mut dyn FnMut(u8) -> u8,
) -> Result<(Option<Item>, bool), Halt> {
    let open = activations.len();
    let (body, address) = match activations.last() {
        Some(top) => (top.body, top.address),
        None => return Err(Stuck::Frames.into()),
    };
    if body >= m.bodies.len() || address < m.bodies[body].first as usize || address >= m.body_end(body) {
        return Err(Stuck::NoNextStep.into());
    }
    if m.bodies[body].cells.len() > MOST_CELLS {
        return Err(Stuck::Frames.into());
    }
    let i = m.code[address];
    let mut said = None;
    let mut next = address + 1;
    let (below, top) = activations.split_at_mut(open - 1);
    let top = &mut top[0];
    match i.op {
        0 => {
            if body != 0 || open != 1 {
                return Err(Stuck::NoNextStep.into());
            }
            if !top.holds.is_empty() {
                return Err(Stuck::GroupHeld.into());
            }
            if !top.stack.is_empty() {
                return Err(Stuck::Frames.into());
            }
            return Ok((None, true));
        }
        1 => push(top, Value::Integer(i.b))?,
        2 => match i.b {
            0 | 1 => push(top, Value::Logical(i.b == 1))?,
            _ => return Err(Stuck::Type.into()),
        },
        3 => push(top, Value::Bits(i.b as u32))?,
        4 => {
            if i.a as usize >= m.classes.len() {
                return Err(Stuck::Record.into());
            }
            push(top, initial(Type::Reference(i.a as u16)))?
        }
        5 | 6 => {
            let (types, value) = match i.a {
                0 => (&m.bodies[body].cells, if i.op == 6 { Some(pop(top)?) } else { None }),
                1 => (&m.bodies[0].cells, if i.op == 6 { Some(pop(top)?) } else { None }),
                _ => return Err(Stuck::NoNextStep.into()),
            };
            if i.b < 0 || i.b as usize >= types.len() {
                return Err(Stuck::Frames.into());
            }
            let byte = types[i.b as usize];
            // The root's cells are the top's own where the root is the top.
            let cells = if i.a == 1 && !below.is_empty() { &mut below[0].cells } else { &mut top.cells };
            if i.b as usize >= cells.len() {
                return Err(Stuck::Frames.into());
            }
            match value {
                Some(value) => cells[i.b as usize] = of_type(value, byte)?,
                None => {
                    let value = of_type(cells[i.b as usize], byte)?;
                    push(top, value)?;
                }
            }
        }
        7 => {
            let operator = i.a as u16;
            let result = if is_unary(operator) {
                let x = pop(top)?;
                unary(operator, x)?
            } else if is_binary(operator) {
                let y = pop(top)?;
                let x = pop(top)?;
                binary(operator, x, y)?
            } else {
                return Err(Stuck::NoNextStep.into());
            };
            push(top, result)?;
        }
        8 | 9 => {
            let goes = i.op == 8 || !pop_logical(top)?;
            if goes {
                if i.b < 0 {
                    return Err(Stuck::NoNextStep.into());
                }
                next = i.b as usize;
            }
        }
        10 => {
            if i.b < 1 || i.b as usize >= m.bodies.len() {
                return Err(Stuck::NoNextStep.into());
            }
            let called = &m.bodies[i.b as usize];
            let mut arguments = Vec::new();
            for k in (0..called.parameters as usize).rev() {
                arguments.push(of_type(pop(top)?, called.cells[k])?);
            }
            arguments.reverse();
            // 26: "33rd open activation, the root counting 1"
            if open == MOST_ACTIVATIONS {
                return Err(Halt::Condition(26));
            }
            // "A waiting activation stands at its call op itself, arguments taken".
            let new = new_activation(m, i.b as usize, arguments);
            activations.push(new);
            return Ok((None, false));
        }
        11 => {
            // "A call waits until a return drops the activation above and hands the result down."
            if body == 0 || below.is_empty() {
                return Err(Stuck::NoNextStep.into());
            }
            if !top.holds.is_empty() {
                return Err(Stuck::GroupHeld.into());
            }
            let caller = below.last_mut().unwrap();
            if m.bodies[body].result != 0 {
                let result = of_type(pop(top)?, m.bodies[body].result)?;
                push(caller, result)?;
            }
            if !top.stack.is_empty() {
                return Err(Stuck::Frames.into());
            }
            caller.address += 1;
            activations.pop();
            return Ok((None, false));
        }
        12 => {
            let types = m.classes.get(i.a as usize).ok_or(Stuck::Record)?;
            let mut fields = Vec::new();
            for byte in types.iter().rev() {
                fields.push(of_type(pop(top)?, *byte)?);
            }
            fields.reverse();
            // 27: "257th record made"
            if records.len() == MOST_RECORDS {
                return Err(Halt::Condition(27));
            }
            records.push(Record { class: i.a, fields });
            push(top, Value::Reference { class: i.a as u16, record: Some(records.len() - 1) })?;
        }
        13 => {
            let reference = pop(top)?;
            let record = record_of(reference, i.a, records)?;
            let types = m.classes.get(i.a as usize).ok_or(Stuck::Record)?;
            if i.b < 0 || i.b as usize >= types.len() || i.b as usize >= records[record].fields.len() {
                return Err(Stuck::Frames.into());
            }
            let value = of_type(records[record].fields[i.b as usize], types[i.b as usize])?;
            push(top, value)?;
        }
        14 => {
            let value = pop(top)?;
            let reference = pop(top)?;
            let types = m.classes.get(i.a as usize).ok_or(Stuck::Record)?;
            if i.b < 0 || i.b as usize >= types.len() {
                return Err(Stuck::Frames.into());
            }
            let value = of_type(value, types[i.b as usize])?;
            let record = record_of(reference, i.a, records)?;
            records[record].fields[i.b as usize] = value;
        }
        15 => {
            let level = pop_integer(top)?;
            let channel = pop_integer(top)?;
            let (channel, level) = set_range(channel, level)?;
            said = Some(Item::Event(Event::Set { channel, level }));
        }
        16 => {
            let fader = fader_range(pop_integer(top)?)?;
            let value = read(fader);
            push(top, Value::Integer(value as i32))?;
            said = Some(Item::Reading { fader, value });
        }
        17 => {
            if !(0..=63).contains(&i.b) {
                return Err(Stuck::NoNextStep.into());
            }
            if top.holds.len() >= MOST_HOLDS {
                return Err(Stuck::Frames.into());
            }
            top.holds.push(i.b as u8);
            said = Some(Item::Event(Event::Hold { group: i.b as u8 }));
        }
        18 => {
            let group = top.holds.pop().ok_or(Stuck::Frames)?;
            said = Some(Item::Event(Event::Release { group }));
        }
        19 => {
            // 23: "assert false"
            if !pop_logical(top)? {
                return Err(Halt::Condition(23));
            }
        }
        20 if is_stop(i.a) => return Err(Halt::Condition(i.a)),
        _ => return Err(Stuck::NoNextStep.into()),
    }
    top.address = next;
    Ok((said, false))
}

/// "A run takes macro, state, 64 reading bytes and an allowance (0 to 65,535)." The refusals
/// 8, 9 and 10 are tested elsewhere; 11 here.
pub fn run(m: &Macro, state: &mut State, readings: &[u8], allowance: u16) -> Result<Answer, Stuck> {
    Ok(run_counted(m, state, readings, allowance)?.0)
}

/// A run's answer and, beside it, how many readings its steps took (paper 02, ticket 4).
pub fn run_counted(m: &Macro, state: &mut State, readings: &[u8], allowance: u16) -> Result<(Answer, u16), Stuck> {
    if readings.len() != 64 {
        return Ok((Answer::Refusal(Refusal { number: 11, place: 0 }), 0));
    }
    // "An ended state gives its end again with 0 steps."
    if let State::Ended { code } = state {
        return Ok((Answer::End { steps: 0, code: *code }, 0));
    }
    // "A run returns after the step that gives an event or ends, counting it, else with
    // "allowance used" and steps equal to the allowance."
    let mut steps = 0;
    let mut taken = 0;
    while steps < allowance {
        // "op 16 reads fader n in the n-th of its run's 64 bytes"
        let item = step(m, state, &mut |fader| readings[fader as usize - 1])?;
        steps += 1;
        match item {
            Some(Item::Event(event)) => return Ok((Answer::Event { steps, event }, taken)),
            Some(Item::Reading { .. }) => taken += 1,
            None => {}
        }
        if let State::Ended { code } = state {
            return Ok((Answer::End { steps, code: *code }, taken));
        }
    }
    Ok((Answer::AllowanceUsed { steps }, taken))
}
