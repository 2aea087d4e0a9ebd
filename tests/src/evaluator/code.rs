//! The compiled macro: its records, reading them (refusal 8), the loading rules (refusal 9),
//! and writing a macro from its parts. Knows nothing of tables.

use std::collections::HashMap;

use super::answer::{is_stop, refuse, Refusal};
use super::values::{binary_type, is_binary, is_unary, unary_type, Type};

/// "a body's limits": 32 cells, 16 holds, 32 operands.
pub const MOST_CELLS: usize = 32;
pub const MOST_HOLDS: usize = 16;
pub const MOST_OPERANDS: usize = 32;

/// "IN: op u8, a u8, b 32 bits."
#[derive(Clone, Copy, Debug, PartialEq, Eq)]
pub struct Instr {
    pub op: u8,
    pub a: u8,
    pub b: i32,
}

/// "BD: first address u16, parameters u8, result u8 (0 or a type), cells u8, cell types."
#[derive(Clone, Debug, PartialEq, Eq)]
pub struct Body {
    pub first: u16,
    pub parameters: u8,
    pub result: u8,
    pub cells: Vec<u8>,
}

/// "SH: address u16, holds u8, depth u8, types from the bottom."
#[derive(Clone, Debug, PartialEq, Eq)]
pub struct Shape {
    pub address: u16,
    pub holds: u8,
    pub types: Vec<u8>,
}

#[derive(Clone, Debug, PartialEq, Eq)]
pub struct Macro {
    pub classes: Vec<Vec<u8>>,
    pub bodies: Vec<Body>,
    pub code: Vec<Instr>,
    pub shapes: Vec<Shape>,
}

impl Macro {
    /// The address after the last of a body.
    pub fn body_end(&self, body: usize) -> usize {
        match self.bodies.get(body + 1) {
            Some(next) => next.first as usize,
            None => self.code.len(),
        }
    }
}

/// "A type byte is 1, 2, 3, or 16 + class number."
pub fn type_of_byte(byte: u8, classes: usize) -> Option<Type> {
    match byte {
        1 => Some(Type::Integer),
        2 => Some(Type::Logical),
        3 => Some(Type::Bits),
        _ if byte >= 16 && ((byte - 16) as usize) < classes => Some(Type::Reference((byte - 16) as u16)),
        _ => None,
    }
}

pub fn byte_of_type(ty: Type) -> u8 {
    match ty {
        Type::Integer => 1,
        Type::Logical => 2,
        Type::Bits => 3,
        Type::Reference(class) => 16 + class as u8,
    }
}

// Writing.

/// The bytes of a macro, its records in the order given. "Order: HD, CL, BD, IN by address", SH "by rising address" (paper 02, ticket 10), ZZ.
pub fn write_macro(m: &Macro) -> Vec<u8> {
    let mut out = Vec::new();
    for record in write_records(m) {
        out.extend_from_slice(&record);
    }
    out
}

/// The same, record by record.
pub fn write_records(m: &Macro) -> Vec<Vec<u8>> {
    let mut records = Vec::new();
    let mut head = b"HD".to_vec();
    head.push(m.classes.len() as u8);
    head.push(m.bodies.len() as u8);
    head.extend_from_slice(&(m.code.len() as u16).to_le_bytes());
    head.extend_from_slice(&(m.shapes.len() as u16).to_le_bytes());
    records.push(head);
    for fields in &m.classes {
        let mut r = b"CL".to_vec();
        r.push(fields.len() as u8);
        r.extend_from_slice(fields);
        records.push(r);
    }
    for body in &m.bodies {
        let mut r = b"BD".to_vec();
        r.extend_from_slice(&body.first.to_le_bytes());
        r.push(body.parameters);
        r.push(body.result);
        r.push(body.cells.len() as u8);
        r.extend_from_slice(&body.cells);
        records.push(r);
    }
    for i in &m.code {
        let mut r = b"IN".to_vec();
        r.push(i.op);
        r.push(i.a);
        r.extend_from_slice(&i.b.to_le_bytes());
        records.push(r);
    }
    for s in &m.shapes {
        let mut r = b"SH".to_vec();
        r.extend_from_slice(&s.address.to_le_bytes());
        r.push(s.holds);
        r.push(s.types.len() as u8);
        r.extend_from_slice(&s.types);
        records.push(r);
    }
    records.push(b"ZZ".to_vec());
    records
}

// Reading (8).

struct Bytes<'a> {
    rest: &'a [u8],
    /// The number of the record that is being read; the place of 8.
    record: usize,
}

impl Bytes<'_> {
    fn cut<T>(&self) -> Result<T, Refusal> {
        refuse(8, self.record)
    }

    fn u8(&mut self) -> Result<u8, Refusal> {
        match self.rest.split_first() {
            Some((byte, rest)) => {
                self.rest = rest;
                Ok(*byte)
            }
            None => self.cut(),
        }
    }

    fn u16(&mut self) -> Result<u16, Refusal> {
        let low = self.u8()?;
        let high = self.u8()?;
        Ok(u16::from_le_bytes([low, high]))
    }

    fn b32(&mut self) -> Result<i32, Refusal> {
        let mut word = [0; 4];
        for byte in &mut word {
            *byte = self.u8()?;
        }
        Ok(i32::from_le_bytes(word))
    }

    fn mark(&mut self, mark: &[u8; 2]) -> Result<(), Refusal> {
        if self.u8()? != mark[0] || self.u8()? != mark[1] {
            return self.cut();
        }
        Ok(())
    }

    /// `count` type bytes, each naming a type of a macro with this many classes.
    fn types(&mut self, count: u8, classes: usize) -> Result<Vec<u8>, Refusal> {
        let mut types = Vec::new();
        for _ in 0..count {
            let byte = self.u8()?;
            if type_of_byte(byte, classes).is_none() {
                return self.cut();
            }
            types.push(byte);
        }
        Ok(types)
    }
}

/// "Refusal 8 covers marks, order, lengths, a second SH, counts (1 to 64 bodies, 16 classes,
/// 1 to 8 fields), and a type byte, parameter count over the cells, first address not rising
/// from 0, or first or SH address that names nothing"; and SH records that do not "come by rising address" (paper 02, ticket 10). The
/// place is the record's number.
pub fn read_macro(bytes: &[u8]) -> Result<Macro, Refusal> {
    let mut r = Bytes { rest: bytes, record: 0 };
    r.mark(b"HD")?;
    let classes = r.u8()? as usize;
    let bodies = r.u8()? as usize;
    let instructions = r.u16()? as usize;
    let shapes = r.u16()? as usize;
    if classes > 16 || !(1..=64).contains(&bodies) {
        return r.cut();
    }
    let mut m = Macro { classes: Vec::new(), bodies: Vec::new(), code: Vec::new(), shapes: Vec::new() };
    for _ in 0..classes {
        r.record += 1;
        r.mark(b"CL")?;
        let fields = r.u8()?;
        if !(1..=8).contains(&fields) {
            return r.cut();
        }
        m.classes.push(r.types(fields, classes)?);
    }
    for number in 0..bodies {
        r.record += 1;
        r.mark(b"BD")?;
        let first = r.u16()?;
        let parameters = r.u8()?;
        let result = r.u8()?;
        let cell_count = r.u8()?;
        let cells = r.types(cell_count, classes)?;
        // "first addresses rise from 0" and each names an instruction
        let rising = if number == 0 { first == 0 } else { first > m.bodies[number - 1].first };
        if !rising || first as usize >= instructions {
            return r.cut();
        }
        if result != 0 && type_of_byte(result, classes).is_none() {
            return r.cut();
        }
        if parameters > cell_count {
            return r.cut();
        }
        m.bodies.push(Body { first, parameters, result, cells });
    }
    for _ in 0..instructions {
        r.record += 1;
        r.mark(b"IN")?;
        let op = r.u8()?;
        let a = r.u8()?;
        let b = r.b32()?;
        m.code.push(Instr { op, a, b });
    }
    for _ in 0..shapes {
        r.record += 1;
        r.mark(b"SH")?;
        let address = r.u16()?;
        let holds = r.u8()?;
        let depth = r.u8()?;
        let types = r.types(depth, classes)?;
        // "refused by 8 at the first SH out of order"; a second SH at one address does not rise
        let rising = m.shapes.last().is_none_or(|before| address > before.address);
        if !rising || address as usize >= instructions {
            return r.cut();
        }
        m.shapes.push(Shape { address, holds, types });
    }
    r.record += 1;
    r.mark(b"ZZ")?;
    // "bytes after ZZ the index after ZZ"
    r.record += 1;
    if !r.rest.is_empty() {
        return r.cut();
    }
    Ok(m)
}

// Loading (9).

/// What the loading check finds before the op at an address: how many holds are open in
/// this activation, and the types on the working stack, from the bottom.
#[derive(Clone, Debug, PartialEq, Eq)]
pub struct Found {
    pub holds: usize,
    pub types: Vec<u8>,
}

/// A macro that passed, with what was found at every address.
#[derive(Clone, Debug)]
pub struct Loaded {
    pub code: Macro,
    pub found: Vec<Found>,
}

/// 8, then 9.
pub fn judge_macro(bytes: &[u8]) -> Result<Loaded, Refusal> {
    let code = read_macro(bytes)?;
    let found = judge_rules(&code)?;
    Ok(Loaded { code, found })
}

/// What one op does to the state found, or that it breaks a rule.
struct Broken;

/// "every other fault is 9, at the lowest address that has one: the op that breaks a rule,
/// the SH, or its body's first address". Addresses are judged as they rise, so the first
/// fault met is at the lowest.
pub fn judge_rules(m: &Macro) -> Result<Vec<Found>, Refusal> {
    let mut shapes: HashMap<usize, Found> = HashMap::new();
    for s in &m.shapes {
        shapes.insert(s.address as usize, Found { holds: s.holds as usize, types: s.types.clone() });
    }
    let mut all_found = Vec::new();
    for (number, body) in m.bodies.iter().enumerate() {
        let first = body.first as usize;
        let end = m.body_end(number);
        // "Body 0 is the root, without parameters or result"; "more than 32 cells"
        if number == 0 && (body.parameters != 0 || body.result != 0) {
            return refuse(9, first);
        }
        if body.cells.len() > MOST_CELLS {
            return refuse(9, first);
        }
        // "from its first instruction with no holds and nothing on the working stack"
        let mut flows_in = Some(Found { holds: 0, types: Vec::new() });
        for address in first..end {
            // "At an SH the state equals it."
            let found = match (flows_in, shapes.get(&address)) {
                (Some(state), None) => state,
                (None, Some(shape)) => shape.clone(),
                (Some(state), Some(shape)) => {
                    if state != *shape {
                        return refuse(9, address);
                    }
                    state
                }
                // An op 0, 8, 11, 20 without an SH behind it was refused at the op.
                (None, None) => unreachable!(),
            };
            if found.holds > MOST_HOLDS || found.types.len() > MOST_OPERANDS {
                return refuse(9, address);
            }
            all_found.push(found.clone());
            let instr = m.code[address];
            let after = match judge_op(m, number, found, instr, &shapes) {
                Ok(after) => after,
                Err(Broken) => return refuse(9, address),
            };
            // "After ops 0, 8, 11, 20 comes an SH or the body's end"
            let stops = matches!(instr.op, 0 | 8 | 11 | 20);
            if stops {
                if address + 1 < end && !shapes.contains_key(&(address + 1)) {
                    return refuse(9, address);
                }
                flows_in = None;
            } else {
                // "no body runs past its end"
                if address + 1 == end {
                    return refuse(9, address);
                }
                flows_in = Some(after);
            }
        }
    }
    Ok(all_found)
}

/// The working stack as the check follows it.
struct Follow {
    holds: usize,
    types: Vec<u8>,
}

impl Follow {
    fn pop(&mut self) -> Result<u8, Broken> {
        self.types.pop().ok_or(Broken)
    }

    fn pop_type(&mut self, asked: u8) -> Result<(), Broken> {
        if self.pop()? == asked {
            Ok(())
        } else {
            Err(Broken)
        }
    }

    fn push(&mut self, ty: u8) -> Result<(), Broken> {
        if self.types.len() == MOST_OPERANDS {
            return Err(Broken);
        }
        self.types.push(ty);
        Ok(())
    }
}

const INTEGER: u8 = 1;
const LOGICAL: u8 = 2;
const BITS: u8 = 3;

fn rule(kept: bool) -> Result<(), Broken> {
    if kept {
        Ok(())
    } else {
        Err(Broken)
    }
}

/// The ops of paper 01, one by one. "An unknown op is a fault, and an a or b out of range, or
/// unused and not 0."
fn judge_op(m: &Macro, body: usize, found: Found, i: Instr, shapes: &HashMap<usize, Found>) -> Result<Found, Broken> {
    let mut w = Follow { holds: found.holds, types: found.types };
    let classes = m.classes.len();
    let a_unused = rule(i.a == 0);
    let b_unused = rule(i.b == 0);
    match i.op {
        // 0 end: "Op 0 (root only, empty stack)" needs no open holds
        0 => {
            a_unused?;
            b_unused?;
            rule(body == 0 && w.types.is_empty() && w.holds == 0)?;
        }
        // 1, 2, 3 push integer, logical, bits b
        1 => {
            a_unused?;
            w.push(INTEGER)?;
        }
        2 => {
            a_unused?;
            rule(i.b == 0 || i.b == 1)?;
            w.push(LOGICAL)?;
        }
        3 => {
            a_unused?;
            w.push(BITS)?;
        }
        // 4 push null of class a
        4 => {
            b_unused?;
            rule((i.a as usize) < classes)?;
            w.push(16 + i.a)?;
        }
        // 5, 6 push, store cell b (a 0 own, 1 root's)
        5 | 6 => {
            rule(i.a <= 1)?;
            let cells = if i.a == 0 { &m.bodies[body].cells } else { &m.bodies[0].cells };
            rule(i.b >= 0 && (i.b as usize) < cells.len())?;
            let ty = cells[i.b as usize];
            if i.op == 5 {
                w.push(ty)?;
            } else {
                w.pop_type(ty)?;
            }
        }
        // 7 operator a
        7 => {
            b_unused?;
            let operator = i.a as u16;
            let result = if is_unary(operator) {
                let x = w.pop()?;
                unary_type(operator, type_of_byte(x, classes).ok_or(Broken)?)
            } else if is_binary(operator) {
                let y = w.pop()?;
                let x = w.pop()?;
                binary_type(
                    operator,
                    type_of_byte(x, classes).ok_or(Broken)?,
                    type_of_byte(y, classes).ok_or(Broken)?,
                )
            } else {
                None
            };
            w.push(byte_of_type(result.ok_or(Broken)?))?;
        }
        // 8 go to b; 9 go to b if false: "A jump stays in its body and finds an equal SH."
        8 | 9 => {
            a_unused?;
            if i.op == 9 {
                w.pop_type(LOGICAL)?;
            }
            let first = m.bodies[body].first as i64;
            let end = m.body_end(body) as i64;
            rule(first <= i.b as i64 && (i.b as i64) < end)?;
            let here = Found { holds: w.holds, types: w.types.clone() };
            rule(shapes.get(&(i.b as usize)) == Some(&here))?;
        }
        // 10 call body b, not 0 (arguments fill its first cells)
        10 => {
            a_unused?;
            rule(i.b >= 1 && (i.b as usize) < m.bodies.len())?;
            let called = &m.bodies[i.b as usize];
            for k in (0..called.parameters as usize).rev() {
                w.pop_type(called.cells[k])?;
            }
            if called.result != 0 {
                w.push(called.result)?;
            }
        }
        // 11 return: "(procedures only, exactly the result)", no open holds
        11 => {
            a_unused?;
            b_unused?;
            let result = m.bodies[body].result;
            let exactly = if result == 0 { Vec::new() } else { vec![result] };
            rule(body != 0 && w.types == exactly && w.holds == 0)?;
        }
        // 12 make class a
        12 => {
            b_unused?;
            rule((i.a as usize) < classes)?;
            for &ty in m.classes[i.a as usize].iter().rev() {
                w.pop_type(ty)?;
            }
            w.push(16 + i.a)?;
        }
        // 13, 14 push, store field b of class a
        13 | 14 => {
            rule((i.a as usize) < classes)?;
            let fields = &m.classes[i.a as usize];
            rule(i.b >= 0 && (i.b as usize) < fields.len())?;
            let ty = fields[i.b as usize];
            if i.op == 13 {
                w.pop_type(16 + i.a)?;
                w.push(ty)?;
            } else {
                w.pop_type(ty)?;
                w.pop_type(16 + i.a)?;
            }
        }
        // 15 set
        15 => {
            a_unused?;
            b_unused?;
            w.pop_type(INTEGER)?;
            w.pop_type(INTEGER)?;
        }
        // 16 fader
        16 => {
            a_unused?;
            b_unused?;
            w.pop_type(INTEGER)?;
            w.push(INTEGER)?;
        }
        // 17 hold b
        17 => {
            a_unused?;
            rule((0..=63).contains(&i.b))?;
            rule(w.holds < MOST_HOLDS)?;
            w.holds += 1;
        }
        // 18 release: "op 18 needs one"
        18 => {
            a_unused?;
            b_unused?;
            rule(w.holds > 0)?;
            w.holds -= 1;
        }
        // 19 assert
        19 => {
            a_unused?;
            b_unused?;
            w.pop_type(LOGICAL)?;
        }
        // 20 stop by a
        20 => {
            rule(is_stop(i.a))?;
            b_unused?;
        }
        _ => return Err(Broken),
    }
    Ok(Found { holds: w.holds, types: w.types })
}
