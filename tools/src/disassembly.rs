//! A compiled macro as text: its records in order, instructions with their addresses and the names of their ops, each shape before the
//! instruction at its address. Any bytes are taken: where a record does not read, the text says which, at which byte and why, and
//! what was read before it is shown. Whether a macro passes is the loading check's to say; numbers that name nothing are shown as they are.

use std::collections::BTreeMap;
use std::fmt::Write;

/// The text of these bytes, and whether all of them read.
pub fn disassemble(bytes: &[u8]) -> (String, bool) {
    let mut reader = Reader { bytes, at: 0, record: 0 };
    let mut listing = Listing::default();
    let read = reader.records(&mut listing);
    let mut text = listing.text();
    if let Err(why) = &read {
        let Reader { at, record, .. } = reader;
        writeln!(text, "record {record} does not read, at byte {at}: {why}").unwrap();
    }
    (text, read.is_ok())
}

struct Body {
    first: usize,
    parameters: u8,
    result: u8,
    cells: Vec<u8>,
}

struct Instruction {
    op: u8,
    a: u8,
    b: i32,
}

struct Shape {
    holds: u8,
    types: Vec<u8>,
}

/// What has been read.
#[derive(Default)]
struct Listing {
    head: Option<[usize; 4]>,
    classes: Vec<Vec<u8>>,
    bodies: Vec<Body>,
    code: Vec<Instruction>,
    /// By address; there may be several at one.
    shapes: BTreeMap<usize, Vec<Shape>>,
    closed: bool,
}

struct Reader<'b> {
    bytes: &'b [u8],
    at: usize,
    record: usize,
}

impl Reader<'_> {
    fn records(&mut self, listing: &mut Listing) -> Result<(), String> {
        self.mark(b"HD")?;
        let counts = [self.u8()?, self.u8()?, self.u16()?, self.u16()?];
        listing.head = Some(counts);
        let [classes, bodies, instructions, shapes] = counts;
        for _ in 0..classes {
            self.next(b"CL")?;
            let fields = self.u8()?;
            listing.classes.push(self.types(fields)?);
        }
        for _ in 0..bodies {
            self.next(b"BD")?;
            let first = self.u16()?;
            let (parameters, result) = (self.u8()? as u8, self.u8()? as u8);
            let count = self.u8()?;
            let cells = self.types(count)?;
            listing.bodies.push(Body { first, parameters, result, cells });
        }
        for _ in 0..instructions {
            self.next(b"IN")?;
            let (op, a) = (self.u8()? as u8, self.u8()? as u8);
            let (low, high) = (self.u16()?, self.u16()?);
            listing.code.push(Instruction { op, a, b: (high << 16 | low) as u32 as i32 });
        }
        for _ in 0..shapes {
            self.next(b"SH")?;
            let address = self.u16()?;
            let holds = self.u8()? as u8;
            let depth = self.u8()?;
            let types = self.types(depth)?;
            listing.shapes.entry(address).or_default().push(Shape { holds, types });
        }
        self.next(b"ZZ")?;
        listing.closed = true;
        self.record += 1;
        match self.bytes.len() - self.at {
            0 => Ok(()),
            more => Err(format!("{more} bytes follow ZZ")),
        }
    }

    fn next(&mut self, mark: &[u8; 2]) -> Result<(), String> {
        self.record += 1;
        self.mark(mark)
    }

    fn mark(&mut self, mark: &[u8; 2]) -> Result<(), String> {
        let wanted = String::from_utf8_lossy(mark);
        match self.bytes.get(self.at..self.at + 2) {
            Some(found) if found == mark => {
                self.at += 2;
                Ok(())
            }
            Some(found) => Err(format!("the mark {wanted} is asked for, the bytes are {} {}", found[0], found[1])),
            None => Err(format!("the mark {wanted} is asked for, but the macro ends")),
        }
    }

    fn u8(&mut self) -> Result<usize, String> {
        let byte = *self.bytes.get(self.at).ok_or("the macro ends inside the record")?;
        self.at += 1;
        Ok(byte as usize)
    }

    fn u16(&mut self) -> Result<usize, String> {
        Ok(self.u8()? | self.u8()? << 8)
    }

    fn types(&mut self, count: usize) -> Result<Vec<u8>, String> {
        (0..count).map(|_| Ok(self.u8()? as u8)).collect()
    }
}

// Words.

fn type_word(byte: u8) -> String {
    match byte {
        1 => "integer".to_string(),
        2 => "logical".to_string(),
        3 => "bits".to_string(),
        16.. => format!("class {}", byte - 16),
        _ => format!("type {byte}?"),
    }
}

/// Types separated by commas, or this word where there is none.
fn type_words(bytes: &[u8], none: &str) -> String {
    if bytes.is_empty() {
        return none.to_string();
    }
    bytes.iter().map(|byte| type_word(*byte)).collect::<Vec<_>>().join(", ")
}

fn operator_word(number: u8) -> String {
    const BINARY: [&str; 15] = ["+", "-", "*", "div", "rem", "<", "<=", ">", ">=", "=", "not =", "and", "or", "shl", "shr"];
    match number {
        1..=15 => BINARY[number as usize - 1].to_string(),
        20 => "negate".to_string(),
        21 => "abs".to_string(),
        22 => "not".to_string(),
        _ => format!("{number}?"),
    }
}

/// An instruction by the name of its op and what the op uses; as three numbers where the op is unknown or has a number that it does not use.
fn instruction_words(i: &Instruction) -> String {
    let Instruction { op, a, b } = *i;
    let owner = if a == 0 { "own" } else { "root's" };
    match (op, a, b) {
        (0, 0, 0) => "end".to_string(),
        (1, 0, _) => format!("push integer {b}"),
        (2, 0, 0) => "push logical false".to_string(),
        (2, 0, 1) => "push logical true".to_string(),
        (3, 0, _) => format!("push bits #{b:X}"),
        (4, _, 0) => format!("push null of class {a}"),
        (5, 0 | 1, _) => format!("push {owner} cell {b}"),
        (6, 0 | 1, _) => format!("store {owner} cell {b}"),
        (7, _, 0) => format!("operator {}", operator_word(a)),
        (8, 0, _) => format!("go to {b}"),
        (9, 0, _) => format!("go to {b} if false"),
        (10, 0, _) => format!("call body {b}"),
        (11, 0, 0) => "return".to_string(),
        (12, _, 0) => format!("make class {a}"),
        (13, _, _) => format!("push field {b} of class {a}"),
        (14, _, _) => format!("store field {b} of class {a}"),
        (15, 0, 0) => "set".to_string(),
        (16, 0, 0) => "fader".to_string(),
        (17, 0, _) => format!("hold {b}"),
        (18, 0, 0) => "release".to_string(),
        (19, 0, 0) => "assert".to_string(),
        (20, 24 | 28, 0) => format!("stop by {a}"),
        _ => format!("op {op} a {a} b {b}?"),
    }
}

impl Listing {
    fn text(&self) -> String {
        let mut text = String::new();
        if let Some([classes, bodies, instructions, shapes]) = self.head {
            writeln!(text, "HD classes {classes}, bodies {bodies}, instructions {instructions}, shapes {shapes}").unwrap();
        }
        for (number, fields) in self.classes.iter().enumerate() {
            writeln!(text, "CL class {number}: {}", type_words(fields, "no fields")).unwrap();
        }
        for (number, body) in self.bodies.iter().enumerate() {
            let result = if body.result == 0 { "none".to_string() } else { type_word(body.result) };
            let cells = type_words(&body.cells, "none");
            let Body { first, parameters, .. } = body;
            writeln!(text, "BD body {number}: first {first}, parameters {parameters}, result {result}, cells: {cells}").unwrap();
        }
        for (address, instruction) in self.code.iter().enumerate() {
            for (number, body) in self.bodies.iter().enumerate() {
                if body.first == address {
                    writeln!(text, "body {number}:").unwrap();
                }
            }
            self.shapes_at(address, &mut text);
            writeln!(text, "{address:>6}  {}", instruction_words(instruction)).unwrap();
        }
        for address in self.shapes.keys().filter(|address| **address >= self.code.len()) {
            self.shapes_at(*address, &mut text);
        }
        if self.closed {
            writeln!(text, "ZZ").unwrap();
        }
        text
    }

    fn shapes_at(&self, address: usize, text: &mut String) {
        for shape in self.shapes.get(&address).into_iter().flatten() {
            writeln!(text, "    SH {address}: holds {}, stack: {}", shape.holds, type_words(&shape.types, "empty")).unwrap();
        }
    }
}
