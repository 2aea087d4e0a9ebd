//! Values with their types, the operators of kinds 48 and 49 (and of op 7), and the ranges
//! that set and fader test. Arithmetic is exact in 64 bits and then settled into 32.

/// A value carries its type; `class` is a class name in a tree and a class number in code.
#[derive(Clone, Copy, PartialEq, Eq, Debug)]
pub enum Value {
    Integer(i32),
    Logical(bool),
    Bits(u32),
    Reference { class: u16, record: Option<usize> },
}

/// The type of a value, apart from how tables and macros number types.
#[derive(Clone, Copy, PartialEq, Eq, Debug)]
pub enum Type {
    Integer,
    Logical,
    Bits,
    Reference(u16),
}

impl Value {
    pub fn ty(&self) -> Type {
        match *self {
            Value::Integer(_) => Type::Integer,
            Value::Logical(_) => Type::Logical,
            Value::Bits(_) => Type::Bits,
            Value::Reference { class, .. } => Type::Reference(class),
        }
    }
}

/// "Variables of a block start at 0, false, #0 or null".
pub fn initial(ty: Type) -> Value {
    match ty {
        Type::Integer => Value::Integer(0),
        Type::Logical => Value::Logical(false),
        Type::Bits => Value::Bits(0),
        Type::Reference(class) => Value::Reference { class, record: None },
    }
}

/// "+ − × div rem and orderings take integers, `and`, `or`, `not` take logical or bits, =
/// and ¬= any one type, shifts bits by integer." The result's type, if the operator takes these.
pub fn binary_type(operator: u16, x: Type, y: Type) -> Option<Type> {
    let integers = x == Type::Integer && y == Type::Integer;
    match operator {
        1..=5 if integers => Some(Type::Integer),
        6..=9 if integers => Some(Type::Logical),
        10 | 11 if x == y => Some(Type::Logical),
        12 | 13 if x == y && (x == Type::Logical || x == Type::Bits) => Some(x),
        14 | 15 if x == Type::Bits && y == Type::Integer => Some(Type::Bits),
        _ => None,
    }
}

/// "negate and abs take integers"; `not` takes logical or bits.
pub fn unary_type(operator: u16, x: Type) -> Option<Type> {
    match operator {
        20 | 21 if x == Type::Integer => Some(Type::Integer),
        22 if x == Type::Logical || x == Type::Bits => Some(x),
        _ => None,
    }
}

/// Why an operator gave no value.
#[derive(Clone, Copy, PartialEq, Eq, Debug)]
pub enum Trouble {
    /// An operand is not of a type that the operator takes.
    Type,
    /// A condition, 20 to 28.
    Condition(u8),
}

/// 20: "exact result outside 32 bits".
pub fn settle(exact: i64) -> Result<Value, Trouble> {
    if exact < i32::MIN as i64 || exact > i32::MAX as i64 {
        Err(Trouble::Condition(20))
    } else {
        Ok(Value::Integer(exact as i32))
    }
}

/// "Shifts fill with 0; a count of 32 or more gives #0; a negative count shifts the other
/// way by its size." `left` is the count to the left; it may be negative.
pub fn shift(bits: u32, left: i64) -> u32 {
    if left >= 32 || left <= -32 {
        0
    } else if left >= 0 {
        bits << left
    } else {
        bits >> -left
    }
}

/// Both operands evaluated ("Op 7 with 12, 13, 22 takes logical or bits and is strict").
pub fn binary(operator: u16, x: Value, y: Value) -> Result<Value, Trouble> {
    match (operator, x, y) {
        (1, Value::Integer(x), Value::Integer(y)) => settle(x as i64 + y as i64),
        (2, Value::Integer(x), Value::Integer(y)) => settle(x as i64 - y as i64),
        (3, Value::Integer(x), Value::Integer(y)) => settle(x as i64 * y as i64),
        // "zero divisor (21) before range (20)"
        (4 | 5, Value::Integer(_), Value::Integer(0)) => Err(Trouble::Condition(21)),
        // "div drops the fraction toward zero; rem keeps the dividend's sign" - so do Rust's.
        (4, Value::Integer(x), Value::Integer(y)) => settle(x as i64 / y as i64),
        (5, Value::Integer(x), Value::Integer(y)) => settle(x as i64 % y as i64),
        (6, Value::Integer(x), Value::Integer(y)) => Ok(Value::Logical(x < y)),
        (7, Value::Integer(x), Value::Integer(y)) => Ok(Value::Logical(x <= y)),
        (8, Value::Integer(x), Value::Integer(y)) => Ok(Value::Logical(x > y)),
        (9, Value::Integer(x), Value::Integer(y)) => Ok(Value::Logical(x >= y)),
        // "References are equal where both are null or both the same record."
        (10, x, y) if x.ty() == y.ty() => Ok(Value::Logical(x == y)),
        (11, x, y) if x.ty() == y.ty() => Ok(Value::Logical(x != y)),
        (12, Value::Logical(x), Value::Logical(y)) => Ok(Value::Logical(x && y)),
        (12, Value::Bits(x), Value::Bits(y)) => Ok(Value::Bits(x & y)),
        (13, Value::Logical(x), Value::Logical(y)) => Ok(Value::Logical(x || y)),
        (13, Value::Bits(x), Value::Bits(y)) => Ok(Value::Bits(x | y)),
        (14, Value::Bits(x), Value::Integer(y)) => Ok(Value::Bits(shift(x, y as i64))),
        (15, Value::Bits(x), Value::Integer(y)) => Ok(Value::Bits(shift(x, -(y as i64)))),
        _ => Err(Trouble::Type),
    }
}

pub fn unary(operator: u16, x: Value) -> Result<Value, Trouble> {
    match (operator, x) {
        (20, Value::Integer(x)) => settle(-(x as i64)),
        (21, Value::Integer(x)) => settle((x as i64).abs()),
        (22, Value::Logical(x)) => Ok(Value::Logical(!x)),
        (22, Value::Bits(x)) => Ok(Value::Bits(!x)),
        _ => Err(Trouble::Type),
    }
}

pub fn is_unary(operator: u16) -> bool {
    (20..=22).contains(&operator)
}

pub fn is_binary(operator: u16) -> bool {
    (1..=15).contains(&operator)
}

/// "set (channel 1 to 512, level 0 to 255)"; out of range is 25.
pub fn set_range(channel: i32, level: i32) -> Result<(u16, u8), Trouble> {
    if !(1..=512).contains(&channel) {
        return Err(Trouble::Condition(25));
    }
    if !(0..=255).contains(&level) {
        return Err(Trouble::Condition(25));
    }
    Ok((channel as u16, level as u8))
}

/// "A fader (1 to 64) reads a byte"; out of range is 25 and reads nothing.
pub fn fader_range(fader: i32) -> Result<u8, Trouble> {
    if (1..=64).contains(&fader) {
        Ok(fader as u8)
    } else {
        Err(Trouble::Condition(25))
    }
}
