//! Test vectors of the operators: `vectors input` writes 12-byte records, `vectors output`
//! the text that is expected for them, one line a record.
//!
//! A record: operator number (1 to 15 binary, 20 to 22 unary), the first operand's type (1
//! integer, 2 logical, 3 bits), two zero bytes, the first operand's word, the second's (0 for a
//! unary operator). A line: `gives W`, the result's word, or `ends C`, a condition.

use std::io::Write;

use second::evaluator::code::byte_of_type;
use second::evaluator::state::{value_of, word_of};
use second::evaluator::values::{binary, binary_type, is_unary, unary, unary_type, Trouble, Type};
use second::generate::rng::Rng;

const EDGES: [i32; 24] = [
    0, 1, -1, 2, -2, 7, -7, 31, 32, 33, -31, -32, -33, i32::MAX, i32::MIN, 65_536, 46_341, -46_341, 46_340, -65_536, 1 << 30, i32::MIN + 1,
    255, 1_000_000_007,
];

#[derive(Clone, Copy)]
struct Vector {
    operator: u16,
    ty: Type,
    second: Type,
    x: u32,
    y: u32,
}

fn main() {
    let which = std::env::args().nth(1).unwrap_or_default();
    let vectors = all();
    let mut out = std::io::stdout().lock();
    match which.as_str() {
        "input" => {
            for v in &vectors {
                out.write_all(&record(v)).unwrap();
            }
        }
        "output" => {
            for v in &vectors {
                writeln!(out, "{}", expected(v)).unwrap();
            }
        }
        _ => {
            eprintln!("usage: vectors input|output");
            std::process::exit(2);
        }
    }
}

fn record(v: &Vector) -> [u8; 12] {
    let mut bytes = [0; 12];
    bytes[0] = v.operator as u8;
    bytes[1] = byte_of_type(v.ty);
    bytes[4..8].copy_from_slice(&v.x.to_le_bytes());
    bytes[8..12].copy_from_slice(&v.y.to_le_bytes());
    bytes
}

fn expected(v: &Vector) -> String {
    let x = value_of(v.ty, v.x).unwrap();
    let result = if is_unary(v.operator) {
        unary(v.operator, x)
    } else {
        binary(v.operator, x, value_of(v.second, v.y).unwrap())
    };
    match result {
        Ok(value) => format!("gives {}", word_of(value)),
        Err(Trouble::Condition(number)) => format!("ends {number}"),
        Err(Trouble::Type) => unreachable!("the vectors are typed"),
    }
}

/// The edge words of a type, and then random ones.
fn words(rng: &mut Rng, ty: Type, edges: usize, random: usize) -> Vec<u32> {
    if ty == Type::Logical {
        return vec![0, 1];
    }
    let mut list: Vec<u32> = EDGES[..edges].iter().map(|n| *n as u32).collect();
    for _ in 0..random {
        list.push(rng.next_u64() as u32);
    }
    list
}

fn all() -> Vec<Vector> {
    let types = [Type::Integer, Type::Logical, Type::Bits];
    let mut rng = Rng::new(12);
    let mut list = Vec::new();
    for operator in 20..=22 {
        for ty in types {
            if unary_type(operator, ty).is_some() {
                for x in words(&mut rng, ty, EDGES.len(), 16) {
                    list.push(Vector { operator, ty, second: ty, x, y: 0 });
                }
            }
        }
    }
    for operator in 1..=15 {
        for ty in types {
            for second in types {
                if binary_type(operator, ty, second).is_none() {
                    continue;
                }
                let xs = words(&mut rng, ty, EDGES.len(), 0);
                let ys = words(&mut rng, second, EDGES.len(), 0);
                // Every first edge with some second ones, and every second edge with some first
                // ones, so that each meets each kind of other; then random words.
                if ty == Type::Logical {
                    for x in &xs {
                        for y in &ys {
                            list.push(Vector { operator, ty, second, x: *x, y: *y });
                        }
                    }
                    continue;
                }
                for x in &xs {
                    for _ in 0..2 {
                        list.push(Vector { operator, ty, second, x: *x, y: *rng.pick(&ys) });
                    }
                    list.push(Vector { operator, ty, second, x: *x, y: *x });
                }
                for y in &ys {
                    list.push(Vector { operator, ty, second, x: *rng.pick(&xs), y: *y });
                }
                for _ in 0..10 {
                    list.push(Vector { operator, ty, second, x: rng.next_u64() as u32, y: rng.next_u64() as u32 });
                }
                if matches!(operator, 14 | 15) {
                    for count in -34..=34 {
                        list.push(Vector { operator, ty, second, x: rng.next_u64() as u32 | 0x8000_0001, y: count as u32 });
                    }
                }
                if matches!(operator, 1..=5) {
                    // Where div, rem and overflow turn.
                    for (x, y) in [(i32::MIN, -1), (i32::MIN, 0), (7, -2), (-7, 2), (-7, -2), (i32::MAX, 1), (i32::MIN, 1), (46_341, 46_341)] {
                        list.push(Vector { operator, ty, second, x: x as u32, y: y as u32 });
                    }
                }
            }
        }
    }
    list
}
