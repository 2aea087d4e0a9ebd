//! Edge cases: tables and macros just within a limit or just past it, programs in which
//! each operator decides on operands that are nearly equal, states with one thing out of place.
//! Random programs come here too seldom.

use crate::evaluator::code::{judge_macro, write_macro, Body, Instr, Loaded, Macro, Shape};
use crate::evaluator::machine::State;
use crate::evaluator::state::encode;
use crate::evaluator::table::{bytes_of, Entry};
use crate::evaluator::values::Value;
use super::macros::some_stop;
use super::notation::{body, code, root_only, shape};
use super::rng::Rng;
use super::states::reached;

fn entry(kind: u16, a: u16, b: i32) -> Entry {
    Entry { kind, a, b }
}

/// A number on the limit, one below it or one past it.
fn about(rng: &mut Rng, limit: usize) -> usize {
    limit - 1 + rng.below(3)
}

// Tables.

/// A table with one figure about its limit, in the root or in a procedure.
pub fn edge_table(rng: &mut Rng) -> Vec<u8> {
    let part = match rng.below(6) {
        0 => cells(rng),
        1 => need(rng),
        2 => holds(rng),
        3 => names(rng),
        4 => return bytes_of(&nesting(rng)),
        _ => return bytes_of(&counts(rng)),
    };
    bytes_of(&placed(rng, part))
}

/// A block as the root's only statement, or as the body of a procedure.
fn placed(rng: &mut Rng, block: Vec<Entry>) -> Vec<Entry> {
    let mut list = Vec::new();
    if rng.chance(50) {
        list.push(entry(1, 0, 1));
        list.extend(block);
    } else {
        let parameters = rng.below(3);
        list.push(entry(1, 1, 0));
        list.push(entry(12, 900, 256 * parameters as i32));
        for i in 0..parameters {
            list.push(entry(10, 800 + i as u16, 1));
        }
        list.extend(block);
    }
    list
}

/// Variables, cases and loops, about 32 cells of them together.
fn cells(rng: &mut Rng) -> Vec<Entry> {
    let all = about(rng, 32);
    let (cases, loops) = (rng.below(6), rng.below(5));
    let variables = all - cases - 3 * loops;
    let mut list = vec![entry(1, variables as u16, (cases + loops) as i32)];
    for i in 0..variables {
        list.push(entry(10, i as u16, 1 + rng.below(3) as i32));
    }
    for _ in 0..cases {
        list.extend([entry(30, 1, 0), entry(40, 0, 1), entry(1, 0, 0)]);
    }
    for _ in 0..loops {
        list.extend([entry(31, 7, 0), entry(40, 0, 1), entry(40, 0, 1), entry(40, 0, 2), entry(1, 0, 0)]);
    }
    list
}

/// An expression whose working need is about 32: sums nested to the right, with an if-expression
/// (two more) somewhere; the level of a set, or a loop's start, step or limit.
fn need(rng: &mut Rng) -> Vec<Entry> {
    let wanted = about(rng, 32);
    let looped = rng.chance(50);
    // The level is the second operand, so it has one operand before it.
    let before = if looped { rng.below(3) } else { 1 };
    let mut list = vec![entry(1, 0, 1), if looped { entry(31, 7, 0) } else { entry(28, 0, 0) }];
    list.extend((0..before).map(|_| entry(40, 0, 1)));
    let mut left = wanted - before;
    while left > 1 {
        if left > 3 && rng.chance(20) {
            list.extend([entry(50, 0, 0), entry(41, 0, 1), entry(40, 0, 5)]);
            left -= 2;
        } else {
            list.extend([entry(49, 1, 0), entry(40, 0, 1)]);
            left -= 1;
        }
    }
    list.push(entry(40, 0, 1));
    if looped {
        list.extend((before..2).map(|_| entry(40, 0, 1)));
        list.push(entry(1, 0, 0));
    }
    list
}

/// Nested blocks and block expressions with about 16 holds open together.
fn holds(rng: &mut Rng) -> Vec<Entry> {
    let mut left = about(rng, 16);
    let mut list = Vec::new();
    while left > 0 {
        let here = 1 + rng.below(left.min(6));
        list.push(entry(1, here as u16, 1));
        list.extend((0..here).map(|g| entry(14, g as u16, 0)));
        left -= here;
    }
    list.push(entry(1, 0, 0));
    list
}

/// A block with variables, holds and labels of few names, so that some come twice; and uses of them.
fn names(rng: &mut Rng) -> Vec<Entry> {
    let few = |rng: &mut Rng| 5 + rng.below(6) as u16;
    let declarations = rng.below(4);
    let labels = rng.below(3);
    let inner = rng.chance(60);
    let uses = 1 + rng.below(2);
    let expression = rng.chance(40);
    let kind = if expression { 53 } else { 1 };
    let mut list = Vec::new();
    if expression {
        list.extend([entry(1, 0, 1), entry(28, 0, 0), entry(40, 0, 1)]);
    }
    list.push(entry(kind, declarations as u16, (labels + uses + inner as usize) as i32));
    for _ in 0..declarations {
        list.push(if rng.chance(80) { entry(10, few(rng), 1 + rng.below(2) as i32) } else { entry(14, few(rng), 0) });
    }
    if inner {
        // perhaps what a loop controls
        if rng.chance(50) {
            list.push(entry(31, few(rng), 0));
            list.extend((0..3).map(|_| if rng.chance(70) { entry(40, 0, 1) } else { entry(44, few(rng), 0) }));
        }
        list.extend([entry(1, 1, 2), entry(10, few(rng), 1), entry(20, few(rng), 0), entry(25, few(rng), 0)]);
    }
    for _ in 0..labels {
        list.push(entry(20, few(rng), 0));
    }
    for _ in 0..uses {
        if rng.chance(50) {
            list.push(entry(25, few(rng), 0));
        } else {
            list.extend([entry(21, 0, 0), entry(44, few(rng), 0), entry(40, 0, 1)]);
        }
    }
    if expression {
        list.push(entry(44, few(rng), 0));
    }
    list
}

/// About 64 deep, in the root's statements or in a function's body.
fn nesting(rng: &mut Rng) -> Vec<Entry> {
    let deep = *rng.pick(&[63, 64, 64, 65]);
    let mut list = Vec::new();
    let mut depth;
    if rng.chance(50) {
        list.extend([entry(1, 1, 0), entry(12, 900, 1)]);
        depth = 2;
    } else {
        list.extend([entry(1, 0, 1), entry(26, 0, 0), entry(49, 10, 0), entry(40, 0, 1)]);
        depth = 3;
    }
    while depth + 1 < deep {
        list.push(if rng.chance(50) { entry(48, 20, 0) } else { entry(48, 21, 0) });
        depth += 1;
    }
    list.push(entry(40, 0, 7));
    list
}

/// Counts of the layout: fields, parameters, groups, operators, types.
fn counts(rng: &mut Rng) -> Vec<Entry> {
    match rng.below(6) {
        0 => {
            let fields = about(rng, 8);
            let mut list = vec![entry(1, 1, 0), entry(11, 500, fields as i32)];
            list.extend((0..fields).map(|i| entry(10, i as u16, 1)));
            list
        }
        1 => {
            let parameters = about(rng, 8);
            let mut list = vec![entry(1, 1, 0), entry(12, 500, 256 * parameters as i32 + rng.below(5) as i32)];
            list.extend((0..parameters).map(|i| entry(10, i as u16, 1)));
            list.push(if rng.chance(50) { entry(40, 0, 3) } else { entry(1, 0, 0) });
            list
        }
        2 => vec![entry(1, 1, 0), entry(14, about(rng, 63) as u16, 0)],
        3 => vec![entry(1, 1, 0), entry(10, 5, *rng.pick(&[0, 1, 3, 4, 65_535, 65_536, 131_071, 131_072, -1]))],
        4 => vec![
            entry(1, 0, 1),
            entry(26, 0, 0),
            entry(48, *rng.pick(&[19, 20, 22, 23]), 0),
            entry(41, 0, *rng.pick(&[0, 1, 2, -1])),
        ],
        _ => vec![
            entry(1, 0, 1),
            entry(26, 0, 0),
            entry(49, *rng.pick(&[0, 1, 6, 10, 11, 12, 15, 16]), 0),
            entry(40, 0, i32::MIN),
            entry(40, 0, i32::MAX),
        ],
    }
}

// Executions.

/// A program whose events tell what operators gave on operands that are near each other.
pub fn deciding_table(rng: &mut Rng) -> Vec<u8> {
    let statements = 2 + rng.below(5);
    let mut list = vec![entry(1, 0, statements as i32)];
    for k in 0..statements {
        // if TEST then set 1 k else set 2 k
        list.push(entry(23, 0, 0));
        test(rng, &mut list);
        for channel in [1, 2] {
            list.extend([entry(28, 0, 0), entry(40, 0, channel), entry(40, 0, k as i32)]);
        }
    }
    bytes_of(&list)
}

fn small(rng: &mut Rng) -> i32 {
    let near = [-2, -1, 0, 1, 2, 3];
    let far = [i32::MIN, i32::MIN + 1, i32::MAX, i32::MAX - 1, 65_536, -65_536];
    if rng.chance(80) { *rng.pick(&near) } else { *rng.pick(&far) }
}

fn test(rng: &mut Rng, list: &mut Vec<Entry>) {
    let binary = |op: u16| entry(49, op, 0);
    match rng.below(6) {
        // An ordering or an equality of integers.
        0 | 1 => {
            let x = small(rng);
            let y = if rng.chance(40) { x } else { small(rng) };
            list.extend([binary(6 + rng.below(6) as u16), entry(40, 0, x), entry(40, 0, y)]);
        }
        // An operation, compared with what it may give.
        2 => {
            let (x, y, r) = (small(rng), small(rng), small(rng));
            list.extend([binary(10), binary(1 + rng.below(5) as u16), entry(40, 0, x), entry(40, 0, y), entry(40, 0, r)]);
        }
        // Logical `and`, `or`: the second operand tells whether it was evaluated, by a hold or a condition.
        3 => {
            list.extend([binary(12 + rng.below(2) as u16), entry(41, 0, rng.below(2) as i32)]);
            if rng.chance(70) {
                list.extend([entry(53, 1, 0), entry(14, rng.below(64) as u16, 0), entry(41, 0, rng.below(2) as i32)]);
            } else {
                list.extend([binary(10), binary(4), entry(40, 0, 1), entry(40, 0, 0), entry(40, 0, 1)]);
            }
        }
        // Bits.
        4 => {
            let (x, y) = (small(rng), small(rng));
            let op = 12 + rng.below(2) as u16;
            let r = if rng.chance(70) { if op == 12 { x & y } else { x | y } } else { small(rng) };
            list.extend([binary(10 + rng.below(2) as u16), binary(op), entry(42, 0, x), entry(42, 0, y), entry(42, 0, r)]);
        }
        // Shifts about the width, and back.
        _ => {
            let n = *rng.pick(&[-33, -32, -31, -1, 0, 1, 2, 31, 32, 33, i32::MIN, i32::MAX]);
            let r = *rng.pick(&[0, 1, 2, -1, i32::MIN, 4]);
            list.extend([binary(10), binary(14 + rng.below(2) as u16), entry(42, 0, small(rng)), entry(40, 0, n), entry(42, 0, r)]);
        }
    }
}

// Macros.

/// A macro with one figure about its limit, or one jump about the border of its body.
pub fn edge_macro(rng: &mut Rng) -> Vec<u8> {
    let m = match rng.below(7) {
        0 => jump_across(rng),
        1 => many_cells(rng),
        2 => many_operands(rng),
        3 => many_holds(rng),
        4 => wide_shape(rng),
        5 => stops(rng),
        _ => many_parameters(rng),
    };
    write_macro(&m)
}

/// A root and a procedure, each with a label; the jump in the one goes to an address about the border.
fn jump_across(rng: &mut Rng) -> Macro {
    let target = rng.below(7) as i32;
    let from_root = rng.chance(50);
    let (a, b) = if from_root { (target, 5) } else { (1, target) };
    let mut shapes = vec![shape(1, 0, &[]), shape(3, 0, &[]), shape(5, 0, &[])];
    if rng.chance(20) {
        shapes.remove(rng.below(3));
    }
    Macro {
        classes: Vec::new(),
        bodies: vec![body(0, 0, 0, &[]), body(3, 0, 0, &[])],
        code: code(&format!("8 0 {a}, 10 0 1, 0 0 0, 8 0 {b}, 11 0 0, 11 0 0"))
            .into_iter()
            .enumerate()
            .map(|(i, x)| if i == 4 { Instr { op: 20, a: 24, b: 0 } } else { x })
            .collect(),
        shapes,
    }
}

fn many_cells(rng: &mut Rng) -> Macro {
    let own = vec![1; about(rng, 32)];
    let few = vec![2; rng.below(3)];
    let (root, procedure) = if rng.chance(50) { (own, few) } else { (few, own) };
    let parameters = if rng.chance(80) { 0 } else { 1 };
    Macro {
        classes: Vec::new(),
        bodies: vec![
            Body { first: 0, parameters: 0, result: if rng.chance(90) { 0 } else { 1 }, cells: root },
            Body { first: 1, parameters: parameters.min(procedure.len()) as u8, result: 0, cells: procedure },
        ],
        code: code("0 0 0, 11 0 0"),
        shapes: Vec::new(),
    }
}

/// Pushes, about 32 of them, and a stop.
fn many_operands(rng: &mut Rng) -> Macro {
    let n = about(rng, 32);
    let mut list = vec!["1 0 7".to_string(); n];
    list.push("20 24 0".to_string());
    root_only(&list.join(","), Vec::new())
}

fn many_holds(rng: &mut Rng) -> Macro {
    let n = about(rng, 16);
    let mut list = vec![format!("17 0 {}", 62 + rng.below(3)); 1];
    list.extend(vec!["17 0 9".to_string(); n - 1]);
    list.push("20 24 0".to_string());
    root_only(&list.join(","), Vec::new())
}

/// Dead code behind an SH with about 16 holds or about 32 operands.
fn wide_shape(rng: &mut Rng) -> Macro {
    let (holds, depth) = if rng.chance(50) { (about(rng, 16), 0) } else { (0, about(rng, 32)) };
    Macro {
        classes: Vec::new(),
        bodies: vec![body(0, 0, 0, &[])],
        code: code("0 0 0, 20 28 0"),
        shapes: vec![Shape { address: 1, holds: holds as u8, types: vec![1; depth] }],
    }
}

/// A hold and a stop, and behind it another: each by a condition, or by something that is none.
fn stops(rng: &mut Rng) -> Macro {
    let mut m = root_only("17 0 5", if rng.chance(80) { vec![shape(2, 1, &[])] } else { Vec::new() });
    m.code.extend([some_stop(rng), some_stop(rng)]);
    m
}

/// A call with parameters of several types, all given, or one of another type.
fn many_parameters(rng: &mut Rng) -> Macro {
    let n = 1 + rng.below(5);
    let types: Vec<u8> = (0..n).map(|_| 1 + rng.below(3) as u8).collect();
    let mut list: Vec<String> = types.iter().map(|t| format!("{t} 0 1")).collect();
    if rng.chance(40) {
        let i = rng.below(n);
        list[i] = format!("{} 0 1", 1 + rng.below(3));
    }
    let result = rng.below(3) as u8;
    list.push("10 0 1".to_string());
    list.push("20 28 0".to_string());
    let first = list.len() as u16;
    list.push(if result == 0 { "11 0 0".to_string() } else { format!("{} 0 0", 1 + rng.below(2)) });
    if result != 0 {
        list.push("11 0 0".to_string());
    }
    Macro {
        classes: Vec::new(),
        bodies: vec![body(0, 0, 0, &[]), Body { first, parameters: n as u8, result, cells: types }],
        code: code(&list.join(",")),
        shapes: Vec::new(),
    }
}

// Runs.

/// A root and a procedure that calls itself for ever, each with so many cells, and with so many holds and operands at its call.
pub fn endless_recursion(cells: usize, holds: usize, operands: usize) -> Macro {
    let level: String = (0..holds).map(|g| format!("17 0 {},", 63 - g)).chain((0..operands).map(|n| format!("1 0 {n},"))).collect();
    let body_text = format!("{level} 10 0 1, 20 24 0");
    let first = (holds + operands + 2) as u16;
    Macro {
        classes: Vec::new(),
        bodies: vec![body(0, 0, 0, &vec![1; cells]), body(first, 0, 0, &vec![1; cells])],
        code: code(&format!("{body_text}, {body_text}")),
        shapes: Vec::new(),
    }
}

/// A root that makes records for ever, each of so many integers and a reference to the one before.
pub fn endless_records(integers: usize) -> Macro {
    let mut fields = vec![1; integers];
    fields.push(16);
    let pushes: String = (0..integers).map(|n| format!("1 0 {n},")).collect();
    Macro {
        classes: vec![fields],
        bodies: vec![body(0, 0, 0, &[16])],
        code: code(&format!("{pushes} 5 0 0, 12 0 0, 6 0 0, 8 0 0")),
        shapes: vec![shape(0, 0, &[])],
    }
}

/// A root that counts for ever, with a hold open; from time to time a set tells how far it is.
pub fn endless_counter(every: i32) -> Macro {
    Macro {
        classes: Vec::new(),
        bodies: vec![body(0, 0, 0, &[1])],
        code: code(&format!(
            "17 0 9, 5 0 0, 1 0 1, 7 1 0, 6 0 0, 5 0 0, 1 0 {every}, 7 5 0, 1 0 0, 7 10 0, 9 0 1,
             5 0 0, 1 0 512, 7 5 0, 1 0 1, 7 1 0, 1 0 7, 15 0 0, 8 0 1"
        )),
        shapes: vec![shape(1, 1, &[])],
    }
}

/// A macro that goes on for long: it reaches the limits of a run, or counts.
pub fn long_macro(rng: &mut Rng) -> Macro {
    match rng.below(4) {
        0 => endless_recursion(rng.below(33), rng.below(17), rng.below(33)),
        1 => endless_records(rng.below(8)),
        2 => endless_counter(1 + rng.below(3_000) as i32),
        _ => deep_macro().code,
    }
}

// States.

/// A macro that makes records of two classes and calls itself with a hold and an operand at each
/// level, by two calls of two bodies.
pub fn deep_macro() -> Loaded {
    let m = Macro {
        classes: vec![vec![1], vec![16, 17]],
        bodies: vec![
            body(0, 0, 0, &[16, 17, 1]),
            body(13, 2, 1, &[1, 17]),
            body(23, 2, 1, &[1, 17]),
        ],
        code: code(
            "1 0 5, 12 0 0, 6 0 0, 5 0 0, 4 1 0, 12 1 0, 6 0 1, 17 0 3, 1 0 1, 5 0 1, 10 0 1, 6 0 2, 20 28 0,
             17 0 4, 1 0 9, 5 0 0, 5 0 1, 10 0 2, 7 1 0, 6 0 0, 18 0 0, 5 0 0, 11 0 0,
             17 0 5, 1 0 9, 5 0 0, 5 0 1, 10 0 1, 7 1 0, 6 0 0, 18 0 0, 5 0 0, 11 0 0",
        ),
        shapes: Vec::new(),
    };
    judge_macro(&write_macro(&m)).expect("it passes")
}

/// A state of the deep macro with one thing out of place, or none.
pub fn edge_state(rng: &mut Rng, loaded: &Loaded) -> Vec<u8> {
    let mut state = reached(rng, loaded, 60);
    if let State::Running { records, activations } = &mut state {
        let n = activations.len();
        let k = rng.below(n);
        match rng.below(9) {
            // A reference to another record, of the class or not, made or not.
            0 | 1 => {
                for value in activations[k].cells.iter_mut() {
                    point_elsewhere(rng, value);
                }
            }
            2 => {
                for record in records.iter_mut() {
                    for value in record.fields.iter_mut() {
                        point_elsewhere(rng, value);
                    }
                }
            }
            // No root at the bottom.
            3 if n > 1 => {
                activations.remove(0);
            }
            // A hold too many or too few, counted as it stands.
            4 if rng.chance(50) => activations[k].holds.push(7),
            4 => {
                activations[k].holds.pop();
            }
            // Another body; the twin of its body at the same place, whose caller calls the other.
            5 if rng.chance(30) => activations[k].body = rng.below(3),
            5 => match activations[k].body {
                1 => {
                    activations[k].body = 2;
                    activations[k].address += 10;
                }
                2 => {
                    activations[k].body = 1;
                    activations[k].address -= 10;
                }
                _ => {}
            },
            6 if n > 2 => activations.swap(n - 1, n - 2),
            7 if n > 1 => {
                let copy = activations[n - 1].clone();
                activations.insert(n - 1, copy);
            }
            _ => {}
        }
    }
    encode(&state)
}

fn point_elsewhere(rng: &mut Rng, value: &mut Value) {
    if let Value::Reference { record, .. } = value {
        *record = *rng.pick(&[None, Some(0), Some(1), Some(2)]);
    }
}
