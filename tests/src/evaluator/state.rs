//! The 24,576 bytes of a run state, as docs/STATE.md lays them out: writing a machine state,
//! reading one, which states are sound, and start and run on bytes with their refusals.

use super::answer::{is_condition, refuse, Answer, Refusal};
use super::code::{byte_of_type, judge_macro, type_of_byte, Loaded, Macro};
use super::machine::{fresh, run, Activation, Record, State, MOST_ACTIVATIONS, MOST_RECORDS};
use super::values::{Type, Value};

pub const LENGTH: usize = 24_576;
const ACTIVATIONS: usize = 32;
const ACTIVATION: usize = 328;
const HOLDS: usize = 10_528;
const MOST_OPEN: usize = 512;
const RECORDS: usize = 11_040;
const RECORD: usize = 44;

const CELL_WORDS: usize = 8;
const OPERAND_WORDS: usize = 136;
const CELL_TYPES: usize = 264;
const OPERAND_TYPES: usize = 296;
const FIELD_WORDS: usize = 4;
const FIELD_TYPES: usize = 36;

/// "integer: the number in two's complement; logical 0 false, 1 true; bits; reference 0 null,
/// else 1 + the record's number"
pub fn word_of(value: Value) -> u32 {
    match value {
        Value::Integer(n) => n as u32,
        Value::Logical(truth) => truth as u32,
        Value::Bits(bits) => bits,
        Value::Reference { record: None, .. } => 0,
        Value::Reference { record: Some(number), .. } => 1 + number as u32,
    }
}

pub fn value_of(ty: Type, word: u32) -> Option<Value> {
    match ty {
        Type::Integer => Some(Value::Integer(word as i32)),
        Type::Logical if word <= 1 => Some(Value::Logical(word == 1)),
        // "any other word is no value"
        Type::Logical => None,
        Type::Bits => Some(Value::Bits(word)),
        Type::Reference(class) if word == 0 => Some(Value::Reference { class, record: None }),
        Type::Reference(class) => Some(Value::Reference { class, record: Some(word as usize - 1) }),
    }
}

fn put_u16(bytes: &mut [u8], at: usize, n: usize) {
    bytes[at..at + 2].copy_from_slice(&(n as u16).to_le_bytes());
}

fn get_u16(bytes: &[u8], at: usize) -> usize {
    u16::from_le_bytes([bytes[at], bytes[at + 1]]) as usize
}

fn put_values(bytes: &mut [u8], words: usize, types: usize, values: &[Value]) {
    for (i, value) in values.iter().enumerate() {
        let at = words + 4 * i;
        bytes[at..at + 4].copy_from_slice(&word_of(*value).to_le_bytes());
        bytes[types + i] = byte_of_type(value.ty());
    }
}

fn get_values(m: &Macro, bytes: &[u8], words: usize, types: usize, count: usize) -> Option<Vec<Value>> {
    let mut values = Vec::new();
    for i in 0..count {
        let at = words + 4 * i;
        let word = u32::from_le_bytes([bytes[at], bytes[at + 1], bytes[at + 2], bytes[at + 3]]);
        let ty = type_of_byte(bytes[types + i], m.classes.len())?;
        values.push(value_of(ty, word)?);
    }
    Some(values)
}

/// The bytes of a state; those that it does not use are 0.
pub fn encode(state: &State) -> Vec<u8> {
    let mut bytes = vec![0; LENGTH];
    match state {
        State::Running { records, activations } => {
            bytes[0] = 0;
            bytes[2] = activations.len() as u8;
            put_u16(&mut bytes, 4, records.len());
            let mut open = Vec::new();
            for (i, t) in activations.iter().enumerate() {
                let at = ACTIVATIONS + ACTIVATION * i;
                bytes[at] = t.body as u8;
                bytes[at + 1] = t.stack.len() as u8;
                bytes[at + 2] = t.holds.len() as u8;
                put_u16(&mut bytes, at + 4, t.address);
                put_values(&mut bytes, at + CELL_WORDS, at + CELL_TYPES, &t.cells);
                put_values(&mut bytes, at + OPERAND_WORDS, at + OPERAND_TYPES, &t.stack);
                open.extend_from_slice(&t.holds);
            }
            put_u16(&mut bytes, 6, open.len());
            bytes[HOLDS..HOLDS + open.len()].copy_from_slice(&open);
            for (i, r) in records.iter().enumerate() {
                let at = RECORDS + RECORD * i;
                bytes[at] = r.class;
                put_values(&mut bytes, at + FIELD_WORDS, at + FIELD_TYPES, &r.fields);
            }
        }
        State::Releasing { condition, holds } => {
            bytes[0] = 1;
            bytes[1] = *condition;
            put_u16(&mut bytes, 6, holds.len());
            bytes[HOLDS..HOLDS + holds.len()].copy_from_slice(holds);
        }
        State::Ended { code } => {
            bytes[0] = 2;
            bytes[1] = *code;
        }
    }
    bytes
}

/// The state that the bytes stand for, if they stand for one; bytes not in use are not looked at.
pub fn decode(m: &Macro, bytes: &[u8]) -> Option<State> {
    if bytes.len() != LENGTH {
        return None;
    }
    match bytes[0] {
        0 => {
            let activation_count = bytes[2] as usize;
            let record_count = get_u16(bytes, 4);
            let open_count = get_u16(bytes, 6);
            if activation_count > MOST_ACTIVATIONS || record_count > MOST_RECORDS || open_count > MOST_OPEN {
                return None;
            }
            let mut activations = Vec::new();
            let mut hold_at = HOLDS;
            for i in 0..activation_count {
                let at = ACTIVATIONS + ACTIVATION * i;
                let body = bytes[at] as usize;
                let operand_count = bytes[at + 1] as usize;
                let hold_count = bytes[at + 2] as usize;
                if body >= m.bodies.len() || operand_count > 32 {
                    return None;
                }
                let cell_count = m.bodies[body].cells.len();
                if cell_count > 32 || hold_at + hold_count > HOLDS + MOST_OPEN {
                    return None;
                }
                activations.push(Activation {
                    body,
                    address: get_u16(bytes, at + 4),
                    cells: get_values(m, bytes, at + CELL_WORDS, at + CELL_TYPES, cell_count)?,
                    stack: get_values(m, bytes, at + OPERAND_WORDS, at + OPERAND_TYPES, operand_count)?,
                    holds: bytes[hold_at..hold_at + hold_count].to_vec(),
                });
                hold_at += hold_count;
            }
            // "running: the sum over the activations"
            if hold_at != HOLDS + open_count {
                return None;
            }
            let mut records = Vec::new();
            for i in 0..record_count {
                let at = RECORDS + RECORD * i;
                let class = bytes[at];
                let field_count = m.classes.get(class as usize)?.len();
                let fields = get_values(m, bytes, at + FIELD_WORDS, at + FIELD_TYPES, field_count)?;
                records.push(Record { class, fields });
            }
            Some(State::Running { records, activations })
        }
        1 => {
            let open_count = get_u16(bytes, 6);
            if open_count > MOST_OPEN {
                return None;
            }
            Some(State::Releasing { condition: bytes[1], holds: bytes[HOLDS..HOLDS + open_count].to_vec() })
        }
        2 => Some(State::Ended { code: bytes[1] }),
        _ => None,
    }
}

/// "A state is sound if ..." (paper 01, Running), over a macro that passed.
pub fn sound(loaded: &Loaded, state: &State) -> bool {
    match state {
        State::Running { records, activations } => {
            // "1 to 32 activations, the lowest the root, and at most 256 records"
            if activations.is_empty() || activations.len() > MOST_ACTIVATIONS || records.len() > MOST_RECORDS {
                return false;
            }
            if activations[0].body != 0 {
                return false;
            }
            for (i, t) in activations.iter().enumerate() {
                if !sound_activation(loaded, records, t, activations.get(i + 1)) {
                    return false;
                }
            }
            records.iter().all(|r| match loaded.code.classes.get(r.class as usize) {
                Some(types) => of_types(&r.fields, types, records),
                None => false,
            })
        }
        // "While a condition is releasing, only the holds count"
        State::Releasing { condition, holds } => is_condition(*condition) && holds.len() <= MOST_OPEN && groups(holds),
        // "an ended state has none"; 0 or a condition
        State::Ended { code } => *code == 0 || is_condition(*code),
    }
}

/// "of groups 0 to 63"
fn groups(holds: &[u8]) -> bool {
    holds.iter().all(|group| *group <= 63)
}

/// "values of the types found there; each reference is null or a made record of its class"
fn of_types(values: &[Value], types: &[u8], records: &[Record]) -> bool {
    values.len() == types.len()
        && values.iter().zip(types).all(|(value, byte)| byte_of_type(value.ty()) == *byte)
        && values.iter().all(|value| match value {
            Value::Reference { class, record: Some(number) } => {
                records.get(*number).is_some_and(|r| r.class as u16 == *class)
            }
            _ => true,
        })
}

/// "each activation is where the loading rules allow, all but the top at a call of the next,
/// arguments taken, with as many holds as found there"
fn sound_activation(loaded: &Loaded, records: &[Record], t: &Activation, next: Option<&Activation>) -> bool {
    let m = &loaded.code;
    if t.body >= m.bodies.len() {
        return false;
    }
    let body = &m.bodies[t.body];
    if t.address < body.first as usize || t.address >= m.body_end(t.body) {
        return false;
    }
    let found = &loaded.found[t.address];
    let mut types = found.types.clone();
    if let Some(next) = next {
        let i = m.code[t.address];
        if i.op != 10 || i.b as i64 != next.body as i64 {
            return false;
        }
        let arguments = m.bodies[next.body].parameters as usize;
        types.truncate(types.len() - arguments);
    }
    t.holds.len() == found.holds
        && groups(&t.holds)
        && of_types(&t.cells, &body.cells, records)
        && of_types(&t.stack, &types, records)
}

/// The sound state that the bytes stand for, if any.
pub fn sound_state(loaded: &Loaded, bytes: &[u8]) -> Option<State> {
    let state = decode(&loaded.code, bytes)?;
    if sound(loaded, &state) {
        Some(state)
    } else {
        None
    }
}

/// "A start takes a macro and these bytes, tests 8, 9 and the length by 10, and writes the
/// fresh state."
pub fn start(code: &[u8], state: &mut [u8]) -> Result<(), Refusal> {
    let loaded = judge_macro(code)?;
    if state.len() != LENGTH {
        return refuse(10, 0);
    }
    state.copy_from_slice(&encode(&fresh(&loaded.code)));
    Ok(())
}

/// "A run tests 8, 9, 10, 11 in order." A refused run changes nothing.
pub fn run_bytes(code: &[u8], state: &mut [u8], readings: &[u8], allowance: u16) -> Answer {
    let loaded = match judge_macro(code) {
        Ok(loaded) => loaded,
        Err(refusal) => return Answer::Refusal(refusal),
    };
    let mut moved = match sound_state(&loaded, state) {
        Some(moved) => moved,
        None => return Answer::Refusal(Refusal { number: 10, place: 0 }),
    };
    let answer = run(&loaded.code, &mut moved, readings, allowance).expect("a sound state is never stuck");
    if !matches!(answer, Answer::Refusal(_)) {
        state.copy_from_slice(&encode(&moved));
    }
    answer
}

/// Tag, steps, first and second of a play, "what a list of runs with the same readings gives": the tests of a run, once; then the machine runs with what
/// is left of the allowance, as long as it gives events and another eight bytes are free. A refused play changes nothing.
pub fn play_bytes(code: &[u8], state: &mut [u8], readings: &[u8], allowance: u16, answers: &mut [u8]) -> [u64; 4] {
    if let refused @ Answer::Refusal(_) = run_bytes(code, &mut state.to_vec(), readings, 0) {
        return refused.numbers();
    }
    let loaded = judge_macro(code).expect("it was tested");
    let mut moved = sound_state(&loaded, state).expect("it was tested");
    let mut taken = 0;
    for (events, place) in answers.chunks_exact_mut(8).enumerate() {
        let answer = run(&loaded.code, &mut moved, readings, allowance - taken).expect("a sound state is never stuck");
        state.copy_from_slice(&encode(&moved));
        let [tag, steps, first, _] = answer.numbers();
        taken += steps as u16;
        if tag == 2 || tag == 3 {
            return [tag, taken as u64, first, events as u64];
        }
        place.copy_from_slice(&answer.packed().to_le_bytes());
    }
    [8, taken as u64, 0, (answers.len() / 8) as u64]
}
