//! The loading check once more, written plainly for speed: one pass over the records, one over the
//! instructions, an index from address to SH. It is what the proved check is measured against; the
//! tests hold it, too, against the readable one.

const CELLS: usize = 32;

/// Where the records of a macro stand.
pub(crate) struct Records {
    pub(crate) classes: Vec<usize>,
    pub(crate) bodies: Vec<usize>,
    /// The first IN.
    pub(crate) base: usize,
    shapes: Vec<u32>,
    pub(crate) count: usize,
}

pub(crate) fn half(l: &[u8], p: usize) -> usize {
    l[p] as usize | (l[p + 1] as usize) << 8
}

fn word(l: &[u8], p: usize) -> u32 {
    u32::from_le_bytes([l[p], l[p + 1], l[p + 2], l[p + 3]])
}

fn marked(l: &[u8], p: usize, n: usize, mark: &[u8; 2]) -> bool {
    l.len() >= p + n && l[p] == mark[0] && l[p + 1] == mark[1]
}

fn is_type(t: u8, classes: usize) -> bool {
    matches!(t, 1..=3) || (t >= 16 && ((t - 16) as usize) < classes)
}

fn all_types(l: &[u8], p: usize, n: usize, classes: usize) -> bool {
    l.len() >= p + n && l[p..p + n].iter().all(|t| is_type(*t, classes))
}

/// The records, or the index of the first that does not read.
pub(crate) fn records(l: &[u8]) -> Result<Records, usize> {
    if !marked(l, 0, 8, b"HD") || l[2] > 16 || l[3] < 1 || l[3] > 64 {
        return Err(0);
    }
    let (classes, bodies, count, shapes) = (l[2] as usize, l[3] as usize, half(l, 4), half(l, 6));
    let mut r = Records { classes: Vec::with_capacity(16), bodies: Vec::with_capacity(64), base: 0, shapes: vec![0; count], count };
    let mut p = 8;
    let mut i = 1;
    for _ in 0..classes {
        if !marked(l, p, 3, b"CL") || l[p + 2] < 1 || l[p + 2] > 8 || !all_types(l, p + 3, l[p + 2] as usize, classes) {
            return Err(i);
        }
        r.classes.push(p);
        p += 3 + l[p + 2] as usize;
        i += 1;
    }
    let mut last = None;
    for _ in 0..bodies {
        if !marked(l, p, 7, b"BD") || !all_types(l, p + 7, l[p + 6] as usize, classes) {
            return Err(i);
        }
        let first = half(l, p + 2);
        let rises = match last {
            None => first == 0,
            Some(before) => first > before,
        };
        if !rises || first >= count || l[p + 4] > l[p + 6] || (l[p + 5] != 0 && !is_type(l[p + 5], classes)) {
            return Err(i);
        }
        last = Some(first);
        r.bodies.push(p);
        p += 7 + l[p + 6] as usize;
        i += 1;
    }
    r.base = p;
    for _ in 0..count {
        if !marked(l, p, 8, b"IN") {
            return Err(i);
        }
        p += 8;
        i += 1;
    }
    // the lowest address that the next SH may have
    let mut lowest = 0;
    for _ in 0..shapes {
        if !marked(l, p, 6, b"SH") || !all_types(l, p + 6, l[p + 5] as usize, classes) {
            return Err(i);
        }
        let at = half(l, p + 2);
        if at < lowest || at >= count {
            return Err(i);
        }
        lowest = at + 1;
        r.shapes[at] = p as u32;
        p += 6 + l[p + 5] as usize;
        i += 1;
    }
    if !marked(l, p, 2, b"ZZ") {
        return Err(i);
    }
    if l.len() != p + 2 {
        return Err(i + 1);
    }
    Ok(r)
}

/// The operand types, and the open holds.
pub(crate) struct Stack {
    pub(crate) types: [u8; 32],
    pub(crate) depth: usize,
    pub(crate) holds: u8,
}

impl Stack {
    fn pop(&mut self, t: u8) -> bool {
        if self.depth == 0 || self.types[self.depth - 1] != t {
            return false;
        }
        self.depth -= 1;
        true
    }

    fn push(&mut self, t: u8) -> bool {
        if self.depth == 32 {
            return false;
        }
        self.types[self.depth] = t;
        self.depth += 1;
        true
    }

    fn top(&self) -> u8 {
        if self.depth == 0 { 0 } else { self.types[self.depth - 1] }
    }

    fn take(&mut self, types: &[u8]) -> bool {
        types.iter().rev().all(|t| self.pop(*t))
    }

    fn equals(&self, l: &[u8], p: usize) -> bool {
        self.holds == l[p + 4] && self.depth == l[p + 5] as usize && self.types[..self.depth] == l[p + 6..p + 6 + self.depth]
    }

    fn trade(&mut self, takes: &[u8], gives: u8) -> bool {
        self.take(takes) && self.push(gives)
    }

    fn operate(&mut self, a: u8) -> bool {
        let t = self.top();
        match a {
            1..=5 => self.trade(&[1, 1], 1),
            6..=9 => self.trade(&[1, 1], 2),
            10 | 11 => self.trade(&[t, t], 2),
            12 | 13 => (t == 2 || t == 3) && self.trade(&[t, t], t),
            14 | 15 => self.trade(&[3, 1], 3),
            20 | 21 => self.trade(&[1], 1),
            22 => (t == 2 || t == 3) && self.trade(&[t], t),
            _ => false,
        }
    }
}

/// 0 and 0, or the refusal's number and place.
pub fn load(l: &[u8]) -> (u8, usize) {
    match records(l) {
        Err(i) => (8, i),
        Ok(r) => match walk(l, &r, |_, _, _| {}) {
            None => (0, 0),
            Some(i) => (9, i),
        },
    }
}

/// The lowest address with a fault. Whoever looks is told of each address its body and the state found there.
pub(crate) fn walk(l: &[u8], r: &Records, mut look: impl FnMut(usize, usize, &Stack)) -> Option<usize> {
    let mut s = Stack { types: [0; 32], depth: 0, holds: 0 };
    let mut live = false;
    let mut k = 0;
    for i in 0..r.count {
        if k + 1 < r.bodies.len() && half(l, r.bodies[k + 1] + 2) == i {
            k += 1;
        }
        let body = r.bodies[k];
        let end = if k + 1 < r.bodies.len() { half(l, r.bodies[k + 1] + 2) } else { r.count };
        if half(l, body + 2) == i {
            if l[body + 6] as usize > CELLS || (k == 0 && (l[body + 4] != 0 || l[body + 5] != 0)) {
                return Some(i);
            }
            s.depth = 0;
            s.holds = 0;
            live = true;
        }
        let p = r.shapes[i] as usize;
        if p != 0 {
            if l[p + 4] > 16 || l[p + 5] > 32 || (live && !s.equals(l, p)) {
                return Some(i);
            }
            s.holds = l[p + 4];
            s.depth = l[p + 5] as usize;
            s.types[..s.depth].copy_from_slice(&l[p + 6..p + 6 + s.depth]);
            live = true;
        }
        if !live {
            return Some(i);
        }
        look(i, k, &s);
        let at = r.base + 8 * i;
        match op(l, r, k, end, &mut s, (l[at + 2], l[at + 3], word(l, at + 4))) {
            None => return Some(i),
            Some(on) => {
                if on && i + 1 == end || !on && i + 1 != end && r.shapes[i + 1] == 0 {
                    return Some(i);
                }
                live = on;
            }
        }
    }
    None
}

/// None for a fault, else whether control goes on to the next address.
fn op(l: &[u8], r: &Records, k: usize, end: usize, s: &mut Stack, (op, a, b): (u8, u8, u32)) -> Option<bool> {
    let plain = a == 0 && b == 0;
    let body = r.bodies[k];
    let lands = |s: &Stack| {
        let t = b as usize;
        t >= half(l, body + 2) && t < end && r.shapes[t] != 0 && s.equals(l, r.shapes[t] as usize)
    };
    let cell = |a: u8| {
        let p = if a == 0 { body } else { r.bodies[0] };
        if a < 2 && b < l[p + 6] as u32 { l[p + 7 + b as usize] } else { 0 }
    };
    let class = |a: u8| if (a as usize) < r.classes.len() { r.classes[a as usize] } else { 0 };
    let field = |a: u8| {
        let p = class(a);
        if p != 0 && b < l[p + 2] as u32 { l[p + 3 + b as usize] } else { 0 }
    };
    let good = match op {
        0 => return if plain && k == 0 && s.holds == 0 && s.depth == 0 { Some(false) } else { None },
        1 => a == 0 && s.push(1),
        2 => a == 0 && b < 2 && s.push(2),
        3 => a == 0 && s.push(3),
        4 => b == 0 && class(a) != 0 && s.push(16 + a),
        5 => cell(a) != 0 && s.push(cell(a)),
        6 => cell(a) != 0 && s.pop(cell(a)),
        7 => b == 0 && s.operate(a),
        8 => return if a == 0 && lands(s) { Some(false) } else { None },
        9 => a == 0 && s.pop(2) && lands(s),
        10 => {
            if a != 0 || b == 0 || b as usize >= r.bodies.len() {
                return None;
            }
            let p = r.bodies[b as usize];
            s.take(&l[p + 7..p + 7 + l[p + 4] as usize]) && (l[p + 5] == 0 || s.push(l[p + 5]))
        }
        11 => {
            let t = l[body + 5];
            let just = if t == 0 { s.depth == 0 } else { s.depth == 1 && s.types[0] == t };
            return if plain && k != 0 && s.holds == 0 && just { Some(false) } else { None };
        }
        12 => {
            let p = class(a);
            b == 0 && p != 0 && s.take(&l[p + 3..p + 3 + l[p + 2] as usize]) && s.push(16 + a)
        }
        13 => field(a) != 0 && s.pop(16 + a) && s.push(field(a)),
        14 => field(a) != 0 && s.pop(field(a)) && s.pop(16 + a),
        15 => plain && s.pop(1) && s.pop(1),
        16 => plain && s.pop(1) && s.push(1),
        17 => {
            if a != 0 || b > 63 || s.holds == 16 {
                return None;
            }
            s.holds += 1;
            true
        }
        18 => {
            if !plain || s.holds == 0 {
                return None;
            }
            s.holds -= 1;
            true
        }
        19 => plain && s.pop(2),
        20 => return if matches!(a, 24 | 28) && b == 0 { Some(false) } else { None },
        _ => false,
    };
    if good { Some(true) } else { None }
}
