//! A table as text: one entry a line, `kind a b`, with comments after `#`, and lines that are empty or a comment only. Blanks
//! before, between and behind the numbers are free, so that an entry's operands can stand further in than the entry.

use std::fmt;
use std::str::FromStr;

/// Bytes of an entry: kind (u16), a (u16), b (32 bits, signed), little-endian.
const ENTRY_BYTES: usize = 8;

/// Why a text is no table: the line, counted from 1, and what is wrong with it.
#[derive(Debug, PartialEq)]
pub struct Unreadable {
    pub line: usize,
    pub what: String,
}

impl fmt::Display for Unreadable {
    fn fmt(&self, f: &mut fmt::Formatter<'_>) -> fmt::Result {
        write!(f, "line {}: {}", self.line, self.what)
    }
}

/// The bytes of the table that a text stands for.
pub fn to_table(text: &str) -> Result<Vec<u8>, Unreadable> {
    let mut table = Vec::new();
    for (i, line) in text.lines().enumerate() {
        let entry = line.split('#').next().unwrap_or("");
        let words: Vec<&str> = entry.split_whitespace().collect();
        let read = match words[..] {
            [] => continue,
            [kind, a, b] => read_entry(kind, a, b),
            _ => Err(format!("an entry is three numbers, `kind a b`; there {}", counted(words.len()))),
        };
        table.extend(read.map_err(|what| Unreadable { line: i + 1, what })?);
    }
    Ok(table)
}

fn counted(words: usize) -> String {
    match words {
        1 => "is 1 word".to_string(),
        n => format!("are {n} words"),
    }
}

fn read_entry(kind: &str, a: &str, b: &str) -> Result<[u8; ENTRY_BYTES], String> {
    let [k0, k1] = number::<u16>("kind", kind, "0 to 65535")?.to_le_bytes();
    let [a0, a1] = number::<u16>("a", a, "0 to 65535")?.to_le_bytes();
    let [b0, b1, b2, b3] = number::<i32>("b", b, "-2147483648 to 2147483647")?.to_le_bytes();
    Ok([k0, k1, a0, a1, b0, b1, b2, b3])
}

/// A decimal number in range; the message says which of an entry's three it is.
fn number<T: FromStr>(name: &str, word: &str, range: &str) -> Result<T, String> {
    let digits = word.strip_prefix('-').unwrap_or(word);
    if digits.is_empty() || !digits.bytes().all(|byte| byte.is_ascii_digit()) {
        return Err(format!("{name} is no decimal number: {word}"));
    }
    word.parse().map_err(|_| format!("{name} is {word}, but must be {range}"))
}

/// The text of a table, an entry a line, without comments; or why there is none.
pub fn to_text(table: &[u8]) -> Result<String, String> {
    let entries = table.chunks_exact(ENTRY_BYTES);
    if !entries.remainder().is_empty() {
        return Err(format!("a table has {ENTRY_BYTES} bytes an entry; {} bytes are left over after {} entries", entries.remainder().len(), entries.len()));
    }
    let mut text = String::new();
    for e in entries {
        let kind = u16::from_le_bytes([e[0], e[1]]);
        let a = u16::from_le_bytes([e[2], e[3]]);
        let b = i32::from_le_bytes([e[4], e[5], e[6], e[7]]);
        text.push_str(&format!("{kind} {a} {b}\n"));
    }
    Ok(text)
}
