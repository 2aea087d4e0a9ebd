//! The tools for people (tools/): tables to text and back, whatever the bytes; compiled macros as text, whatever the bytes.

use cue_tools::disassembly::disassemble;
use cue_tools::entries::{to_table, to_text, Unreadable};
use second::evaluator::code::{read_macro, write_macro, Macro};
use second::evaluator::compiler::compile;
use second::evaluator::names::judge_table;
use second::evaluator::table::{bytes_of, write_tree};
use second::generate::damaged_entries::damaged_table;
use second::generate::edge_cases::edge_table;
use second::generate::macros::{damaged_macro, good_macro, Size};
use second::generate::notation::{body, code, root_only, shape, table, LISTING_EXAMPLE};
use second::generate::programs::some_program;
use second::generate::rng::Rng;
use second::generate::untyped_tables::{untyped_table, random_entries};
use second::harness::setup::{case_count, with_large_stack};

// Entries.

/// Table to text to table is the identity on tables; and the text, made again, is the same.
fn goes_round(bytes: &[u8]) {
    if !bytes.len().is_multiple_of(8) {
        assert!(to_text(bytes).is_err());
        return;
    }
    let text = to_text(bytes).unwrap();
    assert_eq!(text.lines().count(), bytes.len() / 8);
    let again = to_table(&text).unwrap();
    assert_eq!(again, bytes);
    assert_eq!(to_text(&again).unwrap(), text);
}

#[test]
fn tables_go_to_text_and_back() {
    with_large_stack(|| {
        let mut rng = Rng::new(50);
        for i in 0..case_count(10_000) {
            let bytes = match i % 5 {
                0 => {
                    bytes_of(&write_tree(&some_program(&mut rng, 40)))
                }
                1 => edge_table(&mut rng),
                2 => random_entries(&mut rng),
                3 => {
                    let entries = 1 + rng.below(60);
                    untyped_table(&mut rng, entries)
                }
                _ => (0..rng.below(200)).map(|_| rng.byte()).collect(),
            };
            goes_round(&bytes);
            let valid = write_tree(&some_program(&mut rng, 10));
            goes_round(&damaged_table(&mut rng, &valid));
        }
    });
}

/// Comments, blanks and empty lines change nothing.
#[test]
fn comments_and_blanks() {
    let text = "# a comment # and more\n\n\t1 0 1   # begin\r\n  28 0 0#set\n    40\t0  3\n 40 0 -2147483648 # ü";
    assert_eq!(to_table(text), Ok(table("1 0 1, 28 0 0, 40 0 3, 40 0 -2147483648")));
    assert_eq!(to_table(""), Ok(Vec::new()));
    assert_eq!(to_text(&table("65535 65535 2147483647")), Ok("65535 65535 2147483647\n".to_string()));
}

#[test]
fn messages_name_the_line() {
    let said = |text: &str| to_table(text).unwrap_err().to_string();
    assert_eq!(said("1 0 1\n28 0"), "line 2: an entry is three numbers, `kind a b`; there are 2 words");
    assert_eq!(said("# one\n\n7"), "line 3: an entry is three numbers, `kind a b`; there is 1 word");
    assert_eq!(said("1 0 0 0 # four"), "line 1: an entry is three numbers, `kind a b`; there are 4 words");
    assert_eq!(said("1 0 x"), "line 1: b is no decimal number: x");
    assert_eq!(said("+1 0 0"), "line 1: kind is no decimal number: +1");
    assert_eq!(said("1 - 0"), "line 1: a is no decimal number: -");
    assert_eq!(said("65536 0 0"), "line 1: kind is 65536, but must be 0 to 65535");
    assert_eq!(said("1 -1 0"), "line 1: a is -1, but must be 0 to 65535");
    assert_eq!(said("40 0 2147483648"), "line 1: b is 2147483648, but must be -2147483648 to 2147483647");
    assert_eq!(to_table("\n1 0 99999999999999999999").unwrap_err(), Unreadable { line: 2, what: "b is 99999999999999999999, but must be -2147483648 to 2147483647".to_string() });
    assert_eq!(to_text(&[1; 19]).unwrap_err(), "a table has 8 bytes an entry; 3 bytes are left over after 2 entries");
}

// Disassembly.

#[test]
fn the_listing_disassembled() {
    let (text, reads) = disassemble(&write_macro(&compile(&judge_table(&table(LISTING_EXAMPLE)).unwrap())));
    assert!(reads);
    let wanted = "\
HD classes 0, bodies 1, instructions 11, shapes 2
BD body 0: first 0, parameters 0, result none, cells: none
body 0:
     0  hold 7
     1  push integer 3
     2  push integer 200
     3  set
     4  release
     5  go to 10
    SH 6: holds 1, stack: empty
     6  release
     7  push integer 4
     8  push integer 9
     9  set
    SH 10: holds 0, stack: empty
    10  end
ZZ
";
    assert_eq!(text, wanted);
}

/// Every op, and what each record shows.
#[test]
fn every_op_has_its_name() {
    let instructions = "0 0 0, 1 0 -5, 2 0 0, 2 0 1, 3 0 255, 4 1 0, 5 0 2, 5 1 3, 6 0 4, 6 1 5, 7 1 0, 7 22 0, 7 16 0, 8 0 9, 9 0 10, 10 0 1, 11 0 0,\
        12 1 0, 13 1 2, 14 0 3, 15 0 0, 16 0 0, 17 0 63, 18 0 0, 19 0 0, 20 24 0, 21 0 0, 2 0 2, 18 0 1, 20 28 0, 20 0 0, 20 24 1";
    let m = Macro {
        classes: vec![vec![1, 16], vec![2]],
        bodies: vec![body(0, 0, 0, &[]), body(4, 1, 3, &[3, 17])],
        code: code(instructions),
        shapes: vec![shape(4, 2, &[1, 17]), shape(28, 0, &[2])],
    };
    let (text, reads) = disassemble(&write_macro(&m));
    assert!(reads);
    let lines: Vec<&str> = text.lines().map(str::trim_start).collect();
    let wanted = [
        "HD classes 2, bodies 2, instructions 32, shapes 2",
        "CL class 0: integer, class 0",
        "CL class 1: logical",
        "BD body 0: first 0, parameters 0, result none, cells: none",
        "BD body 1: first 4, parameters 1, result bits, cells: bits, class 1",
        "body 0:",
        "0  end",
        "1  push integer -5",
        "2  push logical false",
        "3  push logical true",
        "body 1:",
        "SH 4: holds 2, stack: integer, class 1",
        "4  push bits #FF",
        "5  push null of class 1",
        "6  push own cell 2",
        "7  push root's cell 3",
        "8  store own cell 4",
        "9  store root's cell 5",
        "10  operator +",
        "11  operator not",
        "12  operator 16?",
        "13  go to 9",
        "14  go to 10 if false",
        "15  call body 1",
        "16  return",
        "17  make class 1",
        "18  push field 2 of class 1",
        "19  store field 3 of class 0",
        "20  set",
        "21  fader",
        "22  hold 63",
        "23  release",
        "24  assert",
        "25  stop by 24",
        "26  op 21 a 0 b 0?",
        "27  op 2 a 0 b 2?",
        "SH 28: holds 0, stack: logical",
        "28  op 18 a 0 b 1?",
        "29  stop by 28",
        "30  op 20 a 0 b 0?",
        "31  op 20 a 24 b 1?",
        "ZZ",
    ];
    assert_eq!(lines, wanted);
}

/// Where it does not read: the record, the byte, and why.
#[test]
fn records_that_do_not_read() {
    let good = write_macro(&root_only("17 0 7, 18 0 0, 0 0 0", vec![]));
    let last = |bytes: &[u8]| {
        let (text, reads) = disassemble(bytes);
        (text.lines().last().unwrap_or("").to_string(), reads)
    };
    assert_eq!(last(&good), ("ZZ".to_string(), true));
    assert_eq!(last(&[]), ("record 0 does not read, at byte 0: the mark HD is asked for, but the macro ends".to_string(), false));
    assert_eq!(last(b"HD\x01"), ("record 0 does not read, at byte 3: the macro ends inside the record".to_string(), false));
    assert_eq!(last(b"QQ"), ("record 0 does not read, at byte 0: the mark HD is asked for, the bytes are 81 81".to_string(), false));
    let mut other = good.clone();
    other[23] = b'X';
    assert_eq!(last(&other), ("record 3 does not read, at byte 23: the mark IN is asked for, the bytes are 88 78".to_string(), false));
    other.truncate(30);
    other[23] = b'I';
    assert_eq!(last(&other), ("record 3 does not read, at byte 30: the macro ends inside the record".to_string(), false));
    let longer = [&good[..], b"ZZ"].concat();
    assert_eq!(last(&longer), ("record 6 does not read, at byte 41: 2 bytes follow ZZ".to_string(), false));
}

/// Any bytes are taken; and the text says that all of them read wherever the second evaluator reads them.
#[test]
fn any_bytes_disassemble() {
    with_large_stack(|| {
        let mut rng = Rng::new(51);
        let mut read = 0;
        let count = case_count(20_000);
        for i in 0..count {
            let m = good_macro(&mut rng, Size { bodies: 3, instructions: 12, classes: 2 });
            let bytes = match i % 4 {
                0 => write_macro(&m),
                1 => damaged_macro(&mut rng, &m),
                2 => {
                    let mut bytes = write_macro(&m);
                    for _ in 0..1 + rng.below(4) {
                        let k = rng.below(bytes.len());
                        bytes[k] = rng.byte();
                    }
                    bytes.truncate(rng.below(2 * bytes.len()));
                    bytes
                }
                _ => {
                    let noise: Vec<u8> = (0..rng.below(100)).map(|_| rng.byte()).collect();
                    [if rng.chance(50) { &b"HD"[..] } else { &b""[..] }, &noise].concat()
                }
            };
            let (text, reads) = disassemble(&bytes);
            assert_eq!(!reads, text.lines().last().unwrap_or("").contains("does not read"));
            if let Ok(m) = read_macro(&bytes) {
                assert!(reads, "{bytes:?}");
                // a line for each record, and one for each body's beginning
                let lines = 2 + m.classes.len() + 2 * m.bodies.len() + m.code.len() + m.shapes.len();
                assert_eq!(text.lines().count(), lines, "{text}");
                read += 1;
            }
        }
        assert!(count < 1_000 || (read > count / 4 && read < count), "{read} of {count}");
    });
}
