//! Every example that paper 01 gives by name: the table of refusals and ends, the * lines and
//! their neighbours, the listing example, and "Plausible ways to get it wrong".

use second::evaluator::answer::{Answer, Refusal};
use second::evaluator::code::write_macro;
use second::evaluator::state::{run_bytes, start, LENGTH};
use second::evaluator::values::{binary, unary, Trouble, Value};
use second::generate::notation::{each, root_only, table, LISTING_EXAMPLE};
use second::harness::listings::{end_of, lines, listing_of};
use second::harness::setup::with_large_stack;
use second::harness::verdicts::{judged, loaded, loads, verdict};

// The table of refusals.

#[test]
fn refusal_1_seven_bytes() {
    assert_eq!(judged(&[1, 0, 0, 0, 0, 0, 0]), (1, 0));
    assert_eq!(judged(&[]), (1, 0));
    assert_eq!(judged(&[0; 16_392]), (1, 0));
    // 16,384 bytes are not too many: the first entry, kind 0, does not read.
    assert_eq!(judged(&[0; 16_384]), (2, 0));
    // A length that is not in eights goes before anything else.
    assert_eq!(judged(&[255; 9]), (1, 0));
}

#[test]
fn refusal_2_kind_99() {
    assert_eq!(verdict("1 0 1, 99 0 0"), (2, 1));
    assert_eq!(verdict("99 0 0"), (2, 0));
}

#[test]
fn refusal_2_assigning_to_a_kind_40() {
    assert_eq!(verdict("1 0 1, 21 0 0, 40 0 1, 40 0 1"), (2, 2));
}

#[test]
fn refusal_2_seventeen_classes() {
    let classes = |n: usize| verdict(&format!("1 {n} 0, {}", each(n, |i| format!("11 {} 1, 10 {} 1", 2 * i, 2 * i + 1))));
    assert_eq!(classes(16), (0, 0));
    assert_eq!(classes(17), (2, 33));
}

#[test]
fn refusal_3_goto_5_no_label_5() {
    assert_eq!(verdict("1 0 1, 25 5 0"), (3, 1));
    assert_eq!(verdict("1 0 2, 25 5 0, 20 5 0"), (0, 0));
}

#[test]
fn refusal_3_twice_in_a_block() {
    assert_eq!(verdict("1 2 0, 10 1 1, 10 1 1"), (3, 2));
    // the second of three, and the third only where the second is another's
    assert_eq!(verdict("1 3 0, 10 1 1, 10 1 1, 10 1 1"), (3, 2));
    // a variable and a label: the label is the later
    assert_eq!(verdict("1 1 2, 10 1 1, 1 0 0, 20 1 0"), (3, 3));
    // a field and a procedure
    assert_eq!(verdict("1 2 0, 11 1 1, 10 2 1, 12 2 0, 1 0 0"), (3, 3));
    // a parameter and a variable of the body's block are of two blocks
    assert_eq!(verdict("1 1 0, 12 1 256, 10 2 1, 1 1 0, 10 2 2"), (0, 0));
}

#[test]
fn refusal_4_true_plus_1() {
    assert_eq!(verdict("1 1 1, 10 1 1, 21 0 0, 44 1 0, 49 1 0, 41 0 1, 40 0 1"), (4, 4));
}

#[test]
fn refusal_5_goto_out_of_a_procedure() {
    assert_eq!(verdict("1 1 1, 12 1 0, 25 5 0, 20 5 0"), (5, 2));
    // and out of a block expression
    assert_eq!(verdict("1 0 2, 28 0 0, 53 0 1, 25 5 0, 40 0 1, 40 0 1, 20 5 0"), (5, 3));
    // inside it, freely
    assert_eq!(verdict("1 0 1, 28 0 0, 53 0 2, 25 5 0, 20 5 0, 40 0 1, 40 0 1"), (0, 0));
}

#[test]
fn refusal_6_thirty_three_variables() {
    let variables = |n: usize| verdict(&format!("1 {n} 0, {}", each(n, |i| format!("10 {i} 1"))));
    // "* 32 variables accepted, 33: 6"
    assert_eq!(variables(32), (0, 0));
    assert_eq!(variables(33), (6, 0));
}

#[test]
fn sixteen_open_holds_accepted_seventeen_refused() {
    let holds = |n: usize| verdict(&format!("1 {n} 0, {}", each(n, |i| format!("14 {i} 0"))));
    assert_eq!(holds(16), (0, 0));
    assert_eq!(holds(17), (6, 0));
}

#[test]
fn refusal_8_mark_qq() {
    let m = root_only("0 0 0", vec![]);
    let mut bytes = write_macro(&m);
    assert_eq!(loaded(&bytes), (0, 0));
    bytes[0] = b'Q';
    bytes[1] = b'Q';
    assert_eq!(loaded(&bytes), (8, 0));
}

#[test]
fn refusal_9_op_11_in_the_root() {
    assert_eq!(loads(&root_only("11 0 0", vec![])), (9, 0));
}

#[test]
fn refusal_10_one_byte_short() {
    let code = write_macro(&root_only("0 0 0", vec![]));
    let mut short = vec![7; LENGTH - 1];
    assert_eq!(start(&code, &mut short), Err(Refusal { number: 10, place: 0 }));
    assert_eq!(short, vec![7; LENGTH - 1]);
    let answer = run_bytes(&code, &mut short, &[0; 64], 5);
    assert_eq!(answer, Answer::Refusal(Refusal { number: 10, place: 0 }));
    assert_eq!(short, vec![7; LENGTH - 1]);
}

#[test]
fn refusal_11_sixty_three_bytes() {
    let code = write_macro(&root_only("0 0 0", vec![]));
    let mut state = vec![0; LENGTH];
    start(&code, &mut state).unwrap();
    let before = state.clone();
    for length in [63, 65, 0] {
        let answer = run_bytes(&code, &mut state, &vec![0; length], 5);
        assert_eq!(answer, Answer::Refusal(Refusal { number: 11, place: 0 }));
        assert_eq!(state, before);
    }
    assert_eq!(run_bytes(&code, &mut state, &[0; 64], 5), Answer::End { steps: 1, code: 0 });
    // also for an ended state
    assert_eq!(run_bytes(&code, &mut state, &[0; 63], 5), Answer::Refusal(Refusal { number: 11, place: 0 }));
    assert_eq!(run_bytes(&code, &mut state, &[0; 64], 0), Answer::End { steps: 0, code: 0 });
}

/// "A run tests 8, 9, 10, 11 in order."
#[test]
fn refusals_of_a_run_in_order() {
    let good = write_macro(&root_only("0 0 0", vec![]));
    let broken = write_macro(&root_only("11 0 0", vec![]));
    let mut state = vec![3; LENGTH];
    let number = |code: &[u8], state: &mut [u8], length: usize| match run_bytes(code, state, &vec![0; length], 1) {
        Answer::Refusal(refusal) => refusal.number,
        _ => 0,
    };
    assert_eq!(number(b"QQ", &mut state[1..], 63), 8);
    assert_eq!(number(&broken, &mut state[1..], 63), 9);
    assert_eq!(number(&good, &mut state[1..], 63), 10);
    assert_eq!(number(&good, &mut state, 63), 10);
    start(&good, &mut state).unwrap();
    assert_eq!(number(&good, &mut state, 63), 11);
    assert_eq!(number(&good, &mut state, 64), 0);
}

// The table of ends.

#[test]
fn end_20_2147483647_plus_1() {
    assert_eq!(lines("1 0 1, 28 0 0, 40 0 1, 49 1 0, 40 0 2147483647, 40 0 1"), ["end 20"]);
}

#[test]
fn end_21_1_rem_0() {
    assert_eq!(lines("1 0 1, 28 0 0, 40 0 1, 49 5 0, 40 0 1, 40 0 0"), ["end 21"]);
}

#[test]
fn end_22_field_of_null() {
    assert_eq!(lines("1 1 1, 11 1 1, 10 2 1, 28 0 0, 40 0 1, 46 2 0, 43 1 0"), ["end 22"]);
    // "a null target ends by 22 after the value": the reading of the value is 0, so 1 div 0 first
    assert_eq!(
        lines("1 1 1, 11 1 1, 10 2 1, 21 0 0, 46 2 0, 43 1 0, 49 4 0, 40 0 1, 51 0 0, 40 0 1"),
        ["end 21"]
    );
    assert_eq!(lines("1 1 1, 11 1 1, 10 2 1, 21 0 0, 46 2 0, 43 1 0, 51 0 0, 40 0 1"), ["end 22"]);
}

#[test]
fn end_23_assert_1_equals_2() {
    assert_eq!(lines("1 0 1, 26 0 0, 49 10 0, 40 0 1, 40 0 2"), ["end 23"]);
    assert_eq!(lines("1 0 1, 26 0 0, 49 10 0, 40 0 2, 40 0 2"), ["end 0"]);
}

#[test]
fn end_24_case_0() {
    let case = |index: i32| end_of(&format!("1 0 1, 30 2 0, 40 0 {index}, 1 0 0, 1 0 0"));
    assert_eq!(case(0), "end 24");
    assert_eq!(case(1), "end 0");
    assert_eq!(case(2), "end 0");
    assert_eq!(case(3), "end 24");
    assert_eq!(case(-1), "end 24");
    assert_eq!(case(i32::MIN), "end 24");
}

#[test]
fn end_25_set_513() {
    let set = |channel: i32, level: i32| lines(&format!("1 0 1, 28 0 0, 40 0 {channel}, 40 0 {level}"));
    // "channel 512 passes, 513: 25"
    assert_eq!(set(512, 0), ["set 512 0", "end 0"]);
    assert_eq!(set(513, 0), ["end 25"]);
    assert_eq!(set(1, 255), ["set 1 255", "end 0"]);
    assert_eq!(set(0, 255), ["end 25"]);
    assert_eq!(set(1, 256), ["end 25"]);
    assert_eq!(set(1, -1), ["end 25"]);
    let fader = |n: i32| lines(&format!("1 0 1, 28 0 0, 40 0 9, 51 0 0, 40 0 {n}"));
    assert_eq!(fader(1), ["set 9 0", "end 0"]);
    assert_eq!(fader(64), ["set 9 0", "end 0"]);
    assert_eq!(fader(0), ["end 25"]);
    assert_eq!(fader(65), ["end 25"]);
}

#[test]
fn end_26_endless_self_call() {
    // 31 calls beside the root are open, each with its set; the 32nd call is the 33rd activation.
    let told = lines("1 1 1, 12 1 0, 1 0 2, 28 0 0, 40 0 1, 40 0 2, 27 1 0, 27 1 0");
    assert_eq!(told.len(), 32);
    assert!(told[..31].iter().all(|line| line == "set 1 2"));
    assert_eq!(told[31], "end 26");
}

/// A procedure that calls itself n times and then returns: 32 activations pass, the 33rd does not.
#[test]
fn thirty_two_activations_pass() {
    let calls = |n: i32| {
        end_of(&format!(
            "1 1 1, 12 1 256, 10 2 1, 22 0 0, 49 8 0, 44 2 0, 40 0 1, 27 1 1, 49 2 0, 44 2 0, 40 0 1, 27 1 1, 40 0 {n}"
        ))
    };
    assert_eq!(calls(31), "end 0");
    assert_eq!(calls(32), "end 26");
}

#[test]
fn end_27_loop_making_records() {
    // "256 records pass"
    let records = |n: i32| {
        end_of(&format!(
            "1 3 1, 11 1 1, 10 2 1, 10 3 65537, 10 4 1, 24 0 0, 49 6 0, 44 4 0, 40 0 {n}, 1 0 2,
             21 0 0, 44 3 0, 47 1 1, 44 4 0, 21 0 0, 44 4 0, 49 1 0, 44 4 0, 40 0 1"
        ))
    };
    assert_eq!(records(256), "end 0");
    assert_eq!(records(257), "end 27");
    assert_eq!(
        end_of("1 2 1, 11 1 1, 10 2 1, 10 3 65537, 24 0 0, 41 0 1, 21 0 0, 44 3 0, 47 1 1, 40 0 7"),
        "end 27"
    );
}

// The lines marked with * and their neighbours, as values and as programs.

fn integers(operator: u16, x: i32, y: i32) -> Result<Value, Trouble> {
    binary(operator, Value::Integer(x), Value::Integer(y))
}

#[test]
fn star_div_and_rem() {
    assert_eq!(integers(4, 7, -2), Ok(Value::Integer(-3)));
    assert_eq!(integers(5, 7, -2), Ok(Value::Integer(1)));
    assert_eq!(integers(4, -7, 2), Ok(Value::Integer(-3)));
    assert_eq!(integers(5, -7, 2), Ok(Value::Integer(-1)));
    assert_eq!(integers(4, i32::MIN, -1), Err(Trouble::Condition(20)));
    assert_eq!(integers(5, i32::MIN, -1), Ok(Value::Integer(0)));
    assert_eq!(unary(21, Value::Integer(i32::MIN)), Err(Trouble::Condition(20)));
    // "zero divisor (21) before range (20)"
    assert_eq!(integers(4, i32::MIN, 0), Err(Trouble::Condition(21)));
}

#[test]
fn star_false_and_one_div_zero() {
    // if not (false and (1 div 0 = 1)) then set 1 1
    assert_eq!(
        lines(
            "1 0 1, 22 0 0, 48 22 0, 49 12 0, 41 0 0, 49 10 0, 49 4 0, 40 0 1, 40 0 0, 40 0 1, 28 0 0, 40 0 1, 40 0 1"
        ),
        ["set 1 1", "end 0"]
    );
    assert_eq!(end_of("1 0 1, 26 0 0, 49 13 0, 41 0 1, 49 10 0, 49 4 0, 40 0 1, 40 0 0, 40 0 1"), "end 0");
    assert_eq!(end_of("1 0 1, 26 0 0, 49 12 0, 41 0 1, 49 10 0, 49 4 0, 40 0 1, 40 0 0, 40 0 1"), "end 21");
}

#[test]
fn star_shifts() {
    let shift = |operator: u16, bits: u32, count: i32| binary(operator, Value::Bits(bits), Value::Integer(count));
    assert_eq!(shift(14, 1, 31), Ok(Value::Bits(0x8000_0000)));
    assert_eq!(shift(14, 1, 32), Ok(Value::Bits(0)));
    assert_eq!(shift(15, 1, -1), Ok(Value::Bits(2)));
    assert_eq!(shift(14, 2, -1), Ok(Value::Bits(1)));
    assert_eq!(shift(15, 0x8000_0000, 31), Ok(Value::Bits(1)));
    assert_eq!(shift(14, u32::MAX, i32::MIN), Ok(Value::Bits(0)));
    assert_eq!(shift(15, u32::MAX, i32::MIN), Ok(Value::Bits(0)));
    assert_eq!(shift(15, u32::MAX, -31), Ok(Value::Bits(0x8000_0000)));
}

// The listing example, in the longer form of paper 02.

#[test]
fn listing_example() {
    let printed = ["hold 7", "set 3 200", "release 7", "sets 1", "holds 1", "releases 1", "readings 0", "end 0"];
    assert_eq!(listing_of(&table(LISTING_EXAMPLE), 0), printed);
}

// "Plausible ways to get it wrong"

/// A goto out of two blocks releases the holds of both, last first, and no more.
#[test]
fn goto_out_of_several_blocks() {
    assert_eq!(
        lines("1 1 2, 14 1 0, 1 2 1, 14 2 0, 14 3 0, 1 1 1, 14 4 0, 25 9 0, 20 9 0"),
        ["hold 1", "hold 2", "hold 3", "hold 4", "release 4", "release 3", "release 2", "release 1", "end 0"]
    );
}

/// A condition releases what the callers hold, too.
#[test]
fn condition_releases_the_callers_holds() {
    assert_eq!(
        lines("1 2 1, 14 1 0, 12 5 0, 1 1 1, 14 2 0, 26 0 0, 41 0 0, 1 1 1, 14 3 0, 27 5 0"),
        ["hold 1", "hold 3", "hold 2", "release 2", "release 3", "release 1", "end 23"]
    );
}

/// A backward goto inside a block does not reset its variables; entering the block anew does.
#[test]
fn backward_goto_keeps_variables() {
    // begin integer v; L: v := v + 1; set (1, v); if v < 3 then goto L end, the whole twice
    let inner = "1 1 4, 10 1 1, 20 2 0, 21 0 0, 44 1 0, 49 1 0, 44 1 0, 40 0 1,
                 28 0 0, 40 0 1, 44 1 0, 22 0 0, 49 6 0, 44 1 0, 40 0 3, 25 2 0";
    assert_eq!(
        lines(&format!("1 0 2, {inner}, {inner}")),
        ["set 1 1", "set 1 2", "set 1 3", "set 1 1", "set 1 2", "set 1 3", "end 0"]
    );
}

/// "A group held twice is released twice."
#[test]
fn a_group_held_twice() {
    assert_eq!(
        lines("1 1 1, 14 5 0, 1 1 0, 14 5 0"),
        ["hold 5", "hold 5", "release 5", "release 5", "end 0"]
    );
}

/// A block expression's value is evaluated inside it, then its holds are let go.
#[test]
fn block_expression_lets_go_before_its_value_is_used() {
    assert_eq!(
        lines("1 0 1, 28 0 0, 53 1 1, 14 4 0, 28 0 0, 40 0 2, 40 0 3, 40 0 7, 53 1 0, 14 6 0, 40 0 8"),
        ["hold 4", "set 2 3", "release 4", "hold 6", "release 6", "set 7 8", "end 0"]
    );
}

/// Recursion with a function: 1 + 2 + ... + 20 = 210.
#[test]
fn recursive_function() {
    assert_eq!(
        lines(
            "1 1 1, 12 1 257, 10 2 1, 50 0 0, 49 8 0, 44 2 0, 40 0 0, 49 1 0, 44 2 0, 45 1 1, 49 2 0, 44 2 0, 40 0 1,
             40 0 0, 28 0 0, 40 0 1, 45 1 1, 40 0 20"
        ),
        ["set 1 210", "end 0"]
    );
}

/// Fields are apart from each other, records too, and two references may be to one record.
#[test]
fn fields_of_records() {
    // class 1 with fields 2, 3; x (4) := record (10, 20); y (5) := x; z (6) := record (1, 2);
    // field 3 of y := 30; then the fields of x and z, and whether x = y and x = z
    let field = |name: u16, of: u16| format!("28 0 0, 40 0 {name}, 46 {name} 0, 44 {of} 0");
    let equal = |v: u16, w: u16| format!("28 0 0, 40 0 9, 50 0 0, 49 10 0, 44 {v} 0, 44 {w} 0, 40 0 1, 40 0 0");
    let text = format!(
        "1 4 10, 11 1 2, 10 2 1, 10 3 1, 10 4 65537, 10 5 65537, 10 6 65537,
         21 0 0, 44 4 0, 47 1 2, 40 0 10, 40 0 20, 21 0 0, 44 5 0, 44 4 0, 21 0 0, 44 6 0, 47 1 2, 40 0 1, 40 0 2,
         21 0 0, 46 3 0, 44 5 0, 40 0 30, {}, {}, {}, {}, {}, {}",
        field(2, 4),
        field(3, 4),
        field(2, 6),
        field(3, 6),
        equal(4, 5),
        equal(4, 6)
    );
    assert_eq!(lines(&text), ["set 2 10", "set 3 30", "set 2 1", "set 3 2", "set 9 1", "set 9 0", "end 0"]);
}

/// A loop that never ends goes on; its trace grows.
#[test]
fn a_loop_without_end() {
    with_large_stack(|| {
        let told = lines("1 0 1, 24 0 0, 41 0 1, 28 0 0, 40 0 1, 40 0 2");
        assert!(told.len() > 1_000);
        assert_eq!(told.last().unwrap(), "open 0");
    });
}
