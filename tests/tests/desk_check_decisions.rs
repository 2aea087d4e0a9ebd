//! Every decision of docs/DECISIONS.md on the refusals 1 to 6, by its number, on the second evaluator and, where it is
//! linked, `cue_check`. Not here: L5, L10 and L12, of which a table check says nothing. The paper's own examples are in
//! paper_examples.rs, more on single sentences in names.rs.

use second::evaluator::table::{bytes_of, Entry};
use second::generate::notation::{each, entries, LISTING_EXAMPLE};
use second::harness::verdicts::{judged, verdict};

const ACCEPTED: (u8, usize) = (0, 0);

/// The verdict on a root with these statements, of which there is one.
fn statement(text: &str) -> (u8, usize) {
    verdict(&format!("1 0 1, {text}"))
}

/// The verdict on a root with this one declaration.
fn declaration(text: &str) -> (u8, usize) {
    verdict(&format!("1 1 0, {text}"))
}

/// So many variables with names from this one on.
fn variables(from: usize, count: usize) -> String {
    each(count, |i| format!("10 {} 1", from + i))
}

/// A set whose level is a sum to the right with this innermost: it needs `sums` + 1 more than that.
fn waiting(sums: usize, innermost: &str) -> String {
    format!("28 0 0, 40 0 1, {}{innermost}", "49 1 0, 40 0 1,".repeat(sums))
}

// Reading a table (refusals 1 and 2)

#[test]
fn r1_the_first_entry_that_a_reader_cannot_accept() {
    assert_eq!(verdict("1 0 2, 99 0 0, 98 0 0"), (2, 1));
    assert_eq!(verdict("1 0 2, 28 0 0, 40 0 1, 99 0 0, 98 0 0"), (2, 3));
    // An entry is accepted where it stands, whatever follows it.
    assert_eq!(verdict("1 0 1, 22 0 0, 40 0 1, 40 0 1"), (2, 3));
}

#[test]
fn r2_no_count_is_compared_with_the_entries_left() {
    assert_eq!(verdict("1 0 5, 1 0 0"), (2, 2));
    assert_eq!(verdict("1 65535 2147483647"), (2, 1));
    assert_eq!(statement("27 1 2147483647, 40 0 1"), (2, 3));
    assert_eq!(statement("30 65535 0, 40 0 1, 1 0 0, 99 0 0"), (2, 4));
}

#[test]
fn r3_an_entry_after_the_tree() {
    assert_eq!(verdict("1 0 0, 1 0 0"), (2, 1));
    assert_eq!(verdict("1 0 1, 1 0 0, 99 0 0, 98 0 0"), (2, 2));
    // Before names are judged.
    assert_eq!(verdict("1 0 1, 25 9 0, 1 0 0"), (2, 2));
}

#[test]
fn r4_an_assignment_to_what_is_no_variable_and_no_field() {
    for target in [40, 41, 42, 43, 45, 47, 50, 53, 1, 10, 99] {
        assert_eq!(statement(&format!("21 0 0, {target} 0 0, 40 0 1")), (2, 2), "{target}");
    }
    assert_eq!(verdict("1 1 1, 10 1 1, 21 0 0, 44 1 0, 40 0 1"), ACCEPTED);
}

/// The fields that the paper names for each kind: a, b.
const NAMED: [(u16, bool, bool); 29] = [
    (1, true, true),
    (10, true, true),
    (11, true, true),
    (12, true, true),
    (14, true, false),
    (20, true, false),
    (21, false, false),
    (22, false, false),
    (23, false, false),
    (24, false, false),
    (25, true, false),
    (26, false, false),
    (27, true, true),
    (28, false, false),
    (30, true, false),
    (31, true, false),
    (40, false, true),
    (41, false, true),
    (42, false, true),
    (43, true, false),
    (44, true, false),
    (45, true, true),
    (46, true, false),
    (47, true, true),
    (48, true, false),
    (49, true, false),
    (50, false, false),
    (51, false, false),
    (53, true, true),
];

#[test]
fn r5_a_field_that_is_not_named_is_not_0() {
    let list = entries(
        "1 2 11, 11 1 1, 10 2 1, 14 3 0, 20 4 0, 21 0 0, 46 2 0, 47 1 1, 40 0 1, 48 20 0, 40 0 1, 22 0 0, 41 0 1, 25 4 0,
         23 0 0, 41 0 1, 1 0 0, 1 0 0, 24 0 0, 41 0 1, 1 0 0, 26 0 0, 49 10 0, 42 0 1, 42 0 1, 28 0 0, 51 0 0, 40 0 1, 40 0 1,
         31 1 0, 40 0 1, 40 0 1, 40 0 1, 1 0 0, 30 1 0, 40 0 1, 1 0 0, 26 0 0, 49 10 0, 43 1 0, 43 1 0, 28 0 0, 40 0 1, 50 0 0, 41 0 1, 40 0 1, 53 1 0, 10 1 1, 44 1 0",
    );
    assert_eq!(judged(&bytes_of(&list)), ACCEPTED);
    for (kind, a_named, b_named) in NAMED {
        for at in (0..list.len()).filter(|i| list[*i].kind == kind) {
            let with = |e: Entry| {
                let mut other = list.clone();
                other[at] = e;
                judged(&bytes_of(&other))
            };
            for a in [1, 20, 65_535].into_iter().filter(|_| !a_named) {
                assert_eq!(with(Entry { a, ..list[at] }), (2, at), "{kind}");
            }
            for b in [1, -1, 65_536, i32::MIN, i32::MAX].into_iter().filter(|_| !b_named) {
                assert_eq!(with(Entry { b, ..list[at] }), (2, at), "{kind}");
            }
        }
    }
}

#[test]
fn r6_a_count_is_negative() {
    assert_eq!(verdict("1 0 -1"), (2, 0));
    for kind in [1, 27] {
        assert_eq!(statement(&format!("{kind} 0 -1")), (2, 1));
    }
    for kind in [45, 47, 53] {
        assert_eq!(statement(&format!("26 0 0, {kind} 0 -2147483648, 41 0 1")), (2, 2));
    }
}

#[test]
fn r7_the_first_entry_is_not_of_kind_1() {
    for (kind, ..) in NAMED {
        assert_eq!(verdict(&format!("{kind} 0 0")), if kind == 1 { ACCEPTED } else { (2, 0) });
    }
}

#[test]
fn r8_a_type_code() {
    for ty in [0, 4, 65_535, 131_072, -1, -65_536, i32::MIN, i32::MAX] {
        assert_eq!(declaration(&format!("10 1 {ty}")), (2, 1));
        assert_eq!(declaration(&format!("11 1 1, 10 2 {ty}")), (2, 2));
        assert_eq!(declaration(&format!("12 1 256, 10 2 {ty}, 1 0 0")), (2, 2));
    }
    for ty in [1, 2, 3] {
        assert_eq!(declaration(&format!("10 1 {ty}")), ACCEPTED);
    }
    for name in [0, 65_535] {
        assert_eq!(verdict(&format!("1 2 0, 11 {name} 1, 10 1 1, 10 2 {}", 65_536 + name)), ACCEPTED);
    }
}

#[test]
fn r9_the_fields_of_a_class() {
    for (fields, expected) in [(-1, (2, 1)), (0, (2, 1)), (1, ACCEPTED), (8, ACCEPTED), (9, (2, 1)), (256, (2, 1))] {
        let list = variables(10, fields.clamp(0, 9) as usize);
        assert_eq!(declaration(&format!("11 1 {fields}, {list}")), expected);
    }
}

#[test]
fn r10_the_heading_of_a_procedure() {
    let heading = |b: i32, body: &str| declaration(&format!("12 1 {b}, {}{body}", variables(10, (b / 256).clamp(0, 9) as usize)));
    for parameters in [0, 8] {
        assert_eq!(heading(256 * parameters, "1 0 0"), ACCEPTED);
        for (result, body) in [(1, "40 0 1"), (2, "41 0 1"), (3, "42 0 1")] {
            assert_eq!(heading(256 * parameters + result, body), ACCEPTED);
        }
        for result in [4, 255] {
            assert_eq!(heading(256 * parameters + result, "40 0 1"), (2, 1));
        }
    }
    for b in [-1, -256, 256 * 9, i32::MIN, i32::MAX] {
        assert_eq!(heading(b, "1 0 0"), (2, 1));
    }
}

#[test]
fn r11_a_held_group() {
    assert_eq!(declaration("14 63 0"), ACCEPTED);
    assert_eq!(declaration("14 64 0"), (2, 1));
    assert_eq!(declaration("14 65535 0"), (2, 1));
}

#[test]
fn r12_a_logical_constant() {
    for (b, expected) in [(0, ACCEPTED), (1, ACCEPTED), (2, (2, 2)), (-1, (2, 2)), (i32::MIN, (2, 2))] {
        assert_eq!(statement(&format!("26 0 0, 41 0 {b}")), expected);
    }
}

#[test]
fn r13_operators() {
    for operator in (0..=25).chain([256, 65_535]) {
        let unary = statement(&format!("26 0 0, 48 {operator} 0, 40 0 1"));
        let binary = statement(&format!("26 0 0, 49 {operator} 0, 40 0 1, 40 0 1"));
        assert_eq!(unary == (2, 2), !(20..=22).contains(&operator), "{operator}");
        assert_eq!(binary == (2, 2), !(1..=15).contains(&operator), "{operator}");
    }
}

#[test]
fn r14_a_case_without_statements() {
    assert_eq!(statement("30 0 0, 40 0 1"), (2, 1));
    assert_eq!(statement("30 1 0, 40 0 1, 1 0 0"), ACCEPTED);
}

#[test]
fn r15_where_a_label_stands() {
    assert_eq!(declaration("12 1 0, 20 5 0"), (2, 2));
    let second_arms = ["23 0 0, 41 0 1, 1 0 0", "30 2 0, 40 0 1, 1 0 0"];
    let first_arms = ["22 0 0, 41 0 1", "24 0 0, 41 0 1", "30 1 0, 40 0 1", "23 0 0, 41 0 1", "31 5 0, 40 0 1, 40 0 1, 40 0 1"];
    for before in first_arms.into_iter().chain(second_arms) {
        let place = 1 + entries(before).len();
        assert_eq!(statement(&format!("{before}, 20 5 0")), (2, place), "{before}");
    }
    assert_eq!(statement("1 0 1, 20 5 0"), ACCEPTED);
    assert_eq!(statement("26 0 0, 53 0 1, 20 5 0, 41 0 1"), ACCEPTED);
}

#[test]
fn r16_a_class_or_a_procedure_outside_the_roots_head() {
    for inner in ["11 1 1, 10 2 1", "12 1 0, 1 0 0"] {
        assert_eq!(statement(&format!("1 1 0, {inner}")), (2, 2));
        assert_eq!(statement(&format!("26 0 0, 53 1 0, {inner}, 41 0 1")), (2, 3));
        assert_eq!(declaration(&format!("12 9 0, 1 1 0, {inner}")), (2, 3));
        assert_eq!(statement(inner), (2, 1));
    }
}

#[test]
fn r17_a_kind_that_may_not_stand_there() {
    for kind in [1, 11, 12, 14, 20, 44, 99] {
        assert_eq!(declaration(&format!("11 1 1, {kind} 1 1")), (2, 2));
        assert_eq!(declaration(&format!("12 1 256, {kind} 1 1, 1 0 0")), (2, 2));
    }
    for (kind, ..) in NAMED {
        let (is_declaration, is_statement) = (matches!(kind, 10..=14), kind == 1 || matches!(kind, 20..=31));
        let is_expression = kind >= 40;
        let a = if matches!(kind, 48) { 20 } else { matches!(kind, 10 | 30 | 49) as u16 };
        let b = matches!(kind, 10 | 11) as i32;
        assert_eq!(declaration(&format!("{kind} {a} {b}")) == (2, 1), !is_declaration, "{kind}");
        assert_eq!(statement(&format!("{kind} {a} {b}")) == (2, 1), !is_statement, "{kind}");
        assert_eq!(statement(&format!("26 0 0, {kind} {a} {b}")) == (2, 2), !is_expression, "{kind}");
    }
    for kind in [0, 2, 9, 13, 15, 19, 29, 32, 39, 52, 54, 99, 256, 257, 65_535] {
        assert_eq!(statement(&format!("{kind} 0 0")), (2, 1));
        assert_eq!(declaration(&format!("{kind} 0 0")), (2, 1));
        assert_eq!(statement(&format!("26 0 0, {kind} 0 0")), (2, 2));
    }
}

#[test]
fn r18_the_17th_class_and_the_64th_procedure() {
    let head = |classes: usize, procedures: usize, more: &str| {
        let classes_text = each(classes, |i| format!("11 {} 1, 10 {} 1", 2 * i, 2 * i + 1));
        let procedures_text = each(procedures, |i| format!("12 {} 0, 1 0 0", 1_000 + i));
        let count = classes + procedures + !more.is_empty() as usize;
        verdict(&format!("1 {count} 0, {classes_text}{procedures_text}{more}"))
    };
    assert_eq!(head(16, 0, ""), ACCEPTED);
    assert_eq!(head(17, 0, ""), (2, 33));
    assert_eq!(head(0, 63, ""), ACCEPTED);
    assert_eq!(head(0, 64, ""), (2, 127));
    assert_eq!(head(16, 63, "10 900 1"), ACCEPTED);
    assert_eq!(head(16, 63, "11 900 1, 10 901 1"), (2, 159));
    assert_eq!(head(16, 63, "12 900 0, 1 0 0"), (2, 159));
}

#[test]
fn r19_depth_65() {
    let blocks = |n: usize| format!("{}1 0 0", "1 0 1,".repeat(n - 1));
    assert_eq!(verdict(&blocks(64)), ACCEPTED);
    assert_eq!(verdict(&blocks(65)), (2, 64));
    // A leaf of any sort, behind others that are not so deep.
    for leaf in ["1 1 0, 10 1 1", "1 0 1, 20 1 0", "26 0 0, 41 0 1", "1 1 0, 14 1 0"] {
        let at = |depth: usize| verdict(&format!("{}1 0 2, 1 0 0, {leaf}", "1 0 1,".repeat(depth - 3)));
        assert_eq!(at(64), ACCEPTED, "{leaf}");
        assert_eq!(at(65), (2, 65), "{leaf}");
    }
}

#[test]
fn r20_the_statement_count_includes_labels() {
    assert_eq!(verdict(LISTING_EXAMPLE), ACCEPTED);
    assert_eq!(verdict("1 0 2, 20 1 0, 1 0 0"), ACCEPTED);
    assert_eq!(verdict("1 0 1, 20 1 0, 1 0 0"), (2, 2));
    assert_eq!(statement("26 0 0, 53 0 1, 20 1 0, 41 0 1"), ACCEPTED);
    assert_eq!(statement("26 0 0, 53 0 0, 20 1 0, 41 0 1"), (2, 3));
}

// Names, types and reach (refusals 3, 4, 5)

#[test]
fn n1_the_first_entry_in_postorder_and_its_least_number() {
    // Inner before outer, left before right, whatever the numbers.
    assert_eq!(statement("28 0 0, 49 1 0, 41 0 1, 40 0 1, 44 7 0"), (4, 2));
    assert_eq!(statement("28 0 0, 44 7 0, 49 1 0, 41 0 1, 40 0 1"), (3, 2));
    assert_eq!(statement("49 1 0, 44 7 0, 41 0 1"), (2, 1));
    assert_eq!(statement("26 0 0, 49 1 0, 44 7 0, 41 0 1"), (3, 3));
    // 3 before 4 at one entry: a kind 10 that is twice and whose class is no class.
    assert_eq!(verdict("1 2 0, 10 1 1, 10 1 65537"), (3, 2));
}

#[test]
fn n2_a_fault_depends_on_the_whole_table() {
    assert_eq!(verdict("1 2 0, 12 1 0, 21 0 0, 44 2 0, 40 0 1, 10 2 1"), ACCEPTED);
    assert_eq!(verdict("1 2 0, 12 1 0, 27 2 0, 12 2 0, 27 1 0"), ACCEPTED);
    assert_eq!(verdict("1 2 0, 10 2 65539, 11 3 1, 10 4 65539"), ACCEPTED);
    assert_eq!(verdict("1 0 2, 25 1 0, 20 1 0"), ACCEPTED);
    // A label that comes later hides what is outside already before it.
    assert_eq!(verdict("1 1 1, 10 1 1, 1 0 2, 28 0 0, 40 0 1, 44 1 0, 20 1 0"), (4, 5));
    assert_eq!(verdict("1 1 1, 10 1 1, 1 0 2, 21 0 0, 44 1 0, 40 0 1, 20 1 0"), (4, 4));
}

#[test]
fn n3_the_blocks_that_hold_names() {
    // One name in the root, as a parameter, in the body's block, in a block expression in it, and in a block in that.
    let inner = "1 1 1, 10 1 3, 26 0 0, 49 10 0, 44 1 0, 42 0 1";
    let value = format!("53 1 1, 10 1 2, {inner}, 44 1 0");
    let body = format!("1 1 1, 10 1 65538, 26 0 0, {value}");
    assert_eq!(verdict(&format!("1 3 0, 10 1 1, 11 2 1, 10 3 1, 12 4 256, 10 1 2, {body}")), ACCEPTED);
    // A block expression's value is inside it; what stands beside the block is not.
    assert_eq!(statement("28 0 0, 40 0 1, 53 1 0, 10 1 1, 44 1 0"), ACCEPTED);
    assert_eq!(statement("28 0 0, 53 1 0, 10 1 1, 40 0 1, 44 1 0"), (3, 5));
    assert_eq!(declaration("12 1 257, 10 2 1, 44 2 0"), ACCEPTED);
}

/// What defines a name in the root: the definition's text, and where in it the name 1 is defined.
const DEFINERS: [(&str, usize); 4] = [("10 1 1", 0), ("11 1 1, 10 50 1", 0), ("11 51 1, 10 1 1", 1), ("12 1 0, 1 0 0", 0)];

#[test]
fn n4_a_block_has_a_single_name_space() {
    for (first, _) in DEFINERS {
        for (second, at) in DEFINERS {
            let second = second.replace("50", "60").replace("51", "61");
            let place = 1 + entries(first).len() + at;
            assert_eq!(verdict(&format!("1 2 0, {first}, {second}")), (3, place), "{first}; {second}");
        }
        // and a label
        assert_eq!(verdict(&format!("1 1 1, {first}, 20 1 0")), (3, 1 + entries(first).len()), "{first}");
    }
    assert_eq!(statement("1 1 1, 10 1 1, 20 1 0"), (3, 3));
    assert_eq!(statement("1 0 2, 20 1 0, 20 1 0"), (3, 3));
    assert_eq!(declaration("12 9 512, 10 1 1, 10 1 2, 1 0 0"), (3, 3));
}

#[test]
fn n5_a_hold_declares_no_name() {
    assert_eq!(verdict("1 3 1, 14 1 0, 10 1 1, 14 1 0, 1 2 0, 14 1 0, 14 1 0"), ACCEPTED);
    assert_eq!(verdict("1 1 1, 14 1 0, 28 0 0, 40 0 1, 44 1 0"), (3, 4));
}

#[test]
fn n6_a_label_hides_a_variable_of_an_outer_block() {
    assert_eq!(verdict("1 1 1, 10 1 1, 1 0 2, 20 1 0, 21 0 0, 44 1 0, 40 0 1"), (4, 5));
    assert_eq!(verdict("1 1 2, 10 1 1, 1 0 1, 20 1 0, 21 0 0, 44 1 0, 40 0 1"), ACCEPTED);
}

#[test]
fn n7_the_definition_with_the_higher_index() {
    assert_eq!(verdict("1 3 0, 10 1 1, 10 2 1, 10 1 1"), (3, 3));
    // A class is judged after its fields, a procedure after its body, but it is the later entry that is at fault.
    assert_eq!(declaration("11 1 2, 10 2 1, 10 1 1"), (3, 3));
    assert_eq!(verdict("1 2 0, 12 1 0, 1 0 0, 10 1 1"), (3, 3));
    assert_eq!(verdict("1 2 1, 10 1 1, 12 2 0, 1 0 0, 20 2 0"), (3, 4));
}

#[test]
fn n8_a_lookup_finds_the_definition_with_the_lower_index() {
    // The procedure assigns to 2 and is judged before the second definition's fault.
    assert_eq!(verdict("1 3 0, 12 1 0, 21 0 0, 44 2 0, 40 0 1, 10 2 1, 10 2 2"), (3, 6));
    assert_eq!(verdict("1 3 0, 12 1 0, 21 0 0, 44 2 0, 40 0 1, 10 2 2, 10 2 1"), (4, 2));
    assert_eq!(verdict("1 1 2, 10 1 1, 25 1 0, 20 1 0"), (4, 2));
    assert_eq!(verdict("1 0 3, 25 1 0, 20 1 0, 20 1 0"), (3, 3));
}

#[test]
fn n9_where_the_class_of_a_type_is_looked_up() {
    let class = "11 1 1, 10 2 1";
    // a variable from its own block, a parameter from its parameter block, a field from the root
    assert_eq!(verdict(&format!("1 1 1, {class}, 1 1 0, 10 3 65537")), ACCEPTED);
    assert_eq!(verdict(&format!("1 1 1, {class}, 1 1 0, 10 1 65537")), (4, 4));
    assert_eq!(verdict(&format!("1 1 1, {class}, 1 1 1, 10 3 65537, 20 1 0")), (4, 4));
    assert_eq!(verdict(&format!("1 2 0, {class}, 12 4 512, 10 1 1, 10 3 65537, 1 0 0")), (4, 5));
    assert_eq!(verdict(&format!("1 2 0, {class}, 12 4 256, 10 3 65537, 1 1 0, 10 1 1")), ACCEPTED);
    assert_eq!(declaration("11 1 2, 10 2 65537, 10 3 65537"), ACCEPTED);
}

#[test]
fn n10_a_type_of_no_class() {
    assert_eq!(declaration("10 1 65540"), (3, 1));
    assert_eq!(declaration("10 1 65537"), (4, 1));
    assert_eq!(declaration("11 1 1, 10 2 65540"), (3, 2));
    assert_eq!(declaration("12 1 256, 10 2 65537, 1 0 0"), (4, 2));
    for definer in ["10 4 1", "11 5 1, 10 4 1", "12 4 0, 1 0 0"] {
        assert_eq!(verdict(&format!("1 2 0, 10 1 65540, {definer}")), (4, 1));
    }
    assert_eq!(verdict("1 1 1, 10 1 65540, 20 4 0"), (4, 1));
}

#[test]
fn n11_types_are_identical_if_their_codes_are_equal() {
    let classes = "11 1 1, 10 2 1, 11 3 1, 10 4 1";
    let assign = |from: usize| verdict(&format!("1 3 1, {classes}, 10 5 65537, 21 0 0, 44 5 0, 43 {from} 0"));
    assert_eq!(assign(1), ACCEPTED);
    assert_eq!(assign(3), (4, 6));
    for (ty, kind) in [(1, 40), (2, 41), (3, 42)] {
        for other in [40, 41, 42] {
            let expected = if kind == other { ACCEPTED } else { (4, 2) };
            assert_eq!(verdict(&format!("1 1 1, 10 1 {ty}, 21 0 0, 44 1 0, {other} 0 1")), expected);
        }
    }
}

#[test]
fn n12_a_name_of_the_wrong_sort() {
    let head = "1 4 2, 10 1 1, 11 2 1, 10 3 1, 12 4 0, 1 0 0, 12 5 1, 40 0 1, 20 6 0";
    let used = |text: &str| verdict(&format!("{head}, {text}"));
    // A variable, a class, a field, a proper procedure, a function and a label; each use takes one of them.
    for name in 1..=6 {
        let expected = |right: usize, place: usize| if name == right { ACCEPTED } else { (4, place) };
        assert_eq!(used(&format!("28 0 0, 40 0 1, 44 {name} 0")), expected(1, 11));
        assert_eq!(used(&format!("26 0 0, 49 10 0, 43 {name} 0, 43 2 0")), expected(2, 11));
        assert_eq!(used(&format!("26 0 0, 49 10 0, 47 {name} 1, 40 0 1, 43 2 0")), expected(2, 11));
        assert_eq!(used(&format!("28 0 0, 40 0 1, 46 {name} 0, 43 2 0")), expected(3, 11));
        assert_eq!(used(&format!("27 {name} 0")), expected(4, 9));
        assert_eq!(used(&format!("28 0 0, 40 0 1, 45 {name} 0")), expected(5, 11));
        assert_eq!(used(&format!("25 {name} 0")), expected(6, 9));
    }
}

#[test]
fn n13_a_wrong_number_of_arguments_or_values() {
    for given in 0..4 {
        let operands = ", 40 0 1".repeat(given);
        let expected = |place: usize| if given == 2 { ACCEPTED } else { (4, place) };
        assert_eq!(verdict(&format!("1 1 1, 12 1 512, 10 2 1, 10 3 1, 1 0 0, 27 1 {given}{operands}")), expected(5));
        assert_eq!(verdict(&format!("1 1 1, 12 1 513, 10 2 1, 10 3 1, 40 0 1, 28 0 0, 40 0 1, 45 1 {given}{operands}")), expected(7));
        assert_eq!(verdict(&format!("1 1 1, 11 1 2, 10 2 1, 10 3 1, 26 0 0, 49 10 0, 43 1 0, 47 1 {given}{operands}")), expected(7));
    }
}

#[test]
fn n14_an_operand_of_a_wrong_type() {
    assert_eq!(verdict("1 1 1, 12 1 512, 10 2 1, 10 3 2, 1 0 0, 27 1 2, 40 0 1, 40 0 1"), (4, 5));
    assert_eq!(verdict("1 1 1, 11 1 2, 10 2 1, 10 3 2, 26 0 0, 49 10 0, 43 1 0, 47 1 2, 41 0 1, 41 0 1"), (4, 7));
    assert_eq!(statement("28 0 0, 49 1 0, 40 0 1, 42 0 1, 40 0 1"), (4, 2));
}

#[test]
fn n15_a_function_body_of_another_type() {
    for (result, of) in [(1, 40), (2, 41), (3, 42)] {
        for kind in [40, 41, 42] {
            assert_eq!(declaration(&format!("12 1 {result}, {kind} 0 1")), if kind == of { ACCEPTED } else { (4, 1) });
        }
    }
    assert_eq!(verdict("1 2 0, 11 2 1, 10 3 1, 12 1 1, 43 2 0"), (4, 3));
}

#[test]
fn n16_a_field_is_looked_up_as_any_other_name() {
    let head = "11 1 1, 10 2 1, 11 3 1, 10 4 2";
    let field = |name: u16, of: &str| verdict(&format!("1 2 1, {head}, 28 0 0, 40 0 1, 46 {name} 0, {of}"));
    assert_eq!(field(2, "43 1 0"), ACCEPTED);
    assert_eq!(field(2, "43 3 0"), (4, 7));
    assert_eq!(field(2, "40 0 1"), (4, 7));
    assert_eq!(field(9, "43 1 0"), (3, 7));
    assert_eq!(field(9, "40 0 1"), (3, 7));
    assert_eq!(field(1, "43 1 0"), (4, 7));
    assert_eq!(field(5, "43 3 0"), (3, 7));
    // The other class's field is a logical, so the set is at fault.
    assert_eq!(field(4, "43 3 0"), (4, 5));
    // An inner variable hides the field; a target's field, too.
    assert_eq!(verdict(&format!("1 2 1, {head}, 1 1 1, 10 2 1, 28 0 0, 40 0 1, 46 2 0, 43 1 0")), (4, 9));
    assert_eq!(verdict(&format!("1 2 1, {head}, 1 1 1, 10 2 1, 21 0 0, 46 2 0, 43 1 0, 40 0 1")), (4, 8));
}

#[test]
fn n17_a_goto_to_no_visible_definition() {
    assert_eq!(verdict("1 0 2, 1 0 1, 20 5 0, 25 5 0"), (3, 3));
    assert_eq!(verdict("1 0 2, 25 5 0, 1 0 1, 20 5 0"), (3, 1));
    assert_eq!(verdict("1 2 0, 12 1 0, 1 0 1, 20 5 0, 12 2 0, 25 5 0"), (3, 5));
    assert_eq!(verdict("1 0 2, 26 0 0, 53 0 1, 20 5 0, 41 0 1, 25 5 0"), (3, 5));
    // The root does not see a procedure's label, nor a procedure one of a block in the root.
    assert_eq!(verdict("1 1 1, 12 1 0, 1 0 1, 20 5 0, 25 5 0"), (3, 4));
    assert_eq!(verdict("1 1 1, 12 1 0, 25 5 0, 1 0 1, 20 5 0"), (3, 2));
}

#[test]
fn n18_a_goto_to_what_is_no_label() {
    for (definer, _) in DEFINERS {
        assert_eq!(verdict(&format!("1 1 1, {definer}, 25 1 0")), (4, 1 + entries(definer).len()), "{definer}");
    }
    assert_eq!(declaration("12 9 256, 10 1 1, 25 1 0"), (4, 3));
    // What is hidden does not count: a variable before a label, also across a procedure.
    assert_eq!(verdict("1 0 2, 20 1 0, 1 1 1, 10 1 1, 25 1 0"), (4, 4));
    assert_eq!(verdict("1 1 1, 12 2 256, 10 1 1, 25 1 0, 20 1 0"), (4, 3));
}

#[test]
fn n19_a_goto_to_a_visible_label_outside() {
    assert_eq!(verdict("1 1 1, 12 1 256, 10 2 1, 1 0 1, 1 0 1, 25 5 0, 20 5 0"), (5, 5));
    assert_eq!(verdict("1 0 2, 20 5 0, 26 0 0, 53 0 1, 25 5 0, 41 0 1"), (5, 4));
    assert_eq!(verdict("1 0 2, 20 5 0, 26 0 0, 53 0 1, 1 0 1, 25 5 0, 41 0 1"), (5, 5));
    // Out of the inner of two block expressions, into the outer.
    assert_eq!(statement("26 0 0, 53 0 2, 20 5 0, 26 0 0, 53 0 1, 25 5 0, 41 0 1, 41 0 1"), (5, 6));
    // A block expression's own variables hide nothing here.
    assert_eq!(verdict("1 0 2, 20 5 0, 26 0 0, 53 1 1, 10 6 1, 25 5 0, 41 0 1"), (5, 5));
}

#[test]
fn n20_a_goto_inside_a_block_expression() {
    assert_eq!(statement("26 0 0, 53 0 2, 20 5 0, 25 5 0, 41 0 1"), ACCEPTED);
    assert_eq!(statement("26 0 0, 53 0 2, 20 5 0, 1 0 1, 1 0 1, 25 5 0, 41 0 1"), ACCEPTED);
    assert_eq!(statement("26 0 0, 53 0 1, 1 0 2, 25 5 0, 20 5 0, 41 0 1"), ACCEPTED);
    // The same label outside, too: the inner one is found.
    assert_eq!(verdict("1 0 2, 20 5 0, 26 0 0, 53 0 2, 20 5 0, 1 0 1, 25 5 0, 41 0 1"), ACCEPTED);
    // A wall that was left behind does not count.
    assert_eq!(verdict("1 0 3, 26 0 0, 53 0 0, 41 0 1, 25 5 0, 20 5 0"), ACCEPTED);
}

/// Constants of the types 1, 2 and 3, and a null of class 900.
const OF_TYPE: [&str; 4] = ["40 0 1", "41 0 1", "42 0 1", "43 900 0"];

/// The verdict on a root with class 900 and one statement, which is entry 3.
fn with_class(text: &str) -> (u8, usize) {
    verdict(&format!("1 1 1, 11 900 1, 10 901 1, {text}"))
}

#[test]
fn n21_negate_and_abs_take_an_integer() {
    for operator in [20, 21] {
        for (i, of) in OF_TYPE.iter().enumerate() {
            let expected = if i == 0 { ACCEPTED } else { (4, 5) };
            assert_eq!(with_class(&format!("26 0 0, 49 10 0, 48 {operator} 0, {of}, 40 0 1")), expected);
        }
    }
}

#[test]
fn n22_the_arms_of_an_if_expression() {
    for (i, then) in OF_TYPE.iter().enumerate() {
        for (j, other) in OF_TYPE.iter().enumerate() {
            let expected = if i == j { ACCEPTED } else { (4, 5) };
            assert_eq!(with_class(&format!("26 0 0, 49 10 0, 50 0 0, 41 0 1, {then}, {other}, {then}")), expected);
        }
    }
}

#[test]
fn n23_tests_are_logical() {
    for (i, of) in OF_TYPE.iter().enumerate() {
        let expected = if i == 1 { ACCEPTED } else { (4, 3) };
        for (kind, statements) in [(22, ", 1 0 0"), (23, ", 1 0 0, 1 0 0"), (24, ", 1 0 0"), (26, "")] {
            assert_eq!(with_class(&format!("{kind} 0 0, {of}{statements}")), expected, "{kind}");
        }
        let expected = if i == 1 { ACCEPTED } else { (4, 5) };
        assert_eq!(with_class(&format!("28 0 0, 40 0 1, 50 0 0, {of}, 40 0 1, 40 0 1")), expected);
    }
}

#[test]
fn n24_index_channel_level_and_fader_are_integers() {
    for (i, of) in OF_TYPE.iter().enumerate() {
        let expected = |place: usize| if i == 0 { ACCEPTED } else { (4, place) };
        assert_eq!(with_class(&format!("30 1 0, {of}, 1 0 0")), expected(3));
        assert_eq!(with_class(&format!("28 0 0, {of}, 40 0 1")), expected(3));
        assert_eq!(with_class(&format!("28 0 0, 40 0 1, {of}")), expected(3));
        assert_eq!(with_class(&format!("28 0 0, 40 0 1, 51 0 0, {of}")), expected(5));
        // What a fader gives is an integer.
        assert_eq!(with_class(&format!("26 0 0, 49 10 0, 51 0 0, 40 0 1, {of}")), expected(4));
    }
}

/// More in lookup.rs.
#[test]
fn n25_its_own_names_then_its_parameters_then_the_next_block() {
    // Own name 6, parameter 5 and the root's 7, of a function's block expression and of a procedure's block.
    assert_eq!(verdict("1 2 0, 10 7 1, 12 9 257, 10 5 1, 53 1 0, 10 6 1, 49 1 0, 49 1 0, 44 6 0, 44 5 0, 44 7 0"), ACCEPTED);
    assert_eq!(verdict("1 2 0, 10 7 1, 12 9 256, 10 5 1, 1 1 2, 10 6 1, 21 0 0, 44 6 0, 44 5 0, 21 0 0, 44 7 0, 44 8 0"), (3, 11));
    // A label among the body's own names comes before the parameter.
    assert_eq!(verdict("1 1 0, 12 9 256, 10 5 1, 1 0 2, 20 5 0, 25 5 0"), ACCEPTED);
    assert_eq!(verdict("1 1 0, 12 9 256, 10 5 1, 1 0 2, 20 6 0, 25 5 0"), (4, 5));
}

#[test]
fn n26_a_body_that_is_no_block_is_a_block_without_names() {
    for body in ["21 0 0, 44 5 0, 44 5 0", "24 0 0, 41 0 0, 21 0 0, 44 5 0, 44 5 0", "30 1 0, 44 5 0, 1 1 1, 10 6 1, 21 0 0, 44 6 0, 44 5 0"] {
        assert_eq!(verdict(&format!("1 1 0, 12 9 256, 10 5 1, {body}")), ACCEPTED, "{body}");
        assert_eq!(verdict(&format!("1 1 0, 12 9 0, {body}")).0, 3, "{body}");
    }
}

#[test]
fn n27_a_name_of_a_parameter_is_not_twice_in_the_bodys_block() {
    assert_eq!(verdict("1 1 0, 12 9 256, 10 5 1, 1 1 0, 10 5 1"), ACCEPTED);
    assert_eq!(verdict("1 1 0, 12 9 256, 10 5 1, 1 2 0, 10 5 1, 10 5 1"), (3, 5));
    assert_eq!(verdict("1 1 0, 12 9 512, 10 5 1, 10 5 2, 1 1 0, 10 5 1"), (3, 3));
}

// A body's limits (6)

#[test]
fn l1_the_place_of_6() {
    let (many, few) = (format!("1 33 0, {}", variables(100, 33)), format!("1 32 0, {}", variables(100, 32)));
    assert_eq!(verdict(&format!("1 2 0, 12 1 0, {few} 12 2 0, {few}")), ACCEPTED);
    assert_eq!(verdict(&format!("1 2 0, 12 1 0, {few} 12 2 0, {many}")), (6, 35));
    assert_eq!(verdict(&format!("1 2 1, 12 1 0, {many} 12 2 0, {many} {many}")), (6, 1));
    assert_eq!(verdict(&format!("1 2 1, 12 1 0, {few} 12 2 0, {many} {many}")), (6, 35));
    assert_eq!(verdict(&format!("1 2 1, 12 1 0, {few} 12 2 0, {few} {many}")), (6, 0));
}

/// So many holds of group 1.
fn holds(count: usize) -> String {
    "14 1 0,".repeat(count)
}

#[test]
fn l2_holds_open_together() {
    assert_eq!(verdict(&format!("1 16 0, {}", holds(16))), ACCEPTED);
    assert_eq!(verdict(&format!("1 17 0, {}", holds(17))), (6, 0));
    // Along a chain of blocks and block expressions, also in the value; not side by side.
    let chain = |innermost: usize| {
        let value = format!("53 4 0, {} 53 {innermost} 0, {} 41 0 1", holds(4), holds(innermost));
        verdict(&format!("1 4 1, {} 1 4 1, {} 26 0 0, {value}", holds(4), holds(4)))
    };
    assert_eq!(chain(4), ACCEPTED);
    assert_eq!(chain(5), (6, 0));
    let beside = |first: usize| {
        let blocks: String = [first, 15, 15].iter().map(|n| format!("1 {n} 0, {}", holds(*n))).collect();
        format!("1 1 3, {} {blocks}", holds(1))
    };
    assert_eq!(verdict(&beside(15)), ACCEPTED);
    assert_eq!(verdict(&beside(16)), (6, 0));
    // In an argument, a test, an arm.
    let inside = |count: usize| format!("22 0 0, 53 {count} 0, {} 41 0 1, 1 {count} 0, {}", holds(count), holds(count));
    assert_eq!(verdict(&format!("1 8 1, {} {}", holds(8), inside(8))), ACCEPTED);
    assert_eq!(verdict(&format!("1 8 1, {} {}", holds(8), inside(9))), (6, 0));
}

#[test]
fn l3_holds_of_the_callers_are_not_counted() {
    let called = |own: usize| verdict(&format!("1 17 1, {} 12 1 0, 1 {own} 0, {} 27 1 0", holds(16), holds(own)));
    assert_eq!(called(16), ACCEPTED);
    assert_eq!(called(17), (6, 17));
}

#[test]
fn l4_the_cells_of_a_body() {
    // Parameters, variables of blocks side by side and nested, of block expressions, and one for each case.
    let cells = |inner: usize| {
        let blocks = format!("1 8 0, {} 1 {inner} 1, {} 1 4 0, {}", variables(10, 8), variables(10, inner), variables(10, 4));
        let value = format!("26 0 0, 53 4 0, {} 41 0 1", variables(20, 4));
        let cases = "30 1 0, 40 0 1, 30 1 0, 40 0 1, 1 0 0";
        verdict(&format!("1 1 0, 12 1 2048, {} 1 0 4, {blocks} {value}, {cases}", variables(10, 8)))
    };
    assert_eq!(cells(6), ACCEPTED);
    assert_eq!(cells(7), (6, 1));
    // A class's fields and another body's variables are none of the root's.
    let others = format!("11 900 8, {} 12 901 0, 1 32 0, {}", variables(500, 8), variables(10, 32));
    assert_eq!(verdict(&format!("1 34 0, {others} {}", variables(10, 32))), ACCEPTED);
    assert_eq!(verdict(&format!("1 35 0, {others} {}", variables(10, 33))), (6, 0));
}

#[test]
fn l6_the_need_of_a_procedure_is_that_of_its_body() {
    let function = |parameters: usize, sums: usize| {
        let body = format!("{} 40 0 1", "49 1 0, 40 0 1,".repeat(sums));
        declaration(&format!("12 1 {}, {} {body}", 256 * parameters + 1, variables(10, parameters)))
    };
    for parameters in [0, 8] {
        assert_eq!(function(parameters, 31), ACCEPTED);
        assert_eq!(function(parameters, 32), (6, 1));
    }
}

#[test]
fn l7_the_target_is_operand_1_and_the_value_operand_2() {
    let sums = |count: usize| format!("{}40 0 1", "49 1 0, 40 0 1,".repeat(count));
    for target in ["44 900 0", "46 901 0, 43 902 0"] {
        let head = "1 2 1, 10 900 1, 11 902 1, 10 901 1";
        let value = |count: usize| verdict(&format!("{head}, 21 0 0, {target}, {}", sums(count)));
        assert_eq!(value(30), ACCEPTED);
        assert_eq!(value(31), (6, 0));
    }
    // A target's reference counts from 0: a record whose value needs 32.
    let target = |count: usize| with_class(&format!("21 0 0, 46 901 0, 47 900 1, {}, 40 0 1", sums(count)));
    assert_eq!(target(31), ACCEPTED);
    assert_eq!(target(32), (6, 0));
}

#[test]
fn l8_classes_and_procedures_count_as_declarations_in_the_roots_need() {
    let function = format!("12 1 1, {} 40 0 1", "49 1 0, 40 0 1,".repeat(31));
    assert_eq!(verdict(&format!("1 2 1, {function}, 11 2 8, {} 28 0 0, 40 0 1, 45 1 0", variables(10, 8))), ACCEPTED);
    // The call itself needs 1, however much the function does.
    assert_eq!(verdict(&format!("1 1 1, {function}, {}", waiting(30, "45 1 0"))), ACCEPTED);
    assert_eq!(verdict(&format!("1 1 1, {function}, {}", waiting(31, "45 1 0"))), (6, 0));
}

#[test]
fn l9_an_empty_block_a_label_and_a_goto_need_1() {
    let declarations = "53 2 0, 10 1 1, 14 1 0, 40 0 1";
    for inner in ["53 0 1, 1 0 0, 40 0 1", "53 0 2, 20 5 0, 25 5 0, 40 0 1", declarations, "40 0 1", "53 0 0, 40 0 1"] {
        assert_eq!(statement(&waiting(30, inner)), ACCEPTED, "{inner}");
        assert_eq!(statement(&waiting(31, inner)), (6, 0), "{inner}");
    }
    // "a case needs at least 2"
    let case = "53 0 1, 30 1 0, 40 0 1, 1 0 0, 40 0 1";
    assert_eq!(statement(&waiting(29, case)), ACCEPTED);
    assert_eq!(statement(&waiting(30, case)), (6, 0));
}

#[test]
fn l11_the_table_check_answers_1_to_6() {
    let needy = format!("1 0 1, {}", waiting(31, "40 0 1"));
    let refused = ["", "99 0 0", "1 0 1, 25 5 0", "1 0 1, 26 0 0, 40 0 1", "1 1 1, 12 1 0, 25 5 0, 20 5 0", &needy];
    assert_eq!(refused.map(|text| verdict(text).0), [1, 2, 3, 4, 5, 6]);
}
