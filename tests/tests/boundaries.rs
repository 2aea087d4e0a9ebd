//! Every limit at its last allowed size and one past it. Whatever is accepted is also compiled
//! and run, so that the need, the cells and the holds are seen to be enough.

use second::evaluator::code::{Instr, Macro};
use second::evaluator::table::{bytes_of, Entry};
use second::generate::notation::{body, entries, root_only, shape};
use second::harness::listings::listing_of;
use second::harness::setup::with_large_stack;
use second::harness::verdicts::{judged, loads, verdict};

struct List(Vec<Entry>);

impl List {
    fn new() -> List {
        List(Vec::new())
    }

    fn put(&mut self, kind: u16, a: u16, b: i32) -> &mut List {
        self.0.push(Entry { kind, a, b });
        self
    }

    fn text(&mut self, text: &str) -> &mut List {
        self.0.extend(entries(text));
        self
    }

    /// So many times the same entries.
    fn repeat(&mut self, times: usize, text: &str) -> &mut List {
        for _ in 0..times {
            self.text(text);
        }
        self
    }

    /// So many variables of a type, with names from this one on.
    fn variables(&mut self, from: u16, count: u16, ty: i32) -> &mut List {
        self.0.extend((from..from + count).map(|a| Entry { kind: 10, a, b: ty }));
        self
    }

    /// So many holds, of groups from this one on.
    fn holds(&mut self, from: u16, count: u16) -> &mut List {
        self.0.extend((from..from + count).map(|a| Entry { kind: 14, a, b: 0 }));
        self
    }

    /// The verdict, and where it is accepted that tree and code agree.
    fn verdict(&self) -> (u8, usize) {
        let bytes = bytes_of(&self.0);
        let verdict = judged(&bytes);
        if verdict == (0, 0) {
            listing_of(&bytes, 3);
        }
        verdict
    }

    fn last_line(&self) -> String {
        listing_of(&bytes_of(&self.0), 3).pop().unwrap()
    }
}

// Cells.

#[test]
fn cells_of_all_blocks_count_together() {
    // two sibling blocks share nothing
    let cells = |first: u16, second: u16| {
        let mut t = List::new();
        t.put(1, 0, 2).put(1, first, 0);
        t.variables(0, first, 1);
        t.put(1, second, 0);
        t.variables(0, second, 2);
        t.verdict()
    };
    assert_eq!(cells(16, 16), (0, 0));
    assert_eq!(cells(16, 17), (6, 0));
    assert_eq!(cells(1, 32), (6, 0));
}

#[test]
fn a_case_takes_a_cell() {
    let cells = |variables: u16, cases: i32| {
        let mut t = List::new();
        t.put(1, variables, cases);
        t.variables(0, variables, 3);
        t.repeat(cases as usize, "30 1 0, 40 0 1, 1 0 0");
        t.verdict()
    };
    assert_eq!(cells(30, 2), (0, 0));
    assert_eq!(cells(31, 2), (6, 0));
    assert_eq!(cells(0, 32), (0, 0));
    assert_eq!(cells(0, 33), (6, 0));
}

#[test]
fn parameters_take_cells_and_the_place_is_the_procedure() {
    let cells = |variables: u16, root: u16| {
        let mut t = List::new();
        t.put(1, root + 2, 0);
        t.variables(100, root, 1);
        t.text("12 1 0, 1 0 0, 12 2 2048");
        t.variables(0, 8, 1);
        t.put(1, variables, 0);
        t.variables(0, variables, 1);
        t.verdict()
    };
    assert_eq!(cells(24, 32), (0, 0));
    assert_eq!(cells(25, 0), (6, 3));
    // procedures first, then the root
    assert_eq!(cells(25, 33), (6, 36));
    assert_eq!(cells(24, 33), (6, 0));
}

#[test]
fn variables_of_block_expressions_count() {
    let cells = |outer: u16, inner: u16| {
        let mut t = List::new();
        t.put(1, outer, 1);
        t.variables(0, outer, 1);
        t.text("28 0 0, 40 0 1").put(53, inner, 0);
        t.variables(0, inner, 1);
        t.put(40, 0, 5);
        t.verdict()
    };
    assert_eq!(cells(20, 12), (0, 0));
    assert_eq!(cells(20, 13), (6, 0));
}

// Holds.

#[test]
fn holds_count_along_nested_blocks_only() {
    let nested = |outer: u16, inner: u16| {
        let mut t = List::new();
        t.put(1, outer, 1);
        t.holds(0, outer);
        t.put(1, inner, 0);
        t.holds(0, inner);
        t.verdict()
    };
    assert_eq!(nested(9, 7), (0, 0));
    assert_eq!(nested(9, 8), (6, 0));
    let beside = |outer: u16, inner: u16| {
        let mut t = List::new();
        t.put(1, 0, 2);
        for n in [outer, inner] {
            t.put(1, n, 0);
            t.holds(0, n);
        }
        t.verdict()
    };
    assert_eq!(beside(16, 16), (0, 0));
    assert_eq!(beside(16, 17), (6, 0));
}

#[test]
fn holds_of_block_expressions_in_the_value_count() {
    // a block expression with eight holds whose value is one with eight or nine
    let nested = |inner: u16| {
        let mut t = List::new();
        t.text("1 0 1, 28 0 0, 40 0 1, 53 8 0");
        t.holds(0, 8);
        t.put(53, inner, 0);
        t.holds(0, inner);
        t.put(40, 0, 5);
        t.verdict()
    };
    assert_eq!(nested(8), (0, 0));
    assert_eq!(nested(9), (6, 0));
}

/// "Callers do not count": sixteen in the root and sixteen in the procedure it calls.
#[test]
fn callers_holds_do_not_count() {
    let called = |own: u16| {
        let mut t = List::new();
        t.put(1, 17, 1);
        t.holds(0, 16);
        t.put(12, 1, 0).put(1, own, 0);
        t.holds(20, own);
        t.put(27, 1, 0);
        t.verdict()
    };
    assert_eq!(called(16), (0, 0));
    assert_eq!(called(17), (6, 17));
}

// Working need.

/// set (1, 1 + (1 + (... + 1))): the set's second operand, so one more than the sum.
fn sum_to_the_right(pluses: usize) -> List {
    let mut t = List::new();
    t.text("1 0 1, 28 0 0, 40 0 1");
    t.repeat(pluses, "49 1 0, 40 0 1");
    t.text("40 0 1");
    t
}

#[test]
fn need_of_a_sum_to_the_right() {
    // the innermost + needs 2, each further one adds 1, the set adds 1
    assert_eq!(sum_to_the_right(30).verdict(), (0, 0));
    assert_eq!(sum_to_the_right(30).last_line(), "end 0");
    assert_eq!(sum_to_the_right(31).verdict(), (6, 0));
}

#[test]
fn a_sum_to_the_left_needs_two() {
    let mut t = List::new();
    t.text("1 0 1, 28 0 0");
    t.repeat(60, "49 1 0");
    t.repeat(61, "40 0 1");
    t.put(40, 0, 2);
    assert_eq!(t.verdict(), (0, 0));
    assert_eq!(t.last_line(), "end 0");
}

/// The third operand of an if-expression counts 2 more, though code for it needs none.
#[test]
fn need_of_if_expressions_is_the_papers() {
    let ifs = |n: usize| {
        let mut t = List::new();
        t.text("1 0 1, 26 0 0");
        t.repeat(n, "50 0 0, 41 0 1, 41 0 1");
        t.put(41, 0, 1);
        t.verdict()
    };
    // the innermost needs 3, each further one adds 2
    assert_eq!(ifs(15), (0, 0));
    assert_eq!(ifs(16), (6, 0));
}

/// A call's i-th argument counts i − 1 more; a record's value likewise.
#[test]
fn need_of_arguments_and_values() {
    let calls = |pluses: usize| {
        let mut t = List::new();
        t.text("1 1 1, 12 1 2048");
        t.variables(0, 8, 1);
        t.text("1 0 0, 27 1 8");
        t.repeat(7, "40 0 1");
        t.repeat(pluses, "49 1 0, 40 0 1");
        t.put(40, 0, 1);
        t.verdict()
    };
    // 7 + (pluses + 1)
    assert_eq!(calls(24), (0, 0));
    assert_eq!(calls(25), (6, 0));
    let records = |pluses: usize| {
        let mut t = List::new();
        t.text("1 1 1, 11 1 8");
        t.variables(10, 8, 1);
        t.text("26 0 0, 49 11 0, 47 1 8");
        t.repeat(7, "40 0 1");
        t.repeat(pluses, "49 1 0, 40 0 1");
        t.text("40 0 1, 43 1 0");
        t.verdict()
    };
    assert_eq!(records(24), (0, 0));
    assert_eq!(records(25), (6, 0));
}

/// A target counts as operand 1, so a field's value counts 1 more and a variable's, too.
#[test]
fn need_of_assignments() {
    let field = |pluses: usize| {
        let mut t = List::new();
        t.text("1 1 1, 11 1 1, 10 2 1, 21 0 0, 46 2 0, 47 1 1, 40 0 1");
        t.repeat(pluses, "49 1 0, 40 0 1");
        t.put(40, 0, 1);
        t.verdict()
    };
    assert_eq!(field(30), (0, 0));
    assert_eq!(field(31), (6, 0));
    let variable = |pluses: usize| {
        let mut t = List::new();
        t.text("1 1 1, 10 2 1, 21 0 0, 44 2 0");
        t.repeat(pluses, "49 1 0, 40 0 1");
        t.put(40, 0, 1);
        t.verdict()
    };
    assert_eq!(variable(30), (0, 0));
    assert_eq!(variable(31), (6, 0));
}

/// A case in a block expression far to the right: "a case needs at least 2".
#[test]
fn a_case_needs_two() {
    let deep_case = |pluses: usize, statement: &str| {
        let mut t = List::new();
        t.text("1 0 1, 28 0 0, 40 0 1");
        t.repeat(pluses, "49 1 0, 40 0 1");
        t.text("53 0 1").text(statement).put(40, 0, 1);
        t.verdict()
    };
    // 31 below it: an assert of a literal needs 1, a case 2
    assert_eq!(deep_case(30, "26 0 0, 41 0 1"), (0, 0));
    assert_eq!(deep_case(29, "30 1 0, 40 0 1, 1 0 0"), (0, 0));
    assert_eq!(deep_case(30, "30 1 0, 40 0 1, 1 0 0"), (6, 0));
    // a block that holds and declares needs 1
    assert_eq!(deep_case(30, "1 2 0, 14 1 0, 10 1 1"), (0, 0));
}

/// A procedure's need is its body's, and the place is its entry.
#[test]
fn need_of_a_procedure() {
    let function = |pluses: usize| {
        let mut t = List::new();
        t.text("1 1 1, 12 1 1");
        t.repeat(pluses, "49 1 0, 40 0 1");
        t.text("40 0 1, 28 0 0, 40 0 1, 45 1 0");
        t.verdict()
    };
    assert_eq!(function(31), (0, 0));
    assert_eq!(function(32), (6, 1));
}

// Nesting, entries, counts.

#[test]
fn nesting_64_and_65() {
    with_large_stack(|| {
        // n blocks, one in the other: depth n
        let blocks = |n: usize| {
            let mut t = List::new();
            for _ in 1..n {
                t.put(1, 0, 1);
            }
            t.put(1, 0, 0);
            t.verdict()
        };
        assert_eq!(blocks(64), (0, 0));
        assert_eq!(blocks(65), (2, 64));
        // an expression that nests
        let minuses = |n: usize| {
            let mut t = List::new();
            t.text("1 0 1, 28 0 0, 40 0 1");
            t.repeat(n, "48 20 0");
            t.put(40, 0, 0);
            t.verdict()
        };
        assert_eq!(minuses(61), (0, 0));
        assert_eq!(minuses(62), (2, 65));
        // a table that ends early at depth 65 ends early
        let mut t = List::new();
        t.repeat(64, "1 0 1");
        assert_eq!(t.verdict(), (2, 64));
        // a parameter is one deeper than its procedure, a field than its class
        assert_eq!(verdict("1 1 0, 12 1 256, 10 1 1, 1 0 0"), (0, 0));
    });
}

#[test]
fn entries_2048_and_2049() {
    let statements = |n: i32| {
        let mut t = List::new();
        t.put(1, 0, n);
        t.repeat(n as usize, "1 0 0");
        t.verdict()
    };
    assert_eq!(statements(2047), (0, 0));
    assert_eq!(statements(2048), (1, 0));
}

#[test]
fn procedures_63_and_64() {
    let procedures = |n: u16| {
        let mut t = List::new();
        t.put(1, n, 1);
        for i in 0..n {
            t.put(12, i, 0).put(1, 0, 0);
        }
        t.put(27, n - 1, 0);
        t.verdict()
    };
    assert_eq!(procedures(63), (0, 0));
    assert_eq!(procedures(64), (2, 127));
}

#[test]
fn fields_8_and_9_parameters_8_and_9() {
    let fields = |n: i32| {
        let mut t = List::new();
        t.text("1 1 0").put(11, 100, n);
        t.variables(0, n as u16, 1);
        t.verdict()
    };
    assert_eq!(fields(1), (0, 0));
    assert_eq!(fields(8), (0, 0));
    assert_eq!(fields(9), (2, 1));
    assert_eq!(fields(0), (2, 1));
    let parameters = |n: i32, result: i32| {
        let mut t = List::new();
        t.text("1 1 0").put(12, 100, 256 * n + result);
        t.variables(0, n as u16, 1);
        t.put(if result == 0 { 1 } else { 40 }, 0, 0);
        t.verdict()
    };
    assert_eq!(parameters(8, 0), (0, 0));
    assert_eq!(parameters(9, 0), (2, 1));
    assert_eq!(parameters(8, 1), (0, 0));
    assert_eq!(parameters(0, 4), (2, 1));
}

/// More of these, by the decisions' numbers, in desk_check_decisions.rs.
#[test]
fn values_in_fields_of_entries() {
    // names
    assert_eq!(verdict("1 1 0, 10 65535 1"), (0, 0));
    // types
    assert_eq!(verdict("1 1 0, 10 2 131072"), (2, 1));
    assert_eq!(verdict("1 1 0, 10 2 65535"), (2, 1));
    assert_eq!(verdict("1 1 0, 10 2 4"), (2, 1));
    assert_eq!(verdict("1 1 0, 10 2 -1"), (2, 1));
    // unnamed fields
    for wrong in ["20 1 1", "21 1 0", "22 0 1", "25 1 1", "26 1 0", "28 0 1", "30 1 1", "31 1 1", "24 1 0", "23 1 0"] {
        assert_eq!(verdict(&format!("1 0 1, {wrong}")), (2, 1), "{wrong}");
    }
    for wrong in ["40 1 0", "41 1 0", "42 1 0", "43 1 1", "44 1 1", "46 1 1", "48 20 1", "49 1 1", "50 1 0", "51 0 1"] {
        assert_eq!(verdict(&format!("1 0 1, 26 0 0, {wrong}")), (2, 2), "{wrong}");
    }
    // counts
    for wrong in ["27 1 -1", "30 0 0"] {
        assert_eq!(verdict(&format!("1 0 1, {wrong}")), (2, 1), "{wrong}");
    }
    for wrong in ["45 1 -1", "47 1 -1", "53 0 -1"] {
        assert_eq!(verdict(&format!("1 0 1, 26 0 0, {wrong}")), (2, 2), "{wrong}");
    }
}

// Macros.

fn bodies(n: usize) -> Macro {
    let mut m = root_only("0 0 0", vec![]);
    for i in 1..n {
        m.bodies.push(body(i as u16, 0, 0, &[]));
        m.code.push(Instr { op: 11, a: 0, b: 0 });
    }
    m
}

#[test]
fn bodies_64_and_65() {
    assert_eq!(loads(&bodies(64)), (0, 0));
    assert_eq!(loads(&bodies(65)), (8, 0));
    let mut none = bodies(1);
    none.bodies.clear();
    assert_eq!(loads(&none), (8, 0));
}

#[test]
fn classes_and_fields_of_a_macro() {
    let classes = |n: usize, fields: usize| {
        let mut m = bodies(1);
        m.classes = vec![vec![1; fields]; n];
        loads(&m)
    };
    assert_eq!(classes(16, 8), (0, 0));
    assert_eq!(classes(17, 1), (8, 0));
    assert_eq!(classes(2, 9), (8, 1));
    assert_eq!(classes(2, 0), (8, 1));
}

#[test]
fn limits_of_a_body_in_code() {
    let cells = |n: usize, which: usize| {
        let mut m = bodies(3);
        m.bodies[which].cells = vec![1; n];
        loads(&m)
    };
    assert_eq!(cells(32, 0), (0, 0));
    assert_eq!(cells(33, 0), (9, 0));
    assert_eq!(cells(33, 2), (9, 2));
    let pushes = |n: usize| {
        let mut m = root_only("", vec![]);
        m.code = vec![Instr { op: 1, a: 0, b: 5 }; n];
        m.code.push(Instr { op: 20, a: 24, b: 0 });
        loads(&m)
    };
    assert_eq!(pushes(32), (0, 0));
    assert_eq!(pushes(33), (9, 32));
    let holds = |n: usize| {
        let mut m = root_only("", vec![]);
        m.code = vec![Instr { op: 17, a: 0, b: 63 }; n];
        m.code.push(Instr { op: 20, a: 24, b: 0 });
        loads(&m)
    };
    assert_eq!(holds(16), (0, 0));
    assert_eq!(holds(17), (9, 16));
    // at an SH
    assert_eq!(loads(&root_only("0 0 0, 20 24 0", vec![shape(1, 16, &[1; 32])])), (0, 0));
    assert_eq!(loads(&root_only("0 0 0, 20 24 0", vec![shape(1, 17, &[1; 32])])), (9, 1));
    assert_eq!(loads(&root_only("0 0 0, 20 24 0", vec![shape(1, 16, &[1; 33])])), (9, 1));
    // 32 parameters, more than any table has
    let mut m = bodies(2);
    m.bodies[1].cells = vec![1; 32];
    m.bodies[1].parameters = 32;
    assert_eq!(loads(&m), (0, 0));
    m.bodies[1].parameters = 33;
    assert_eq!(loads(&m), (8, 2));
}
