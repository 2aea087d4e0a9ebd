//! Generated programs use loops often, in every way that the tests over generated programs count on: nested, hidden, left, with holds and calls inside.

use second::evaluator::table::{write_tree, Entry};
use second::generate::entries::{end_of, of_kinds};
use second::generate::programs::some_program;
use second::generate::rng::Rng;
use second::harness::setup::with_large_stack;

/// What a program's loops are like: how often each of these was seen.
#[derive(Default, Debug)]
struct Seen {
    programs: usize,
    in_a_procedure: usize,
    nested: usize,
    of_one_name: usize,
    declared_again: usize,
    with_holds: usize,
    with_calls: usize,
    left_by_goto: usize,
    with_goto_inside: usize,
    block_expression_in_a_bound: usize,
    control_name_in_an_inner_bound: usize,
    at_an_end_of_the_range: usize,
    hides_a_name: usize,
}

impl Seen {
    fn note(&mut self, list: &[Entry]) {
        let loops = of_kinds(list, &[31]);
        self.programs += !loops.is_empty() as usize;
        for at in loops {
            let name = list[at].a;
            let first = (0..3).fold(at + 1, |next, _| end_of(list, next));
            let (bounds, controlled) = (&list[at + 1..first], &list[first..end_of(list, first)]);
            let has = |part: &[Entry], kinds: &[u16]| !of_kinds(part, kinds).is_empty();
            let names = |part: &[Entry], kinds: &[u16]| part.iter().any(|e| kinds.contains(&e.kind) && e.a == name);
            let procedure = (1..at).rfind(|k| list[*k].kind == 12 && end_of(list, *k) > at);
            let labels: Vec<u16> = controlled.iter().filter(|e| e.kind == 20).map(|e| e.a).collect();
            self.in_a_procedure += procedure.is_some() as usize;
            self.nested += has(controlled, &[31]) as usize;
            self.of_one_name += names(controlled, &[31]) as usize;
            self.declared_again += names(controlled, &[10, 20]) as usize;
            self.with_holds += has(controlled, &[14]) as usize;
            self.with_calls += has(controlled, &[27, 45]) as usize;
            self.left_by_goto += controlled.iter().any(|e| e.kind == 25 && !labels.contains(&e.a)) as usize;
            self.with_goto_inside += controlled.iter().any(|e| e.kind == 25 && labels.contains(&e.a)) as usize;
            self.block_expression_in_a_bound += has(bounds, &[53]) as usize;
            self.control_name_in_an_inner_bound += of_kinds(controlled, &[31]).into_iter().any(|inner| {
                let behind = (0..3).fold(inner + 1, |next, _| end_of(controlled, next));
                names(&controlled[inner + 1..behind], &[44])
            }) as usize;
            self.at_an_end_of_the_range += bounds.iter().any(|e| e.kind == 40 && e.b.unsigned_abs() > i32::MAX as u32 - 9) as usize;
            self.hides_a_name += list[..at].iter().any(|e| matches!(e.kind, 10..=12 | 20) && e.a == name) as usize;
        }
    }
}

/// Generated programs use loops often, in every way that the other tests count on.
#[test]
fn generated_programs_have_loops_of_all_sorts() {
    with_large_stack(|| {
        let count = 3_000;
        let mut seen = Seen::default();
        for seed in 0..count {
            let mut rng = Rng::new(61_000_000 + seed);
            let size = 10 + rng.below(150);
            seen.note(&write_tree(&some_program(&mut rng, size)));
        }
        println!("{seen:?}");
        let Seen { programs, in_a_procedure, nested, of_one_name, declared_again, with_holds, with_calls, .. } = seen;
        let Seen { left_by_goto, with_goto_inside, block_expression_in_a_bound, control_name_in_an_inner_bound, at_an_end_of_the_range, hides_a_name, .. } = seen;
        let often = [in_a_procedure, nested, with_holds, with_calls, left_by_goto, block_expression_in_a_bound, at_an_end_of_the_range, hides_a_name];
        let seldom = [of_one_name, declared_again, with_goto_inside, control_name_in_an_inner_bound];
        assert!(programs > 1_000 && often.iter().all(|n| *n > 120) && seldom.iter().all(|n| *n > 60), "{seen:?}");
    });
}
