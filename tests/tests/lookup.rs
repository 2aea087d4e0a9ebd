//! Request 6 of paper 02: names are looked up by the steps of section 3 of 000. Its examples, and one name in every choice of places, on the second
//! evaluator, the plain check and, where it is linked, `cue_check`. Step 3 came with the loops of request 1; more of them in for_loops.rs.

use second::generate::notation::entries;
use second::harness::verdicts::verdict;

const ACCEPTED: (u8, usize) = (0, 0);

/// (a) P(X) whose body block declares X logical: X is the logical.
#[test]
fn a_body_block_declares_the_name_of_a_parameter_again() {
    let assigned = |value: &str| verdict(&format!("1 1 0, 12 9 256, 10 5 1, 1 1 1, 10 5 2, 21 0 0, 44 5 0, {value}"));
    assert_eq!(assigned("41 0 1"), ACCEPTED);
    assert_eq!(assigned("40 0 1"), (4, 5));
    // and so does a function's block expression
    assert_eq!(verdict("1 1 0, 12 9 258, 10 5 1, 53 1 0, 10 5 2, 44 5 0"), ACCEPTED);
    assert_eq!(verdict("1 1 0, 12 9 257, 10 5 1, 53 1 0, 10 5 2, 44 5 0"), (4, 1));
}

/// (d) P(X) with the body X := 1, which is no block: the parameter, not the root's X.
#[test]
fn a_body_that_is_no_block_sees_its_parameters() {
    let assigned = |value: &str| verdict(&format!("1 2 0, 10 5 2, 12 9 256, 10 5 1, 21 0 0, 44 5 0, {value}"));
    assert_eq!(assigned("40 0 1"), ACCEPTED);
    assert_eq!(assigned("41 0 1"), (4, 4));
    // a function's body likewise
    assert_eq!(verdict("1 2 0, 10 5 2, 12 9 257, 10 5 1, 44 5 0"), ACCEPTED);
    assert_eq!(verdict("1 2 0, 10 5 2, 12 9 258, 10 5 1, 44 5 0"), (4, 2));
}

/// A parameter's type is looked up from step 2 on: the body's block does not count, another parameter does.
#[test]
fn the_types_of_parameters_are_looked_up_from_step_2_on() {
    let root = "11 5 1, 10 6 1";
    assert_eq!(verdict(&format!("1 2 0, {root}, 12 9 256, 10 7 65541, 1 1 0, 10 5 1")), ACCEPTED);
    assert_eq!(verdict(&format!("1 2 0, {root}, 12 9 512, 10 5 1, 10 7 65541, 1 0 0")), (4, 5));
    assert_eq!(verdict(&format!("1 2 0, {root}, 12 9 512, 10 7 65541, 10 5 1, 1 0 0")), (4, 4));
    // in the body's block it is the block's own names that come first
    assert_eq!(verdict(&format!("1 2 0, {root}, 12 9 256, 10 7 1, 1 2 0, 10 5 1, 10 8 65541")), (4, 7));
}

/// What the name 5 is in each place, from the root inward: with it in some of the places, a use finds the innermost of these.
#[derive(Clone, Copy, PartialEq)]
enum Place {
    Root,
    Parameter,
    Body,
    Control,
    Inner,
}

const PLACES: [Place; 5] = [Place::Root, Place::Parameter, Place::Body, Place::Control, Place::Inner];

/// What the text of a table begins with, up to a use of the name 5 in the body of the procedure 9: `head` and `block` are what stands there for a place,
/// and how many entries there are of it. The root has a class, 1; a loop's control name is 5 where its head counts one, else another.
fn around(body: &str, head: impl Fn(Place) -> (usize, String), block: impl Fn(Place) -> String) -> String {
    let ((more, root), (count, parameter)) = (head(Place::Root), head(Place::Parameter));
    let heading = format!("11 1 1, 10 2 1, {root}12 9 {}, {parameter}", 256 * count);
    let (own, inner) = (block(Place::Body), block(Place::Inner));
    let control = format!("31 {} 0, 40 0 1, 40 0 1, 40 0 1, ", if head(Place::Control).0 == 1 { 5 } else { 77 });
    match body {
        "a block" => format!("1 {} 1, {heading}{own}", 2 + more),
        "a block in a block" => format!("1 {} 1, {heading}{own}{inner}", 2 + more),
        "an if" => format!("1 {} 1, {heading}22 0 0, 41 0 1, {inner}", 2 + more),
        "a loop" => format!("1 {} 1, {heading}{control}", 2 + more),
        "a loop of a block" => format!("1 {} 1, {heading}{control}{inner}", 2 + more),
        "a block with a loop of a block" => format!("1 {} 1, {heading}{own}{control}{inner}", 2 + more),
        "no block" => format!("1 {} 1, {heading}", 2 + more),
        other => panic!("{other}"),
    }
}

/// The places that a body of this sort has.
fn places_of(body: &str) -> Vec<Place> {
    PLACES
        .into_iter()
        .filter(|place| match place {
            Place::Root | Place::Parameter => true,
            Place::Body => body.starts_with("a block"),
            Place::Control => body.contains("a loop"),
            Place::Inner => body.ends_with(" a block") || body == "an if",
        })
        .collect()
}

/// Every choice of places that a body of each sort has, with the innermost of them.
fn every_choice(mut each: impl FnMut(&str, &[Place], Option<Place>)) {
    for body in ["a block", "a block in a block", "an if", "a loop", "a loop of a block", "a block with a loop of a block", "no block"] {
        let places = places_of(body);
        for chosen in 0..1 << places.len() {
            let some: Vec<Place> = (0..places.len()).filter(|i| chosen >> i & 1 == 1).map(|i| places[i]).collect();
            each(body, &some, some.last().copied());
        }
    }
}

#[test]
fn one_name_as_a_variable_in_every_choice_of_places() {
    // types that tell the places apart; a control name is an integer, too, but is not assigned
    let typed = |place| match place {
        Place::Root => "10 5 2, ",
        Place::Parameter => "10 5 1, ",
        Place::Body => "10 5 3, ",
        Place::Control => "",
        Place::Inner => "10 5 65537, ",
    };
    let values = [(Place::Root, "41 0 1"), (Place::Parameter, "40 0 1"), (Place::Body, "42 0 1"), (Place::Inner, "43 1 0")];
    let mut tables = 0;
    every_choice(|body, some, innermost| {
        let head = |place| if some.contains(&place) { (1, typed(place).to_string()) } else { (0, String::new()) };
        let text = around(body, head, |place| format!("1 {} 1, {}", head(place).0, head(place).1));
        let at = entries(&text).len();
        for (place, value) in values {
            let expected = match innermost {
                None => (3, at + 1),
                Some(Place::Control) => (4, at + 1),
                Some(found) if found == place => ACCEPTED,
                Some(_) => (4, at),
            };
            let text = format!("{text}21 0 0, 44 5 0, {value}, 1 0 0");
            assert_eq!(verdict(&text), expected, "{body}: {text}");
            tables += 1;
        }
    });
    assert_eq!(tables, 4 * (8 + 16 + 8 + 8 + 16 + 32 + 4));
}

#[test]
fn one_name_as_a_label_in_every_choice_of_places() {
    // the root's label is its one statement; a parameter and a control name are no labels, and so are in the way
    let mut tables = 0;
    every_choice(|body, some, innermost| {
        let has = |place| some.contains(&place);
        let head = |place| match place {
            Place::Parameter if has(place) => (1, "10 5 1, ".to_string()),
            Place::Control if has(place) => (1, String::new()),
            _ => (0, String::new()),
        };
        let text = around(body, head, |place| if has(place) { "1 0 2, 20 5 0, ".to_string() } else { "1 0 1, ".to_string() });
        let at = entries(&text).len();
        let expected = match innermost {
            None => (3, at),
            Some(Place::Root) => (5, at),
            Some(Place::Parameter | Place::Control) => (4, at),
            Some(Place::Body | Place::Inner) => ACCEPTED,
        };
        let text = format!("{text}25 5 0, {}", if has(Place::Root) { "20 5 0" } else { "1 0 0" });
        assert_eq!(verdict(&text), expected, "{body}: {text}");
        tables += 1;
    });
    assert_eq!(tables, 8 + 16 + 8 + 8 + 16 + 32 + 4);
}
