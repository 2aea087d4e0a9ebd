//! Listings of programs, as the listing program prints them: each event, the end sheet of paper 02 (ticket 4), and the end. The tree and
//! its compiled code must give the same.

use crate::evaluator::answer::{Answer, Event, Item, Refusal};
use crate::evaluator::code::{judge_macro, Macro};
use crate::evaluator::execute::{budget, execute, Budget};
use crate::evaluator::machine::{fresh, run_counted};
use crate::evaluator::names::judge_table;
use crate::evaluator::table::Tree;
use crate::generate::notation::table;
use crate::plain;
use super::compare_tree_and_code::{agreed_execution, StateChecks};
use super::verdicts::judged;

/// "or `open 0` after 65,535 steps"
pub const LISTED_STEPS: u16 = 65_535;
/// "It lends 65,536 bytes for the macro"
pub const LISTED_ROOM: usize = 65_536;

// The end sheet.

/// The words of the four totals, "in that order".
const TOTALS: [&str; 4] = ["sets", "holds", "releases", "readings"];

/// "sets, holds, releases and readings": how many there are of each.
#[derive(Clone, Copy, PartialEq, Eq, Debug, Default)]
pub struct Sheet {
    pub sets: usize,
    pub holds: usize,
    pub releases: usize,
    pub readings: usize,
}

impl Sheet {
    /// The sheet of a trace, or of a part of it.
    pub fn of(items: &[Item]) -> Sheet {
        let mut sheet = Sheet::default();
        for item in items {
            match item {
                Item::Event(event) => sheet.note(event),
                Item::Reading { .. } => sheet.readings += 1,
            }
        }
        sheet
    }

    /// Counts an event.
    pub fn note(&mut self, event: &Event) {
        match event {
            Event::Set { .. } => self.sets += 1,
            Event::Hold { .. } => self.holds += 1,
            Event::Release { .. } => self.releases += 1,
        }
    }

    /// How many items it counts.
    pub fn items(&self) -> usize {
        self.sets + self.holds + self.releases + self.readings
    }

    /// "one line each, that word and the number"
    pub fn lines(&self) -> [String; 4] {
        let totals = [self.sets, self.holds, self.releases, self.readings];
        std::array::from_fn(|i| format!("{} {}", TOTALS[i], totals[i]))
    }
}

fn is_line_of(words: &[&str], line: &str) -> bool {
    words.contains(&line.split(' ').next().unwrap())
}

/// A listing without its lines of these words.
fn without(words: &[&str], listing: &str) -> String {
    listing.lines().filter(|line| !is_line_of(words, line)).map(|line| format!("{line}\n")).collect()
}

/// Events and end alone, as the desk's shells in C print them: the C interface gives no readings.
pub fn without_sheet(listing: &str) -> String {
    without(&TOTALS, listing)
}

/// A listing as far as the answers of the C interface tell it.
pub fn without_readings(listing: &str) -> String {
    without(&TOTALS[3..], listing)
}

// Listings.

/// An event as the listing prints it.
pub fn event_line(event: &Event) -> String {
    match event {
        Event::Set { channel, level } => format!("set {channel} {level}"),
        Event::Hold { group } => format!("hold {group}"),
        Event::Release { group } => format!("release {group}"),
    }
}

/// What a macro did in the steps of a listing.
#[derive(Clone, PartialEq, Debug, Default)]
pub struct Listing {
    pub events: Vec<Event>,
    pub sheet: Sheet,
    /// None where it is open.
    pub end: Option<u8>,
}

impl Listing {
    /// Takes in a run's answer and the readings that the run took.
    pub fn note(&mut self, answer: &Answer, readings: u16) {
        self.sheet.readings += readings as usize;
        match answer {
            Answer::Event { event, .. } => {
                self.sheet.note(event);
                self.events.push(*event);
            }
            Answer::End { code, .. } => self.end = Some(*code),
            Answer::AllowanceUsed { .. } | Answer::Refusal(_) => {}
        }
    }

    /// By whatever answers a run with an allowance and says how many readings it took; the steps of all runs count together.
    pub fn of_runs(mut run: impl FnMut(u16) -> (Answer, u16)) -> Listing {
        let mut listing = Listing::default();
        let mut left = LISTED_STEPS;
        while left > 0 && listing.end.is_none() {
            let (answer, readings) = run(left);
            left -= answer.numbers()[1] as u16;
            match answer {
                Answer::AllowanceUsed { .. } => assert_eq!(left, 0),
                Answer::Refusal(refusal) => panic!("{refusal:?}"),
                _ => {}
            }
            listing.note(&answer, readings);
        }
        listing
    }

    /// By the plain machine, all readings this byte.
    pub fn of_macro(m: &Macro, reading: u8) -> Listing {
        let mut state = fresh(m);
        Listing::of_runs(|allowance| run_counted(m, &mut state, &[reading; 64], allowance).expect("a passed macro is never stuck"))
    }

    pub fn lines(&self) -> Vec<String> {
        let end = self.end.map_or("open 0".to_string(), |code| format!("end {code}"));
        self.events.iter().map(event_line).chain(self.sheet.lines()).chain([end]).collect()
    }

    pub fn text(&self) -> String {
        self.lines().join("\n") + "\n"
    }

    /// The tree, with this oracle, says the same: all of it where the runs ended, else as far as their steps, so many, carried it.
    pub fn assert_of_tree(&self, tree: &Tree, oracle: &dyn Fn(usize, u8) -> u8, steps: u64) {
        let told = self.sheet.items();
        let items = if self.end.is_some() { usize::MAX } else { told.saturating_sub(1) };
        // Every step of the tree that costs fuel takes the machine a step.
        let mut x = execute(tree, &mut |k, n| oracle(k, n), Budget { items, ..budget(steps + 2) });
        if self.end.is_some() {
            assert_eq!(x.end, self.end);
        } else {
            x.items.truncate(told);
        }
        assert_eq!((x.events(), Sheet::of(&x.items)), (self.events.clone(), self.sheet));
    }
}

/// What the listing program does with a table, but that all readings are this byte. The macro is the proved compiler's: the plain compiler
/// writes the same. The tree and its compiled code must agree.
pub fn listed(bytes: &[u8], reading: u8) -> Result<Listing, Refusal> {
    judged(bytes);
    let tree = judge_table(bytes)?;
    agreed_execution(&tree, &|_, _| reading, budget(5_000), StateChecks::None).unwrap();
    let mut code = vec![0; LISTED_ROOM];
    let length = plain::compiler::compile(bytes, &mut code).map_err(|(number, place)| Refusal { number, place })?;
    let listing = Listing::of_macro(&judge_macro(&code[..length])?.code, reading);
    listing.assert_of_tree(&tree, &|_, _| reading, LISTED_STEPS as u64);
    Ok(listing)
}

/// The lines that are printed; "a refusal prints as `refused`, number and place".
pub fn printed_lines(listed: &Result<Listing, Refusal>) -> Vec<String> {
    match listed {
        Ok(listing) => listing.lines(),
        Err(refusal) => vec![format!("refused {} {}", refusal.number, refusal.place)],
    }
}

/// The same of a table.
pub fn listing_of(bytes: &[u8], reading: u8) -> Vec<String> {
    printed_lines(&listed(bytes, reading))
}

/// Events and end of a table in the papers' notation, all readings 0.
pub fn lines(text: &str) -> Vec<String> {
    let mut lines = listing_of(&table(text), 0);
    lines.retain(|line| !is_line_of(&TOTALS, line));
    lines
}

/// How a program ends.
pub fn end_of(text: &str) -> String {
    lines(text).pop().unwrap()
}
