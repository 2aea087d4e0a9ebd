//! The time of the proved machine to that of the plain one, held to what was stored: the two are measured in one run and compiled in one, so that the ratio
//! says less of the computer than a time does. What the compiler makes of the proved loop changed before without a change of the loop.

use std::collections::BTreeMap;
use std::fs;

const FILE: &str = concat!(env!("CARGO_MANIFEST_DIR"), "/bench.ratios");

/// Slower by a fifth is worth a loud line.
const SLOWER: f64 = 1.2;

pub struct Ratios {
    stored: BTreeMap<String, f64>,
    seen: BTreeMap<String, f64>,
}

impl Ratios {
    /// A line of the file is a ratio and the name of the loop.
    pub fn read() -> Ratios {
        let text = fs::read_to_string(FILE).unwrap_or_default();
        let pair = |line: &str| {
            let (ratio, name) = line.split_once(' ').expect("a line is a ratio and a name");
            (name.to_string(), ratio.parse().expect("a ratio is a number"))
        };
        Ratios { stored: text.lines().map(pair).collect(), seen: BTreeMap::new() }
    }

    pub fn note(&mut self, name: &str, ratio: f64) {
        self.seen.insert(name.to_string(), ratio);
    }

    /// Says each ratio that is a fifth above the stored one.
    pub fn compare(&self) {
        for (name, &ratio) in &self.seen {
            match self.stored.get(name) {
                None => println!("no ratio is stored of {name}: bench store"),
                Some(&stored) if ratio >= SLOWER * stored => println!("SLOWER: {name} takes {ratio:.2} of the plain machine's time, stored is {stored:.2}"),
                Some(_) => {}
            }
        }
    }

    /// Stores what was seen. What was not seen stays.
    pub fn store(mut self) {
        self.stored.append(&mut self.seen);
        let lines: String = self.stored.iter().map(|(name, ratio)| format!("{ratio:.2} {name}\n")).collect();
        fs::write(FILE, lines).expect("the ratios are written");
        println!("stored in {FILE}");
    }
}
