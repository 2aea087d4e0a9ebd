//! What the desk's functions answer: refusals with their place, events, and the answer of
//! a run, with the numbers that the interface gives them.

/// "Refusals and ends": a number 1 to 11 and a place.
#[derive(Clone, Copy, PartialEq, Eq, Debug)]
pub struct Refusal {
    pub number: u8,
    pub place: usize,
}

pub fn refuse<T>(number: u8, place: usize) -> Result<T, Refusal> {
    Err(Refusal { number, place })
}

/// The verdict of a check as number and place, (0, 0) where it accepts.
pub fn number_and_place<T>(verdict: &Result<T, Refusal>) -> (u8, usize) {
    match verdict {
        Ok(_) => (0, 0),
        Err(refusal) => (refusal.number, refusal.place),
    }
}

/// "Events are: set (channel 1 to 512, level 0 to 255), hold, release."
#[derive(Clone, Copy, PartialEq, Eq, Debug)]
pub enum Event {
    Set { channel: u16, level: u8 },
    Hold { group: u8 },
    Release { group: u8 },
}

/// An item of a trace: an event, or a reading ("Readings are items of the trace beside
/// set, hold and release").
#[derive(Clone, Copy, PartialEq, Eq, Debug)]
pub enum Item {
    Event(Event),
    Reading { fader: u8, value: u8 },
}

/// "It gives one of four things: an event, the allowance used, an end, a refusal."
#[derive(Clone, Copy, PartialEq, Eq, Debug)]
pub enum Answer {
    Refusal(Refusal),
    AllowanceUsed { steps: u16 },
    End { steps: u16, code: u8 },
    Event { steps: u16, event: Event },
}

impl Answer {
    /// Tag, steps, first, second, as in the table of the interface.
    pub fn numbers(&self) -> [u64; 4] {
        match *self {
            Answer::Refusal(r) => [0, 0, r.number as u64, r.place as u64],
            Answer::AllowanceUsed { steps } => [2, steps as u64, 0, 0],
            Answer::End { steps, code } => [3, steps as u64, code as u64, 0],
            Answer::Event { steps, event } => match event {
                Event::Set { channel, level } => [4, steps as u64, channel as u64, level as u64],
                Event::Hold { group } => [5, steps as u64, group as u64, 0],
                Event::Release { group } => [6, steps as u64, group as u64, 0],
            },
        }
    }

    /// "packed = tag + 2^8 × steps + 2^24 × first + 2^40 × second"
    pub fn packed(&self) -> u64 {
        let [tag, steps, first, second] = self.numbers();
        tag + (steps << 8) + (first << 24) + (second << 40)
    }
}

/// "A condition (20 to 27)"; "A loaded macro may end by 28 besides 20 to 27" (paper 02, ticket 1).
pub fn is_condition(code: u8) -> bool {
    (20..=28).contains(&code)
}

/// "Op 20 stops by its a, 24 or 28." (paper 02, ticket 1)
pub fn is_stop(a: u8) -> bool {
    a == 24 || a == 28
}
