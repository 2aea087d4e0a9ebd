//! A chase of sets by `cue_play`, many events a call, beside Lua whose sets are calls of a C function that stores 8 bytes.

use second::harness::desk;

use crate::in_turn;
use crate::lua;
use crate::programs::started;

/// The chase alone has so many instructions, and a statement behind it, which is never reached, three more.
const CHASE: usize = 17;
const STATEMENT: usize = 3;

/// What stands behind the chase, for the loading check alone: an entry and its two or three, for each three instructions.
const SETS: &str = "28 0 0, 40 0 1, 40 0 255,";
const LOOPS: &str = "24 0 0, 41 0 0, 1 0 0,";

/// Channel after channel of the 512 is set to 255, for ever: a table whose macro has so many instructions.
fn chase(instructions: usize, behind: &str) -> String {
    let more = (instructions - CHASE) / STATEMENT;
    let statements = 5 + more;
    let step = "21 0 0, 44 1 0, 49 1 0, 44 1 0, 40 0 1";
    let set = "28 0 0, 44 1 0, 40 0 255";
    let again = "22 0 0, 49 9 0, 44 1 0, 40 0 512, 21 0 0, 44 1 0, 40 0 0";
    format!("1 1 {statements}, 10 1 1, 20 2 0, {step}, {set}, {again}, 25 2 0, {}", behind.repeat(more))
}

fn in_lua(events: usize) -> String {
    format!("local channel = 0 for n = 1, {events} do channel = channel + 1 set(channel, 255) if channel >= 512 then channel = 0 end end return channel")
}

/// Channel and level of each of the packed events.
fn sets(packed: impl Iterator<Item = u64>) -> Vec<[u64; 2]> {
    let set = |answer: u64| match desk::unpacked(answer) {
        [4, _, channel, level] => [channel, level],
        other => panic!("no set: {other:?}"),
    };
    packed.map(set).collect()
}

/// A call that ends when there is no room for another event.
fn played(code: &[u8], state: &mut [u8], answers: &mut [u8]) -> u64 {
    let answer = desk::play(code, state, &[0; 64], 65_535, answers);
    let [tag, _, _, written] = desk::unpacked(answer);
    assert_eq!((tag, 8 * written as usize), (8, answers.len()));
    answer
}

/// The steps of a call of `cue_play` that ends when there is no room for another event, and the nanoseconds that it takes; the same events by Lua, where there is one.
fn measured((code, mut state): (Vec<u8>, Vec<u8>), events: usize, in_lua: &str) -> (u64, Vec<f64>) {
    let mut answers = vec![0; 8 * events];
    let [_, steps, _, _] = desk::unpacked(played(&code, &mut state, &mut answers));
    let first = sets(answers.chunks_exact(8).map(|event| u64::from_le_bytes(event.try_into().expect("8 bytes"))));
    let mut play = || played(&code, &mut state, &mut answers);
    let times = match &mut lua::Program::new(in_lua) {
        None => in_turn([&mut play]).to_vec(),
        Some(lua) => {
            lua.run();
            assert_eq!(sets(lua.events().iter().copied()), first);
            in_turn([&mut play, &mut || lua.run()]).to_vec()
        }
    };
    (steps, times)
}

/// Lua's time an event, and how often it goes into the time of `cue_play`.
fn print_lua(times: &[f64], events: usize) {
    for other in &times[1..] {
        print!(" {:>10.2} {:>7.2}", other / events as f64, times[0] / other);
    }
    println!();
}

/// What an event takes, in calls that end when there is no room for another one.
pub fn table_of_events() {
    println!("a chase of sets by cue_play: ns per event, one run; Lua 5.4 calls a C function that stores 8 bytes");
    println!("{:>13} {:>8} {:>8} {:>10} {:>10} {:>10} {:>7}", "instructions", "mostly", "events", "cue_play", "a call", "Lua", "ratio");
    for (instructions, name, behind) in [(20, "sets", SETS), (200, "sets", SETS), (2_000, "sets", SETS), (2_000, "loops", LOOPS)] {
        for events in [100, 512] {
            let fresh = started(&chase(instructions, behind));
            assert_eq!(u16::from_le_bytes([fresh.0[4], fresh.0[5]]) as usize, instructions);
            let (_, times) = measured(fresh, events, &in_lua(events));
            print!("{instructions:>13} {name:>8} {events:>8} {:>10.2} {:>10.0}", times[0] / events as f64, times[0]);
            print_lua(&times, events);
        }
    }
}

/// Channel 1 to channel 512, for ever: by a for, and by a while that does the same.
const BY_FOR: &str = "1 0 3, 20 2 0, 31 1 0, 40 0 1, 40 0 1, 40 0 512, 28 0 0, 44 1 0, 40 0 255, 25 2 0";
const BY_WHILE: &str = "1 1 4, 10 1 1, 20 2 0, 21 0 0, 44 1 0, 40 0 1, 24 0 0, 49 7 0, 44 1 0, 40 0 512, 1 0 2, 28 0 0, 44 1 0, 40 0 255,
    21 0 0, 44 1 0, 49 1 0, 44 1 0, 40 0 1, 25 2 0";
const LUA_FOR: &str = "for channel = 1, 512 do set(channel, 255) end return 0";
const LUA_WHILE: &str = "local channel = 1 while channel <= 512 do set(channel, 255) channel = channel + 1 end return 0";

/// What an event takes in a loop of 512 turns, each of which sets one channel.
pub fn table_of_loops() {
    println!("a chase of 512 sets, by for and the same with while: steps and ns per event by cue_play, one run; Lua 5.4 by its own for and while");
    println!("{:>13} {:>8} {:>10} {:>10} {:>7}", "loop", "steps", "cue_play", "Lua", "ratio");
    for (name, entries, in_lua) in [("for", BY_FOR, LUA_FOR), ("while", BY_WHILE, LUA_WHILE)] {
        let (steps, times) = measured(started(entries), 512, in_lua);
        print!("{name:>13} {:>8.2} {:>10.2}", steps as f64 / 512.0, times[0] / 512.0);
        print_lua(&times, 512);
    }
}
