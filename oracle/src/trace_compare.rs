//! The trace call of an engine beside the oracle, over random, hostile and hand-made inputs: reply, record, all of
//! memory, every byte of the trace. And what docs/CALLS.md promises of it: the run is the run of `xm23_run`, fewer kinds
//! are the records of more kinds with the others left out, and with all kinds each step has one act.

use crate::inputs::{input, Input, Kind};
use crate::machine::{event_record, events_of, long_log, reply, Event, Machine};
use crate::random::Random;
use crate::trace::{Lent, KINDS, TRACED};
use std::collections::BTreeMap;

/// A call, in place; its reply.
pub type Engine = fn(&mut Lent) -> u64;

/// The oracle itself.
pub fn oracle(lent: &mut Lent) -> u64 {
    reply(lent.run())
}

/// How often each thing was reached.
#[derive(Default)]
pub struct Reached(BTreeMap<String, u64>);

/// What every comparison must have reached.
pub const OWED: [&str; 40] = [
    "kind 0",
    "kind 1",
    "kind 2",
    "kind 3",
    "kind 4",
    "kind 5",
    "kind 6",
    "kind 7",
    "kind 8",
    "kind 9",
    "kind 10",
    "kind 11",
    "event of a device without ENA",
    "event taken",
    "overrun",
    "line raised",
    "count full, IE clear",
    "event lost",
    "two events of a step",
    "byte load",
    "byte store",
    "store to a status byte",
    "load from a status byte",
    "no room for the first step",
    "no room for an act behind its events",
    "no room for a step that pushes",
    "places stay free",
    "trace filled to its end",
    "no record asked for",
    "stretches may be taken",
    "a halted start",
    "refused 1",
    "refused 2",
    "refused 3",
    "refused 4",
    "refused 5",
    "refused 6",
    "refused 13",
    "refused 21 by length",
    "refused 21 by kinds",
];

impl Reached {
    fn mark_if(&mut self, holds: bool, name: &str) {
        if holds {
            *self.0.entry(name.to_string()).or_default() += 1;
        }
    }

    /// Everything owed that was reached fewer times than `least`.
    pub fn gaps(&self, least: u64) -> Vec<String> {
        let count = |name: &str| self.0.get(name).copied().unwrap_or(0);
        OWED.iter().filter(|name| count(name) < least).map(|name| format!("{name}: {}", count(name))).collect()
    }
}

/// A run's input with a trace of so many bytes, whose bytes are of no kind.
pub fn lend(input: Input, length: usize, kinds: u32) -> Lent {
    let Input { memory, record, events, n, .. } = input;
    Lent { memory, record, events, trace: vec![0xA5; length], kinds, n }
}

/// How long a trace is lent: any number of records, few, none, all that may be needed, or no whole number.
fn length(random: &mut Random, most: usize) -> usize {
    match random.below(8) {
        0 => 0,
        1 => TRACED * random.below(4) as usize,
        2 => random.below(100) as usize,
        3 | 4 => TRACED * random.below(most as u64 + 1) as usize,
        _ => TRACED * most,
    }
}

fn kinds(random: &mut Random) -> u32 {
    match random.below(8) {
        0 => KINDS,
        1 => KINDS + 1 + random.below(5) as u32,
        2 => 0,
        3 => 1 << random.below(12),
        4 => random.draw() as u32 & 0b0001_0110_1111,
        5 => u32::from(random.word()) & KINDS,
        _ => KINDS & !(1 << random.below(12)),
    }
}

/// More events on the first steps, so that many steps have some and counts are full.
fn crowd(random: &mut Random, input: &mut Input) {
    let Ok(count) = <[u8; 4]>::try_from(input.record.get(22..26).unwrap_or(&[])) else { return };
    let first = u32::from_le_bytes(count);
    let mut events: Vec<Event> = Vec::new();
    for step in 0..24 {
        for device in 0..8 {
            if random.one_in(3) {
                events.push(Event { step: first.saturating_add(step), device, data: random.byte() });
            }
        }
    }
    input.events = events.into_iter().flat_map(event_record).collect();
    for device in 0..8 {
        if input.memory.len() > 16 {
            input.memory[2 * device] = random.byte() & 0x17;
        }
    }
}

/// The lent buffers of a seed.
pub fn lent(seed: u64) -> Lent {
    let mut random = Random::new(seed.wrapping_mul(0xD134_2543_DE82_EF95) ^ 0x7ACE);
    let kind = [Kind::Wild, Kind::Plausible, Kind::Corner, Kind::Broken][random.below(4) as usize];
    let mut given = input(kind, seed);
    if random.one_in(3) && given.n <= 1_000_000 {
        given.n = given.n.min(1 + random.below(200));
    }
    if random.one_in(3) {
        crowd(&mut random, &mut given);
    }
    if random.one_in(9) && given.record.len() == 32 {
        given.record[21] = random.below(2) as u8;
    }
    let most = (given.n.min(3_000) as usize) + given.events.len() / 8;
    let length = length(&mut random, most);
    let kinds = kinds(&mut random);
    lend(given, length, kinds)
}

fn count_refusal(reached: &mut Reached, given: &Lent, number: u8) {
    reached.mark_if(true, &format!("refused {number}"));
    reached.mark_if(number == 21 && given.trace.len() % TRACED != 0, "refused 21 by length");
    reached.mark_if(number == 21 && given.trace.len() % TRACED == 0, "refused 21 by kinds");
}

fn count_record(reached: &mut Reached, record: &[u8; TRACED]) {
    let (kind, number, low) = (record[4], record[5], record[6]);
    let address = u16::from_le_bytes([record[6], record[7]]);
    reached.mark_if(true, &format!("kind {kind}"));
    reached.mark_if(kind == 0 && low == 0, "event of a device without ENA");
    reached.mark_if(kind == 0 && low & 1 == 1, "event taken");
    reached.mark_if(kind == 0 && low & 2 == 2, "overrun");
    reached.mark_if(kind == 0 && low & 4 == 4, "line raised");
    reached.mark_if(kind == 0 && low & 12 == 8, "count full, IE clear");
    reached.mark_if(kind == 0 && low & 12 == 12, "event lost");
    reached.mark_if(kind == 10 && number == 1, "byte load");
    reached.mark_if(kind == 11 && number == 1, "byte store");
    reached.mark_if(kind == 10 && address < 16, "load from a status byte");
    reached.mark_if(kind == 11 && address < 16, "store to a status byte");
}

/// The oracle's answer, counted.
fn answer(given: &Lent, reached: &mut Reached) -> (u64, Lent) {
    let mut told = given.clone();
    let result = told.run_watched(|_, _, added| {
        added.iter().for_each(|record| count_record(reached, record));
        reached.mark_if(added.iter().filter(|record| record[4] == 0).count() > 1, "two events of a step");
    });
    match result {
        Err(number) => count_refusal(reached, given, number),
        Ok(ran) => {
            let short = ran.reason == 2;
            reached.mark_if(short && ran.steps == 0, "no room for the first step");
            reached.mark_if(short && TRACED * ran.added as usize != given.trace.len(), "places stay free");
            reached
                .mark_if(ran.added > 0 && TRACED * ran.added as usize == given.trace.len(), "trace filled to its end");
            reached.mark_if(given.kinds == 0, "no record asked for");
            reached.mark_if(given.kinds & 0b1110_1001_0000 == 0 && ran.steps > 4, "stretches may be taken");
            reached.mark_if(given.record[21] == 1, "a halted start");
            if short {
                count_short(given, &told, reached);
            }
        }
    }
    (reply(result), told)
}

/// What the step was for which there was no room.
fn count_short(given: &Lent, told: &Lent, reached: &mut Reached) {
    let mut m = Machine::from_record(&told.record);
    let events = events_of(&given.events);
    let mut memory = told.memory.clone();
    let Some(trace) = m.step(&mut memory, &events) else { return };
    reached.mark_if(!trace.due.is_empty() && given.kinds & 1 == 1, "no room for an act behind its events");
    reached.mark_if(trace.written.len() == 8, "no room for a step that pushes");
}

/// Where an engine and the oracle differ on what is lent.
pub fn differs(engine: Engine, given: &Lent, reached: &mut Reached) -> Option<String> {
    let (replied, told) = answer(given, reached);
    let mut theirs = given.clone();
    let their_reply = engine(&mut theirs);
    let what = if their_reply != replied {
        format!("reply {their_reply:#x} for {replied:#x}")
    } else if theirs.record != told.record {
        "record".to_string()
    } else if theirs.memory != told.memory {
        "memory".to_string()
    } else if theirs.trace != told.trace {
        let at = theirs.trace.iter().zip(&told.trace).position(|(a, b)| a != b);
        format!("byte {at:?} of the trace")
    } else {
        return None;
    };
    Some(what)
}

/// The first seed of these on which an engine differs.
pub fn compare_many(engine: Engine, first: u64, many: u64, reached: &mut Reached) -> Option<(u64, String)> {
    (first..first + many).find_map(|seed| differs(engine, &lent(seed), reached).map(|what| (seed, what)))
}

/// The run of the same buffers with a log that is long enough.
pub fn plain(given: &Lent) -> (u64, Input) {
    let Lent { memory, record, events, n, .. } = given.clone();
    let mut input = Input { memory, record, events, log: long_log(n), n, ..Input::default() };
    let replied = input.replied();
    (replied, input)
}
