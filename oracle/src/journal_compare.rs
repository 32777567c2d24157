//! The calls on a journal beside the oracle, over sessions: runs and goings-back in turn on one machine and one
//! journal, with other lists, other n, logs that are too short, machines that halt, and calls that are refused. After
//! each call reply, record, all of memory, the log, the depth, the journal's bytes, the number kept and the next place
//! are compared; and what 02 promises is held: going back k gives what was k steps earlier, and running k on, by one run
//! or by several, gives the same again.

use crate::inputs::{input, lines, Input, Kind};
use crate::journal::{address, Held, Journal, KEPT};
use crate::machine::{event_record, events_of, long_log, reply, steps_of, without_twins};
use crate::machine::{Act, Event, Machine, Trace, DEVICES, MAX_EVENTS, MEMORY};
use crate::random::Random;
use std::collections::BTreeMap;
use std::fs;
use std::io;
use std::path::{Path, PathBuf};

/// The two calls of an engine, in place.
#[derive(Clone, Copy)]
pub struct Engine {
    pub run: fn(&mut Held) -> u64,
    pub back: fn(&mut Held, u64) -> u64,
}

/// The oracle itself.
pub const ORACLE: Engine = Engine { run: |held| reply(held.run()), back: |held, k| held.back(k) };

/// A call of a session.
#[derive(Clone, Copy, Debug, PartialEq, Eq)]
pub enum Call {
    Run,
    Back(u64),
}

/// A call on which an engine and the oracle differ.
#[derive(Clone, Debug)]
pub struct Difference {
    pub what: String,
    pub call: Call,
    pub given: Held,
}

/// How often each thing was reached.
#[derive(Default)]
pub struct Reached(BTreeMap<String, u64>);

/// What every set of sessions must have reached.
pub const OWED: [&str; 55] = [
    "9 before 14",
    "14 before 15",
    "run refused 1",
    "run refused 2",
    "run refused 3",
    "run refused 4",
    "run refused 5",
    "run refused 6",
    "run refused 7",
    "run refused 9",
    "run refused 13",
    "run refused 14",
    "back refused 1",
    "back refused 3",
    "back refused 14",
    "back refused 15",
    "14 by length",
    "14 by the number kept",
    "14 by the next place",
    "a run of no step",
    "a halted run",
    "no room: no record",
    "accept",
    "chain",
    "pull",
    "fault",
    "trap",
    "halt",
    "sleep",
    "skip",
    "execute",
    "address of a push",
    "of a push at an odd SP",
    "of a store of a byte",
    "of a store of a word",
    "of a store to a device alone",
    "the eight bytes wrap",
    "the eight bytes meet an event's",
    "one record",
    "a full journal",
    "the oldest overwritten",
    "room for more records than steps",
    "an odd place at the start",
    "back by 0",
    "back by all",
    "back by some",
    "back past the beginning of the bytes",
    "back over several runs",
    "back after a refused run",
    "back from a halt",
    "back after no room",
    "back out of records of any bytes",
    "an unlawful record comes out",
    "run on after a back",
    "run on by several runs",
];

impl Reached {
    fn mark(&mut self, name: &str) {
        *self.0.entry(name.to_string()).or_default() += 1;
    }

    fn mark_if(&mut self, holds: bool, name: &str) {
        if holds {
            self.mark(name);
        }
    }

    /// Everything owed that was reached fewer times than `least`.
    pub fn gaps(&self, least: u64) -> Vec<String> {
        let count = |name: &str| self.0.get(name).copied().unwrap_or(0);
        OWED.iter().filter(|name| count(name) < least).map(|name| format!("{name}: {}", count(name))).collect()
    }

    /// Counts what a step was, and its record.
    fn step(&mut self, trace: &Trace, was: &Machine, after: &Machine) {
        let a = address(trace, after);
        let pushes = matches!(trace.act, Act::Accept(_) | Act::Fault(_) | Act::Trap(_));
        self.mark(match trace.act {
            Act::Accept(_) => "accept",
            Act::Chain(_) => "chain",
            Act::Pull => "pull",
            Act::Fault(_) => "fault",
            Act::Trap(_) => "trap",
            Act::Halt(_) => "halt",
            Act::Sleep => "sleep",
            Act::Skip => "skip",
            Act::Execute(_) => "execute",
        });
        self.mark_if(pushes, "address of a push");
        self.mark_if(pushes && after.regs[6] & 1 == 1, "of a push at an odd SP");
        let stores = !pushes && !trace.written.is_empty();
        self.mark_if(stores && a != 0 && trace.written.len() == 1, "of a store of a byte");
        self.mark_if(stores && a != 0 && trace.written.len() == 2, "of a store of a word");
        self.mark_if(stores && a == 0, "of a store to a device alone");
        self.mark_if(a > 0xFFF8, "the eight bytes wrap");
        let meets = |device: u8| (0..8).any(|i| a.wrapping_add(i) / 2 == u16::from(device));
        let wrote = !trace.written.is_empty() && (a < DEVICES || a > 0xFFF8);
        self.mark_if(wrote && trace.due.iter().any(|&(device, _)| meets(device)), "the eight bytes meet an event's");
        debug_assert!(was.count + 1 == after.count);
    }
}

/// Where two outcomes differ first.
fn difference(got: (u64, &Held), right: (u64, &Held)) -> Option<String> {
    let first = |name: &str, a: &[u8], b: &[u8]| {
        let at = (0..a.len().max(b.len())).find(|&i| a.get(i) != b.get(i))?;
        Some(format!("{name} byte {at} is {:02X?}, oracle {:02X?}", a.get(at), b.get(at)))
    };
    let number = |name: &str, a: u32, b: u32| (a != b).then(|| format!("{name} {a}, oracle {b}"));
    if got.0 != right.0 {
        return Some(format!("reply {:016X}, oracle {:016X}", got.0, right.0));
    }
    let (ours, theirs) = ((&got.1.input, &got.1.journal), (&right.1.input, &right.1.journal));
    first("record", &ours.0.record, &theirs.0.record)
        .or_else(|| first("memory", &ours.0.memory, &theirs.0.memory))
        .or_else(|| first("log", &ours.0.log, &theirs.0.log))
        .or_else(|| first("journal", &ours.1.bytes, &theirs.1.bytes))
        .or_else(|| first("events", &ours.0.events, &theirs.0.events))
        .or_else(|| number("depth", ours.0.deepest, theirs.0.deepest))
        .or_else(|| number("kept", ours.1.kept, theirs.1.kept))
        .or_else(|| number("place", ours.1.place, theirs.1.place))
        .or_else(|| (got.1 != right.1).then(|| "n".to_string()))
}

// ---- a session

/// A step that was taken and not taken back: the state before it is that of a run of so many steps from a start.
#[derive(Clone)]
struct Past {
    start: std::rc::Rc<Held>,
    steps: u64,
    due: Vec<Event>,
}

impl Past {
    /// State record and memory before the step, by the plain run.
    fn state(&self) -> (Vec<u8>, Vec<u8>) {
        let mut again = self.start.input.clone();
        (again.n, again.log) = (self.steps, long_log(self.steps));
        again.run().expect("a run that was accepted");
        (again.record, again.memory)
    }
}

/// A machine and a journal over several calls, by an engine and by the oracle.
pub struct Session<'a> {
    engine: Engine,
    reached: &'a mut Reached,
    pub held: Held,
    /// The steps that the journal stands for, the newest last; empty, and `known` false, where it began otherwise.
    past: Vec<Past>,
    known: bool,
    /// Of the steps taken since the last going back: in how many runs, and how the last one ended.
    runs: u32,
    last: &'static str,
}

type Outcome = Result<u64, Box<Difference>>;

impl<'a> Session<'a> {
    pub fn new(engine: Engine, held: Held, reached: &'a mut Reached) -> Session<'a> {
        let known = held.journal.kept == 0;
        reached.mark_if(known && held.journal.place != 0, "an odd place at the start");
        Session { engine, reached, held, past: Vec::new(), known, runs: 0, last: "" }
    }

    fn differ<T>(&self, what: String, call: Call, given: &Held) -> Result<T, Box<Difference>> {
        Err(Box::new(Difference { what, call, given: given.clone() }))
    }

    /// Both do a call; what the oracle leaves is kept.
    fn both(&mut self, call: Call, oracle: impl FnOnce(&mut Held) -> u64) -> Outcome {
        let (given, mut ours) = (self.held.clone(), self.held.clone());
        let got = match call {
            Call::Run => (self.engine.run)(&mut ours),
            Call::Back(k) => (self.engine.back)(&mut ours, k),
        };
        let right = oracle(&mut self.held);
        if let Some(what) = difference((got, &ours), (right, &self.held)) {
            return self.differ(what, call, &given);
        }
        if right & 0xFF != 0 && self.held != given {
            return self.differ("refused with a change".into(), call, &given);
        }
        Ok(right)
    }

    /// A run with the list, the log and the n that `held` has.
    pub fn run(&mut self) -> Outcome {
        let (start, mut steps) = (std::rc::Rc::new(self.held.clone()), Vec::new());
        let mut seen = std::mem::take(self.reached);
        let reply = self.both(Call::Run, |held| {
            reply(held.run_watched(|trace, was, after, _| {
                seen.step(trace, was, after);
                steps.push(was.count);
            }))
        });
        *self.reached = seen;
        let reply = reply?;
        self.ran(reply, &start, &steps);
        Ok(reply)
    }

    /// Counts a run, and notes its steps.
    fn ran(&mut self, reply: u64, start: &std::rc::Rc<Held>, steps: &[u32]) {
        let (number, reason) = (reply & 0xFF, reply >> 8 & 0xFF);
        if number != 0 {
            self.reached.mark(&format!("run refused {number}"));
            self.reached.mark_if(!self.past.is_empty(), "a refused run after steps");
            self.reached.mark_if(number == 9 && !self.held.journal.fits(), "9 before 14");
            self.last = "refused";
            return self.fourteen(number);
        }
        let (records, before) = (start.journal.records(), start.journal.kept as usize);
        let events = events_of(&start.input.events);
        self.reached.mark_if(steps.is_empty() && reason == 0, "a run of no step");
        self.reached.mark_if(reason == 1, "a halted run");
        self.reached.mark_if(reason == 2, "no room: no record");
        self.reached.mark_if(records == 1 && !steps.is_empty(), "one record");
        self.reached.mark_if(before + steps.len() == records, "a full journal");
        self.reached.mark_if(before + steps.len() > records, "the oldest overwritten");
        self.reached.mark_if(before + steps.len() < records, "room for more records than steps");
        for (i, &count) in steps.iter().enumerate() {
            let due = events.iter().filter(|e| e.step == count).copied().collect();
            self.past.push(Past { start: start.clone(), steps: i as u64, due });
        }
        let old = self.past.len().saturating_sub(records);
        self.past.drain(..old);
        self.runs += u32::from(!steps.is_empty());
        self.last = ["done", "halted", "no room"][reason as usize];
    }

    fn fourteen(&mut self, number: u64) {
        let journal = &self.held.journal;
        let length = journal.bytes.len();
        let whole = length > 0 && length <= 65_536 && length.is_multiple_of(KEPT);
        self.reached.mark_if(number == 14 && !whole, "14 by length");
        self.reached.mark_if(number == 14 && whole && journal.kept as usize > length / KEPT, "14 by the number kept");
        self.reached.mark_if(number == 14 && whole && journal.place as usize >= length / KEPT, "14 by the next place");
    }

    /// Goes back, and where the journal is known holds what was k steps earlier, and that running on gives the same.
    pub fn back(&mut self, k: u64) -> Outcome {
        let given = self.held.clone();
        let reply = self.both(Call::Back(k), |held| held.back(k))?;
        if reply != 0 {
            self.reached.mark(&format!("back refused {reply}"));
            self.reached.mark_if(reply == 14 && k > u64::from(self.held.journal.kept), "14 before 15");
            self.fourteen(reply);
            return Ok(reply);
        }
        let (kept, place) = (u64::from(given.journal.kept), u64::from(given.journal.place));
        self.reached.mark(if k == 0 {
            "back by 0"
        } else if k == kept {
            "back by all"
        } else {
            "back by some"
        });
        self.reached.mark_if(k > place, "back past the beginning of the bytes");
        self.reached.mark_if(k > 0 && self.last == "refused", "back after a refused run");
        self.reached.mark_if(k > 0 && self.last == "halted", "back from a halt");
        self.reached.mark_if(k > 0 && self.last == "no room", "back after no room");
        if k > 0 && !self.known {
            self.reached.mark("back out of records of any bytes");
            let Input { memory, n, record, .. } = &self.held.input;
            let judged = crate::machine::refusal(memory, (*n).min(1), record, &[], &[]);
            self.reached.mark_if(judged == Some(4), "an unlawful record comes out");
        }
        if self.known {
            self.earlier(k, &given)?;
        }
        Ok(0)
    }

    /// The state is that of k steps earlier, and k steps on, with the same events due, it is the one before again.
    fn earlier(&mut self, k: u64, given: &Held) -> Result<(), Box<Difference>> {
        let taken_back = self.past.split_off(self.past.len() - k as usize);
        self.reached.mark_if(
            k > 0 && taken_back.windows(2).any(|p| !std::rc::Rc::ptr_eq(&p[0].start, &p[1].start)),
            "back over several runs",
        );
        let Some(first) = taken_back.first() else { return Ok(()) };
        if (self.held.input.record.clone(), self.held.input.memory.clone()) != first.state() {
            return self.differ(format!("{k} steps back is another state"), Call::Back(k), given);
        }
        let runs: Vec<&[Past]> = taken_back.chunk_by(|a, b| std::rc::Rc::ptr_eq(&a.start, &b.start)).collect();
        let (front, rest) = taken_back.split_at(taken_back.len() / 2);
        self.on_again(&runs, given)?;
        self.on_again(&[front, rest], given)?;
        if taken_back.iter().map(|past| past.due.len()).sum::<usize>() <= MAX_EVENTS {
            self.on_again(&[&taken_back], given)?;
        }
        self.last = "done";
        Ok(())
    }

    /// The steps again, in parts: a run for each, with the events due in its steps and a log of its own. Where a part
    /// begins the state is the one that its first step found, and after the last it is the one before going back.
    fn on_again(&mut self, parts: &[&[Past]], given: &Held) -> Result<(), Box<Difference>> {
        let mut again = self.held.clone();
        for part in parts.iter().filter(|part| !part.is_empty()) {
            let k = part.len() as u64;
            if (again.input.record.clone(), again.input.memory.clone()) != part[0].state() {
                return self.differ(format!("running on, before {k} steps, is another state"), Call::Run, &again);
            }
            again.input.events = part.iter().flat_map(|past| past.due.clone()).flat_map(event_record).collect();
            (again.input.n, again.input.log) = (k, long_log(k));
            let on = again.clone();
            if steps_of((self.engine.run)(&mut again)) != k {
                return self.differ(format!("{k} steps on again are not done"), Call::Run, &on);
            }
        }
        self.reached.mark("run on after a back");
        self.reached.mark_if(parts.len() > 1, "run on by several runs");
        let same = again.input.record == given.input.record && again.input.memory == given.input.memory;
        if !same || again.journal.kept != given.journal.kept {
            return self.differ("running on again gives another state".into(), Call::Run, &self.held.clone());
        }
        Ok(())
    }
}

// ---- random sessions

/// A start: an input of a kind, with a journal of few records or many, empty at any place, or of any bytes.
fn start(random: &mut Random, seed: u64) -> Held {
    let kinds = [Kind::Plausible, Kind::Screen, Kind::Nest, Kind::Corner, Kind::Wild];
    let mut held = Held { input: input(kinds[random.below(5) as usize], seed), ..Held::default() };
    if random.one_in(3) {
        let mut m = Machine::from_record(&held.input.record);
        (m.lines, m.halted) = (lines(random), false);
        m.regs[6] = [0, 2, 6, 8, 9, 12, 0xFFFC, 0xFFFE, 0xFFFF, 0x10, 0x12][random.below(11) as usize];
        held.input.record = m.to_record().to_vec();
    }
    let records = match random.below(6) {
        0 => 1,
        1 | 2 => 2 + random.below(6),
        3 | 4 => 1 + random.below(60),
        _ => [100, 1_024][random.below(2) as usize],
    };
    held.journal.bytes = (0..KEPT * records as usize).map(|_| random.byte()).collect();
    held.journal.place = if random.one_in(2) { 0 } else { random.below(records) as u32 };
    if random.one_in(8) {
        // Records of any bytes, half of them with an address where the eight bytes meet the device bytes.
        held.journal.kept = random.below(records + 1) as u32;
        for record in held.journal.bytes.chunks_exact_mut(KEPT).step_by(2) {
            let near = 0xFFF8_u16.wrapping_add(random.below(24) as u16);
            record[48..50].copy_from_slice(&near.to_le_bytes());
        }
    }
    held
}

/// A list for the next run: that of the start, none, or another one around the machine's count.
fn list(random: &mut Random, first: &[u8], count: u32) -> Vec<u8> {
    if random.one_in(3) {
        return first.to_vec();
    }
    let mut step = u64::from(count).saturating_sub(random.below(3));
    let mut all = Vec::new();
    while random.below(8) > 0 && step < u64::from(u32::MAX) {
        all.push(Event { step: step as u32, device: random.below(8) as u8, data: random.byte() });
        step += random.below(4);
    }
    without_twins(all).into_iter().flat_map(event_record).collect()
}

/// How many ways there are of breaking a rule of a run; the first of them break one of going back too.
const BREAKS: u64 = 14;
const BREAKS_OF_BACK: u64 = 7;

/// One rule broken, so that the call is refused.
fn break_rule(random: &mut Random, held: &mut Held, runs: bool) {
    let (records, any) = (held.journal.records() as u32, random.byte());
    match random.below(if runs { BREAKS } else { BREAKS_OF_BACK }) {
        0 => held.journal.bytes.resize([0, 1, 63, 65, 96, 65_535, 65_537, 65_600][usize::from(any % 8)], any),
        1 => held.journal.kept = records + 1 + u32::from(any % 3),
        2 => held.journal.place = records + u32::from(any % 3),
        3 => held.journal.kept = u32::MAX,
        4 => held.journal.place = u32::MAX,
        5 => held.input.memory.resize([0, 35, MEMORY - 1, MEMORY + 1][usize::from(any % 4)], any),
        6 => held.input.record.resize([0, 31, 33, 64][usize::from(any % 4)], any),
        7 => held.input.n = [1_000_001, u64::from(u32::MAX), u64::MAX][usize::from(any % 3)],
        8 => held.input.log.push(any),
        9 => held.input.events.push(any),
        10 => held.input.events = vec![0, 0, 0, 0, 8 | any, 0, 0, 0],
        11 => held.input.events = vec![1, 0, 0, 0, 0, 0, 0, 0, 0, 0, 0, 0, 1, 0, 0, 0],
        12 => held.input.events = vec![0; 16],
        _ => held.input.record.iter_mut().skip(20).take(1).for_each(|byte| *byte = 1),
    }
}

/// A run or a going-back of the session, mostly lawful.
fn call(random: &mut Random, session: &mut Session, first: &[u8]) -> Result<(), Box<Difference>> {
    let kept = u64::from(session.held.journal.kept);
    let count = session.held.input.record.get(22..26).map_or(0, |b| u32::from_le_bytes([b[0], b[1], b[2], b[3]]));
    let n = if random.one_in(6) { random.below(2) } else { random.below(36) };
    session.held.input.n = n.min(u64::from(u32::MAX - count));
    session.held.input.events = list(random, first, count);
    let log = if random.one_in(3) { random.below(3) } else { n };
    session.held.input.log = (0..8 * log).map(|_| random.byte()).collect();
    session.held.input.deepest = random.draw() as u32;
    let (right, runs, broken) = (session.held.clone(), random.one_in(2), random.one_in(6));
    if broken {
        break_rule(random, &mut session.held, runs);
        if random.one_in(3) {
            break_rule(random, &mut session.held, runs);
        }
    }
    let k = match random.below(6) {
        0 => kept,
        1 => kept + 1,
        2 => [u64::MAX, 1 << 32, u64::from(u32::MAX)][random.below(3) as usize],
        _ => random.below(kept + 1),
    };
    let reply = if runs { session.run() } else { session.back(k) }?;
    assert!(!broken || reply & 0xFF != 0, "a broken rule is refused");
    if broken {
        session.held = right;
    }
    Ok(())
}

/// One session of the seed: a dozen calls.
pub fn compare(engine: Engine, seed: u64, reached: &mut Reached) -> Result<(), Box<Difference>> {
    let mut random = Random::new(seed.wrapping_mul(0x9E37_79B9_7F4A_7C15) ^ 0x0802);
    let held = start(&mut random, seed);
    let first = held.input.events.clone();
    let mut session = Session::new(engine, held, reached);
    for _ in 0..12 {
        call(&mut random, &mut session, &first)?;
    }
    Ok(())
}

/// Sessions of so many seeds from the first on.
pub fn compare_many(
    engine: Engine,
    first: u64,
    many: u64,
    reached: &mut Reached,
) -> Result<(), (u64, Box<Difference>)> {
    (first..first + many).try_for_each(|seed| compare(engine, seed, reached).map_err(|found| (seed, found)))
}

// ---- differences as files

const PARTS: [&str; 5] = ["memory.bin", "record.bin", "events.bin", "log.bin", "journal.bin"];

impl Difference {
    /// Writes the call into a folder, and gives its path: `call.txt` has `run` or `back K`, `numbers.txt` n, the depth,
    /// the number kept and the next place as they were handed in.
    pub fn save(&self, folder: &Path, name: &str) -> io::Result<PathBuf> {
        let place = folder.join(name);
        fs::create_dir_all(&place)?;
        let (Input { memory, record, events, log, deepest, n }, journal) = (&self.given.input, &self.given.journal);
        for (file, bytes) in PARTS.into_iter().zip([memory, record, events, log, &journal.bytes]) {
            fs::write(place.join(file), bytes)?;
        }
        let call = match self.call {
            Call::Run => "run".to_string(),
            Call::Back(k) => format!("back {k}"),
        };
        fs::write(place.join("call.txt"), call + "\n")?;
        fs::write(place.join("numbers.txt"), format!("{n} {deepest} {} {}\n", journal.kept, journal.place))?;
        fs::write(place.join("difference.txt"), format!("{}\n", self.what))?;
        Ok(place)
    }
}

/// Whether a folder holds a saved call on a journal.
pub fn is_saved(place: &Path) -> bool {
    place.join("journal.bin").exists()
}

/// Does a saved call again.
pub fn replay(engine: Engine, place: &Path) -> io::Result<Result<u64, Box<Difference>>> {
    let wrong = |file: &str| io::Error::other(format!("{file} cannot be read"));
    let mut parts = Vec::new();
    for file in PARTS {
        parts.push(fs::read(place.join(file))?);
    }
    let numbers: Vec<u64> = fs::read_to_string(place.join("numbers.txt"))?
        .split_whitespace()
        .map(|text| text.parse().map_err(|_| wrong("numbers.txt")))
        .collect::<Result<_, _>>()?;
    let [n, deepest, kept, at] = numbers[..] else { return Err(wrong("numbers.txt")) };
    let [memory, record, events, log, bytes] = <[Vec<u8>; 5]>::try_from(parts).expect("five parts");
    let input = Input { memory, record, events, log, deepest: deepest as u32, n };
    let held = Held { input, journal: Journal { bytes, kept: kept as u32, place: at as u32 } };
    let (call, mut reached) = (fs::read_to_string(place.join("call.txt"))?, Reached::default());
    // What came before is not known: the call alone is compared.
    let mut session = Session { known: false, ..Session::new(engine, held, &mut reached) };
    match call.split_whitespace().collect::<Vec<_>>()[..] {
        ["run"] => Ok(session.run()),
        ["back", k] => Ok(session.back(k.parse().map_err(|_| wrong("call.txt"))?)),
        _ => Err(wrong("call.txt")),
    }
}
