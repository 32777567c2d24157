//! Inputs of the run call, by kind and seed: wild, plausible, at the corners, broken, with a screen, deeply nested. The
//! same kind and seed give the same input.

use crate::isa::{encode, Instr};
use crate::machine::{event_record, events_of, long_log, reply, run, without_twins, Ran, SHOWN};
use crate::machine::{Event, Lines, Machine, Setup, EVENT, MAX_EVENTS, MAX_STEPS, MEMORY, PC, RECORD, SP};
use crate::nests::nest;
use crate::programs::setup;
use crate::random::Random;
use crate::screens::screen;

/// What the run call is handed. `deepest` is a number in and out: any number goes in.
#[derive(Clone, Debug, Default, PartialEq, Eq)]
pub struct Input {
    pub memory: Vec<u8>,
    pub record: Vec<u8>,
    pub events: Vec<u8>,
    pub log: Vec<u8>,
    pub deepest: u32,
    pub n: u64,
}

impl From<Setup> for Input {
    fn from(setup: Setup) -> Input {
        Input {
            memory: setup.memory,
            record: setup.machine.to_record().to_vec(),
            events: setup.events.into_iter().flat_map(event_record).collect(),
            n: setup.n.into(),
            ..Input::default()
        }
    }
}

impl Input {
    /// What the program reads, where n fits its four bytes.
    pub fn to_bytes(&self) -> Vec<u8> {
        let n = u32::try_from(self.n).expect("four bytes").to_le_bytes();
        [&n, &self.record[..], &self.memory, &self.events].concat()
    }

    /// Runs it in place by the oracle. The depth is written where the run is accepted, and kept where it is refused.
    pub fn run(&mut self) -> Result<Ran, u8> {
        let ran = run(&mut self.memory, self.n, &mut self.record, &self.events, &mut self.log)?;
        self.deepest = ran.deepest;
        Ok(ran)
    }

    /// The same, by the reply.
    pub fn replied(&mut self) -> u64 {
        reply(self.run())
    }

    pub fn put_word(&mut self, at: u16, value: u16) {
        let at = usize::from(at & !1);
        self.memory[at..at + 2].copy_from_slice(&value.to_le_bytes());
    }
}

#[derive(Clone, Copy, Debug, PartialEq, Eq)]
pub enum Kind {
    /// Random everything that is accepted.
    Wild,
    /// An examination paper: an application, handlers, devices, events.
    Plausible,
    /// Addresses, counts and states at their ends.
    Corner,
    /// One rule broken or more, or nearly.
    Broken,
    /// A program that stores to its output devices, with a log that may be too short for what they show.
    Screen,
    /// Traps in traps' handlers, faults and lines among them, returns, and returns too many.
    Nest,
}

pub const KINDS: [Kind; 6] = [Kind::Wild, Kind::Plausible, Kind::Corner, Kind::Broken, Kind::Screen, Kind::Nest];

pub fn input(kind: Kind, seed: u64) -> Input {
    let mut random = Random::new(seed.wrapping_mul(0x9E37_79B9_7F4A_7C15) ^ kind as u64);
    let mut input = match kind {
        Kind::Wild => wild(&mut random),
        Kind::Plausible => setup(seed).into(),
        Kind::Corner => corner(&mut random),
        Kind::Broken => return broken(&mut random, seed),
        Kind::Screen => screen(&mut random),
        Kind::Nest => nest(&mut random),
    };
    lend_log(&mut input, &mut random);
    input
}

/// A log of whole records and of any bytes: none, few, as many as steps or more, as many as the run needs, or one less;
/// and any number for the depth to be written over.
fn lend_log(input: &mut Input, random: &mut Random) {
    let records = match random.below(8) {
        0 => 0,
        1 | 2 => random.below(6),
        3 => input.n.min(MAX_STEPS) + random.below(3),
        4 => random.below(input.n.min(200) + 1),
        k => {
            let needed = Input { log: long_log(input.n), ..input.clone() }.run().map_or(0, |ran| ran.added);
            u64::from(needed).saturating_sub(u64::from(k == 7))
        }
    };
    input.log = (0..SHOWN * records as usize).map(|_| random.byte()).collect();
    input.deepest = random.draw() as u32;
}

/// Counts of waiting events: any, or most of them zero, or full or nearly so.
pub fn lines(random: &mut Random) -> Lines {
    let kind = random.below(4);
    Lines(std::array::from_fn(|_| match kind {
        0 => random.below(16) as u8,
        1 => 13 + random.below(3) as u8,
        _ if random.one_in(2) => 0,
        _ => 1 + random.below(3) as u8,
    }))
}

/// A random record of a machine, its zero bits zero.
fn machine(random: &mut Random) -> Machine {
    let mut m = Machine { psw: random.word() & 0xE1FF, cex: random.word() & 0x7F, ..Machine::default() };
    m.regs = std::array::from_fn(|_| random.word());
    m.lines = lines(random);
    m.halted = random.one_in(32);
    m.count = random.draw() as u32 >> random.below(33).min(31);
    m
}

/// Up to `most` events on any device, in order and without twins, from a little before the count to a little after the
/// run's end.
fn events(random: &mut Random, count: u32, n: u64, most: u64) -> Vec<u8> {
    let mut steps: Vec<u32> = (0..random.below(most + 1))
        .map(|_| (u64::from(count) + random.below(n + 4)).saturating_sub(2).min(u32::MAX.into()) as u32)
        .collect();
    steps.sort();
    let all = steps.into_iter().map(|step| Event { step, device: random.below(8) as u8, data: random.byte() });
    without_twins(all.collect()).into_iter().flat_map(event_record).collect()
}

fn wild(random: &mut Random) -> Input {
    let mut memory = Vec::with_capacity(MEMORY);
    while memory.len() < MEMORY {
        memory.extend(random.draw().to_le_bytes());
    }
    let mut m = machine(random);
    let n = random.below(32);
    m.count = m.count.min(u32::MAX - n as u32);
    if !random.one_in(4) {
        m.regs[PC] &= !1;
        m.psw &= !0x108;
    }
    if random.one_in(2) {
        m.lines = Lines::default();
    }
    let record = m.to_record().to_vec();
    Input { memory, record, events: events(random, m.count, n, 12), n, ..Input::default() }
}

/// Addresses where something changes: the devices' ends, the vectors' ends, the ends of memory and of the signs.
const CORNERS: [u16; 24] = [
    0, 1, 2, 3, 0x0D, 0x0E, 0x0F, 0x10, 0x11, 0x12, 0x7FFE, 0x7FFF, 0x8000, 0x8001, 0xFFBE, 0xFFBF, 0xFFC0, 0xFFC1,
    0xFFF8, 0xFFFB, 0xFFFC, 0xFFFD, 0xFFFE, 0xFFFF,
];

fn corner_address(random: &mut Random) -> u16 {
    if random.one_in(8) {
        random.word()
    } else {
        CORNERS[random.below(CORNERS.len() as u64) as usize]
    }
}

/// A word that may stand in a program: an instruction on any registers, seldom an illegal word or any word.
fn instruction(random: &mut Random) -> u16 {
    let mut below = |limit: u64| random.below(limit) as u8;
    let (wb, src, dst, flags) = (below(2), below(8), below(8), below(32));
    let (prpo, dec, inc, op) = (below(2), below(2), below(2), below(12));
    let offset = i16::from(below(128)) - 64;
    let instr = match below(24) {
        0..=3 => Instr::Alu { op, rc: below(2), wb, src, dst },
        4 => Instr::Mov { wb, src, dst },
        5 => Instr::Swap { src, dst, ignored: wb },
        6 => Instr::Unary { op: op % 3, wb, dst },
        7 if wb == 0 => Instr::Swpb { dst, ignored: inc },
        7 => Instr::Sxt { dst, ignored: inc },
        8 => Instr::SetPri { level: dst },
        9 => Instr::Svc { vector: below(16) },
        10 => Instr::SetCc { flags },
        11 => Instr::ClrCc { flags },
        12 => Instr::Cex { cond: below(16), if_true: src >> below(3), if_false: dst >> below(3) },
        13 | 14 => Instr::Ld { prpo, dec, inc, wb, src, dst },
        15 | 16 => Instr::St { prpo, dec, inc, wb, src, dst },
        17 => Instr::MovImm { op: op % 4, byte: below(255), dst },
        18 => Instr::Ldr { offset, wb, src, dst },
        19 => Instr::Str { offset, wb, src, dst },
        20 => Instr::Branch { cond: src, offset },
        21 => Instr::Bl { offset },
        22 => return 0x4E00 | u16::from(flags),
        _ => return random.word(),
    };
    encode(instr).expect("a lawful instruction")
}

/// Registers, stack and program at the corners.
fn corner(random: &mut Random) -> Input {
    let mut m = machine(random);
    m.regs = std::array::from_fn(|_| corner_address(random));
    let n = random.below(24);
    match random.below(8) {
        0 => m.count = u32::MAX - n as u32,
        1 => m.count = u32::MAX - n as u32 - random.below(3) as u32,
        _ => m.count = random.below(6) as u32,
    }
    if !random.one_in(3) {
        m.psw &= !0x100;
        m.halted = false;
    }
    if !random.one_in(6) {
        m.psw &= !0x08;
    }
    if random.one_in(2) {
        (m.lines, m.cex) = (Lines::default(), 0);
    }
    let (record, events) = (m.to_record().to_vec(), events(random, m.count, n, 10));
    let mut input = Input { memory: vec![0; MEMORY], record, events, n, ..Input::default() };
    furnish(&mut input, random);
    plant(&mut input, random, m.regs[PC], m.regs[SP]);
    input
}

/// Where a vector's handler stands, if it is at no corner.
fn handler(v: u16) -> u16 {
    0x2000 + 0x40 * v
}

/// Devices that are mostly enabled, and vectors that mostly lead to a short handler.
fn furnish(input: &mut Input, random: &mut Random) {
    for device in 0..8 {
        input.memory[2 * device] = random.byte() | if random.one_in(4) { 0 } else { 0x11 };
        input.memory[2 * device + 1] = random.byte();
    }
    for v in 0..16 {
        input.put_word(0xFFC0 + 4 * v, random.word());
        let entry = if random.one_in(3) { corner_address(random) } else { handler(v) };
        input.put_word(0xFFC2 + 4 * v, entry);
    }
}

/// Instructions at PC and SP, at the handlers and at some corners; over devices and vectors only now and then, so that
/// these stay sensible.
fn plant(input: &mut Input, random: &mut Random, pc: u16, sp: u16) {
    let mut places = vec![pc, sp, 0x1000, 0xFFFE];
    places.extend((0..16).map(handler));
    places.extend(CORNERS.into_iter().filter(|_| random.one_in(4)));
    for place in places {
        for i in 0..5 {
            let at = place.wrapping_add(2 * i);
            if (16..0xFFC0).contains(&at) || at == pc || random.one_in(6) {
                let word = instruction(random);
                input.put_word(at, word);
            }
        }
        if random.one_in(2) {
            input.put_word(place.wrapping_add(10), 0x4C2F); // MOV LR,PC
        }
    }
}

/// How many ways of breaking a rule there are, and of nearly breaking one.
const BREAKS: u64 = 15;
const NEARLY: u64 = 9;

/// One to three rules broken, with near misses beside them, or near misses alone.
fn broken(random: &mut Random, seed: u64) -> Input {
    let mut input = if random.one_in(2) { wild(random) } else { setup(seed).into() };
    lend_log(&mut input, random);
    for _ in 0..random.below(3) {
        nearly(&mut input, random);
    }
    for _ in 0..random.below(4) {
        let rule = random.below(BREAKS);
        break_rule(&mut input, random, rule);
    }
    input
}

/// Breaks a rule, where the buffer still has the place for it.
fn break_rule(input: &mut Input, random: &mut Random, rule: u64) {
    let (whole, any) = (input.record.len() == RECORD, random.byte().max(1));
    let event = input.events.len() / EVENT;
    let place = EVENT * random.below(event.max(1) as u64) as usize;
    match rule {
        0 => input.memory.resize([0, 1, 36, MEMORY - 1, MEMORY + 1, 2 * MEMORY][usize::from(any % 6)], any),
        1 => input.n = [MAX_STEPS + 1, 1 << 32, (1 << 32) + 1, u64::MAX, random.draw() | 1 << 20][usize::from(any % 5)],
        2 => input.record.resize([0, 1, 21, 25, 31, 33, 64][usize::from(any % 7)], any),
        3 if whole => {
            let least = u64::from(u32::MAX) - input.n.min(u32::MAX.into()) + 1;
            let count = (least + random.below(4)).min(u32::MAX.into()) as u32;
            input.record[22..26].copy_from_slice(&count.to_le_bytes());
        }
        4 if whole => input.record[17] |= 2 << random.below(4),
        5 if whole => input.record[18 + usize::from(any & 1)] |= 0x80 >> (random.below(8) * u64::from(any & 1)),
        6 if whole => input.record[21] = any.max(2),
        7 if whole => input.record[[20, 30, 31][usize::from(any) % 3]] = any,
        8 => input.events.extend(vec![0; 1 + usize::from(any) % 7]),
        9 => {
            let last = input
                .events
                .len()
                .checked_sub(EVENT)
                .map_or([0; 4], |at| std::array::from_fn(|i| input.events[at + i]));
            let record = [last[0], last[1], last[2], last[3], 0, 0, 0, 0];
            input.events.resize(EVENT * event, 0);
            let records = MAX_EVENTS + 1 + usize::from(any) * usize::from(any & 1);
            (event..records).for_each(|_| input.events.extend(record));
        }
        10 if event > 0 => input.events[place + [4, 6, 7][usize::from(any) % 3]] = any.max(8),
        11 if event > 1 => input.events[place + 3] ^= 0x80,
        12 if input.events.len() % EVENT == 0 && event > 0 && event + 2 <= MAX_EVENTS => {
            // The record at the place, perhaps one of another device, and its twin, where the step's records end.
            let mut list = events_of(&input.events);
            let first = list[place / EVENT];
            let end = list.iter().rposition(|e| e.step == first.step).unwrap_or(0) + 1;
            let data = if any & 1 == 0 { first.data } else { random.byte() };
            list.insert(end, Event { data, ..first });
            if any & 2 == 0 {
                list.insert(end, Event { device: (first.device + 1 + any % 7) % 8, ..first });
            }
            input.events = list.into_iter().flat_map(event_record).collect();
        }
        13 => {
            // Twins, and a rule that comes before theirs.
            break_rule(input, random, 12);
            break_rule(input, random, 10 + u64::from(any & 1));
        }
        14 => input.log.resize(input.log.len() / SHOWN * SHOWN + 1 + usize::from(any) % 7, any),
        _ => {}
    }
}

/// Goes to the edge of a rule without breaking it.
fn nearly(input: &mut Input, random: &mut Random) {
    let count = u32::MAX - input.n as u32;
    match random.below(NEARLY) {
        0 => {
            // As many steps as there may be, of a machine that takes none.
            (input.n, input.record[21]) = (MAX_STEPS, 1);
            input.record[25] &= 0x7F;
        }
        1 => input.record[22..26].copy_from_slice(&count.to_le_bytes()),
        2 => input.record[21] = 1,
        3 => (input.record[17], input.record[18]) = (input.record[17] | 0xE1, 0x7F),
        4 => {
            // A full list: its end is the last steps that there are, each with an event on every device.
            let from = u32::MAX - (MAX_EVENTS / 8) as u32 + 1;
            let mut list: Vec<Event> = events_of(&input.events).into_iter().filter(|e| e.step < from).collect();
            let missing = MAX_EVENTS.saturating_sub(list.len()) as u32;
            list.extend((0..missing).map(|i| Event { step: from + i / 8, device: i as u8 % 8, data: random.byte() }));
            input.events = list.into_iter().flat_map(event_record).collect();
        }
        5 => input.events.clear(),
        6 => input.n = 0,
        7 => input.record[26..30].fill([0xFF, 0xF0, 0x0F, 0x11][random.below(4) as usize]),
        _ => {
            // Every event on one step, one of each device.
            let step = u32::from_le_bytes(std::array::from_fn(|i| input.record[22 + i]));
            let list = events_of(&input.events).into_iter().map(|e| Event { step, ..e }).collect();
            input.events = without_twins(list).into_iter().flat_map(event_record).collect();
        }
    }
}
