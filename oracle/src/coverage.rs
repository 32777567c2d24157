//! What a set of runs has reached, counted from the oracle's own steps, and what every set must have reached. Refusal 8
//! is the encoder's: tests/instructions.rs goes through every field, offset, unused byte and format.

use crate::case;
use crate::corners::{Seen, GROUPS};
use crate::inputs::Input;
use crate::isa::{decode, Instr};
use crate::machine::{added_of, event_of, events_of, twins, Ran, ENA, MEMORY, SHOWN};
use crate::machine::{
    reply, run_watched, word_at, Act, Machine, Trace, DBA, EVENT, FULL, IE, INPUT, MAX_EVENTS, MAX_STEPS, PC,
};
use std::collections::HashMap;

/// Something that a run can reach.
#[derive(Clone, Debug, PartialEq, Eq, Hash)]
#[rustfmt::skip]
pub enum Item {
    Alu { op: u8, constant: bool, byte: bool },
    Mov { byte: bool },
    Unary { op: u8, byte: bool },
    /// SWAP, SWPB and SXT with the bit that is ignored.
    Swap { bit6: bool },
    Swpb { bit6: bool },
    Sxt { bit6: bool },
    Ld { prpo: u8, dec: u8, inc: u8, byte: bool },
    St { prpo: u8, dec: u8, inc: u8, byte: bool },
    MovImm { op: u8 },
    Ldr { byte: bool },
    Str { byte: bool },
    Bl,
    SetPri(u8),
    /// SETCC and CLRCC by each of their five bits.
    SetCc { bit: u8 },
    ClrCc { bit: u8 },
    Branch { cond: u8, taken: bool },
    Cex { cond: u8, holds: bool },
    Skip { true_part: bool },
    Sleep,
    Pull,
    Accept(u8),
    Chain(u8),
    Fault(u8),
    Halt(u8),
    /// Fault 9 by LD or ST of an odd word, by how the index would have moved.
    OddLd { prpo: u8, dec: u8, inc: u8 },
    OddSt { prpo: u8, dec: u8, inc: u8 },
    /// Fault 10 by SVC or by SETPRI, entered or halting.
    Priority { svc: bool, halts: bool },
    Trap(u8),
    /// An event on a device that is enabled, by what its status was; on one that is not.
    Event { input: bool, dba: bool, ie: bool },
    EventOnDisabled,
    /// A row of corners.rs.
    Corner(&'static str),
    Refused(u8),
    /// Refusal 2 by the sum of step count and n; the sum at its limit; n at its limit.
    RefusedSum,
    GreatestSum,
    GreatestN,
    HaltedAtTheStart,
    NoStep,
    NoEvent,
    FullList,
    /// An event of a step before the first, and one of a step after the last.
    PassedOver,
    NeverDue,
    /// Refused with 13: by neighbours or by records apart, with the same data or not.
    Twins { apart: bool, same_data: bool },
    /// Refused with 13 by records that no run would apply: of a step before the first or after the last, of a device
    /// that is not enabled.
    TwinsPassedOver,
    TwinsNeverDue,
    TwinsOnDisabled,
    /// Refused with 6 or 7 though two records are twins.
    TwinsNotReached(u8),
    /// Refused with another number though the log's length is not a multiple of 8.
    LogNotReached(u8),
    /// A byte shown by a device; by a store of a byte or of a word, in a handler or not.
    Shown(u8),
    ShownBy { byte: bool, handler: bool },
    /// A log of no bytes in which nothing is missing; one that is full and whose run goes on; one that the last step
    /// fills; one with bytes past the last record; one that is full where the machine halts.
    EmptyLog,
    FullGoesOn,
    FullAtTheEnd,
    PastTheLast,
    FullAndHalted,
    /// No room for what the next step would show: before the first step; with events due, or none; with a line that
    /// these would have raised; in a handler; in a CEX block.
    NoRoomAtOnce,
    NoRoom { due: bool },
    NoRoomRaised,
    NoRoomInHandler,
    NoRoomInBlock,
    /// The log would have no room for it, but a line is accepted instead of the store.
    AcceptedInstead,
    /// The most frames of a run that were open together, up to 7; more, which traps and faults can bring about; by what
    /// the last of them was opened.
    Deepest(u32),
    AboveSeven,
    DeepestBy(&'static str),
    /// Fewer frames are open at the close; more are opened after a return with none open; a line is chained, and a
    /// fault halts, while as many are open as ever; the log has no room, with a frame opened.
    ClosedBelow,
    DeeperAfterStray,
    ChainedAtTheDeepest,
    HaltedAtTheDeepest,
    NoRoomAndDeep,
    /// Refused with 4 by a byte of the record that is to be zero, of an old record where it is 20.
    RefusedByte(usize),
    /// The counts of a start: one of this size; every one full.
    Waiting(u8),
    AllFull,
    /// A readable case of 01's list, of a misreading, or of a request of 02.
    Case(&'static str),
}

/// Everything that must be reached.
pub fn owed() -> Vec<Item> {
    let both = [false, true];
    let mut all = vec![Item::Bl, Item::Sleep, Item::Pull, Item::RefusedSum, Item::GreatestSum, Item::GreatestN];
    all.extend([Item::HaltedAtTheStart, Item::NoStep, Item::NoEvent, Item::FullList, Item::EventOnDisabled]);
    all.extend([Item::PassedOver, Item::NeverDue, Item::TwinsPassedOver, Item::TwinsNeverDue, Item::TwinsOnDisabled]);
    all.extend([6, 7].map(Item::TwinsNotReached));
    all.extend([1, 2, 3, 4, 5, 6, 7, 13].map(Item::LogNotReached));
    all.extend((0..8).map(Item::Shown));
    all.extend((0..4).map(|i| Item::ShownBy { byte: i & 1 == 1, handler: i & 2 != 0 }));
    all.extend([Item::EmptyLog, Item::FullGoesOn, Item::FullAtTheEnd, Item::PastTheLast, Item::FullAndHalted]);
    all.extend([Item::NoRoomAtOnce, Item::NoRoomRaised, Item::NoRoomInHandler, Item::NoRoomInBlock]);
    all.extend(both.map(|due| Item::NoRoom { due }));
    all.push(Item::AcceptedInstead);
    all.extend((0..8).map(Item::Deepest).chain([Item::AboveSeven, Item::ClosedBelow, Item::DeeperAfterStray]));
    all.extend([Item::ChainedAtTheDeepest, Item::HaltedAtTheDeepest, Item::NoRoomAndDeep]);
    all.extend(["line", "trap", "fault"].map(Item::DeepestBy));
    all.extend([20, 30, 31].map(Item::RefusedByte));
    all.extend((0..=FULL).map(Item::Waiting).chain([Item::AllFull]));
    all.extend((0..4).map(|i| Item::Twins { apart: i & 1 == 1, same_data: i & 2 != 0 }));
    for byte in both {
        all.extend((0..24).map(|i| Item::Alu { op: i / 2, constant: i % 2 == 1, byte }));
        all.extend((0..3).map(|op| Item::Unary { op, byte }));
        all.extend((0..8).map(|i| Item::Ld { prpo: i >> 2, dec: i >> 1 & 1, inc: i & 1, byte }));
        all.extend((0..8).map(|i| Item::St { prpo: i >> 2, dec: i >> 1 & 1, inc: i & 1, byte }));
        all.extend([Item::Mov { byte }, Item::Ldr { byte }, Item::Str { byte }, Item::Skip { true_part: byte }]);
        all.extend([Item::Swap { bit6: byte }, Item::Swpb { bit6: byte }, Item::Sxt { bit6: byte }]);
        all.extend(both.map(|halts| Item::Priority { svc: byte, halts }));
        // BRA is always taken; condition 14 of CEX always holds and condition 15 never.
        all.extend((0..8).filter(|&cond| byte || cond != 7).map(|cond| Item::Branch { cond, taken: byte }));
        all.extend(
            (0..16).filter(|&cond| cond != if byte { 15 } else { 14 }).map(|cond| Item::Cex { cond, holds: byte }),
        );
    }
    all.extend((0..8).map(|i| Item::OddLd { prpo: i >> 2, dec: i >> 1 & 1, inc: i & 1 }));
    all.extend((0..8).map(|i| Item::OddSt { prpo: i >> 2, dec: i >> 1 & 1, inc: i & 1 }));
    all.extend((0..4).map(|op| Item::MovImm { op }));
    all.extend((0..5).flat_map(|bit| [Item::SetCc { bit }, Item::ClrCc { bit }]));
    all.extend((0..8).flat_map(|d| [Item::SetPri(d), Item::Accept(d), Item::Chain(d)]));
    all.extend((8..11).flat_map(|v| [Item::Fault(v), Item::Halt(v)]));
    all.extend((0..8).map(|i| Item::Event { input: i & 1 == 1, dba: i & 2 != 0, ie: i & 4 != 0 }));
    all.extend((0..16).map(Item::Trap));
    all.extend((1..8).chain([9, 13]).map(Item::Refused));
    all.extend(GROUPS.iter().flat_map(|group| group.rows).map(|row| Item::Corner(row.0)));
    all.extend(case::OF_01.into_iter().chain(case::OF_02).map(Item::Case));
    all
}

/// What a run has shown so far, whether its last step showed something, and the frames that are open.
#[derive(Default)]
struct Way {
    added: usize,
    last: bool,
    open: u32,
    /// The most frames so far, and what opened the last of them; whether a return found none open, and an entry after
    /// it went deeper than before; the most that were open where a line was chained.
    deepest: u32,
    by: &'static str,
    stray: bool,
    after_stray: bool,
    chained: Option<u32>,
    halted: bool,
}

impl Way {
    /// A step more.
    fn step(&mut self, act: Act) {
        self.stray |= act == Act::Pull && self.open == 0;
        self.halted |= matches!(act, Act::Halt(_));
        if let Act::Chain(_) = act {
            self.chained = self.chained.max(Some(self.open));
        }
        self.open = act.open_after(self.open);
        if self.open > self.deepest {
            (self.deepest, self.after_stray) = (self.open, self.stray);
            self.by = match act {
                Act::Accept(_) => "line",
                Act::Trap(_) => "trap",
                _ => "fault",
            };
        }
    }
}

/// Whether the instruction at the PC of a step that a line took is a store to a device by its offset from 0, of a
/// device that would have shown it.
fn would_show(seen: &Seen) -> bool {
    let word = word_at(seen.memory, seen.before.regs[PC]);
    let Instr::Str { offset, wb, dst, .. } = decode(word) else { return false };
    let a = usize::from(seen.before.regs[usize::from(dst)].wrapping_add(offset as u16)) | usize::from(wb == 0);
    a < 16 && a % 2 == 1 && seen.trace.devices[a - 1] & (ENA | INPUT) == ENA
}

#[derive(Default)]
pub struct Coverage {
    seen: HashMap<Item, u64>,
    /// The counts of corners.rs, row by row of each group.
    corners: [Vec<u64>; GROUPS.len()],
}

impl Coverage {
    fn mark(&mut self, item: Item) {
        *self.seen.entry(item).or_default() += 1;
    }

    fn mark_if(&mut self, holds: bool, item: Item) {
        if holds {
            self.mark(item);
        }
    }

    pub fn add(&mut self, other: Coverage) {
        for (item, count) in other.seen {
            *self.seen.entry(item).or_default() += count;
        }
        for (ours, theirs) in self.corners.iter_mut().zip(other.corners) {
            ours.resize(ours.len().max(theirs.len()), 0);
            ours.iter_mut().zip(theirs).for_each(|(ours, theirs)| *ours += theirs);
        }
    }

    /// A readable case has been run.
    pub fn case(&mut self, name: &str) {
        let known = case::OF_01.into_iter().chain(case::OF_02).find(|&known| known == name);
        known.into_iter().for_each(|known| self.mark(Item::Case(known)));
    }

    fn count(&self, item: &Item) -> u64 {
        let counts = GROUPS.iter().zip(&self.corners).flat_map(|(group, counts)| group.rows.iter().zip(counts));
        match item {
            Item::Corner(name) => counts.filter(|(row, _)| row.0 == *name).map(|(_, count)| count).sum(),
            _ => self.seen.get(item).copied().unwrap_or(0),
        }
    }

    /// Everything owed that was reached fewer times than `least`, with how often. A readable case is run once.
    pub fn gaps(&self, least: u64) -> Vec<String> {
        let least = |item: &Item| if matches!(item, Item::Case(_)) { 1 } else { least };
        let short = owed().into_iter().filter(|item| self.count(item) < least(item));
        short.map(|item| format!("{item:?}: {}", self.count(&item))).collect()
    }

    /// Runs an input in place by the oracle, counting what it reaches, and gives the reply.
    pub fn run(&mut self, input: &mut Input) -> u64 {
        let Input { memory, record, events, log, deepest, n } = input;
        let start = (record.len() == 32).then(|| Machine::from_record(record));
        let (room, mut way) = (log.len() / SHOWN, Way::default());
        let result = run_watched(memory, *n, record, events, log, |trace, before, after, memory| {
            let seen = Seen { trace, before, after, memory };
            self.step(&seen);
            self.shown(&seen, room, &mut way);
        });
        match (result, start) {
            (Ok(ran), Some(start)) => {
                *deepest = ran.deepest;
                self.accepted(&start, ran, events, *n);
                self.logged(ran, input, &way);
                self.deep(ran, &way);
            }
            (result, _) => {
                let number = result.expect_err("a whole record in an accepted run");
                self.mark(Item::Refused(number));
                self.mark_if(number == 2 && *n <= MAX_STEPS, Item::RefusedSum);
                self.mark_if(number != 9 && log.len() % SHOWN != 0, Item::LogNotReached(number));
                self.zeros(number, input);
                self.twins(number, input);
            }
        }
        reply(result)
    }

    /// Counts what a step showed, and what it did while the log was full.
    fn shown(&mut self, seen: &Seen, room: usize, way: &mut Way) {
        let (full, due) = (way.added == room, !seen.trace.due.is_empty());
        self.mark_if(full && room > 0, Item::FullGoesOn);
        self.mark_if(
            full && due && matches!(seen.trace.act, Act::Accept(_)) && would_show(seen),
            Item::AcceptedInstead,
        );
        if let Some(shown) = seen.trace.shown {
            way.added += 1;
            self.mark(Item::Shown(shown.device));
            let byte = seen.trace.written.len() == 1;
            self.mark(Item::ShownBy { byte, handler: way.open > 0 });
        }
        way.last = seen.trace.shown.is_some();
        way.step(seen.trace.act);
    }

    /// Counts how deep an accepted run went.
    fn deep(&mut self, ran: Ran, way: &Way) {
        let Ran { reason, deepest, .. } = ran;
        assert_eq!(deepest, way.deepest);
        self.mark(if deepest <= 7 { Item::Deepest(deepest) } else { Item::AboveSeven });
        self.mark_if(deepest > 0, Item::DeepestBy(way.by));
        self.mark_if(way.open < deepest, Item::ClosedBelow);
        self.mark_if(way.after_stray, Item::DeeperAfterStray);
        self.mark_if(way.chained == Some(deepest), Item::ChainedAtTheDeepest);
        self.mark_if(way.halted && way.open == deepest, Item::HaltedAtTheDeepest);
        self.mark_if(reason == 2 && deepest > 0, Item::NoRoomAndDeep);
    }

    /// Counts how an accepted run left its log.
    fn logged(&mut self, ran: Ran, left: &Input, way: &Way) {
        let m = Machine::from_record(&left.record);
        let (added, room) = (ran.added as usize, left.log.len() / SHOWN);
        assert!(added == way.added && added_of(reply(Ok(ran))) == u64::from(ran.added));
        self.mark_if(room == 0 && ran.reason == 0 && left.n > 0, Item::EmptyLog);
        self.mark_if(added > 0 && added == room && way.last && ran.reason == 0, Item::FullAtTheEnd);
        self.mark_if(added > 0 && added < room, Item::PastTheLast);
        self.mark_if(added > 0 && added == room && m.halted, Item::FullAndHalted);
        if ran.reason == 2 {
            let due: Vec<_> = events_of(&left.events).into_iter().filter(|e| e.step == m.count).collect();
            let raises = |status: u8| status & (ENA | IE) == ENA | IE;
            self.mark(Item::NoRoom { due: !due.is_empty() });
            self.mark_if(due.iter().any(|e| raises(left.memory[2 * usize::from(e.device)])), Item::NoRoomRaised);
            self.mark_if(ran.steps == 0, Item::NoRoomAtOnce);
            self.mark_if(way.open > 0, Item::NoRoomInHandler);
            self.mark_if(m.cex & 0x3F != 0, Item::NoRoomInBlock);
        }
    }

    /// Counts which byte of a refused record is not zero.
    fn zeros(&mut self, number: u8, input: &Input) {
        let bytes = [20, 30, 31].into_iter().filter(|&i| number == 4 && input.record[i] != 0);
        bytes.for_each(|i| self.mark(Item::RefusedByte(i)));
    }

    /// Counts what a refused list's twins are like.
    fn twins(&mut self, number: u8, input: &Input) {
        if ![6, 7, 13].contains(&number) || input.memory.len() != MEMORY {
            return;
        }
        let events = events_of(&input.events);
        let (Some((i, j)), start) = (twins(&events), Machine::from_record(&input.record)) else { return };
        if number != 13 {
            return self.mark(Item::TwinsNotReached(number));
        }
        let (one, other) = (events[i], events[j]);
        self.mark(Item::Twins { apart: j > i + 1, same_data: one.data == other.data });
        self.mark_if(one.step < start.count, Item::TwinsPassedOver);
        self.mark_if(u64::from(one.step) >= u64::from(start.count) + input.n, Item::TwinsNeverDue);
        self.mark_if(input.memory[2 * usize::from(one.device)] & ENA == 0, Item::TwinsOnDisabled);
    }

    fn accepted(&mut self, start: &Machine, ran: Ran, events: &[u8], n: u64) {
        let step = |i: usize| event_of(&events[EVENT * i..]).step;
        let (many, end) = (events.len() / EVENT, start.count + ran.steps);
        self.mark_if(start.halted, Item::HaltedAtTheStart);
        start.lines.0.into_iter().for_each(|count| self.mark(Item::Waiting(count)));
        self.mark_if(start.lines.0 == [FULL; 8], Item::AllFull);
        self.mark_if(n == 0, Item::NoStep);
        self.mark_if(n == MAX_STEPS, Item::GreatestN);
        self.mark_if(n > 0 && u64::from(start.count) + n == u32::MAX.into(), Item::GreatestSum);
        self.mark_if(many == 0, Item::NoEvent);
        self.mark_if(many == MAX_EVENTS, Item::FullList);
        self.mark_if(many > 0 && step(0) < start.count, Item::PassedOver);
        self.mark_if(many > 0 && step(many - 1) >= end, Item::NeverDue);
    }

    /// Counts a step. The word is read after the step: a frame pushed over it hides which fault 10 it was.
    fn step(&mut self, seen: &Seen) {
        let Seen { trace, before, .. } = seen;
        let word = trace.fetched.map(|at| word_at(seen.memory, at));
        match trace.act {
            Act::Pull => self.mark(Item::Pull),
            Act::Chain(d) => self.mark(Item::Chain(d)),
            Act::Accept(d) => self.mark(Item::Accept(d)),
            Act::Sleep => self.mark(Item::Sleep),
            Act::Skip => self.mark(Item::Skip { true_part: before.cex >> 3 & 7 > 0 }),
            Act::Trap(v) => self.mark(Item::Trap(v)),
            Act::Fault(v) | Act::Halt(v) => {
                let halts = trace.act == Act::Halt(v);
                self.mark(if halts { Item::Halt(v) } else { Item::Fault(v) });
                if let (10, Some(word)) = (v, word) {
                    self.mark(Item::Priority { svc: matches!(decode(word), Instr::Svc { .. }), halts });
                }
                match seen.odd_access() {
                    Some(Instr::Ld { prpo, dec, inc, .. }) => self.mark(Item::OddLd { prpo, dec, inc }),
                    Some(Instr::St { prpo, dec, inc, .. }) => self.mark(Item::OddSt { prpo, dec, inc }),
                    _ => {}
                }
            }
            Act::Execute(instr) => self.instruction(instr, seen),
        }
        self.events(trace);
        self.corners(seen);
    }

    fn corners(&mut self, seen: &Seen) {
        for (group, counts) in GROUPS.iter().zip(&mut self.corners).filter(|(group, _)| (group.may)(seen)) {
            counts.resize(group.rows.len(), 0);
            counts.iter_mut().zip(group.rows).for_each(|(count, row)| *count += u64::from(row.1(seen)));
        }
    }

    fn events(&mut self, trace: &Trace) {
        for (_, status) in &trace.due {
            let [input, dba, ie] = [INPUT, DBA, IE].map(|bit| status & bit != 0);
            self.mark(if status & ENA != 0 { Item::Event { input, dba, ie } } else { Item::EventOnDisabled });
        }
    }

    fn instruction(&mut self, instr: Instr, seen: &Seen) {
        let taken = seen.after.regs[PC] != seen.before.regs[PC].wrapping_add(2);
        let item = match instr {
            Instr::Illegal | Instr::Svc { .. } => unreachable!("these do not execute"),
            Instr::Alu { op, rc, wb, .. } => Item::Alu { op, constant: rc == 1, byte: wb == 1 },
            Instr::Mov { wb, .. } => Item::Mov { byte: wb == 1 },
            Instr::Swap { ignored, .. } => Item::Swap { bit6: ignored == 1 },
            Instr::Unary { op, wb, .. } => Item::Unary { op, byte: wb == 1 },
            Instr::Swpb { ignored, .. } => Item::Swpb { bit6: ignored == 1 },
            Instr::Sxt { ignored, .. } => Item::Sxt { bit6: ignored == 1 },
            Instr::SetPri { level } => Item::SetPri(level),
            Instr::SetCc { flags } => return self.flags(flags, |bit| Item::SetCc { bit }),
            Instr::ClrCc { flags } => return self.flags(flags, |bit| Item::ClrCc { bit }),
            Instr::Cex { cond, .. } => Item::Cex { cond, holds: seen.after.cex >> 6 & 1 == 1 },
            Instr::Ld { prpo, dec, inc, wb, .. } => Item::Ld { prpo, dec, inc, byte: wb == 1 },
            Instr::St { prpo, dec, inc, wb, .. } => Item::St { prpo, dec, inc, byte: wb == 1 },
            Instr::MovImm { op, .. } => Item::MovImm { op },
            Instr::Ldr { wb, .. } => Item::Ldr { byte: wb == 1 },
            Instr::Str { wb, .. } => Item::Str { byte: wb == 1 },
            Instr::Bl { .. } => Item::Bl,
            // A branch by nothing cannot be told from one that was not taken.
            Instr::Branch { offset: 0, .. } => return,
            Instr::Branch { cond, .. } => Item::Branch { cond, taken },
        };
        self.mark(item);
    }

    fn flags(&mut self, flags: u8, item: fn(u8) -> Item) {
        (0..5).filter(|bit| flags >> bit & 1 == 1).for_each(|bit| self.mark(item(bit)));
    }
}
