//! `xm23_trace`: a run that writes down what each step did and what each of its events did (docs/CALLS.md, trace).

use crate::machine::{events_of, refusal, Act, Event, Machine, Ran, Trace, DBA, DEVICES, ENA, IE, PC, SP};

/// Bytes of a record, and the number that asks for all kinds.
pub const TRACED: usize = 16;
pub const KINDS: u32 = 4095;

/// What the call is handed.
#[derive(Clone, Debug, Default, PartialEq, Eq)]
pub struct Lent {
    pub memory: Vec<u8>,
    pub record: Vec<u8>,
    pub events: Vec<u8>,
    pub trace: Vec<u8>,
    pub kinds: u32,
    pub n: u64,
}

/// The kinds of acts, in the order of the table; an event is kind 0.
pub fn kind(trace: &Trace) -> u8 {
    match trace.act {
        Act::Pull => 1,
        Act::Chain(_) => 2,
        Act::Accept(_) => 3,
        Act::Sleep => 4,
        Act::Fault(_) => 5,
        Act::Halt(_) => 6,
        Act::Skip => 7,
        Act::Trap(_) => 8,
        Act::Execute(_) if trace.access.is_none() => 9,
        Act::Execute(_) if !trace.loaded.is_empty() => 10,
        Act::Execute(_) => 11,
    }
}

/// A record of a step that begins in a machine.
fn record(before: &Machine, kind: u8, number: u8, address: u16, value: u16) -> [u8; TRACED] {
    let mut record = [0; TRACED];
    record[..4].copy_from_slice(&before.count.to_le_bytes());
    (record[4], record[5]) = (kind, number);
    let words = [address, value, before.regs[PC], before.regs[SP], before.psw];
    for (i, word) in words.into_iter().enumerate() {
        record[6 + 2 * i..8 + 2 * i].copy_from_slice(&word.to_le_bytes());
    }
    record
}

/// "bit 0 taken (ENA set), bit 1 DBA was set before it, bit 2 IE, bit 3 the device's count was 15 before it; a device
/// with ENA clear: 0".
pub fn effect(status: u8, waiting: u8) -> u16 {
    if status & ENA == 0 {
        return 0;
    }
    let bit = |set: bool, value: u16| if set { value } else { 0 };
    1 + bit(status & DBA != 0, 2) + bit(status & IE != 0, 4) + bit(waiting == 15, 8)
}

/// All records of a step: its events in the order of the list, and then its act.
pub fn records(trace: &Trace, due: &[Event], before: &Machine, after: &Machine) -> Vec<[u8; TRACED]> {
    let mut lines = before.lines;
    let mut all = Vec::new();
    for (event, &(device, status)) in due.iter().zip(&trace.due) {
        all.push(record(before, 0, device, effect(status, lines.count(device)), event.data.into()));
        if status & ENA != 0 && status & IE != 0 {
            lines.raise(device);
        }
    }
    let (pc, psw, kind) = (after.regs[PC], after.psw, kind(trace));
    all.push(match (trace.act, trace.access) {
        (Act::Pull, _) => record(before, kind, 0, pc, psw),
        (Act::Chain(number) | Act::Accept(number) | Act::Fault(number) | Act::Trap(number), _) => {
            record(before, kind, number, pc, psw)
        }
        (Act::Execute(_), Some(a)) => {
            let value = if a.byte { a.value & 0xFF } else { a.value };
            record(before, kind, a.byte.into(), a.address, value)
        }
        _ => record(before, kind, 0, 0, 0),
    });
    all
}

/// Gives back what a step wrote: its own bytes, the newest first, and the device bytes.
fn undo(memory: &mut [u8], trace: &Trace) {
    for (&a, &was) in trace.written.iter().zip(&trace.was).rev() {
        memory[usize::from(a)] = was;
    }
    memory[..DEVICES.into()].copy_from_slice(&trace.undelivered);
}

impl Lent {
    /// Those of a run without a log, then 21.
    pub fn refusal(&self) -> Option<u8> {
        let start = refusal(&self.memory, self.n, &self.record, &self.events, &[]);
        start.or((!self.trace.len().is_multiple_of(TRACED) || self.kinds > KINDS).then_some(21))
    }

    /// The run; `watch` is shown each step that is taken. Refused, everything is as given.
    pub fn run_watched(&mut self, mut watch: impl FnMut(&Trace, &Machine, &[[u8; TRACED]])) -> Result<Ran, u8> {
        if let Some(number) = self.refusal() {
            return Err(number);
        }
        let events = events_of(&self.events);
        let mut m = Machine::from_record(&self.record);
        let (mut ran, room) = (Ran::default(), self.trace.len() / TRACED);
        while u64::from(ran.steps) < self.n {
            let before = m;
            let Some(trace) = m.step(&mut self.memory, &events) else { break };
            let first = events.partition_point(|e| e.step < before.count);
            let mut added = records(&trace, &events[first..], &before, &m);
            added.retain(|record| self.kinds >> record[4] & 1 == 1);
            if ran.added as usize + added.len() > room {
                undo(&mut self.memory, &trace);
                (m, ran.reason) = (before, 2);
                break;
            }
            for record in &added {
                self.trace[TRACED * ran.added as usize..][..TRACED].copy_from_slice(record);
                ran.added += 1;
            }
            watch(&trace, &before, &added);
            ran.steps += 1;
        }
        if m.halted {
            ran.reason = 1;
        }
        self.record.copy_from_slice(&m.to_record());
        Ok(ran)
    }

    pub fn run(&mut self) -> Result<Ran, u8> {
        self.run_watched(|_, _, _| ())
    }
}
