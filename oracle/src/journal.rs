//! The journal of 02 §8: a record for each step, kept in a ring, and going back by copying records out.

use crate::inputs::Input;
use crate::isa::Instr;
use crate::machine::{even, refusal, run_watched, Act, Machine, Ran, Trace, DEVICES, MEMORY, RECORD, SP};

/// Bytes of a record, and the most bytes of a journal.
pub const KEPT: usize = 64;
pub const MAX_JOURNAL: usize = 65_536;

/// A journal as it is lent: its bytes, the number kept and the next place.
#[derive(Clone, Debug, Default, PartialEq, Eq)]
pub struct Journal {
    pub bytes: Vec<u8>,
    pub kept: u32,
    pub place: u32,
}

impl Journal {
    /// How many records there is room for.
    pub fn records(&self) -> usize {
        self.bytes.len() / KEPT
    }

    /// Whether it is not refused with 14.
    pub fn fits(&self) -> bool {
        let length = self.bytes.len();
        let whole = length > 0 && length <= MAX_JOURNAL && length.is_multiple_of(KEPT);
        whole && self.kept as usize <= self.records() && (self.place as usize) < self.records()
    }

    /// A record more, at the next place; "the oldest overwritten when full".
    fn add(&mut self, record: &[u8; KEPT]) {
        let (place, records) = (self.place as usize, self.records());
        self.bytes[KEPT * place..][..KEPT].copy_from_slice(record);
        self.place = ((place + 1) % records) as u32;
        self.kept = (self.kept as usize + 1).min(records) as u32;
    }
}

/// "The address is that of the last word pushed, bit 0 dropped, or of the first byte stored outside the device bytes,
/// or 0." The last word pushed is where SP stands then.
pub fn address(trace: &Trace, after: &Machine) -> u16 {
    match trace.act {
        Act::Accept(_) | Act::Fault(_) | Act::Trap(_) => even(after.regs[SP]),
        Act::Execute(Instr::St { .. } | Instr::Str { .. }) => {
            trace.written.iter().copied().find(|&a| a >= DEVICES).unwrap_or(0)
        }
        _ => 0,
    }
}

/// A byte of memory as it was before the step and its due events, from what the step left.
fn before(a: u16, trace: &Trace, memory: &[u8]) -> u8 {
    match trace.written.iter().position(|&written| written == a) {
        _ if a < DEVICES => trace.undelivered[usize::from(a)],
        Some(place) => trace.was[place],
        None => memory[usize::from(a)],
    }
}

/// The record of a step: all its parts are of before the step, its due events not applied.
pub fn record_of(trace: &Trace, was: &Machine, after: &Machine, memory: &[u8]) -> [u8; KEPT] {
    let (mut record, a) = ([0; KEPT], address(trace, after));
    record[..RECORD].copy_from_slice(&was.to_record());
    record[32..48].copy_from_slice(&trace.undelivered);
    record[48..50].copy_from_slice(&a.to_le_bytes());
    (0..8).for_each(|i| record[50 + usize::from(i)] = before(a.wrapping_add(i), trace, memory));
    record
}

/// What the two calls are handed: a run's input, and a journal.
#[derive(Clone, Debug, Default, PartialEq, Eq)]
pub struct Held {
    pub input: Input,
    pub journal: Journal,
}

impl Held {
    /// The refusal of a run with a journal: those of a run, then 14.
    pub fn refusal(&self) -> Option<u8> {
        let Input { memory, record, events, log, n, .. } = &self.input;
        refusal(memory, *n, record, events, log).or((!self.journal.fits()).then_some(14))
    }

    /// A run whose every step is kept; `watch` is shown each of them. Refused, everything is as given.
    pub fn run_watched(&mut self, mut watch: impl FnMut(&Trace, &Machine, &Machine, &[u8])) -> Result<Ran, u8> {
        if let Some(number) = self.refusal() {
            return Err(number);
        }
        let (Input { memory, record, events, log, deepest, n }, journal) = (&mut self.input, &mut self.journal);
        let ran = run_watched(memory, *n, record, events, log, |trace, was, after, memory| {
            watch(trace, was, after, memory);
            journal.add(&record_of(trace, was, after, memory));
        })?;
        *deepest = ran.deepest;
        Ok(ran)
    }

    pub fn run(&mut self) -> Result<Ran, u8> {
        self.run_watched(|_, _, _, _| ())
    }

    /// The refusal of going back: 1, 3, 14 and 15.
    pub fn back_refusal(&self, k: u64) -> Option<u8> {
        if self.input.memory.len() != MEMORY {
            return Some(1);
        }
        if self.input.record.len() != RECORD {
            return Some(3);
        }
        if !self.journal.fits() {
            return Some(14);
        }
        (k > u64::from(self.journal.kept)).then_some(15)
    }

    /// Goes back k steps, "newest first, fields in order", unchecked; gives the refusal, or 0.
    pub fn back(&mut self, k: u64) -> u64 {
        if let Some(number) = self.back_refusal(k) {
            return number.into();
        }
        for _ in 0..k {
            let records = self.journal.records() as u32;
            self.journal.place = (self.journal.place + records - 1) % records;
            self.journal.kept -= 1;
            let kept = &self.journal.bytes[KEPT * self.journal.place as usize..][..KEPT];
            self.input.record.copy_from_slice(&kept[..RECORD]);
            self.input.memory[..16].copy_from_slice(&kept[32..48]);
            let a = u16::from_le_bytes([kept[48], kept[49]]);
            (0..8).for_each(|i| self.input.memory[usize::from(a.wrapping_add(i))] = kept[50 + usize::from(i)]);
        }
        0
    }
}
