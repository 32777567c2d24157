//! A run as plain rows, for a comparison: the line, the last steps, what became of each event. A row is a word that
//! says its kind and then its fields, a tab between two:
//!
//! ```text
//! line   the line that the program prints
//! step   step count before it, PC, word fetched, instruction, what else it was, what it left, PC aside
//! event  step, device, byte, taken or why not, overrun, interrupt, step of its entry
//! ```
//!
//! Words and cells are those of the desk's pages and commands.

use crate::isa::Instr;
use crate::listing::{remarked, REGISTERS};
use crate::machine::{cut, even, events_of, line_of, long_log, run_watched, Act, Event, Machine, Parts, Trace};
use crate::machine::{DBA, DEVICES, ENA, FULL, IE, PC, SP};
use std::collections::VecDeque;

/// How many of the newest steps have a row.
pub const STEPS: usize = 1_024;

/// What became of an event: the device's status and its waiting events before it, and the entry that answered it, by
/// its step and whether it was chained.
#[derive(Clone, Copy, Debug, PartialEq, Eq)]
struct Taken {
    status: u8,
    waiting: u8,
    entered: Option<(u32, bool)>,
}

/// What is kept of a run while it goes on.
struct Walk {
    events: Vec<Event>,
    /// None for one that did not come due.
    fates: Vec<Option<Taken>>,
    /// The waiting events of each device, the oldest first, by their places in the list; none for one that waited at
    /// the start.
    waiting: [VecDeque<Option<usize>>; 8],
    steps: VecDeque<String>,
}

/// The rows of an input of the program; of a refused one its line alone.
pub fn rows(input: &[u8]) -> String {
    let Parts { n, record, memory, events } = match cut(input) {
        Ok(parts) => parts,
        Err(number) => return format!("line\t{}", line_of(Err(number))),
    };
    let (mut memory, mut record, mut log) = (memory.to_vec(), record.to_vec(), long_log(n.into()));
    let start = Machine::from_record(&record);
    let mut walk = Walk::new(&start, events_of(events));
    let ran = run_watched(&mut memory, n.into(), &mut record, events, &mut log, |trace, before, after, memory| {
        walk.take(trace, before, after, memory)
    });
    let line = line_of(ran.map(|ran| (ran, Machine::from_record(&record))));
    match ran {
        Err(_) => format!("line\t{line}"),
        Ok(_) => format!("line\t{line}{}{}", walk.steps.iter().cloned().collect::<String>(), walk.event_rows(&start)),
    }
}

impl Walk {
    fn new(start: &Machine, events: Vec<Event>) -> Walk {
        let waiting = start.lines.0.map(|count| (0..count).map(|_| None).collect());
        Walk { fates: vec![None; events.len()], events, waiting, steps: VecDeque::new() }
    }

    fn take(&mut self, trace: &Trace, before: &Machine, after: &Machine, memory: &[u8]) {
        self.apply(before, trace);
        match trace.act {
            Act::Accept(device) => self.answer(device, before.count, false),
            Act::Chain(device) => self.answer(device, before.count, true),
            _ => {}
        }
        if self.steps.len() == STEPS {
            self.steps.pop_front();
        }
        self.steps.push_back(step_row(trace, before, after, memory));
    }

    /// The events of the step just taken.
    fn apply(&mut self, before: &Machine, trace: &Trace) {
        let first = self.events.partition_point(|e| e.step < before.count);
        let mut lines = before.lines;
        for (place, &(device, status)) in trace.due.iter().enumerate() {
            let waiting = lines.count(device);
            self.fates[first + place] = Some(Taken { status, waiting, entered: None });
            if raises(status) && waiting < FULL {
                lines.raise(device);
                self.waiting[usize::from(device)].push_back(Some(first + place));
            }
        }
    }

    /// An entry answers the oldest of a device's waiting events.
    fn answer(&mut self, device: u8, count: u32, chained: bool) {
        let Some(Some(place)) = self.waiting[usize::from(device)].pop_front() else { return };
        if let Some(taken) = &mut self.fates[place] {
            taken.entered = Some((count, chained));
        }
    }

    fn event_rows(&self, start: &Machine) -> String {
        let row = |(event, fate): (&Event, &Option<Taken>)| {
            let Event { step, device, data } = event;
            let became = match fate {
                None if *step < start.count => "before the start\t\t\t".to_string(),
                None => "after the end\t\t\t".to_string(),
                Some(taken) if taken.status & ENA == 0 => "ENA clear\t\t\t".to_string(),
                Some(taken) => format!("taken\t{}", taken.cells()),
            };
            format!("event\t{step}\t{device}\t{data}\t{became}\n")
        };
        self.events.iter().zip(&self.fates).map(row).collect()
    }
}

/// Whether an event on a device with this status raises its line.
fn raises(status: u8) -> bool {
    status & ENA != 0 && status & IE != 0
}

impl Taken {
    fn cells(&self) -> String {
        let overrun = if self.status & DBA == 0 { "no" } else { "yes" };
        let interrupt = match self.entered {
            _ if !raises(self.status) => "IE clear\t".to_string(),
            _ if self.waiting == FULL => "count full\t".to_string(),
            None => "waits\t".to_string(),
            Some((step, false)) => format!("accepted\t{step}"),
            Some((step, true)) => format!("chained\t{step}"),
        };
        format!("{overrun}\t{interrupt}")
    }
}

// ---- a step

fn step_row(trace: &Trace, before: &Machine, after: &Machine, memory: &[u8]) -> String {
    let (count, pc) = (before.count, before.regs[PC]);
    let word = trace.word.map(|word| format!("{word:04X}")).unwrap_or_default();
    let instruction = trace.word.map(|word| remarked(word, pc)).unwrap_or_default();
    let left: Vec<String> = registers(before, after).chain(stored(trace, after, memory)).collect();
    let left: Vec<String> = left.into_iter().chain(devices(trace, memory)).collect();
    format!("step\t{count}\t{pc:04X}\t{word}\t{instruction}\t{}\t{}\n", act_text(trace.act), left.join(", "))
}

fn fault_name(v: u8) -> &'static str {
    match v {
        8 => "illegal word",
        9 => "odd address",
        _ => "priority",
    }
}

/// What a step was besides its instruction.
fn act_text(act: Act) -> String {
    match act {
        Act::Execute(_) => String::new(),
        Act::Skip => "skipped by CEX".to_string(),
        Act::Sleep => "asleep".to_string(),
        Act::Accept(d) => format!("line of device {d} accepted"),
        Act::Chain(d) => format!("return, chained to the line of device {d}"),
        Act::Pull => "return: CEX, PSW, LR, PC pulled".to_string(),
        Act::Trap(v) => format!("SVC by vector {v}"),
        Act::Fault(v) => format!("fault {v}, {}", fault_name(v)),
        Act::Halt(v) => format!("halt: fault {v}, {}, with FLT set", fault_name(v)),
    }
}

/// The registers that a step changed, PC aside, with what they hold then.
fn registers<'a>(before: &'a Machine, after: &'a Machine) -> impl Iterator<Item = String> + 'a {
    let words = (0..PC).map(|i| (REGISTERS[i], before.regs[i], after.regs[i]));
    let all = words.chain([("PSW", before.psw, after.psw), ("CEX", before.cex, after.cex)]);
    let digits = |name: &str| if name == "CEX" { 2 } else { 4 };
    all.filter(|(_, then, now)| then != now).map(move |(name, _, now)| format!("{name} {now:0w$X}", w = digits(name)))
}

/// Where a store or the pushes of an entry wrote, and how many bytes.
fn written(trace: &Trace, after: &Machine) -> (u16, u16) {
    match (trace.act, trace.access) {
        (Act::Accept(_) | Act::Trap(_) | Act::Fault(_), _) => (even(after.regs[SP]), 8),
        (Act::Execute(Instr::St { .. } | Instr::Str { .. }), Some(access)) => {
            (access.address, if access.byte { 1 } else { 2 })
        }
        _ => (0, 0),
    }
}

/// Bytes stored outside the device bytes, or pushed, whether they are others or not.
fn stored(trace: &Trace, after: &Machine, memory: &[u8]) -> Option<String> {
    let (at, many) = written(trace, after);
    let to_device = many < 8 && at < DEVICES;
    let bytes = (0..many).map(|i| format!(" {:02X}", memory[usize::from(at.wrapping_add(i))]));
    (many > 0 && !to_device).then(|| format!("{at:04X}:{}", bytes.collect::<String>()))
}

/// Device bytes that are others than before, by the step or by an event, and those that were stored.
fn devices<'a>(trace: &'a Trace, memory: &'a [u8]) -> impl Iterator<Item = String> + 'a {
    let by_store = matches!(trace.act, Act::Execute(_));
    let changed = move |i: &u16| {
        trace.undelivered[usize::from(*i)] != memory[usize::from(*i)] || by_store && trace.written.contains(i)
    };
    let part = |i: u16| if i % 2 == 1 { "data" } else { "status" };
    (0..DEVICES).filter(changed).map(move |i| format!("device {} {} {:02X}", i / 2, part(i), memory[usize::from(i)]))
}
