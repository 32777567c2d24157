//! Corners of 01's rules that a step can meet, each with what it looks like from outside. A vector or a frame is read
//! after the step, so a few steps that overwrite their own vector are judged by what they wrote.

use crate::alu::{FLT, SLP, Z};
use crate::isa::{decode, Instr};
use crate::machine::{current, vector_priority, word_at, Act, Machine, Trace};
use crate::machine::{DEVICES, ENA, FULL, IE, INPUT, LR, PC, SP, VECTORS};

/// A step as the oracle shows it. The machine `before` is that before the due events, the memory that after the step.
pub struct Seen<'a> {
    pub trace: &'a Trace,
    pub before: &'a Machine,
    pub after: &'a Machine,
    pub memory: &'a [u8],
}

pub type Corner = (&'static str, fn(&Seen) -> bool);

impl Seen<'_> {
    fn instr(&self) -> Option<Instr> {
        match self.trace.act {
            Act::Execute(instr) => Some(instr),
            _ => None,
        }
    }

    /// An instruction away from devices and vectors, with nothing due and no line waiting.
    fn plain(&self) -> bool {
        let away = |at: u16| (DEVICES..VECTORS).contains(&at);
        let instruction = self.instr().is_some() && self.trace.fetched.is_some_and(away);
        instruction && self.trace.due.is_empty() && self.after.lines.none()
    }

    /// An LD, ST, LDR or STR.
    fn accesses(&self) -> bool {
        self.loads().is_some() || self.stores().is_some()
    }

    fn pc(&self) -> u16 {
        self.before.regs[PC]
    }

    fn sp(&self) -> u16 {
        self.before.regs[SP]
    }

    fn asleep(&self) -> bool {
        self.before.psw & SLP != 0
    }

    /// How many instructions the CEX block still covers.
    fn covered(&self) -> u16 {
        (self.before.cex >> 3 & 7) + (self.before.cex & 7)
    }

    /// The vector of an entry that pushes.
    fn pushes(&self) -> Option<u8> {
        match self.trace.act {
            Act::Accept(v) | Act::Fault(v) | Act::Trap(v) => Some(v),
            _ => None,
        }
    }

    /// The device whose line this step takes.
    fn line(&self) -> Option<u8> {
        match self.trace.act {
            Act::Accept(d) | Act::Chain(d) => Some(d),
            _ => None,
        }
    }

    /// The counts, before the step, of the devices whose lines its events raise. No two events are of one device.
    fn rises(&self) -> impl Iterator<Item = u8> + '_ {
        let raises = |status: u8| status & (ENA | IE) == ENA | IE;
        self.trace.due.iter().filter(move |&&(_, status)| raises(status)).map(|&(d, _)| self.before.lines.count(d))
    }

    fn accepts(&self) -> bool {
        matches!(self.trace.act, Act::Accept(_))
    }

    fn pulls(&self) -> bool {
        self.trace.act == Act::Pull
    }

    fn halts(&self) -> bool {
        matches!(self.trace.act, Act::Halt(_))
    }

    /// Whether the step is an LD or LDR, and of a byte.
    fn loads(&self) -> Option<bool> {
        match self.instr()? {
            Instr::Ld { wb, .. } | Instr::Ldr { wb, .. } => Some(wb == 1),
            _ => None,
        }
    }

    /// Whether the step is an ST or STR, and of a byte.
    fn stores(&self) -> Option<bool> {
        match self.instr()? {
            Instr::St { wb, .. } | Instr::Str { wb, .. } => Some(wb == 1),
            _ => None,
        }
    }

    /// The device registers that an LD or LDR of this width loads.
    fn device_loads(&self, byte: bool) -> Vec<u16> {
        let which = if self.loads() == Some(byte) { &self.trace.loaded[..] } else { &[] };
        which.iter().copied().filter(|&a| a < DEVICES).collect()
    }

    /// The device registers that an ST or STR of this width stores.
    fn device_stores(&self, byte: bool) -> Vec<u16> {
        let which = if self.stores() == Some(byte) { &self.trace.written[..] } else { &[] };
        which.iter().copied().filter(|&a| a < DEVICES).collect()
    }

    /// The devices whose data byte the step writes, with the status before the act.
    fn data_written(&self) -> impl Iterator<Item = (usize, u8)> + '_ {
        let data = self.trace.written.iter().filter(|&&a| a < DEVICES && a & 1 == 1);
        data.map(|&a| (usize::from(a / 2), self.trace.devices[usize::from(a - 1)]))
    }

    /// A store to the data byte of an output device that shows nothing, since ENA is clear; of a byte, or of a word
    /// that sets it.
    fn hidden(&self, byte: bool) -> bool {
        let hidden = |status: u8| status & (ENA | INPUT) == 0;
        self.stores() == Some(byte) && self.data_written().any(|(_, status)| hidden(status))
    }

    /// The status of the device that a word store writes, after it.
    fn status_left(&self) -> u8 {
        let status = self.trace.written.first().filter(|&&a| a < DEVICES);
        status.map_or(0, |&a| self.memory[usize::from(a & !1)])
    }

    /// The operand of BIC or BIS: cut to the width, and whole; then the number of bits of the width.
    fn bit_number(&self) -> Option<(u16, u16, u16)> {
        let Instr::Alu { op: 10 | 11, rc, wb, src, .. } = self.instr()? else { return None };
        let next = if src == 7 { 2 } else { 0 };
        let whole = match rc {
            0 => self.before.regs[usize::from(src)].wrapping_add(next),
            _ => [0, 1, 2, 4, 8, 16, 32, 0xFFFF][usize::from(src)],
        };
        Some(if wb == 1 { (whole & 0xFF, whole, 8) } else { (whole, whole, 16) })
    }

    /// BIC or BIS of no bit, into the register `dst`.
    fn names_no_bit(&self) -> Option<(u8, u8)> {
        let (number, _, width) = self.bit_number()?;
        match self.instr()? {
            Instr::Alu { op, dst, .. } if number >= width => Some((op, dst)),
            _ => None,
        }
    }

    /// The instruction of a fault 9 that is no odd PC's: a word access at an odd address, entered or halting.
    pub fn odd_access(&self) -> Option<Instr> {
        match self.trace.act {
            Act::Fault(9) | Act::Halt(9) => self.trace.word.map(decode),
            _ => None,
        }
    }

    /// The address of a word access, an odd one too.
    pub fn word_address(&self) -> Option<u16> {
        let before = |prpo: u8, dec: u8, inc: u8| 2 * i16::from(prpo) * (i16::from(inc) - i16::from(dec));
        let base = |register: u8, offset: i16| {
            let register = usize::from(register);
            let next = if register == PC { 2 } else { 0 };
            self.before.regs[register].wrapping_add(next).wrapping_add(offset as u16)
        };
        match self.instr().or(self.odd_access())? {
            Instr::Ld { prpo, dec, inc, wb: 0, src, .. } => Some(base(src, before(prpo, dec, inc))),
            Instr::St { prpo, dec, inc, wb: 0, dst, .. } => Some(base(dst, before(prpo, dec, inc))),
            Instr::Ldr { wb: 0, src, offset, .. } => Some(base(src, offset)),
            Instr::Str { wb: 0, dst, offset, .. } => Some(base(dst, offset)),
            _ => None,
        }
    }

    /// Whether the state of CEX is cleared while it covers more instructions.
    fn clears_cex(&self) -> bool {
        self.covered() > 1 && self.after.cex == 0
    }
}

/// Rows that only a step of some kind can meet, so that the others need not be asked.
pub struct Group {
    pub may: fn(&Seen) -> bool,
    pub rows: &'static [Corner],
}

/// All rows, in the order of 01's headings.
pub const GROUPS: [Group; 5] = [
    Group { may: |s| !s.plain(), rows: STEPS },
    Group { may: |s| s.covered() > 0, rows: BLOCKS },
    Group { may: |s| s.instr().is_none(), rows: ENTRIES },
    Group { may: |s| s.instr().is_some() && !s.accesses(), rows: INSTRUCTIONS },
    Group { may: |s| s.accesses(), rows: ACCESSES },
];

const STEPS: &[Corner] = &[
    ("events of a lower device and then of a higher one in one step", |s| {
        s.trace.due.windows(2).any(|pair| pair[0].0 < pair[1].0)
    }),
    ("events of a higher device and then of a lower one in one step", |s| {
        s.trace.due.windows(2).any(|pair| pair[1].0 < pair[0].0)
    }),
    ("a line raised and accepted in one step", |s| s.accepts() && s.line().is_some_and(|d| !s.before.lines.waits(d))),
    ("a line raised and chained in one step", |s| !s.accepts() && s.line().is_some_and(|d| !s.before.lines.waits(d))),
    ("asleep at #FFFF", |s| s.trace.act == Act::Sleep && s.pc() == 0xFFFF),
    ("asleep at an odd PC", |s| s.trace.act == Act::Sleep && s.pc() & 1 == 1 && s.pc() != 0xFFFF),
    ("asleep with a line that is not above", |s| s.trace.act == Act::Sleep && !s.after.lines.none()),
    ("a line accepted asleep", |s| s.accepts() && s.asleep()),
    ("a line accepted asleep at #FFFF", |s| s.accepts() && s.asleep() && s.pc() == 0xFFFF),
    ("a line accepted at an odd PC", |s| s.accepts() && s.pc() & 1 == 1 && !s.asleep()),
    ("a line taken before another of its priority", |s| {
        let same = |d: u8, e: u8| vector_priority(s.memory, d) == vector_priority(s.memory, e);
        s.line().is_some_and(|d| (d + 1..8).any(|e| s.after.lines.waits(e) && same(d, e)))
    }),
    ("a line taken before one of a lower device and priority", |s| {
        let below = |d: u8, e: u8| vector_priority(s.memory, e) < vector_priority(s.memory, d);
        s.line().is_some_and(|d| (0..d).any(|e| s.after.lines.waits(e) && below(d, e)))
    }),
    ("an event on a line that waits", |s| s.rises().any(|count| (1..FULL - 1).contains(&count))),
    ("an event that fills a count", |s| s.rises().any(|count| count == FULL - 1)),
    ("an event on a full count", |s| s.rises().any(|count| count == FULL)),
    ("an event with IE clear on a line that waits", |s| {
        let quiet = |status: u8| status & (ENA | IE) == ENA;
        s.trace.due.iter().any(|&(d, status)| quiet(status) && s.before.lines.waits(d))
    }),
    ("a line accepted with more of its events waiting", |s| {
        s.accepts() && s.line().is_some_and(|d| s.after.lines.waits(d))
    }),
    ("a line chained with more of its events waiting", |s| {
        !s.accepts() && s.line().is_some_and(|d| s.after.lines.waits(d))
    }),
    ("one taken from a full count", |s| s.line().is_some_and(|d| s.after.lines.count(d) == FULL - 1)),
    ("SVC while a line waits", |s| matches!(s.trace.act, Act::Trap(_)) && !s.after.lines.none()),
    ("every line waiting", |s| s.after.lines.0.iter().all(|&count| count > 0)),
    ("an instruction while a line waits", |s| s.instr().is_some() && !s.after.lines.none()),
    ("a fetch from a device register", |s| s.trace.fetched.is_some_and(|at| at < DEVICES)),
    ("a fetch from a vector", |s| s.trace.fetched.is_some_and(|at| at >= VECTORS)),
    ("PC around address 0", |s| s.trace.fetched == Some(0xFFFE)),
];

const BLOCKS: &[Corner] = &[
    ("an instruction of the true part", |s| s.instr().is_some() && s.before.cex >> 3 & 7 > 0),
    ("an instruction of the false part", |s| s.instr().is_some() && s.before.cex & 0x38 == 0 && s.before.cex & 7 > 0),
    ("CEX in a block", |s| matches!(s.instr(), Some(Instr::Cex { .. }))),
    ("a branch taken in a block", |s| {
        matches!(s.instr(), Some(Instr::Branch { .. } | Instr::Bl { .. })) && s.clears_cex()
    }),
    ("a write to R7 in a block", |s| {
        let branch = matches!(s.instr(), Some(Instr::Branch { .. } | Instr::Bl { .. } | Instr::Cex { .. }) | None);
        !branch && s.clears_cex()
    }),
    ("fault 8 in a block", |s| s.trace.act == Act::Fault(8)),
    ("an odd PC in a block", |s| s.trace.act == Act::Fault(9) && s.odd_access().is_none()),
    ("an odd word access in a block", |s| s.trace.act == Act::Fault(9) && s.odd_access().is_some()),
    ("fault 10 in a block", |s| s.trace.act == Act::Fault(10)),
    ("a halt in a block", |s| s.halts()),
    ("SVC in a block", |s| matches!(s.trace.act, Act::Trap(_))),
    ("a line accepted in a block", |s| s.accepts()),
    ("a skip at the end of memory", |s| s.trace.act == Act::Skip && s.pc() == 0xFFFE),
];

const ENTRIES: &[Corner] = &[
    ("an entry with SP odd", |s| s.pushes().is_some() && s.sp() & 1 == 1),
    ("an entry around address 0", |s| s.pushes().is_some() && s.sp() < 8),
    ("an entry over the vectors", |s| s.pushes().is_some() && s.trace.written.iter().any(|&a| a >= VECTORS)),
    ("an entry over a device register", |s| s.pushes().is_some() && s.trace.written.iter().any(|&a| a < DEVICES)),
    ("a vector with SLP and bits 12-9", |s| {
        s.pushes().is_some_and(|v| word_at(s.memory, VECTORS + 4 * u16::from(v)) & 0x1E08 == 0x1E08)
    }),
    ("a vector with FLT, and no fault", |s| {
        let flt = |v: u8| word_at(s.memory, VECTORS + 4 * u16::from(v)) & FLT != 0;
        matches!(s.trace.act, Act::Accept(v) | Act::Trap(v) if flt(v)) && s.before.psw & FLT == 0
    }),
    ("a line accepted with FLT set", |s| s.accepts() && s.before.psw & FLT != 0),
    ("a line chained with FLT set", |s| matches!(s.trace.act, Act::Chain(_)) && s.before.psw & FLT != 0),
    ("SVC with FLT set", |s| matches!(s.trace.act, Act::Trap(_)) && s.before.psw & FLT != 0),
    ("a fault whose vector is not above", |s| {
        let below = |v: u8| vector_priority(s.memory, v) <= current(s.before.psw);
        matches!(s.trace.act, Act::Fault(v) if below(v))
    }),
    ("a handler at #FFFF", |s| s.pushes().is_some() && s.after.regs[PC] == 0xFFFF),
    ("a pull with SP odd", |s| s.pulls() && s.sp() & 1 == 1),
    ("a pull around address 0", |s| s.pulls() && s.sp() > 0xFFF8),
    ("a pull with a line that is not above", |s| s.pulls() && !s.after.lines.none()),
    ("a pull of zero bits that are set", |s| {
        let (cex, psw) = (word_at(s.memory, s.sp()), word_at(s.memory, s.sp().wrapping_add(2)));
        s.pulls() && cex & 0xFF80 != 0 && psw & 0x1E00 != 0
    }),
    ("a pull of SLP", |s| s.pulls() && word_at(s.memory, s.sp().wrapping_add(2)) & SLP != 0),
    ("a pull of a PC that is #FFFF", |s| s.pulls() && s.after.regs[PC] == 0xFFFF),
    ("a return with LR that is not #FFFF", |s| s.pulls() && s.before.regs[LR] != 0xFFFF),
    ("a halt with an event in its step", |s| s.halts() && !s.trace.due.is_empty()),
    ("LD of an odd word", |s| !s.halts() && matches!(s.odd_access(), Some(Instr::Ld { .. }))),
    ("ST to an odd word", |s| !s.halts() && matches!(s.odd_access(), Some(Instr::St { .. }))),
    ("LDR of an odd word", |s| !s.halts() && matches!(s.odd_access(), Some(Instr::Ldr { .. }))),
    ("STR to an odd word", |s| !s.halts() && matches!(s.odd_access(), Some(Instr::Str { .. }))),
    ("an odd word that would move its index", |s| match s.odd_access() {
        Some(Instr::Ld { dec, inc, .. } | Instr::St { dec, inc, .. }) => dec != inc,
        _ => false,
    }),
    ("an odd word by way of SP", |s| {
        matches!(s.odd_access(), Some(Instr::Ld { src: 6, .. } | Instr::St { dst: 6, .. }))
    }),
    ("an odd word of a device", |s| s.odd_access().is_some() && s.word_address().is_some_and(|a| a < DEVICES)),
    ("an odd word access with FLT set", |s| s.halts() && s.odd_access().is_some()),
    ("pushes onto the data of an output device with ENA set", |s| {
        s.pushes().is_some() && s.data_written().any(|(_, status)| status & (ENA | INPUT) == ENA)
    }),
];

const INSTRUCTIONS: &[Corner] = &[
    (
        "SETPRI downwards",
        |s| matches!(s.instr(), Some(Instr::SetPri { level }) if u16::from(level) < current(s.before.psw)),
    ),
    (
        "SETPRI to the same",
        |s| matches!(s.instr(), Some(Instr::SetPri { level }) if u16::from(level) == current(s.before.psw)),
    ),
    ("SETCC of SLP at priority 7", |s| {
        matches!(s.instr(), Some(Instr::SetCc { flags }) if flags & 8 != 0) && current(s.before.psw) == 7
    }),
    ("SETCC of SLP below priority 7", |s| {
        matches!(s.instr(), Some(Instr::SetCc { flags }) if flags & 8 != 0) && current(s.before.psw) < 7
    }),
    ("CEX with both counts 0", |s| matches!(s.instr(), Some(Instr::Cex { if_true: 0, if_false: 0, .. }))),
    ("SWAP of R7", |s| matches!(s.instr(), Some(Instr::Swap { src: 7, .. } | Instr::Swap { dst: 7, .. }))),
    ("SWAP of a register with itself", |s| matches!(s.instr(), Some(Instr::Swap { src, dst, .. }) if src == dst)),
    ("a comparison of R7", |s| matches!(s.instr(), Some(Instr::Alu { op: 5 | 9, dst: 7, .. }))),
    ("an operation on R7", |s| matches!(s.instr(), Some(Instr::Alu { op: 0..=4, dst: 7, .. }))),
    ("BIC or BIS of the bit that a register names", |s| {
        let register = matches!(s.instr(), Some(Instr::Alu { rc: 0, .. }));
        register && s.bit_number().is_some_and(|(number, _, width)| number < width)
    }),
    ("a byte form of BIC or BIS whose low byte alone names a bit", |s| {
        s.bit_number().is_some_and(|(number, whole, width)| number < width && whole >= width)
    }),
    ("a byte form of BIC or BIS of a bit that only a word has", |s| {
        s.bit_number().is_some_and(|(number, _, width)| width == 8 && (8..16).contains(&number))
    }),
    ("BIC of no bit that leaves 0", |s| {
        let zero = |dst: u8| s.after.regs[usize::from(dst)] == 0 && s.before.psw & Z == 0;
        s.names_no_bit().is_some_and(|(op, dst)| op == 10 && zero(dst))
    }),
    ("BIS of no bit into R7 in a block", |s| s.names_no_bit() == Some((11, 7)) && s.covered() > 0),
    ("R7 as a source", |s| matches!(s.instr(), Some(Instr::Alu { rc: 0, src: 7, .. } | Instr::Mov { src: 7, .. }))),
    ("a byte form on R7", |s| {
        matches!(s.instr(), Some(Instr::Alu { wb: 1, dst: 7, .. } | Instr::Mov { wb: 1, dst: 7, .. }))
    }),
];

const ACCESSES: &[Corner] = &[
    ("a word at an even place from an odd register", |s| {
        let odd = |register: u8| s.before.regs[usize::from(register)] & 1 == 1;
        match s.instr() {
            Some(Instr::Ldr { wb: 0, src, .. }) => odd(src),
            Some(Instr::Str { wb: 0, dst, .. }) => odd(dst),
            _ => false,
        }
    }),
    ("a byte load at an odd address", |s| s.loads() == Some(true) && s.trace.loaded.iter().any(|a| a & 1 == 1)),
    ("a byte store at an odd address", |s| s.stores() == Some(true) && s.trace.written.iter().any(|a| a & 1 == 1)),
    (
        "LD into its own index, which moves",
        |s| matches!(s.instr(), Some(Instr::Ld { src, dst, dec, inc, .. }) if src == dst && dec != inc),
    ),
    (
        "ST of its own index, which moves",
        |s| matches!(s.instr(), Some(Instr::St { src, dst, dec, inc, .. }) if src == dst && dec != inc),
    ),
    ("an index that moves R7", |s| {
        let moves = |register: u8, dec: u8, inc: u8| register == 7 && dec != inc;
        match s.instr() {
            Some(Instr::Ld { src, dec, inc, .. }) => moves(src, dec, inc),
            Some(Instr::St { dst, dec, inc, .. }) => moves(dst, dec, inc),
            _ => false,
        }
    }),
    ("a load into R7", |s| matches!(s.instr(), Some(Instr::Ld { dst: 7, .. } | Instr::Ldr { dst: 7, .. }))),
    ("a store over the next instruction", |s| s.stores().is_some() && s.trace.written.contains(&s.after.regs[PC])),
    ("a byte load of a status", |s| s.device_loads(true).iter().any(|a| a & 1 == 0)),
    ("a byte load of data", |s| s.device_loads(true).iter().any(|a| a & 1 == 1)),
    ("a word load of a device", |s| !s.device_loads(false).is_empty()),
    ("a byte store to a status", |s| s.device_stores(true).iter().any(|a| a & 1 == 0)),
    ("a word store to a device", |s| !s.device_stores(false).is_empty()),
    ("a store to the data of an input device", |s| to_data(s, true)),
    ("a store to the data of an output device", |s| to_data(s, false)),
    ("a byte shown", |s| s.trace.shown.is_some() && s.stores() == Some(true)),
    ("the high byte of a word shown", |s| s.trace.shown.is_some() && s.stores() == Some(false)),
    ("a word that is shown and clears ENA", |s| {
        s.trace.shown.is_some() && s.stores() == Some(false) && s.status_left() & ENA == 0
    }),
    ("a word that sets ENA and is not shown", |s| s.hidden(false) && s.status_left() & ENA != 0),
    ("a byte that is not shown, since ENA is clear", |s| s.hidden(true)),
    ("a byte for an input device with ENA set", |s| {
        let input = |status: u8| status & (ENA | INPUT) == ENA | INPUT;
        s.stores() == Some(true) && s.data_written().any(|(_, status)| input(status))
    }),
    ("a byte shown on a step with events", |s| s.trace.shown.is_some() && !s.trace.due.is_empty()),
    ("a store to a vector", |s| s.stores().is_some() && s.trace.written.iter().any(|&a| a >= VECTORS)),
];

fn to_data(s: &Seen, input: bool) -> bool {
    let of_input = |a: u16| s.memory[usize::from(a - 1)] & INPUT != 0;
    let mut all = s.device_stores(true).into_iter().chain(s.device_stores(false));
    all.any(|a| a & 1 == 1 && of_input(a) == input)
}
