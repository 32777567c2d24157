//! The whole machine of 01: state and memory, the step, CEX, entry, return, faults, devices, runs and refusals. One
//! step is one call of `Machine::step`, which tells what it did.

use crate::alu::{operate, Op, C, FLT, N, SLP, V, Z};
use crate::isa::{decode, Instr};
use std::collections::HashSet;
use std::fmt;

pub const MEMORY: usize = 65_536;
pub const RECORD: usize = 32;
pub const EVENT: usize = 8;
pub const SHOWN: usize = 8;
pub const MAX_EVENTS: usize = 4_096;
pub const MAX_STEPS: u64 = 1_000_000;

pub const LR: usize = 5;
pub const SP: usize = 6;
pub const PC: usize = 7;

/// PSW bits that are always zero.
pub const PSW_ZERO: u16 = 0x1E00;
/// CEX bits that are in use.
pub const CEX_USED: u16 = 0x7F;

/// Status bits of a device.
pub const IE: u8 = 1 << 0;
pub const INPUT: u8 = 1 << 1;
pub const DBA: u8 = 1 << 2;
pub const OF: u8 = 1 << 3;
pub const ENA: u8 = 1 << 4;

/// The end of the device registers.
pub const DEVICES: u16 = 16;
/// The first byte of the vectors.
pub const VECTORS: u16 = 0xFFC0;

/// A count of waiting events that is full.
pub const FULL: u8 = 15;

/// The lines: for each device a count of waiting events that raised its line, 0 to 15 (02, §7).
#[derive(Clone, Copy, Debug, Default, PartialEq, Eq)]
pub struct Lines(pub [u8; 8]);

impl Lines {
    /// One event for each time that a device is named.
    pub fn of(devices: &[u8]) -> Lines {
        let mut lines = Lines::default();
        devices.iter().for_each(|&d| lines.raise(d));
        lines
    }

    pub fn count(self, device: u8) -> u8 {
        self.0[usize::from(device)]
    }

    pub fn waits(self, device: u8) -> bool {
        self.count(device) > 0
    }

    /// "No line waiting" means eight zero counts.
    pub fn none(self) -> bool {
        self.0 == [0; 8]
    }

    /// One event more; a full count stays.
    pub fn raise(&mut self, device: u8) {
        let count = &mut self.0[usize::from(device)];
        *count = FULL.min(*count + 1);
    }

    /// An acceptance or a chained entry takes one.
    fn take(&mut self, device: u8) {
        self.0[usize::from(device)] -= 1;
    }

    /// The counts in bytes 26-29 of a record: four bits each, device 0 in the low half of byte 26.
    pub fn from_bytes(bytes: &[u8]) -> Lines {
        Lines(std::array::from_fn(|d| if d % 2 == 0 { bytes[d / 2] & 15 } else { bytes[d / 2] >> 4 }))
    }

    pub fn to_bytes(self) -> [u8; 4] {
        std::array::from_fn(|i| self.0[2 * i] | self.0[2 * i + 1] << 4)
    }
}

/// Eight digits, device 7 first.
impl fmt::Display for Lines {
    fn fmt(&self, f: &mut fmt::Formatter) -> fmt::Result {
        self.0.iter().rev().try_for_each(|count| write!(f, "{count:X}"))
    }
}

#[derive(Clone, Copy, Debug, Default, PartialEq, Eq)]
pub struct Machine {
    pub regs: [u16; 8],
    pub psw: u16,
    pub cex: u16,
    pub lines: Lines,
    pub halted: bool,
    pub count: u32,
}

#[derive(Clone, Copy, Debug, PartialEq, Eq)]
pub struct Event {
    pub step: u32,
    pub device: u8,
    pub data: u8,
}

/// A byte that an output device showed: the step count before the step that stored it. (02, §1)
#[derive(Clone, Copy, Debug, PartialEq, Eq)]
pub struct Shown {
    pub step: u32,
    pub device: u8,
    pub byte: u8,
}

/// What a step was.
#[derive(Clone, Copy, Debug, PartialEq, Eq)]
pub enum Act {
    /// A return that pulled a frame.
    Pull,
    /// A return that entered a waiting line without pushing.
    Chain(u8),
    /// An accepted line.
    Accept(u8),
    Sleep,
    /// A fault that was entered.
    Fault(u8),
    /// A fault with FLT set.
    Halt(u8),
    /// An instruction that CEX skipped.
    Skip,
    /// SVC, entered.
    Trap(u8),
    Execute(Instr),
}

impl Act {
    /// How many frames are open after it, of those before it: an entry that pushed is one more, a return that pulled
    /// one less, and one with none open counts nothing. (02, §10)
    pub fn open_after(self, open: u32) -> u32 {
        match self {
            Act::Accept(_) | Act::Fault(_) | Act::Trap(_) => open + 1,
            Act::Pull => open.saturating_sub(1),
            Act::Chain(_) | Act::Halt(_) | Act::Sleep | Act::Skip | Act::Execute(_) => open,
        }
    }
}

/// A step's act, with every byte that it touched outside its due events.
#[derive(Clone, Debug, PartialEq, Eq)]
pub struct Trace {
    pub act: Act,
    /// The due events: device, and its status before the event.
    pub due: Vec<(u8, u8)>,
    /// The address of the fetched word, and the word.
    pub fetched: Option<u16>,
    pub word: Option<u16>,
    /// Bytes loaded by an LD or LDR.
    pub loaded: Vec<u16>,
    /// Bytes written by a store or a push, of the same value too, and what each held before.
    pub written: Vec<u16>,
    pub was: Vec<u8>,
    /// The device bytes before the due events, and before the act, the due events applied.
    pub undelivered: [u8; DEVICES as usize],
    pub devices: [u8; DEVICES as usize],
    /// What it showed. (02, §1)
    pub shown: Option<Shown>,
    /// What an LD, ST, LDR or STR moved.
    pub access: Option<Access>,
}

/// The one load or store of an instruction: a byte or a word, its byte address, and what was loaded, or the operand
/// that was to be stored.
#[derive(Clone, Copy, Debug, PartialEq, Eq)]
pub struct Access {
    pub byte: bool,
    pub address: u16,
    pub value: u16,
}

pub fn current(psw: u16) -> u16 {
    psw >> 5 & 7
}

pub fn previous(psw: u16) -> u16 {
    psw >> 13
}

pub fn even(address: u16) -> u16 {
    address & !1
}

/// The plain word at an address, bit 0 dropped.
pub fn word_at(memory: &[u8], address: u16) -> u16 {
    let a = usize::from(even(address));
    u16::from_le_bytes([memory[a], memory[a + 1]])
}

pub fn vector(v: u8) -> u16 {
    VECTORS + 4 * u16::from(v)
}

/// Whether an address is that of a device's status: even, below 16.
fn is_status(address: u16) -> bool {
    address < DEVICES && address & 1 == 0
}

/// The current priority in the PSW of a vector.
pub fn vector_priority(memory: &[u8], v: u8) -> u16 {
    current(word_at(memory, vector(v)))
}

/// Whether the condition of a CEX holds.
fn cex_holds(condition: u8, psw: u16) -> bool {
    let [c, z, n, v] = [C, Z, N, V].map(|flag| psw & flag != 0);
    match condition {
        0 => z,
        1 => !z,
        2 => c,
        3 => !c,
        4 => n,
        5 => !n,
        6 => v,
        7 => !v,
        8 => c && !z,
        9 => !c || z,
        10 => n == v,
        11 => n != v,
        12 => !z && n == v,
        13 => z || n != v,
        14 => true,
        _ => false,
    }
}

/// Whether a branch is taken.
fn branch_taken(condition: u8, psw: u16) -> bool {
    match condition {
        0..=3 => cex_holds(condition, psw),
        4 => psw & N != 0,
        5 => (psw & N != 0) == (psw & V != 0),
        6 => (psw & N != 0) != (psw & V != 0),
        _ => true,
    }
}

/// The two-operand operations in the order of section 14.
const TWO_OPERANDS: [Op; 12] =
    [Op::Add, Op::Addc, Op::Sub, Op::Subc, Op::Dadd, Op::Cmp, Op::Xor, Op::And, Op::Or, Op::Bit, Op::Bic, Op::Bis];
const ONE_OPERAND: [Op; 3] = [Op::Sra, Op::Rrc, Op::Comp];
const CONSTANTS: [u16; 8] = [0, 1, 2, 4, 8, 16, 32, 0xFFFF];

/// Keeps the high byte of `old` where the form is a byte's.
fn merge(old: u16, new: u16, byte: bool) -> u16 {
    if byte {
        old & 0xFF00 | new & 0x00FF
    } else {
        new
    }
}

/// How far an LD or ST moves its index register.
fn adjustment(dec: u8, inc: u8, byte: bool) -> u16 {
    let size: u16 = if byte { 1 } else { 2 };
    match (dec, inc) {
        (0, 1) => size,
        (1, 0) => size.wrapping_neg(),
        _ => 0,
    }
}

/// An instruction that faults, and with which vector.
struct Faulted(u8);

/// The bytes that a load or a store touches. Words lie at even addresses alone (02, §6).
fn touched(address: u16, byte: bool) -> Result<Vec<u16>, Faulted> {
    match byte {
        true => Ok(vec![address]),
        false if address & 1 == 1 => Err(Faulted(9)),
        false => Ok(vec![address, address + 1]),
    }
}

/// A step under way: the machine, the memory, and what has been touched.
struct Step<'a> {
    m: &'a mut Machine,
    memory: &'a mut [u8],
    word: Option<u16>,
    loaded: Vec<u16>,
    written: Vec<u16>,
    was: Vec<u8>,
    /// The device and the byte that a store showed. (02, §1)
    shown: Option<(u8, u8)>,
    access: Option<Access>,
    /// A write to R7 or a branch taken.
    moved_pc: bool,
}

impl Machine {
    /// One step: nothing if halted, otherwise 01's seven points in order, and the count. The events are in the order of
    /// their steps, as in every accepted list.
    pub fn step(&mut self, memory: &mut [u8], events: &[Event]) -> Option<Trace> {
        if self.halted {
            return None;
        }
        let count = self.count;
        let first = events.partition_point(|e| e.step < count);
        let undelivered = std::array::from_fn(|i| memory[i]);
        let mut due = Vec::new();
        for event in events[first..].iter().take_while(|e| e.step == count) {
            due.push((event.device, memory[2 * usize::from(event.device)]));
            self.apply(memory, *event);
        }
        let devices = std::array::from_fn(|i| memory[i]);
        let (loaded, written, was) = (Vec::new(), Vec::new(), Vec::new());
        let (shown, access) = (None, None);
        let mut step = Step { m: self, memory, word: None, loaded, written, was, shown, access, moved_pc: false };
        let (act, fetched) = step.act();
        let (word, loaded, written, was, access) = (step.word, step.loaded, step.written, step.was, step.access);
        let shown = step.shown.map(|(device, byte)| Shown { step: count, device, byte });
        self.count += 1;
        Some(Trace { act, due, fetched, word, loaded, written, was, undelivered, devices, shown, access })
    }

    /// An event on a device.
    fn apply(&mut self, memory: &mut [u8], event: Event) {
        let at = 2 * usize::from(event.device);
        let status = memory[at];
        if status & ENA == 0 {
            return;
        }
        if status & INPUT != 0 {
            memory[at + 1] = event.data;
        }
        if status & DBA != 0 {
            memory[at] |= OF;
        }
        memory[at] |= DBA;
        if status & IE != 0 {
            self.lines.raise(event.device);
        }
    }

    /// The best waiting line with its priority: the highest priority, then the lowest device.
    pub fn best_line(&self, memory: &[u8]) -> Option<(u8, u16)> {
        let mut best = None;
        for device in (0..8).filter(|&d| self.lines.waits(d)) {
            let priority = vector_priority(memory, device);
            if best.is_none_or(|(_, highest)| priority > highest) {
                best = Some((device, priority));
            }
        }
        best
    }

    /// The best waiting line, if its priority is above the given one.
    fn line_above(&self, memory: &[u8], priority: u16) -> Option<u8> {
        self.best_line(memory).filter(|&(_, p)| p > priority).map(|(device, _)| device)
    }
}

impl Step<'_> {
    /// Points 2 to 7, after the events.
    fn act(&mut self) -> (Act, Option<u16>) {
        let asleep = self.m.psw & SLP != 0;
        let pc = self.m.regs[PC];
        if !asleep && pc == 0xFFFF {
            return (self.leave(), None);
        }
        if let Some(device) = self.m.line_above(self.memory, current(self.m.psw)) {
            self.m.lines.take(device);
            self.enter(device, false);
            return (Act::Accept(device), None);
        }
        if asleep {
            return (Act::Sleep, None);
        }
        if pc & 1 == 1 {
            return (self.fault(9, *self.m), None);
        }
        let before = *self.m;
        let executes = self.cover();
        self.m.regs[PC] = pc.wrapping_add(2);
        if !executes {
            return (Act::Skip, None);
        }
        let word = word_at(self.memory, pc);
        self.word = Some(word);
        let act = match self.execute(decode(word)) {
            Ok(act) => act,
            Err(Faulted(v)) => self.fault(v, before),
        };
        if self.moved_pc {
            self.m.cex = 0;
        }
        (act, Some(pc))
    }

    /// Lowers the count of the instruction that is reached, and says whether it executes.
    fn cover(&mut self) -> bool {
        let cex = self.m.cex;
        let holds = cex >> 6 & 1 == 1;
        if cex >> 3 & 7 > 0 {
            self.m.cex = cex - 8;
            holds
        } else if cex & 7 > 0 {
            self.m.cex = cex - 1;
            !holds
        } else {
            true
        }
    }

    /// A return: the best waiting line is entered without pushing, or the newest frame is pulled.
    fn leave(&mut self) -> Act {
        if let Some(device) = self.m.line_above(self.memory, previous(self.m.psw)) {
            let kept = previous(self.m.psw);
            self.m.lines.take(device);
            let (psw, pc) = self.vector_words(device);
            self.start_handler(psw, pc, kept, false);
            return Act::Chain(device);
        }
        self.m.cex = self.pull() & CEX_USED;
        self.m.psw = self.pull() & !PSW_ZERO & !SLP;
        self.m.regs[LR] = self.pull();
        self.m.regs[PC] = self.pull();
        Act::Pull
    }

    /// An entry that pushes a frame. The vector's words are read before the pushes.
    fn enter(&mut self, v: u8, fault: bool) {
        let (psw, pc) = self.vector_words(v);
        for value in [self.m.regs[PC], self.m.regs[LR], self.m.psw, self.m.cex] {
            self.push(value);
        }
        self.start_handler(psw, pc, current(self.m.psw), fault);
    }

    fn vector_words(&self, v: u8) -> (u16, u16) {
        (word_at(self.memory, vector(v)), word_at(self.memory, vector(v) + 2))
    }

    fn start_handler(&mut self, vector_psw: u16, pc: u16, previous: u16, fault: bool) {
        let flt = if fault { FLT } else { self.m.psw & FLT };
        self.m.psw = vector_psw & !0xE000 & !PSW_ZERO & !SLP & !FLT | previous << 13 | flt;
        self.m.regs[LR] = 0xFFFF;
        self.m.regs[PC] = pc;
        self.m.cex = 0;
    }

    /// A fault, from the machine as it is: entered, or with FLT set a halt that leaves the machine as it was `before`.
    fn fault(&mut self, v: u8, before: Machine) -> Act {
        if self.m.psw & FLT != 0 {
            *self.m = Machine { halted: true, ..before };
            return Act::Halt(v);
        }
        self.enter(v, true);
        Act::Fault(v)
    }

    fn push(&mut self, value: u16) {
        self.m.regs[SP] = self.m.regs[SP].wrapping_sub(2);
        let at = even(self.m.regs[SP]);
        let [low, high] = value.to_le_bytes();
        self.write_plain(at, low);
        self.write_plain(at + 1, high);
    }

    fn pull(&mut self) -> u16 {
        let value = word_at(self.memory, self.m.regs[SP]);
        self.m.regs[SP] = self.m.regs[SP].wrapping_add(2);
        value
    }

    fn write_plain(&mut self, address: u16, value: u8) {
        self.was.push(self.memory[usize::from(address)]);
        self.memory[usize::from(address)] = value;
        self.written.push(address);
    }

    /// Loads a byte or a word, as LD and LDR do. A status that is touched loses DBA and OF afterwards.
    fn load(&mut self, address: u16, byte: bool) -> Result<u16, Faulted> {
        let touched = touched(address, byte)?;
        let mut value = 0;
        for (i, &a) in touched.iter().enumerate() {
            value |= u16::from(self.memory[usize::from(a)]) << (8 * i);
            if is_status(a) {
                self.memory[usize::from(a)] &= !(DBA | OF);
            }
            self.loaded.push(a);
        }
        self.access = Some(Access { byte, address, value });
        Ok(value)
    }

    /// Stores a byte or a word, as ST and STR do. What it shows goes by the statuses before the whole access.
    fn store(&mut self, address: u16, value: u16, byte: bool) -> Result<(), Faulted> {
        let parts: Vec<(u16, u8)> = touched(address, byte)?.into_iter().zip(value.to_le_bytes()).collect();
        self.shown = parts.iter().find_map(|&(a, part)| self.shows(a, part));
        self.access = Some(Access { byte, address, value });
        for (a, part) in parts {
            self.store_byte(a, part);
        }
        Ok(())
    }

    /// What a store of this byte shows: to the data byte of an output device with ENA set. (02, §1)
    fn shows(&self, a: u16, value: u8) -> Option<(u8, u8)> {
        if a >= DEVICES || is_status(a) {
            return None;
        }
        let status = self.memory[usize::from(a - 1)];
        (status & ENA != 0 && status & INPUT == 0).then_some(((a / 2) as u8, value))
    }

    /// A store to status changes bits 0 and 4 only. A store to data clears DBA on an output device.
    fn store_byte(&mut self, a: u16, value: u8) {
        if is_status(a) {
            let kept = self.memory[usize::from(a)] & !(IE | ENA);
            self.write_plain(a, kept | value & (IE | ENA));
            return;
        }
        self.write_plain(a, value);
        if a < DEVICES {
            let status = &mut self.memory[usize::from(a - 1)];
            if *status & INPUT == 0 {
                *status &= !DBA;
            }
        }
    }

    /// Writes a register; a write to R7 is noted whatever the value.
    fn set(&mut self, register: u8, value: u16) {
        self.m.regs[usize::from(register)] = value;
        self.moved_pc |= usize::from(register) == PC;
    }

    fn get(&self, register: u8) -> u16 {
        self.m.regs[usize::from(register)]
    }

    fn branch(&mut self, offset: i16) {
        let target = self.m.regs[PC].wrapping_add((2 * offset) as u16);
        self.set(PC as u8, target);
    }

    /// Adjusts an index register. A move of nothing is no write.
    fn adjust(&mut self, register: u8, by: u16) {
        if by != 0 {
            self.set(register, self.get(register).wrapping_add(by));
        }
    }

    /// Executes an instruction, PC being the address after it.
    fn execute(&mut self, instr: Instr) -> Result<Act, Faulted> {
        match instr {
            Instr::Illegal => return Err(Faulted(8)),
            Instr::Svc { vector } => return self.supervisory_call(vector),
            Instr::SetPri { level } => self.set_priority(level)?,
            Instr::SetCc { .. } | Instr::ClrCc { .. } | Instr::Cex { .. } => self.set_status(instr),
            Instr::Bl { .. } | Instr::Branch { .. } => self.transfer(instr),
            Instr::Ld { .. } | Instr::St { .. } | Instr::Ldr { .. } | Instr::Str { .. } => self.access(instr)?,
            _ => self.work(instr),
        }
        Ok(Act::Execute(instr))
    }

    /// SVC: fault 10 where the vector's priority is not above the current one.
    fn supervisory_call(&mut self, v: u8) -> Result<Act, Faulted> {
        if vector_priority(self.memory, v) <= current(self.m.psw) {
            return Err(Faulted(10));
        }
        self.enter(v, false);
        Ok(Act::Trap(v))
    }

    /// SETPRI: upwards is fault 10; the previous priority is left.
    fn set_priority(&mut self, level: u8) -> Result<(), Faulted> {
        if u16::from(level) > current(self.m.psw) {
            return Err(Faulted(10));
        }
        self.m.psw = self.m.psw & !0x00E0 | u16::from(level) << 5;
        Ok(())
    }

    /// SETCC, CLRCC and CEX. SETCC at priority 7 leaves SLP clear.
    fn set_status(&mut self, instr: Instr) {
        match instr {
            Instr::SetCc { flags } => {
                let allowed = if current(self.m.psw) == 7 { !SLP } else { !0 };
                self.m.psw |= u16::from(flags) & allowed;
            }
            Instr::ClrCc { flags } => self.m.psw &= !u16::from(flags),
            Instr::Cex { cond, if_true, if_false } => {
                let held = u16::from(cex_holds(cond, self.m.psw));
                self.m.cex = held << 6 | u16::from(if_true) << 3 | u16::from(if_false);
            }
            _ => unreachable!(),
        }
    }

    /// BL, which is always taken, and the branches.
    fn transfer(&mut self, instr: Instr) {
        match instr {
            Instr::Bl { offset } => {
                self.set(LR as u8, self.m.regs[PC]);
                self.branch(offset);
            }
            Instr::Branch { cond, offset } if branch_taken(cond, self.m.psw) => self.branch(offset),
            _ => {}
        }
    }

    /// LD, ST, LDR and STR: address and stored value are read first, a loaded value is written last. A word at an odd
    /// address is fault 9 before anything is touched (02, §6).
    fn access(&mut self, instr: Instr) -> Result<(), Faulted> {
        match instr {
            Instr::Ld { prpo, dec, inc, wb, src, dst } => {
                let by = adjustment(dec, inc, wb == 1);
                let address = self.get(src).wrapping_add(if prpo == 1 { by } else { 0 });
                let value = self.load(address, wb == 1)?;
                self.adjust(src, by);
                self.set(dst, merge(self.get(dst), value, wb == 1));
            }
            Instr::St { prpo, dec, inc, wb, src, dst } => {
                let by = adjustment(dec, inc, wb == 1);
                let address = self.get(dst).wrapping_add(if prpo == 1 { by } else { 0 });
                self.store(address, self.get(src), wb == 1)?;
                self.adjust(dst, by);
            }
            Instr::Ldr { offset, wb, src, dst } => {
                let value = self.load(self.get(src).wrapping_add(offset as u16), wb == 1)?;
                self.set(dst, merge(self.get(dst), value, wb == 1));
            }
            Instr::Str { offset, wb, src, dst } => {
                self.store(self.get(dst).wrapping_add(offset as u16), self.get(src), wb == 1)?;
            }
            _ => unreachable!(),
        }
        Ok(())
    }

    /// The instructions that only work on registers and flags.
    fn work(&mut self, instr: Instr) {
        match instr {
            Instr::Alu { op, rc, wb, src, dst } => {
                let source = if rc == 1 { CONSTANTS[usize::from(src)] } else { self.get(src) };
                self.compute(TWO_OPERANDS[usize::from(op)], wb == 1, source, dst);
            }
            Instr::Unary { op, wb, dst } => self.compute(ONE_OPERAND[usize::from(op)], wb == 1, 0, dst),
            Instr::Swpb { dst, .. } => self.compute(Op::Swpb, false, 0, dst),
            Instr::Sxt { dst, .. } => self.compute(Op::Sxt, false, 0, dst),
            Instr::Mov { wb, src, dst } => self.set(dst, merge(self.get(dst), self.get(src), wb == 1)),
            Instr::Swap { src, dst, .. } => {
                let (a, b) = (self.get(src), self.get(dst));
                self.set(dst, a);
                self.set(src, b);
            }
            Instr::MovImm { op, byte, dst } => self.initialize(op, byte, dst),
            _ => unreachable!(),
        }
    }

    fn compute(&mut self, op: Op, byte: bool, source: u16, dst: u8) {
        let (value, psw) = operate(op, byte, self.get(dst), source, self.m.psw);
        self.m.psw = psw;
        if !matches!(op, Op::Cmp | Op::Bit) {
            self.set(dst, value);
        }
    }

    /// MOVL, MOVLZ, MOVLS, MOVH.
    fn initialize(&mut self, op: u8, byte: u8, dst: u8) {
        let (old, byte) = (self.get(dst), u16::from(byte));
        let value = match op {
            0 => old & 0xFF00 | byte,
            1 => byte,
            2 => 0xFF00 | byte,
            _ => old & 0x00FF | byte << 8,
        };
        self.set(dst, value);
    }
}

// ---- records, refusals, runs

impl Machine {
    /// The machine in a record of 32 bytes.
    pub fn from_record(record: &[u8]) -> Machine {
        let word = |at: usize| u16::from_le_bytes([record[at], record[at + 1]]);
        Machine {
            regs: [0, 1, 2, 3, 4, 5, 6, 7].map(|i| word(2 * i)),
            psw: word(16),
            cex: word(18),
            lines: Lines::from_bytes(&record[26..30]),
            halted: record[21] != 0,
            count: u32::from_le_bytes([record[22], record[23], record[24], record[25]]),
        }
    }

    pub fn to_record(self) -> [u8; RECORD] {
        let mut record = [0; RECORD];
        for (i, value) in self.regs.iter().chain([&self.psw, &self.cex]).enumerate() {
            record[2 * i..2 * i + 2].copy_from_slice(&value.to_le_bytes());
        }
        record[21] = u8::from(self.halted);
        record[22..26].copy_from_slice(&self.count.to_le_bytes());
        record[26..30].copy_from_slice(&self.lines.to_bytes());
        record
    }
}

/// The parts that a closing line has, in its order, and what it leaves out.
impl fmt::Display for Machine {
    fn fmt(&self, f: &mut fmt::Formatter) -> fmt::Result {
        for (i, value) in self.regs.iter().enumerate() {
            write!(f, "R{i} {value:04X} ")?;
        }
        let Machine { psw, cex, lines, halted, count, .. } = self;
        write!(f, "PSW {psw:04X} CEX {cex:02X} lines {lines} halted {} count {count}", u8::from(*halted))
    }
}

/// The event in a record of 8 bytes.
pub fn event_of(record: &[u8]) -> Event {
    let step = u32::from_le_bytes([record[0], record[1], record[2], record[3]]);
    Event { step, device: record[4], data: record[5] }
}

pub fn events_of(list: &[u8]) -> Vec<Event> {
    list.chunks_exact(EVENT).map(event_of).collect()
}

pub fn event_record(event: Event) -> [u8; EVENT] {
    let [a, b, c, d] = event.step.to_le_bytes();
    [a, b, c, d, event.device, event.data, 0, 0]
}

/// The record of 8 bytes of what was shown.
pub fn shown_record(shown: Shown) -> [u8; SHOWN] {
    let [a, b, c, d] = shown.step.to_le_bytes();
    [a, b, c, d, shown.device, shown.byte, 0, 0]
}

/// What the records of a log hold.
pub fn shown_of(log: &[u8]) -> Vec<Shown> {
    let one = |r: &[u8]| Shown { step: u32::from_le_bytes([r[0], r[1], r[2], r[3]]), device: r[4], byte: r[5] };
    log.chunks_exact(SHOWN).map(one).collect()
}

/// The records without those that share step and device with one before them.
pub fn without_twins(mut events: Vec<Event>) -> Vec<Event> {
    let mut seen = HashSet::new();
    events.retain(|e| seen.insert((e.step, e.device)));
    events
}

/// Places of two records that share step and device: the first that has such a one before it, and the latter.
pub fn twins(events: &[Event]) -> Option<(usize, usize)> {
    let same = |i: usize, j: usize| (events[i].step, events[i].device) == (events[j].step, events[j].device);
    (0..events.len()).find_map(|j| (0..j).find(|&i| same(i, j)).map(|i| (i, j)))
}

/// The refusal of a run, 1 to 7, 13 or 9, or nothing. Of the log the length alone is tried.
pub fn refusal(memory: &[u8], n: u64, record: &[u8], events: &[u8], log: &[u8]) -> Option<u8> {
    if memory.len() != MEMORY {
        return Some(1);
    }
    if n > MAX_STEPS {
        return Some(2);
    }
    if record.len() != RECORD {
        return Some(3);
    }
    let m = Machine::from_record(record);
    if u64::from(m.count) + n > u64::from(u32::MAX) {
        return Some(2);
    }
    let zeros = [record[20], record[30], record[31]];
    let unused = m.psw & PSW_ZERO != 0 || m.cex & !CEX_USED != 0 || zeros != [0; 3];
    if unused || record[21] > 1 {
        return Some(4);
    }
    if !events.len().is_multiple_of(EVENT) || events.len() / EVENT > MAX_EVENTS {
        return Some(5);
    }
    if events.chunks(EVENT).any(|e| e[4] > 7 || e[6] != 0 || e[7] != 0) {
        return Some(6);
    }
    if events_of(events).windows(2).any(|pair| pair[1].step < pair[0].step) {
        return Some(7);
    }
    let listed = events_of(events);
    if without_twins(listed.clone()).len() != listed.len() {
        return Some(13);
    }
    (!log.len().is_multiple_of(SHOWN)).then_some(9)
}

/// What a run is handed: a machine with its memory, events in the order of their steps, and how many steps.
#[derive(Clone, Debug)]
pub struct Setup {
    pub machine: Machine,
    pub memory: Vec<u8>,
    pub events: Vec<Event>,
    pub n: u32,
}

/// How a run ended: reason 1 if halted, 2 if the log had no room for what the next step would show, else 0; the steps
/// done, the records added to the log, and the most frames of this run that were open together.
#[derive(Clone, Copy, Debug, Default, PartialEq, Eq)]
pub struct Ran {
    pub reason: u8,
    pub steps: u32,
    pub added: u32,
    pub deepest: u32,
}

/// A run of n steps. A refused one gives its number and leaves memory, record and log as they were.
pub fn run(memory: &mut [u8], n: u64, record: &mut [u8], events: &[u8], log: &mut [u8]) -> Result<Ran, u8> {
    run_watched(memory, n, record, events, log, |_, _, _, _| ())
}

/// A log that no run of n steps can fill: a step shows one byte at most.
pub fn long_log(n: u64) -> Vec<u8> {
    vec![0; SHOWN * n.min(MAX_STEPS) as usize]
}

/// A run whose every step is shown: what it did, the machine before and after it, and the memory after it.
pub fn run_watched(
    memory: &mut [u8],
    n: u64,
    record: &mut [u8],
    events: &[u8],
    log: &mut [u8],
    mut watch: impl FnMut(&Trace, &Machine, &Machine, &[u8]),
) -> Result<Ran, u8> {
    if let Some(number) = refusal(memory, n, record, events, log) {
        return Err(number);
    }
    let events = events_of(events);
    let mut m = Machine::from_record(record);
    let (mut ran, mut open) = (Ran::default(), 0);
    let mut room = log.chunks_exact_mut(SHOWN);
    while u64::from(ran.steps) < n {
        let before = m;
        let devices: [u8; DEVICES as usize] = std::array::from_fn(|i| memory[i]);
        let Some(trace) = m.step(memory, &events) else { break };
        if let Some(shown) = trace.shown {
            let Some(place) = room.next() else {
                // The step is not taken. It has written device bytes alone: its events', and its own.
                assert!(trace.written.iter().all(|&a| a < DEVICES));
                memory[..DEVICES.into()].copy_from_slice(&devices);
                (m, ran.reason) = (before, 2);
                break;
            };
            place.copy_from_slice(&shown_record(shown));
            ran.added += 1;
        }
        watch(&trace, &before, &m, memory);
        ran.steps += 1;
        open = trace.act.open_after(open);
        ran.deepest = ran.deepest.max(open);
    }
    if m.halted {
        ran.reason = 1;
    }
    record.copy_from_slice(&m.to_record());
    Ok(ran)
}

/// The one number that the call replies: the refusal in bits 7-0, the reason in 15-8, the steps done in 39-16, the
/// records added to the log in 63-40.
pub fn reply(result: Result<Ran, u8>) -> u64 {
    match result {
        Err(number) => number.into(),
        Ok(ran) => u64::from(ran.reason) << 8 | u64::from(ran.steps) << 16 | u64::from(ran.added) << 40,
    }
}

/// The steps done that a reply tells.
pub fn steps_of(reply: u64) -> u64 {
    reply >> 16 & 0xFF_FFFF
}

/// The records added that a reply tells.
pub fn added_of(reply: u64) -> u64 {
    reply >> 40
}

/// What the program reads, cut into its parts.
pub struct Parts<'a> {
    pub n: u32,
    pub record: &'a [u8],
    pub memory: &'a [u8],
    pub events: &'a [u8],
}

/// The parts of an input. Under 36 bytes are refused with 3, and short memory with 1.
pub fn cut(input: &[u8]) -> Result<Parts<'_>, u8> {
    if input.len() < 4 + RECORD {
        return Err(3);
    }
    if input.len() < 4 + RECORD + MEMORY {
        return Err(1);
    }
    let (n, rest) = input.split_at(4);
    let (record, rest) = rest.split_at(RECORD);
    let (memory, events) = rest.split_at(MEMORY);
    Ok(Parts { n: u32::from_le_bytes([n[0], n[1], n[2], n[3]]), record, memory, events })
}

/// The line of a run's close, LF included, its last field the depth in base ten; that of a refusal is its number.
pub fn line_of(closed: Result<(Ran, Machine), u8>) -> String {
    match closed {
        Err(number) => format!("R{number}\n"),
        Ok((ran, m)) => {
            let words: Vec<String> = m.regs.iter().chain([&m.psw]).map(|w| format!("{w:04X}")).collect();
            let Ran { reason, steps, deepest, .. } = ran;
            format!("{reason} {steps} {} {:02X} {} {deepest}\n", words.join(" "), m.cex, m.lines)
        }
    }
}

/// The line that the program prints for its input, as if the run were lent a log long enough, and the memory afterwards
/// where nothing was refused.
pub fn sheet(input: &[u8]) -> (String, Option<Vec<u8>>) {
    let closed = cut(input).and_then(|Parts { n, record, memory, events }| {
        let (mut record, mut memory) = (record.to_vec(), memory.to_vec());
        let ran = run(&mut memory, n.into(), &mut record, events, &mut long_log(n.into()))?;
        Ok((ran, Machine::from_record(&record), memory))
    });
    match closed {
        Err(number) => (line_of(Err(number)), None),
        Ok((ran, m, memory)) => (line_of(Ok((ran, m))), Some(memory)),
    }
}
