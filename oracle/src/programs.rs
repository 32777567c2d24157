//! Random setups that look like examination papers: an application, eight handlers that mostly restore what they use,
//! enabled devices, and events that nest and chain. In every other one the application calls SVC, whose handlers
//! restore nothing. Words mostly lie at even addresses (02, §6). Now and then each of them does something unwise.

use crate::inputs::lines;
use crate::isa::{encode, Instr};
use crate::machine::{without_twins, Event, Machine, Setup, LR, MEMORY, PC, SP};
use crate::random::Random;

const CODE: u16 = 0x1000;
const HANDLERS: u16 = 0x2000;
/// The vectors of SVC, each with a handler of a higher priority than the one before.
const TRAPS: std::ops::Range<u8> = 11..14;
const DATA: u16 = 0x3000;
/// Where handlers keep what is theirs.
const HANDLER_DATA: u8 = 0x38;

/// A setup from a seed: the same seed gives the same one.
pub fn setup(seed: u64) -> Setup {
    let mut maker = Maker { random: Random::new(seed), memory: vec![0; MEMORY], at: 0, level: true };
    let sp = maker.stack();
    maker.level = sp & 1 == 0;
    let roomy = maker.level && (sp >> 8 == 0x08 || sp >> 8 == DATA >> 8);
    let stairs = maker.random.one_in(16);
    let traps = !stairs && maker.random.one_in(2);
    maker.application(traps);
    TRAPS.for_each(|vector| maker.trap_handler(vector));
    for device in 0..8 {
        maker.handler(device, roomy, stairs, traps);
        maker.memory[2 * usize::from(device)] = maker.random.byte() | if maker.random.one_in(8) { 0 } else { 0x11 };
    }
    let machine = maker.start(sp, stairs, traps);
    let n = 40 + maker.random.below(120) as u32;
    let events = maker.events(n, stairs);
    Setup { machine, memory: maker.memory, events, n }
}

struct Maker {
    random: Random,
    memory: Vec<u8>,
    at: u16,
    /// SP is even, so that words can be pushed and pulled.
    level: bool,
}

impl Maker {
    fn word(&mut self, value: u16) {
        let at = usize::from(self.at & !1);
        self.memory[at..at + 2].copy_from_slice(&value.to_le_bytes());
        self.at = self.at.wrapping_add(2);
    }

    fn put(&mut self, instr: Instr) {
        self.word(encode(instr).expect("a lawful instruction"));
    }

    fn below(&mut self, limit: u8) -> u8 {
        self.random.below(limit.into()) as u8
    }

    fn push(&mut self, src: u8) {
        self.put(Instr::St { prpo: 1, dec: 1, inc: 0, wb: 0, src, dst: SP as u8 });
    }

    fn pull(&mut self, dst: u8) {
        self.put(Instr::Ld { prpo: 0, dec: 0, inc: 1, wb: 0, src: SP as u8, dst });
    }

    /// Where the stack starts: mostly #0800, else beside address 0, on the vectors or in the data; odd now and then.
    fn stack(&mut self) -> u16 {
        let sp = match self.random.below(12) {
            0..=1 => 2 * self.random.below(16) as u16,
            2..=3 => 0xFFC8 + 2 * self.random.below(28) as u16,
            4 => DATA + 0x40 + 2 * self.random.below(32) as u16,
            _ => 0x0800,
        };
        sp | u16::from(self.random.one_in(6))
    }

    /// An offset from an even address, that of a word mostly even itself.
    fn offset(&mut self, limit: u8, wb: u8) -> i16 {
        let odd = wb == 1 || self.random.one_in(24);
        i16::from(self.below(limit)) & if odd { -1 } else { -2 }
    }

    /// An instruction that works on R0 to R4 and the data, R3 and R4 being mostly kept as even pointers: a byte seldom
    /// moves its index.
    fn work(&mut self) {
        let (wb, src) = (self.below(2), self.below(5));
        let dst = if self.random.one_in(48) { 3 + self.below(2) } else { self.below(3) };
        let moves = if wb == 0 || self.random.one_in(24) { 2 } else { 1 };
        let (prpo, dec, inc) = (self.below(2), self.below(moves), self.below(moves));
        let instr = match self.random.below(14) {
            0..=4 => Instr::Alu { op: self.below(12), rc: self.below(2), wb, src, dst },
            5 => Instr::Unary { op: self.below(3), wb, dst },
            6 => Instr::MovImm { op: self.below(4), byte: self.random.byte(), dst },
            7 => Instr::Mov { wb, src, dst },
            8 => Instr::Swap { src: self.below(3), dst, ignored: wb },
            9 => Instr::Ld { prpo, dec, inc, wb, src: 3, dst },
            10 | 11 => Instr::St { prpo, dec, inc, wb, src, dst: 3 },
            12 => Instr::Ldr { offset: self.offset(60, wb), wb, src: 4, dst },
            _ => Instr::Str { offset: self.offset(60, wb), wb, src, dst: 4 },
        };
        self.put(instr);
    }

    /// The application: mostly work and CEX, with jumps inside it, calls, SETPRI and, in every other setup, SVC.
    fn application(&mut self, traps: bool) {
        self.at = CODE;
        let length = 8 + self.below(24);
        for i in 0..length {
            match self.random.below(40) {
                0..=4 => {
                    let (cond, if_true, if_false) = (self.below(16), self.below(5), self.below(5));
                    self.put(Instr::Cex { cond, if_true, if_false });
                }
                5 | 6 => {
                    let (cond, back) = (self.below(8), self.below(i + 1));
                    self.put(Instr::Branch { cond, offset: -i16::from(back) - 1 });
                }
                7 => {
                    let offset = self.below(4).into();
                    self.put(Instr::Bl { offset });
                }
                8 => {
                    let level = self.below(4) >> self.below(3);
                    self.put(Instr::SetPri { level });
                }
                9 | 10 if !self.level && !self.random.one_in(8) => self.work(),
                9 => self.push(1),
                10 => self.pull(1),
                11 => self.unwise(),
                12 => self.put(Instr::MovImm { op: 3, byte: (DATA >> 8) as u8, dst: 3 }),
                16 | 17 => {
                    // BIC $0: bit 0 of a pointer
                    let dst = 3 + self.below(2);
                    self.put(Instr::Alu { op: 10, rc: 1, wb: 0, src: 0, dst });
                }
                13..=15 if traps => self.svc(TRAPS.start),
                _ => self.work(),
            }
        }
        self.put(Instr::Branch { cond: 7, offset: -i16::from(length) - 1 });
    }

    /// SVC to one of the vectors from this one on.
    fn svc(&mut self, first: u8) {
        let vector = first + self.below(TRAPS.end - first);
        self.put(Instr::Svc { vector });
    }

    /// A handler of SVC and its vector. It works on the application's registers and data and restores nothing, may call
    /// SVC to a higher vector, and may return from a copy of its frame, with SP elsewhere than entry left it.
    fn trap_handler(&mut self, vector: u8) {
        self.at = HANDLERS + 0x100 * u16::from(vector);
        let entry = if self.random.one_in(6) { 0xFFFF } else { self.at };
        for _ in 0..self.below(6) {
            match self.random.below(8) {
                0 | 1 if vector + 1 < TRAPS.end => self.svc(vector + 1),
                2 => self.put(Instr::Cex { cond: 14, if_true: 1, if_false: 1 }),
                3 if self.random.one_in(8) => self.unwise(),
                _ => self.work(),
            }
        }
        if self.level && self.random.one_in(4) {
            for _ in 0..4 {
                self.put(Instr::Ldr { offset: 6, wb: 0, src: SP as u8, dst: 0 });
                self.push(0);
            }
        }
        self.put(Instr::MovImm { op: 2, byte: 0xFF, dst: PC as u8 });
        let priority = u16::from(vector - TRAPS.start + 2);
        self.at = 0xFFC0 + 4 * u16::from(vector);
        let psw = self.random.word() & 0xFF1F | priority << 5;
        self.word(psw);
        self.word(entry);
    }

    /// Flags, and seldom a sleep, an SVC, a return with nothing to return to, or any word at all.
    fn unwise(&mut self) {
        let flags = self.below(32);
        match self.random.below(24) {
            0 => self.put(Instr::SetCc { flags }),
            1 => {
                let vector = self.below(16);
                self.put(Instr::Svc { vector });
            }
            2 => self.put(Instr::MovImm { op: 2, byte: 0xFF, dst: PC as u8 }),
            3 => {
                let word = self.random.word();
                self.word(word);
            }
            4..=13 => self.put(Instr::ClrCc { flags }),
            _ => self.put(Instr::SetCc { flags: flags & 0x17 }),
        }
    }

    /// A handler and its vector. Where the stack has no room for registers it saves none and changes none.
    fn handler(&mut self, device: u8, roomy: bool, stairs: bool, traps: bool) {
        self.at = HANDLERS + 0x100 * u16::from(device);
        let entry = if self.random.one_in(6) { 0xFFFF } else { self.at };
        if roomy && !self.random.one_in(4) {
            self.saving_handler();
        } else {
            self.light_handler();
        }
        if traps && self.random.one_in(24) {
            self.svc(TRAPS.start);
        }
        self.put(Instr::Mov { wb: 0, src: LR as u8, dst: PC as u8 });
        let priority = if stairs { device.min(7) } else { self.below(8) };
        let psw = self.random.word() & 0xFF1F | u16::from(priority) << 5;
        self.at = 0xFFC0 + 4 * u16::from(device);
        self.word(psw);
        self.word(entry);
    }

    /// Saves R0 to R4, works on data of its own, may touch a device, and restores. One in eight is careless: it works
    /// on the application's code, does something unwise, forgets a register, works on after restoring, or stores into
    /// what lies above its frame.
    fn saving_handler(&mut self) {
        let careless = if self.random.one_in(8) { self.below(5) } else { 5 };
        (0..5).for_each(|r| self.push(r));
        if !self.random.one_in(4) {
            let byte = if careless == 0 { (CODE >> 8) as u8 } else { HANDLER_DATA };
            self.put(Instr::MovImm { op: 3, byte, dst: 3 });
            self.put(Instr::MovImm { op: 3, byte, dst: 4 });
        }
        for _ in 0..self.below(6) {
            match self.random.below(10) {
                0 => self.touch_device(),
                1 => self.put(Instr::Cex { cond: 14, if_true: 1, if_false: 1 }),
                2 => self.lower(),
                3 if careless == 1 => self.unwise(),
                _ => self.work(),
            }
        }
        (u8::from(careless == 2)..5).rev().for_each(|r| self.pull(r));
        if careless == 3 {
            self.work();
        }
        if careless == 4 {
            let (offset, src) = (8 + 2 * i16::from(self.below(4)), self.below(3));
            self.put(Instr::Str { offset, wb: 0, src, dst: SP as u8 });
        }
    }

    /// Changes no register: flags, comparisons, stores of the application's own registers, SETPRI downwards.
    fn light_handler(&mut self) {
        for _ in 0..self.below(5) {
            let (wb, src, dst) = (self.below(2), self.below(8), self.below(8));
            match self.random.below(8) {
                0 => self.lower(),
                1 => self.put(Instr::SetCc { flags: dst }),
                2 => self.put(Instr::Cex { cond: 15, if_true: 1, if_false: 0 }),
                3 => {
                    let offset = self.offset(8, wb);
                    self.put(Instr::Str { offset, wb, src, dst: 3 });
                }
                _ => self.put(Instr::Alu { op: 5, rc: 0, wb, src, dst }),
            }
        }
    }

    /// SETPRI to 1 or 2: upwards only for a handler of priority 1.
    fn lower(&mut self) {
        let level = 1 + self.below(8) / 7;
        self.put(Instr::SetPri { level });
    }

    fn touch_device(&mut self) {
        let wb = self.below(2);
        let offset = self.offset(16, wb);
        self.put(Instr::MovImm { op: 1, byte: 0, dst: 2 });
        if self.random.one_in(2) {
            self.put(Instr::Ldr { offset, wb, src: 2, dst: 0 });
        } else {
            self.put(Instr::Str { offset, wb, src: 0, dst: 2 });
        }
    }

    fn start(&mut self, sp: u16, stairs: bool, traps: bool) -> Machine {
        let highest = if traps { 2 } else { 7 };
        let priority = if stairs { 0 } else { u16::from(self.below(highest).min(self.below(highest))) };
        let mut m = Machine { psw: self.random.word() & 0xE017 | priority << 5, ..Machine::default() };
        for i in 0..6 {
            m.regs[i] = self.random.word();
        }
        for i in 3..5 {
            m.regs[i] = DATA + 2 * self.random.below(32) as u16 + u16::from(self.random.one_in(48));
        }
        m.regs[SP] = sp;
        m.regs[PC] = CODE;
        m.cex = if self.random.one_in(4) { self.random.word() & 0x7F } else { 0 };
        m.count = self.random.below(5) as u32;
        match self.random.below(64) {
            0 => m.psw |= 8,
            1 => m.halted = true,
            2 => m.lines = lines(&mut self.random),
            3 => m.psw |= 0x100,
            _ => {}
        }
        m
    }

    /// Events alone, in bursts, or one on each device after the other so that the stairs are climbed; no twins.
    fn events(&mut self, n: u32, stairs: bool) -> Vec<Event> {
        let mut events = Vec::new();
        let mut step = self.random.below(16) as u32;
        let mut device = 0;
        while step < n && events.len() < 40 {
            device = if stairs { (device + 1) % 8 } else { self.below(8) };
            events.push(Event { step, device, data: self.random.byte() });
            let far = if stairs || self.random.one_in(2) { 3 } else { 24 };
            step += self.random.below(far) as u32;
        }
        without_twins(events)
    }
}
