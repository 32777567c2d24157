//! Random programs that write to a screen: stores of bytes and of words to data and status of every device, by the
//! application and by handlers, devices of both directions with ENA set and clear, events on them, and a stack that may
//! lie over them.

use crate::inputs::Input;
use crate::isa::{encode, Instr};
use crate::machine::{event_record, without_twins, Event, Machine, MEMORY, PC, SP};
use crate::random::Random;

const CODE: u16 = 0x1000;
const HANDLERS: u16 = 0x2000;
/// R0 points at device 0, R4 at a device or near one; R1 to R3 hold what is stored.
const BASE: u8 = 0;
const POINTER: u8 = 4;

/// An input with a screen, and no log.
pub fn screen(random: &mut Random) -> Input {
    let n = random.below(60);
    let mut m = Machine { count: random.below(4) as u32, ..Machine::default() };
    if random.one_in(8) {
        m.count = u32::MAX - n as u32 - random.below(2) as u32;
    }
    m.regs = std::array::from_fn(|_| random.word());
    (m.regs[usize::from(BASE)], m.regs[usize::from(POINTER)]) = (0, random.below(18) as u16);
    (m.regs[PC], m.regs[SP]) = (CODE, if random.one_in(5) { 2 * random.below(16) as u16 } else { 0x0800 });
    m.psw = if random.one_in(16) { 0x0100 } else { 0 } | (random.below(3) as u16) << 5;
    m.cex = if random.one_in(6) { random.word() & 0x7F } else { 0 };
    let record = m.to_record().to_vec();
    let events = events(random, m.count, n);
    let mut input = Input { memory: vec![0; MEMORY], record, events, n, ..Input::default() };
    for device in 0..8 {
        input.memory[2 * device] = [0x10, 0x11, 0x10, 0x11, 0x00, 0x13, 0x15, 0x1D][random.below(8) as usize];
        input.memory[2 * device + 1] = random.byte();
    }
    application(&mut input, random);
    (0..16).for_each(|v| handler(&mut input, random, v));
    input
}

/// Events in bursts, on any device, from the run's first step to its last.
fn events(random: &mut Random, count: u32, n: u64) -> Vec<u8> {
    let mut step = u64::from(count) + random.below(6);
    let mut list = Vec::new();
    while step < u64::from(count) + n && list.len() < 24 {
        let event = Event { step: step as u32, device: random.below(8) as u8, data: random.byte() };
        list.push(event);
        let far = if random.one_in(2) { 2 } else { 9 };
        step += random.below(far);
    }
    without_twins(list).into_iter().flat_map(event_record).collect()
}

/// A loop, half of it stores to devices.
fn application(input: &mut Input, random: &mut Random) {
    let length = 4 + random.below(14) as u16;
    for i in 0..length {
        let word = if random.one_in(2) { store(random) } else { other(random) };
        input.put_word(CODE + 2 * i, word);
    }
    let back = Instr::Branch { cond: 7, offset: -(length as i16) - 1 };
    input.put_word(CODE + 2 * length, encode(back).expect("a lawful instruction"));
}

/// A handler that stores to devices and returns, and its vector.
fn handler(input: &mut Input, random: &mut Random, v: u16) {
    let at = HANDLERS + 0x40 * v;
    let many = random.below(4) as u16;
    (0..many).for_each(|i| input.put_word(at + 2 * i, store(random)));
    input.put_word(at + 2 * many, 0x4C2F); // MOV LR,PC
    input.put_word(0xFFC0 + 4 * v, (random.below(8) as u16) << 5);
    input.put_word(0xFFC2 + 4 * v, at);
}

/// A store to a device: of a byte or a word, to data, to status, or seldom to an odd word.
fn store(random: &mut Random) -> u16 {
    let (device, src) = (random.below(8) as i16, 1 + random.below(3) as u8);
    let mut bit = || random.below(2) as u8;
    let (prpo, dec, inc, wb) = (bit(), bit(), bit(), bit());
    let instr = match random.below(10) {
        0..=3 => Instr::Str { offset: 2 * device + 1, wb: 1, src, dst: BASE },
        4 | 5 => Instr::Str { offset: 2 * device, wb: 0, src, dst: BASE },
        6 => Instr::Str { offset: 2 * device, wb: 1, src, dst: BASE },
        7 if random.one_in(4) => Instr::Str { offset: 2 * device + 1, wb: 0, src, dst: BASE },
        _ => Instr::St { prpo, dec, inc, wb, src, dst: POINTER },
    };
    encode(instr).expect("a lawful instruction")
}

/// What a program does between its stores: new bytes, loads of devices, skips, a pointer back at the devices, traps.
fn other(random: &mut Random) -> u16 {
    let (byte, dst) = (random.byte(), 1 + random.below(3) as u8);
    let instr = match random.below(12) {
        0..=3 => Instr::MovImm { op: random.below(4) as u8, byte, dst },
        4 => Instr::MovImm { op: 1, byte: byte % 18, dst: POINTER },
        5 => Instr::Ldr { offset: (byte % 16).into(), wb: 1, src: BASE, dst },
        6 => Instr::Ldr { offset: (byte % 16 & !1).into(), wb: 0, src: BASE, dst },
        7 | 8 => Instr::Cex { cond: byte % 16, if_true: byte >> 4 & 3, if_false: byte >> 6 & 3 },
        9 => Instr::Alu { op: byte % 12, rc: 1, wb: byte >> 4 & 1, src: byte >> 5, dst },
        10 if random.one_in(3) => Instr::Svc { vector: byte % 16 },
        _ => Instr::SetCc { flags: byte & 7 },
    };
    encode(instr).expect("a lawful instruction")
}
