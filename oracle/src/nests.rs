//! Random programs that open frames in frames: traps whose handlers lower their priority and trap again, faults, lines
//! and chained lines among them, returns, and returns with none open, which pull a frame that lies ready above SP.

use crate::inputs::Input;
use crate::isa::{encode, Instr};
use crate::machine::{event_record, without_twins, Event, Lines, Machine, MEMORY, PC, SP};
use crate::random::Random;

const CODE: u16 = 0x1000;
const HANDLERS: u16 = 0x2000;
/// Where SP starts; R4 keeps it, so that a handler can put SP back.
const STACK: u16 = 0x0800;
const KEPT: u8 = 4;
/// How many frames lie ready above SP, and words in the application.
const READY: u16 = 40;
const WORDS: u16 = 24;

/// An input with a nest, and no log.
pub fn nest(random: &mut Random) -> Input {
    let n = if random.one_in(6) { random.below(600) } else { random.below(90) };
    let mut m = Machine { count: random.below(3) as u32, ..Machine::default() };
    m.regs = std::array::from_fn(|_| random.word());
    (m.regs[usize::from(KEPT)], m.regs[SP]) = (STACK, STACK);
    m.regs[PC] = if random.one_in(8) { 0xFFFF } else { CODE };
    m.psw = [0, 0, 0, 0x0100, 0x2020, 0x0008][random.below(6) as usize] | (random.below(3) as u16) << 5;
    m.lines = Lines(std::array::from_fn(|_| u8::from(random.one_in(10))));
    let record = m.to_record().to_vec();
    let mut input = Input { memory: vec![0; MEMORY], record, events: events(random, n), n, ..Input::default() };
    for device in 0..8 {
        input.memory[2 * device] = [0x11, 0x11, 0x13, 0x10][random.below(4) as usize];
    }
    (0..READY).for_each(|i| ready(&mut input, random, STACK + 8 * i));
    (0..WORDS).for_each(|i| input.put_word(CODE + 2 * i, application(random)));
    let back = Instr::Branch { cond: 7, offset: -(WORDS as i16) - 1 };
    input.put_word(CODE + 2 * WORDS, encode(back).expect("a lawful instruction"));
    (0..16).for_each(|v| handler(&mut input, random, v));
    input
}

/// Events in bursts, so that a line waits where a handler returns.
fn events(random: &mut Random, n: u64) -> Vec<u8> {
    let (mut step, mut list) = (random.below(8), Vec::new());
    while step < n && list.len() < 40 {
        list.push(Event { step: step as u32, device: random.below(8) as u8, data: random.byte() });
        let far = if random.one_in(3) { 14 } else { 3 };
        step += random.below(far);
    }
    without_twins(list).into_iter().flat_map(event_record).collect()
}

/// A frame that a return with none open pulls: CEX, PSW, LR and PC from SP upwards.
fn ready(input: &mut Input, random: &mut Random, at: u16) {
    let pc = if random.one_in(6) { 0xFFFF } else { CODE + 2 * random.below(u64::from(WORDS)) as u16 };
    let words = [0, (random.below(4) as u16) << 5, 0xFFFF, pc];
    words.into_iter().enumerate().for_each(|(i, word)| input.put_word(at + 2 * i as u16, word));
}

/// What the application does: traps, faults, a return with none open, and other things.
fn application(random: &mut Random) -> u16 {
    match random.below(12) {
        0..=3 => trap(random),
        4 => 0x4E00, // illegal
        5 if random.one_in(2) => stray(),
        _ => other(random),
    }
}

/// A handler and its vector: it may put SP back and lower its priority, traps or faults, and returns.
fn handler(input: &mut Input, random: &mut Random, v: u16) {
    let mut at = HANDLERS + 0x40 * v;
    let mut put = |word: u16| {
        input.put_word(at, word);
        at += 2;
    };
    if random.one_in(6) {
        put(encode(Instr::Mov { wb: 0, src: KEPT, dst: SP as u8 }).expect("a lawful instruction"));
    }
    if random.one_in(2) {
        put(encode(Instr::SetPri { level: random.below(2) as u8 }).expect("a lawful instruction"));
    }
    for _ in 0..random.below(4) {
        put(match random.below(8) {
            0..=2 => trap(random),
            3 => 0x4E00, // illegal
            _ => other(random),
        });
    }
    put(0x4C2F); // MOV LR,PC
    input.put_word(0xFFC0 + 4 * v, (random.below(8) as u16) << 5);
    input.put_word(0xFFC2 + 4 * v, HANDLERS + 0x40 * v);
}

fn trap(random: &mut Random) -> u16 {
    encode(Instr::Svc { vector: random.below(16) as u8 }).expect("a lawful instruction")
}

/// PC becomes #FFFF: a return, wherever it stands.
fn stray() -> u16 {
    encode(Instr::MovImm { op: 2, byte: 0xFF, dst: PC as u8 }).expect("a lawful instruction")
}

/// An instruction between entries and returns; one that skips, or sleeps until a line wakes it, among them.
fn other(random: &mut Random) -> u16 {
    let (byte, dst) = (random.byte(), random.below(4) as u8);
    let instr = match random.below(10) {
        0..=4 => Instr::Alu { op: byte % 12, rc: 1, wb: byte >> 4 & 1, src: byte >> 5, dst },
        5 | 6 => Instr::SetPri { level: byte % 3 },
        7 => Instr::Cex { cond: byte % 16, if_true: byte >> 4 & 3, if_false: byte >> 6 & 3 },
        8 if random.one_in(4) => Instr::SetCc { flags: 8 },
        _ => Instr::MovImm { op: byte % 4, byte, dst },
    };
    encode(instr).expect("a lawful instruction")
}
