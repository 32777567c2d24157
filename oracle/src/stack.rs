//! 02 §9: the stack bytes that a paper will need, by trying every choice of devices; and what 02 claims of them, judged
//! along a run.

use crate::assemble::assemble;
use crate::machine::{current, vector, Act, Event, Machine, Setup, LR, PC, SP, VECTORS};
use crate::random::Random;
use crate::resume::{Reading, Walk};

/// What a call is handed.
#[derive(Clone, Debug, PartialEq, Eq)]
pub struct Stack {
    pub vectors: Vec<u8>,
    pub devices: u8,
    pub uses: Vec<u8>,
    pub priority: u32,
}

fn two(bytes: &[u8], at: usize) -> u32 {
    u32::from(bytes[at]) | u32::from(bytes[at + 1]) << 8
}

impl Stack {
    /// The priority in the vector of device d: bits 7-5 of its PSW.
    fn level(&self, d: usize) -> u32 {
        two(&self.vectors, 4 * d) >> 5 & 7
    }

    fn stack_use(&self, d: usize) -> u32 {
        two(&self.uses, 2 * d)
    }

    /// The reply: 16, or the bytes in bits 31-8.
    pub fn reply(&self) -> u32 {
        let lengths = self.vectors.len() == 64 && self.uses.len() == 16;
        if !lengths || self.priority > 7 || (0..8).any(|d| self.stack_use(d) > 1024) {
            return 16;
        }
        self.bytes() << 8
    }

    /// The largest total over the choices of these devices whose priorities, in some order, rise strictly above p.
    pub fn bytes(&self) -> u32 {
        let total = |choice: u8| {
            let chosen: Vec<usize> = (0..8).filter(|d| choice >> d & 1 == 1).collect();
            let mut levels: Vec<u32> = chosen.iter().map(|&d| self.level(d)).collect();
            levels.sort_unstable();
            let rises = levels.windows(2).all(|w| w[0] < w[1]) && levels.iter().all(|&l| l > self.priority);
            rises.then(|| chosen.iter().map(|&d| 8 + self.stack_use(d)).sum())
        };
        let choices = (0..=255).filter(|choice| choice & !self.devices == 0);
        choices.filter_map(total).max().expect("the empty choice")
    }

    /// A call at random: priorities that often meet, uses up to the limit and, now and then, past it.
    pub fn random(random: &mut Random) -> Stack {
        let few = random.one_in(2);
        let length = |random: &mut Random, right: usize| {
            if random.one_in(40) {
                random.below(2 * right as u64 + 2) as usize
            } else {
                right
            }
        };
        let mut vectors: Vec<u8> = (0..length(random, 64)).map(|_| random.byte()).collect();
        if few {
            let levels = [random.byte(), random.byte()].map(|byte| byte & 0xE0);
            vectors.iter_mut().step_by(4).for_each(|byte| *byte = levels[usize::from(*byte & 1)]);
        }
        let size = length(random, 16);
        let mut uses = Vec::new();
        while uses.len() < size {
            let most = [3, 100, 1025, 1025][random.below(4) as usize];
            let value = if random.one_in(150) { 1024 + random.below(3) as u16 } else { random.below(most) as u16 };
            uses.extend(value.to_le_bytes());
        }
        uses.truncate(size);
        let most = [3, 8][random.below(2) as usize];
        let priority = if random.one_in(20) { random.word().into() } else { random.below(most) as u32 };
        Stack { vectors, devices: random.byte(), uses, priority }
    }
}

/// How far x lies below y: downwards, modulo 65,536; as plain numbers, below 0 where x lies above; or as a signed number
/// of 16 bits.
#[derive(Clone, Copy, Debug, PartialEq, Eq)]
pub enum Below {
    Wrapping,
    Plain,
    Signed,
}

impl Below {
    fn far(self, y: u16, x: u16) -> i64 {
        match self {
            Below::Wrapping => i64::from(y.wrapping_sub(x)),
            Below::Plain => i64::from(y) - i64::from(x),
            Below::Signed => i64::from(y.wrapping_sub(x) as i16),
        }
    }
}

/// A run judged: whether it meets the premises, and how far below the stack reached.
#[derive(Clone, Copy, Debug, Default, PartialEq, Eq)]
pub struct Judged {
    pub meets: bool,
    /// The furthest of the handlers' SP and the pushed bytes.
    pub furthest: i64,
    pub nested: usize,
    pub chained: bool,
}

/// The handler that runs in an open frame, and SP as its entry left it.
#[derive(Clone, Copy)]
struct Handler {
    device: u8,
    left: u16,
}

/// Judges a run by the figures of a call.
pub fn judge(setup: &Setup, call: &Stack, below: Below) -> Judged {
    let mut m: Machine = setup.machine;
    let mut memory = setup.memory.clone();
    let mut depth = Walk::new(setup, Reading::Decided);
    let mut handlers: Vec<Handler> = Vec::new();
    let mut opened = m.regs[SP];
    let mut judged = Judged { meets: call.reply() & 0xFF == 0, ..Judged::default() };
    let unaltered = |memory: &[u8]| memory[usize::from(VECTORS)..] == call.vectors[..];
    judged.meets &= unaltered(&memory);
    for _ in 0..setup.n {
        let was = m;
        let Some(trace) = m.step(&mut memory, &setup.events) else { break };
        depth.step();
        judged.meets &= unaltered(&memory);
        match (trace.act, handlers.last().copied()) {
            (Act::Accept(d), newest) => {
                if newest.is_none() {
                    opened = was.regs[SP];
                }
                judged.meets &= was.regs[SP] % 2 == 0 && call.devices >> d & 1 == 1;
                handlers.push(Handler { device: d, left: m.regs[SP] });
                judged.nested = judged.nested.max(handlers.len());
                let pushed = trace.written.iter().map(|&a| below.far(opened, a));
                judged.furthest = judged.furthest.max(pushed.max().unwrap_or(0));
            }
            (Act::Chain(d), Some(h)) => {
                judged.meets &= was.regs[SP] == h.left && call.devices >> d & 1 == 1;
                handlers.pop();
                handlers.push(Handler { device: d, left: m.regs[SP] });
                judged.chained = true;
            }
            (Act::Pull, Some(h)) => {
                judged.meets &= was.regs[SP] == h.left;
                handlers.pop();
            }
            (_, Some(h)) => {
                let most = i64::from(call.stack_use(usize::from(h.device)));
                judged.meets &= below.far(h.left, m.regs[SP]) <= most;
            }
            (_, None) => {}
        }
        if !handlers.is_empty() {
            judged.furthest = judged.furthest.max(below.far(opened, m.regs[SP]));
        }
    }
    let close = depth.close();
    judged.meets &= close.depth.none() && u32::from(close.lowest) >= call.priority;
    judged
}

/// A run at random with handlers that push and pull, some of which, if `above`, also read their frame by LD SP+ and put SP
/// back; and the call that asks for its figure.
pub fn random_run(random: &mut Random, above: bool) -> (Setup, Stack) {
    let mut source = String::from(" ORG $1000\nLOOP ADD #1,R0\n BRA LOOP\n");
    let mut uses = Vec::new();
    for d in 0..8 {
        let words = [0, 0, 1, 1, 2, 3][random.below(6) as usize];
        source += &format!("H{d} ADD #0,R0\n");
        source += &" ST R0,-SP\n".repeat(words);
        source += &" ADD #1,R1\n".repeat(random.below(5) as usize);
        source += &" LD SP+,R0\n".repeat(words);
        if above {
            let read = [0, 1, 2, 4][random.below(4) as usize];
            source += &(" LD SP+,R0\n".repeat(read) + &" SUB #2,SP\n".repeat(read));
        }
        source += [" MOV LR,PC\n", " ADD #1,R0\n MOV LR,PC\n"][random.below(2) as usize];
        let spare = if random.one_in(12) { random.below(4) as u16 } else { 0 };
        uses.extend((2 * words as u16 + spare).to_le_bytes());
    }
    if random.one_in(10) {
        source = source.replacen(" ADD #1,R1\n", " SUB #1,SP\n ADD #1,SP\n", 1);
    }
    let program = assemble(&(source + " END"));
    let mut memory = program.memory();
    for d in 0..8u8 {
        let (psw, entry) = ((random.below(8) as u16) << 5, program.names[&format!("H{d}")] as u16);
        let at = usize::from(vector(d));
        memory[at..at + 2].copy_from_slice(&psw.to_le_bytes());
        memory[at + 2..at + 4].copy_from_slice(&entry.to_le_bytes());
        memory[2 * usize::from(d)] = 0x11;
    }
    let mut machine = Machine { psw: (random.below(3) as u16) << 5, ..Machine::default() };
    machine.regs[LR] = 0xFFFF;
    machine.regs[SP] = [0x0800, 0x0800, 0x0801, 0x0030][random.below(4) as usize];
    machine.regs[PC] = 0x1000;
    let few = random.byte() & random.byte();
    let devices = if random.one_in(4) { random.byte() } else { few };
    let n = 20 + random.below(40) as u32;
    let mut events = Vec::new();
    for step in 0..n {
        for device in 0..8 {
            if few >> device & 1 == 1 && random.one_in(12) {
                events.push(Event { step, device, data: 0 });
            }
        }
    }
    let priority = current(machine.psw).into();
    let vectors = memory[usize::from(VECTORS)..].to_vec();
    let call = Stack { vectors, devices, uses, priority };
    (Setup { machine, memory, events, n }, call)
}
