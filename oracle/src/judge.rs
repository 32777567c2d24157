//! The call `xm23_judge` of docs/CALLS.md: a run that is watched, which premises of 01 "Resumption" with 02 §13 it broke,
//! of each the first step that did and who ran then, and who wrote each byte last.

use crate::alu::SLP;
use crate::inputs::{input, Input, Kind};
use crate::isa::Instr;
use crate::machine::{even, events_of, refusal, vector, Act, Machine, Trace, DEVICES, INPUT, MEMORY, PC, SP};
use crate::programs::setup;
use crate::random::Random;

/// Bytes of the marks, of a finding, and of all findings; how many kinds there are.
pub const WRITERS: usize = MEMORY;
pub const FINDING: usize = 16;
pub const KINDS: usize = 9;
pub const FINDINGS: usize = FINDING * KINDS;
/// Devices' frames that are watched together.
pub const DEEP: usize = 256;
/// No vector: the application ran, or a fault halted.
pub const NO_VECTOR: u8 = 16;

/// Marks: who wrote a byte last.
pub const APPLICATION: u8 = 1;
pub const OTHER: u8 = 2;

/// How a rule is read: as it is written, or wrongly on purpose, so that a comparison can be tried.
#[derive(Clone, Copy, Debug, PartialEq, Eq)]
pub enum Reading {
    Written,
    /// The application's own frames must be restored too.
    OwnRestored,
    /// A handler chained onto a frame is judged by what it found, whoever's the frame was.
    ChainedFound,
    /// SP is not compared.
    NoStackPointer,
    /// R0 to R3 are compared.
    FourRegisters,
    /// A byte that a handler wrote once stays a handler's.
    ForeignStays,
    /// SVC's vector is not read.
    NoVector,
    /// The last breach of a kind is told.
    LastBreach,
    /// A step that is not taken is judged too.
    UntakenJudged,
    /// Frames open at the close are not told.
    OpenForgotten,
}

pub const WRONG: [Reading; 9] = [
    Reading::OwnRestored,
    Reading::ChainedFound,
    Reading::NoStackPointer,
    Reading::FourRegisters,
    Reading::ForeignStays,
    Reading::NoVector,
    Reading::LastBreach,
    Reading::UntakenJudged,
    Reading::OpenForgotten,
];

/// What the call is handed: a run's memory, record, events and n, the marks and the findings.
#[derive(Clone, Debug, Default, PartialEq, Eq)]
pub struct Case {
    pub input: Input,
    pub writers: Vec<u8>,
    pub findings: Vec<u8>,
}

impl Case {
    /// With buffers of the right lengths, not clear.
    pub fn of(input: Input) -> Case {
        Case { input, writers: vec![0xA5; WRITERS], findings: vec![0x5A; FINDINGS] }
    }

    /// 1 to 7 and 13 as a run has them, then 20.
    pub fn refusal(&self) -> Option<u8> {
        let Input { memory, record, events, n, .. } = &self.input;
        let lengths = (self.writers.len(), self.findings.len()) != (WRITERS, FINDINGS);
        refusal(memory, *n, record, events, &[]).or(lengths.then_some(20))
    }

    /// Judges in place; the reply.
    pub fn judge(&mut self) -> u64 {
        self.judge_as(Reading::Written).0
    }

    /// The same as a rule is read: the reply, and how many steps the application took.
    pub fn judge_as(&mut self, reading: Reading) -> (u64, u64) {
        if let Some(number) = self.refusal() {
            return (number.into(), 0);
        }
        let mut watch = Watch::new(Machine::from_record(&self.input.record), reading);
        let events = events_of(&self.input.events);
        let (mut reason, mut steps, mut application) = (0u64, 0u64, 0u64);
        while steps < self.input.n {
            let was = watch.m;
            let memory = &mut self.input.memory;
            let Some(trace) = watch.m.step(memory, &events) else { break };
            if watch.too_deep(&trace) {
                if reading == Reading::UntakenJudged {
                    watch.look(&trace, &was, memory);
                }
                watch.m = was;
                undo(&trace, memory);
                reason = 2;
                break;
            }
            watch.look(&trace, &was, memory);
            watch.mark(&trace, memory);
            watch.move_frames(&trace, &was, memory);
            steps += 1;
            application += u64::from(watch.application_ran);
        }
        if reason == 0 && watch.m.halted {
            reason = 1;
        }
        watch.close();
        self.input.record.copy_from_slice(&watch.m.to_record());
        self.writers.copy_from_slice(&watch.writers);
        self.findings = watch.findings.iter().flatten().copied().collect();
        let kinds = (0..KINDS).map(|k| u64::from(watch.findings[k][8]) << k).sum::<u64>();
        (reason << 8 | steps << 16 | kinds << 40, application)
    }
}

/// A case by seed: mostly an examination paper; now and then a buffer of a wrong length.
pub fn case(seed: u64) -> Case {
    let mut random = Random::new(seed);
    let mut case = Case::of(match seed % 10 {
        0 => input(Kind::Wild, seed),
        1 => input(Kind::Corner, seed),
        2 => input(Kind::Broken, seed),
        3 => input(Kind::Nest, seed),
        _ => setup(seed).into(),
    });
    if random.one_in(50) {
        let length = [0, 1, WRITERS - 1, WRITERS + 1][random.below(4) as usize];
        case.writers.resize(length, 7);
    }
    if random.one_in(50) {
        let length = [0, 1, FINDINGS - 1, FINDINGS + 1][random.below(4) as usize];
        case.findings.resize(length, 7);
    }
    case
}

/// Where a call on the case of a seed leaves something else than the oracle.
pub fn difference(call: fn(&mut Case) -> u64, seed: u64) -> Option<&'static str> {
    let (mut ours, mut theirs) = (case(seed), case(seed));
    let replies = [ours.judge(), call(&mut theirs)];
    let found = [
        (replies[0] != replies[1], "another reply"),
        (ours.input.memory != theirs.input.memory, "another memory"),
        (ours.input.record != theirs.input.record, "another record"),
        (ours.input.events != theirs.input.events, "other events"),
        (ours.writers != theirs.writers, "other marks"),
        (ours.findings != theirs.findings, "other findings"),
    ];
    found.into_iter().find_map(|(differs, what)| differs.then_some(what))
}

/// The kinds that a reply tells.
pub fn kinds_of(reply: u64) -> u64 {
    reply >> 40
}

/// The memory before a step and its events.
fn undo(trace: &Trace, memory: &mut [u8]) {
    for (&a, &byte) in trace.written.iter().zip(&trace.was).rev() {
        memory[usize::from(a)] = byte;
    }
    memory[..usize::from(DEVICES)].copy_from_slice(&trace.undelivered);
}

/// Who runs: the step count before the step that opened the frame, the vector by which it was entered, the vector of
/// the handler in it.
#[derive(Clone, Copy)]
struct Handler {
    opened: u32,
    vector: u8,
    running: u8,
}

/// R0 to R4, SP and the eight bytes of the frame that stands there.
#[derive(Clone, Copy)]
struct Held {
    regs: [u16; 5],
    sp: u16,
    bytes: [u8; 8],
}

struct Frame {
    own: bool,
    handler: Handler,
    held: Held,
}

struct Watch {
    reading: Reading,
    m: Machine,
    start: u32,
    frames: Vec<Frame>,
    /// The last step was the application's.
    application_ran: bool,
    writers: Vec<u8>,
    findings: [[u8; FINDING]; KINDS],
}

impl Watch {
    fn new(m: Machine, reading: Reading) -> Watch {
        let mut watch = Watch {
            reading,
            m,
            start: m.count,
            frames: Vec::new(),
            application_ran: false,
            writers: vec![0; WRITERS],
            findings: [[0; FINDING]; KINDS],
        };
        let detail = u8::from(m.psw & SLP != 0) | u8::from(m.halted) << 1 | u8::from(!m.lines.none()) << 2;
        if detail != 0 {
            watch.find(0, m.count, detail, m.regs[PC], watch.application());
        }
        watch
    }

    fn application(&self) -> Handler {
        Handler { opened: self.start, vector: NO_VECTOR, running: NO_VECTOR }
    }

    /// No device's frame is open.
    fn own(&self) -> bool {
        self.frames.iter().all(|f| f.own)
    }

    /// Device frames lie above the application's, so the newest tells who runs.
    fn runs(&self) -> Handler {
        self.frames.last().filter(|f| !f.own).map_or(self.application(), |f| f.handler)
    }

    /// The step would make a device's frame more than are watched.
    fn too_deep(&self, trace: &Trace) -> bool {
        let more = match trace.act {
            Act::Accept(_) | Act::Fault(_) => true,
            Act::Trap(_) => !self.own(),
            Act::Chain(_) => self.own() && !self.frames.is_empty(),
            _ => false,
        };
        more && self.frames.iter().filter(|f| !f.own).count() == DEEP
    }

    /// A finding, if it is the first of its kind.
    fn find(&mut self, kind: usize, step: u32, detail: u8, address: u16, by: Handler) {
        if self.findings[kind][8] == 1 && self.reading != Reading::LastBreach {
            return;
        }
        let mut bytes = [0; FINDING];
        bytes[..4].copy_from_slice(&step.to_le_bytes());
        bytes[4..8].copy_from_slice(&by.opened.to_le_bytes());
        (bytes[8], bytes[9]) = (1, detail);
        bytes[10..12].copy_from_slice(&address.to_le_bytes());
        (bytes[12], bytes[13]) = (by.vector, by.running);
        self.findings[kind] = bytes;
    }

    /// The breaches of a step that has been done, before its writes are marked and its frames moved.
    fn look(&mut self, trace: &Trace, was: &Machine, memory: &[u8]) {
        let (own, none, by) = (self.own(), self.frames.is_empty(), self.runs());
        let application = own && !matches!(trace.act, Act::Accept(_));
        self.application_ran = application;
        let (step, from) = (was.count, was.regs[PC]);
        match trace.act {
            Act::Fault(v) => self.find(1, step, v, from, by),
            Act::Halt(_) => self.find(1, step, NO_VECTOR, from, by),
            Act::Pull | Act::Chain(_) if none => self.find(2, step, 0, from, by),
            Act::Trap(v) if !own => self.find(3, step, v, from, by),
            _ => {}
        }
        if let (Act::Pull, Some(frame)) = (trace.act, self.frames.last()) {
            let changed = self.changed(frame, was, memory);
            if changed != 0 && (!frame.own || self.reading == Reading::OwnRestored) {
                self.find(5, step, changed, from, by);
            }
        }
        if application {
            if self.m.psw & SLP != 0 {
                self.find(6, step, 0, from, by);
            }
            let reads = self.reads(trace, was);
            if let Some(&a) = reads.iter().find(|&&a| a < DEVICES) {
                self.find(7, step, 0, a, by);
            }
            if let Some(&a) = reads.iter().find(|&&a| self.writers[usize::from(a)] == OTHER) {
                self.find(8, step, 0, a, by);
            }
        }
    }

    /// What a pull finds changed; it writes nothing, so memory is as its step's events left it.
    fn changed(&self, frame: &Frame, was: &Machine, memory: &[u8]) -> u8 {
        let registers = if self.reading == Reading::FourRegisters { 4 } else { 5 };
        let regs = (0..registers).filter(|&i| frame.held.regs[i] != was.regs[i]).map(|i| 1 << i).sum::<u8>();
        let sp = frame.held.sp != was.regs[SP] && self.reading != Reading::NoStackPointer;
        let bytes = frame.held.bytes != bytes_at(memory, frame.held.sp);
        regs | u8::from(sp) << 5 | u8::from(bytes) << 6
    }

    /// What a step of the application reads: SVC its vector, a return the eight bytes that it pulls or was about to
    /// pull, then the word fetched, then what is loaded; of a fault nothing.
    fn reads(&self, trace: &Trace, was: &Machine) -> Vec<u16> {
        let mut reads: Vec<u16> = match trace.act {
            Act::Fault(_) | Act::Halt(_) => return Vec::new(),
            Act::Trap(_) if self.reading == Reading::NoVector => Vec::new(),
            Act::Trap(v) => (0..4).map(|i| vector(v) + i).collect(),
            Act::Pull | Act::Chain(_) => eight(was.regs[SP]).to_vec(),
            _ => Vec::new(),
        };
        reads.extend(trace.fetched.iter().flat_map(|&a| [a, a + 1]));
        reads.extend(&trace.loaded);
        reads
    }

    /// What a step writes. Beside what its stores and pushes write: a status byte that a load touches, and that of an
    /// output device whose data byte is stored to.
    fn mark(&mut self, trace: &Trace, memory: &[u8]) {
        let mut written = trace.written.clone();
        written.extend(trace.loaded.iter().filter(|&&a| a < DEVICES && a & 1 == 0));
        if matches!(trace.act, Act::Execute(Instr::St { .. } | Instr::Str { .. })) {
            let shown = |a: &&u16| **a < DEVICES && **a & 1 == 1 && memory[usize::from(**a) - 1] & INPUT == 0;
            written.extend(trace.written.iter().filter(shown).map(|a| a - 1));
        }
        for a in written.into_iter().map(usize::from) {
            let stays = self.reading == Reading::ForeignStays && self.writers[a] == OTHER;
            self.writers[a] = if self.application_ran && !stays { APPLICATION } else { OTHER };
        }
    }

    /// R0 to R4, SP and the frame there, as the step left them.
    fn held(&self, memory: &[u8]) -> Held {
        let regs = std::array::from_fn(|i| self.m.regs[i]);
        Held { regs, sp: self.m.regs[SP], bytes: bytes_at(memory, self.m.regs[SP]) }
    }

    fn move_frames(&mut self, trace: &Trace, was: &Machine, memory: &[u8]) {
        let (own, held) = (self.own(), self.held(memory));
        match trace.act {
            Act::Accept(v) | Act::Fault(v) | Act::Trap(v) => {
                let own = own && matches!(trace.act, Act::Trap(_));
                let handler = Handler { opened: was.count, vector: v, running: v };
                self.frames.push(Frame { own, handler, held });
            }
            Act::Pull => drop(self.frames.pop()),
            Act::Chain(d) => {
                let found = self.reading == Reading::ChainedFound;
                let Some(frame) = self.frames.last_mut() else { return };
                if frame.own || found {
                    frame.held = held;
                }
                if frame.own {
                    frame.handler = Handler { opened: was.count, vector: d, running: d };
                }
                (frame.own, frame.handler.running) = (false, d);
            }
            _ => {}
        }
    }

    /// Frames that are open at the close: the oldest is told.
    fn close(&mut self) {
        if self.reading == Reading::OpenForgotten {
            return;
        }
        if let Some(by) = self.frames.first().map(|f| f.handler) {
            self.find(4, by.opened, 0, 0, by);
        }
    }
}

/// The eight bytes of a frame at SP: bit 0 of the address is dropped, and addresses wrap.
fn eight(sp: u16) -> [u16; 8] {
    std::array::from_fn(|i| even(sp).wrapping_add(i as u16))
}

fn bytes_at(memory: &[u8], sp: u16) -> [u8; 8] {
    eight(sp).map(|a| memory[usize::from(a)])
}
