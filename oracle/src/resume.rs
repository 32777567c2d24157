//! 01 "Depth", and "Resumption" as 02 §13 has it, judged along a run. Every moment of a run is the close of a shorter
//! one, so one walk judges them all: at each close stand the premises that the run so far has broken, and whether the
//! promise holds.

use crate::alu::SLP;
use crate::isa::Instr;
use crate::machine::{current, Act, Machine, Setup, Trace, SP};
use std::collections::HashSet;

/// The end of the device registers, and the start of the vectors.
const DEVICES: u16 = 16;
const VECTORS: u16 = 0xFFC0;

/// The premises of Resumption and of Depth.
#[derive(Clone, Copy, Debug, PartialEq, Eq)]
pub enum Premise {
    /// The start is awake.
    Awake,
    /// The start is not halted.
    NotHalted,
    /// At the start no line waits.
    NoLine,
    NoFault,
    /// No SVC at all: of Depth alone.
    NoSvc,
    /// No SVC while a device frame is open.
    DeviceSvc,
    /// No return, pulling or chaining, with no frame open.
    NoStrayReturn,
    /// Every device frame is closed.
    Closed,
    /// Every frame of the application is closed.
    OwnClosed,
    /// The return that closes a device frame finds R0 to R4 as entry left them.
    Registers,
    /// It finds SP as entry left it.
    StackPointer,
    /// It finds the frame's bytes as entry left them.
    FrameBytes,
    /// A device handler chained onto an SVC frame leaves R0 to R4 as it found them.
    ChainedRegisters,
    /// It leaves SP as it found it.
    ChainedStackPointer,
    /// It leaves the eight bytes that the return was about to pull as it found them.
    ChainedBytes,
    /// The application never sets SLP.
    NoSleep,
    /// It loads from no device register.
    DeviceLoad,
    /// It fetches from no device register.
    DeviceFetch,
    /// It loads from no byte last written by a handler or an entry.
    ForeignLoad,
    /// It fetches from no such byte.
    ForeignFetch,
    /// No byte of SVC's vector is such a byte.
    ForeignVector,
    /// None of the eight bytes that SVC's return pulls, or was about to pull, is a device register.
    DevicePull,
    /// None of them is last written by a handler or an entry.
    ForeignPull,
    /// No SETPRI in a handler.
    NoSetPri,
    /// Depth: each pull, of whatever frame, finds SP as entry left it.
    AnyStackPointer,
    /// Depth: each pull finds the frame's bytes as entry left them.
    AnyFrameBytes,
}

use Premise::*;

/// The premises of demand 3 across SVC, in its order.
pub const RESUMPTION: [Premise; 22] = [
    Awake,
    NotHalted,
    NoLine,
    NoFault,
    DeviceSvc,
    NoStrayReturn,
    Closed,
    OwnClosed,
    Registers,
    StackPointer,
    FrameBytes,
    ChainedRegisters,
    ChainedStackPointer,
    ChainedBytes,
    NoSleep,
    DeviceLoad,
    DeviceFetch,
    ForeignLoad,
    ForeignFetch,
    ForeignVector,
    DevicePull,
    ForeignPull,
];

/// The premises of 01 "Depth", in its order.
pub const DEPTH: [Premise; 6] = [NoFault, NoSvc, NoSetPri, NoStrayReturn, AnyStackPointer, AnyFrameBytes];

/// A set of broken premises.
#[derive(Clone, Copy, Debug, Default, PartialEq, Eq)]
pub struct Broken(u32);

impl Broken {
    fn add(&mut self, premise: Premise) {
        self.0 |= 1 << premise as u32;
    }

    fn add_if(&mut self, broken: bool, premise: Premise) {
        if broken {
            self.add(premise);
        }
    }

    /// Those of a list.
    fn among(self, list: &[Premise]) -> Broken {
        Broken(list.iter().fold(0, |set, p| set | self.0 & 1 << *p as u32))
    }

    pub fn none(self) -> bool {
        self.0 == 0
    }

    /// Whether this premise is broken and no other.
    pub fn only(self, premise: Premise) -> bool {
        self.0 == 1 << premise as u32
    }

    pub fn several(self) -> bool {
        self.0.count_ones() > 1
    }
}

/// How the open words are read. All but the first make the promise false, and the last makes it empty.
#[derive(Clone, Copy, Debug, PartialEq, Eq)]
pub enum Reading {
    Decided,
    /// A chaining return is allowed with no frame open.
    StrayChains,
    /// "As entry left them" is after the newest entry chained onto the frame.
    ChainedEntry,
    /// "Finding" is before the closing step's events.
    BeforeEvents,
    /// "Last written" is over the whole run.
    WholeRun,
    /// The step that chains onto an SVC frame is not counted as the application's return.
    ChainingUncounted,
    /// An SVC frame stays the application's after a chaining onto it.
    StaysOwn,
    /// A handler chained onto an SVC frame leaves things as SVC's entry left them.
    AsSvcLeft,
    /// The newest of several handlers chained onto an SVC frame leaves things as it found them.
    LastChaining,
    /// SVC's pushes are an entry's.
    PushesForeign,
}

/// What a run met.
#[derive(Clone, Copy, Debug, Default)]
pub struct Met {
    /// Device frames closed, and the application's.
    pub closed: u32,
    pub own_closed: u32,
    pub deepest: usize,
    pub chained: bool,
    /// SVC inside a handler of SVC.
    pub nested_svc: bool,
    /// A device's entry while an SVC frame is open.
    pub inside_svc: bool,
    /// A device chained onto an SVC frame, and its pull.
    pub onto_svc: bool,
    /// A return of SVC with SP elsewhere than entry left it.
    pub moved: bool,
    pub odd_sp: bool,
    /// A frame on both sides of address 0.
    pub across_zero: bool,
    /// A frame on device registers.
    pub on_devices: bool,
    /// A frame on vectors.
    pub on_vectors: bool,
    /// The application interrupted inside a CEX block.
    pub in_block: bool,
    /// SETPRI downwards by the application, and by a handler.
    pub lowered: bool,
    pub handler_lowered: bool,
}

/// A run that closes here.
#[derive(Clone, Copy, Debug)]
pub struct Close {
    /// The premises of Resumption that it breaks, and of Depth.
    pub resumption: Broken,
    pub depth: Broken,
    /// What Resumption promises holds.
    pub resumes: bool,
    /// At most 7 - p frames were open together.
    pub bounded: bool,
    /// p: the lowest current priority held while no frame was open.
    pub lowest: u16,
    pub met: Met,
}

/// R0 to R4, SP and eight bytes at one moment.
#[derive(Clone)]
struct Held {
    regs: [u16; 5],
    sp: u16,
    bytes: Vec<(u16, u8)>,
}

/// A frame that is open: whether it is the application's, what its entry left, and once a device was chained onto an
/// SVC frame, what that device's handler found.
struct Frame {
    own: bool,
    entry: Held,
    found: Option<Held>,
}

/// A run with its events beside the run without, which is advanced by one for each step of the application.
pub struct Walk<'a> {
    setup: &'a Setup,
    reading: Reading,
    m: Machine,
    memory: Vec<u8>,
    plain: Machine,
    plain_memory: Vec<u8>,
    frames: Vec<Frame>,
    /// Bytes last written by a handler or an entry; if `whole` is set, those of the whole run.
    foreign: HashSet<u16>,
    whole: bool,
    /// Bytes that are to be equal in the two runs and are not.
    apart: HashSet<u16>,
    broken: Broken,
    /// The two runs agreed before each of the application's steps, and after its last.
    before_each: bool,
    after_last: bool,
    /// The run without events took the same traps: step for step it did what the application did.
    same_steps: bool,
    /// A chaining onto an SVC frame: its outcome is read after the pull, which leaves no device frame open.
    to_be_read: bool,
    lowest: u16,
    met: Met,
}

/// The close of a setup's run under a reading.
pub fn judge(setup: &Setup, reading: Reading) -> Close {
    let mut walk = Walk::new(setup, reading);
    if reading == Reading::WholeRun {
        let mut first = Walk::new(setup, Reading::Decided);
        (0..setup.n).for_each(|_| first.step());
        (walk.foreign, walk.whole) = (first.foreign, true);
    }
    (0..setup.n).for_each(|_| walk.step());
    walk.close()
}

impl<'a> Walk<'a> {
    pub fn new(setup: &'a Setup, reading: Reading) -> Walk<'a> {
        let m = setup.machine;
        let mut broken = Broken::default();
        broken.add_if(m.psw & SLP != 0, Awake);
        broken.add_if(m.halted, NotHalted);
        broken.add_if(!m.lines.none(), NoLine);
        Walk {
            setup,
            reading,
            m,
            memory: setup.memory.clone(),
            plain: m,
            plain_memory: setup.memory.clone(),
            frames: Vec::new(),
            foreign: HashSet::new(),
            whole: false,
            apart: HashSet::new(),
            broken,
            before_each: true,
            after_last: true,
            same_steps: true,
            to_be_read: false,
            lowest: current(m.psw),
            met: Met::default(),
        }
    }

    /// The run as if it closed now.
    pub fn close(&self) -> Close {
        let mut broken = self.broken;
        broken.add_if(!self.own(), Closed);
        broken.add_if(self.frames.iter().any(|f| f.own), OwnClosed);
        Close {
            resumption: broken.among(&RESUMPTION),
            depth: broken.among(&DEPTH),
            resumes: self.before_each && self.after_last && self.same_steps && self.agrees(),
            bounded: self.met.deepest <= usize::from(7 - self.lowest),
            lowest: self.lowest,
            met: self.met,
        }
    }

    /// So much is broken that no later close can show anything.
    pub fn hopeless(&self) -> bool {
        self.broken.among(&RESUMPTION).several() && self.broken.among(&DEPTH).several()
    }

    /// No device frame is open.
    fn own(&self) -> bool {
        self.frames.iter().all(|f| f.own)
    }

    /// One step, if not halted.
    pub fn step(&mut self) {
        let was = self.m;
        let (own, agreed) = (self.own(), self.agrees());
        let devices: Vec<u8> = self.memory[..usize::from(DEVICES)].to_vec();
        let Some(trace) = self.m.step(&mut self.memory, &self.setup.events) else { return };
        let chains = matches!(trace.act, Act::Chain(_));
        let uncounted = chains && self.reading == Reading::ChainingUncounted;
        let application = own && !matches!(trace.act, Act::Accept(_)) && !uncounted;
        if application {
            self.before_each &= agreed;
            self.reads(&trace, &was);
        }
        self.acts(&trace, &was, application);
        if trace.act == Act::Pull {
            self.pulls(&was, &devices);
        }
        let pushes = matches!(trace.act, Act::Trap(_)) && self.reading == Reading::PushesForeign;
        self.writes(&trace.written, !application || pushes);
        if application {
            self.advances(&trace);
        }
        self.to_be_read |= application && chains;
        if application && !chains || self.to_be_read && self.own() {
            self.after_last = self.agrees();
            self.to_be_read = false;
        }
        if self.frames.is_empty() {
            self.lowest = self.lowest.min(current(self.m.psw));
        }
    }

    /// The run without events does one step for one of the application: the same, or a pull for a chaining.
    fn advances(&mut self, trace: &Trace) {
        let Some(plain) = self.plain.step(&mut self.plain_memory, &[]) else { return };
        plain.written.iter().for_each(|&a| self.look(a));
        self.same_steps &= match trace.act {
            Act::Chain(_) => plain.act == Act::Pull,
            act => plain.act == act,
        };
    }

    /// What the application's step loads and fetches, and whether it sets SLP. SVC counts as loading its vector, its
    /// return as loading the eight bytes that it pulls or was about to pull.
    fn reads(&mut self, trace: &Trace, was: &Machine) {
        for &a in &trace.loaded {
            self.broken.add_if(a < DEVICES, DeviceLoad);
            self.broken.add_if(self.foreign.contains(&a), ForeignLoad);
        }
        for a in trace.fetched.iter().flat_map(|&a| [a, a + 1]) {
            self.broken.add_if(a < DEVICES, DeviceFetch);
            self.broken.add_if(self.foreign.contains(&a), ForeignFetch);
        }
        match trace.act {
            Act::Trap(v) => {
                let vector = VECTORS + 4 * u16::from(v);
                let foreign = (vector..=vector + 3).any(|a| self.foreign.contains(&a));
                self.broken.add_if(foreign, ForeignVector);
            }
            Act::Pull | Act::Chain(_) if !self.frames.is_empty() => {
                for a in eight(was.regs[SP]) {
                    self.broken.add_if(a < DEVICES, DevicePull);
                    self.broken.add_if(self.foreign.contains(&a), ForeignPull);
                }
            }
            _ => {}
        }
        self.broken.add_if(self.m.psw & SLP != 0, NoSleep);
    }

    /// The step's act: frames that open, and what the premises forbid.
    fn acts(&mut self, trace: &Trace, was: &Machine, application: bool) {
        let stray = self.frames.is_empty();
        let own = self.own();
        match trace.act {
            Act::Fault(_) | Act::Halt(_) => self.broken.add(NoFault),
            Act::Trap(_) => {
                self.broken.add(NoSvc);
                self.broken.add_if(!own, DeviceSvc);
                self.met.nested_svc |= own && !stray;
            }
            Act::Pull => self.broken.add_if(stray, NoStrayReturn),
            Act::Chain(_) => {
                self.broken.add_if(stray && self.reading != Reading::StrayChains, NoStrayReturn);
                self.met.chained |= !stray;
                self.chains();
            }
            Act::Execute(Instr::SetPri { .. }) => {
                self.broken.add_if(!stray, NoSetPri);
                let lowered = current(self.m.psw) < current(was.psw);
                self.met.lowered |= application && lowered;
                self.met.handler_lowered |= !application && lowered;
            }
            _ => {}
        }
        if matches!(trace.act, Act::Accept(_) | Act::Fault(_) | Act::Trap(_)) {
            self.met.in_block |= stray && was.cex & 0x3F != 0;
            self.met.inside_svc |= own && !stray && matches!(trace.act, Act::Accept(_));
            self.opens(trace, own && matches!(trace.act, Act::Trap(_)));
        }
    }

    /// An entry that pushes opens a frame: its bytes are the eight that it pushed. SVC's is the application's if no
    /// device frame is open.
    fn opens(&mut self, trace: &Trace, own: bool) {
        let at = &trace.written;
        self.met.odd_sp |= self.m.regs[SP] & 1 == 1;
        self.met.on_devices |= at.iter().any(|&a| a < DEVICES);
        self.met.on_vectors |= at.iter().any(|&a| a >= VECTORS);
        self.met.across_zero |= at.iter().any(|&a| a < DEVICES) && at.iter().any(|&a| a >= VECTORS);
        let entry = self.held(at.iter().copied());
        self.frames.push(Frame { own, entry, found: None });
        self.met.deepest = self.met.deepest.max(self.frames.len());
    }

    /// R0 to R4, SP and the bytes at these addresses, as this step leaves them.
    fn held(&self, at: impl Iterator<Item = u16>) -> Held {
        let regs = [0, 1, 2, 3, 4].map(|i| self.m.regs[i]);
        Held { regs, sp: self.m.regs[SP], bytes: at.map(|a| (a, self.memory[usize::from(a)])).collect() }
    }

    /// A chained entry keeps its frame open, as the entry that pushed it left it. An SVC frame counts as a device's
    /// from here to the pull, as the chained handler finds it: the chaining step changes none of R0 to R4, SP and
    /// memory.
    fn chains(&mut self) {
        let found = self.held(eight(self.m.regs[SP]));
        let Some(mut frame) = self.frames.pop() else { return };
        match self.reading {
            Reading::ChainedEntry => frame.entry = self.held(frame.entry.bytes.iter().map(|b| b.0)),
            Reading::StaysOwn if frame.own => {}
            Reading::AsSvcLeft if frame.own => frame.found = Some(frame.entry.clone()),
            Reading::LastChaining if frame.own || frame.found.is_some() => frame.found = Some(found),
            _ if frame.own => frame.found = Some(found),
            _ => {}
        }
        frame.own &= self.reading == Reading::StaysOwn;
        self.frames.push(frame);
    }

    /// A return that pulls closes the newest frame. It writes nothing, so the memory is as its step's events left it.
    /// SVC's handlers need restore nothing.
    fn pulls(&mut self, was: &Machine, devices: &[u8]) {
        let Some(frame) = self.frames.pop() else { return };
        let memory = &self.memory;
        let finds = |held: &Held, early: bool| {
            let found = |a: u16| match devices.get(usize::from(a)) {
                Some(&byte) if early => byte,
                _ => memory[usize::from(a)],
            };
            held.bytes.iter().all(|&(a, byte)| found(a) == byte)
        };
        self.broken.add_if(frame.entry.sp != was.regs[SP], AnyStackPointer);
        self.broken.add_if(!finds(&frame.entry, false), AnyFrameBytes);
        if frame.own {
            self.met.own_closed += 1;
            self.met.moved |= frame.entry.sp != was.regs[SP];
            return;
        }
        let (held, premises) = match &frame.found {
            Some(found) => (found, [ChainedRegisters, ChainedStackPointer, ChainedBytes]),
            None => (&frame.entry, [Registers, StackPointer, FrameBytes]),
        };
        let kept = finds(held, self.reading == Reading::BeforeEvents);
        self.broken.add_if(held.regs != was.regs[..5], premises[0]);
        self.broken.add_if(held.sp != was.regs[SP], premises[1]);
        self.broken.add_if(!kept, premises[2]);
        self.met.closed += 1;
        self.met.onto_svc |= frame.found.is_some();
    }

    fn writes(&mut self, written: &[u16], foreign: bool) {
        for &a in written {
            if !self.whole && foreign {
                self.foreign.insert(a);
            } else if !self.whole {
                self.foreign.remove(&a);
            }
            self.look(a);
        }
    }

    /// Looks again at a byte that either run has written.
    fn look(&mut self, a: u16) {
        let same = self.memory[usize::from(a)] == self.plain_memory[usize::from(a)];
        if same || a < DEVICES || self.foreign.contains(&a) {
            self.apart.remove(&a);
        } else {
            self.apart.insert(a);
        }
    }

    /// PC, R0 to R6, PSW, CEX and the application's bytes are those of the run without events.
    fn agrees(&self) -> bool {
        let state = |m: &Machine| (m.regs, m.psw, m.cex);
        state(&self.m) == state(&self.plain) && self.apart.is_empty()
    }
}

/// The eight bytes that a pull takes: a word access drops bit 0 of its address, and addresses wrap.
fn eight(sp: u16) -> impl Iterator<Item = u16> {
    (0..8).map(move |i| (sp & !1).wrapping_add(i))
}
