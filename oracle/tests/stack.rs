//! The call for stack bytes of libxm23.a beside the oracle, which tries every choice of devices; and 02 §9's claim
//! along runs.

#[path = "library/stack.rs"]
mod library;

use oracle::assemble::assemble;
use oracle::machine::{vector, Event, Machine, Setup, LR, PC, SP, VECTORS};
use oracle::random::Random;
use oracle::stack::{judge, random_run, Below, Stack};

/// How many calls at random the gate makes, each with every byte of devices for its vectors, uses and priority.
const CALLS: u64 = 400;

/// How many runs at random it judges.
const RUNS: u64 = 6_000;

#[test]
fn every_byte_of_devices() {
    let (mut random, mut refused, mut figures) = (Random::new(9), 0, 0);
    for _ in 0..CALLS {
        let mut call = Stack::random(&mut random);
        for devices in 0..=255 {
            call.devices = devices;
            let reply = call.reply();
            assert_eq!(library::stack(&call), reply, "{call:?}");
            refused += u32::from(reply == 16);
            figures += u32::from(reply > 255);
        }
    }
    assert!(refused > 256 * 20 && figures > 256 * 150, "{refused} refused, {figures} figures");
}

/// Four devices: priorities 0, 2, 2 and 5, uses 6, 10, 20 and 0.
fn call() -> Stack {
    let mut vectors = vec![0; 64];
    let mut uses = vec![0; 16];
    for (d, (level, bytes)) in [(0, 6), (2, 10), (2, 20), (5, 0)].into_iter().enumerate() {
        vectors[4 * d] = level << 5;
        uses[2 * d] = bytes;
    }
    Stack { vectors, devices: 0x0F, uses, priority: 0 }
}

/// Sentences of 02 §9 that a person could misread.
#[test]
fn readings() {
    type Change = fn(&mut Stack);
    #[rustfmt::skip]
    let cases: [(&str, u32, Change); 22] = [
        ("the dearest of a priority, not the first, not both", 36 << 8, |_| ()),
        ("above p, not from p on", 8 << 8, |c| c.priority = 2),
        ("priority 0 is above no p", 0, |c| c.devices = 1),
        ("no device", 0, |c| c.devices = 0),
        ("devices that are not chosen", 18 << 8, |c| c.devices = 2),
        ("p 7", 0, |c| c.priority = 7),
        ("p 8", 16, |c| c.priority = 8),
        ("the greatest p", 16, |c| c.priority = u32::MAX),
        ("256 is no 0", 16, |c| c.priority = 256),
        ("only bits 7-5 of the PSW", 36 << 8, |c| c.vectors[8] |= 0x1F),
        ("the high byte of the PSW is not looked at", 36 << 8, |c| c.vectors[9] = 0xFF),
        ("nor are vectors 8 to 15", 36 << 8, |c| c.vectors[32..].fill(0xFF)),
        ("a use of 1,024", (1032 + 8) << 8, |c| c.uses[2..4].copy_from_slice(&[0, 4])),
        ("a use of 1,025", 16, |c| c.uses[2..4].copy_from_slice(&[1, 4])),
        ("of a device not chosen too", 16, |c| c.uses[14..].copy_from_slice(&[1, 4])),
        ("of one that p leaves out too", 16, |c| { c.priority = 7; c.uses[1] = 0xFF }),
        ("odd uses", 37 << 8, |c| c.uses[4] = 21),
        ("vectors too short", 16, |c| c.vectors.truncate(63)),
        ("vectors too long", 16, |c| c.vectors.push(0)),
        ("no uses", 16, |c| c.uses.clear()),
        ("uses too long", 16, |c| c.uses.push(0)),
        ("the most", 7224 << 8, |c| {
            c.devices = 0xFF;
            (0..8).for_each(|d| c.vectors[4 * d] = (d as u8) << 5);
            c.uses = [0, 4].repeat(8);
        }),
    ];
    for (name, expected, change) in cases {
        let mut call = call();
        change(&mut call);
        assert_eq!((library::stack(&call), call.reply()), (expected, expected), "{name}");
    }
}

/// Runs that meet the premises stay within the figure; some meet it exactly.
#[test]
fn no_run_passes_the_figure() {
    let mut random = Random::new(11);
    let (mut met, mut exact, mut nested, mut chained) = (0, 0, 0, 0);
    for _ in 0..RUNS {
        let (setup, call) = random_run(&mut random, false);
        let judged = judge(&setup, &call, Below::Wrapping);
        if !judged.meets {
            continue;
        }
        let figure = i64::from(library::stack(&call) >> 8);
        assert!(judged.furthest <= figure, "{judged:?}, figure {figure}, {call:?}, {:?}", setup.events);
        met += 1;
        exact += u32::from(judged.furthest == figure && figure > 0);
        nested += u32::from(judged.nested > 1);
        chained += u32::from(judged.chained);
    }
    println!("{met} of {RUNS} runs meet the premises, {exact} the figure, {nested} nest, {chained} chain");
    assert!(met > 1_000 && exact > 100 && nested > 500 && chained > 200, "{met} {exact} {nested} {chained}");
}

/// The same in plain numbers, of handlers that hold SP above where entry left it too: most such runs are outside the
/// premises downwards modulo 65,536.
#[test]
fn no_run_passes_the_figure_in_plain_numbers() {
    let mut random = Random::new(12);
    let (mut met, mut exact, mut nested, mut above) = (0, 0, 0, 0);
    for _ in 0..RUNS {
        let (setup, call) = random_run(&mut random, true);
        let judged = judge(&setup, &call, Below::Plain);
        if !judged.meets {
            continue;
        }
        let figure = i64::from(library::stack(&call) >> 8);
        assert!(judged.furthest <= figure, "{judged:?}, figure {figure}, {call:?}, {:?}", setup.events);
        met += 1;
        exact += u32::from(judged.furthest == figure && figure > 0);
        nested += u32::from(judged.nested > 1);
        above += u32::from(!judge(&setup, &call, Below::Wrapping).meets);
    }
    println!("{met} of {RUNS} runs meet the premises, {exact} the figure, {nested} nest, {above} hold SP above");
    assert!(met > 1_000 && exact > 100 && nested > 200 && above > 500, "{met} {exact} {nested} {above}");
}

/// Devices 0 and 1 of priorities 1 and 2, with handlers; the application at #1000, SP #0800.
fn setup(source: &str, n: u32, events: &[(u32, u8)]) -> (Setup, Stack) {
    let program = assemble(&format!(" ORG $1000\nLOOP BRA LOOP\n{source} END"));
    let mut memory = program.memory();
    for d in 0..3u8 {
        let at = usize::from(vector(d));
        let entry = program.names.get(&format!("H{d}")).copied().unwrap_or(0xFFFF) as u16;
        memory[at] = (d + 1) << 5;
        memory[at + 2..at + 4].copy_from_slice(&entry.to_le_bytes());
        memory[2 * usize::from(d)] = 0x11;
    }
    let mut machine = Machine::default();
    machine.regs[LR] = 0xFFFF;
    machine.regs[SP] = 0x0800;
    machine.regs[PC] = 0x1000;
    let events = events.iter().map(|&(step, device)| Event { step, device, data: 0 }).collect();
    let vectors = memory[usize::from(VECTORS)..].to_vec();
    (Setup { machine, memory, events, n }, Stack { vectors, devices: 3, uses: vec![0; 16], priority: 0 })
}

/// "Below" is downwards, modulo 65,536, or in plain numbers: with signed distances the claim is false.
#[test]
fn signed_distances_are_false() {
    // Each handler adds R2, 30,000, to SP and takes it back: SP wraps past the application's.
    let body = "ADD R2,SP\n ADD #1,R0\n SUB R2,SP\n MOV LR,PC\n";
    let (mut setup, call) = setup(&format!("H0 {body}H1 {body}"), 12, &[(0, 0), (2, 1)]);
    setup.machine.regs[2] = 30_000;
    let judged = judge(&setup, &call, Below::Signed);
    assert_eq!(library::stack(&call) >> 8, 16);
    assert!(judged.meets && judged.furthest == 5_552, "{judged:?}");
    assert!(!judge(&setup, &call, Below::Wrapping).meets);
    // In plain numbers SP is then far above.
    let judged = judge(&setup, &call, Below::Plain);
    assert!(judged.meets && judged.furthest == 8, "{judged:?}");
}

/// A handler that reads its frame by LD SP+ and puts SP back: within its figure in plain numbers, 65,534 below downwards.
/// The run of crates/stack_example, and one in which it takes more than its figure.
#[test]
fn a_handler_that_reads_its_frame() {
    let (run, call) = setup("H0 LD SP+,R0\n SUB #2,SP\n MOV LR,PC\n", 6, &[(0, 0)]);
    let call = Stack { devices: 1, ..call };
    let judged = judge(&run, &call, Below::Plain);
    assert!(judged.meets && judged.furthest == 8 && library::stack(&call) >> 8 == 8, "{judged:?}");
    assert!(!judge(&run, &call, Below::Wrapping).meets);
    let (more, _) = setup("H0 LD SP+,R0\n SUB #4,SP\n ADD #2,SP\n MOV LR,PC\n", 6, &[(0, 0)]);
    let judged = judge(&more, &call, Below::Plain);
    assert!(!judged.meets && judged.furthest == 10, "{judged:?}");
}

/// A run that breaks one condition passes the figure.
#[track_caller]
fn passes(setup: &Setup, call: &Stack) {
    let judged = judge(setup, call, Below::Wrapping);
    let figure = i64::from(library::stack(call) >> 8);
    assert!(!judged.meets && judged.furthest > figure, "{judged:?}, figure {figure}");
}

#[test]
fn each_condition_is_needed() {
    let nest = "H0 ADD #1,R0\n ADD #1,R0\n MOV LR,PC\nH1 MOV LR,PC\n";
    let (run, call) = setup(nest, 8, &[(0, 0), (2, 1)]);
    assert!(judge(&run, &call, Below::Wrapping).meets);
    // A device that is not given.
    passes(&run, &Stack { devices: 1, ..call.clone() });
    // 01's p below this one.
    passes(&run, &Stack { priority: 2, ..call.clone() });
    // SP odd at an entry: the bytes pushed begin at an even address.
    let (mut odd, call_one) = setup(nest, 4, &[(0, 0)]);
    odd.machine.regs[SP] = 0x0801;
    passes(&odd, &Stack { devices: 1, ..call_one });
    // A handler that takes more than its figure.
    let (more, call_more) = setup("H0 SUB #2,SP\n ADD #2,SP\n MOV LR,PC\n", 6, &[(0, 0)]);
    passes(&more, &Stack { devices: 1, ..call_more });
    // SETPRI in a handler: its own line again.
    let (set, call_set) = setup("H0 SETPRI #0\n ADD #1,R0\n MOV LR,PC\n", 3, &[(0, 0), (2, 0)]);
    passes(&set, &Stack { devices: 1, ..call_set });
    // SP is not handed back at a chaining return: device 1 of priority 2 is chained, then takes its own use.
    let chain = "H2 SUB #2,SP\n MOV LR,PC\nH1 SUB #2,SP\n ADD #4,SP\n MOV LR,PC\n";
    let (kept, mut call_kept) = setup(chain, 5, &[(0, 2), (1, 1)]);
    (call_kept.uses[2], call_kept.uses[4], call_kept.devices) = (2, 2, 6);
    call_kept.vectors[4] = 3 << 5;
    let mut same_level = kept.clone();
    same_level.memory[usize::from(vector(1))] = 3 << 5;
    passes(&same_level, &call_kept);
    // A vector altered on the way: the handler of device 0 lowers its own priority's place.
    let (mut altered, call_altered) = setup("H0 ST R2,R3\n ADD #1,R0\n MOV LR,PC\n", 4, &[(0, 0), (2, 1)]);
    altered.machine.regs[2] = 7 << 5;
    altered.machine.regs[3] = vector(1);
    altered.memory[usize::from(vector(1))] = 1 << 5;
    let mut vectors = call_altered.vectors.clone();
    vectors[4] = 1 << 5;
    passes(&altered, &Stack { vectors, ..call_altered });
}

/// Calls that are wrong, 02's impostors first, each caught by some call at random.
#[rustfmt::skip]
const WRONG: [(&str, fn(&Stack) -> u32); 6] = [
    ("adds all devices up", |c| each(c, |c| (0..8).filter(|&d| counts(c, d)).map(|d| cost(c, d)).sum())),
    ("takes priorities from p on", |c| if c.priority == 0 { c.reply() } else {
        each(c, |c| Stack { priority: c.priority - 1, ..c.clone() }.bytes())
    }),
    ("leaves a use unchecked that is not chosen", |c| {
        let mut c = c.clone();
        if c.uses.len() == 16 {
            (0..8).filter(|d| c.devices >> d & 1 == 0).for_each(|d| c.uses[2 * d..2 * d + 2].fill(0))
        }
        c.reply()
    }),
    ("takes the first device of a priority", |c| each(c, |c| {
        let first = |l| (0..8).find(|&d| counts(c, d) && level(c, d) == l);
        (1..8).filter(|&l| l > c.priority).filter_map(first).map(|d| cost(c, d)).sum()
    })),
    ("forgets the frame", |c| each(c, |c| c.bytes().saturating_sub(8))),
    ("counts devices that are not given", |c| Stack { devices: 0xFF, ..c.clone() }.reply()),
];

fn level(c: &Stack, d: usize) -> u32 {
    u32::from(c.vectors[4 * d]) >> 5
}

fn cost(c: &Stack, d: usize) -> u32 {
    8 + u32::from(c.uses[2 * d]) + 256 * u32::from(c.uses[2 * d + 1])
}

fn counts(c: &Stack, d: usize) -> bool {
    c.devices >> d & 1 == 1 && level(c, d) > c.priority
}

/// The reply with another figure where it is not refused.
fn each(c: &Stack, figure: impl Fn(&Stack) -> u32) -> u32 {
    if c.reply() == 16 {
        16
    } else {
        figure(c) << 8
    }
}

#[test]
fn every_wrong_call_is_caught() {
    for (name, wrong) in WRONG {
        let mut random = Random::new(9);
        let caught = (0..CALLS).map(|_| Stack::random(&mut random)).any(|c| wrong(&c) != c.reply());
        assert!(caught, "a call that {name} passes");
    }
}
