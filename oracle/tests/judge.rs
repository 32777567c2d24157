//! The judge call of libxm23.a beside the oracle: random runs of every kind, each kind of finding with its details, and
//! sound runs beside the same run with no events; readings that are wrong on purpose; sentences of docs/CALLS.md.

#[path = "library/judge.rs"]
mod library;
#[path = "library/mod.rs"]
mod run;

use oracle::assemble::assemble;
use oracle::inputs::Input;
use oracle::judge::{case, kinds_of, Case, Reading, DEEP, FINDING, KINDS, OTHER, WRITERS, WRONG};
use oracle::machine::{event_record, steps_of, vector, Event, Lines, Machine, DEVICES, LR, PC, SP};

/// How many random runs the gate judges.
const RUNS: u64 = 100_000;

/// What the findings of many runs had.
#[derive(Default)]
struct Seen {
    kinds: [u64; KINDS],
    /// Of a kind: the application ran, a handler ran, one that was chained on ran.
    by: [[u64; 3]; KINDS],
    /// Bits of the details of kinds 0 and 5, and vectors of kinds 1 and 3.
    start: [u64; 3],
    changed: [u64; 7],
    faults: [u64; 17],
    traps: [u64; 16],
    reasons: [u64; 3],
    refusals: [u64; 21],
    sound: u64,
    interrupted: u64,
}

impl Seen {
    fn add(&mut self, reply: u64, case: &Case) {
        self.refusals[(reply & 0xFF) as usize] += 1;
        if reply & 0xFF != 0 {
            return;
        }
        self.reasons[(reply >> 8 & 0xFF) as usize] += 1;
        for (kind, f) in case.findings.chunks_exact(FINDING).enumerate().filter(|(_, f)| f[8] == 1) {
            self.kinds[kind] += 1;
            self.by[kind][if f[12] == 16 { 0 } else { 1 + usize::from(f[12] != f[13]) }] += 1;
            match kind {
                0 => (0..3).for_each(|i| self.start[i] += u64::from(f[9] >> i & 1)),
                1 => self.faults[usize::from(f[9])] += 1,
                3 => self.traps[usize::from(f[9])] += 1,
                5 => (0..7).for_each(|i| self.changed[i] += u64::from(f[9] >> i & 1)),
                _ => {}
            }
        }
    }

    fn check(&self) {
        let Seen { kinds, by, start, changed, faults, traps, reasons, refusals, .. } = self;
        println!("kinds {kinds:?}, by {by:?}, start {start:?}, changed {changed:?}, reasons {reasons:?}");
        println!("faults {faults:?}, traps {traps:?}, refusals {refusals:?}");
        println!("{} sound, {} of them interrupted", self.sound, self.interrupted);
        assert!(kinds.iter().all(|&n| n > 100));
        assert!(start.iter().chain(changed).all(|&n| n > 20));
        assert!([8, 9, 10, 16].iter().all(|&v: &usize| faults[v] > 20) && traps.iter().filter(|&&n| n > 0).count() > 8);
        assert!([1, 2, 3, 4, 5, 6, 7, 13, 20].iter().all(|&r: &usize| refusals[r] > 10));
        assert!(reasons[0] > 1_000 && reasons[1] > 100);
        // Kinds 1, 3 and 5 of a handler, of one chained on, and kind 1 of the application.
        assert!(by[1][0] > 20 && by[1][1] > 20 && by[3][1] > 20 && by[5][1] > 20 && by[5][2] > 20);
        assert!(self.sound > RUNS / 20 && self.interrupted > RUNS / 50);
    }
}

/// The run with no events, of as many steps as the application took, closes as a sound one: registers, PSW, CEX state,
/// and every byte but the device registers and those that a handler or an entry wrote last.
fn same_alone(start: &Input, sound: &Case, application: u64) -> bool {
    let mut alone =
        Input { events: Vec::new(), log: vec![0; 8 * application as usize], n: application, ..start.clone() };
    let reply = run::library(&mut alone);
    let state = |record: &[u8]| (record[..20].to_vec(), record[21]);
    let same =
        |a: usize| a < usize::from(DEVICES) || sound.writers[a] == OTHER || alone.memory[a] == sound.input.memory[a];
    steps_of(reply) == application && state(&alone.record) == state(&sound.input.record) && (0..WRITERS).all(same)
}

#[test]
fn library_and_oracle_agree() {
    let mut seen = Seen::default();
    for seed in 0..RUNS {
        let start = case(seed);
        let (mut ours, mut theirs) = (start.clone(), start.clone());
        let (reply, application) = ours.judge_as(Reading::Written);
        assert_eq!(library::judge(&mut theirs), reply, "seed {seed}");
        assert!(ours == theirs, "seed {seed}");
        seen.add(reply, &ours);
        if reply & 0xFF == 0 && kinds_of(reply) == 0 {
            assert!(same_alone(&start.input, &ours, application), "seed {seed}: sound, and another close");
            seen.sound += 1;
            seen.interrupted += u64::from(ours.writers.contains(&OTHER));
        }
    }
    seen.check();
}

/// A step that opens a frame too many: random runs seldom go so deep.
#[test]
fn frames_without_end() {
    for n in 0..2 * DEEP as u64 + 40 {
        let start = Case::of(deep(n));
        let (mut ours, mut theirs) = (start.clone(), start);
        let reply = ours.judge();
        assert_eq!(library::judge(&mut theirs), reply, "{n} steps");
        assert!(ours == theirs, "{n} steps");
        let full = n > 2 * DEEP as u64;
        assert_eq!(reply >> 8 & 0xFF, if full { 2 } else { 0 }, "{n} steps");
        assert_eq!(kinds_of(reply) >> 4 & 1, u64::from(n > 0), "{n} steps");
    }
}

#[test]
fn every_wrong_reading_is_caught() {
    for reading in WRONG {
        let differs = |seed: u64| {
            let start = if seed == 0 { Case::of(deep_fault()) } else { case(seed) };
            let (mut right, mut wrong) = (start.clone(), start);
            right.judge() != wrong.judge_as(reading).0 || right != wrong
        };
        let seed = (0..RUNS).find(|&seed| differs(seed));
        println!("{reading:?}: {seed:?}");
        assert!(seed.is_some(), "{reading:?}");
    }
}

/// Devices 0 to 2 of priorities 1, 2 and 3 and SVC vectors 3 to 5 of priority 2, 4 and 1, with handlers H0 to H5; the
/// application at #1000, SP #0800, LR #FFFF.
fn program(source: &str, n: u64, events: &[(u32, u8)]) -> Input {
    let program = assemble(&format!(" ORG $1000\n{source} END"));
    let mut memory = program.memory();
    for (v, priority) in [1, 2, 3, 2, 4, 1].into_iter().enumerate() {
        let at = usize::from(vector(v as u8));
        let entry = program.names.get(&format!("H{v}")).copied().unwrap_or(0xFFFF) as u16;
        memory[at] = priority << 5;
        memory[at + 2..at + 4].copy_from_slice(&entry.to_le_bytes());
    }
    (0..3).for_each(|d| memory[2 * d] = 0x13);
    let mut m = Machine::default();
    (m.regs[LR], m.regs[SP], m.regs[PC]) = (0xFFFF, 0x0800, 0x1000);
    let events = events.iter().flat_map(|&(step, device)| event_record(Event { step, device, data: 9 })).collect();
    Input { memory, record: m.to_record().to_vec(), events, n, ..Input::default() }
}

/// Device 0's handler and that of vector 5, each of which lowers its priority and traps by it: a frame each two steps.
fn deep(n: u64) -> Input {
    program("LOOP BRA LOOP\nH0 SETPRI #0\n SVC #5\nH5 SETPRI #0\n SVC #5\n", n, &[(0, 0)])
}

/// The same, where the step that opens a frame too many is the first fault.
fn deep_fault() -> Input {
    let handler = |h: &str| format!("{h} SETPRI #0\n SUB #1,R1\n BEQ ILL\n SVC #5\n");
    let source = format!("LOOP BRA LOOP\n{}{}ILL WORD $4E00\n", handler("H0"), handler("H5"));
    let mut input = program(&source, 4 * DEEP as u64 + 40, &[(0, 0)]);
    input.record[2..4].copy_from_slice(&(DEEP as u16).to_le_bytes());
    input
}

/// The finding of a kind as (step, opened, detail, address, vector, running).
fn finding(case: &Case, kind: usize) -> (u32, u32, u8, u16, u8, u8) {
    let f = &case.findings[FINDING * kind..][..FINDING];
    let four = |i: usize| u32::from_le_bytes([f[i], f[i + 1], f[i + 2], f[i + 3]]);
    (four(0), four(4), f[9], u16::from_le_bytes([f[10], f[11]]), f[12], f[13])
}

/// Sentences that a person could misread: a program, steps, events, the kinds found, and one of the findings.
#[test]
fn readings() {
    type Found = (usize, (u32, u32, u8, u16, u8, u8));
    let loops = "LOOP ADD #1,R0\n BRA LOOP\n";
    let back = " MOV LR,PC\n";
    #[rustfmt::skip]
    let cases: [(&str, String, u64, &[(u32, u8)], u64, Option<Found>); 23] = [
        ("no event at all", loops.into(), 9, &[], 0, None),
        ("a handler that restores", format!("{loops}H0 SWAP R1,R2\n SWAP R1,R2\n{back}"), 9, &[(1, 0)], 0, None),
        ("R3 is changed", format!("{loops}H0 MOVLZ #7,R3\n{back}"), 9, &[(1, 0)], 1 << 5, Some((5, (4, 1, 8, 0xFFFF, 0, 0)))),
        ("R4 is changed", format!("{loops}H0 MOVLZ #7,R4\n{back}"), 9, &[(1, 0)], 1 << 5, Some((5, (4, 1, 16, 0xFFFF, 0, 0)))),
        ("LR may be changed", format!("{loops}H0 MOV LR,R3\n MOVLZ #0,LR\n MOV R3,LR\n MOVLZ #0,R3\n{back}"), 9, &[(1, 0)], 0, None),
        ("SP is changed", format!("{loops}H0 SUB #2,SP\n{back}"), 5, &[(1, 0)], 1 << 5, Some((5, (4, 1, 32, 0xFFFF, 0, 0)))),
        ("a byte of the frame is written as it was", format!("{loops}H0 MOVLZ #0,R3\n STR R3,SP,#0\n{back}"), 6, &[(1, 0)], 0, None),
        ("a byte of the frame is changed", format!("{loops}H0 MOVLZ #1,R3\n STR R3,SP,#0\n MOVLZ #0,R3\n{back}"), 7, &[(1, 0)], 1 << 5, Some((5, (6, 1, 64, 0xFFFF, 0, 0)))),
        ("the first of two", format!("{loops}H0 ADD #1,R3\n{back}"), 14, &[(1, 0), (8, 0)], 1 << 5, Some((5, (4, 1, 8, 0xFFFF, 0, 0)))),
        ("not returned", format!("{loops}H0 BRA H0\n"), 9, &[(1, 0)], 1 << 4, Some((4, (1, 1, 0, 0, 0, 0)))),
        ("the oldest that is open", format!("{loops}H0 BRA H0\nH1 BRA H1\n"), 9, &[(1, 0), (3, 1)], 1 << 4, Some((4, (1, 1, 0, 0, 0, 0)))),
        ("SVC's handlers need restore nothing", format!(" SVC #3\n{loops}H3 MOVLZ #7,R3\n{back}"), 9, &[], 0, None),
        ("SVC in a device's handler", format!("{loops}H0 SVC #4\n{back}H4 MOV LR,PC\n"), 9, &[(1, 0)], 1 << 3, Some((3, (2, 1, 4, 0x1004, 0, 0)))),
        ("a fault", format!(" WORD $4E00\n{loops}"), 1, &[], 1 << 1 | 1 << 4, Some((1, (0, 0, 8, 0x1000, 16, 16)))),
        ("a return with no frame open", " MOV LR,PC\n".into(), 2, &[], 1 << 2, Some((2, (1, 0, 0, 0xFFFF, 16, 16)))),
        ("the application sets SLP", format!(" SETCC S\n{loops}"), 1, &[], 1 << 6, Some((6, (0, 0, 0, 0x1000, 16, 16)))),
        ("a handler may set SLP, not for long", format!("{loops}H0 SETCC S\n{back}"), 9, &[(1, 0)], 1 << 4, Some((4, (1, 1, 0, 0, 0, 0)))),
        ("the application reads a device register", format!(" MOVLZ #3,R1\n LD.B R1,R2\n{loops}"), 5, &[], 1 << 7, Some((7, (1, 0, 0, 3, 16, 16)))),
        ("the handler reads it", format!("{loops}H0 MOV LR,R3\n MOVLZ #1,R4\n LD.B R4,R3\n MOVLZ #0,R3\n MOVLZ #0,R4\n{back}"), 9, &[(1, 0)], 0, None),
        ("a byte that the handler wrote", format!(" MOVL #0,R1\n MOVH #32,R1\nLOOP LD R1,R2\n BRA LOOP\nH0 MOV R2,R3\n ST R3,R1\n MOVLZ #0,R3\n{back}"), 12, &[(3, 0)], 1 << 8, Some((8, (10, 0, 0, 0x2000, 16, 16)))),
        ("written by the application since", format!(" MOVL #0,R1\n MOVH #32,R1\nLOOP ST R2,R1\n LD R1,R2\n BRA LOOP\nH0 ST R2,R1\n{back}"), 12, &[(1, 0)], 0, None),
        ("read before the handler wrote it", format!(" MOVL #0,R1\n MOVH #32,R1\n LD R1,R2\nLOOP BRA LOOP\nH0 ST R2,R1\n{back}"), 12, &[(4, 0)], 0, None),
        ("a line waits at the start", loops.into(), 0, &[], 0, None),
    ];
    for (name, source, n, events, kinds, found) in cases {
        let start = Case::of(program(&source, n, events));
        let (mut ours, mut theirs) = (start.clone(), start);
        let reply = ours.judge();
        assert_eq!(library::judge(&mut theirs), reply, "{name}");
        assert!(ours == theirs, "{name}");
        assert_eq!(kinds_of(reply), kinds, "{name}");
        if let Some((kind, told)) = found {
            assert_eq!(finding(&ours, kind), told, "{name}");
        }
    }
}

/// A start that is asleep, halted, or has a line waiting, for no step too.
#[test]
fn starts() {
    type Change = fn(&mut Machine);
    let cases: [(u8, Change); 4] =
        [(0, |_| ()), (1, |m| m.psw |= 8), (2, |m| m.halted = true), (4, |m| m.lines = Lines::of(&[7]))];
    for (detail, change) in cases {
        let mut input = program("LOOP BRA LOOP\n", 0, &[]);
        let mut m = Machine::from_record(&input.record);
        change(&mut m);
        input.record = m.to_record().to_vec();
        let mut case = Case::of(input);
        let reply = library::judge(&mut case);
        assert_eq!(kinds_of(reply), u64::from(detail != 0));
        assert_eq!(finding(&case, 0).2, detail);
    }
}
