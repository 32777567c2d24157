//! How deep a run went, 02 §10, sentence by sentence, and what the comparison must catch of it: depths counted wrongly
//! on purpose.

use oracle::assemble::assemble;
use oracle::compare::{compare_many, Engine};
use oracle::inputs::{input, Input, Kind};
use oracle::machine::{
    event_record, events_of, line_of, long_log, sheet, steps_of, Act, Event, Machine, MAX_STEPS, PC, SHOWN, SP,
};
use oracle::programs::setup;
use oracle::resume::{judge, Reading};

/// A program at #1000 with SP #0800, R4 #0800 too, and a log long enough.
fn program(source: &str, events: &[(u32, u8)], n: u64) -> Input {
    let mut m = Machine::default();
    (m.regs[4], m.regs[SP], m.regs[PC]) = (0x0800, 0x0800, 0x1000);
    let record = |&(step, device): &(u32, u8)| event_record(Event { step, device, data: 0 });
    Input {
        memory: assemble(&format!("{source}\n END")).memory(),
        record: m.to_record().to_vec(),
        events: events.iter().flat_map(record).collect(),
        log: vec![0; SHOWN * n as usize],
        n,
        ..Input::default()
    }
}

/// The depth of a run.
fn depth(source: &str, events: &[(u32, u8)], n: u64) -> u32 {
    program(source, events, n).run().expect("an accepted run").deepest
}

/// Vectors 0 to 3 of priorities 1 to 4, 11 of priority 5, 8 of priority 0, each with a handler of one return; devices 0
/// to 3 with interrupts.
const HANDLERS: &str = "
        ORG $0000
        BYTE $11
        ORG $0002
        BYTE $11
        ORG $0004
        BYTE $11
        ORG $0006
        BYTE $11
        ORG $2000
        MOV LR,PC
        ORG $FFC0
        WORD $0020
        WORD $2000
        WORD $0040
        WORD $2000
        WORD $0060
        WORD $2000
        WORD $0080
        WORD $2000
        ORG $FFE0
        WORD $0000
        WORD $2000
        ORG $FFEC
        WORD $00A0
        WORD $2000
";

fn with_handlers(source: &str) -> String {
    format!("{HANDLERS}\n ORG $1000\n{source}")
}

/// "entries that pushed": an accepted line, SVC and a fault; "less returns that pulled"; "the greatest value over the
/// run".
#[test]
fn entries_less_returns() {
    let here = with_handlers("HERE BRA HERE");
    assert_eq!(depth(&here, &[], 9), 0);
    assert_eq!(depth(&here, &[(1, 0)], 9), 1);
    // Lines of rising priority on the steps of one another's handlers, and one after the other.
    assert_eq!(depth(&here, &[(1, 0), (2, 1), (3, 2), (4, 3)], 20), 4);
    assert_eq!(depth(&here, &[(1, 3), (9, 2), (16, 1)], 25), 1);
    assert_eq!(depth(&with_handlers(" SVC #11\nHERE BRA HERE"), &[], 1), 1);
    assert_eq!(depth(&with_handlers(" WORD $4E00\nHERE BRA HERE"), &[], 9), 1);
    // A trap, and a fault in its handler.
    let inside = with_handlers(" SVC #11\n ORG $2000\n WORD $4E00\n MOV LR,PC");
    assert_eq!(depth(&inside, &[], 2), 2);
    // No step, and the greatest though all are closed in the end.
    assert_eq!(depth(&with_handlers(" SVC #11\nHERE BRA HERE"), &[], 0), 0);
    assert_eq!(depth(&with_handlers(" SVC #11\n SVC #11\nHERE BRA HERE"), &[], 30), 1);
}

/// A chained entry pushes nothing: device 1 waits where the handler of device 3 returns.
#[test]
fn a_chained_entry_counts_nothing() {
    let given = program(&with_handlers("HERE BRA HERE"), &[(1, 3), (2, 1)], 12);
    assert_eq!(given.clone().run().expect("accepted").deepest, 1);
    let (mut m, mut memory, events) =
        (Machine::from_record(&given.record), given.memory.clone(), events_of(&given.events));
    let acts: Vec<Act> = (0..given.n).filter_map(|_| m.step(&mut memory, &events)).map(|trace| trace.act).collect();
    assert!(acts.contains(&Act::Chain(1)) && acts.contains(&Act::Accept(3)), "{acts:?}");
}

/// "a return with none open counting nothing": the application returns twice, and then a trap is one frame deep.
#[test]
fn a_return_with_none_open_counts_nothing() {
    // MOVLS $FF,R7 makes PC #FFFF. Above SP lie two frames that lead back to #1000 and to #1006.
    let frames = " ORG $0800\n WORD #0\n WORD #0\n WORD #0\n WORD $1000\n WORD #0\n WORD #0\n WORD #0\n WORD $1006";
    let source = with_handlers(" MOVLS $FF,R7\n ORG $1006\n SVC #11\nHERE BRA HERE") + "\n" + frames;
    assert_eq!(depth(&source, &[], 4), 0);
    assert_eq!(depth(&source, &[], 5), 1);
    assert_eq!(depth(&source, &[], 50), 1);
}

/// A fault that halts pushes nothing.
#[test]
fn a_halting_fault_counts_nothing() {
    let source = with_handlers(" WORD $4E00\n ORG $2000\n WORD $4E00");
    let ran = program(&source, &[], 9).run().expect("accepted");
    assert_eq!((ran.reason, ran.steps, ran.deepest), (1, 2, 1));
    let mut i = program(&with_handlers(" WORD $4E00"), &[], 9);
    i.record[17] |= 1; // FLT
    assert_eq!(i.run().map(|ran| (ran.reason, ran.deepest)), Ok((1, 0)));
}

/// "since the start": of this run. A frame that an earlier run opened is none of this one's, nor is its return.
#[test]
fn of_this_run_alone() {
    let mut i = program(&with_handlers(" SVC #11\n SVC #11\nHERE BRA HERE"), &[], 1);
    assert_eq!(i.run().expect("accepted").deepest, 1);
    // In the handler: the return, with none of this run open, then the second trap.
    i.n = 2;
    assert_eq!((i.run().expect("accepted").deepest, i.deepest), (0, 0));
    i.n = 1;
    assert_eq!((i.run().expect("accepted").deepest, i.deepest), (1, 1));
}

/// Traps in handlers that have lowered their priority: "where the bound of 7 − p need not hold, the figure is exact",
/// and "printed as the line's last field, in base ten".
#[test]
fn traps_and_faults_pass_the_bound() {
    let source = with_handlers(" SVC #11\n ORG $2000\n SETPRI #0\n SVC #11");
    for (n, deepest) in [(1, 1), (3, 2), (19, 10), (23, 12)] {
        let mut i = program(&source, &[], n);
        let line = sheet(&i.to_bytes()).0;
        let ran = i.run().expect("accepted");
        assert_eq!(ran.deepest, deepest);
        assert!(line.ends_with(&format!(" 00000000 {deepest}\n")), "{line}");
        assert_eq!(line, line_of(Ok((ran, Machine::from_record(&i.record)))));
    }
}

/// A million steps of a trap whose handler puts SP back, lowers its priority and traps again.
#[test]
fn hundreds_of_thousands_deep() {
    let source = with_handlers(" SVC #11\n ORG $2000\n MOV R4,SP\n SETPRI #0\n SVC #11");
    let ran = program(&source, &[], MAX_STEPS).run().expect("accepted");
    assert_eq!((ran.steps, ran.deepest), (1_000_000, 333_334));
}

/// "Document 01 bounds the open frames": the frames that Depth's premises speak of are those that are counted, and
/// where the premises hold the figure is at most 7 - p.
#[test]
fn the_frames_of_depth() {
    let mut bounded = 0;
    for seed in 1..=3_000 {
        let setup = setup(seed);
        let close = judge(&setup, Reading::Decided);
        let given = Input::from(setup);
        let ran = Input { log: long_log(given.n), ..given }.run().expect("accepted");
        assert_eq!(close.met.deepest, ran.deepest as usize, "seed {seed}");
        assert!(!close.depth.none() || ran.deepest <= u32::from(7 - close.lowest), "seed {seed}");
        bounded += u32::from(close.depth.none() && ran.deepest > 0);
    }
    assert!(bounded > 500, "{bounded} setups");
}

/// A step that the log has no room for is not taken, and the frames behind it are not opened.
#[test]
fn what_is_not_taken_counts_nothing() {
    let source = with_handlers(" ADD #1,R0\n STR.B R1,R0,#0\n SVC #11\nHERE BRA HERE");
    let mut i = program(&source, &[], 9);
    assert_eq!(i.clone().run().map(|ran| (ran.reason, ran.deepest)), Ok((0, 1)));
    i.log.clear();
    assert_eq!(i.run().map(|ran| (ran.reason, ran.steps, ran.deepest)), Ok((2, 1, 0)));
}

/// Where a run is refused, the number is as given.
#[test]
fn as_given_where_refused() {
    for seed in 1..=400 {
        let mut i = input(Kind::Broken, seed);
        let given = i.deepest;
        match i.run() {
            Ok(ran) => assert_eq!(i.deepest, ran.deepest),
            Err(_) => assert_eq!(i.deepest, given),
        }
    }
}

// ---- depths that are counted wrongly

/// How an engine counts: the frames after an act, of those before it, and the figure, of the greatest and the last.
struct Counting {
    after: fn(Act, i64) -> i64,
    figure: fn(i64, i64) -> i64,
}

const RIGHT: Counting =
    Counting { after: |act, open| act.open_after(open as u32).into(), figure: |greatest, _| greatest };

/// Runs an input by the oracle, with a depth that is counted in the given way.
fn counting(i: &mut Input, how: &Counting) -> u64 {
    let (mut m, mut memory) = (Machine::default(), i.memory.clone());
    if i.record.len() == 32 {
        m = Machine::from_record(&i.record);
    }
    let number = i.replied();
    if number & 0xFF != 0 {
        return number;
    }
    let (events, mut open, mut greatest) = (events_of(&i.events), 0, 0);
    for _ in 0..steps_of(number) {
        let trace = m.step(&mut memory, &events).expect("a step");
        open = (how.after)(trace.act, open);
        greatest = greatest.max(open);
    }
    i.deepest = (how.figure)(greatest, open) as u32;
    number
}

/// Engines that count wrongly: the impostors of 02 §10, and others that a person could take it for.
#[rustfmt::skip]
const WRONG_DEPTHS: [(&str, Engine); 15] = [
    ("counts chained entries", |i| counting(i, &Counting {
        after: |act, open| match act { Act::Chain(_) => open + 1, _ => (RIGHT.after)(act, open) },
        ..RIGHT
    })),
    ("gives the closing depth", |i| counting(i, &Counting { figure: |_, last| last, ..RIGHT })),
    ("goes below 0 after a return with none open", |i| counting(i, &Counting {
        after: |act, open| match act {
            Act::Accept(_) | Act::Fault(_) | Act::Trap(_) => open + 1,
            Act::Pull => open - 1,
            _ => open,
        },
        ..RIGHT
    })),
    ("counts the halting fault", |i| counting(i, &Counting {
        after: |act, open| match act { Act::Halt(_) => open + 1, _ => (RIGHT.after)(act, open) },
        ..RIGHT
    })),
    ("stops at 7", |i| counting(i, &Counting { figure: |greatest, _| greatest.min(7), ..RIGHT })),
    ("counts no trap", |i| counting(i, &Counting {
        after: |act, open| match act { Act::Trap(_) => open, _ => (RIGHT.after)(act, open) },
        ..RIGHT
    })),
    ("counts no fault", |i| counting(i, &Counting {
        after: |act, open| match act { Act::Fault(_) => open, _ => (RIGHT.after)(act, open) },
        ..RIGHT
    })),
    ("counts no line", |i| counting(i, &Counting {
        after: |act, open| match act { Act::Accept(_) => open, _ => (RIGHT.after)(act, open) },
        ..RIGHT
    })),
    ("lets a chained entry close a frame", |i| counting(i, &Counting {
        after: |act, open| match act { Act::Chain(_) => (open - 1).max(0), _ => (RIGHT.after)(act, open) },
        ..RIGHT
    })),
    ("counts entries and no return", |i| counting(i, &Counting {
        after: |act, open| match act { Act::Pull => open, _ => (RIGHT.after)(act, open) },
        ..RIGHT
    })),
    ("counts the application as one", |i| counting(i, &Counting { figure: |greatest, _| greatest + 1, ..RIGHT })),
    ("forgets every frame at a return with none open", |i| counting(i, &Counting {
        after: |act, open| match act { Act::Pull => 0, _ => (RIGHT.after)(act, open) },
        ..RIGHT
    })),
    ("keeps the greater of its depth and the number handed in", |i| {
        let given = i.deepest;
        let number = i.replied();
        i.deepest = i.deepest.max(given);
        number
    }),
    ("writes nothing", |i| {
        let given = i.deepest;
        let number = i.replied();
        i.deepest = given;
        number
    }),
    ("counts from the number handed in", |i| {
        let given = i.deepest;
        let number = i.replied();
        if number & 0xFF == 0 { i.deepest = i.deepest.wrapping_add(given) }
        number
    }),
];

#[test]
fn every_wrong_depth_is_caught() {
    assert!(compare_many(|i| counting(i, &RIGHT), Kind::Nest, 1, 400, &|_| ()).is_ok());
    for (name, engine) in WRONG_DEPTHS {
        assert!(compare_many(engine, Kind::Nest, 1, 400, &|_| ()).is_err(), "an engine that {name} passes");
    }
    // Refused runs too: a depth that is written all the same.
    let writes: Engine = |i| {
        i.deepest = 0;
        i.replied()
    };
    assert!(compare_many(writes, Kind::Broken, 1, 400, &|_| ()).is_err(), "a refused run's number is written");
}
