//! The output log of 02 §1, sentence by sentence, and what the comparison must catch of it: logs kept wrongly on
//! purpose.

use oracle::assemble::assemble;
use oracle::compare::{compare_many, Engine};
use oracle::inputs::{Input, Kind};
use oracle::isa::Instr;
use oracle::machine::{
    event_record, events_of, refusal, reply, run, sheet, shown_of, shown_record, Act, Event, Machine, Ran, Shown,
    Trace, DBA, ENA, INPUT, PC, SHOWN, SP,
};

/// What a byte of the log holds that no record has reached.
const OLD: u8 = 0x5A;

/// A program at #1000 with SP #0800, R0 pointing at device 0, R1 #4241 and R2 #4300, and a log of so many records.
fn program(source: &str, events: &[(u32, u8)], n: u64, records: usize) -> Input {
    let mut m = Machine::default();
    (m.regs[1], m.regs[2], m.regs[SP], m.regs[PC]) = (0x4241, 0x4300, 0x0800, 0x1000);
    let record = |&(step, device): &(u32, u8)| event_record(Event { step, device, data: 9 });
    Input {
        memory: assemble(&format!("{source}\n END")).memory(),
        record: m.to_record().to_vec(),
        events: events.iter().flat_map(record).collect(),
        log: vec![OLD; SHOWN * records],
        n,
        ..Input::default()
    }
}

fn machine(i: &Input) -> Machine {
    Machine::from_record(&i.record)
}

/// How the run ended; its depth is another test's.
fn ran(i: &mut Input) -> Ran {
    Ran { deepest: 0, ..i.run().expect("an accepted run") }
}

/// The run, and what its log says.
fn shown(i: &mut Input) -> (Ran, Vec<(u32, u8, u8)>) {
    let ran = ran(i);
    let (used, tail) = i.log.split_at(SHOWN * ran.added as usize);
    assert!(tail.iter().all(|&b| b == OLD), "the tail is {tail:?}");
    (ran, shown_of(used).iter().map(|s| (s.step, s.device, s.byte)).collect())
}

fn ended(reason: u8, steps: u32, added: u32) -> Ran {
    Ran { reason, steps, added, deepest: 0 }
}

/// The oracle itself, as an engine.
fn honest(i: &mut Input) -> u64 {
    i.replied()
}

/// Two stores of a byte to device 0, which has the status given, and a branch to itself.
fn two_stores(status: &str) -> String {
    format!(" ORG $0000\n BYTE {status}\n ORG $1000\n STR.B R1,R0,#1\n STR.B R2,R0,#1\nHERE BRA HERE")
}

#[test]
fn the_record() {
    let mut i = program(&two_stores("$10"), &[], 5, 3);
    i.record[22..26].copy_from_slice(&[0x78, 0x56, 0x34, 0x12]);
    assert_eq!(ran(&mut i), ended(0, 5, 2));
    assert_eq!(i.log[..8], [0x78, 0x56, 0x34, 0x12, 0, 0x41, 0, 0]);
    assert_eq!(i.log[8..16], [0x79, 0x56, 0x34, 0x12, 0, 0x00, 0, 0]);
    assert_eq!(i.log[16..], [OLD; 8]);
    assert_eq!(reply(Ok(ended(2, 0xABCDE, 0x12345))), 0x0123_450A_BCDE_0200);
}

/// "a store by an instruction to the data byte of an output device whose ENA was set before the store"
#[test]
fn which_stores_are_shown() {
    let all = |source: &str| shown(&mut program(source, &[], 4, 4)).1;
    assert_eq!(all(&two_stores("$10")), [(0, 0, 0x41), (1, 0, 0x00)]);
    assert_eq!(all(&two_stores("$0D")), []);
    assert_eq!(all(&two_stores("$12")), []);
    // A word store, whose high byte is the data, and then a byte store to status; a load.
    let word = " ORG $0000\n BYTE $10\n ORG $1000\n STR R1,R0,#0\n STR.B R1,R0,#0\nHERE BRA HERE";
    assert_eq!(all(word), [(0, 0, 0x42)]);
    let load = " ORG $000E\n BYTE $10\n ORG $1000\n LDR R0,#14,R3\n STR R1,R0,#14\nHERE BRA HERE";
    assert_eq!(all(load), [(1, 7, 0x42)]);
    // ST as well as STR; a store beyond the devices.
    let st = " ORG $0002\n BYTE $10\n ORG $1000\n MOVLZ $03,R3\n ST.B R1,R3\n STR R1,R0,#16\nHERE BRA HERE";
    assert_eq!(all(st), [(1, 1, 0x41)]);
}

/// ENA before the whole word: R1 #4241 leaves ENA clear, R2 #4310 would set it.
#[test]
fn ena_before_the_whole_access() {
    let clears = " ORG $0000\n BYTE $10\n ORG $1000\n STR R1,R0,#0\nHERE BRA HERE";
    let mut i = program(clears, &[], 3, 2);
    assert_eq!(shown(&mut i), (ended(0, 3, 1), vec![(0, 0, 0x42)]));
    assert_eq!(i.memory[0] & ENA, 0);
    let sets = " ORG $1000\n MOVL $10,R2\n STR R2,R0,#0\n STR R2,R0,#0\nHERE BRA HERE";
    let mut i = program(sets, &[], 4, 2);
    assert_eq!(shown(&mut i), (ended(0, 4, 1), vec![(2, 0, 0x43)]));
}

/// Pushes onto a data byte show nothing: SP stands at #0008 and an SVC pushes over devices 0 to 3.
#[test]
fn pushes_show_nothing() {
    let source = " ORG $0000\n BYTE $10\n ORG $0002\n BYTE $10\n ORG $0004\n BYTE $10\n ORG $0006\n BYTE $10
        ORG $1000\n SVC #11\n ORG $2000\nHERE BRA HERE\n ORG $FFEC\n WORD $0020\n WORD $2000";
    let mut i = program(source, &[], 3, 0);
    i.record[12..14].copy_from_slice(&[8, 0]);
    assert_eq!(shown(&mut i), (ended(0, 3, 0), vec![]));
    assert_eq!(machine(&i).regs[SP], 0);
}

/// A program whose handler stores to device 1 at each of its events.
const HANDLER: &str = "
        ORG $0002
        BYTE $11
        ORG $1000
HERE    BRA HERE
        ORG $2000
        STR.B R1,R0,#3
        MOV LR,PC
        ORG $FFC4
        WORD $0060
        WORD $2000
";

#[test]
fn handlers_are_shown_too() {
    let mut i = program(HANDLER, &[(1, 1), (9, 1)], 20, 4);
    assert_eq!(shown(&mut i), (ended(0, 20, 2), vec![(2, 1, 0x41), (10, 1, 0x41)]));
}

/// "A step that would need a record past the end is not taken": nothing of it stays, its events included.
#[test]
fn the_step_not_taken_leaves_nothing() {
    // Two events on the step of the second store: one on the device stored to, one on device 1, which raises its line
    // at a priority that is not above the program's.
    let source = two_stores("$14") + "\n ORG $0002\n BYTE $13";
    let mut i = program(&source, &[(0, 5), (1, 0), (1, 1)], 9, 1);
    let mut one = i.clone();
    one.n = 1;
    assert_eq!(ran(&mut one), ended(0, 1, 1));
    assert_eq!(ran(&mut i), ended(2, 1, 1));
    assert!(i.memory == one.memory && i.record == one.record && i.log == one.log);
    assert_eq!(machine(&i).count, 1);
    // The next call with the same list finds the events still due.
    i.log = vec![OLD; SHOWN];
    i.n = 8;
    assert_eq!(shown(&mut i), (ended(0, 8, 1), vec![(1, 0, 0x00)]));
    assert!(machine(&i).lines != machine(&one).lines && i.memory[3] == 9);
    let mut whole = program(&source, &[(0, 5), (1, 0), (1, 1)], 9, 2);
    assert_eq!(shown(&mut whole), (ended(0, 9, 2), vec![(0, 0, 0x41), (1, 0, 0x00)]));
    assert!(whole.memory == i.memory && whole.record == i.record);
}

/// "would need": a line that the step's events raise may be accepted instead of the store.
#[test]
fn a_line_accepted_instead_of_the_store() {
    let source = two_stores("$11") + "\n ORG $2000\nTHERE BRA THERE\n ORG $FFC0\n WORD $0060\n WORD $2000";
    let mut i = program(&source, &[(1, 0)], 9, 1);
    assert_eq!(shown(&mut i), (ended(0, 9, 1), vec![(0, 0, 0x41)]));
    assert_eq!(machine(&i).regs[PC], 0x2000);
}

/// A step that CEX skips, an odd word and a fault need no record, and a full log stops none of them.
#[test]
fn what_needs_no_record_goes_on() {
    let source = " ORG $0000\n BYTE $10\n ORG $1000\n CEX FL,#1,#0\n STR.B R1,R0,#1\n CEX FL,#0,#1\n STR.B R1,R0,#1";
    let mut i = program(source, &[], 9, 0);
    assert_eq!(ran(&mut i), ended(2, 3, 0));
    // The CEX count of the step not taken is not lowered either.
    assert_eq!((machine(&i).cex, machine(&i).regs[PC]), (1, 0x1006));
    let odd = " ORG $0000\n BYTE $10\n ORG $1000\n STR R1,R0,#1\n ORG $FFE4\n WORD $0000\n WORD $1000";
    assert_eq!(ran(&mut program(odd, &[], 2, 0)).reason, 1);
}

/// The last step fills the log, no step is asked for, the machine is halted: never reason 2.
#[test]
fn a_full_log_is_no_reason() {
    assert_eq!(ran(&mut program(&two_stores("$10"), &[], 2, 2)), ended(0, 2, 2));
    assert_eq!(ran(&mut program(&two_stores("$10"), &[], 9, 2)), ended(0, 9, 2));
    assert_eq!(ran(&mut program(&two_stores("$10"), &[], 0, 0)), ended(0, 0, 0));
    assert_eq!(ran(&mut program(&two_stores("$10"), &[], 1, 0)), ended(2, 0, 0));
    let mut i = program(&two_stores("$10"), &[], 1, 0);
    i.record[21] = 1;
    assert_eq!(ran(&mut i), ended(1, 0, 0));
}

/// "9 when the log's length is not a multiple of 8, tested after 7", whatever n is.
#[test]
fn the_length_of_the_log() {
    for length in 0..40 {
        for n in [0, 3] {
            let mut i = program(&two_stores("$10"), &[], n, 0);
            i.log = vec![OLD; length];
            let given = i.clone();
            let result = run(&mut i.memory, n, &mut i.record, &i.events, &mut i.log);
            assert_eq!(result.err(), (length % 8 != 0).then_some(9), "{length} bytes");
            assert!(result.is_ok() || i == given);
        }
    }
    let mut i = program(&two_stores("$10"), &[(1, 0), (1, 0)], 3, 0);
    i.log = vec![OLD; 7];
    assert_eq!(refusal(&i.memory, i.n, &i.record, &i.events, &i.log), Some(13));
}

/// "the sheet's line is as if its run were" lent a log long enough.
#[test]
fn the_line_is_of_a_log_long_enough() {
    let mut i = program(&two_stores("$14"), &[], 9, 9);
    let line = sheet(&i.to_bytes()).0;
    assert!(line.starts_with("0 9 "), "{line}");
    assert_eq!(ran(&mut i), ended(0, 9, 2));
    assert_eq!(i.memory[0] & DBA, 0);
}

// ---- logs that are kept wrongly

/// A machine with its memory.
type State = (Machine, Vec<u8>);

/// How an engine keeps its log. The right way is `RIGHT`, and each wrong one differs from it in one thing.
struct Keeping {
    /// What a step shows, by what it did and the memory after it.
    shows: fn(&Trace, &[u8]) -> Option<(u8, u8)>,
    /// The step count that a record has, of those before and after the step.
    count: fn(u32, u32) -> u32,
    /// Whether the run goes on while the log is full, up to a step that would show something.
    goes_on: bool,
    /// What is left where a step is not taken, of the states before and after it, and whether it is counted.
    left: fn(State, State, &Trace) -> State,
    counted: bool,
    /// What becomes of the bytes past the last record.
    tail: fn(&mut [u8]),
}

const RIGHT: Keeping = Keeping {
    shows: |trace, _| trace.shown.map(|shown| (shown.device, shown.byte)),
    count: |before, _| before,
    goes_on: true,
    left: |before, _, _| before,
    counted: false,
    tail: |_| (),
};

/// The data byte that a store of an instruction writes: its device, the status before the act, the byte.
fn stored(trace: &Trace, memory: &[u8]) -> Option<(u8, u8, u8)> {
    let store = matches!(trace.act, Act::Execute(Instr::St { .. } | Instr::Str { .. }));
    let a = usize::from(trace.written.iter().copied().find(|&a| a < 16 && a & 1 == 1)?);
    store.then_some((a as u8 / 2, trace.devices[a - 1], memory[a]))
}

/// Runs an input with the oracle's steps and a log that is kept in the given way.
fn keeping(i: &mut Input, how: &Keeping) -> u64 {
    if let Some(number) = refusal(&i.memory, i.n, &i.record, &i.events, &i.log) {
        return number.into();
    }
    let (events, room) = (events_of(&i.events), i.log.len() / SHOWN);
    let (mut m, mut ran, mut open) = (Machine::from_record(&i.record), Ran::default(), 0);
    while u64::from(ran.steps) < i.n {
        let before = (m, i.memory.clone());
        if !how.goes_on && room > 0 && ran.added as usize == room {
            ran.reason = 2;
            break;
        }
        let Some(trace) = m.step(&mut i.memory, &events) else { break };
        if let Some((device, byte)) = (how.shows)(&trace, &i.memory) {
            if ran.added as usize == room {
                ran.reason = 2;
                (m, i.memory) = (how.left)(before, (m, std::mem::take(&mut i.memory)), &trace);
                ran.steps += u32::from(how.counted);
                break;
            }
            let shown = Shown { step: (how.count)(before.0.count, m.count), device, byte };
            let place = SHOWN * ran.added as usize;
            i.log[place..place + SHOWN].copy_from_slice(&shown_record(shown));
            ran.added += 1;
        }
        ran.steps += 1;
        open = trace.act.open_after(open);
        ran.deepest = ran.deepest.max(open);
    }
    i.deepest = ran.deepest;
    if m.halted {
        ran.reason = 1;
    }
    (how.tail)(&mut i.log[SHOWN * ran.added as usize..]);
    i.record = m.to_record().to_vec();
    reply(Ok(ran))
}

/// Engines that keep their log wrongly: the impostors of 02 §1, and others that a person could take it for.
#[rustfmt::skip]
const WRONG_LOGS: [(&str, Engine); 16] = [
    ("stops as soon as the log is full", |i| keeping(i, &Keeping { goes_on: false, ..RIGHT })),
    ("leaves the due events of the step not taken applied", |i| keeping(i, &Keeping {
        left: |mut before, _, trace| {
            before.1[..16].copy_from_slice(&trace.devices);
            before
        },
        ..RIGHT
    })),
    ("keeps the line that the step not taken has raised", |i| keeping(i, &Keeping {
        left: |before, after, _| (Machine { lines: after.0.lines, ..before.0 }, before.1),
        ..RIGHT
    })),
    ("counts the step not taken", |i| keeping(i, &Keeping { counted: true, ..RIGHT })),
    ("moves the step count past the step not taken", |i| keeping(i, &Keeping {
        left: |before, _, _| (Machine { count: before.0.count + 1, ..before.0 }, before.1),
        ..RIGHT
    })),
    ("takes the step that it has no room for", |i| keeping(i, &Keeping {
        left: |_, after, _| after,
        counted: true,
        ..RIGHT
    })),
    ("lowers the CEX count of the step not taken", |i| keeping(i, &Keeping {
        left: |before, after, _| (Machine { cex: after.0.cex, ..before.0 }, before.1),
        ..RIGHT
    })),
    ("takes ENA after the store", |i| keeping(i, &Keeping {
        shows: |trace, memory| stored(trace, memory)
            .filter(|&(d, ..)| memory[2 * usize::from(d)] & (ENA | INPUT) == ENA).map(|(d, _, byte)| (d, byte)),
        ..RIGHT
    })),
    ("does not ask for ENA", |i| keeping(i, &Keeping {
        shows: |trace, memory| stored(trace, memory).filter(|&(_, s, _)| s & INPUT == 0).map(|(d, _, byte)| (d, byte)),
        ..RIGHT
    })),
    ("logs input devices", |i| keeping(i, &Keeping {
        shows: |trace, memory| stored(trace, memory).filter(|&(_, s, _)| s & ENA != 0).map(|(d, _, byte)| (d, byte)),
        ..RIGHT
    })),
    ("logs pushes", |i| keeping(i, &Keeping {
        shows: |trace, memory| {
            let data = trace.written.iter().map(|&a| usize::from(a)).find(|&a| a < 16 && a & 1 == 1)?;
            (trace.devices[data - 1] & (ENA | INPUT) == ENA).then(|| (data as u8 / 2, memory[data]))
        },
        ..RIGHT
    })),
    ("logs the low byte of a word", |i| keeping(i, &Keeping {
        shows: |trace, memory| trace.shown.map(|shown| {
            let word = trace.written.len() == 2;
            (shown.device, if word { memory[usize::from(trace.written[0])] } else { shown.byte })
        }),
        ..RIGHT
    })),
    ("logs no store of a word", |i| keeping(i, &Keeping {
        shows: |trace, memory| (trace.written.len() == 1).then(|| (RIGHT.shows)(trace, memory)).flatten(),
        ..RIGHT
    })),
    ("clears the tail", |i| keeping(i, &Keeping { tail: |bytes| bytes.fill(0), ..RIGHT })),
    ("records the count after the step", |i| keeping(i, &Keeping { count: |_, after| after, ..RIGHT })),
    ("records the count of the run's own steps", |i| {
        let first = Machine::from_record(&i.record).count;
        let number = honest(i);
        let many = if number & 0xFF == 0 { number >> 40 } else { 0 };
        for record in i.log.chunks_exact_mut(SHOWN).take(many as usize) {
            let step = u32::from_le_bytes(std::array::from_fn(|k| record[k])).wrapping_sub(first);
            record[..4].copy_from_slice(&step.to_le_bytes());
        }
        number
    }),
];

#[test]
fn every_wrong_log_is_caught() {
    assert!(compare_many(|i| keeping(i, &RIGHT), Kind::Screen, 1, 400, &|_| ()).is_ok());
    for (name, engine) in WRONG_LOGS {
        assert!(compare_many(engine, Kind::Screen, 1, 400, &|_| ()).is_err(), "an engine that {name} passes");
    }
}
