//! The journal of 02 §8, sentence by sentence; libxm23.a's two calls beside the oracle over sessions; and what the
//! comparison must catch: journals that are kept, and goings-back that are made, wrongly on purpose.

#[path = "library/journal.rs"]
mod library_journal;

use library_journal::{xm23_back, LIBRARY};
use oracle::assemble::assemble;
use oracle::case;
use oracle::compare::folder;
use oracle::inputs::{input, Input, Kind};
use oracle::journal::{address, record_of, Held, Journal, KEPT};
use oracle::journal_compare::{compare_many, replay, Difference, Engine, Reached, Session, ORACLE};
use oracle::machine::{
    even, event_record, events_of, long_log, reply, shown_record, Act, Event, Machine, Trace, DEVICES, MEMORY, PC,
    RECORD, SHOWN, SP,
};

/// A program at #1000 with SP #0800, a log long enough, and an empty journal of so many records whose bytes are #5A.
fn program(source: &str, events: &[(u32, u8)], n: u64, records: usize) -> Held {
    let mut m = Machine::default();
    (m.regs[SP], m.regs[PC]) = (0x0800, 0x1000);
    let record = |&(step, device): &(u32, u8)| event_record(Event { step, device, data: 0x99 });
    let input = Input {
        memory: assemble(&format!("{source}\n END")).memory(),
        record: m.to_record().to_vec(),
        events: events.iter().flat_map(record).collect(),
        log: long_log(n),
        n,
        ..Input::default()
    };
    Held { input, journal: Journal { bytes: vec![0x5A; KEPT * records], kept: 0, place: 0 } }
}

/// The record at a place.
fn kept(held: &Held, place: usize) -> &[u8] {
    &held.journal.bytes[KEPT * place..][..KEPT]
}

/// The address of a record, and the eight bytes.
fn parts(record: &[u8]) -> (u16, [u8; 8]) {
    (u16::from_le_bytes([record[48], record[49]]), std::array::from_fn(|i| record[50 + i]))
}

fn set_register(held: &mut Held, register: usize, value: u16) {
    held.input.record[2 * register..2 * register + 2].copy_from_slice(&value.to_le_bytes());
}

const HERE: &str = " ORG $1000\nHERE BRA HERE";

// ---- the sentences

/// "one 64-byte record per step, no header": "0-31 state record before the step, 32-47 the device bytes, 48-49 an
/// address, 50-57 the eight bytes there before the step, 58-63 zero".
#[test]
fn the_record() {
    let source =
        " ORG $0002\n BYTE $10\n BYTE $77\n ORG $0120\n BYTE #1\n BYTE #2\n BYTE #3\n BYTE #4\n BYTE #5\n BYTE #6
        BYTE #7\n BYTE #8\n ORG $1000\n ST R1,R2\nHERE BRA HERE";
    let mut held = program(source, &[], 2, 3);
    set_register(&mut held, 1, 0xBEEF);
    set_register(&mut held, 2, 0x0120);
    let given = held.clone();
    assert_eq!(held.run().map(|ran| ran.steps), Ok(2));
    let first = kept(&held, 0);
    assert_eq!(first[..32], given.input.record);
    assert_eq!(first[32..48], given.input.memory[..16]);
    assert_eq!(parts(first), (0x0120, [1, 2, 3, 4, 5, 6, 7, 8]));
    assert_eq!(first[58..], [0; 6]);
    // The branch: address 0, and bytes 0 to 7.
    assert_eq!(parts(kept(&held, 1)), (0, [0, 0, 0x10, 0x77, 0, 0, 0, 0]));
    assert_eq!(u32::from_le_bytes(kept(&held, 1)[22..26].try_into().unwrap()), 1);
    assert_eq!(kept(&held, 2), [0x5A; KEPT]);
    assert_eq!((held.journal.kept, held.journal.place), (2, 2));
}

/// "that of the last word pushed, bit 0 dropped": SP after the entry; the eight bytes are the whole frame, wrapping.
#[test]
fn the_address_of_an_entry() {
    let source = " ORG $1000\n SVC #11\n ORG $2000\nHERE BRA HERE\n ORG $FFEC\n WORD $0020\n WORD $2000";
    for (sp, expected) in [(0x0800, 0x07F8), (0x0801, 0x07F8), (4, 0xFFFC), (0, 0xFFF8), (3, 0xFFFA), (10, 2)] {
        let mut held = program(source, &[], 1, 1);
        set_register(&mut held, SP, sp);
        let given = held.clone();
        held.run().expect("accepted");
        let eight = std::array::from_fn(|i| given.input.memory[(usize::from(expected) + i) % MEMORY]);
        assert_eq!(parts(kept(&held, 0)), (expected, eight), "SP #{sp:04X}");
        assert_eq!(even(Machine::from_record(&held.input.record).regs[SP]), expected);
    }
    // A fault and an accepted line push too; a chained entry, a pull, a skip, a step asleep and a halt do not.
    let fault = program(" ORG $1000\n WORD $4E00", &[], 1, 1);
    let line = program(&format!("{HERE}\n ORG $0000\n BYTE $11\n ORG $FFC0\n WORD $0020"), &[(0, 0)], 1, 1);
    for (mut held, address) in [(fault, 0x07F8), (line, 0x07F8)] {
        held.run().expect("accepted");
        assert_eq!(parts(kept(&held, 0)).0, address);
    }
    let asleep = " ORG $1000\n SETCC S";
    let skip = " ORG $1000\n CEX FL,#1,#0\n ST R1,R2";
    for (source, steps) in [(asleep, 2), (skip, 2)] {
        let mut held = program(source, &[], steps, 2);
        held.run().expect("accepted");
        assert_eq!(parts(kept(&held, 1)), (0, [0; 8]), "{source}");
    }
    let mut halts = program(" ORG $1000\n WORD $4E00", &[], 5, 2);
    halts.input.record[17] |= 1;
    assert_eq!(halts.run().map(|ran| (ran.reason, ran.steps)), Ok((1, 1)));
    assert_eq!((parts(kept(&halts, 0)).0, halts.journal.kept), (0, 1));
}

/// "of the first byte stored outside the device bytes": a word at #000E is inside, one at #FFFE does not wrap.
#[test]
fn the_address_of_a_store() {
    for (at, byte, expected) in [
        (0x0010, false, 0x0010),
        (0x0011, true, 0x0011),
        (0x000E, false, 0),
        (0x000F, true, 0),
        (0x0004, false, 0),
        (0xFFFE, false, 0xFFFE),
        (0xFFFF, true, 0xFFFF),
        (0x4321, true, 0x4321),
    ] {
        let store = if byte { "ST.B" } else { "ST" };
        let mut held = program(&format!(" ORG $1000\n {store} R1,R2"), &[], 1, 1);
        set_register(&mut held, 2, at);
        held.run().expect("accepted");
        assert_eq!(parts(kept(&held, 0)).0, expected, "#{at:04X}");
    }
}

/// "before the step" is before its due events: an event changes device 0 as an entry pushes over it.
#[test]
fn before_the_due_events() {
    let source = format!("{HERE}\n ORG $0000\n BYTE $13\n BYTE $42\n ORG $FFC0\n WORD $0020\n WORD $2000");
    let mut held = program(&source, &[(0, 0)], 1, 1);
    set_register(&mut held, SP, 8);
    let given = held.clone();
    held.run().expect("accepted");
    assert_eq!(parts(kept(&held, 0)), (0, [0x13, 0x42, 0, 0, 0, 0, 0, 0]));
    assert_eq!(kept(&held, 0)[32..34], [0x13, 0x42]);
    assert_eq!(held.back(1), 0);
    assert!(held.input.memory == given.input.memory && held.input.record == given.input.record);
}

/// "the oldest overwritten when full", from any place; "lowers both numbers by k (the place wrapping)".
#[test]
fn the_ring() {
    for (place, steps) in [(0, 3), (0, 4), (2, 4), (3, 9), (1, 2)] {
        let mut held = program(HERE, &[], steps, 4);
        held.journal.place = place;
        let (start, before) = (held.input.clone(), held.journal.bytes.clone());
        held.run().expect("accepted");
        let kept = steps.min(4);
        assert_eq!((held.journal.kept, held.journal.place), (kept as u32, (place + steps as u32) % 4));
        let bytes = held.journal.bytes.clone();
        assert_eq!(held.back(kept + 1), 15);
        assert_eq!(held.back(kept), 0);
        assert_eq!((held.journal.kept, held.journal.place), (0, (place + (steps - kept) as u32) % 4));
        assert_eq!(Machine::from_record(&held.input.record).count, (steps - kept) as u32);
        assert_eq!(held.input.memory, start.memory);
        assert!(held.journal.bytes == bytes && bytes != before, "going back leaves the journal's bytes");
    }
}

/// A step that the log has no room for is not taken, and is not kept.
#[test]
fn a_step_not_taken_is_not_kept() {
    let mut held = program(" ORG $0002\n BYTE $10\n ORG $1000\n ADD #1,R1\n STR.B R1,R0,#3", &[], 5, 4);
    held.input.log.clear();
    assert_eq!(held.run().map(|ran| (ran.reason, ran.steps)), Ok((2, 1)));
    assert_eq!((held.journal.kept, held.journal.place), (1, 1));
    assert_eq!(kept(&held, 1), [0x5A; KEPT]);
}

/// "copies records out unchecked": whatever they hold, at any address, with bytes 58 to 63 not looked at.
#[test]
fn going_back_is_unchecked() {
    let mut held = program(HERE, &[], 0, 2);
    held.journal.bytes = (0..=127).collect();
    (held.journal.kept, held.journal.place) = (2, 1);
    held.journal.bytes[48..50].copy_from_slice(&[0xFC, 0xFF]);
    assert_eq!(held.back(1), 0);
    assert_eq!(held.input.record, (0..32).collect::<Vec<u8>>());
    // The device bytes first, then the eight bytes at #FFFC, of which four wrap over them.
    assert_eq!(held.input.memory[0xFFFC..], [50, 51, 52, 53]);
    assert_eq!(held.input.memory[..16], [54, 55, 56, 57, 36, 37, 38, 39, 40, 41, 42, 43, 44, 45, 46, 47]);
    assert_eq!((held.journal.kept, held.journal.place), (1, 0));
    // What comes out is no lawful record: the next run tells.
    held.input.n = 1;
    assert_eq!(held.run().map(|ran| ran.steps), Err(4));
    assert_eq!(held.back(1), 0);
    assert_eq!((held.journal.kept, held.journal.place), (0, 1));
    assert_eq!(held.back(0), 0);
    assert_eq!(held.back(1), 15);
}

/// "14 when the journal's length is zero, above 65,536 or not a multiple of 64, the number kept above its records or
/// the next place not below them", after 9; "15 when k exceeds the steps kept, after 14"; "going back tests 1, 3, 14
/// and 15".
#[test]
fn refusals() {
    let held = |length: usize, kept, place| {
        let mut held = program(HERE, &[], 1, 0);
        held.journal = Journal { bytes: vec![7; length], kept, place };
        held
    };
    for (length, kept, place, fits) in [
        (0, 0, 0, false),
        (1, 0, 0, false),
        (63, 0, 0, false),
        (64, 0, 0, true),
        (64, 1, 0, true),
        (64, 2, 0, false),
        (64, 0, 1, false),
        (65, 0, 0, false),
        (128, 2, 1, true),
        (128, 0, 2, false),
        (65_535, 0, 0, false),
        (65_536, 1_024, 1_023, true),
        (65_536, 1_025, 0, false),
        (65_536, 0, 1_024, false),
        (65_600, 0, 0, false),
        (131_072, 0, 0, false),
        (64, u32::MAX, 0, false),
        (64, 0, u32::MAX, false),
    ] {
        let expected: u64 = if fits { 0 } else { 14 };
        for engine in [ORACLE, LIBRARY] {
            let given = held(length, kept, place);
            let mut one = given.clone();
            assert_eq!((engine.run)(&mut one) & 0xFF, expected, "{length} {kept} {place}");
            assert!(fits || one == given);
            let mut one = given.clone();
            assert_eq!((engine.back)(&mut one, 0), expected, "{length} {kept} {place}");
            assert!(one == given);
            // 15 comes after 14, and 14 after 9.
            let over = u64::from(kept) + 1;
            for k in [over, u64::MAX] {
                assert_eq!((engine.back)(&mut one, k), if fits { 15 } else { 14 });
            }
            one.input.log = vec![0; 7];
            assert_eq!((engine.run)(&mut one), 9);
            one.input.record.pop();
            assert_eq!((engine.back)(&mut one, over), 3);
            one.input.memory.pop();
            assert_eq!((engine.back)(&mut one, over), 1);
        }
    }
}

/// Buffers of no bytes may be NULL.
#[test]
fn null_where_there_is_nothing() {
    let (none, no, mut kept, mut place) = (std::ptr::null_mut(), std::ptr::null(), 5, 6);
    assert_eq!(unsafe { xm23_back(none, 0, none, 0, no, 0, &mut kept, &mut place, 7) }, 1);
    assert_eq!((kept, place), (5, 6));
}

// ---- the library, over sessions

fn fail(seed: u64, found: &Difference) -> ! {
    let place = found.save(&folder(), &format!("journal-{seed}"));
    panic!("session {seed}: {}; saved: {place:?}", found.what);
}

/// 6,000 sessions of a dozen calls. What is owed must be reached, each thing 20 times or more.
#[test]
fn sessions() {
    let mut reached = Reached::default();
    if let Err((seed, found)) = compare_many(LIBRARY, 1, 6_000, &mut reached) {
        fail(seed, &found);
    }
    let gaps = reached.gaps(20);
    assert!(gaps.is_empty(), "hardly reached: {gaps:#?}");
}

/// A run with a journal is the run without one: the same reply, record, memory, log and depth, on inputs of every kind.
#[test]
fn the_same_run() {
    for (kind, many) in [
        (Kind::Wild, 1_500),
        (Kind::Plausible, 1_500),
        (Kind::Corner, 1_500),
        (Kind::Broken, 1_500),
        (Kind::Screen, 1_500),
        (Kind::Nest, 1_500),
    ] {
        for seed in 1..=many {
            let mut plain = input(kind, seed);
            let records = 1 + seed as usize % 40;
            let journal = Journal { bytes: vec![3; KEPT * records], kept: 0, place: (seed % records as u64) as u32 };
            let mut held = Held { input: plain.clone(), journal };
            let replies = (plain.replied(), (LIBRARY.run)(&mut held));
            assert!(replies.0 == replies.1 && held.input == plain, "{kind:?} {seed}: {replies:?}");
        }
    }
}

/// A long run over a full journal, all the way back, and on again.
#[test]
fn a_thousand_steps_back() {
    let mut held = program(" ORG $1000\nLOOP ST R1,R2+\n ADD #1,R1\n BRA LOOP", &[], 20_000, 1_024);
    set_register(&mut held, 2, 0x2000);
    let mut reached = Reached::default();
    let mut session = Session::new(LIBRARY, held, &mut reached);
    assert_eq!(session.run().map_err(|d| d.what), Ok(20_000 << 16));
    assert_eq!(session.back(1_025).map_err(|d| d.what), Ok(15));
    assert_eq!(session.back(1_000).map_err(|d| d.what), Ok(0));
    assert_eq!(session.back(24).map_err(|d| d.what), Ok(0));
    assert_eq!(session.back(1).map_err(|d| d.what), Ok(15));
}

/// Two runs of 512 steps with 4,096 events each, back over both, and on again: no one list that is accepted has all their
/// events, so that running on takes two runs as well.
#[test]
fn on_again_by_two_runs() {
    let mut held = program(" ORG $1000\nLOOP LD.B R2,R3\n ST.B R3,R4+\n BRA LOOP", &[], 512, 1_024);
    set_register(&mut held, 2, 0x0001);
    set_register(&mut held, 4, 0x2000);
    for device in 0..8 {
        held.input.memory[2 * device] = 0x12;
    }
    let list = |first: u32| -> Vec<u8> {
        let event = |i: u32| Event { step: first + i / 8, device: (i % 8) as u8, data: (i * 7 + first) as u8 };
        (0..4_096).map(event).flat_map(event_record).collect()
    };
    let mut reached = Reached::default();
    let mut session = Session::new(LIBRARY, held, &mut reached);
    for first in [0, 512] {
        session.held.input.events = list(first);
        assert_eq!(session.run().map_err(|d| d.what), Ok(512 << 16));
    }
    assert_eq!(session.back(1_024).map_err(|d| d.what), Ok(0));
}

/// The readable cases that say something of a journal.
#[test]
fn readable_cases() {
    let (mut looked, mut reached) = (0, Reached::default());
    for case in case::all() {
        let Some(expected) = case.journal else { continue };
        let (name, mut session) = (&case.name, Session::new(LIBRARY, expected.held, &mut reached));
        session.run().unwrap_or_else(|found| panic!("{name}: {}", found.what));
        let journal = &session.held.journal;
        assert_eq!((journal.kept, journal.place), expected.left, "{name}: the number kept and the next place");
        for (place, step, address, bytes) in expected.rows {
            let record = kept(&session.held, place);
            assert_eq!(Machine::from_record(&record[..RECORD]).count, step, "{name}: the step at place {place}");
            assert_eq!(parts(record), (address, bytes), "{name}: place {place}");
        }
        let refusal = session.back(expected.back).unwrap_or_else(|found| panic!("{name}: {}", found.what));
        assert_eq!(refusal, 0, "{name}: going back");
        let (m, memory) = (Machine::from_record(&session.held.input.record), &session.held.input.memory);
        for (part, value) in expected.state {
            let found = match part.as_str() {
                "PC" => m.regs[PC].into(),
                "SP" => m.regs[SP].into(),
                "PSW" => m.psw.into(),
                "COUNT" => m.count,
                "HALTED" => m.halted.into(),
                "LINES" => u32::from_le_bytes(m.lines.to_bytes()),
                name if name.starts_with('R') => m.regs[name[1..].parse::<usize>().expect("a register")].into(),
                address => memory[usize::from_str_radix(address, 16).expect("an address")].into(),
            };
            assert_eq!(found, value, "{name}: {part} after going back");
        }
        looked += 1;
    }
    assert!(looked >= 8, "{looked} cases");
}

// ---- journals that are kept wrongly

/// How an engine keeps its journal and goes back. `RIGHT` is the oracle's way, and each wrong one differs in one thing.
struct Keeping {
    /// The record of a step, of what it did, the machines before and after, and the memory before and after.
    record: fn(&Trace, &Machine, &Machine, [&[u8]; 2]) -> [u8; KEPT],
    /// Whether a step is kept, and one that the log has no room for.
    keeps: fn(Act) -> bool,
    untaken: bool,
    /// The number kept and the next place after a record, of those before it and the records that there is room for.
    after: fn(u32, u32, u32) -> (u32, u32),
    /// The refusal, of the right one and what is lent.
    refusal: fn(Option<u8>, &Held) -> Option<u8>,
}

const RIGHT: Keeping = Keeping {
    record: |trace, was, after, [_, memory]| record_of(trace, was, after, memory),
    keeps: |_| true,
    untaken: false,
    after: |kept, place, records| ((kept + 1).min(records), (place + 1) % records),
    refusal: |right, _| right,
};

/// Eight bytes of a memory, wrapping.
fn eight(memory: &[u8], a: u16) -> [u8; 8] {
    std::array::from_fn(|i| memory[usize::from(a.wrapping_add(i as u16))])
}

/// The right record with another address and the eight bytes there.
fn at(record: [u8; KEPT], a: u16, memory: &[u8]) -> [u8; KEPT] {
    let mut other = record;
    other[48..50].copy_from_slice(&a.to_le_bytes());
    other[50..58].copy_from_slice(&eight(memory, a));
    other
}

/// A run by the oracle's steps, with a journal that is kept in the given way.
fn keeping(held: &mut Held, how: &Keeping) -> u64 {
    if let Some(number) = (how.refusal)(held.refusal(), held) {
        return number.into();
    }
    let (mut plain, events) = (held.input.clone(), events_of(&held.input.events));
    let Ok(ran) = plain.run() else { return 4 };
    let (mut m, mut memory) = (Machine::from_record(&held.input.record), held.input.memory.clone());
    let journal = &mut held.journal;
    for _ in 0..ran.steps + u32::from(ran.reason == 2 && how.untaken) {
        let (was, before) = (m, memory.clone());
        let trace = m.step(&mut memory, &events).expect("a step");
        if (how.keeps)(trace.act) {
            let record = (how.record)(&trace, &was, &m, [&before, &memory]);
            let place = journal.place as usize % journal.records();
            journal.bytes[KEPT * place..][..KEPT].copy_from_slice(&record);
            (journal.kept, journal.place) = (how.after)(journal.kept, journal.place, journal.records() as u32);
        }
    }
    held.input = plain;
    reply(Ok(ran))
}

/// The right run, and goings-back of which one thing is changed: what is done to what is lent, from what was given.
fn going_back(held: &mut Held, k: u64, change: fn(&mut Held, &Held, u64)) -> u64 {
    let given = held.clone();
    let number = held.back(k);
    if number == 0 {
        change(held, &given, k);
    }
    number
}

const RUN: fn(&mut Held) -> u64 = ORACLE.run;
const BACK: fn(&mut Held, u64) -> u64 = ORACLE.back;

/// Engines that keep their journal or go back wrongly: the impostors of 02 §8, and others that a person could take it
/// for.
#[rustfmt::skip]
const WRONG: [(&str, Engine); 31] = [
    ("takes the eight bytes after the events", Engine { run: |held| keeping(held, &Keeping {
        record: |trace, was, after, [before, memory]| {
            let (mut record, a) = (record_of(trace, was, after, memory), address(trace, after));
            let mut delivered = before.to_vec();
            delivered[..16].copy_from_slice(&trace.devices);
            record[50..58].copy_from_slice(&eight(&delivered, a));
            record
        },
        ..RIGHT
    }), back: BACK }),
    ("takes the device bytes after the events", Engine { run: |held| keeping(held, &Keeping {
        record: |trace, was, after, [_, memory]| {
            let mut record = record_of(trace, was, after, memory);
            record[32..48].copy_from_slice(&trace.devices);
            record
        },
        ..RIGHT
    }), back: BACK }),
    ("takes the eight bytes after the step", Engine { run: |held| keeping(held, &Keeping {
        record: |trace, was, after, [_, memory]| {
            at(record_of(trace, was, after, memory), address(trace, after), memory)
        },
        ..RIGHT
    }), back: BACK }),
    ("takes the address of the first word pushed", Engine { run: |held| keeping(held, &Keeping {
        record: |trace, was, after, [before, memory]| {
            let (record, a) = (record_of(trace, was, after, memory), address(trace, after));
            let pushes = matches!(trace.act, Act::Accept(_) | Act::Fault(_) | Act::Trap(_));
            if pushes { at(record, a.wrapping_add(6), before) } else { record }
        },
        ..RIGHT
    }), back: BACK }),
    ("keeps bit 0 of SP in the address", Engine { run: |held| keeping(held, &Keeping {
        record: |trace, was, after, [before, memory]| {
            let (record, a) = (record_of(trace, was, after, memory), address(trace, after));
            let pushes = matches!(trace.act, Act::Accept(_) | Act::Fault(_) | Act::Trap(_));
            if pushes { at(record, a | after.regs[SP] & 1, before) } else { record }
        },
        ..RIGHT
    }), back: BACK }),
    ("takes the address of a store to the devices", Engine { run: |held| keeping(held, &Keeping {
        record: |trace, was, after, [before, memory]| {
            let record = record_of(trace, was, after, memory);
            match (trace.act, trace.written.first()) {
                (Act::Execute(_), Some(&a)) if a < DEVICES => at(record, a, before),
                _ => record,
            }
        },
        ..RIGHT
    }), back: BACK }),
    ("takes the last byte stored", Engine { run: |held| keeping(held, &Keeping {
        record: |trace, was, after, [before, memory]| {
            let record = record_of(trace, was, after, memory);
            match (trace.act, trace.written.last()) {
                (Act::Execute(_), Some(&a)) if a >= DEVICES => at(record, a, before),
                _ => record,
            }
        },
        ..RIGHT
    }), back: BACK }),
    ("takes an address for a return", Engine { run: |held| keeping(held, &Keeping {
        record: |trace, was, after, [before, memory]| {
            let record = record_of(trace, was, after, memory);
            if trace.act == Act::Pull { at(record, even(was.regs[SP]), before) } else { record }
        },
        ..RIGHT
    }), back: BACK }),
    ("takes an address for a chained entry", Engine { run: |held| keeping(held, &Keeping {
        record: |trace, was, after, [before, memory]| {
            let record = record_of(trace, was, after, memory);
            if let Act::Chain(_) = trace.act { at(record, even(was.regs[SP]), before) } else { record }
        },
        ..RIGHT
    }), back: BACK }),
    ("leaves the eight bytes zero where there is no address", Engine { run: |held| keeping(held, &Keeping {
        record: |trace, was, after, [_, memory]| {
            let mut record = record_of(trace, was, after, memory);
            if trace.written.is_empty() { record[50..58].fill(0) }
            record
        },
        ..RIGHT
    }), back: BACK }),
    ("keeps the state after the step", Engine { run: |held| keeping(held, &Keeping {
        record: |trace, was, after, [_, memory]| {
            let mut record = record_of(trace, was, after, memory);
            record[..RECORD].copy_from_slice(&after.to_record());
            record
        },
        ..RIGHT
    }), back: BACK }),
    ("keeps the lines that the due events have raised", Engine { run: |held| keeping(held, &Keeping {
        record: |trace, was, after, [_, memory]| {
            let mut record = record_of(trace, was, after, memory);
            let mut m = *was;
            let raises = |status: u8| status & 0x11 == 0x11;
            trace.due.iter().filter(|&&(_, status)| raises(status)).for_each(|&(device, _)| m.lines.raise(device));
            record[..RECORD].copy_from_slice(&m.to_record());
            record
        },
        ..RIGHT
    }), back: BACK }),
    ("has the address with its high byte first", Engine { run: |held| keeping(held, &Keeping {
        record: |trace, was, after, [_, memory]| {
            let mut record = record_of(trace, was, after, memory);
            record.swap(48, 49);
            record
        },
        ..RIGHT
    }), back: BACK }),
    ("leaves bytes 58 to 63 as they were", Engine { run: |held| keeping(held, &Keeping {
        record: |trace, was, after, [_, memory]| {
            let mut record = record_of(trace, was, after, memory);
            record[58..].fill(0x5A);
            record
        },
        ..RIGHT
    }), back: BACK }),
    ("does not cap the number kept", Engine { run: |held| keeping(held, &Keeping {
        after: |kept, place, records| (kept + 1, (place + 1) % records),
        ..RIGHT
    }), back: BACK }),
    ("caps the number kept at one less", Engine { run: |held| keeping(held, &Keeping {
        after: |kept, place, records| ((kept + 1).min(records.max(2) - 1), (place + 1) % records),
        ..RIGHT
    }), back: BACK }),
    ("does not wrap the place", Engine { run: |held| keeping(held, &Keeping {
        after: |kept, place, records| ((kept + 1).min(records), (place + 1).min(records - 1)),
        ..RIGHT
    }), back: BACK }),
    ("keeps a record of the step not taken", Engine { run: |held| keeping(held, &Keeping {
        untaken: true,
        ..RIGHT
    }), back: BACK }),
    ("keeps no record of a step asleep", Engine { run: |held| keeping(held, &Keeping {
        keeps: |act| act != Act::Sleep,
        ..RIGHT
    }), back: BACK }),
    ("keeps no record of a halting step", Engine { run: |held| keeping(held, &Keeping {
        keeps: |act| !matches!(act, Act::Halt(_)),
        ..RIGHT
    }), back: BACK }),
    ("tells of the journal before it tells of the log", Engine { run: |held| keeping(held, &Keeping {
        refusal: |right, held| if right == Some(9) && !held.journal.fits() { Some(14) } else { right },
        ..RIGHT
    }), back: BACK }),
    ("accepts a journal above 65,536 bytes", Engine { run: |held| keeping(held, &Keeping {
        refusal: |right, held| {
            let Journal { bytes, kept, place } = &held.journal;
            let whole = bytes.len() > 65_536 && bytes.len() % KEPT == 0;
            let fits = *kept as usize <= bytes.len() / KEPT && (*place as usize) < bytes.len() / KEPT;
            if right == Some(14) && whole && fits { None } else { right }
        },
        ..RIGHT
    }), back: BACK }),
    ("leaves the number lowered and the place not", Engine { run: RUN, back: |held, k| {
        going_back(held, k, |held, given, _| held.journal.place = given.journal.place)
    } }),
    ("leaves the place lowered and the number not", Engine { run: RUN, back: |held, k| {
        going_back(held, k, |held, given, _| held.journal.kept = given.journal.kept)
    } }),
    ("does not wrap the place below 0", Engine { run: RUN, back: |held, k| going_back(held, k, |held, given, k| {
        held.journal.place = u64::from(given.journal.place).saturating_sub(k) as u32;
    }) }),
    ("clears the records that it took back", Engine { run: RUN, back: |held, k| going_back(held, k, |held, _, k| {
        let records = held.journal.records();
        for i in 0..k as usize {
            let place = (held.journal.place as usize + i) % records;
            held.journal.bytes[KEPT * place..][..KEPT].fill(0);
        }
    }) }),
    ("goes back oldest first", Engine { run: RUN, back: |held, k| {
        let mut other = held.clone();
        let number = held.back(k);
        if number == 0 && k > 0 {
            // The same records, the newest copied last.
            let records = other.journal.records();
            for i in 0..k as usize {
                let place = (held.journal.place as usize + i) % records;
                other.journal.place = ((place + 1) % records) as u32;
                other.journal.kept = 1;
                other.back(1);
            }
            held.input = other.input;
        }
        number
    } }),
    ("copies the oldest record alone", Engine { run: RUN, back: |held, k| {
        let mut other = held.clone();
        let number = held.back(k);
        if number == 0 && k > 0 {
            other.journal.place = (held.journal.place + 1) % other.journal.records() as u32;
            other.journal.kept = 1;
            other.back(1);
            held.input = other.input;
        }
        number
    } }),
    ("copies the eight bytes before the device bytes", Engine { run: RUN, back: |held, k| {
        let given = held.clone();
        let number = held.back(k);
        if number == 0 {
            held.input.memory.clone_from(&given.input.memory);
            let records = held.journal.records();
            for i in (0..k as usize).rev() {
                let place = (held.journal.place as usize + i) % records;
                let record = given.journal.bytes[KEPT * place..][..KEPT].to_vec();
                let a = u16::from_le_bytes([record[48], record[49]]);
                (0..8).for_each(|i| held.input.memory[usize::from(a.wrapping_add(i))] = record[50 + usize::from(i)]);
                held.input.memory[..16].copy_from_slice(&record[32..48]);
            }
        }
        number
    } }),
    ("looks at what comes out", Engine { run: RUN, back: |held, k| {
        let given = held.clone();
        let number = held.back(k);
        let plain = Input { n: 0, events: Vec::new(), log: Vec::new(), ..held.input.clone() };
        if number == 0 && k > 0 && plain.clone().run().is_err() {
            *held = given;
            return 4;
        }
        number
    } }),
    ("tells of the steps kept before it tells of the journal", Engine { run: RUN, back: |held, k| {
        let number = held.back(k);
        if number == 14 && k > u64::from(held.journal.kept) { 15 } else { number }
    } }),
];

#[test]
fn every_wrong_journal_is_caught() {
    let right = Engine { run: |held| keeping(held, &RIGHT), back: |held, k| going_back(held, k, |_, _, _| ()) };
    assert!(compare_many(right, 1, 300, &mut Reached::default()).is_ok());
    for (name, engine) in WRONG {
        let found = compare_many(engine, 1, 700, &mut Reached::default());
        assert!(found.is_err(), "an engine that {name} passes");
    }
}

/// A difference is saved with its call, and an honest engine has none on it.
#[test]
fn a_difference_is_saved() {
    let (seed, found) = compare_many(WRONG[0].1, 1, 700, &mut Reached::default()).expect_err("a difference");
    let folder = std::path::Path::new(env!("CARGO_TARGET_TMPDIR"));
    let place = found.save(folder, &format!("journal-{seed}")).expect("saved");
    assert!(replay(ORACLE, &place).expect("read").is_ok());
    assert!(replay(WRONG[0].1, &place).expect("read").is_err());
}

/// What a log holds is none of the journal's: a record of it is as it was.
#[test]
fn going_back_leaves_the_log() {
    let mut held = program(" ORG $0002\n BYTE $10\n ORG $1000\n STR.B R1,R0,#3\nHERE BRA HERE", &[], 3, 4);
    held.run().expect("accepted");
    let shown = oracle::machine::Shown { step: 0, device: 1, byte: 0 };
    let (log, deepest) = (held.input.log.clone(), held.input.deepest);
    assert_eq!(log[..SHOWN], shown_record(shown));
    assert_eq!(held.back(3), 0);
    assert!(held.input.log == log && held.input.deepest == deepest);
}
