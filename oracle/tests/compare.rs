//! What the comparison must catch, held to engines that are wrong on purpose, and what it saves.

use oracle::alu::FLT;
use oracle::compare::{compare, compare_many, difference, saved, Difference, Engine, Outcome};
use oracle::corners::Seen;
use oracle::coverage::Coverage;
use oracle::inputs::{input, Input, Kind, KINDS};
use oracle::isa::Instr;
use oracle::machine::{event_record, events_of, without_twins, word_at, Act, Event, Machine, Trace};
use oracle::machine::{steps_of, DBA, DEVICES, EVENT, MEMORY, OF, PC, RECORD, SHOWN, SP, VECTORS};
use std::fs;
use std::path::{Path, PathBuf};

/// The oracle itself, as an engine.
fn honest(i: &mut Input) -> u64 {
    i.replied()
}

/// The oracle, with a change where the run is accepted.
fn accepted(i: &mut Input, change: impl Fn(&mut Input, u64) -> u64) -> u64 {
    let number = honest(i);
    if number & 0xFF == 0 {
        change(i, number)
    } else {
        number
    }
}

/// A change to what a step left, from what is seen of the step.
type Change = fn(&Trace, &Machine, &mut Machine, &mut [u8]);

/// The oracle step by step, with a change after each.
fn by_steps(i: &mut Input, change: Change) -> u64 {
    let mut right = i.clone();
    let whole = honest(&mut right);
    if whole & 0xFF != 0 {
        return whole;
    }
    (i.log, i.deepest) = (right.log, right.deepest);
    let (mut m, events) = (Machine::from_record(&i.record), events_of(&i.events));
    for _ in 0..steps_of(whole) {
        let before = m;
        let Some(trace) = m.step(&mut i.memory, &events) else { break };
        change(&trace, &before, &mut m, &mut i.memory);
    }
    i.record = m.to_record().to_vec();
    whole
}

/// A SWPB that keeps the high byte where bit 6 of its word is set.
fn swpb_by_the_ignored_bit(trace: &Trace, before: &Machine, after: &mut Machine, _: &mut [u8]) {
    if let Act::Execute(Instr::Swpb { dst, ignored: 1 }) = trace.act {
        let (old, new) = (before.regs[usize::from(dst)], &mut after.regs[usize::from(dst)]);
        if *new == old.swap_bytes() {
            *new = old & 0xFF00 | *new & 0x00FF;
        }
    }
}

/// A line or SVC entered at an odd SP goes to the handler of fault 9, FLT set.
fn entry_at_an_odd_sp_faults(trace: &Trace, before: &Machine, after: &mut Machine, memory: &mut [u8]) {
    if matches!(trace.act, Act::Accept(_) | Act::Trap(_)) && before.regs[SP] & 1 == 1 {
        after.regs[PC] = word_at(memory, VECTORS + 4 * 9 + 2);
        after.psw |= FLT;
    }
}

/// A load of a device's odd word clears DBA and OF, and then faults.
fn dba_cleared_before_the_fault(trace: &Trace, before: &Machine, after: &mut Machine, memory: &mut [u8]) {
    let seen = Seen { trace, before, after, memory };
    let loads = matches!(seen.odd_access(), Some(Instr::Ld { .. } | Instr::Ldr { .. }));
    match seen.word_address() {
        Some(at) if loads && at < DEVICES => memory[usize::from(at & !1)] &= !(DBA | OF),
        _ => {}
    }
}

/// The oracle step by step, with another count of each device: from those before and after the step, and whether one of
/// its events falls on the step.
fn counting(i: &mut Input, count: fn(u8, u8, bool) -> u8) -> u64 {
    let (mut right, n) = (i.clone(), i.n);
    let whole = honest(&mut right);
    if whole & 0xFF != 0 {
        return whole;
    }
    (i.n, i.log) = (1, vec![0; SHOWN]);
    for _ in 0..steps_of(whole) {
        let before = Machine::from_record(&i.record);
        let due: Vec<u8> =
            events_of(&i.events).into_iter().filter(|e| e.step == before.count).map(|e| e.device).collect();
        honest(i);
        let mut after = Machine::from_record(&i.record);
        for d in 0..8 {
            let counts = &mut after.lines.0[usize::from(d)];
            *counts = count(before.lines.count(d), *counts, due.contains(&d));
        }
        i.record = after.to_record().to_vec();
    }
    (i.n, i.log, i.deepest) = (n, right.log, right.deepest);
    whole
}

/// The oracle, but for lists that it refuses with 13 unless `so` says that they are to be: those run without a twin.
fn unless(i: &mut Input, so: fn(&[Event]) -> bool) -> u64 {
    let number = honest(i);
    let list = events_of(&i.events);
    if number != 13 || so(&list) {
        return number;
    }
    let events = std::mem::take(&mut i.events);
    i.events = without_twins(list).into_iter().flat_map(event_record).collect();
    let number = honest(i);
    i.events = events;
    number
}

/// Two records that are to be compared, neighbours or not, are alike.
fn any_two(list: &[Event], alike: fn(&Event, &Event) -> bool) -> bool {
    (1..list.len()).any(|j| list[..j].iter().any(|e| alike(e, &list[j])))
}

/// Engines that are wrong, the impostors of 01 first, each with a kind of input that shows it.
#[rustfmt::skip]
const WRONG: [(&str, Kind, Engine); 28] = [
    ("takes the first step truly and then only counts", Kind::Plausible, |i| {
        let n = std::mem::replace(&mut i.n, 1);
        let number = honest(i);
        i.n = n;
        if number != 1 << 16 { return number }
        let count = Machine::from_record(&i.record).count + n as u32 - 1;
        i.record[22..26].copy_from_slice(&count.to_le_bytes());
        n << 16
    }),
    ("is deaf to events", Kind::Plausible, |i| {
        let events = std::mem::take(&mut i.events);
        let number = honest(i);
        i.events = events;
        number
    }),
    ("invents the step count", Kind::Plausible, |i| accepted(i, |_, number| number + (1 << 16))),
    ("says halted before a step", Kind::Corner, |i| accepted(i, |_, number| number | 1 << 8)),
    ("refuses all", Kind::Wild, |_| 1),
    ("leaves a fixed state", Kind::Wild, |i| accepted(i, |i, number| { i.record.fill(0); number })),
    ("leaves all alone", Kind::Plausible, |i| i.n << 16),
    ("accepts all", Kind::Broken, |i| { let number = honest(i); if number <= 13 { 0 } else { number } }),
    ("accepts two events of one device on one step", Kind::Broken, |i| unless(i, |_| false)),
    ("looks at neighbours for twins", Kind::Broken, |i| unless(i, |list| {
        list.windows(2).any(|e| (e[0].step, e[0].device) == (e[1].step, e[1].device))
    })),
    ("takes records for twins only if their data is equal", Kind::Broken, |i| unless(i, |list| {
        any_two(list, |a, b| a == b)
    })),
    ("refuses equal steps on different devices", Kind::Plausible, |i| {
        let list = events_of(&i.events);
        accepted(i, |_, number| if any_two(&list, |a, b| a.step == b.step) { 13 } else { number })
    }),
    ("tells of twins before it tells of order", Kind::Broken, |i| {
        let number = honest(i);
        if number == 7 && without_twins(events_of(&i.events)).len() < i.events.len() / EVENT { 13 } else { number }
    }),
    ("changes a byte far away", Kind::Wild, |i| accepted(i, |i, number| { i.memory[0x8765] ^= 1; number })),
    ("changes an event", Kind::Plausible, |i| accepted(i, |i, number| {
        i.events.last_mut().into_iter().for_each(|byte| *byte = 1);
        number
    })),
    ("changes what it refuses", Kind::Broken, |i| {
        let number = honest(i);
        if let (true, Some(byte)) = (number & 0xFF != 0, i.memory.first_mut()) { *byte ^= 1 }
        number
    }),
    ("lets a count of 15 wrap to 0", Kind::Corner, |i| counting(i, |before, after, due| {
        if due && before == 15 && after == 15 { 0 } else { after }
    })),
    ("takes all that wait", Kind::Wild, |i| counting(i, |before, after, _| if after < before { 0 } else { after })),
    ("counts whether IE is set or not", Kind::Corner, |i| counting(i, |before, after, due| {
        if due && after == before { 15.min(after + 1) } else { after }
    })),
    ("has the odd devices in the low halves", Kind::Wild, |i| accepted(i, |i, number| {
        i.record[26..30].iter_mut().for_each(|byte| *byte = byte.rotate_left(4));
        number
    })),
    ("has device 7 in byte 26", Kind::Wild, |i| accepted(i, |i, number| { i.record[26..30].reverse(); number })),
    ("accepts an old record", Kind::Broken, |i| {
        let old = i.record.get(20).copied().unwrap_or(0);
        if old != 0 { i.record[20] = 0 }
        let number = honest(i);
        if number & 0xFF != 0 && old != 0 { i.record[20] = old }
        number
    }),
    ("replies with records that are not there", Kind::Wild, |i| accepted(i, |_, number| number | 1 << 63)),
    ("cuts the log's length to whole records", Kind::Broken, |i| {
        let mut whole = Input { log: i.log[..i.log.len() / SHOWN * SHOWN].to_vec(), ..i.clone() };
        let number = honest(&mut whole);
        i.log[..whole.log.len()].copy_from_slice(&whole.log);
        (i.memory, i.record, i.deepest) = (whole.memory, whole.record, whole.deepest);
        number
    }),
    ("tells of the log before it tells of twins", Kind::Broken, |i| {
        let number = honest(i);
        if number == 13 && i.log.len() % SHOWN != 0 { 9 } else { number }
    }),
    ("works on a byte where SWPB has its ignored bit set", Kind::Corner, |i| by_steps(i, swpb_by_the_ignored_bit)),
    ("faults on an entry at an odd SP", Kind::Plausible, |i| by_steps(i, entry_at_an_odd_sp_faults)),
    ("clears DBA and then faults by an odd address", Kind::Corner, |i| by_steps(i, dba_cleared_before_the_fault)),
];

#[test]
fn the_oracle_does_not_differ_from_itself() {
    for kind in KINDS {
        assert!(compare_many(honest, kind, 1, 300, &|_| ()).is_ok());
    }
}

#[test]
fn every_wrong_engine_is_caught() {
    for (name, kind, engine) in WRONG {
        let found = compare_many(engine, kind, 1, 400, &|_| ());
        let found = found.err().unwrap_or_else(|| panic!("an engine that {name} passes"));
        assert_eq!(found.difference.given, input(kind, found.seed), "{name}");
        assert!(!found.difference.what.is_empty());
    }
}

#[test]
fn progress_is_told_until_the_end() {
    let told = std::sync::Mutex::new(Vec::new());
    let result = compare_many(honest, Kind::Wild, 5, 101, &|done| told.lock().unwrap().push(done));
    let mut told = told.into_inner().unwrap();
    told.sort();
    assert!(result.is_ok() && told == (1..=101).collect::<Vec<u64>>());
}

/// An empty folder of this test's own.
fn empty(name: &str) -> PathBuf {
    let folder = Path::new(env!("CARGO_TARGET_TMPDIR")).join(name);
    fs::remove_dir_all(&folder).ok();
    folder
}

/// What is wrong about an accepted input with the faked outcome of an engine.
fn faked(given: &Input, fake: impl Fn(&mut Outcome)) -> Difference {
    let mut left = given.clone();
    let oracle = Outcome { reply: honest(&mut left), left };
    let mut library = oracle.clone();
    fake(&mut library);
    let what = difference(given, &library, &oracle).expect("a difference");
    Difference { what, given: given.clone(), oracle, library }
}

#[test]
fn a_difference_is_saved_with_both_outcomes() {
    let given = input(Kind::Plausible, 3);
    let wrong = faked(&given, |outcome| {
        outcome.left.memory[0x9876] = 0x5A;
        outcome.left.record[16] ^= 0x04;
    });
    let place = wrong.save(&empty("saved"), "3-plausible-0").expect("saved");
    let read = |name: &str| fs::read(place.join(name)).unwrap_or_else(|e| panic!("{name}: {e}"));
    let text = |name: &str| String::from_utf8(read(name)).expect("text");
    assert!(place.ends_with("3-plausible-0"));
    assert_eq!(read("input.in"), given.to_bytes());
    assert_eq!(saved(&place).expect("read"), given);
    assert!(text("difference.txt").starts_with("record byte 16 is "));
    assert_eq!(text("library.txt"), wrong.library.text(&given));
    assert!(text("library.txt").contains("\n#9876: 00 became 5A\n") && !text("oracle.txt").contains("#9876"));
    let reply = format!("reply {:016X}: refusal 0, reason ", wrong.oracle.reply);
    assert!(text("oracle.txt").starts_with(&reply) && text("library.txt").starts_with(&reply));
    let lines = |name: &str| text(name).lines().take(4).map(str::to_string).collect::<Vec<_>>();
    assert!(lines("oracle.txt")[2].starts_with("R0 ") && lines("oracle.txt")[3].starts_with("record "));
    assert_eq!(lines("oracle.txt")[1], format!("depth {}, handed in {}", wrong.oracle.left.deepest, given.deepest));
    assert_ne!(lines("oracle.txt")[2], lines("library.txt")[2]);
    // Run again, an honest engine has no difference on the saved input.
    assert!(compare(honest, &saved(&place).expect("read"), &mut Coverage::default()).is_ok());
}

/// Inputs that print_state cannot read are saved by their parts alone.
#[test]
fn an_input_of_wrong_lengths_is_saved_too() {
    for (name, given) in [
        ("memory", Input { memory: vec![7; MEMORY - 1], ..input(Kind::Wild, 4) }),
        ("record", Input { record: vec![7; RECORD + 1], ..input(Kind::Wild, 4) }),
        ("n", Input { n: u64::MAX, ..input(Kind::Wild, 4) }),
        ("nothing", Input { deepest: u32::MAX, n: 1 << 32, ..Input::default() }),
    ] {
        let wrong = faked(&given, |outcome| outcome.reply = 0);
        let place = wrong.save(&empty("parts"), name).expect("saved");
        assert_eq!(saved(&place).expect("read"), given, "{name}");
        assert!(!place.join("input.in").exists(), "{name}");
        assert!(fs::read_to_string(place.join("oracle.txt")).expect("text").starts_with("reply 000000000000000"));
    }
}
