//! libxm23.a's run call beside the oracle: reply, record, all 65,536 bytes, all of the log and the depth, on inputs of
//! every kind. `make fuzz` goes on from new seeds.

mod library;

use library::{library, xm23_run};
use oracle::case;
use oracle::compare::{compare, compare_many, folder, Difference};
use oracle::coverage::{owed, Coverage};
use oracle::inputs::{input, Input, Kind, KINDS};
use oracle::machine::{added_of, event_record, long_log, reply, shown_of, steps_of};
use oracle::machine::{Event, Machine, MEMORY, PC, RECORD, SHOWN};
use oracle::random::Random;

/// Saves a difference and ends the test with it.
fn fail(what: &str, difference: &Difference) -> ! {
    let place = difference.save(&folder(), &what.replace(' ', "-").to_lowercase());
    panic!("{what}: {}; saved: {place:?}", difference.what);
}

/// Runs an input by both, and gives the reply and what is left.
fn same(what: &str, given: &Input, seen: &mut Coverage) -> (u64, Input) {
    match compare(library, given, seen) {
        Ok(outcome) => (outcome.reply, outcome.left),
        Err(difference) => fail(what, &difference),
    }
}

/// How many inputs of each kind the gate runs.
fn count(kind: Kind) -> u64 {
    match kind {
        Kind::Wild => 60_000,
        Kind::Plausible => 70_000,
        Kind::Corner => 60_000,
        Kind::Broken => 40_000,
        Kind::Screen => 40_000,
        Kind::Nest => 40_000,
    }
}

/// Every kind of input, and the readable cases. What is owed must be reached, each thing 20 times or more.
#[test]
fn every_kind_of_input() {
    let mut seen = Coverage::default();
    for kind in KINDS {
        match compare_many(library, kind, 1, count(kind), &|_| ()) {
            Ok(reached) => seen.add(reached),
            Err(found) => fail(&format!("{kind:?} {}", found.seed), &found.difference),
        }
        println!("{kind:?}: {} inputs, no difference", count(kind));
    }
    for case in case::all() {
        same(&case.name, &case.input, &mut seen);
        seen.case(&case.name);
    }
    let gaps = seen.gaps(20);
    println!("{} things to reach", owed().len());
    assert!(gaps.is_empty(), "hardly reached: {gaps:#?}");
}

/// A machine that adds 1 to R0 for ever, at #1000.
fn counting(n: u64) -> Input {
    let mut m = Machine::default();
    m.regs[PC] = 0x1000;
    let mut memory = vec![0; MEMORY];
    memory[0x1000..0x1004].copy_from_slice(&[0x88, 0x40, 0xFE, 0x3F]);
    Input { memory, record: m.to_record().to_vec(), n, ..Input::default() }
}

/// The cases of 01's list that are no program, and those about lengths and numbers.
#[test]
fn limits() {
    let mut seen = Coverage::default();
    let mut reply = |what: &str, given: &Input| same(what, given, &mut seen).0;
    assert_eq!(reply("n 0", &counting(0)), 0);
    assert_eq!(reply("n 1,000,000", &counting(1_000_000)), 1_000_000 << 16);
    assert_eq!(reply("n 1,000,001", &counting(1_000_001)), 2);
    for n in [1_000_001, u64::from(u32::MAX), 1 << 32, u64::MAX - 1, u64::MAX] {
        assert_eq!(reply("n too large", &counting(n)), 2);
    }
    let list =
        |k: u32| (0..k).flat_map(|i| event_record(Event { step: i / 8, device: (i % 8) as u8, data: 1 })).collect();
    for (records, expected) in [(4_095, 3 << 16), (4_096, 3 << 16), (4_097, 5), (8_192, 5)] {
        assert_eq!(reply("events", &Input { events: list(records), ..counting(3) }), expected);
    }
    for length in [0, 1, 31, 32, 33, 65_535, 65_536, 65_537] {
        let expected = |right: usize, number: u64| if length == right { 1 << 16 } else { number };
        assert_eq!(reply("memory", &Input { memory: vec![0; length], ..counting(1) }), expected(MEMORY, 1));
        assert_eq!(reply("record", &Input { record: vec![0; length], ..counting(1) }), expected(RECORD, 3));
        let number = if length % 8 != 0 || length > 32_768 { 5 } else { 1 << 16 };
        let mut events: Vec<u8> = list(length.div_ceil(8) as u32);
        events.truncate(length);
        assert_eq!(reply("events", &Input { events, ..counting(1) }), number);
        let number = if number != 5 && length > 8 { 13 } else { number };
        assert_eq!(reply("twins", &Input { events: vec![0; length], ..counting(1) }), number);
        let number = if length % SHOWN != 0 { 9 } else { 1 << 16 };
        assert_eq!(reply("log", &Input { log: vec![3; length], ..counting(1) }), number);
        let twins = Input { events: vec![0; 16], log: vec![3; length], ..counting(1) };
        assert_eq!(reply("twins and log", &twins), 13);
    }
}

/// BIC and BIS through a step: both widths, each register and each constant as operand, each destination. [02 §5]
#[test]
fn bits_by_their_number() {
    let mut seen = Coverage::default();
    let mut random = Random::new(13);
    for form in 0..2 * 2 * 2 * 64 {
        let (op, rc, wb, registers) = (10 + form / 256, form / 128 % 2, form / 64 % 2, form % 64);
        let word = 0x4000 | op << 8 | rc << 7 | wb << 6 | registers;
        for _ in 0..40 {
            let mut m = Machine::default();
            // Numbers of bits, numbers just above them, and any number.
            let kinds = [16, 20, 512, 65_536];
            m.regs = std::array::from_fn(|_| {
                let kind = random.below(4) as usize;
                random.below(kinds[kind]) as u16
            });
            m.regs[PC] = 0x1000;
            m.psw = random.word() & !0x1E08;
            m.cex = random.word() & 0x40;
            let mut memory = vec![0; MEMORY];
            memory[0x1000..0x1002].copy_from_slice(&(word as u16).to_le_bytes());
            let record = m.to_record().to_vec();
            let given = Input { memory, record, n: 1, ..Input::default() };
            same(&format!("word {word:04X}"), &given, &mut seen);
        }
    }
}

/// Buffers of no bytes may be NULL.
#[test]
fn null_where_there_is_nothing() {
    let (mut i, mut deepest) = (counting(3), 77);
    let (none, no) = (std::ptr::null_mut(), std::ptr::null());
    let mut call = |m: *mut u8, ml, r: *mut u8, rl, n| {
        let reply = unsafe { xm23_run(m, ml, r, rl, no, 0, none, 0, &mut deepest, n) };
        (reply, deepest)
    };
    assert_eq!(call(none, 0, none, 0, 3), (1, 77));
    assert_eq!(call(i.memory.as_mut_ptr(), MEMORY, none, 0, 3), (3, 77));
    assert_eq!(call(i.memory.as_mut_ptr(), MEMORY, i.record.as_mut_ptr(), RECORD, 3), (3 << 16, 0));
}

/// A run advanced by slices, with the same list each time, closes as the whole run does.
#[test]
fn slices_close_as_the_whole_run() {
    let mut seen = Coverage::default();
    let mut random = Random::new(12);
    for seed in 1..=4_000 {
        let kind = if seed % 4 == 0 { Kind::Corner } else { Kind::Plausible };
        let mut given = input(kind, seed);
        given.log = long_log(given.n);
        let (whole, closed) = same(&format!("{kind:?} {seed}"), &given, &mut seen);
        let (mut slices, mut steps, mut left, mut deepest) = (given.clone(), 0, given.n, 0);
        while left > 0 {
            slices.n = random.below(left + 1).min(1 + random.below(40));
            let reply = library(&mut slices);
            assert_eq!(reply & 0xFF, 0);
            steps += steps_of(reply);
            deepest = deepest.max(slices.deepest);
            left -= slices.n;
        }
        // Each slice has a depth of its own, and none can be deeper than the whole.
        assert!(deepest <= closed.deepest, "{kind:?} {seed}: a slice is deeper than the whole");
        (slices.n, slices.log, slices.deepest) = (given.n, closed.log.clone(), closed.deepest);
        assert!(slices == closed && steps == steps_of(whole), "{kind:?} {seed}: slices close otherwise");
    }
}

/// A run with a log too short, then again with a fresh one and the same list, and so on: the logs joined are the one
/// log of the one run, and the close is its close. A log of no bytes takes the run to the next step that shows
/// something.
#[test]
fn logs_joined_are_the_one_log() {
    let (mut seen, mut random, mut short) = (Coverage::default(), Random::new(15), 0);
    for seed in 1..=4_000 {
        let kind = if seed % 4 == 0 { Kind::Plausible } else { Kind::Screen };
        let mut given = input(kind, seed);
        given.log = long_log(given.n);
        let (whole, closed) = same(&format!("{kind:?} {seed}"), &given, &mut seen);
        let (mut slices, mut joined, mut steps, mut last) = (given.clone(), Vec::<u8>::new(), 0, 2);
        let mut deepest = 0;
        while last == 2 {
            slices.log = vec![random.byte(); SHOWN * random.below(4) as usize];
            slices.n = given.n - steps;
            let reply = library(&mut slices);
            let (added, full) = (SHOWN * added_of(reply) as usize, slices.log.len());
            last = reply >> 8 & 0xFF;
            assert!(reply & 0xFF == 0 && (last != 2 || added == full), "{kind:?} {seed}: reply {reply:016X}");
            joined.extend(&slices.log[..added]);
            steps += steps_of(reply);
            deepest = deepest.max(slices.deepest);
            short += u32::from(last == 2);
        }
        // Each slice has a depth of its own, and none can be deeper than the whole.
        assert!(deepest <= closed.deepest, "{kind:?} {seed}: a slice is deeper than the whole");
        (slices.n, slices.log, slices.deepest) = (given.n, closed.log.clone(), closed.deepest);
        assert!(slices == closed && steps == steps_of(whole), "{kind:?} {seed}: slices close otherwise");
        assert_eq!(joined, closed.log[..SHOWN * added_of(whole) as usize], "{kind:?} {seed}");
        assert_eq!(last, whole >> 8 & 0xFF, "{kind:?} {seed}");
    }
    assert!(short > 4_000, "{short} times a log was too short");
}

/// 4,096 events over a run of many steps, all of them due.
#[test]
fn a_long_list_over_a_long_run() {
    let mut seen = Coverage::default();
    for seed in 1..=40 {
        let mut given = input(Kind::Plausible, seed);
        let mut random = Random::new(seed);
        let first = Machine::from_record(&given.record).count;
        let step = |i: u32| first + 5 * i;
        let list = (0..4_096).map(|i| Event { step: step(i), device: random.below(8) as u8, data: random.byte() });
        given.events = list.flat_map(event_record).collect();
        given.n = 20_500;
        given.log = long_log(given.n);
        same(&format!("long list {seed}"), &given, &mut seen);
    }
}

#[test]
fn readable_cases() {
    let mut seen = Coverage::default();
    let cases = case::all();
    assert!(cases.len() >= 20, "{} cases", cases.len());
    for case in cases {
        let (number, closed) = same(&case.name, &case.input, &mut seen);
        for (at, byte) in case.bytes {
            assert_eq!(closed.memory[usize::from(at)], byte, "{}: byte #{at:04X}", case.name);
        }
        if let Some(expected) = case.reply {
            assert_eq!(number, reply(expected), "{}: reply {number:016X}", case.name);
        }
        if let Some(expected) = case.deepest {
            assert_eq!(closed.deepest, expected, "{}: depth", case.name);
        }
        if let Some(expected) = case.shown {
            let added = SHOWN * added_of(number) as usize;
            assert_eq!(shown_of(&closed.log[..added]), expected, "{}", case.name);
        }
    }
}
