//! `xm23_trace` beside the oracle: the sentences of docs/CALLS.md by hand-made runs, random and hostile calls, the laws,
//! and what the comparison must catch: traces that are written wrongly on purpose.

#[path = "library/trace.rs"]
mod library_trace;

use library_trace::library;
use oracle::assemble::assemble;
use oracle::inputs::Input;
use oracle::machine::{event_record, reply, steps_of, Event, Machine, Ran, PC, SP};
use oracle::trace::{Lent, KINDS, TRACED};
use oracle::trace_compare::{compare_many, differs, lend, lent, oracle, plain, Reached};

/// A program at #1000 with SP #0800 and PSW #0000, and a trace for so many records.
fn program(source: &str, events: &[(u32, u8, u8)], n: u64, records: usize, kinds: u32) -> Lent {
    let mut m = Machine::default();
    (m.regs[SP], m.regs[PC]) = (0x0800, 0x1000);
    let record = |&(step, device, data): &(u32, u8, u8)| event_record(Event { step, device, data });
    let input = Input {
        memory: assemble(&format!("{source}\n END")).memory(),
        record: m.to_record().to_vec(),
        events: events.iter().flat_map(record).collect(),
        n,
        ..Input::default()
    };
    lend(input, TRACED * records, kinds)
}

/// The records that a call of the library added, after it has been held to the oracle.
fn traced(given: &Lent) -> (u64, Vec<[u8; TRACED]>) {
    assert_eq!(differs(library, given, &mut Reached::default()), None);
    let mut told = given.clone();
    let replied = library(&mut told);
    let records = told.trace.chunks_exact(TRACED).take((replied >> 40) as usize);
    (replied, records.map(|record| record.try_into().unwrap()).collect())
}

/// Number, address and value of a record.
fn parts(record: &[u8; TRACED]) -> (u8, u8, u16, u16) {
    let word = |at: usize| u16::from_le_bytes([record[at], record[at + 1]]);
    (record[4], record[5], word(6), word(8))
}

/// Device 1 with ENA and IE, its handler at #2000, priority 5 in its vector.
const CLOCK: &str = " ORG $0002\n BYTE $11\n ORG $FFC4\n WORD $00A0\n WORD $2000";

#[test]
fn events_come_first_and_a_step_has_one_act() {
    let source = format!("{CLOCK}\n ORG $1000\nHERE BRA HERE\n ORG $2000\n MOV LR,PC");
    let given = program(&source, &[(1, 1, 0), (1, 3, 7)], 4, 8, KINDS);
    let (replied, records) = traced(&given);
    assert_eq!((replied >> 8 & 0xFF, steps_of(replied)), (0, 4));
    let told: Vec<_> = records.iter().map(parts).collect();
    assert_eq!(told[0], (9, 0, 0, 0));
    assert_eq!(told[1], (0, 1, 1 + 4, 0));
    assert_eq!(told[2], (0, 3, 0, 7));
    assert_eq!(told[3], (3, 1, 0x2000, 0x00A0));
    assert_eq!(told[4], (9, 0, 0, 0));
    assert_eq!(told[5], (1, 0, 0x1000, 0x0000));
    // PC, SP and PSW before the step, of its events too.
    for record in &records[1..4] {
        assert_eq!(record[..4], 1u32.to_le_bytes());
        assert_eq!(record[10..], [0x00, 0x10, 0x00, 0x08, 0x00, 0x00]);
    }
}

#[test]
fn what_an_event_did() {
    // Status bytes of devices 0 to 5: ENA clear; ENA; ENA and DBA; ENA and IE; ENA, IE and DBA; ENA and IE, count full.
    let source = " ORG $0000\n BYTE $05\n ORG $0002\n BYTE $10\n ORG $0004\n BYTE $14\n ORG $0006\n BYTE $11
        ORG $0008\n BYTE $15\n ORG $000A\n BYTE $11\n ORG $000C\n BYTE $10\n ORG $1000\nHERE BRA HERE";
    let due: Vec<_> = (0..7).map(|device| (0, device, 0x40 + device)).collect();
    let mut given = program(source, &due, 1, 8, 1);
    given.record[16] = 0xE0; // priority 7: nothing is accepted
    given.record[26..30].copy_from_slice(&0x0FF0_0000u32.to_le_bytes()); // 15 events of devices 5 and 6 wait
    let (_, records) = traced(&given);
    let effects: Vec<_> = records.iter().map(|record| (record[5], record[6], record[8])).collect();
    let expected = [(0, 0, 0x40), (1, 1, 0x41), (2, 3, 0x42), (3, 5, 0x43), (4, 7, 0x44), (5, 13, 0x45), (6, 9, 0x46)];
    assert_eq!(effects, expected);
}

#[test]
fn loads_and_stores_tell_the_operand() {
    // The store keeps bits 0 and 4 of the operand alone; the record has all of it. The load tells what it found.
    let source =
        " ORG $0004\n BYTE $0C\n ORG $1000\n MOVLZ $FF,R0\n MOVLZ #4,R1\n ST.B R0,R1\n LD.B R1,R2\n MOVL $34,R0
        MOVH $12,R0\n MOVLZ $80,R1\n ST R0,R1\n LD R1,R3";
    let (_, records) = traced(&program(source, &[], 9, 9, 1 << 10 | 1 << 11));
    let told: Vec<_> = records.iter().map(parts).collect();
    assert_eq!(told, [(11, 1, 4, 0xFF), (10, 1, 4, 0x1D), (11, 0, 0x80, 0x1234), (10, 0, 0x80, 0x1234)]);
}

#[test]
fn a_step_without_room_is_not_taken() {
    let source = format!("{CLOCK}\n ORG $1000\nHERE BRA HERE\n ORG $2000\n MOV LR,PC");
    let given = program(&source, &[(1, 1, 0)], 4, 2, KINDS);
    let mut told = given.clone();
    assert_eq!(library(&mut told), reply(Ok(Ran { reason: 2, steps: 1, added: 1, deepest: 0 })));
    // One place stays free; the event is not applied; the frame is not pushed.
    assert_eq!(told.trace[TRACED..], given.trace[TRACED..]);
    assert_eq!((told.memory[2], &told.memory[0x7F0..0x800]), (0x11, &given.memory[0x7F0..0x800]));
    assert_eq!(told.record[26..30], [0; 4]);
    traced(&given);
}

#[test]
fn a_halt_tells_no_vector() {
    let mut given = program(" ORG $1000\n WORD $4FFF", &[], 3, 3, KINDS);
    given.record[17] = 0x01; // FLT
    let (replied, records) = traced(&given);
    assert_eq!((replied >> 8 & 0xFF, steps_of(replied)), (1, 1));
    assert_eq!(parts(&records[0]), (6, 0, 0, 0));
}

#[test]
fn the_library_beside_the_oracle() {
    let mut reached = Reached::default();
    assert_eq!(compare_many(library, 0, 100_000, &mut reached), None);
    assert_eq!(reached.gaps(20), Vec::<String>::new());
}

/// The laws, of the oracle's answers and of the library's: the run is the run, fewer kinds are a choice of more, each
/// step has one act.
#[test]
fn laws() {
    for seed in 0..3_000 {
        let mut given = lent(seed);
        given.trace = vec![0xA5; TRACED * (given.n.min(2_000) as usize + given.events.len() / 8)];
        given.n = given.n.min(2_000);
        let kinds = given.kinds & KINDS;
        given.kinds = KINDS;
        let mut all = given.clone();
        let replied = library(&mut all);
        let (run, input) = plain(&given);
        assert_eq!(replied & 0xFF_FFFF_FFFF, run & 0xFF_FFFF_FFFF, "seed {seed}");
        assert_eq!((&all.memory, &all.record), (&input.memory, &input.record), "seed {seed}");
        if replied & 0xFF != 0 {
            continue;
        }
        let records: Vec<_> = all.trace.chunks_exact(TRACED).take((replied >> 40) as usize).collect();
        assert_eq!(records.iter().filter(|r| r[4] != 0).count() as u64, steps_of(replied), "seed {seed}");
        let mut fewer = Lent { kinds, ..given };
        let few = library(&mut fewer);
        let chosen: Vec<_> = records.into_iter().filter(|r| kinds >> r[4] & 1 == 1).collect();
        let there: Vec<_> = fewer.trace.chunks_exact(TRACED).take((few >> 40) as usize).collect();
        assert_eq!(there, chosen, "seed {seed}");
        assert_eq!(fewer.memory, all.memory, "seed {seed}");
    }
}

// ---- wrong on purpose

/// Every record of the oracle's answer changed, where it is accepted.
fn changed(lent: &mut Lent, change: impl Fn(&mut [u8])) -> u64 {
    let replied = oracle(lent);
    if replied & 0xFF == 0 {
        lent.trace.chunks_exact_mut(TRACED).take((replied >> 40) as usize).for_each(change);
    }
    replied
}

#[test]
fn wrong_traces_are_caught() {
    let engines: [(&str, fn(&mut Lent) -> u64); 9] = [
        ("steps counted after the step", |lent| changed(lent, |r| r[0] = r[0].wrapping_add(1))),
        ("the vector of a halt", |lent| changed(lent, |r| r[5] = if r[4] == 6 { 8 } else { r[5] })),
        ("a byte's high byte", |lent| changed(lent, |r| r[9] |= u8::from(r[4] == 11 && r[5] == 1))),
        ("count full told with IE alone", |lent| {
            changed(lent, |r| r[6] &= if r[4] == 0 && r[6] & 12 == 8 { 7 } else { 255 })
        }),
        ("DBA told for ENA clear", |lent| changed(lent, |r| r[6] |= if r[4] == 0 && r[6] == 0 { 2 } else { 0 })),
        ("the tail cleared", |lent| {
            let replied = oracle(lent);
            let end = if replied & 0xFF == 0 { TRACED * (replied >> 40) as usize } else { lent.trace.len() };
            lent.trace[end..].fill(0);
            replied
        }),
        ("21 before 1", |lent| if lent.trace.len() % TRACED != 0 { 21 } else { oracle(lent) }),
        ("kinds above 4,095 taken", |lent| {
            let kinds = lent.kinds;
            lent.kinds &= KINDS;
            let replied = oracle(lent);
            lent.kinds = kinds;
            replied
        }),
        ("events after the act", |lent| {
            let replied = oracle(lent);
            let many = if replied & 0xFF == 0 { (replied >> 40) as usize } else { 0 };
            let mut records: Vec<[u8; TRACED]> =
                lent.trace.chunks_exact(TRACED).take(many).map(|r| r.try_into().unwrap()).collect();
            records.sort_by_key(|r| (u32::from_le_bytes([r[0], r[1], r[2], r[3]]), r[4] == 0));
            records.iter().enumerate().for_each(|(i, r)| lent.trace[TRACED * i..][..TRACED].copy_from_slice(r));
            replied
        }),
    ];
    for (name, engine) in engines {
        assert!(compare_many(engine, 0, 3_000, &mut Reached::default()).is_some(), "{name} is not caught");
    }
}
