//! xm23_places of libxm23.a beside the oracle: the reply and every byte of the buffer.

#[path = "library/assemble.rs"]
mod assembler;
#[path = "library/places.rs"]
mod library;

use oracle::assemble::source::Statement;
use oracle::assemble_inputs::{Input, Kind, KINDS};
use oracle::compare::folder;
use oracle::machine::MEMORY;
use oracle::places::{
    answer, compare, compare_many, judged, oracle_places, Difference, Judged, Lent, Lister, Reached, OWED, RECORD,
};
use oracle::{case, source_case, srec};

/// Saves a difference and ends the test with it.
fn fail((name, difference): (String, Difference)) -> ! {
    let place = difference.save(&folder(), &name);
    panic!("{name}: {}; saved: {place:?}", difference.what);
}

/// How many inputs of each kind the gate runs.
const INPUTS: u64 = 4_000;

/// Every kind of source, with buffers of every length. What is owed must be reached, each thing 20 times or more.
#[test]
fn every_kind_of_input() {
    let mut reached = Reached::default();
    for kind in KINDS {
        let many = match kind {
            Kind::Names => INPUTS / 10,
            Kind::Crafted => INPUTS * 4,
            _ => INPUTS,
        };
        compare_many(library::places, kind, 1, many, &mut reached).unwrap_or_else(|found| fail(found));
    }
    let gaps = reached.gaps(20);
    println!("{INPUTS} sources of each of {} kinds; {} things to reach", KINDS.len(), OWED.len());
    assert!(gaps.is_empty(), "hardly reached: {gaps:#?}");
}

/// Lists a source by both into so many bytes of #EE, and gives the reply and the buffer.
fn listed(source: &[u8], length: usize) -> (u64, Vec<u8>) {
    let given = Lent { source: source.to_vec(), places: vec![0xEE; length] };
    let reply = compare(library::places, &given, &mut Reached::default()).unwrap_or_else(|d| panic!("{}", d.what));
    let mut left = given;
    assert_eq!(library::places(&mut left), reply);
    (reply, left.places)
}

/// The example of docs/FORMATS.md, byte for byte.
#[test]
fn the_worked_example() {
    let lines = [
        ("N EQU #-2", [0xFE, 0xFF, 0xFF, 0xFF, 5, 0, 1, 0]),
        (" ORG $0100", [0, 0, 0, 0, 4, 0, 0, 0]),
        ("L MOVL N,R0", [0, 1, 0, 0, 1, 2, 1, 0]),
        (" BYTE #7 ; c", [2, 1, 0, 0, 2, 1, 0, 0]),
        ("B BSS #3", [3, 1, 0, 0, 6, 0, 1, 0]),
        ("X", [6, 1, 0, 0, 0, 0, 1, 0]),
        (" BRA L", [6, 1, 0, 0, 1, 2, 0, 0]),
        (" END", [8, 1, 0, 0, 7, 0, 0, 0]),
    ];
    let source: String = lines.iter().map(|(text, _)| format!("{text}\n")).collect::<String>() + "JUNK";
    let records: Vec<u8> = lines.iter().flat_map(|(_, record)| *record).collect();
    let (reply, places) = listed(source.as_bytes(), 67);
    assert_eq!((reply, &places[..64], &places[64..]), (8 << 32, &records[..], &[0xEE; 3][..]));
    assert_eq!(listed(source.as_bytes(), 64), (8 << 32, records));
    assert_eq!(listed(source.as_bytes(), 63), (22, vec![0xEE; 63]));
    assert_eq!(listed(source.as_bytes(), 0), (22, vec![]));
}

/// The sources of the readable cases and the corner sources, at every length up to two records more than they need.
#[test]
fn sources_of_the_repository() {
    let cases = case::all().into_iter().map(|case| case.source);
    for source in cases.chain(source_case::all().into_iter().map(|case| case.source)) {
        let records = judged(&source).map_or(1, |judged| judged.lines.len());
        if records <= 64 {
            (0..RECORD * (records + 2)).for_each(|length| drop(listed(&source, length)));
        } else {
            [0, RECORD * records - 1, RECORD * records].into_iter().for_each(|length| drop(listed(&source, length)));
        }
    }
}

/// "the image of exactly the statements whose byte 5 is not 0 .. at the places told": the bytes that xm23_assemble
/// changes are those that the records tell, and a refused source has one reply in both calls.
#[test]
fn what_the_assembler_writes() {
    for kind in KINDS {
        for seed in 1..=if kind == Kind::Names { 60 } else { 1_000 } {
            let source = oracle::assemble_inputs::input(kind, seed).source;
            let enough = RECORD * (1 + source.iter().filter(|&&b| b == b'\n').count());
            let mut lent = Lent { source: source.clone(), places: vec![0; enough] };
            let reply = library::places(&mut lent);
            let [zeros, ones] = [0, 0xFF].map(|byte| {
                let mut input = Input { memory: vec![byte; MEMORY], source: source.clone() };
                let assembled = assembler::assemble(&mut input);
                assert_eq!(assembled, if reply as u8 == 0 { 0 } else { reply }, "{kind:?} {seed}");
                input.memory
            });
            let mut told = vec![false; MEMORY];
            let many = if reply as u8 == 0 { (reply >> 32) as usize } else { 0 };
            for record in lent.places[..RECORD * many].chunks(RECORD) {
                let place = u32::from_le_bytes(record[..4].try_into().expect("four")) as usize;
                (0..usize::from(record[5])).for_each(|i| told[place + i] = true);
            }
            let written: Vec<bool> = zeros.iter().zip(&ones).map(|(a, b)| a == b).collect();
            assert!(written == told, "{kind:?} {seed}");
        }
    }
}

/// A million lines and as many records.
#[test]
fn long_sources() {
    let (reply, places) = listed(("\n".repeat(1_000_000) + "END").as_bytes(), RECORD * 1_000_001);
    assert_eq!(reply, 1_000_001 << 32);
    assert_eq!(places[RECORD * 1_000_000..], [0, 0, 0, 0, 7, 0, 0, 0]);
    assert_eq!(listed("\n".repeat(1_000_000).as_bytes(), 8).0, 17 | 1_000_001 << 32);
    assert_eq!(listed(("\n".repeat(1_000_000) + "END").as_bytes(), RECORD * 1_000_000).0, 22);
    let origins = format!("A EQU $10000\n{}END", "ORG A\n".repeat(100_000));
    assert_eq!(listed(origins.as_bytes(), RECORD * 100_002).0, 100_002 << 32);
}

// ---- calls that are wrong

/// The oracle, with a change to the records of an accepted source.
fn told(lent: &mut Lent, change: impl Fn(&Judged, usize, &mut [u8])) -> u64 {
    let reply = oracle_places(lent);
    if let (Ok(judged), 0) = (judged(&lent.source), reply as u8) {
        for (at, record) in lent.places[..RECORD * judged.lines.len()].chunks_mut(RECORD).enumerate() {
            change(&judged, at, record);
        }
    }
    reply
}

/// The place of the line after one, or the same for the last.
fn next_place(judged: &Judged, at: usize) -> [u8; 4] {
    let next = judged.places.get(at + 1).unwrap_or(&judged.places[at]);
    (*next as u32).to_le_bytes()
}

#[rustfmt::skip]
const WRONG: [(&str, Kind, Lister); 12] = [
    ("tells the place after the statement", Kind::Lawful, |l| told(l, |judged, at, record| {
        if record[4] != 5 { record[..4].copy_from_slice(&next_place(judged, at)) }
    })),
    ("tells EQU's place for its value", Kind::Lawful, |l| told(l, |judged, at, record| {
        if record[4] == 5 { record[..4].copy_from_slice(&(judged.places[at] as u32).to_le_bytes()) }
    })),
    ("lists lines after END", Kind::Lawful, |l| {
        let reply = oracle_places(l);
        let more = srec::lines(&l.source).len() as u64;
        if reply as u8 == 0 { more << 32 } else { reply }
    }),
    ("leaves END out", Kind::Lawful, |l| {
        let reply = oracle_places(l);
        if reply as u8 == 0 { reply - (1 << 32) } else { reply }
    }),
    ("writes into a buffer too short", Kind::Lawful, |l| {
        let reply = oracle_places(l);
        if reply == 22 {
            let records = judged(&l.source).unwrap_or_else(|_| panic!("22")).records();
            let length = l.places.len() / RECORD * RECORD;
            l.places[..length].copy_from_slice(&records[..length]);
        }
        reply
    }),
    ("needs a multiple of eight", Kind::Lawful, |l| {
        if l.places.len() % RECORD != 0 && judged(&l.source).is_ok() { 22 } else { oracle_places(l) }
    }),
    ("tests the length before the source", Kind::Damaged, |l| if l.places.len() < RECORD { 22 } else { oracle_places(l) }),
    ("clears the rest of the buffer", Kind::Lawful, |l| {
        let reply = oracle_places(l);
        if reply as u8 == 0 { let n = (reply >> 32) as usize; l.places[RECORD * n..].fill(0) }
        reply
    }),
    ("takes BSS for bytes", Kind::Lawful, |l| told(l, |judged, at, record| {
        if let Some(Statement::Bss(_)) = judged.lines[at].statement { record[5] = 1 }
    })),
    ("tells no name of a line that has nothing else", Kind::Lawful, |l| told(l, |_, _, record| {
        if record[4] == 0 { record[6] = 0 }
    })),
    ("cuts a place at 65,536", Kind::Crafted, |l| told(l, |_, _, record| if record[4] != 5 { record[2..4].fill(0) })),
    ("reads a line of its own after a lone CR", Kind::Crafted, |l| {
        let lf = |&b: &u8| if b == b'\r' { b'\n' } else { b };
        let source: Vec<u8> = l.source.iter().map(lf).collect();
        answer(judged(&source), &mut l.places)
    }),
];

#[test]
fn every_wrong_call_is_caught() {
    for (name, kind, lister) in WRONG {
        let found = compare_many(lister, kind, 1, 3_000, &mut Reached::default());
        assert!(found.is_err(), "a call that {name} passes");
    }
}

#[test]
fn the_oracle_does_not_differ_from_itself() {
    for kind in KINDS {
        assert!(compare_many(oracle_places, kind, 1, 100, &mut Reached::default()).is_ok());
    }
}
