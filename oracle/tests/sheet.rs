//! The program print_state, run as a process, and the call xm23_sheet of libxm23.a, beside the oracle: the printed line.
//! The program is in XM23_BIN, or in target/bin of the repository.

#[path = "library/sheet.rs"]
mod library;

use oracle::assemble::assemble;
use oracle::case;
use oracle::inputs::{input, Input, Kind, KINDS};
use oracle::machine::{event_record, sheet, Event, Machine, EVENT, MAX_EVENTS, MEMORY, PC, RECORD};
use oracle::random::Random;
use std::io::{ErrorKind, Write};
use std::path::PathBuf;
use std::process::{Command, Stdio};

/// The length of an input without events.
const LEAST: usize = 4 + RECORD + MEMORY;

fn program() -> PathBuf {
    let folder = match std::env::var_os("XM23_BIN") {
        Some(folder) => PathBuf::from(folder),
        None => PathBuf::from(env!("CARGO_MANIFEST_DIR")).join("../target/bin"),
    };
    folder.join("print_state")
}

/// What the program prints for an input that comes in pieces. It may end before it has read all of a long one.
fn printed_in_pieces(input: &[u8], piece: usize) -> String {
    let mut command = Command::new(program());
    command.stdin(Stdio::piped()).stdout(Stdio::piped()).stderr(Stdio::piped());
    let mut child = command.spawn().unwrap_or_else(|e| panic!("{}: {e}", program().display()));
    let mut stdin = child.stdin.take().expect("a pipe");
    for part in input.chunks(piece.max(1)) {
        match stdin.write_all(part) {
            Err(e) if e.kind() == ErrorKind::BrokenPipe => break,
            result => result.expect("written"),
        }
    }
    drop(stdin);
    let output = child.wait_with_output().expect("an end");
    assert!(output.status.success() && output.stderr.is_empty(), "{output:?}");
    String::from_utf8(output.stdout).expect("text")
}

fn printed(input: &[u8]) -> String {
    printed_in_pieces(input, input.len())
}

/// The program prints what the oracle does, and the call writes it.
#[track_caller]
fn same(what: &str, input: &[u8]) -> String {
    let line = printed(input);
    assert_eq!(line, sheet(input).0, "{what}");
    compare(library::sheet_call, input, 80).unwrap_or_else(|difference| panic!("{what}: {difference}"));
    line
}

/// Writes the line of an input and gives the reply, as `xm23_sheet` does.
type Caller = fn(&[u8], &mut [u8]) -> u32;

/// What the call must reply and leave, by the oracle.
fn oracle_call(input: &[u8], line: &mut [u8]) -> u32 {
    if line.len() < 80 {
        return 22;
    }
    let text = sheet(input).0;
    line[..text.len()].copy_from_slice(text.as_bytes());
    (text.len() as u32) << 8
}

/// The call on an input, in a buffer of some bytes between guards: what differs, if anything does.
fn compare(call: Caller, input: &[u8], room: usize) -> Result<(), String> {
    const GUARD: usize = 8;
    let given: Vec<u8> = (0..room + 2 * GUARD).map(|i| (i * 37) as u8 ^ 0xA5).collect();
    let (mut left, mut expected) = (given.clone(), given);
    let reply = call(input, &mut left[GUARD..GUARD + room]);
    let owed = oracle_call(input, &mut expected[GUARD..GUARD + room]);
    if reply == owed && left == expected {
        return Ok(());
    }
    let shown = |bytes: &[u8]| String::from_utf8_lossy(bytes).into_owned();
    Err(format!("{room} bytes: {reply:X} {:?}, expected {owed:X} {:?}", shown(&left), shown(&expected)))
}

/// An accepted input: memory all zero, no steps.
fn accepted() -> Vec<u8> {
    vec![0; LEAST]
}

/// The accepted input with bytes put at a place.
fn with(at: usize, bytes: &[u8]) -> Vec<u8> {
    let mut input = accepted();
    input.resize(input.len().max(at + bytes.len()), 0);
    input[at..at + bytes.len()].copy_from_slice(bytes);
    input
}

#[test]
fn the_example_of_01() {
    let mut input = with(0, &1u32.to_le_bytes());
    input[4 + 12..4 + 18].copy_from_slice(&[0x00, 0x08, 0x01, 0x08, 0xE0, 0x60]);
    assert_eq!(same("example", &input), "0 1 0000 0000 0000 0000 0000 FFFF 07F8 0000 E100 00 00000000 1\n");
}

#[test]
fn each_refusal() {
    let record = 4;
    let events = |list: &[Event]| with(LEAST, &list.iter().flat_map(|&e| event_record(e)).collect::<Vec<u8>>());
    let on = |step, device| Event { step, device, data: 0 };
    for (line, input) in [
        ("R1\n", accepted()[..LEAST - 1].to_vec()),
        ("R2\n", with(0, &1_000_001u32.to_le_bytes())),
        ("R2\n", with(0, &u32::MAX.to_le_bytes())),
        ("R3\n", accepted()[..35].to_vec()),
        ("R4\n", with(record + 17, &[0x02])),
        ("R4\n", with(record + 18, &[0x80])),
        ("R4\n", with(record + 19, &[0x01])),
        ("R4\n", with(record + 20, &[1])),
        ("R4\n", with(record + 21, &[2])),
        ("R4\n", with(record + 30, &[1])),
        ("R4\n", with(record + 31, &[0x80])),
        ("R5\n", with(LEAST, &[0])),
        ("R5\n", with(LEAST, &[0; 15])),
        ("R5\n", with(LEAST, &[0; EVENT * (MAX_EVENTS + 1)])),
        ("R6\n", events(&[on(9, 0), on(3, 8)])),
        ("R6\n", with(LEAST, &[0, 0, 0, 0, 0, 0, 1, 0])),
        ("R6\n", with(LEAST, &[0, 0, 0, 0, 0, 0, 0, 1])),
        ("R7\n", events(&[on(1, 0), on(0, 0)])),
        ("R7\n", events(&[on(1, 0), on(1, 0), on(0, 0)])),
        ("R13\n", events(&[on(5, 0), on(5, 1), on(5, 0)])),
        ("R13\n", with(LEAST, &[0; EVENT * MAX_EVENTS])),
    ] {
        assert_eq!(same(line, &input), line);
    }
    let sum = [1u32.to_le_bytes(), u32::MAX.to_le_bytes()];
    let mut input = with(0, &sum[0]);
    input[record + 22..record + 26].copy_from_slice(&sum[1]);
    assert_eq!(same("sum", &input), "R2\n");
    input[0] = 0;
    assert!(same("sum, nearly", &input).starts_with("0 0 "));
    assert!(same("full counts", &with(record + 26, &[0xFF; 4])).ends_with(" FFFFFFFF 0\n"));
    assert!(same("equal steps", &events(&[on(5, 7), on(5, 0), on(5, 6)])).starts_with("0 0 "));
    let list: Vec<Event> = (0..MAX_EVENTS).map(|i| on(i as u32 / 8, i as u8 % 8)).collect();
    assert!(same("full list", &events(&list)).starts_with("0 0 "));
}

#[test]
fn short_input() {
    let mut random = Random::new(13);
    let junk: Vec<u8> = (0..LEAST).map(|_| random.byte()).collect();
    for length in (0..=40).chain([100, 1_000, 4_096, 65_535, 65_536, 65_537, LEAST - 2, LEAST - 1]) {
        let expected = if length < 36 { "R3\n" } else { "R1\n" };
        assert_eq!(same("zeros", &accepted()[..length]), expected, "{length} bytes");
        assert_eq!(same("junk", &junk[..length]), expected, "{length} bytes");
    }
}

#[test]
fn long_input() {
    for length in [98_339, 98_340, 98_341, 98_347, 98_348, 98_349, 131_072, 200_000, 1_000_000] {
        let expected = if length == 98_340 { "R13\n" } else { "R5\n" };
        assert!(same("zeros", &vec![0; length]).starts_with(expected), "{length} bytes");
    }
    // What is wrong before the events comes first, however long they are.
    let mut input = vec![0xFF; 200_000];
    assert_eq!(same("all ones", &input), "R2\n");
    input[..4].fill(0);
    input[26..30].fill(0);
    assert_eq!(same("record", &input), "R4\n");
}

#[test]
fn input_in_pieces() {
    let whole = input(Kind::Plausible, 7).to_bytes();
    let line = same("whole", &whole);
    for piece in [1_000, 4_095, 4_097, 65_536] {
        assert_eq!(printed_in_pieces(&whole, piece), line);
    }
}

#[test]
fn setups_of_every_kind() {
    let mut refused = 0;
    for kind in KINDS {
        for seed in 1..=150 {
            let i = input(kind, seed);
            let fits = i.memory.len() == MEMORY && i.record.len() == RECORD && i.n <= u32::MAX.into();
            if fits {
                refused += u32::from(same(&format!("{kind:?} {seed}"), &i.to_bytes()).starts_with('R'));
            }
        }
    }
    assert!(refused > 30, "{refused} refused");
}

/// "the sheet's line is as if its run were" lent a log long enough: a program that shows a byte on most of its steps,
/// with an event on each of them, for as long as there are events.
#[test]
fn a_line_of_a_run_that_shows_much() {
    let source = "
            ORG $0000
            BYTE $10        ; device 0: output, no interrupts
            ORG $0002
            BYTE $11        ; device 1: output, with interrupts
            ORG $1000
LOOP        ST.B R1,R0      ; R0 points at the data of device 0
            ADD.B #1,R1
            BRA LOOP
            ORG $2000
            STR.B R1,R0,#2  ; the data of device 1
            MOV LR,PC
            ORG $FFC4
            WORD $0060
            WORD $2000
    ";
    let mut m = Machine::default();
    (m.regs[0], m.regs[6], m.regs[PC]) = (1, 0x0800, 0x1000);
    for (n, apart, events) in [(3, 1, 0), (20_000, 1, 0), (20_000, 3, 4_096), (1_000_000, 200, 4_096)] {
        let event = |i: u32| event_record(Event { step: apart * i, device: (i % 2) as u8, data: 0 });
        let events = (0..events).flat_map(event).collect();
        let memory = assemble(&format!("{source}\n END")).memory();
        let input = Input { memory, record: m.to_record().to_vec(), events, n, ..Input::default() };
        assert!(same("much is shown", &input.to_bytes()).starts_with(&format!("0 {n} ")), "{n} steps");
    }
}

/// The cases of 01 and 003 that are programs, each a readable file.
#[test]
fn readable_cases() {
    let cases = case::all();
    for case in &cases {
        let line = same(&case.name, &case.input.to_bytes());
        assert_eq!(line, case.line, "{}: {}", case.name, case.title);
    }
    for name in case::OF_01.into_iter().chain(case::OF_02) {
        assert!(cases.iter().any(|case| case.name == name), "no case {name}");
    }
}

/// The example of 'make run' is what its source makes, and prints the line beside it.
#[test]
fn the_example_input() {
    let read = |name: &str| std::fs::read(format!("{}/../examples/{name}", env!("CARGO_MANIFEST_DIR"))).expect(name);
    let source = String::from_utf8(read("interrupts.txt")).expect("text");
    let case = case::parse("interrupts", &source).expect("no mistake");
    assert!(case.input.to_bytes() == read("interrupts.in"), "examples/interrupts.in is not of examples/interrupts.txt");
    assert_eq!(same("interrupts", &case.input.to_bytes()), case.line);
    let memory = sheet(&case.input.to_bytes()).1.expect("an accepted run");
    for (at, byte) in case.bytes {
        assert_eq!(memory[usize::from(at)], byte, "byte #{at:04X}");
    }
}

/// Inputs of every kind through the call alone; every refusal of a run, and both reasons, must be reached.
#[test]
fn the_call_on_every_kind_of_input() {
    let mut reached = std::collections::HashMap::new();
    for kind in KINDS {
        for seed in 1_000..1_600 {
            let mut i = input(kind, seed);
            i.n = i.n.min(u32::MAX.into());
            let bytes = i.to_bytes();
            let room = 80 + seed as usize % 3;
            compare(library::sheet_call, &bytes, room).unwrap_or_else(|d| panic!("{kind:?} {seed}: {d}"));
            let line = sheet(&bytes).0;
            let first = line.split([' ', '\n']).next().unwrap_or_default().to_string();
            *reached.entry(first).or_insert(0) += 1;
        }
    }
    for first in ["0", "1", "R1", "R2", "R4", "R5", "R6", "R7", "R13"] {
        assert!(reached.contains_key(first), "{first} is not reached: {reached:?}");
    }
}

/// A buffer of under 80 bytes is refused whatever the input is, and kept.
#[test]
fn the_call_in_every_length() {
    let broken = accepted()[..35].to_vec();
    for room in 0..=200 {
        for input in [&accepted(), &broken, &Vec::new()] {
            compare(library::sheet_call, input, room).unwrap_or_else(|difference| panic!("{difference}"));
        }
    }
}

/// Each refusal of a run is a line of the call and no refusal of it.
#[test]
fn the_call_on_each_refusal() {
    for (number, input) in [
        (1, accepted()[..LEAST - 1].to_vec()),
        (2, with(0, &u32::MAX.to_le_bytes())),
        (3, Vec::new()),
        (4, with(4 + 20, &[1])),
        (5, with(LEAST, &[0])),
        (6, with(LEAST, &[0, 0, 0, 0, 8, 0, 0, 0])),
        (7, with(LEAST, &[1, 0, 0, 0, 0, 0, 0, 0, 0, 0, 0, 0, 0, 0, 0, 0])),
        (13, with(LEAST, &[0; 16])),
    ] {
        let (mut line, text) = ([0xEE; 80], format!("R{number}\n"));
        assert_eq!(library::sheet_call(&input, &mut line), (text.len() as u32) << 8, "R{number}");
        assert!(line.starts_with(text.as_bytes()) && line[text.len()..].iter().all(|&b| b == 0xEE), "R{number}");
    }
}

/// Calls that are wrong on purpose are caught.
#[test]
fn wrong_calls() {
    let wrong: [(&str, Caller); 5] = [
        ("a line not ended", |input, line| {
            let kept = line.to_vec();
            let reply = oracle_call(input, line);
            if let Some(last) = ((reply >> 8) as usize).checked_sub(1) {
                line[last] = kept[last];
            }
            reply.saturating_sub(256)
        }),
        ("R for a refusal of the call", |input, line| {
            if line.len() < 80 && line.len() > 4 {
                line[..4].copy_from_slice(b"R22\n");
                return 4 << 8;
            }
            oracle_call(input, line)
        }),
        ("a refusal of the run in the reply", |input, line| {
            let reply = oracle_call(input, line);
            let refused = line.first() == Some(&b'R') && reply != 22;
            reply | u32::from(refused) * u32::from(line[1].wrapping_sub(b'0'))
        }),
        ("bytes past the line cleared", |input, line| {
            let reply = oracle_call(input, line);
            line.iter_mut().skip((reply >> 8) as usize).for_each(|byte| *byte = 0);
            reply
        }),
        ("79 bytes are enough", |input, line| {
            let mut whole = [0; 80];
            let reply = oracle_call(input, &mut whole);
            if line.len() == 79 {
                let length = (reply >> 8) as usize;
                line[..length].copy_from_slice(&whole[..length]);
                return reply;
            }
            oracle_call(input, line)
        }),
    ];
    let broken = accepted()[..35].to_vec();
    let inputs = [(accepted(), 80), (broken, 80), (accepted(), 79)];
    for (name, call) in wrong {
        assert!(inputs.iter().any(|(input, room)| compare(call, input, *room).is_err()), "{name}");
    }
    assert!(inputs.iter().all(|(input, room)| compare(oracle_call, input, *room).is_ok()));
}
