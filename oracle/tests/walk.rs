//! A run as plain rows: its line, what each step was and left, what became of each event. By hand, from the papers.

use oracle::alu::{FLT, SLP};
use oracle::assemble::assemble;
use oracle::case;
use oracle::inputs::{input, Input, KINDS};
use oracle::machine::*;
use oracle::walk::{rows, STEPS};

/// An input with the program at #1000, SP #0800 and these events, changed as `change` has it.
fn program(source: &str, events: &[(u32, u8, u8)], n: u64, change: impl FnOnce(&mut Machine)) -> Vec<u8> {
    let mut m = Machine::default();
    (m.regs[SP], m.regs[PC]) = (0x0800, 0x1000);
    change(&mut m);
    let record = |&(step, device, data): &(u32, u8, u8)| event_record(Event { step, device, data });
    Input {
        memory: assemble(&format!("{source}\n END")).memory(),
        record: m.to_record().to_vec(),
        events: events.iter().flat_map(record).collect(),
        n,
        ..Input::default()
    }
    .to_bytes()
}

/// The fields of every row of a kind.
fn of(input: &[u8], kind: &str) -> Vec<Vec<String>> {
    let all = rows(input);
    let fields = |row: &str| row.split('\t').map(str::to_string).collect::<Vec<String>>();
    all.lines().map(fields).filter(|row| row[0] == kind).map(|row| row[1..].to_vec()).collect()
}

/// Two handlers, the second interrupting the first; the first has pushed R0.
const NESTED: &str = "
            ORG $0002
            BYTE $11
            ORG $0004
            BYTE $11
            ORG $0006
            BYTE $11
            ORG $1000
HERE        BRA HERE
            ORG $2000
FIRST       ST R0,-SP
            BRA FIRST
            ORG $2100
SECOND      ADD #1,R1
            MOV LR,PC
            ORG $FFC4
            WORD $0040      ; device 1: priority 2
            WORD FIRST
            WORD $00A0      ; device 2: priority 5
            WORD SECOND
            WORD $0060      ; device 3: priority 3
            WORD SECOND
";

#[test]
fn what_the_last_step_was() {
    let sleeping = |m: &mut Machine| m.psw |= SLP;
    let faulted = |m: &mut Machine| m.psw |= FLT;
    let at = |pc: u16| move |m: &mut Machine| m.regs[PC] = pc;
    let plain = |_: &mut Machine| ();
    let skips = |m: &mut Machine| m.cex = 0x08;
    let svc = " ORG $1000\n SVC #4\n ORG $FFD0\n WORD $0080\n WORD $3000";
    let illegal = " ORG $1000\n WORD $4E00";
    for (input, expected) in [
        (program(" ORG $1000\n ADD.B #-1,R3", &[], 1, plain), ["1000", "40FB", "ADD.B #-1,R3", ""]),
        (program(illegal, &[], 1, skips), ["1000", "", "", "skipped by CEX"]),
        (program("", &[], 1, sleeping), ["1000", "", "", "asleep"]),
        (program(NESTED, &[(0, 1, 0)], 1, plain), ["1000", "", "", "line of device 1 accepted"]),
        (program(svc, &[], 1, plain), ["1000", "4DA4", "SVC #4", "SVC by vector 4"]),
        (program(illegal, &[], 1, plain), ["1000", "4E00", "WORD $4E00 ; illegal", "fault 8, illegal word"]),
        (program("", &[], 1, at(0x1001)), ["1001", "", "", "fault 9, odd address"]),
        (
            program(" ORG $1000\n SETPRI #3", &[], 9, faulted),
            ["1000", "4D83", "SETPRI #3", "halt: fault 10, priority, with FLT set"],
        ),
        (program("", &[], 1, at(0xFFFF)), ["FFFF", "", "", "return: CEX, PSW, LR, PC pulled"]),
    ] {
        let steps = of(&input, "step");
        assert_eq!(steps.last().expect("a step")[1..5], expected, "{}", sheet(&input).0);
    }
}

#[test]
fn what_a_step_left() {
    let left = |source: &str, events: &[(u32, u8, u8)], change: fn(&mut Machine)| {
        of(&program(source, events, 1, change), "step")[0][5].clone()
    };
    let plain = |_: &mut Machine| ();
    assert_eq!(left(" ORG $1000\n ADD.B #-1,R3", &[], plain), "R3 00FF, PSW 0004");
    assert_eq!(left(" ORG $1000\n CEX EQ,#2,#1", &[], plain), "CEX 11");
    assert_eq!(left(" ORG $1000\n BRA $1000", &[], plain), "");
    assert_eq!(left(" ORG $1000\n ST R1,-SP", &[], |m| m.regs[1] = 0x1234), "SP 07FE, 07FE: 34 12");
    assert_eq!(left(" ORG $1000\n ST.B R1,R4", &[], |m| m.regs[4] = 0x4321), "4321: 00");
    // A byte of a device is told as one, though it stays what it was; an event's too.
    assert_eq!(left(" ORG $1000\n STR.B R1,R0,#5", &[], plain), "device 2 data 00");
    assert_eq!(
        left(" ORG $0002\n BYTE $12", &[(0, 1, 0x41)], |m| m.psw |= SLP),
        "device 1 status 16, device 1 data 41"
    );
    // An entry pushes PC, LR, PSW and CEX.
    let entered = left(NESTED, &[(0, 1, 0)], |m| (m.regs[LR], m.cex) = (0xBEEF, 0x09));
    assert_eq!(entered, "LR FFFF, SP 07F8, PSW 0040, CEX 00, 07F8: 09 00 00 00 EF BE 00 10, device 1 status 15");
}

/// A word fetched from device registers is the one that the due events left.
#[test]
fn the_word_of_an_instruction_in_device_registers() {
    let input = program(" ORG $0000\n BYTE $12\n BYTE $4D", &[(0, 0, 0x40)], 1, |m| m.regs[PC] = 0);
    assert_eq!(of(&input, "step")[0][2..4], ["4016", "ADD R2,SP"]);
}

#[test]
fn a_chained_entry_and_a_return() {
    // Line 3 is not above priority 5 but above priority 2, so that the return at step 6 chains it.
    let chained = program(NESTED, &[(1, 1, 0), (3, 2, 0), (4, 3, 0)], 7, |_| ());
    assert_eq!(of(&chained, "step")[6][4], "return, chained to the line of device 3");
    let fates: Vec<Vec<String>> = of(&chained, "event").iter().map(|row| row[3..].to_vec()).collect();
    assert_eq!(
        fates,
        [["taken", "no", "accepted", "1"], ["taken", "no", "accepted", "3"], ["taken", "no", "chained", "6"]]
    );
    let pulled = program(NESTED, &[(1, 1, 0), (3, 2, 0)], 7, |_| ());
    assert_eq!(of(&pulled, "step")[6][4], "return: CEX, PSW, LR, PC pulled");
}

#[test]
fn events_of_a_line_that_counts() {
    // Sixteen events of device 7, whose vector has priority 0: the line counts fifteen of them, beside those of a
    // start.
    let many: Vec<(u32, u8, u8)> = (0..16).map(|step| (step, 7, 0)).collect();
    let source = " ORG $000E\n BYTE $11\n ORG $1000\nHERE BRA HERE";
    let all = of(&program(source, &many, 16, |_| ()), "event");
    assert_eq!(all[0], ["0", "7", "0", "taken", "no", "waits", ""]);
    assert_eq!(all[14][3..], ["taken", "yes", "waits", ""]);
    assert_eq!(all[15][3..], ["taken", "yes", "count full", ""]);
    // The oldest is answered first, and those of the start come before them all.
    let source = " ORG $000E\n BYTE $11\n ORG $1000\nHERE BRA HERE\n ORG $FFDC\n WORD $0080\n WORD $FFFF";
    let all = of(&program(source, &many[..2], 9, |m| m.lines = Lines::of(&[7, 7])), "event");
    assert_eq!(all[0][3..], ["taken", "no", "chained", "2"]);
    assert_eq!(all[1][3..], ["taken", "yes", "chained", "3"]);
}

#[test]
fn events_by_their_fate() {
    let events = [(1, 7, 0), (5, 7, 9), (6, 6, 0), (7, 7, 0)];
    let source = " ORG $000C\n BYTE $10\n ORG $1000\nHERE BRA HERE";
    let all = of(&program(source, &events, 2, |m| m.count = 5), "event");
    let fates: Vec<&str> = all.iter().map(|row| row[3].as_str()).collect();
    assert_eq!(fates, ["before the start", "ENA clear", "taken", "after the end"]);
    assert_eq!(all[1], ["5", "7", "9", "ENA clear", "", "", ""]);
    assert_eq!(all[2][4..], ["no", "IE clear", ""]);
}

#[test]
fn a_refused_input_has_its_line_alone() {
    assert_eq!(rows(&[]), "line\tR3\n");
    assert_eq!(rows(&[0; 36]), "line\tR1\n");
    let twins = program("", &[(3, 0, 0), (3, 0, 1)], 1, |_| ());
    assert_eq!(rows(&twins), "line\tR13\n");
}

/// Of every kind of input the line is the sheet's, a row has its fields, and the steps are the newest.
#[test]
fn rows_of_every_kind_of_input() {
    let mut inputs: Vec<Vec<u8>> = case::all().iter().map(|case| case.input.to_bytes()).collect();
    for kind in KINDS {
        let all = (1..=40).map(|seed| input(kind, seed)).filter(|i| i.n <= u32::MAX.into());
        inputs.extend(all.map(|i| i.to_bytes()));
    }
    for input in inputs {
        let line = sheet(&input).0;
        assert_eq!(rows(&input).split_inclusive('\n').next(), Some(format!("line\t{line}").as_str()));
        let steps = of(&input, "step");
        let done: usize = line.split(' ').nth(1).map_or(0, |field| field.parse().expect("a number"));
        assert_eq!(steps.len(), done.min(STEPS), "{line}");
        assert!(
            steps.iter().all(|row| row.len() == 6) && of(&input, "event").iter().all(|row| row.len() == 7),
            "{line}"
        );
    }
}
