//! The assembler's call of libxm23.a beside the oracle: reply and all of memory.

#[path = "library/assemble.rs"]
mod library;

use oracle::assemble::source::{Factor, Line, Statement};
use oracle::assemble::{judge, judge_lines, read, reply, value, Assembled, Fault};
use oracle::assemble_compare::{compare, compare_many, oracle_assemble, Assembler, Found, Reached, OWED};
use oracle::assemble_inputs::{Input, Kind, KINDS};
use oracle::compare::folder;
use oracle::machine::MEMORY;
use oracle::{case, source_case, srec};

/// Saves a difference and ends the test with it.
fn fail(found: Found) -> ! {
    let place = found.difference.save(&folder(), &found.name);
    panic!("{}: {}; saved: {place:?}", found.name, found.difference.what);
}

/// How many inputs of each kind the gate runs.
const INPUTS: u64 = 4_000;

/// Every kind of input. What is owed must be reached, each thing 20 times or more.
#[test]
fn every_kind_of_input() {
    let mut reached = Reached::default();
    for kind in KINDS {
        let many = match kind {
            Kind::Names => INPUTS / 10,
            Kind::Crafted => INPUTS * 4,
            _ => INPUTS,
        };
        compare_many(library::assemble, kind, 1, many, &mut reached).unwrap_or_else(|found| fail(found));
    }
    let gaps = reached.gaps(20);
    println!("{INPUTS} sources of each of {} kinds; {} things to reach", KINDS.len(), OWED.len());
    assert!(gaps.is_empty(), "hardly reached: {gaps:#?}");
}

/// Assembles a source into a memory of #EE by both, and gives refusal and line, and the memory.
fn assembled(source: &[u8]) -> (u8, u32, Vec<u8>) {
    let given = Input { memory: vec![0xEE; MEMORY], source: source.to_vec() };
    let reply = compare(library::assemble, &given, &mut Reached::default()).unwrap_or_else(|d| panic!("{}", d.what));
    let mut left = given;
    assert_eq!(library::assemble(&mut left), reply);
    assert_eq!(reply >> 8 & 0xFF_FFFF, 0);
    (reply as u8, (reply >> 32) as u32, left.memory)
}

/// The refusal and the line at fault of a source.
fn verdict(source: &str) -> (u8, u32) {
    let (refusal, line, memory) = assembled(source.as_bytes());
    assert!(refusal == 0 || memory == [0xEE; MEMORY], "refused with a change");
    (refusal, line)
}

/// Each corner source is judged as its file says.
#[test]
fn corner_sources() {
    for case in source_case::all() {
        let (refusal, line, memory) = assembled(&case.source);
        let mut wanted = vec![0xEE; MEMORY];
        let expected = case.expected.map(|bytes| bytes.iter().for_each(|&(a, b)| wanted[usize::from(a)] = b));
        let found = if refusal == 0 { Ok(()) } else { Err(Fault { number: refusal, line: line.into() }) };
        assert_eq!(found, expected, "{}", case.name);
        assert!(memory == wanted, "{}", case.name);
    }
}

/// The readable cases, every program of 003's chapters among them: the proved assembler makes the memory that they run
/// in.
#[test]
fn readable_cases() {
    for case in case::all() {
        let mut made = Input { memory: vec![0; MEMORY], source: case.source.clone() };
        assert_eq!(library::assemble(&mut made), 0, "{}", case.name);
        assert!(made.memory == case.input.memory, "{}", case.name);
        assert_eq!(assembled(&case.source).0, 0, "{}", case.name);
    }
}

/// Every word is written from its text.
#[test]
fn every_word() {
    let text = |word: u16, at: usize| oracle::listing::text(word, at as u16);
    let words: Vec<u16> = (0..=u16::MAX).collect();
    for part in words.chunks(1 << 12) {
        let source: String = part.iter().enumerate().map(|(i, &word)| text(word, 2 * i) + "\n").collect();
        let (refusal, line, memory) = assembled(format!("{source}END").as_bytes());
        assert_eq!((refusal, line), (0, 0));
        let expected: Vec<u8> = part.iter().flat_map(|word| word.to_le_bytes()).collect();
        assert!(memory[..expected.len()] == expected, "from {:04X}", part[0]);
    }
}

/// "or the 1,025th": of names given, wherever they are given.
#[test]
fn a_thousand_names() {
    let many = |n: usize| (0..n).map(|i| format!("NAME{i}\n")).collect::<String>();
    assert_eq!(verdict(&(many(1_024) + "END")), (0, 0));
    assert_eq!(verdict(&(many(1_025) + "END")), (18, 1_025));
    assert_eq!(verdict(&(many(1_024) + "A END")), (18, 1_025));
    assert_eq!(verdict(&(many(1_024) + "WORD NAME1023\nBYTE NAME0\nEND")), (0, 0));
    assert_eq!(verdict(&("WORD NAME1024\n".to_string() + &many(1_025) + "END")), (18, 1));
    assert_eq!(verdict(&("WORD NAME1023\n".to_string() + &many(1_025) + "END")), (18, 1_026));
    let long = "A".repeat(100_000);
    assert_eq!(verdict(&format!("{long}B EQU #1\n{long}C EQU #2\nWORD {long}C\nEND")), (0, 0));
    assert_eq!(verdict(&format!("{long}B EQU #1\n{long}C EQU #2\nWORD {long}D\nEND")), (18, 3));
}

/// A million lines, a line of a million bytes of each kind: linear, and the line at fault is right.
#[test]
fn long_sources() {
    assert_eq!(verdict(&("\n".repeat(1_000_000) + "END")), (0, 0));
    assert_eq!(verdict(&"\n".repeat(1_000_000)), (17, 1_000_001));
    assert_eq!(verdict(&("\n".repeat(1_000_000) + "?\nEND")), (17, 1_000_001));
    assert_eq!(verdict(&("ORG #0\nBYTE #1\n".repeat(60_000) + "BYTE X\nEND")), (18, 120_001));
    assert_eq!(verdict(&("ORG #0\nBYTE #1\n".repeat(60_000) + "BYTE #256\nEND")), (19, 120_001));
    for (part, expected) in
        [(" ", (17, 1)), ("(", (17, 1)), ("A", (0, 0)), ("#", (17, 1)), ("\r", (17, 1)), (";", (0, 0))]
    {
        let expected = if part == " " { (0, 0) } else { expected };
        assert_eq!(verdict(&(part.repeat(1_000_000) + "\nEND")), expected, "{part:?}");
    }
    assert_eq!(verdict(&format!("A EQU #{}\nEND", "9".repeat(1_000_000))), (19, 1));
    assert_eq!(verdict(&format!("A EQU #{}1\nEND", "0".repeat(1_000_000))), (0, 0));
    assert_eq!(verdict(&format!("A EQU (#1{})\nEND", "-#1+#1".repeat(200_000))), (0, 0));
    assert_eq!(verdict(&format!("A EQU ((#1){})\nEND", "*(#1)".repeat(200_000))), (0, 0));
}

/// Twenty thousand lines, each of which uses one of a thousand names.
#[test]
fn large_programs() {
    let uses: String = (0..20_000).map(|i| format!("ORG #0\nWORD N{}\n", i * 7 % 1_000)).collect();
    let names: String = (0..1_000).map(|i| format!("N{i} BYTE #0\n")).collect();
    assert_eq!(verdict(&format!("{uses}{names}END")), (0, 0));
}

// ---- assemblers that are wrong

/// The oracle, with a change to the source that it is handed.
fn handed(i: &mut Input, change: impl Fn(&[u8]) -> Vec<u8>) -> u64 {
    let changed = change(&i.source);
    let source = std::mem::replace(&mut i.source, changed);
    let reply = oracle_assemble(i);
    i.source = source;
    reply
}

/// The oracle, with a change to what an accepted source says, line by line.
fn said(i: &mut Input, change: impl Fn(&Assembled, usize, Line) -> Vec<Line>) -> u64 {
    let (Ok(made), true) = (judge(&i.source), i.memory.len() == MEMORY) else { return oracle_assemble(i) };
    let lines = read(&i.source).expect("accepted").into_iter().enumerate();
    let changed: Vec<Line> = lines.flat_map(|(at, line)| change(&made, at, line)).collect();
    let result = judge_lines(&changed);
    result.iter().for_each(|made| made.load(&mut i.memory));
    reply(result.map(|_| ()))
}

/// A change to each bracket of a line, the inner ones first.
fn brackets(mut line: Line, change: &impl Fn(Factor) -> Factor) -> Line {
    fn walk(factor: &mut Factor, change: &impl Fn(Factor) -> Factor) {
        if let Factor::Bracket(terms) = factor {
            terms.iter_mut().flat_map(|(_, factors)| factors).for_each(|(_, factor)| walk(factor, change));
        }
        *factor = change(factor.clone());
    }
    use Statement::{Byte, Equ, MovImm, Word};
    match &mut line.statement {
        Some(Byte(v) | Word(v) | Equ(v) | MovImm { value: v, .. }) => walk(v, change),
        _ => {}
    }
    line
}

/// The lines above one, with END.
fn above(source: &[u8], line: u64) -> Vec<u8> {
    [&srec::lines(source)[..line as usize - 1].join(&b'\n'), &b"\nEND"[..]].concat()
}

/// Numbers outside comments, `#12` as `$12`.
fn base_sixteen(source: &[u8]) -> Vec<u8> {
    let mut comment = false;
    let change = |(at, &b): (usize, &u8)| {
        comment = b != b'\n' && (comment || b == b';');
        if b == b'#' && !comment && source.get(at + 1).is_some_and(u8::is_ascii_digit) {
            b'$'
        } else {
            b
        }
    };
    source.iter().enumerate().map(change).collect()
}

/// `a - b - c` as `a - (b - c)`.
fn from_the_right(factor: Factor) -> Factor {
    match factor {
        Factor::Bracket(mut terms) if terms.len() > 2 && terms[1].0 == b'-' => {
            let mut rest = terms.split_off(1);
            rest[0].0 = b'+';
            terms.push((b'-', vec![(b'*', Factor::Bracket(rest))]));
            Factor::Bracket(terms)
        }
        other => other,
    }
}

/// A quotient of two numbers, rounded down.
fn rounded_down(factor: Factor) -> Factor {
    if let Factor::Bracket(terms) = &factor {
        if let [(_, factors)] = &terms[..] {
            if let [(_, Factor::Number(Some(a))), (b'/', Factor::Number(Some(b)))] = factors[..] {
                let down = i64::from(a) as f64 / f64::from(b);
                return Factor::Number(Some(down.floor() as i32));
            }
        }
    }
    factor
}

/// Where an assembler that is wrong is shown to be so, and the assembler; those of 02's list first.
type Wrong = (&'static str, Kind, Assembler);

#[rustfmt::skip]
const WRONG: [Wrong; 21] = [
    ("reads # in base sixteen", Kind::Lawful, |i| handed(i, base_sixteen)),
    ("takes minus from the right", Kind::Crafted, |i| said(i, |_, _, line| vec![brackets(line, &from_the_right)])),
    ("rounds a quotient down", Kind::Crafted, |i| said(i, |_, _, line| vec![brackets(line, &rounded_down)])),
    ("accepts ORG of a name below", Kind::Crafted, |i| match judge(&i.source) {
        Err(Fault { number: 18, line }) if i.memory.len() == MEMORY => {
            let lines = read(&i.source).expect("18");
            let below = |name: &str| lines.iter().any(|line| line.name.as_deref() == Some(name));
            match &lines[line as usize - 1].statement {
                Some(Statement::Org(v)) if v.names().into_iter().all(below) => 0,
                _ => oracle_assemble(i),
            }
        }
        _ => oracle_assemble(i),
    }),
    ("puts a name after its statement", Kind::Lawful, |i| said(i, |_, _, mut line| {
        let equ = matches!(line.statement, Some(Statement::Equ(_) | Statement::End));
        let name = if equ { None } else { line.name.take() };
        vec![line, Line { name, statement: None }]
    })),
    ("clears the bytes of BSS", Kind::Lawful, |i| {
        let reply = oracle_assemble(i);
        if let (Ok(made), 0) = (judge(&i.source), reply) {
            for (line, place) in read(&i.source).expect("accepted").iter().zip(&made.places) {
                if let Some(Statement::Bss(v)) = &line.statement {
                    let length = value(v, &made.names).expect("accepted") as usize;
                    if length > 0 { i.memory[*place as usize..][..length].fill(0) }
                }
            }
        }
        reply
    }),
    ("tells a 19 before a later 18", Kind::Crafted, |i| match judge(&i.source) {
        Err(Fault { number: 18, line }) if i.memory.len() == MEMORY => match judge(&above(&i.source, line)) {
            Err(earlier) => reply(Err(earlier)),
            Ok(_) => oracle_assemble(i),
        },
        _ => oracle_assemble(i),
    }),
    ("measures a branch from its own place", Kind::Lawful, |i| said(i, |made, _, mut line| {
        if let Some(Statement::Branch { target, .. }) = &mut line.statement {
            let there = value(target, &made.names).expect("accepted");
            *target = Factor::Number(Some(if there < 65_534 { there + 2 } else { 0 }));
        }
        vec![line]
    })),
    ("writes before a late refusal", Kind::Crafted, |i| {
        let reply = oracle_assemble(i);
        if reply & 0xFF == 19 {
            judge(&above(&i.source, reply >> 32)).iter().for_each(|made| made.load(&mut i.memory));
        }
        reply
    }),
    ("takes the low byte of a name for MOVH", Kind::Lawful, |i| said(i, |made, _, mut line| {
        if let Some(Statement::MovImm { op: 3, value: v @ Factor::Name(_), .. }) = &mut line.statement {
            *v = Factor::Number(Some(value(v, &made.names).expect("accepted") & 0xFF));
        }
        vec![line]
    })),
    ("takes the high byte of a bracket of numbers for MOVH", Kind::Lawful, |i| said(i, |made, _, mut line| {
        if let Some(Statement::MovImm { op: 3, value: v @ Factor::Bracket(_), .. }) = &mut line.statement {
            let high = value(v, &made.names).expect("accepted") >> 8 & 0xFF;
            *v = Factor::Number(Some(high));
        }
        vec![line]
    })),
    ("ends a line at a lone CR", Kind::Crafted, |i| handed(i, |source| {
        let lf = |(at, &b): (usize, &u8)| if b == b'\r' && source.get(at + 1) != Some(&b'\n') { b'\n' } else { b };
        source.iter().enumerate().map(lf).collect()
    })),
    ("takes lower case", Kind::Crafted, |i| handed(i, |source| source.to_ascii_uppercase())),
    ("reads lines after END", Kind::Lawful, |i| handed(i, |source| {
        let end = |line: &[u8]| source_line(line) == Some(Statement::End);
        let lines: Vec<&[u8]> = srec::lines(source).into_iter().filter(|line| !end(line)).collect();
        [lines.join(&b'\n'), b"\nEND".to_vec()].concat()
    })),
    ("lets an earlier statement win", Kind::Crafted, |i| {
        let before = i.memory.clone();
        let reply = oracle_assemble(i);
        if reply == 0 {
            i.memory = before;
            let mut bytes = judge(&i.source).expect("accepted").bytes;
            bytes.reverse();
            bytes.iter().for_each(|&(a, b)| i.memory[usize::from(a)] = b);
        }
        reply
    }),
    ("counts lines from 0", Kind::Damaged, |i| {
        let reply = oracle_assemble(i);
        if reply >> 32 == 0 { reply } else { reply - (1 << 32) }
    }),
    ("tells the first 19 of all lines", Kind::Crafted, |i| match judge(&i.source) {
        Err(Fault { number: 19, line }) if i.memory.len() == MEMORY => {
            let earlier = judge(&above(&i.source, line)).err().filter(|fault| fault.number == 19);
            reply(Err(earlier.unwrap_or(Fault { number: 19, line })))
        }
        _ => oracle_assemble(i),
    }),
    ("takes 17 brackets", Kind::Crafted, |i| handed(i, |source| {
        String::from_utf8_lossy(source).replace(&"(".repeat(17), "(").replace(&")".repeat(17), ")").into_bytes()
    })),
    ("takes 1,025 names", Kind::Names, |i| {
        let reply = oracle_assemble(i);
        if reply == 18 | 1_025 << 32 { 0 } else { reply }
    }),
    ("wraps a byte past #FFFF", Kind::Crafted, |i| handed(i, |source| {
        String::from_utf8_lossy(source).replace("ORG #70001", "ORG #4464").into_bytes()
    })),
    ("takes END with a value", Kind::Crafted, |i| handed(i, |source| {
        String::from_utf8_lossy(source).replace("END #1", "END").into_bytes()
    })),
];

fn source_line(line: &[u8]) -> Option<Statement> {
    oracle::assemble::source::line(line).and_then(|line| line.statement)
}

#[test]
fn every_wrong_assembler_is_caught() {
    for (name, kind, assembler) in WRONG {
        let found = compare_many(assembler, kind, 1, 3_000, &mut Reached::default());
        assert!(found.is_err(), "an assembler that {name} passes");
    }
}

#[test]
fn the_oracle_does_not_differ_from_itself() {
    for kind in KINDS {
        assert!(compare_many(oracle_assemble, kind, 1, 100, &mut Reached::default()).is_ok());
    }
}
