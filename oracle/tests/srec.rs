//! The calls for S-records of libxm23.a beside the oracle: reply, all of memory, the text with what lies past it.

#[path = "library/srec.rs"]
mod library;

use oracle::compare::folder;
use oracle::machine::MEMORY;
use oracle::srec;
use oracle::srec_compare::{
    compare_call, compare_load, is_saved, loads, oracle_load, oracle_write, saved, writes, Found, Loader, Reached,
    Writer, OWED,
};
use oracle::srec_inputs::{Kind, Load, KINDS, REAL};

/// Saves a difference and ends the test with it.
fn fail(found: Found) -> ! {
    let place = found.difference.save(&folder(), &found.name);
    panic!("{}: {}; saved: {place:?}", found.name, found.difference.what);
}

/// How many inputs of each kind the gate runs.
const INPUTS: u64 = 8_000;

/// Every kind of input. What is owed must be reached, each thing 20 times or more.
#[test]
fn every_kind_of_input() {
    let mut reached = Reached::default();
    for kind in KINDS {
        loads(library::load, kind, 1, INPUTS, &mut reached).unwrap_or_else(|found| fail(found));
    }
    writes((library::write, library::load), 1, INPUTS, &mut reached).unwrap_or_else(|found| fail(found));
    let gaps = reached.gaps(20);
    println!("{INPUTS} loads of each of {} kinds, {INPUTS} writes; {} things to reach", KINDS.len(), OWED.len());
    assert!(gaps.is_empty(), "hardly reached: {gaps:#?}");
}

/// Loads a text into a memory of ones by both, and gives refusal, PC and line, and the memory.
fn loaded(text: &[u8]) -> (u8, u16, u32, Vec<u8>) {
    let given = Load { memory: vec![0xEE; MEMORY], text: text.to_vec(), pc: 0x1235 };
    let reply = compare_load(library::load, &given, &mut Reached::default()).unwrap_or_else(|d| panic!("{}", d.what));
    let mut left = given;
    assert_eq!(library::load(&mut left), reply);
    (reply as u8, (reply >> 16) as u16, (reply >> 32) as u32, left.memory)
}

/// The refusal and the line at fault of a text.
fn verdict(text: &str) -> (u8, u32) {
    let (refusal, pc, line, memory) = loaded(text.as_bytes());
    assert!(refusal == 0 || pc == 0x1235 && memory == [0xEE; MEMORY], "{text:?}: refused with a change");
    (refusal, line)
}

/// Sentences of 02 §2 that a person could misread, each with a text.
#[test]
#[rustfmt::skip]
fn readings() {
    let end = "S9030000FC";
    let cases: [(&str, (u8, u32), String); 38] = [
        ("S9 alone", (0, 0), end.into()),
        ("LF", (0, 0), format!("{end}\n")),
        ("CR LF", (0, 0), format!("{end}\r\n")),
        ("CR at the end", (10, 1), format!("{end}\r")),
        ("CR between lines", (10, 1), format!("S1040000AA51\r{end}")),
        ("CR CR LF", (10, 1), format!("{end}\r\r\n")),
        ("an empty line after S9", (10, 1), format!("{end}\n\n")),
        ("an empty line before S9", (10, 1), format!("\n{end}\n")),
        ("no text", (10, 1), "".into()),
        ("no S9", (10, 2), "S1040000AA51\n".into()),
        ("S9 twice", (10, 1), format!("{end}\n{end}\n")),
        ("S9 not last, its checksum wrong", (10, 1), format!("S9030000FD\n{end}\n")),
        ("S9 last, its checksum wrong", (11, 1), "S9030000FD\n".into()),
        ("S9 with data", (10, 1), "S9040000AA51\n".into()),
        ("S0, its checksum wrong", (11, 1), format!("S0030000FD\n{end}\n")),
        ("S0 at #FFFF with data", (0, 0), format!("S005FFFF414279\n{end}\n")),
        ("S0 in the middle", (0, 0), format!("S1040000AA51\nS0030000FC\n{end}\n")),
        ("S0 of no digits", (10, 1), format!("S003000G..\n{end}\n")),
        ("S5", (10, 2), format!("S1040000AA51\nS5030001FB\n{end}\n")),
        ("S2", (10, 1), format!("S2050000000000\n{end}\n")),
        ("lower case", (0, 0), "S1040000aa51\nS9030000fc\n".into()),
        ("a lower-case s", (10, 1), format!("s1040000AA51\n{end}\n")),
        ("a blank at the end", (10, 1), format!("S1040000AA51 \n{end}\n")),
        ("a blank before the line", (10, 1), format!(" S1040000AA51\n{end}\n")),
        ("NUL", (10, 1), format!("S1040000AA5\0\n{end}\n")),
        ("count too large", (10, 1), format!("S1050000AA50\n{end}\n")),
        ("count too small", (10, 1), format!("S1030000AA52\n{end}\n")),
        ("count 2, its checksum right", (10, 1), format!("S10200FD\n{end}\n")),
        ("count 0", (10, 1), format!("S100\n{end}\n")),
        ("count 3: no data", (0, 0), format!("S1030000FC\n{end}\n")),
        ("count 3 at #FFFF", (0, 0), format!("S103FFFFFE\n{end}\n")),
        ("wrong count and checksum", (10, 1), format!("S1050000AA00\n{end}\n")),
        ("last byte at #FFFF", (0, 0), format!("S104FFFFAA53\n{end}\n")),
        ("a byte past #FFFF", (12, 1), format!("S105FFFFAABB97\n{end}\n")),
        ("past #FFFF with a wrong checksum", (11, 1), format!("S105FFFFAABB98\n{end}\n")),
        ("12 in line 1 before 10 in line 2", (12, 1), format!("S105FFFFAABB97\n?\n{end}\n")),
        ("10 in line 2 before no S9", (10, 2), "S1040000AA51\n?\n".into()),
        ("a bad last line", (11, 2), "S1040000AA51\nS9030000FD".into()),
    ];
    for (name, expected, text) in cases {
        assert_eq!(verdict(&text), expected, "{name}");
    }
}

/// "A later line wins over an earlier one on the same byte"; the PC is S9's, odd too.
#[test]
fn later_lines_win() {
    let (refusal, pc, line, memory) = loaded(b"S10600010102 03F2\nS9030000FC".as_slice());
    assert_eq!((refusal, pc, line, memory[1]), (10, 0x1235, 1, 0xEE));
    let (refusal, pc, line, memory) = loaded(b"S1060001010203F2\nS104000209F0\nS90320FDDF");
    assert_eq!((refusal, pc, line), (0, 0x20FD, 0));
    assert_eq!(memory[..5], [0xEE, 1, 9, 3, 0xEE]);
}

/// Files that srec_cat and objcopy made of tests/srec/copy_words.img at #1000, and at the end of memory.
#[test]
fn real_files() {
    let image = include_bytes!("../../tests/srec/copy_words.img");
    for (name, text) in REAL {
        let (refusal, pc, line, memory) = loaded(text);
        if name == "srec_cat_s5.s19" {
            assert_eq!((refusal, line), (10, 4), "{name}");
            continue;
        }
        let at = if name == "srec_cat_end.s19" { MEMORY - image.len() } else { 0x1000 };
        assert_eq!((refusal, usize::from(pc), line), (0, at, 0), "{name}");
        assert_eq!(memory[at..at + image.len()], image[..], "{name}");
        assert!(memory.iter().enumerate().all(|(i, &b)| b == 0xEE || (at..at + image.len()).contains(&i)), "{name}");
    }
}

/// What srec_cat writes with 16-byte S1 lines and no S0 is what we write.
#[test]
fn as_srec_cat_writes() {
    let image = include_bytes!("../../tests/srec/copy_words.img");
    let mut memory = vec![0; MEMORY];
    memory[0x1000..0x1000 + image.len()].copy_from_slice(image);
    let text = srec::text(&memory, 0x1000, image.len() as u32, 0x1000);
    assert_eq!(text.as_bytes(), REAL.iter().find(|(name, _)| *name == "srec_cat_16.s19").expect("the file").1);
}

/// A million lines, a line of a million digits, a million line feeds: linear, and the line at fault is right.
#[test]
fn long_texts() {
    let many = "S1040000AA51\n".repeat(1_000_000);
    assert_eq!(verdict(&format!("{many}S9030000FC")), (0, 0));
    assert_eq!(verdict(&many), (10, 1_000_001));
    assert_eq!(verdict(&format!("{many}S9030000FD")), (11, 1_000_001));
    assert_eq!(verdict(&format!("S1FF{}", "0".repeat(1_000_000))), (10, 1));
    assert_eq!(verdict(&"\n".repeat(1_000_000)), (10, 1));
    assert_eq!(verdict(&"\r".repeat(1_000_000)), (10, 1));
}

/// The oracle, with a change to the text that it is handed.
fn handed(i: &mut Load, change: impl Fn(&[u8]) -> Vec<u8>) -> u64 {
    let changed = change(&i.text);
    let text = std::mem::replace(&mut i.text, changed);
    let reply = oracle_load(i);
    i.text = text;
    reply
}

/// Loaders that are wrong, 02's impostors first, each with a kind of input that shows it.
#[rustfmt::skip]
const WRONG: [(&str, Kind, Loader); 9] = [
    ("loads lines before a later one is refused", Kind::Crafted, |i| {
        let reply = oracle_load(i);
        if reply & 0xFF < 10 { return reply }
        let good = (reply >> 32) as usize - 1;
        let mut text = srec::lines(&i.text)[..good].join(&b'\n');
        text.extend(if good == 0 { &b"S9030000FC"[..] } else { b"\nS9030000FC" });
        handed(i, |_| text.clone());
        reply
    }),
    ("ends a line at a lone CR", Kind::Crafted, |i| handed(i, |text| {
        let lf = |(at, &b): (usize, &u8)| if b == b'\r' && text.get(at + 1) != Some(&b'\n') { b'\n' } else { b };
        text.iter().enumerate().map(lf).collect()
    })),
    ("accepts S9 before further lines", Kind::Crafted, |i| handed(i, |text| {
        let lines: Vec<&[u8]> = text.split_inclusive(|&b| b == b'\n').collect();
        let end = lines.iter().position(|line| line.starts_with(b"S9"));
        lines[..end.map_or(lines.len(), |end| end + 1)].concat()
    })),
    ("lets an earlier line win", Kind::Lawful, |i| handed(i, |text| {
        let mut lines = srec::lines(text);
        lines.reverse();
        if !lines.is_empty() { lines.rotate_left(1) }
        lines.join(&b'\n')
    })),
    ("asks for a last line feed", Kind::Lawful, |i| if i.text.ends_with(b"\n") { oracle_load(i) } else { 10 }),
    ("takes s for S", Kind::Crafted, |i| handed(i, |text| text.to_ascii_uppercase())),
    ("trims blanks", Kind::Crafted, |i| handed(i, |text| {
        text.iter().copied().filter(|b| !b" \t\0".contains(b)).collect()
    })),
    ("sets the PC of a refused file", Kind::Damaged, |i| {
        let reply = oracle_load(i);
        if reply & 0xFF == 0 { reply } else { reply & !0xFFFF_0000 }
    }),
    ("counts lines from 0", Kind::Damaged, |i| {
        let reply = oracle_load(i);
        if reply >> 32 == 0 { reply } else { reply - (1 << 32) }
    }),
];

/// Writers that are wrong.
#[rustfmt::skip]
const WRONG_WRITERS: [(&str, Writer); 4] = [
    ("clears the tail", |i| {
        let reply = oracle_write(i);
        if reply & 0xFF == 0 { i.text[(reply >> 8) as usize..].fill(0) }
        reply
    }),
    ("writes a full line for a rest", |i| {
        let rounded = if i.length < 4096 { i.length.next_multiple_of(16) } else { i.length };
        let length = std::mem::replace(&mut i.length, rounded);
        let reply = oracle_write(i);
        i.length = length;
        reply
    }),
    ("writes what fits", |i| {
        let reply = oracle_write(i);
        if reply == 12 { i.text.fill(b'S') }
        reply
    }),
    ("writes lower case", |i| {
        let reply = oracle_write(i);
        if reply & 0xFF == 0 { i.text[1..(reply >> 8) as usize].make_ascii_lowercase() }
        reply
    }),
];

#[test]
fn every_wrong_engine_is_caught() {
    for (name, kind, loader) in WRONG {
        let found = loads(loader, kind, 1, 2_000, &mut Reached::default());
        assert!(found.is_err(), "a loader that {name} passes");
    }
    for (name, writer) in WRONG_WRITERS {
        let found = writes((writer, oracle_load), 1, 400, &mut Reached::default());
        assert!(found.is_err(), "a writer that {name} passes");
    }
}

#[test]
fn the_oracle_does_not_differ_from_itself() {
    for kind in KINDS {
        assert!(loads(oracle_load, kind, 1, 100, &mut Reached::default()).is_ok());
    }
    assert!(writes((oracle_write, oracle_load), 1, 100, &mut Reached::default()).is_ok());
}

#[test]
fn a_saved_call_runs_again() {
    let place = std::env::temp_dir().join(format!("xm23-srec-{}", std::process::id()));
    let (_, kind, wrong) = WRONG[8];
    let load = loads(wrong, kind, 1, 1_000, &mut Reached::default()).unwrap_err();
    let write = writes((WRONG_WRITERS[0].1, oracle_load), 1, 1_000, &mut Reached::default()).unwrap_err();
    for Found { name, difference } in [load, write] {
        let saved_in = difference.save(&place, &name).unwrap();
        assert!(is_saved(&saved_in), "{name}");
        let call = saved(&saved_in).unwrap();
        assert_eq!(format!("{call:?}"), format!("{:?}", difference.given), "{name}");
        assert!(compare_call((oracle_write, oracle_load), &call).is_ok(), "{name}");
        assert!(compare_call((WRONG_WRITERS[0].1, wrong), &call).is_err(), "{name}");
    }
    std::fs::remove_dir_all(place).unwrap();
}
