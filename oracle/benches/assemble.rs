//! Time of assembling 65,536 bytes of source in 3,000 lines with 1,024 names: the proved library beside the oracle, in
//! this process, and xm23 asm as a program; of 65,536 lines that use a name each; and of telling what stands where in
//! both. Every outcome is compared before it is timed. Last, instructions of the host per byte of the first source, where valgrind is here. The run fails where
//! the library takes 10 ms or more for it.
//!
//! `assemble once` makes one call, for `valgrind --tool=callgrind --toggle-collect=xm23_assemble`.

#[path = "../tests/library/assemble.rs"]
mod library;
#[path = "../tests/library/places.rs"]
mod library_places;

use oracle::assemble_compare::{oracle_assemble, Assembler};
use oracle::assemble_inputs::Input;
use oracle::machine::MEMORY;
use oracle::places::{oracle_places, Lent, Lister, RECORD};
use std::hint::black_box;
use std::path::Path;
use std::process::{Command, Stdio};
use std::time::Instant;
use std::{env, fs};

/// How often each is timed.
const TURNS: usize = 25;
const LINES: usize = 3_000;
const NAMES: usize = 1_024;
/// Milliseconds.
const LIMIT: f64 = 10.0;

/// A statement of a program as setters write them, which uses a name of its own line or any other.
fn statement(i: usize) -> String {
    let (own, any) = (i / 2 % NAMES, i * 7 % NAMES);
    match i % 12 {
        0 => format!("MOVL NAME{any},R0"),
        1 => format!("MOVH NAME{any},R0"),
        2 => "LD R0+,R1".to_string(),
        3 => "ADD #1,R1".to_string(),
        4 => format!("CEX EQ,#{},#1", i % 8),
        5 => "ST.B R1,-SP".to_string(),
        6 => format!("WORD (NAME{any}+#2*#3)"),
        7 => format!("LDR R3,#{},R4", i % 64),
        8 if i < 2 * NAMES => format!("BRA NAME{own}"),
        9 => format!("SETPRI #{}", i % 8),
        10 => "SETCC VC".to_string(),
        _ => "SUB.B R1,R2".to_string(),
    }
}

/// 3,000 lines, 1,024 of them with a name; comments bring them to 65,536 bytes.
fn program() -> Vec<u8> {
    let mut lines = vec![" ORG $1000".to_string()];
    for i in 0..LINES - 2 {
        let name = if i % 2 == 0 && i / 2 < NAMES { format!("NAME{}", i / 2) } else { String::new() };
        lines.push(format!("{name} {}", statement(i)));
    }
    lines.push(" END".into());
    let length = |lines: &[String]| lines.iter().map(|line| line.len() + 1).sum::<usize>();
    let spare = MEMORY.checked_sub(length(&lines)).expect("room for comments");
    for i in 0..spare / 20 {
        lines[1 + 7 * i % (LINES - 2)].push_str(" ; what it is for..");
    }
    let rest = MEMORY.checked_sub(length(&lines)).expect("room for a comment");
    lines[0].push_str(&format!(";{}", "x".repeat(rest.saturating_sub(1))));
    lines.join("\n").into_bytes().into_iter().chain([b'\n']).collect()
}

/// 65,536 lines: 1,024 names, each with a value of a byte, and a byte by name in every other line.
fn long_program() -> Vec<u8> {
    let names = (0..NAMES).map(|i| format!("NAME{i} EQU #{}\n", i % 128));
    let bytes = (0..MEMORY - NAMES - 1).map(|i| format!(" BYTE NAME{}\n", i % NAMES));
    names.chain(bytes).chain([" END\n".to_string()]).collect::<String>().into_bytes()
}

/// The best time of some, in milliseconds.
fn best(mut run: impl FnMut()) -> f64 {
    let time = |_| {
        let start = Instant::now();
        run();
        start.elapsed().as_secs_f64() * 1e3
    };
    (0..TURNS).map(time).fold(f64::INFINITY, f64::min)
}

fn input(source: Vec<u8>) -> Input {
    Input { memory: vec![0; MEMORY], source }
}

/// A call on the same input each time, which does again what is done; and the memory that it leaves.
fn time(call: Assembler, source: &[u8]) -> (f64, Vec<u8>) {
    let mut input = input(source.to_vec());
    assert_eq!(call(&mut input), 0);
    let memory = input.memory.clone();
    let best = best(|| {
        black_box(call(black_box(&mut input)));
    });
    (best, memory)
}

/// The same of a call that lists a source, and the records that it leaves.
fn time_places(call: Lister, source: &[u8]) -> (f64, Vec<u8>) {
    let lines = source.iter().filter(|&&b| b == b'\n').count();
    let mut lent = Lent { source: source.to_vec(), places: vec![0; RECORD * (lines + 1)] };
    assert_eq!(call(&mut lent), (lines as u64) << 32);
    let places = lent.places.clone();
    let best = best(|| {
        black_box(call(black_box(&mut lent)));
    });
    (best, places)
}

/// The desk program, from a file to a file; None where it is not built.
fn as_program() -> Option<f64> {
    let build = Path::new(env!("CARGO_MANIFEST_DIR")).join("../build");
    let (tool, place) = (build.join("xm23"), build.join("bench"));
    fs::create_dir_all(&place).ok()?;
    let source = place.join("source.asm");
    fs::write(&source, program()).ok()?;
    let run = || {
        let out = fs::File::create(place.join("source.s19")).ok()?;
        let command = Command::new(&tool).arg("asm").arg(&source).stdout(Stdio::from(out)).status();
        command.ok().filter(|status| status.success())
    };
    run()?;
    Some(best(|| assert!(run().is_some())))
}

/// Instructions of the host in one call, by callgrind; None where it is not here.
fn instructions() -> Option<f64> {
    let out = Command::new("valgrind")
        .args(["--tool=callgrind", "--callgrind-out-file=/dev/null", "--toggle-collect=xm23_assemble"])
        .arg(env::current_exe().expect("this program"))
        .arg("once")
        .output()
        .ok()?;
    let said = String::from_utf8_lossy(&out.stderr).into_owned();
    said.lines().find(|line| line.contains("Collected"))?.rsplit(' ').next()?.parse().ok()
}

fn main() {
    if env::args().any(|word| word == "once") {
        black_box(library::assemble(&mut input(program())));
        return;
    }
    let source = program();
    assert_eq!((source.len(), source.iter().filter(|&&b| b == b'\n').count()), (MEMORY, LINES));
    println!("{:34} {:>10} {:>10} {:>8}", "assemble, ms", "Rattle", "oracle", "ratio");
    let row = |name: &str, source: &[u8]| {
        let ((ours, memory), (oracle, right)) = (time(library::assemble, source), time(oracle_assemble, source));
        assert!(memory == right, "another image");
        println!("{name:34} {ours:10.3} {oracle:10.3} {:8.2}", ours / oracle);
        ours
    };
    let ours = row("65,536 bytes in 3,000 lines", &source);
    row("65,536 lines, a name in each", &long_program());
    let listed = |name: &str, source: &[u8]| {
        let (ours, oracle) = (time_places(library_places::places, source), time_places(oracle_places, source));
        assert!(ours.1 == oracle.1, "other records");
        println!("{name:34} {:10.3} {:10.3} {:8.2}", ours.0, oracle.0, ours.0 / oracle.0);
    };
    listed("places: 65,536 bytes, 3,000 lines", &source);
    listed("places: 65,536 lines", &long_program());
    match as_program() {
        Some(time) => println!("{:34} {time:10.3}", "as a program, xm23 asm"),
        None => println!("{:34} {:>10}", "as a program, xm23 asm", "not here"),
    }
    match instructions() {
        Some(count) => println!("host instructions per byte of source: {:.1}", count / MEMORY as f64),
        None => println!("host instructions per byte of source: valgrind is not here"),
    }
    assert!(ours < LIMIT, "{ours} ms, of {LIMIT} at most");
}
