//! Time of loading and of writing all of memory as S-records: the proved library beside the oracle, in this process;
//! then examples/srec.c beside objcopy and srec_cat, each as a program that reads one file and writes another. Every
//! outcome is compared before it is timed. Last, instructions of the host per byte of text, where valgrind is here:
//! the run fails where they pass the limits.
//!
//! `srec once load` (or write) makes one call, for `valgrind --tool=callgrind --toggle-collect=xm23_load_srec`.

#[path = "../tests/library/srec.rs"]
mod library;

mod callgrind;

use callgrind::instructions;
use oracle::machine::MEMORY;
use oracle::random::Random;
use oracle::srec_compare::{oracle_load, oracle_write, Loader, Writer};
use oracle::srec_inputs::{Load, Write};
use std::hint::black_box;
use std::path::{Path, PathBuf};
use std::process::Command;
use std::time::Instant;
use std::{env, fs};

/// How often each is timed.
const TURNS: usize = 25;

/// The most instructions of the host per byte of text.
const LIMITS: [(&str, &str, f64); 2] = [("load", "xm23_load_srec", 60.0), ("write", "xm23_write_srec", 30.0)];

fn write_input() -> Write {
    let mut random = Random::new(5);
    let memory = (0..MEMORY).map(|_| random.byte()).collect();
    Write { memory, start: 0, length: MEMORY as u32, pc: 0x1234, text: vec![0; 176_139] }
}

fn load_input() -> Load {
    let mut written = write_input();
    assert_eq!(oracle_write(&mut written), 176_139 << 8);
    Load { memory: vec![0; MEMORY], text: written.text, pc: 0 }
}

/// The best time of some, in milliseconds.
fn best(mut run: impl FnMut()) -> f64 {
    let time = |_| {
        let start = Instant::now();
        run();
        start.elapsed().as_secs_f64() * 1e3
    };
    (0..TURNS).map(time).fold(f64::INFINITY, f64::min)
}

/// A call on the same input each time, which it leaves as it found it, or does again what is done.
fn time<I>(call: fn(&mut I) -> u64, mut input: I, expected: u64) -> f64 {
    assert_eq!(call(&mut input), expected);
    best(|| {
        black_box(call(black_box(&mut input)));
    })
}

fn calls() {
    let loads: [Loader; 2] = [library::load, oracle_load];
    let writes: [Writer; 2] = [library::write, oracle_write];
    let [a, b] = loads.map(|load| time(load, load_input(), 0x1234 << 16));
    let [c, d] = writes.map(|write| time(write, write_input(), 176_139 << 8));
    println!("{:24} {:>10} {:>10} {:>8}", "65,536 bytes, ms", "Rattle", "oracle", "ratio");
    println!("{:24} {a:10.3} {b:10.3} {:8.2}", "load 176,139 characters", a / b);
    println!("{:24} {c:10.3} {d:10.3} {:8.2}", "write them", c / d);
}

/// Where the repository's files are built.
fn build() -> PathBuf {
    Path::new(env!("CARGO_MANIFEST_DIR")).join("../build")
}

/// Runs a command line, the file names in it, and gives whether it succeeded.
fn run(line: &str) -> bool {
    Command::new("sh").args(["-c", &format!("exec 2> /dev/null; {line}")]).status().is_ok_and(|status| status.success())
}

/// The tools as programs, from a file to a file.
fn programs() {
    let (place, ours) = (build().join("bench"), build().join("srec"));
    fs::create_dir_all(&place).expect("build/bench");
    let file = |name: &str| place.join(name).display().to_string();
    let (image, text, out) = (file("image"), file("text.s19"), file("out"));
    fs::write(&image, write_input().memory).expect("the image");
    fs::write(&text, load_input().text).expect("the text");
    let ours = ours.display();
    let words = "-motorola -address-length=2 -output-block-size=16 -disable=header -disable=data-count";
    let rows = [
        ("load, examples/srec.c", &image, format!("{ours} load < {text} > {out}")),
        ("load, objcopy", &image, format!("objcopy -I srec -O binary {text} {out}")),
        ("load, srec_cat", &image, format!("srec_cat {text} -motorola -o {out} -binary")),
        ("write, examples/srec.c", &text, format!("{ours} write 0 10000 1234 < {image} > {out}")),
        ("write, objcopy", &image, format!("objcopy -I binary -O srec {image} {out}")),
        (
            "write, srec_cat",
            &text,
            format!("srec_cat {image} -binary -o {out} {words} -execution-start-address=0x1234"),
        ),
    ];
    println!("{:24} {:>10}", "as programs, ms", "");
    for (name, expected, line) in rows {
        let tool = line.split(' ').next().expect("a tool");
        if !run(&format!("command -v {tool} > /dev/null")) {
            println!("{name:24} {:>10}", "not here");
            continue;
        }
        assert!(run(&line), "{line}");
        // objcopy writes S0 and CR LF of its own.
        let same = fs::read(&out).expect("a file") == fs::read(expected).expect("a file");
        assert!(same || name == "write, objcopy", "{name}: another outcome");
        println!("{name:24} {:10.3}", best(|| assert!(run(&line))));
    }
}

fn main() {
    let words: Vec<String> = env::args().collect();
    if let Some(at) = words.iter().position(|word| word == "once") {
        let call = words.get(at + 1).map(String::as_str);
        black_box(if call == Some("load") {
            library::load(&mut load_input())
        } else {
            library::write(&mut write_input())
        });
        return;
    }
    calls();
    programs();
    for (call, function, limit) in LIMITS {
        match instructions(function, &["once", call]) {
            None => println!("host instructions per byte of text to {call}: valgrind is not here"),
            Some(count) => {
                let each = count / 176_139.0;
                println!("host instructions per byte of text to {call}: {each:.1}, of {limit} at most");
                assert!(each <= limit, "too slow");
            }
        }
    }
}
