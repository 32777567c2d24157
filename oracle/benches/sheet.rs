//! Time of the printed line: xm23_sheet beside the run that it prints, xm23_run of the same library, and the oracle's
//! sheet; of no step, and of a million steps of a mixed loop. Lines are compared before they are timed.

#[path = "../tests/library/mod.rs"]
mod library;
#[path = "../tests/library/sheet.rs"]
mod library_sheet;

use oracle::assemble::assemble;
use oracle::inputs::Input;
use oracle::machine::{sheet, Machine, PC};
use std::hint::black_box;
use std::time::Instant;

/// How often each is timed.
const TURNS: usize = 9;

const MIXED: &str = "
        ORG $1000
LOOP    ADD R0,R1
        XOR R3,R1
        LD R2,R0
        ST R1,R2
        SUB #1,R4
        BRA LOOP
        END
";

/// The best time of some, in microseconds.
fn best(mut run: impl FnMut()) -> f64 {
    let time = |_| {
        let start = Instant::now();
        run();
        start.elapsed().as_secs_f64() * 1e6
    };
    (0..TURNS).map(time).fold(f64::INFINITY, f64::min)
}

fn main() {
    let mut m = Machine::default();
    (m.regs[2], m.regs[PC]) = (0x4000, 0x1000);
    println!("{:24} {:>12} {:>12} {:>12}", "printed line, us a call", "xm23_sheet", "xm23_run", "oracle");
    for n in [0, 1_000_000] {
        let memory = assemble(MIXED).memory();
        let input = Input { memory, record: m.to_record().to_vec(), n, ..Input::default() };
        let (bytes, mut line) = (input.to_bytes(), [0; 80]);
        let reply = library_sheet::sheet_call(&bytes, &mut line);
        assert_eq!(&line[..(reply >> 8) as usize], sheet(&bytes).0.as_bytes(), "another line");
        let ours = best(|| _ = black_box(library_sheet::sheet_call(black_box(&bytes), &mut line)));
        let mut held = input.clone();
        let run = best(|| {
            held.clone_from(&input);
            black_box(library::library(&mut held));
        });
        let theirs = best(|| _ = black_box(sheet(black_box(&bytes))));
        println!("{:24} {ours:12.1} {run:12.1} {theirs:12.1}", format!("{n} steps"));
    }
}
