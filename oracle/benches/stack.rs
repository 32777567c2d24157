//! Time of a call for stack bytes: the proved library, which adds up the dearest device of each priority, beside the
//! oracle, which tries every choice. Replies are compared before they are timed. Last, instructions of the host a call,
//! where valgrind is here; `stack once` makes the calls for that.

#[path = "../tests/library/stack.rs"]
mod library;

mod callgrind;

use callgrind::instructions;
use oracle::random::Random;
use oracle::stack::Stack;
use std::hint::black_box;
use std::time::Instant;

/// How often all calls are timed, and how many calls there are.
const TURNS: usize = 9;
const CALLS: usize = 2_000;

/// The best time of some, in nanoseconds a call.
fn time(calls: &[Stack], call: impl Fn(&Stack) -> u32) -> f64 {
    let turn = |_| {
        let start = Instant::now();
        calls.iter().for_each(|c| {
            black_box(call(black_box(c)));
        });
        start.elapsed().as_secs_f64() * 1e9 / CALLS as f64
    };
    (0..TURNS).map(turn).fold(f64::INFINITY, f64::min)
}

fn main() {
    let mut random = Random::new(3);
    let calls: Vec<Stack> =
        std::iter::repeat_with(|| Stack::random(&mut random)).filter(|c| c.reply() != 16).take(CALLS).collect();
    if std::env::args().any(|word| word == "once") {
        calls.iter().for_each(|c| {
            black_box(library::stack(black_box(c)));
        });
        return;
    }
    assert!(calls.iter().all(|c| library::stack(c) == c.reply()), "another figure");
    let (a, b) = (time(&calls, library::stack), time(&calls, Stack::reply));
    println!("{:24} {:>10} {:>10} {:>8}", "stack bytes, ns a call", "Rattle", "oracle", "ratio");
    println!("{:24} {a:10.0} {b:10.0} {:8.4}", "figure", a / b);
    match instructions("xm23_stack", &["once"]) {
        None => println!("host instructions a call: valgrind is not here"),
        Some(count) => println!("host instructions a call: {:.0}", count / CALLS as f64),
    }
}
