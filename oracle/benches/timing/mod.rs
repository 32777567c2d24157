//! Times two functions on the same inputs, turn by turn, and prints the best time of each and their ratio.

use std::hint::black_box;
use std::time::Instant;

const TURNS: usize = 25;
const PASSES: usize = 4;

fn pass<T>(inputs: &[T], call: impl Fn(&T) -> u64) -> f64 {
    let start = Instant::now();
    let mut sum = 0u64;
    for _ in 0..PASSES {
        for input in black_box(inputs) {
            sum = sum.wrapping_add(call(input));
        }
    }
    black_box(sum);
    start.elapsed().as_nanos() as f64 / (PASSES * inputs.len()) as f64
}

pub fn heading() {
    println!("{:10} {:>12} {:>12} {:>8}", "ns a call", "Rattle", "oracle", "ratio");
}

pub fn compare<T>(name: &str, inputs: &[T], ours: impl Fn(&T) -> u64, theirs: impl Fn(&T) -> u64) {
    let (mut a, mut b) = (f64::INFINITY, f64::INFINITY);
    for _ in 0..TURNS {
        a = a.min(pass(inputs, &ours));
        b = b.min(pass(inputs, &theirs));
    }
    println!("{name:10} {a:12.2} {b:12.2} {:8.2}", a / b);
}
