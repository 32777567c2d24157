//! Assembles a source on standard input by the oracle: prints its verdict, `refusal line`, and where it is accepted
//! each byte of the image in the order of the statements, `address byte` in base sixteen, one to a line. With `--hex`
//! the input is a list of sources, each a line of hexadecimal digits, and each verdict with its image is one line.

use oracle::assemble::judge;
use std::io::{Read, Write};

/// The verdict and the image, the bytes joined by a separator.
fn told(source: &[u8], between: &str) -> String {
    match judge(source) {
        Err(fault) => format!("{} {}", fault.number, fault.line),
        Ok(made) => made.bytes.iter().fold("0 0".into(), |text, (a, b)| format!("{text}{between}{a:04X} {b:02X}")),
    }
}

fn bytes(digits: &str) -> Vec<u8> {
    (0..digits.len() / 2).map(|i| u8::from_str_radix(&digits[2 * i..2 * i + 2], 16).expect("digits")).collect()
}

fn main() -> std::io::Result<()> {
    let mut source = Vec::new();
    std::io::stdin().read_to_end(&mut source)?;
    let mut out = std::io::stdout().lock();
    if std::env::args().nth(1).as_deref() != Some("--hex") {
        return writeln!(out, "{}", told(&source, "\n"));
    }
    for line in String::from_utf8_lossy(&source).lines() {
        writeln!(out, "{}", told(&bytes(line), ", "))?;
    }
    Ok(())
}
