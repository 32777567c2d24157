//! Prints the rows of an input of print_state, which standard input has: `walk < INPUT`. oracle::walk says what a row is.

use std::io::{self, Read, Write};

fn main() -> io::Result<()> {
    let mut input = Vec::new();
    io::stdin().read_to_end(&mut input)?;
    io::stdout().write_all(oracle::walk::rows(&input).as_bytes())
}
