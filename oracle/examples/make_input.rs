//! Makes an input of print_state from a readable case: `make_input CASE.txt > CASE.in`. Its memory is what the proved
//! library assembles, which must be what the oracle does. With `--line` it prints the line that the oracle gives for it
//! instead. Status 2, and `file:line: text`, where the case has a mistake.

#[path = "../tests/library/assemble.rs"]
mod library;

use oracle::assemble_inputs::Input;
use oracle::machine::MEMORY;
use oracle::{case, machine};
use std::io::Write;
use std::process::ExitCode;

/// The input that a case describes, or one line on what is wrong with it.
fn input(path: &str) -> Result<Vec<u8>, String> {
    let text = std::fs::read_to_string(path).map_err(|e| format!("{path}: {e}"))?;
    let mut case = case::parse(path, &text).map_err(|m| format!("{path}:{}: {}", m.line, m.text))?;
    let mut made = Input { memory: vec![0; MEMORY], source: case.source };
    if library::assemble(&mut made) != 0 || made.memory != case.input.memory {
        return Err(format!("{path}: the library and the oracle assemble different memories"));
    }
    case.input.memory = made.memory;
    Ok(case.input.to_bytes())
}

fn main() -> ExitCode {
    let words: Vec<String> = std::env::args().skip(1).collect();
    let made = match &words[..] {
        [path] => input(path),
        [flag, path] if flag == "--line" => input(path).map(|input| machine::sheet(&input).0.into_bytes()),
        _ => Err("make_input: usage: make_input [--line] CASE.txt".to_string()),
    };
    match made.and_then(|bytes| std::io::stdout().write_all(&bytes).map_err(|e| format!("make_input: {e}"))) {
        Ok(()) => ExitCode::SUCCESS,
        Err(text) => {
            eprintln!("{text}");
            ExitCode::from(2)
        }
    }
}
