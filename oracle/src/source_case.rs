//! Corner sources, tests/sources/*.txt: a source of 02 §12 with its refusal and line, or its image, and the sentence
//! that decides.
//!
//! A file is `title`, then `refused: NUMBER LINE` or `image: ADDRESS=BYTE BYTE .. ADDRESS=..` in base sixteen, then
//! `decides`, then `source:` with the lines below it, each from its fifth column on. No line feed follows the last one.
//! `\n`, `\r`, `\t`, `\xHH` and `\\` in a source are bytes.

use crate::assemble::Fault;
use std::path::PathBuf;

pub struct SourceCase {
    pub name: String,
    pub source: Vec<u8>,
    /// The bytes that the source changes, or why it changes none.
    pub expected: Result<Vec<(u16, u8)>, Fault>,
}

/// The bytes of a source as a file has it.
fn unescaped(text: &str) -> Option<Vec<u8>> {
    let mut bytes = Vec::new();
    let mut rest = text.as_bytes().iter().copied();
    while let Some(b) = rest.next() {
        if b != b'\\' {
            bytes.push(b);
            continue;
        }
        bytes.push(match rest.next()? {
            b'n' => b'\n',
            b'r' => b'\r',
            b't' => b'\t',
            b'\\' => b'\\',
            b'x' => u8::from_str_radix(std::str::from_utf8(&[rest.next()?, rest.next()?]).ok()?, 16).ok()?,
            _ => return None,
        });
    }
    Some(bytes)
}

/// `1000=88 40 FFFE=00`.
fn image(text: &str) -> Option<Vec<(u16, u8)>> {
    let (mut at, mut bytes) = (0u16, Vec::new());
    for word in text.split_whitespace() {
        let byte = match word.split_once('=') {
            Some((address, byte)) => {
                at = u16::from_str_radix(address, 16).ok()?;
                byte
            }
            None => word,
        };
        if !byte.is_empty() {
            bytes.push((at, u8::from_str_radix(byte, 16).ok()?));
            at = at.wrapping_add(1);
        }
    }
    Some(bytes)
}

fn fault(text: &str) -> Option<Fault> {
    let (number, line) = text.split_once(' ')?;
    Some(Fault { number: number.parse().ok()?, line: line.parse().ok()? })
}

/// Reads a case, where it is one.
fn parse(name: &str, text: &str) -> Option<SourceCase> {
    let (head, source) = text.split_once("\nsource:\n")?;
    let [title, verdict, decides] = head.lines().collect::<Vec<_>>().try_into().ok()?;
    let (_, _) = (title.strip_prefix("title: ")?, decides.strip_prefix("decides: ")?);
    let expected = match verdict.split_once(": ")? {
        ("refused", text) => Err(fault(text)?),
        ("image", text) => Ok(image(text)?),
        _ => return None,
    };
    let line = |line: &str| line.strip_prefix("    ").or(line.is_empty().then_some("")).and_then(unescaped);
    let lines: Option<Vec<Vec<u8>>> = source.strip_suffix('\n')?.split('\n').map(line).collect();
    Some(SourceCase { name: name.into(), source: lines?.join(&b'\n'), expected })
}

/// Every corner source of the repository, by name. A mistake in one is a panic.
pub fn all() -> Vec<SourceCase> {
    let folder = PathBuf::from(env!("CARGO_MANIFEST_DIR")).join("../tests/sources");
    let entries = std::fs::read_dir(&folder).unwrap_or_else(|e| panic!("{}: {e}", folder.display()));
    let mut paths: Vec<PathBuf> = entries.map(|entry| entry.expect("an entry").path()).collect();
    paths.sort();
    let read = |path: &PathBuf| {
        let name = path.file_stem().unwrap().to_string_lossy().into_owned();
        let text = std::fs::read_to_string(path).unwrap_or_else(|e| panic!("{}: {e}", path.display()));
        parse(&name, &text).unwrap_or_else(|| panic!("{} is no corner source", path.display()))
    };
    paths.iter().map(read).collect()
}

#[cfg(test)]
mod tests {
    use super::*;
    use crate::assemble::into_memory;
    use crate::machine::MEMORY;

    #[test]
    fn the_oracle_judges_each_as_its_file_says() {
        let cases = all();
        assert!(cases.len() >= 66);
        let mut wrong = Vec::new();
        for case in cases {
            let (mut memory, mut wanted) = (vec![0xEE; MEMORY], vec![0xEE; MEMORY]);
            let found = into_memory(&mut memory, &case.source);
            let expected = case.expected.map(|bytes| bytes.iter().for_each(|&(a, b)| wanted[usize::from(a)] = b));
            let first = (0..MEMORY).find(|&i| memory[i] != wanted[i]).map(|i| format!("{i:04X} is {:02X}", memory[i]));
            if found != expected || first.is_some() {
                wrong.push((case.name, found, first));
            }
        }
        assert!(wrong.is_empty(), "{wrong:#?}");
    }
}
