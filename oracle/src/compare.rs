//! An engine beside the oracle on the same inputs: reply, record, all of memory, all of the log, the depth and the
//! events. A difference can be kept as a folder of files, to be read and to be run again.

use crate::coverage::Coverage;
use crate::inputs::{input, Input, Kind};
use crate::machine::{added_of, shown_of, steps_of, Machine, MEMORY, RECORD, SHOWN};
use std::fmt::Write;
use std::io;
use std::path::{Path, PathBuf};
use std::sync::atomic::{AtomicU64, Ordering};
use std::{fs, thread};

/// Runs an input in place and gives the reply, as `xm23_run` does.
pub type Engine = fn(&mut Input) -> u64;

/// What a run leaves.
#[derive(Clone, Debug, PartialEq, Eq)]
pub struct Outcome {
    pub reply: u64,
    pub left: Input,
}

/// An input on which the engine and the oracle differ.
#[derive(Clone, Debug)]
pub struct Difference {
    /// Where they differ first, in words.
    pub what: String,
    pub given: Input,
    pub oracle: Outcome,
    pub library: Outcome,
}

/// Runs an input by both, counting what the oracle reaches, and gives what both leave.
pub fn compare(engine: Engine, given: &Input, seen: &mut Coverage) -> Result<Outcome, Box<Difference>> {
    let run = |run: &mut dyn FnMut(&mut Input) -> u64| {
        let mut left = given.clone();
        let reply = run(&mut left);
        Outcome { reply, left }
    };
    let library = run(&mut |left| engine(left));
    let oracle = run(&mut |left| seen.run(left));
    match difference(given, &library, &oracle) {
        None => Ok(library),
        Some(what) => Err(Box::new(Difference { what, given: given.clone(), oracle, library })),
    }
}

/// Where the library's outcome is not the oracle's, or is none that there can be.
pub fn difference(given: &Input, library: &Outcome, oracle: &Outcome) -> Option<String> {
    let (got, right) = (&library.left, &oracle.left);
    let first = |a: &[u8], b: &[u8]| (0..a.len()).find(|&i| a[i] != b[i]).map(|i| (i, a[i], b[i]));
    if library.reply != oracle.reply {
        return Some(format!("reply {:016X}, oracle {:016X}", library.reply, oracle.reply));
    }
    if let Some((at, a, b)) = first(&got.record, &right.record) {
        return Some(format!("record byte {at} is {a:02X}, oracle {b:02X}"));
    }
    if let Some((at, a, b)) = first(&got.memory, &right.memory) {
        return Some(format!("byte #{at:04X} is {a:02X}, oracle {b:02X}"));
    }
    if let Some((at, a, b)) = first(&got.log, &right.log) {
        return Some(format!("log byte {at} is {a:02X}, oracle {b:02X}"));
    }
    if got.deepest != right.deepest {
        return Some(format!("depth {}, oracle {}", got.deepest, right.deepest));
    }
    if got.events != given.events {
        return Some("the events changed".into());
    }
    let refused = library.reply & 0xFF != 0;
    if refused && (got != given || !matches!(library.reply, 1..=7 | 9 | 13)) {
        return Some("refused with a change".into());
    }
    let (reason, added) = (library.reply >> 8 & 0xFF, added_of(library.reply));
    let full = added == (given.log.len() / SHOWN) as u64;
    let deep = refused || u64::from(got.deepest) <= steps_of(library.reply);
    let fits = reason <= 2 && added <= steps_of(library.reply) && (reason != 2 || full) && deep;
    (!fits).then(|| format!("reply {:016X}", library.reply))
}

// ---- many inputs

/// A difference with the input's kind and seed.
#[derive(Debug)]
pub struct Found {
    pub kind: Kind,
    pub seed: u64,
    pub difference: Box<Difference>,
}

/// Compares on every other input of a kind, until a difference here or in the other half.
fn half(engine: Engine, kind: Kind, seeds: (u64, u64), done: &AtomicU64, tell: &(dyn Fn(u64) + Sync)) -> Half {
    let mut seen = Coverage::default();
    for seed in (seeds.0..seeds.1).step_by(2) {
        if done.load(Ordering::Relaxed) == STOP {
            break;
        }
        if let Err(difference) = compare(engine, &input(kind, seed), &mut seen) {
            done.store(STOP, Ordering::Relaxed);
            return Err(Found { kind, seed, difference });
        }
        let counted = done.fetch_update(Ordering::Relaxed, Ordering::Relaxed, |n| (n != STOP).then(|| n + 1));
        counted.into_iter().for_each(|before| tell(before + 1));
    }
    Ok(seen)
}

type Half = Result<Coverage, Found>;

/// The count of inputs done, once there is a difference.
const STOP: u64 = u64::MAX;

/// Compares on `many` inputs of a kind from a seed on, on two threads. The first difference ends both. `tell` is told
/// how many inputs are done, after each.
pub fn compare_many(engine: Engine, kind: Kind, first: u64, many: u64, tell: &(dyn Fn(u64) + Sync)) -> Half {
    let (done, to) = (AtomicU64::new(0), first + many);
    thread::scope(|scope| {
        let other = scope.spawn(|| half(engine, kind, (first + 1, to), &done, tell));
        let mut seen = half(engine, kind, (first, to), &done, tell);
        let other = other.join().expect("no panic")?;
        if let Ok(seen) = &mut seen {
            seen.add(other);
        }
        seen
    })
}

// ---- differences as files

/// The parts of an input, each a file of a saved one.
const PARTS: [&str; 4] = ["memory.bin", "record.bin", "events.bin", "log.bin"];
const NUMBERS: [&str; 2] = ["n.txt", "deepest.txt"];

/// Where differences are saved.
pub fn folder() -> PathBuf {
    PathBuf::from(env!("CARGO_MANIFEST_DIR")).join("../build/fuzz")
}

impl Difference {
    /// Writes the input and both outcomes into a new folder, and gives its path. `input.in` is there where the program
    /// print_state can read such an input: whole memory and record, n of four bytes.
    pub fn save(&self, folder: &Path, name: &str) -> io::Result<PathBuf> {
        let place = folder.join(name);
        fs::create_dir_all(&place)?;
        let put = |file: &str, bytes: &[u8]| fs::write(place.join(file), bytes);
        let Input { memory, record, events, log, deepest, n } = &self.given;
        for (file, bytes) in PARTS.into_iter().zip([memory, record, events, log]) {
            put(file, bytes)?;
        }
        for (file, number) in NUMBERS.into_iter().zip([*n, u64::from(*deepest)]) {
            put(file, format!("{number}\n").as_bytes())?;
        }
        if memory.len() == MEMORY && record.len() == RECORD && *n <= u32::MAX.into() {
            put("input.in", &self.given.to_bytes())?;
        }
        put("oracle.txt", self.oracle.text(&self.given).as_bytes())?;
        put("library.txt", self.library.text(&self.given).as_bytes())?;
        put("difference.txt", format!("{}\n", self.what).as_bytes())?;
        Ok(place)
    }
}

/// The input of a folder that `save` has written.
pub fn saved(place: &Path) -> io::Result<Input> {
    let [memory, record, events, log] = PARTS.map(|file| fs::read(place.join(file)));
    let number = |file: &str| {
        let text = fs::read_to_string(place.join(file))?;
        text.trim().parse::<u64>().map_err(|_| io::Error::other(format!("{file} has no number")))
    };
    let [n, deepest] = NUMBERS.map(number);
    Ok(Input { memory: memory?, record: record?, events: events?, log: log?, deepest: deepest? as u32, n: n? })
}

impl Outcome {
    /// The reply with its parts and the depth, the record, what the log's records say, and each byte of memory that is
    /// not as it was given.
    pub fn text(&self, given: &Input) -> String {
        let (reply, left) = (self.reply, &self.left);
        let (refusal, reason, steps, added) = (reply & 0xFF, reply >> 8 & 0xFF, steps_of(reply), added_of(reply));
        let mut text =
            format!("reply {reply:016X}: refusal {refusal}, reason {reason}, steps {steps}, added {added}\n");
        writeln!(text, "depth {}, handed in {}", left.deepest, given.deepest).unwrap();
        if left.record.len() == RECORD {
            writeln!(text, "{}", Machine::from_record(&left.record)).unwrap();
        }
        writeln!(text, "record {}", hex(&left.record)).unwrap();
        let records = left.log.len() / SHOWN;
        writeln!(text, "log of {} bytes, {records} records", left.log.len()).unwrap();
        for shown in shown_of(&left.log).into_iter().take(added as usize) {
            writeln!(text, "step {}: device {} shows {:02X}", shown.step, shown.device, shown.byte).unwrap();
        }
        let changed = (0..left.memory.len()).filter(|&i| left.memory[i] != given.memory[i]);
        for at in changed {
            writeln!(text, "#{at:04X}: {:02X} became {:02X}", given.memory[at], left.memory[at]).unwrap();
        }
        text
    }
}

fn hex(bytes: &[u8]) -> String {
    bytes.iter().map(|byte| format!("{byte:02X}")).collect::<Vec<_>>().join(" ")
}
