//! Readable cases, tests/cases/*.txt: a small program with its start and events, the line that the rules give, what 003
//! prints, and the sentence that decides.
//!
//! A file is a list of `key: value`; lines that start with a blank belong to the key above them. Keys: `title`, `from`,
//! `start` (`R0=00FF PSW=60E0 CEX=.. LINES=00000012 HALTED=1 COUNT=..`, hexadecimal; PC #1000 and SP #0800 if not
//! named; `BYTE20=01` is byte 20 of the record whatever it means),
//! `source` (02 §12), `events` (`step device data` on each line, step in base ten; `x9` behind it is nine of them, each
//! a step later), `n`, `line`, `bytes` (`0100=34`, afterwards), `printed`, `decides`. Every key but `start`, `events`,
//! `bytes` and `printed` must be there in a case of the repository; an input is made of `source` and `n` alone.
//!
//! Of the output log: `log` is the length in bytes of the log that the library is lent, of long enough a one if it is
//! not named; `reply` what the library then gives, `reason steps added` in base ten or `R9`, and `shown` the records
//! that stand in the log, `step device byte` on each line; `deepest` the depth that it then gives, in base ten. `line`
//! is of a log long enough whatever `log` says, and so are `bytes` where `reply` is not there; with `reply` they are
//! what the library leaves.
//!
//! Of the journal: `journal` is how many records the library is lent, and the next place, 0 if not named, with which
//! the run is done once more; `kept` the number kept and the next place afterwards; `records` a line for each record
//! that is looked at: its place, the step count in it, its address and its eight bytes, the last nine in base sixteen.
//! `back` is by how many steps it is then gone back, and `then` what is there afterwards, hexadecimal:
//! `R1=0001 PC=1000 COUNT=2 0100=34`.

use crate::assemble::judge;
use crate::inputs::Input;
use crate::journal::{Held, Journal, KEPT};
use crate::machine::{event_record, long_log, Event, Lines, Machine, Ran, Shown, LR, PC, RECORD, SP};
use crate::refusals::sentence;
use std::collections::HashMap;
use std::path::PathBuf;

/// A mistake in a text: the line that has it, from 1, and what is wrong.
#[derive(Clone, Debug, PartialEq, Eq)]
pub struct Mistake {
    pub line: usize,
    pub text: String,
}

impl Mistake {
    fn new(line: usize, text: impl Into<String>) -> Mistake {
        Mistake { line, text: text.into() }
    }
}

pub struct Case {
    pub name: String,
    pub title: String,
    /// What the memory of the input is assembled of.
    pub source: Vec<u8>,
    pub input: Input,
    /// The printed line, LF included.
    pub line: String,
    /// Bytes of memory afterwards.
    pub bytes: Vec<(u16, u8)>,
    /// What the library gives with the log that it is lent, and the records in it, where the case says so.
    pub reply: Option<Result<Ran, u8>>,
    pub shown: Option<Vec<Shown>>,
    /// The depth of that run, where the case says so.
    pub deepest: Option<u32>,
    pub journal: Option<Kept>,
}

/// A record of a journal: its place, the step count in it, the address and the eight bytes.
pub type Row = (usize, u32, u16, [u8; 8]);

/// What a case says of a journal.
pub struct Kept {
    pub held: Held,
    /// The number kept and the next place after the run.
    pub left: (u32, u32),
    pub rows: Vec<Row>,
    pub back: u64,
    /// After going back: parts of the state record by their places, and bytes of memory.
    pub state: Vec<(String, u32)>,
}

#[rustfmt::skip]
const KEYS: [&str; 19] = [
    "title", "from", "start", "source", "events", "n", "line", "bytes", "log", "reply", "shown", "deepest", "journal",
    "kept", "records", "back", "then", "printed", "decides",
];
/// What the bytes of a log hold that a case lends.
const UNTOUCHED: u8 = 0x5A;
/// What an input is made of, and what a case of the repository has besides.
const NEEDED: [&str; 2] = ["source", "n"];
const OF_A_CASE: [&str; 4] = ["title", "from", "line", "decides"];

/// A key's value: the line of the key, and the text behind it with the lines below it.
struct Value {
    line: usize,
    text: String,
}

type Values = HashMap<String, Value>;

/// What is wrong with a part of a value, where something is.
type Outcome<T> = Result<T, String>;

fn hex(text: &str) -> Outcome<u32> {
    u32::from_str_radix(text, 16).map_err(|_| format!("{text} is no hexadecimal number"))
}

fn fitting<T: TryFrom<u32>>(name: &str, value: u32) -> Outcome<T> {
    T::try_from(value).map_err(|_| format!("{name}={value:X} does not fit"))
}

/// `NAME=VALUE`.
fn pair(text: &str) -> Outcome<(&str, u32)> {
    let (name, value) = text.split_once('=').ok_or_else(|| format!("{text} has no ="))?;
    Ok((name, hex(value)?))
}

/// The record that a run starts from: a machine by its parts, then single bytes.
fn start(text: &str) -> Outcome<[u8; RECORD]> {
    let (mut m, mut bytes) = (Machine::default(), Vec::<(usize, u8)>::new());
    (m.regs[PC], m.regs[SP]) = (0x1000, 0x0800);
    for part in text.split_whitespace() {
        let (name, value) = pair(part)?;
        let register = ["R0", "R1", "R2", "R3", "R4", "R5", "R6", "R7"].iter().position(|&r| r == name);
        match (name, register) {
            (_, Some(register)) => m.regs[register] = fitting(name, value)?,
            ("LR", _) => m.regs[LR] = fitting(name, value)?,
            ("SP", _) => m.regs[SP] = fitting(name, value)?,
            ("PC", _) => m.regs[PC] = fitting(name, value)?,
            ("PSW", _) => m.psw = fitting(name, value)?,
            ("CEX", _) => m.cex = fitting(name, value)?,
            ("LINES", _) => m.lines = Lines::from_bytes(&value.to_le_bytes()),
            ("HALTED", _) => m.halted = value == 1,
            ("COUNT", _) => m.count = value,
            _ => match name.strip_prefix("BYTE").and_then(|place| place.parse().ok()) {
                Some(place) if place < RECORD => bytes.push((place, fitting(name, value)?)),
                _ => return Err(format!("{name} is no part of the start")),
            },
        }
    }
    let mut record = m.to_record();
    bytes.into_iter().for_each(|(place, byte)| record[place] = byte);
    Ok(record)
}

/// A line of events: one, or as many as it says, each a step after the one before it.
fn events(line: &str) -> Outcome<Vec<Event>> {
    let wrong = || format!("'{}' is no event: step device data [xTIMES]", line.trim());
    let parts: Vec<&str> = line.split_whitespace().collect();
    let (step, device, data, times) = match parts[..] {
        [] => return Ok(Vec::new()),
        [step, device, data] => (step, device, data, "x1"),
        [step, device, data, times] => (step, device, data, times),
        _ => return Err(wrong()),
    };
    let times: u32 = times.strip_prefix('x').and_then(|times| times.parse().ok()).ok_or_else(wrong)?;
    let (first, device): (u32, u8) = (step.parse().map_err(|_| wrong())?, device.parse().map_err(|_| wrong())?);
    let data = fitting("data", hex(data)?)?;
    first.checked_add(times.saturating_sub(1)).ok_or_else(wrong)?;
    Ok((0..times).map(|i| Event { step: first + i, device, data }).collect())
}

/// What the library gives: `reason steps added`, or `R9`.
fn reply(text: &str) -> Outcome<Option<Result<Ran, u8>>> {
    let wrong = || format!("'{text}' is no reply: reason steps added, or R and a refusal");
    let numbers = |text: &str| text.split_whitespace().map(|part| part.parse().ok()).collect::<Option<Vec<u32>>>();
    match (text.strip_prefix('R'), numbers(text).as_deref()) {
        _ if text.is_empty() => Ok(None),
        (Some(number), _) => Ok(Some(Err(number.parse().map_err(|_| wrong())?))),
        (None, Some(&[reason, steps, added])) => {
            Ok(Some(Ok(Ran { reason: fitting("reason", reason)?, steps, added, ..Ran::default() })))
        }
        _ => Err(wrong()),
    }
}

/// A record of the log: `step device byte`.
fn shown(line: &str) -> Outcome<Option<Shown>> {
    let wrong = || format!("'{}' is no record of the log: step device byte", line.trim());
    match line.split_whitespace().collect::<Vec<_>>()[..] {
        [] => Ok(None),
        [step, device, byte] => {
            let (step, device) = (step.parse().map_err(|_| wrong())?, device.parse().map_err(|_| wrong())?);
            Ok(Some(Shown { step, device, byte: fitting("byte", hex(byte)?)? }))
        }
        _ => Err(wrong()),
    }
}

/// The numbers of a text in base ten.
fn numbers<const K: usize>(text: &str, what: &str) -> Outcome<[u64; K]> {
    let all: Option<Vec<u64>> = text.split_whitespace().map(|part| part.parse().ok()).collect();
    all.and_then(|all| all.try_into().ok()).ok_or_else(|| format!("'{text}' is no {what}"))
}

/// A record of the journal: place and step count in base ten, address and eight bytes in base sixteen.
fn row(line: &str) -> Outcome<Option<Row>> {
    let wrong = || format!("'{}' is no record of the journal: place step address and eight bytes", line.trim());
    let parts: Vec<&str> = line.split_whitespace().collect();
    let [place, step, address, ref bytes @ ..] = parts[..] else {
        return if parts.is_empty() { Ok(None) } else { Err(wrong()) };
    };
    let bytes =
        bytes.iter().map(|byte| hex(byte).and_then(|byte| fitting("byte", byte))).collect::<Outcome<Vec<u8>>>()?;
    let (place, step) = (place.parse().map_err(|_| wrong())?, step.parse().map_err(|_| wrong())?);
    Ok(Some((place, step, fitting("address", hex(address)?)?, bytes.try_into().map_err(|_| wrong())?)))
}

/// What a case says of a journal, of an input that the run is handed.
fn journal(get: &dyn Fn(&str) -> String, input: &Input) -> Result<Option<Kept>, (&'static str, String)> {
    let at = |key: &'static str| move |text: String| (key, text);
    let (text, mut rows) = (get("journal"), Vec::new());
    if text.is_empty() {
        return Ok(None);
    }
    let whole = if text.contains(' ') { text } else { text + " 0" };
    let [records, place] = numbers(&whole, "journal: records, and a place").map_err(at("journal"))?;
    let bytes = vec![UNTOUCHED; KEPT * records as usize];
    let held = Held { input: input.clone(), journal: Journal { bytes, kept: 0, place: place as u32 } };
    let [kept, next] = numbers(&get("kept"), "number kept with the next place").map_err(at("kept"))?;
    for line in get("records").lines() {
        rows.extend(row(line).map_err(at("records"))?);
    }
    let back = if get("back").is_empty() { "0".to_string() } else { get("back") };
    let [back] = numbers(&back, "number of steps back").map_err(at("back"))?;
    let part = |text: &str| pair(text).map(|(name, value)| (name.to_string(), value));
    let state = get("then").split_whitespace().map(part).collect::<Outcome<_>>().map_err(at("then"))?;
    Ok(Some(Kept { held, left: (kept as u32, next as u32), rows, back, state }))
}

/// The keys of a file with their values, the lines of a value joined by line feeds.
fn keys(text: &str) -> Result<Values, Mistake> {
    let mut all: Vec<(String, Value)> = Vec::new();
    for (place, line) in text.lines().enumerate() {
        let wrong = |text: String| Mistake::new(place + 1, text);
        if line.starts_with(' ') || line.is_empty() {
            if let Some((_, value)) = all.last_mut() {
                value.text += &format!("\n{line}");
            } else if !line.trim().is_empty() {
                return Err(wrong("a line of a value, and no key above it".into()));
            }
        } else {
            let (key, value) = line.split_once(':').ok_or_else(|| wrong(format!("'{line}' has no key")))?;
            if !KEYS.contains(&key) {
                return Err(wrong(format!("{key} is no key; the keys are {}", KEYS.join(", "))));
            }
            all.push((key.to_string(), Value { line: place + 1, text: value.trim().to_string() }));
        }
    }
    Ok(all.into_iter().collect())
}

/// The values that every input must have are there.
fn have(values: &Values, needed: &[&str]) -> Result<(), Mistake> {
    match needed.iter().find(|&&key| !values.contains_key(key)) {
        Some(key) => Err(Mistake::new(1, format!("the key {key} is missing"))),
        None => Ok(()),
    }
}

/// Reads a case, of which only `source` and `n` must be there.
pub fn parse(name: &str, text: &str) -> Result<Case, Mistake> {
    let values = keys(text)?;
    have(&values, &NEEDED)?;
    let get = |key: &str| values.get(key).map_or("", |value| value.text.as_str());
    let line = |key: &str| values.get(key).map_or(0, |value| value.line);
    let at = |key: &'static str| move |text: String| (key, text);
    let wrong = |(key, text): (&str, String)| Mistake::new(line(key), text);
    let source = get("source").as_bytes().to_vec();
    let refused = |number| format!("refused with {number}: {}", sentence(number));
    let program = judge(&source).map_err(|f| Mistake::new(line("source") + f.line as usize - 1, refused(f.number)))?;
    let mut list = Vec::new();
    for (place, text) in get("events").lines().enumerate() {
        list.extend(events(text).map_err(|text| Mistake::new(line("events") + place, text))?);
    }
    let n: u32 = get("n").parse().map_err(|_| wrong(("n", format!("'{}' is no number of steps", get("n")))))?;
    let log = match get("log") {
        "" => long_log(n.into()).len(),
        text => text.parse().map_err(|_| wrong(("log", format!("'{text}' is no length of a log"))))?,
    };
    let mut records = Vec::new();
    for (place, text) in get("shown").lines().enumerate() {
        records.extend(shown(text).map_err(|text| Mistake::new(line("shown") + place, text))?);
    }
    let reply = reply(get("reply")).map_err(at("reply")).map_err(wrong)?;
    let deepest = match get("deepest") {
        "" => None,
        text => Some(text.parse().map_err(|_| wrong(("deepest", format!("'{text}' is no depth"))))?),
    };
    let input = Input {
        memory: program.memory(),
        record: start(get("start")).map_err(at("start")).map_err(wrong)?.to_vec(),
        events: list.into_iter().flat_map(event_record).collect(),
        log: vec![UNTOUCHED; log],
        n: n.into(),
        ..Input::default()
    };
    let byte = |(address, byte): (&str, u32)| Ok((fitting(address, hex(address)?)?, fitting(address, byte)?));
    let bytes: Outcome<_> = get("bytes").split_whitespace().map(|text| pair(text).and_then(byte)).collect();
    let bytes = bytes.map_err(at("bytes")).map_err(wrong)?;
    let (title, line) = (get("title").into(), get("line").to_string() + "\n");
    let shown = values.contains_key("shown").then_some(records);
    let journal = journal(&|key| get(key).to_string(), &input).map_err(wrong)?;
    Ok(Case { name: name.into(), title, source, input, line, bytes, reply, shown, deepest, journal })
}

/// The cases of 01's list, the example of its sheet, and its plausible misreadings.
pub const OF_01: [&str; 25] = [
    "01-add-byte",
    "01-add-word",
    "01-addc-word",
    "01-sub-byte-borrow",
    "01-sub-byte-no-borrow",
    "01-subc-word",
    "01-dadd-99-01",
    "01-dadd-ff-ff",
    "01-sra",
    "01-sxt",
    "01-entry-with-sp-0",
    "01-branch-to-itself",
    "01-word-load-0101",
    "01-n-0",
    "01-n-1000000",
    "01-n-1000001",
    "01-4096-events",
    "01-4097-events",
    "01-example-of-the-sheet",
    "01-setpri-3-after-reset",
    "01-3-minus-fd",
    "01-skipped-word-is-not-decoded",
    "01-overflow-of-subc",
    "01-awake-at-ffff",
    "01-asleep-at-ffff",
];

/// The cases of the change requests of 02.
pub const OF_02: [&str; 68] = [
    "02-1-count-before-the-step",
    "02-1-ena-clear",
    "02-1-ena-set-by-the-same-store",
    "02-1-full-log-goes-on",
    "02-1-full-on-the-last-step",
    "02-1-in-a-handler",
    "02-1-input-device",
    "02-1-length-of-the-log",
    "02-1-line-accepted-instead",
    "02-1-no-log",
    "02-1-no-log-no-step",
    "02-1-no-room-no-event",
    "02-1-odd-word",
    "02-1-push-by-st-is-shown",
    "02-1-pushes-of-entry-are-not-shown",
    "02-1-skipped-store",
    "02-1-twins-before-the-log",
    "02-1-word-store-shows-its-high-byte",
    "02-3-one-device-twice-on-a-step",
    "02-3-one-step-of-all-devices",
    "02-3-the-step-after",
    "02-3-other-data",
    "02-3-before-the-sitting",
    "02-3-order-first",
    "02-bic-of-16-sets-z",
    "02-bis-byte-by-the-low-byte",
    "02-bis-byte-of-8-sets-no-bit",
    "02-bis-of-16-sets-no-bit",
    "02-bis-of-no-bit-into-pc-clears-cex",
    "02-bit-keeps-its-mask",
    "02-6-word-store-takes-nothing",
    "02-6-effective-address",
    "02-6-byte-accesses",
    "02-6-pushes-drop-bit-0",
    "02-6-entry-and-return-at-an-odd-sp",
    "02-6-cex-count-lowered",
    "02-6-with-flt-set",
    "02-6-device-word",
    "02-7-forty-ticks",
    "02-7-full-count",
    "02-7-chained-again",
    "02-7-old-record",
    "02-7-interrupts-not-enabled",
    "02-7-places-of-the-counts",
    "02-7-tick-lost-as-one-is-taken",
    "02-7-trap-takes-none",
    "02-8-address-of-an-entry",
    "02-8-addresses-wrap",
    "02-8-back-by-some",
    "02-8-back-from-a-halt",
    "02-8-before-the-due-events",
    "02-8-oldest-overwritten",
    "02-8-record-of-a-store",
    "02-8-step-not-taken",
    "02-8-store-to-a-device",
    "02-10-chained-entry",
    "02-10-greatest-and-not-the-last",
    "02-10-halting-fault",
    "02-10-hundreds-of-thousands-deep",
    "02-10-line-trap-and-fault",
    "02-10-no-room-no-frame",
    "02-10-past-the-bound",
    "02-10-return-with-none-open",
    "02-10-since-the-start",
    "02-interrupted-trap",
    "02-interrupted-trap-alone",
    "02-ignored-bit-assembled",
    "02-ignored-bit-executed",
];

/// Every case of the repository, by name. A mistake in one is a panic.
pub fn all() -> Vec<Case> {
    let folder = PathBuf::from(env!("CARGO_MANIFEST_DIR")).join("../tests/cases");
    let entries = std::fs::read_dir(&folder).unwrap_or_else(|e| panic!("{}: {e}", folder.display()));
    let mut paths: Vec<PathBuf> = entries.map(|entry| entry.expect("an entry").path()).collect();
    paths.sort();
    let read = |path: &PathBuf| {
        let name = path.file_stem().unwrap().to_string_lossy().into_owned();
        let text = std::fs::read_to_string(path).unwrap_or_else(|e| panic!("{}: {e}", path.display()));
        let case = keys(&text).and_then(|values| have(&values, &OF_A_CASE)).and_then(|()| parse(&name, &text));
        case.unwrap_or_else(|m| panic!("{}:{}: {}", path.display(), m.line, m.text))
    };
    paths.iter().map(read).collect()
}
