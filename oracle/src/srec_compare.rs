//! The calls for S-records beside the oracle, on the same inputs: reply, all of memory, the text with what lies past
//! it; and what the inputs have reached.

use crate::machine::MEMORY;
use crate::srec::{self, Fault};
use crate::srec_inputs::{load, write, Kind, Load, Write};
use std::collections::HashMap;
use std::fmt::Debug;
use std::path::{Path, PathBuf};
use std::{fs, io};

/// Loads an input in place and gives the reply, as `xm23_load_srec` does.
pub type Loader = fn(&mut Load) -> u64;

/// Writes an input in place and gives the reply, as `xm23_write_srec` does.
pub type Writer = fn(&mut Write) -> u64;

pub fn oracle_load(i: &mut Load) -> u64 {
    srec::load_reply(srec::load(&mut i.memory, &i.text), i.pc)
}

pub fn oracle_write(i: &mut Write) -> u64 {
    srec::write_reply(srec::write(&i.memory, i.start, i.length, i.pc, &mut i.text))
}

// ---- what is reached

/// Why a line's form is wrong, or what an input has that must be tried.
#[rustfmt::skip]
#[derive(Clone, Copy, Debug, PartialEq, Eq, Hash)]
pub enum Item {
    // loads refused
    NoMemory, NoText, NoS9,
    EmptyLine, LowerS, NoS, NoType, Blank, LoneCr, Nul, NoDigit, OddDigits, CountAbove, CountBelow, CountBelow3, S9Data,
    S9NotLast, S9NotLastBadSum, LineAfterS9Only,
    SumS0, SumS1, SumS9,
    PastByOne, PastByMore,
    AfterData,
    // loads accepted
    S9Alone, S0, CrLf, Lf, BothEndings, NoEnding, LowerCase, BothCases, NoData, LastByte, LongestLine, Overlap,
    ManyLines, OddPc,
    // writes
    WriteNoMemory, SpanByOne, SpanFar, BufferByOne, BufferNone, ExactFit, Tail, EmptySpan, FullLines, Rest, ToTheEnd,
    AllOfMemory, Unaligned,
}

use Item::*;

/// Everything that must be reached.
#[rustfmt::skip]
pub const OWED: [Item; 51] = [
    NoMemory, NoText, NoS9, EmptyLine, LowerS, NoS, NoType, Blank, LoneCr, Nul, NoDigit, OddDigits, CountAbove,
    CountBelow, CountBelow3, S9Data, S9NotLast, S9NotLastBadSum, LineAfterS9Only, SumS0, SumS1, SumS9, PastByOne,
    PastByMore, AfterData, S9Alone, S0, CrLf, Lf, BothEndings, NoEnding, LowerCase, BothCases, NoData, LastByte,
    LongestLine, Overlap, ManyLines, OddPc, WriteNoMemory, SpanByOne, SpanFar, BufferByOne, BufferNone, ExactFit, Tail,
    EmptySpan, FullLines, Rest, ToTheEnd, AllOfMemory,
];

#[derive(Default)]
pub struct Reached(HashMap<Item, u64>);

impl Reached {
    fn mark(&mut self, holds: bool, item: Item) {
        *self.0.entry(item).or_default() += u64::from(holds);
    }

    /// What was reached fewer times than `least`.
    pub fn gaps(&self, least: u64) -> Vec<String> {
        let count = |item: &Item| self.0.get(item).copied().unwrap_or(0);
        OWED.iter().filter(|item| count(item) < least).map(|item| format!("{item:?}: {}", count(item))).collect()
    }

    /// Loads an input in place by the oracle, counting what it reaches, and gives the reply.
    fn load(&mut self, i: &mut Load) -> u64 {
        let result = srec::load(&mut i.memory, &i.text);
        match result {
            Err(fault) => self.refused(&i.text, fault),
            Ok(pc) => self.accepted(&i.text, pc),
        }
        srec::load_reply(result, i.pc)
    }

    fn refused(&mut self, text: &[u8], Fault { number, line }: Fault) {
        let lines = srec::lines(text);
        self.mark(number == 1, NoMemory);
        if number == 1 {
            return;
        }
        let at = line as usize - 1;
        let before = lines[..at].iter().filter_map(|line| srec::record(line));
        self.mark(before.filter(|r| r.kind == b'1').any(|r| !r.data().is_empty()), AfterData);
        if at == lines.len() {
            return self.mark(true, if at == 0 { NoText } else { NoS9 });
        }
        match (number, srec::record(lines[at])) {
            (10, None) => self.form(lines[at]),
            (10, Some(r)) => {
                self.mark(r.summed(), S9NotLast);
                self.mark(!r.summed(), S9NotLastBadSum);
                self.mark(at + 2 == lines.len() && lines[at + 1].is_empty(), LineAfterS9Only);
            }
            (11, Some(r)) => self.mark(true, [SumS0, SumS1, SumS9][usize::from(r.kind - b'0').min(2)]),
            (_, Some(r)) => {
                let by_one = usize::from(r.address()) + r.data().len() == MEMORY + 1;
                self.mark(true, if by_one { PastByOne } else { PastByMore });
            }
            _ => unreachable!("11 and 12 are of records"),
        }
    }

    /// Why a line is no record: the first thing wrong with it.
    fn form(&mut self, line: &[u8]) {
        let [first, kind, digits @ ..] = line else {
            return self.mark(true, if line.is_empty() { EmptyLine } else { NoType });
        };
        let known = matches!(kind, b'0' | b'1' | b'9');
        let wrong = digits.iter().find(|b| !b.is_ascii_hexdigit());
        let item = match wrong {
            _ if *first == b's' => LowerS,
            _ if *first != b'S' => NoS,
            _ if !known => NoType,
            Some(b' ' | b'\t') => Blank,
            Some(b'\r') => LoneCr,
            Some(0) => Nul,
            Some(_) => NoDigit,
            None if digits.len() % 2 == 1 => OddDigits,
            None => {
                let text = std::str::from_utf8(digits).expect("digits");
                let count = text.get(..2).map_or(0, |two| usize::from_str_radix(two, 16).expect("digits"));
                match count.cmp(&(digits.len() / 2).saturating_sub(1)) {
                    std::cmp::Ordering::Greater => CountAbove,
                    std::cmp::Ordering::Less => CountBelow,
                    _ if count < 3 => CountBelow3,
                    _ => S9Data,
                }
            }
        };
        self.mark(true, item);
    }

    fn accepted(&mut self, text: &[u8], pc: u16) {
        let lines = srec::lines(text);
        let records: Vec<_> = lines.iter().filter_map(|line| srec::record(line)).collect();
        let ended = |ending: &[u8]| text.windows(ending.len()).any(|bytes| bytes == ending);
        let (cr, lf) = (ended(b"\r\n"), (0..10).any(|d| ended(&[b'0' + d, b'\n'])));
        let (lower, upper) = (text.iter().any(|b| b.is_ascii_lowercase()), text.iter().any(|b| (65..71).contains(b)));
        self.mark(cr, CrLf);
        self.mark(lf, Lf);
        self.mark(cr && lf, BothEndings);
        self.mark(!text.ends_with(b"\n"), NoEnding);
        self.mark(lower, LowerCase);
        self.mark(lower && upper, BothCases);
        self.mark(records.len() == 1, S9Alone);
        self.mark(records.len() > 100, ManyLines);
        self.mark(pc % 2 == 1, OddPc);
        let mut covered = vec![false; MEMORY];
        for r in records {
            self.mark(r.kind == b'0', S0);
            self.mark(r.kind == b'1' && r.data().is_empty(), NoData);
            self.mark(r.count == 255, LongestLine);
            if r.kind == b'1' && !r.data().is_empty() {
                let span = &mut covered[usize::from(r.address())..][..r.data().len()];
                self.mark(span.contains(&true), Overlap);
                span.fill(true);
                self.mark(usize::from(r.address()) + r.data().len() == MEMORY, LastByte);
            }
        }
    }

    /// Writes an input in place by the oracle, counting what it reaches, and gives the reply.
    fn write(&mut self, i: &mut Write) -> u64 {
        let reply = oracle_write(i);
        let (end, room) = (u64::from(i.start) + u64::from(i.length), i.text.len() as u64);
        let need = 11 * u64::from(i.length).div_ceil(16) + 2 * u64::from(i.length) + 11;
        if i.memory.len() != MEMORY {
            self.mark(true, WriteNoMemory);
        } else if end > MEMORY as u64 {
            self.mark(true, if end == MEMORY as u64 + 1 { SpanByOne } else { SpanFar });
        } else if room < need {
            self.mark(room + 1 == need, BufferByOne);
            self.mark(room == 0, BufferNone);
        } else {
            self.mark(room == need, ExactFit);
            self.mark(room > need, Tail);
            self.mark(i.length == 0, EmptySpan);
            self.mark(i.length > 0 && i.length % 16 == 0, FullLines);
            self.mark(i.length % 16 != 0, Rest);
            self.mark(end == MEMORY as u64, ToTheEnd);
            self.mark(end == MEMORY as u64 && i.start == 0, AllOfMemory);
            self.mark(i.start % 16 != 0, Unaligned);
        }
        reply
    }
}

// ---- comparing

/// What a call is lent.
#[derive(Clone, Debug)]
pub enum Call {
    Load(Load),
    Write(Write),
}

/// A call on which the library and the oracle differ.
#[derive(Debug)]
pub struct Difference {
    pub what: String,
    pub given: Call,
}

impl Difference {
    /// Writes the call and what differs into a new folder, and gives its path.
    pub fn save(&self, folder: &Path, name: &str) -> io::Result<PathBuf> {
        let place = folder.join(name);
        fs::create_dir_all(&place)?;
        let (memory, text, numbers) = match &self.given {
            Call::Load(i) => (&i.memory, &i.text, format!("load {}\n", i.pc)),
            Call::Write(i) => (&i.memory, &i.text, format!("write {} {} {}\n", i.start, i.length, i.pc)),
        };
        fs::write(place.join("memory.bin"), memory)?;
        fs::write(place.join("text.s19"), text)?;
        fs::write(place.join(CALL), numbers)?;
        fs::write(place.join("difference.txt"), format!("{}\n", self.what))?;
        Ok(place)
    }
}

/// The file of a saved call that has its numbers.
const CALL: &str = "call.txt";

/// Whether a path is one of a saved call: a folder of `save`, or a text that the search by coverage has written.
pub fn is_saved(place: &Path) -> bool {
    let name = place.file_name().map(|name| name.to_string_lossy().into_owned()).unwrap_or_default();
    place.join(CALL).exists() || place.is_file() && name.starts_with("srec-")
}

/// The call of such a path. The search loads its text into bytes EE, with PC 1234.
pub fn saved(place: &Path) -> io::Result<Call> {
    if place.is_file() {
        return Ok(Call::Load(Load { memory: vec![0xEE; MEMORY], text: fs::read(place)?, pc: 0x1234 }));
    }
    let (memory, text) = (fs::read(place.join("memory.bin"))?, fs::read(place.join("text.s19"))?);
    let words = fs::read_to_string(place.join(CALL))?;
    let words: Vec<&str> = words.split_whitespace().collect();
    let wrong = || io::Error::other("call.txt has no call");
    let number = |text: &str| text.parse::<u32>().map_err(|_| wrong());
    let short = |text: &str| text.parse::<u16>().map_err(|_| wrong());
    match words[..] {
        ["load", pc] => Ok(Call::Load(Load { memory, text, pc: short(pc)? })),
        ["write", start, length, pc] => {
            Ok(Call::Write(Write { memory, start: short(start)?, length: number(length)?, pc: short(pc)?, text }))
        }
        _ => Err(wrong()),
    }
}

/// Makes a call by both.
pub fn compare_call(calls: (Writer, Loader), given: &Call) -> Result<u64, Difference> {
    let reached = &mut Reached::default();
    match given {
        Call::Load(i) => compare_load(calls.1, i, reached),
        Call::Write(i) => compare_write(calls.0, calls.1, i, reached),
    }
}

/// Where two buffers differ first.
fn first(name: &str, ours: &[u8], theirs: &[u8]) -> Option<String> {
    if ours == theirs {
        return None;
    }
    let at = (0..ours.len()).find(|&i| ours[i] != theirs[i])?;
    Some(format!("{name} byte {at} is {:02X}, oracle {:02X}", ours[at], theirs[at]))
}

fn replies(ours: u64, theirs: u64) -> Option<String> {
    (ours != theirs).then(|| format!("reply {ours:016X}, oracle {theirs:016X}"))
}

/// Loads an input by both, counting what the oracle reaches.
pub fn compare_load(loader: Loader, given: &Load, reached: &mut Reached) -> Result<u64, Difference> {
    let (mut ours, mut theirs) = (given.clone(), given.clone());
    let (reply, right) = (loader(&mut ours), reached.load(&mut theirs));
    let what = replies(reply, right).or_else(|| first("memory", &ours.memory, &theirs.memory));
    let what = what.or_else(|| (ours.text != given.text).then(|| "the text changed".into()));
    what.map_or(Ok(reply), |what| Err(Difference { what, given: Call::Load(given.clone()) }))
}

/// Writes an input by both, counting what the oracle reaches. What was written is then loaded by both.
pub fn compare_write(writer: Writer, loader: Loader, given: &Write, reached: &mut Reached) -> Result<u64, Difference> {
    let (mut ours, mut theirs) = (given.clone(), given.clone());
    let (reply, right) = (writer(&mut ours), reached.write(&mut theirs));
    let what = replies(reply, right).or_else(|| first("text", &ours.text, &theirs.text));
    let what = what.or_else(|| (ours.memory != given.memory).then(|| "the memory changed".into()));
    if let Some(what) = what {
        return Err(Difference { what: format!("{what}; {}", named(given)), given: Call::Write(given.clone()) });
    }
    if reply & 0xFF == 0 {
        let text = ours.text[..(reply >> 8) as usize].to_vec();
        let memory = given.memory.iter().map(|b| !b).collect();
        compare_load(loader, &Load { memory, text, pc: !given.pc }, reached)?;
    }
    Ok(reply)
}

fn named(i: &Write) -> String {
    format!("start {}, length {}, PC {}, buffer {}", i.start, i.length, i.pc, i.text.len())
}

/// Loads of a kind, from a seed on. The first difference ends it.
pub fn loads(loader: Loader, kind: Kind, first: u64, many: u64, reached: &mut Reached) -> Result<(), Found> {
    (first..first + many).try_for_each(|seed| found(kind, seed, compare_load(loader, &load(kind, seed), reached)))
}

/// Writes, from a seed on, each loaded again.
pub fn writes(calls: (Writer, Loader), first: u64, many: u64, reached: &mut Reached) -> Result<(), Found> {
    (first..first + many)
        .try_for_each(|seed| found("Write", seed, compare_write(calls.0, calls.1, &write(seed), reached)))
}

/// A difference with the name of its input.
#[derive(Debug)]
pub struct Found {
    pub name: String,
    pub difference: Difference,
}

fn found(kind: impl Debug, seed: u64, result: Result<u64, Difference>) -> Result<(), Found> {
    result
        .map(|_| ())
        .map_err(|difference| Found { name: format!("srec-{kind:?}-{seed}").replace('"', ""), difference })
}
