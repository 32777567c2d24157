//! What stands where in a source: xm23_places as docs/CALLS.md has it, over the assembler of this crate; and the call of
//! the library beside it on the same inputs: the reply and every byte of the buffer, and what the inputs have reached.

use crate::assemble::source::{Line, Statement};
use crate::assemble::{self, content, judge_lines, read, value, Fault};
use crate::assemble_inputs::{input, Kind};
use crate::machine::MEMORY;
use crate::random::Random;
use crate::srec;
use std::collections::HashMap;
use std::path::{Path, PathBuf};
use std::{fs, io};

/// Bytes of a record.
pub const RECORD: usize = 8;

// ---- the call

/// A source judged: its lines up to and with END, their places, and what its names stand for.
pub struct Judged {
    pub lines: Vec<Line>,
    pub places: Vec<i64>,
    pub names: HashMap<String, i32>,
}

pub fn judged(source: &[u8]) -> Result<Judged, Fault> {
    let lines = read(source)?;
    let made = judge_lines(&lines)?;
    Ok(Judged { lines, places: made.places, names: made.names })
}

/// "0 no statement, 1 instruction, 2 BYTE, 3 WORD, 4 ORG, 5 EQU, 6 BSS, 7 END".
pub fn kind_of(statement: Option<&Statement>) -> u8 {
    match statement {
        None => 0,
        Some(Statement::Byte(_)) => 2,
        Some(Statement::Word(_)) => 3,
        Some(Statement::Org(_)) => 4,
        Some(Statement::Equ(_)) => 5,
        Some(Statement::Bss(_)) => 6,
        Some(Statement::End) => 7,
        Some(_) => 1,
    }
}

impl Judged {
    /// The record of a line of an accepted source.
    pub fn record(&self, at: usize) -> [u8; RECORD] {
        let (line, place) = (&self.lines[at], self.places[at]);
        let number = match &line.statement {
            Some(Statement::Equ(v)) => value(v, &self.names).expect("accepted"),
            _ => i32::try_from(place).expect("a place within 32 signed bits"),
        };
        let bytes = line.statement.as_ref().map_or(0, |s| content(s, place, &self.names).expect("accepted").len());
        let mut record = [0; RECORD];
        record[..4].copy_from_slice(&number.to_le_bytes());
        record[4] = kind_of(line.statement.as_ref());
        record[5] = bytes as u8;
        record[6] = line.name.is_some().into();
        record
    }

    pub fn records(&self) -> Vec<u8> {
        (0..self.lines.len()).flat_map(|at| self.record(at)).collect()
    }
}

/// What xm23_places is lent.
#[derive(Clone, Debug, PartialEq, Eq)]
pub struct Lent {
    pub source: Vec<u8>,
    pub places: Vec<u8>,
}

/// Lists a source in place and gives the reply, as `xm23_places` does.
pub type Lister = fn(&mut Lent) -> u64;

/// What a judged source answers.
pub fn answer(result: Result<Judged, Fault>, places: &mut [u8]) -> u64 {
    let records = match result {
        Err(fault) => return assemble::reply(Err(fault)),
        Ok(judged) => judged.records(),
    };
    if places.len() < records.len() {
        return 22;
    }
    places[..records.len()].copy_from_slice(&records);
    ((records.len() / RECORD) as u64).min(u32::MAX.into()) << 32
}

pub fn oracle_places(lent: &mut Lent) -> u64 {
    answer(judged(&lent.source), &mut lent.places)
}

// ---- inputs

/// A source of a kind and seed, and a buffer of bytes that are told apart: of the records' length, one byte off it, one
/// record off it, none at all, more than enough, or any length.
pub fn lent(kind: Kind, seed: u64) -> Lent {
    let source = input(kind, seed).source;
    let random = &mut Random::new(seed ^ 0x5EED_0F91_ACE5);
    let enough = RECORD * (source.iter().filter(|&&b| b == b'\n').count() + 1);
    let exact = judged(&source).map_or(enough, |judged| RECORD * judged.lines.len());
    let length = match random.below(12) {
        0..=2 => exact,
        3 => exact - 1,
        4 => exact + 1,
        5 => exact - RECORD,
        6 => exact + RECORD,
        7 => 0,
        8 => random.below(exact as u64 + 1) as usize,
        _ => enough + random.below(40) as usize,
    };
    let (a, b) = (random.byte() | 1, random.byte());
    Lent { source, places: (0..length).map(|i| (i as u8).wrapping_mul(a).wrapping_add(b)).collect() }
}

// ---- what is reached

/// What a source must have, and how a buffer must be, for the comparison to count.
#[rustfmt::skip]
#[derive(Clone, Copy, Debug, PartialEq, Eq, Hash)]
pub enum Item {
    // a line of each kind, with a name and without one
    Empty, Comment, NameAlone, Instruction, NamedInstruction, Byte, NamedByte, Word, NamedWord, Org, NamedOrg, Equ, Bss,
    NamedBss, End, NamedEnd,
    // numbers
    EquNegative, EquLeast, EquBeyondMemory, Beyond, NamedBeyond, OddPlace, LastByte, Overlap,
    // lines that are not listed
    AfterEnd,
    // refused
    Form, Name, Value, Short, NoBuffer, FaultyAndShort,
    // accepted
    Exact, OneMore, TailKept, NoMultiple,
}

use Item::*;

#[rustfmt::skip]
pub const OWED: [Item; 35] = [
    Empty, Comment, NameAlone, Instruction, NamedInstruction, Byte, NamedByte, Word, NamedWord, Org, NamedOrg, Equ, Bss,
    NamedBss, End, NamedEnd, EquNegative, EquLeast, EquBeyondMemory, Beyond, NamedBeyond, OddPlace, LastByte, Overlap,
    AfterEnd, Form, Name, Value, Short, NoBuffer, FaultyAndShort, Exact, OneMore, TailKept, NoMultiple,
];

#[derive(Default)]
pub struct Reached(HashMap<Item, u64>);

impl Reached {
    fn mark(&mut self, holds: bool, item: Item) {
        *self.0.entry(item).or_default() += u64::from(holds);
    }

    /// What was reached fewer times than `least`.
    pub fn gaps(&self, least: u64) -> Vec<String> {
        let count = |item: &Item| self.0.get(item).copied().unwrap_or(0);
        OWED.iter().filter(|item| count(item) < least).map(|item| format!("{item:?}: {}", count(item))).collect()
    }

    fn call(&mut self, lent: &Lent) {
        let lines = srec::lines(&lent.source);
        match judged(&lent.source) {
            Err(fault) => {
                self.mark(true, [Form, Name, Value][usize::from(fault.number) - 17]);
                self.mark(lent.places.len() < RECORD, FaultyAndShort);
            }
            Ok(judged) => {
                let (records, length) = (judged.records().len(), lent.places.len());
                self.mark(length < records, Short);
                self.mark(length == 0, NoBuffer);
                self.mark(length == records, Exact);
                self.mark(length == records + 1, OneMore);
                self.mark(length > records, TailKept);
                self.mark(length > records && length % RECORD != 0, NoMultiple);
                self.mark(lines[judged.lines.len()..].iter().any(|line| !line.is_empty()), AfterEnd);
                if length >= records {
                    self.lines(&judged, &lines);
                }
            }
        }
    }

    /// The lines of a source whose records are written.
    fn lines(&mut self, judged: &Judged, texts: &[&[u8]]) {
        let mut seen = vec![false; MEMORY];
        for (at, line) in judged.lines.iter().enumerate() {
            let (named, place) = (line.name.is_some(), judged.places[at]);
            let pick = |alone: Item, with: Item| if named { with } else { alone };
            let comment = if texts[at].contains(&b';') { Comment } else { Empty };
            self.mark(
                true,
                match kind_of(line.statement.as_ref()) {
                    0 => pick(comment, NameAlone),
                    1 => pick(Instruction, NamedInstruction),
                    2 => pick(Byte, NamedByte),
                    3 => pick(Word, NamedWord),
                    4 => pick(Org, NamedOrg),
                    5 => Equ,
                    6 => pick(Bss, NamedBss),
                    _ => pick(End, NamedEnd),
                },
            );
            if let Some(Statement::Equ(v)) = &line.statement {
                let value = value(v, &judged.names).expect("accepted");
                self.mark(value < 0, EquNegative);
                self.mark(value == i32::MIN, EquLeast);
                self.mark(value > 65_535, EquBeyondMemory);
            } else {
                self.mark(place > 65_535, pick(Beyond, NamedBeyond));
                self.mark(place % 2 == 1, OddPlace);
            }
            for i in 0..judged.record(at)[5] {
                let byte = place as usize + usize::from(i);
                self.mark(byte == 0xFFFF, LastByte);
                self.mark(std::mem::replace(&mut seen[byte], true), Overlap);
            }
        }
    }
}

// ---- comparing

/// A call on which the library and the oracle differ.
#[derive(Debug)]
pub struct Difference {
    pub what: String,
    pub lent: Lent,
}

/// The files of a saved call.
const SOURCE: &str = "listed.txt";
const PLACES: &str = "places.bin";

impl Difference {
    /// Writes what was lent and what differs into a new folder, and gives its path.
    pub fn save(&self, folder: &Path, name: &str) -> io::Result<PathBuf> {
        let place = folder.join(name);
        fs::create_dir_all(&place)?;
        fs::write(place.join(SOURCE), &self.lent.source)?;
        fs::write(place.join(PLACES), &self.lent.places)?;
        fs::write(place.join("difference.txt"), format!("{}\n", self.what))?;
        Ok(place)
    }
}

/// Whether a folder is that of a saved call.
pub fn is_saved(place: &Path) -> bool {
    place.join(SOURCE).exists()
}

pub fn saved(place: &Path) -> io::Result<Lent> {
    Ok(Lent { source: fs::read(place.join(SOURCE))?, places: fs::read(place.join(PLACES))? })
}

/// Lists a source by both, counting what the oracle reaches: the reply and every byte of the buffer.
pub fn compare(lister: Lister, given: &Lent, reached: &mut Reached) -> Result<u64, Difference> {
    let (mut ours, mut theirs) = (given.clone(), given.clone());
    reached.call(given);
    let (reply, right) = (lister(&mut ours), oracle_places(&mut theirs));
    let byte = |at: usize| format!("byte {at} of the records is {}, oracle {}", ours.places[at], theirs.places[at]);
    let what = if reply != right {
        Some(format!("reply {reply:016X}, oracle {right:016X}"))
    } else if ours.source != given.source {
        Some("the source changed".to_string())
    } else {
        (0..ours.places.len()).find(|&at| ours.places[at] != theirs.places[at]).map(byte)
    };
    what.map_or(Ok(reply), |what| Err(Difference { what, lent: given.clone() }))
}

/// Sources of a kind, from a seed on. The first difference ends it.
pub fn compare_many(
    lister: Lister,
    kind: Kind,
    first: u64,
    many: u64,
    reached: &mut Reached,
) -> Result<(), (String, Difference)> {
    (first..first + many).try_for_each(|seed| {
        let name = format!("places-{kind:?}-{seed}");
        compare(lister, &lent(kind, seed), reached).map(|_| ()).map_err(|difference| (name, difference))
    })
}
