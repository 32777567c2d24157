//! The assembler's call beside the oracle, on the same inputs: reply and all of memory; and what the inputs have
//! reached.

use crate::assemble::source::{Factor, Line, Source, Statement};
use crate::assemble::words::reserved;
use crate::assemble::{self, judge, placed, read, value, Assembled, Fault, NAMES};
use crate::assemble_inputs::{input, Input, Kind};
use crate::machine::MEMORY;
use crate::operation::{operation, ROWS};
use crate::srec;
use std::collections::HashMap;
use std::path::{Path, PathBuf};
use std::{fs, io};

/// Assembles an input in place and gives the reply, as `xm23_assemble` does.
pub type Assembler = fn(&mut Input) -> u64;

pub fn oracle_assemble(i: &mut Input) -> u64 {
    assemble::reply(assemble::into_memory(&mut i.memory, &i.source))
}

// ---- what is reached

/// Why a source is refused, or what an accepted one has that must be tried.
#[rustfmt::skip]
#[derive(Clone, Copy, Debug, PartialEq, Eq, Hash)]
pub enum Item {
    NoMemory,
    // 17
    NoSource, EndMissing, LoneCr, LowerCase, OtherByte, TooDeep, NoDigits, Suffix, EndValue, EquUnnamed, WordAsName,
    TwoNames, Flags, MovConstant, OtherForm, FormAfterOthers,
    // 18
    Twice, TooMany, Unknown, OrgBelow, EquBelow, BssBelow, OfItself, NameAfterValue,
    // 19
    NumberLeaves, ResultLeaves, ByZero, OrgNegative, BssNegative, BssPast, NameFar, ByteMisfit, WordMisfit, Constant,
    SetPri, Svc, Cex, Ldr, Str, MovNumber, MovBracket, MovWord, TargetWord, TargetOdd, TargetFar, LinkFar, OddCode,
    OddWord, PastByte, PastWord, PastCode, PlaceAfterValue,
    // accepted
    NamedEnd, Forward, Wraps, Farthest, LinkFarthest, NegativeTarget, Overlap, NameBeyond, Plus, Minus, Times, Divided,
    Depth16, CrLf, Lf, BothEndings, NoEnding, AfterEnd, CommentBytes, Tab, Names1024, HighOfName, HighOfNumber,
    HighOfBracket, LowOfBracket, EmptyImage, LastByte,
}

use Item::*;

/// Everything that must be reached, besides each operation.
#[rustfmt::skip]
pub const OWED: [Item; 80] = [
    NoMemory, NoSource, EndMissing, LoneCr, LowerCase, OtherByte, TooDeep, NoDigits, Suffix, EndValue, EquUnnamed,
    WordAsName, TwoNames, Flags, MovConstant, OtherForm, FormAfterOthers, Twice, TooMany, Unknown, OrgBelow, EquBelow,
    BssBelow, OfItself, NameAfterValue, NumberLeaves, ResultLeaves, ByZero, OrgNegative, BssNegative, BssPast, NameFar,
    ByteMisfit, WordMisfit, Constant, SetPri, Svc, Cex, Ldr, Str, MovNumber, MovBracket, MovWord, TargetWord, TargetOdd,
    TargetFar, LinkFar, OddCode, OddWord, PastByte, PastWord, PastCode, PlaceAfterValue, NamedEnd, Forward, Wraps,
    Farthest, LinkFarthest, NegativeTarget, Overlap, NameBeyond, Plus, Minus, Times, Divided, Depth16, CrLf, Lf,
    BothEndings, NoEnding, AfterEnd, CommentBytes, Tab, Names1024, HighOfName, HighOfNumber, HighOfBracket, LowOfBracket,
    EmptyImage, LastByte,
];

#[derive(Default)]
pub struct Reached {
    items: HashMap<Item, u64>,
    operations: HashMap<u8, u64>,
}

/// The bytes of a line before its comment.
fn code(line: &[u8]) -> &[u8] {
    line.split(|&b| b == b';').next().unwrap_or_default()
}

/// How deep the brackets of a line go.
fn depth(code: &[u8]) -> i32 {
    let step = |(now, most): (i32, i32), &b: &u8| {
        let now = now + i32::from(b == b'(') - i32::from(b == b')');
        (now, most.max(now))
    };
    code.iter().fold((0, 0), step).1
}

/// What is wrong with a line that fits no statement, as far as it is easily told.
fn form(line: &[u8]) -> Item {
    let code = code(line);
    let text = String::from_utf8_lossy(code);
    let words: Vec<&str> = text.split([' ', '\t']).filter(|word| !word.is_empty()).collect();
    let word = |i: usize| words.get(i).copied().unwrap_or_default();
    let named = usize::from(!reserved(word(0)));
    let plain = |word: &str| !word.is_empty() && !reserved(word) && word.bytes().all(|b| b.is_ascii_alphanumeric());
    let bare = |i: usize| !code.get(i + 1).is_some_and(|b| b.is_ascii_hexdigit() || *b == b'-');
    let other = |b: &u8| !b.is_ascii_alphanumeric() && !b"#$,()+-*/. \t".contains(b);
    match word(named) {
        _ if code.contains(&b'\r') => LoneCr,
        _ if code.iter().any(u8::is_ascii_lowercase) => LowerCase,
        _ if code.iter().any(other) => OtherByte,
        _ if depth(code) > 16 => TooDeep,
        _ if (0..code.len()).any(|i| b"#$".contains(&code[i]) && bare(i)) => NoDigits,
        _ if code.contains(&b'.') => Suffix,
        "END" => EndValue,
        "EQU" if named == 0 => EquUnnamed,
        "SETCC" | "CLRCC" => Flags,
        "MOV" if code.contains(&b'#') => MovConstant,
        second if reserved(word(0)) && reserved(second) && words.len() > 1 && reserved(word(1)) => WordAsName,
        second if named == 1 && plain(word(0)) && plain(second) => TwoNames,
        _ => OtherForm,
    }
}

/// Why a factor has no value: a number, a result, or a division by zero.
fn cause(factor: &Factor, names: &HashMap<String, i32>) -> Item {
    let Factor::Bracket(terms) = factor else { return NumberLeaves };
    let factors = || terms.iter().flat_map(|(_, factors)| factors);
    if let Some((_, inner)) = factors().find(|(_, factor)| value(factor, names).is_none()) {
        return cause(inner, names);
    }
    let zero = factors().any(|(sign, factor)| *sign == b'/' && value(factor, names) == Some(0));
    if zero {
        ByZero
    } else {
        ResultLeaves
    }
}

impl Reached {
    fn mark(&mut self, holds: bool, item: Item) {
        *self.items.entry(item).or_default() += u64::from(holds);
    }

    /// What was reached fewer times than `least`.
    pub fn gaps(&self, least: u64) -> Vec<String> {
        let count = |item: &Item| self.items.get(item).copied().unwrap_or(0);
        let items = OWED.iter().filter(|item| count(item) < least).map(|item| format!("{item:?}: {}", count(item)));
        let made = |o: &u8| self.operations.get(o).copied().unwrap_or(0);
        let operations = (1..=ROWS.len() as u8).filter(|o| made(o) < least);
        items.chain(operations.map(|o| format!("{}: {}", ROWS[usize::from(o) - 1].1, made(&o)))).collect()
    }

    /// Assembles an input in place by the oracle, counting what it reaches, and gives the reply.
    fn assemble(&mut self, i: &mut Input) -> u64 {
        let result = assemble::into_memory(&mut i.memory, &i.source);
        match result {
            Err(Fault { number: 1, .. }) => self.mark(true, NoMemory),
            Err(fault) => self.refused(&i.source, fault),
            Ok(()) => {
                let (lines, made) = (read(&i.source), judge(&i.source));
                self.accepted(&i.source, &lines.expect("accepted"), &made.expect("accepted"));
            }
        }
        assemble::reply(result)
    }

    fn refused(&mut self, source: &[u8], Fault { number, line }: Fault) {
        let (lines, at) = (srec::lines(source), line as usize - 1);
        // What the lines above the one at fault are refused with alone.
        let above = [&lines[..at.min(lines.len())].join(&b'\n'), &b"\nEND"[..]].concat();
        let earlier = judge(&above).err().filter(|fault| fault.line < line).map(|fault| fault.number);
        if number == 17 {
            let missing = if lines.is_empty() { NoSource } else { EndMissing };
            self.mark(true, if at == lines.len() { missing } else { form(lines[at]) });
            return self.mark(earlier.is_some_and(|number| number > 17), FormAfterOthers);
        }
        let lines = read(source).expect("17 is tried first");
        if number == 18 {
            self.names(&lines, at);
            return self.mark(earlier == Some(19), NameAfterValue);
        }
        match placed(&lines) {
            Err(_) => {
                self.place(&lines, at);
                self.mark(earlier == Some(19), PlaceAfterValue);
            }
            Ok(made) => self.value(&lines[at], made.places[at], &made.names),
        }
    }

    /// Why a line is refused with 18.
    fn names(&mut self, lines: &[Line], at: usize) {
        let given = |name: &str| lines.iter().position(|line| line.name.as_deref() == Some(name));
        if let Some(name) = lines[at].name.as_deref() {
            let twice = given(name) < Some(at);
            let count = lines[..at].iter().filter(|line| line.name.is_some()).count();
            self.mark(twice, Twice);
            self.mark(!twice && count >= NAMES, TooMany);
        }
        let Some(statement) = &lines[at].statement else { return };
        for name in statement.values().iter().flat_map(|value| value.names()) {
            match (given(name), statement) {
                (None, _) => self.mark(true, Unknown),
                (Some(place), Statement::Equ(_)) => self.mark(true, if place == at { OfItself } else { EquBelow }),
                (Some(_), Statement::Org(_)) => self.mark(true, OrgBelow),
                (Some(_), Statement::Bss(_)) => self.mark(true, BssBelow),
                _ => {}
            }
        }
    }

    /// Why the places of a source are refused with 19 at a line.
    fn place(&mut self, lines: &[Line], at: usize) {
        let names = placed(&lines[..at]).expect("the lines above are not at fault").names;
        let item = match &lines[at].statement {
            Some(Statement::Org(v) | Statement::Bss(v) | Statement::Equ(v)) if value(v, &names).is_none() => {
                cause(v, &names)
            }
            Some(Statement::Org(_)) => OrgNegative,
            Some(Statement::Bss(v)) if value(v, &names) < Some(0) => BssNegative,
            Some(Statement::Bss(_)) => BssPast,
            _ => NameFar,
        };
        self.mark(true, item);
    }

    /// Why a line whose place is settled is refused with 19.
    fn value(&mut self, line: &Line, place: i64, names: &HashMap<String, i32>) {
        let statement = line.statement.as_ref().expect("a statement");
        let values = statement.values();
        if let Some(factor) = values.iter().find(|factor| value(factor, names).is_none()) {
            return self.mark(true, cause(factor, names));
        }
        let first = values.first().and_then(|factor| value(factor, names)).unwrap_or(0);
        let word = (-32_768..=65_535).contains(&first);
        let item = match statement {
            Statement::Byte(_) if place >= MEMORY as i64 => PastByte,
            Statement::Word(_) if place >= MEMORY as i64 => PastWord,
            Statement::Word(_) if word => OddWord,
            Statement::Byte(_) => ByteMisfit,
            Statement::Word(_) => WordMisfit,
            _ if place >= MEMORY as i64 => PastCode,
            _ if place % 2 == 1 => OddCode,
            Statement::Bl(_) | Statement::Branch { .. } if !word => TargetWord,
            Statement::Bl(_) | Statement::Branch { .. } if (i64::from(first) - place) % 2 != 0 => TargetOdd,
            Statement::Bl(_) => LinkFar,
            Statement::Branch { .. } => TargetFar,
            Statement::Alu { .. } => Constant,
            Statement::SetPri(_) => SetPri,
            Statement::Svc(_) => Svc,
            Statement::Cex { .. } => Cex,
            Statement::Ldr { .. } => Ldr,
            Statement::Str { .. } => Str,
            Statement::MovImm { value: Factor::Number(_), .. } => MovNumber,
            Statement::MovImm { value: v, .. } if v.names().is_empty() => MovBracket,
            _ => MovWord,
        };
        self.mark(true, item);
    }

    fn accepted(&mut self, source: &[u8], lines: &[Line], made: &Assembled) {
        self.endings(source, lines.len());
        let mut seen = vec![false; MEMORY];
        for &(address, _) in &made.bytes {
            self.mark(std::mem::replace(&mut seen[usize::from(address)], true), Overlap);
        }
        self.mark(made.bytes.is_empty(), EmptyImage);
        self.mark(seen[0xFFFF], LastByte);
        self.mark(made.names.len() == NAMES, Names1024);
        let mut given: HashMap<&str, usize> = HashMap::new();
        for (at, line) in lines.iter().enumerate() {
            given.extend(line.name.iter().map(|name| (name.as_str(), at)));
        }
        for (at, line) in lines.iter().enumerate() {
            let Some(statement) = &line.statement else { continue };
            self.mark(line.name.is_some() && *statement == Statement::End, NamedEnd);
            self.mark(line.name.is_some() && made.places[at] > 0xFFFF, NameBeyond);
            let names = || statement.values().into_iter().flat_map(|value| value.names());
            self.mark(names().any(|name| given[name] > at), Forward);
            statement.values().into_iter().for_each(|factor| self.signs(factor));
            self.code(statement, made.places[at], &made.names);
        }
    }

    /// How the lines of an accepted source end, and what is in them besides.
    fn endings(&mut self, source: &[u8], read: usize) {
        let lines = srec::lines(source);
        let ended = |ending: &[u8]| source.windows(ending.len()).any(|bytes| bytes == ending);
        let cr = ended(b"\r\n");
        let lf = source.windows(2).any(|two| two[1] == b'\n' && two[0] != b'\r');
        self.mark(cr, CrLf);
        self.mark(lf, Lf);
        self.mark(cr && lf, BothEndings);
        self.mark(!source.ends_with(b"\n"), NoEnding);
        self.mark(lines[read..].iter().any(|line| !line.is_empty()), AfterEnd);
        let strange = |line: &&[u8]| line[code(line).len()..].iter().any(|&b| b == b'\r' || b > 127);
        self.mark(lines[..read].iter().any(strange), CommentBytes);
        self.mark(lines[..read].iter().any(|line| code(line).contains(&b'\t')), Tab);
    }

    fn signs(&mut self, factor: &Factor) {
        self.mark(factor.depth() == 16, Depth16);
        let Factor::Bracket(terms) = factor else { return };
        for (i, (sign, factors)) in terms.iter().enumerate() {
            self.mark(i > 0, if *sign == b'+' { Plus } else { Minus });
            for (i, (sign, factor)) in factors.iter().enumerate() {
                self.mark(i > 0, if *sign == b'*' { Times } else { Divided });
                self.signs(factor);
            }
        }
    }

    /// What an instruction that assembles has: its operation, and how far a branch goes.
    fn code(&mut self, statement: &Statement, place: i64, names: &HashMap<String, i32>) {
        use Statement::{Bl, Branch, Bss, Byte, End, Equ, MovImm, Org, Word};
        match statement {
            Org(_) | Equ(_) | Bss(_) | Byte(_) | Word(_) | End => return,
            Bl(target) | Branch { target, .. } => {
                let target = value(target, names).expect("accepted");
                let distance = (i64::from(target) - place - 2).rem_euclid(65_536);
                let words = if distance < 32_768 { distance / 2 } else { distance / 2 - 32_768 };
                let most = if matches!(statement, Bl(_)) { 4_096 } else { 512 };
                let farthest = if most == 512 { Farthest } else { LinkFarthest };
                self.mark(words == -most || words == most - 1, farthest);
                self.mark(!(0..65_536).contains(&(place + 2 + 2 * words)), Wraps);
                self.mark(target < 0, NegativeTarget);
            }
            MovImm { op: 3, value: Factor::Number(_), .. } => self.mark(true, HighOfNumber),
            MovImm { op: 3, value: Factor::Name(_), .. } => self.mark(true, HighOfName),
            MovImm { op: 3, value: v, .. } if v.names().is_empty() => {
                self.mark(value(v, names) > Some(0), HighOfBracket)
            }
            MovImm { value: v @ Factor::Bracket(_), .. } => self.mark(value(v, names) > Some(255), LowOfBracket),
            Statement::Alu { source: Source::Register(_), .. } => {}
            _ => {}
        }
        let word = assemble::content(statement, place, names).expect("accepted");
        *self.operations.entry(operation(u16::from_le_bytes([word[0], word[1]]))).or_default() += 1;
    }
}

// ---- comparing

/// An input on which the library and the oracle differ.
#[derive(Debug)]
pub struct Difference {
    pub what: String,
    pub input: Input,
}

impl Difference {
    /// Writes the input and what differs into a new folder, and gives its path.
    pub fn save(&self, folder: &Path, name: &str) -> io::Result<PathBuf> {
        let place = folder.join(name);
        fs::create_dir_all(&place)?;
        fs::write(place.join(SOURCE), &self.input.source)?;
        fs::write(place.join("memory.bin"), &self.input.memory)?;
        fs::write(place.join("difference.txt"), format!("{}\n", self.what))?;
        Ok(place)
    }
}

/// The file of a saved folder that has its source.
const SOURCE: &str = "source.txt";

/// Whether a path is that of a saved source: a folder, or a file that the search by coverage has left.
pub fn is_saved(place: &Path) -> bool {
    let name = place.file_name().map(|name| name.to_string_lossy().into_owned()).unwrap_or_default();
    place.join(SOURCE).exists() || place.is_file() && name.starts_with("source-")
}

/// The input of such a path. The search assembles into bytes EE.
pub fn saved(place: &Path) -> io::Result<Input> {
    if place.is_file() {
        return Ok(Input { memory: vec![0xEE; MEMORY], source: fs::read(place)? });
    }
    Ok(Input { memory: fs::read(place.join("memory.bin"))?, source: fs::read(place.join(SOURCE))? })
}

/// A difference with the name of its input.
#[derive(Debug)]
pub struct Found {
    pub name: String,
    pub difference: Difference,
}

/// Assembles an input by both, counting what the oracle reaches.
pub fn compare(assembler: Assembler, given: &Input, reached: &mut Reached) -> Result<u64, Difference> {
    let (mut ours, mut theirs) = (given.clone(), given.clone());
    let (reply, right) = (assembler(&mut ours), reached.assemble(&mut theirs));
    let byte = |at: usize| format!("byte {at:04X} is {:02X}, oracle {:02X}", ours.memory[at], theirs.memory[at]);
    let what = if reply != right {
        Some(format!("reply {reply:016X}, oracle {right:016X}"))
    } else if ours.source != given.source {
        Some("the source changed".to_string())
    } else {
        (0..ours.memory.len()).find(|&at| ours.memory[at] != theirs.memory[at]).map(byte)
    };
    what.map_or(Ok(reply), |what| Err(Difference { what, input: given.clone() }))
}

/// Inputs of a kind, from a seed on. The first difference ends it.
pub fn compare_many(
    assembler: Assembler,
    kind: Kind,
    first: u64,
    many: u64,
    reached: &mut Reached,
) -> Result<(), Found> {
    (first..first + many).try_for_each(|seed| {
        let name = format!("source-{kind:?}-{seed}");
        compare(assembler, &input(kind, seed), reached).map(|_| ()).map_err(|difference| Found { name, difference })
    })
}
