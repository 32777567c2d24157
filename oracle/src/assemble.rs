//! The assembler of 02 §12, written from 02, its readings and 003 alone: a source is judged whole, 17, then 18, then
//! 19, and gives the bytes of its image, or the refusal and the line at fault. Simple comes before fast.

pub mod source;
pub mod words;

use crate::isa::{encode, Instr};
use crate::machine::MEMORY;
use crate::srec::lines;
use source::{Factor, Line, Source, Statement};
use std::collections::HashMap;
use words::CONSTANTS;

/// "or the 1,025th".
pub const NAMES: usize = 1_024;

/// Why a source is refused, and the line at fault, from 1; 0 where the memory is none.
#[derive(Clone, Copy, Debug, PartialEq, Eq)]
pub struct Fault {
    pub number: u8,
    pub line: u64,
}

/// The line at a place in the list is at fault.
fn fault(number: u8, at: usize) -> Fault {
    Fault { number, line: at as u64 + 1 }
}

/// What a source assembles to: the bytes in the order of the statements, the names, and where each line read stands.
#[derive(Clone, Debug, Default, PartialEq, Eq)]
pub struct Assembled {
    pub bytes: Vec<(u16, u8)>,
    pub names: HashMap<String, i32>,
    pub places: Vec<i64>,
}

impl Assembled {
    /// Later bytes win over earlier ones.
    pub fn load(&self, memory: &mut [u8]) {
        for &(address, byte) in &self.bytes {
            memory[usize::from(address)] = byte;
        }
    }

    /// A memory of zeros with the program in it.
    pub fn memory(&self) -> Vec<u8> {
        let mut memory = vec![0; MEMORY];
        self.load(&mut memory);
        memory
    }
}

/// The lines up to END, or 17: "lines after END are not read".
pub fn read(text: &[u8]) -> Result<Vec<Line>, Fault> {
    let all = lines(text);
    let mut read = Vec::new();
    for (at, bytes) in all.iter().enumerate() {
        let line = source::line(bytes).ok_or(fault(17, at))?;
        let ends = line.statement == Some(Statement::End);
        read.push(line);
        if ends {
            return Ok(read);
        }
    }
    Err(fault(17, all.len()))
}

/// "only ORG, EQU and BSS need it given above".
fn above(statement: &Statement) -> bool {
    matches!(statement, Statement::Org(_) | Statement::Equ(_) | Statement::Bss(_))
}

/// The first line at fault by 18. A name is given where it stands before a statement, or alone; the 1,025th is none,
/// and unknown where it is used.
pub fn named(lines: &[Line]) -> Result<(), Fault> {
    let mut given: HashMap<&str, usize> = HashMap::new();
    for (at, line) in lines.iter().enumerate() {
        if let Some(name) = &line.name {
            if given.len() < NAMES {
                given.entry(name).or_insert(at);
            }
        }
    }
    for (at, line) in lines.iter().enumerate() {
        if line.name.as_ref().is_some_and(|name| given.get(name.as_str()) != Some(&at)) {
            return Err(fault(18, at));
        }
        let Some(statement) = &line.statement else { continue };
        let before = if above(statement) { at } else { usize::MAX };
        let known = |name: &str| given.get(name).is_some_and(|&place| place < before);
        if !statement.values().iter().flat_map(|value| value.names()).all(known) {
            return Err(fault(18, at));
        }
    }
    Ok(())
}

// ---- values

/// A result that stays in 32 signed bits.
fn fitted(value: i64) -> Option<i32> {
    i32::try_from(value).ok()
}

/// Two values joined by a sign; division goes towards zero, as Rust's does.
fn applied(sign: u8, a: i32, b: i32) -> Option<i32> {
    let (a, b) = (i64::from(a), i64::from(b));
    match sign {
        b'+' => fitted(a + b),
        b'-' => fitted(a - b),
        b'*' => fitted(a * b),
        _ if b == 0 => None,
        _ => fitted(a / b),
    }
}

/// The value of a factor, none where it is 19; its names have values.
pub fn value(factor: &Factor, names: &HashMap<String, i32>) -> Option<i32> {
    let Factor::Bracket(terms) = factor else {
        return match factor {
            Factor::Number(number) => *number,
            Factor::Name(name) => names.get(name).copied(),
            Factor::Bracket(_) => unreachable!(),
        };
    };
    let mut sum = None;
    for (sign, factors) in terms {
        let mut product = None;
        for (sign, factor) in factors {
            let next = value(factor, names)?;
            product = Some(match product {
                None => next,
                Some(before) => applied(*sign, before, next)?,
            });
        }
        let next = product.expect("a factor");
        sum = Some(match sum {
            None => next,
            Some(before) => applied(*sign, before, next)?,
        });
    }
    sum
}

/// A value from a least to a greatest.
fn within(value: i32, least: i32, greatest: i32) -> Option<i32> {
    (least <= value && value <= greatest).then_some(value)
}

fn byte(value: i32) -> Option<u8> {
    within(value, -128, 255).map(|v| v as u8)
}

fn word(value: i32) -> Option<u16> {
    within(value, -32_768, 65_535).map(|v| v as u16)
}

// ---- places

/// How many bytes a statement takes; of BSS its value.
fn size(statement: &Statement, value: Option<i32>) -> i64 {
    match statement {
        Statement::Org(_) | Statement::Equ(_) | Statement::End => 0,
        Statement::Bss(_) => value.unwrap_or(0).into(),
        Statement::Byte(_) => 1,
        _ => 2,
    }
}

/// "any byte passes #FFFF".
fn passes(place: i64, length: i64) -> bool {
    length > 0 && place + length > MEMORY as i64
}

/// The places and names of a source, or the first line at fault by 19 on the way: the value of an ORG, EQU or BSS,
/// BSS's bytes past #FFFF, a name whose place leaves 32 signed bits.
pub fn placed(lines: &[Line]) -> Result<Assembled, Fault> {
    let mut made = Assembled::default();
    let mut place: i64 = 0;
    for (at, line) in lines.iter().enumerate() {
        let wrong = fault(19, at);
        made.places.push(place);
        let needed = line.statement.iter().find(|s| above(s)).and_then(|s| s.values().first().copied());
        let value = needed.map(|factor| value(factor, &made.names).ok_or(wrong)).transpose()?;
        if let Some(name) = &line.name {
            let equ = matches!(line.statement, Some(Statement::Equ(_)));
            let given = if equ { value } else { fitted(place) };
            made.names.insert(name.clone(), given.ok_or(wrong)?);
        }
        let Some(statement) = &line.statement else { continue };
        let length = size(statement, value);
        match statement {
            Statement::Org(_) | Statement::Bss(_) if value < Some(0) => return Err(wrong),
            Statement::Bss(_) if passes(place, length) => return Err(wrong),
            Statement::Org(_) => place = value.expect("ORG's").into(),
            _ => place += length,
        }
    }
    Ok(made)
}

// ---- image

/// A branch's count of words from the place after it, modulo 65,536, where it is whole.
fn offset(target: i32, place: i64) -> Option<i16> {
    let distance = word(target)?.wrapping_sub(place as u16).wrapping_sub(2) as i16;
    (distance % 2 == 0).then_some(distance / 2)
}

/// 003's byte of a value: a number is the byte itself, in brackets too; of a value in which a name stands MOVH takes the
/// high byte, the others take the low one.
fn immediate(op: u8, factor: &Factor, value: i32) -> Option<u8> {
    if factor.names().is_empty() {
        return byte(value);
    }
    word(value).map(|w| if op == 3 { w >> 8 } else { w & 0xFF } as u8)
}

/// The instruction of a statement at a place, where its values fit.
fn instruction(statement: &Statement, place: i64, names: &HashMap<String, i32>) -> Option<Instr> {
    let get = |factor: &Factor| value(factor, names);
    let small = |factor: &Factor, greatest| within(get(factor)?, 0, greatest).map(|v| v as u8);
    let near = |factor: &Factor| within(get(factor)?, -64, 63).map(|v| v as i16);
    Some(match statement {
        Statement::Plain(instr) => *instr,
        Statement::Bl(target) => Instr::Bl { offset: offset(get(target)?, place)? },
        Statement::Branch { cond, target } => Instr::Branch { cond: *cond, offset: offset(get(target)?, place)? },
        Statement::Alu { op, wb, source: Source::Register(src), dst } => {
            Instr::Alu { op: *op, rc: 0, wb: *wb, src: *src, dst: *dst }
        }
        Statement::Alu { op, wb, source: Source::Constant(factor), dst } => {
            let value = get(factor)?;
            let src = CONSTANTS.iter().position(|&c| c == value)? as u8;
            Instr::Alu { op: *op, rc: 1, wb: *wb, src, dst: *dst }
        }
        Statement::SetPri(level) => Instr::SetPri { level: small(level, 7)? },
        Statement::Svc(vector) => Instr::Svc { vector: small(vector, 15)? },
        Statement::Cex { cond, if_true, if_false } => {
            Instr::Cex { cond: *cond, if_true: small(if_true, 7)?, if_false: small(if_false, 7)? }
        }
        Statement::MovImm { op, value, dst } => {
            Instr::MovImm { op: *op, byte: immediate(*op, value, get(value)?)?, dst: *dst }
        }
        Statement::Ldr { wb, src, offset, dst } => Instr::Ldr { offset: near(offset)?, wb: *wb, src: *src, dst: *dst },
        Statement::Str { wb, src, dst, offset } => Instr::Str { offset: near(offset)?, wb: *wb, src: *src, dst: *dst },
        _ => unreachable!("no instruction"),
    })
}

/// The bytes of a statement at a place, none where they are 19: a value, an odd address of code or a WORD, a byte past
/// #FFFF. What does not fit the field of an instruction's word does not fit its place.
pub fn content(statement: &Statement, place: i64, names: &HashMap<String, i32>) -> Option<Vec<u8>> {
    let bytes = match statement {
        Statement::Org(_) | Statement::Equ(_) | Statement::Bss(_) | Statement::End => vec![],
        Statement::Byte(factor) => vec![byte(value(factor, names)?)?],
        Statement::Word(factor) => word(value(factor, names)?)?.to_le_bytes().to_vec(),
        _ => encode(instruction(statement, place, names)?)?.to_le_bytes().to_vec(),
    };
    let odd = bytes.len() == 2 && place % 2 == 1;
    (!odd && !passes(place, bytes.len() as i64)).then_some(bytes)
}

/// A source judged: 17 over the whole of it, then 18, then 19. Of two lines at fault by 19 an ORG, EQU or BSS goes
/// first: no other value means anything before the places and names are settled.
pub fn judge(text: &[u8]) -> Result<Assembled, Fault> {
    judge_lines(&read(text)?)
}

/// The lines of a source judged, END the last: 18, then 19.
pub fn judge_lines(lines: &[Line]) -> Result<Assembled, Fault> {
    named(lines)?;
    let mut made = placed(lines)?;
    for (at, line) in lines.iter().enumerate() {
        let Some(statement) = &line.statement else { continue };
        let place = made.places[at];
        let bytes = content(statement, place, &made.names).ok_or(fault(19, at))?;
        made.bytes.extend(bytes.into_iter().enumerate().map(|(i, b)| ((place + i as i64) as u16, b)));
    }
    Ok(made)
}

/// Assembles a source into a memory, or changes nothing.
pub fn into_memory(memory: &mut [u8], text: &[u8]) -> Result<(), Fault> {
    if memory.len() != MEMORY {
        return Err(Fault { number: 1, line: 0 });
    }
    judge(text)?.load(memory);
    Ok(())
}

/// The reply of xm23_assemble.
pub fn reply(result: Result<(), Fault>) -> u64 {
    result.map_or_else(|f| u64::from(f.number) | f.line.min(u32::MAX.into()) << 32, |()| 0)
}

/// Assembles a program that is part of a test: a mistake in it is a panic.
pub fn assemble(source: &str) -> Assembled {
    judge(source.as_bytes()).unwrap_or_else(|f| panic!("line {}: {}:\n{source}", f.line, f.number))
}

#[cfg(test)]
mod tests;
