//! The call for a word's text beside the oracle: reply and every byte of a buffer; and what the words have reached.

use crate::isa::{decode, Instr};
use crate::listing::{self, Reason};
use std::collections::HashSet;

/// Writes the text of a word at a place and gives the reply, as `xm23_text` does.
pub type Printer = fn(u16, u16, &mut [u8]) -> u32;

/// What must be reached: every form that a statement can have, and every reason for `WORD`.
#[derive(Clone, Copy, Debug, PartialEq, Eq, Hash)]
pub enum Item {
    /// By the number of the operation of its row in 003 section 14.
    Operation(u8),
    Bytes(u8),
    Register(u8),
    Constant(u8),
    Condition(u8),
    /// PRPO, DEC and INC of LD and ST.
    Adjusted(bool, u8),
    /// Of SETCC and CLRCC.
    Flags(bool, u8),
    Offset(i16),
    Backwards,
    PastTheEnd,
    BelowTheStart,
    Word(Reason),
    /// A buffer too short, just long enough, longer.
    Short,
    Exact,
    Longer,
}

#[derive(Default)]
pub struct Reached(HashSet<Item>);

impl Reached {
    fn branch(&mut self, place: u16, offset: i16) {
        let target = i32::from(place) + 2 + 2 * i32::from(offset);
        for (holds, item) in
            [(offset < 0, Item::Backwards), (target > 0xFFFF, Item::PastTheEnd), (target < 0, Item::BelowTheStart)]
        {
            if holds {
                self.0.insert(item);
            }
        }
    }

    /// The fields of an instruction that has a notation.
    fn fields(&mut self, word: u16, place: u16) {
        let operation = crate::operation::operation(word);
        match decode(word) {
            Instr::Bl { offset } | Instr::Branch { offset, .. } => self.branch(place, offset),
            Instr::Alu { rc: 1, src, .. } => _ = self.0.insert(Item::Constant(src)),
            Instr::Unary { dst, .. } => _ = self.0.insert(Item::Register(dst)),
            Instr::SetCc { flags } => _ = self.0.insert(Item::Flags(true, flags)),
            Instr::ClrCc { flags } => _ = self.0.insert(Item::Flags(false, flags)),
            Instr::Cex { cond, .. } => _ = self.0.insert(Item::Condition(cond)),
            Instr::Ld { prpo, dec, inc, .. } => _ = self.0.insert(Item::Adjusted(true, prpo * 4 + dec * 2 + inc)),
            Instr::St { prpo, dec, inc, .. } => _ = self.0.insert(Item::Adjusted(false, prpo * 4 + dec * 2 + inc)),
            Instr::Ldr { offset, .. } | Instr::Str { offset, .. } => _ = self.0.insert(Item::Offset(offset)),
            _ => (),
        }
        self.0.insert(Item::Operation(operation));
        if listing::text(word, place).contains(".B ") {
            self.0.insert(Item::Bytes(operation));
        }
    }

    pub fn word(&mut self, word: u16, place: u16, room: usize) {
        self.0.insert(match room {
            0..=23 => Item::Short,
            24 => Item::Exact,
            _ => Item::Longer,
        });
        match listing::notation(word, place) {
            Ok(_) => self.fields(word, place),
            Err(reason) => _ = self.0.insert(Item::Word(reason)),
        }
    }

    /// What is owed and was not reached.
    pub fn gaps(&self) -> Vec<Item> {
        owed().into_iter().filter(|item| !self.0.contains(item)).collect()
    }
}

/// Everything that must be reached.
pub fn owed() -> Vec<Item> {
    use Reason::*;
    let bytes = (10..=22).chain(24..=26).chain([34, 35, 40, 41]).map(Item::Bytes);
    let adjusted = [0, 1, 2, 5, 6].into_iter().flat_map(|a| [Item::Adjusted(true, a), Item::Adjusted(false, a)]);
    let flags = (1..32).flat_map(|f| [Item::Flags(true, f), Item::Flags(false, f)]);
    let words = [Illegal, IgnoredBit, NoFlag, AdjustsNothing, OddBranch].map(Item::Word);
    let rest =
        [Item::Backwards, Item::PastTheEnd, Item::BelowTheStart, Item::Short, Item::Exact, Item::Longer].into_iter();
    (1..=41)
        .map(Item::Operation)
        .chain(bytes)
        .chain((0..8).flat_map(|n| [Item::Register(n), Item::Constant(n)]))
        .chain((0..16).map(Item::Condition))
        .chain(adjusted)
        .chain(flags)
        .chain((-64..64).map(Item::Offset))
        .chain(words)
        .chain(rest)
        .collect()
}

/// A word at a place in a buffer of some bytes, which lies between guards: what differs, if anything does.
pub fn compare(printer: Printer, word: u16, place: u16, room: usize) -> Result<(), String> {
    const GUARD: usize = 8;
    let fill = |i: usize| (i * 37) as u8 ^ word as u8 ^ 0xA5;
    let given: Vec<u8> = (0..room + 2 * GUARD).map(fill).collect();
    let (mut left, mut expected) = (given.clone(), given);
    let reply = printer(word, place, &mut left[GUARD..GUARD + room]);
    let owed = listing::text_call(word, place, &mut expected[GUARD..GUARD + room]);
    if reply == owed && left == expected {
        return Ok(());
    }
    let shown = |bytes: &[u8]| String::from_utf8_lossy(bytes).into_owned();
    Err(format!(
        "word {word:04X} at {place:04X}, {room} bytes: {reply:X} {:?}, expected {owed:X} {:?}",
        shown(&left),
        shown(&expected)
    ))
}
