//! A word as the assembler writes it: one statement of 02 §12's language, upper case, `$` base sixteen, `#` base ten, a
//! branch with the address that it goes to. A word that the language has no notation for is `WORD` and its digits.

use crate::assemble::words::{ALU, BRANCHES, CONDITIONS, CONSTANTS, MOVES, UNARY};
use crate::isa::{decode, encode, Instr};

pub const REGISTERS: [&str; 8] = ["R0", "R1", "R2", "R3", "R4", "LR", "SP", "PC"];

/// Why a word has no notation.
#[derive(Clone, Copy, Debug, PartialEq, Eq, Hash)]
pub enum Reason {
    Illegal,
    IgnoredBit,
    NoFlag,
    AdjustsNothing,
    OddBranch,
}

fn register(number: u8) -> &'static str {
    REGISTERS[usize::from(number)]
}

/// The first spelling of a name.
fn name(list: &[&'static str], number: u8) -> &'static str {
    list[usize::from(number)].split(' ').next().unwrap_or_default()
}

/// The name of a byte form ends with `.B`.
fn form(name: &str, wb: u8) -> String {
    format!("{name}{}", if wb == 1 { ".B" } else { "" })
}

/// An index register with its adjustment: `+R` before the access, `R+` after it.
fn indexed(prpo: u8, dec: u8, inc: u8, number: u8) -> Result<String, Reason> {
    let name = register(number);
    match (prpo, dec, inc) {
        (0, 0, 0) => Ok(name.to_string()),
        (0, 0, 1) => Ok(format!("{name}+")),
        (0, 1, 0) => Ok(format!("{name}-")),
        (1, 0, 1) => Ok(format!("+{name}")),
        (1, 1, 0) => Ok(format!("-{name}")),
        _ => Err(Reason::AdjustsNothing),
    }
}

fn flags(name: &str, bits: u8) -> Result<String, Reason> {
    let letters: String = "VSNZC".chars().enumerate().filter(|(i, _)| bits >> (4 - i) & 1 == 1).map(|f| f.1).collect();
    if bits == 0 {
        return Err(Reason::NoFlag);
    }
    Ok(format!("{name} {letters}"))
}

/// A branch and where it goes: its own place, 2, and the offset in words, modulo 65,536.
fn branch(name: &str, place: u16, offset: i16) -> Result<String, Reason> {
    if place % 2 == 1 {
        return Err(Reason::OddBranch);
    }
    let target = (i32::from(place) + 2 + 2 * i32::from(offset)).rem_euclid(0x1_0000);
    Ok(format!("{name} ${target:04X}"))
}

/// The statement of a word at a place, or why there is none.
pub fn notation(word: u16, place: u16) -> Result<String, Reason> {
    match decode(word) {
        Instr::Illegal => Err(Reason::Illegal),
        Instr::Bl { offset } => branch("BL", place, offset),
        Instr::Branch { cond, offset } => branch(name(&BRANCHES, cond), place, offset),
        Instr::SetPri { level } => Ok(format!("SETPRI #{level}")),
        Instr::Svc { vector } => Ok(format!("SVC #{vector}")),
        Instr::SetCc { flags: bits } => flags("SETCC", bits),
        Instr::ClrCc { flags: bits } => flags("CLRCC", bits),
        Instr::Cex { cond, if_true, if_false } => Ok(format!("CEX {},#{if_true},#{if_false}", name(&CONDITIONS, cond))),
        instr @ (Instr::Ld { .. } | Instr::St { .. } | Instr::Ldr { .. } | Instr::Str { .. }) => access(instr),
        instr => work(instr),
    }
}

/// The formats that touch memory.
fn access(instr: Instr) -> Result<String, Reason> {
    match instr {
        Instr::Ld { prpo, dec, inc, wb, src, dst } => {
            Ok(format!("{} {},{}", form("LD", wb), indexed(prpo, dec, inc, src)?, register(dst)))
        }
        Instr::St { prpo, dec, inc, wb, src, dst } => {
            Ok(format!("{} {},{}", form("ST", wb), register(src), indexed(prpo, dec, inc, dst)?))
        }
        Instr::Ldr { offset, wb, src, dst } => {
            Ok(format!("{} {},#{offset},{}", form("LDR", wb), register(src), register(dst)))
        }
        Instr::Str { offset, wb, src, dst } => {
            Ok(format!("{} {},{},#{offset}", form("STR", wb), register(src), register(dst)))
        }
        _ => unreachable!(),
    }
}

/// SWAP, SWPB and SXT, which the assembler writes with their ignored bit 0.
fn ignoring(statement: String, ignored: u8) -> Result<String, Reason> {
    if ignored == 1 {
        return Err(Reason::IgnoredBit);
    }
    Ok(statement)
}

/// The formats that work on registers.
fn work(instr: Instr) -> Result<String, Reason> {
    match instr {
        Instr::Alu { op, rc, wb, src, dst } => {
            let constant = || format!("#{}", CONSTANTS[usize::from(src)]);
            let source = if rc == 1 { constant() } else { register(src).to_string() };
            Ok(format!("{} {source},{}", form(name(&ALU, op), wb), register(dst)))
        }
        Instr::Mov { wb, src, dst } => Ok(format!("{} {},{}", form("MOV", wb), register(src), register(dst))),
        Instr::Swap { src, dst, ignored } => ignoring(format!("SWAP {},{}", register(src), register(dst)), ignored),
        Instr::Unary { op, wb, dst } => Ok(format!("{} {}", form(name(&UNARY, op), wb), register(dst))),
        Instr::Swpb { dst, ignored } => ignoring(format!("SWPB {}", register(dst)), ignored),
        Instr::Sxt { dst, ignored } => ignoring(format!("SXT {}", register(dst)), ignored),
        Instr::MovImm { op, byte, dst } => Ok(format!("{} ${byte:02X},{}", name(&MOVES, op), register(dst))),
        _ => unreachable!(),
    }
}

/// The text of a word at a place.
pub fn text(word: u16, place: u16) -> String {
    notation(word, place).unwrap_or_else(|_| format!("WORD ${word:04X}"))
}

/// The word with a notation that does the same as one without, where there is one.
fn twin(word: u16) -> Option<u16> {
    encode(match decode(word) {
        Instr::Swap { src, dst, .. } => Instr::Swap { src, dst, ignored: 0 },
        Instr::Swpb { dst, .. } => Instr::Swpb { dst, ignored: 0 },
        Instr::Sxt { dst, .. } => Instr::Sxt { dst, ignored: 0 },
        Instr::Ld { wb, src, dst, .. } => Instr::Ld { prpo: 0, dec: 0, inc: 0, wb, src, dst },
        Instr::St { wb, src, dst, .. } => Instr::St { prpo: 0, dec: 0, inc: 0, wb, src, dst },
        _ => return None,
    })
}

/// The text, and behind a WORD what the machine takes it for, as a comment.
pub fn remarked(word: u16, place: u16) -> String {
    let remark = match notation(word, place) {
        Err(Reason::Illegal) => " ; illegal".to_string(),
        Err(Reason::NoFlag) => " ; no flag".to_string(),
        Err(Reason::OddBranch) | Ok(_) => String::new(),
        Err(_) => format!(" ; as {}", twin(word).map(|w| text(w, place)).unwrap_or_default()),
    };
    text(word, place) + &remark
}

/// The reply of `xm23_text`, and what it leaves of a buffer.
pub fn text_call(word: u16, place: u16, buffer: &mut [u8]) -> u32 {
    if buffer.len() < 24 {
        return 22;
    }
    let text = text(word, place);
    buffer[..text.len()].copy_from_slice(text.as_bytes());
    (text.len() as u32) << 8
}

#[cfg(test)]
mod tests {
    use super::*;

    #[test]
    fn words_and_their_texts() {
        for (word, place, expected) in [
            (0x0000, 0x0100, "BL $0102"),
            (0x1FFF, 0x0000, "BL $0000"),
            (0x3FFE, 0x0000, "BRA $FFFE"),
            (0x3FFE, 0x0001, "WORD $3FFE"),
            (0x2001, 0xFFFE, "BEQ $0002"),
            (0x40FD, 0, "ADD.B #-1,LR"),
            (0x40F4, 0, "ADD.B #32,R4"),
            (0x5B8F, 0, "WORD $5B8F"),
            (0x5E8A, 0, "ST R1,+R2"),
            (0x4DDF, 0, "SETCC VSNZC"),
            (0x4DE0, 0, "WORD $4DE0"),
            (0x53FF, 0, "CEX FL,#7,#7"),
            (0x7FFF, 0, "MOVH $FF,PC"),
            (0xA000, 0, "LDR R0,#-64,R0"),
            (0xFFFF, 0, "STR.B PC,PC,#-1"),
        ] {
            assert_eq!(text(word, place), expected);
        }
    }

    #[test]
    fn what_the_assembler_cannot_write() {
        assert_eq!(remarked(0x4E00, 0), "WORD $4E00 ; illegal");
        assert_eq!(remarked(0x4DC0, 0), "WORD $4DC0 ; no flag");
        assert_eq!(remarked(0x59D7, 0), "WORD $59D7 ; as LD.B R2,PC");
        assert_eq!(remarked(0x3FFE, 1), "WORD $3FFE");
        assert_eq!(remarked(0x4CD3, 0), "WORD $4CD3 ; as SWAP R2,R3");
        assert_eq!(remarked(0x4D5E, 0), "WORD $4D5E ; as SWPB SP");
        assert_eq!(remarked(0x4D61, 0), "WORD $4D61 ; as SXT R1");
    }
}
