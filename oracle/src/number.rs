//! An instruction as one number of eight bytes (docs/FORMATS.md), and the two calls over it with the signatures of C.

use crate::isa::{decode, encode, Instr};

/// How many formats there are, `Illegal` (0) among them.
pub const FORMATS: u8 = 19;

/// The refusal of an instruction that cannot be encoded.
pub const REFUSED: u32 = 8;

/// The number of an instruction: byte 0 the format, then its fields.
pub fn number_of(instr: Instr) -> u64 {
    let bytes = |format: u8, fields: &[u8]| {
        fields.iter().rev().fold(0, |n, &field| n << 8 | u64::from(field)) << 8 | u64::from(format)
    };
    let relative = |n: u64, offset: i16| n | u64::from(offset as u16) << 48;
    match instr {
        Instr::Illegal => 0,
        Instr::Bl { offset } => relative(bytes(1, &[]), offset),
        Instr::Branch { cond, offset } => relative(bytes(2, &[cond]), offset),
        Instr::Alu { op, rc, wb, src, dst } => bytes(3, &[op, rc, wb, src, dst]),
        Instr::Mov { wb, src, dst } => bytes(4, &[wb, src, dst]),
        Instr::Swap { src, dst, ignored } => bytes(5, &[src, dst, ignored]),
        Instr::Unary { op, wb, dst } => bytes(6, &[op, wb, dst]),
        Instr::Swpb { dst, ignored } => bytes(7, &[dst, ignored]),
        Instr::Sxt { dst, ignored } => bytes(8, &[dst, ignored]),
        Instr::SetPri { level } => bytes(9, &[level]),
        Instr::Svc { vector } => bytes(10, &[vector]),
        Instr::SetCc { flags } => bytes(11, &[flags]),
        Instr::ClrCc { flags } => bytes(12, &[flags]),
        Instr::Cex { cond, if_true, if_false } => bytes(13, &[cond, if_true, if_false]),
        Instr::Ld { prpo, dec, inc, wb, src, dst } => bytes(14, &[prpo, dec, inc, wb, src, dst]),
        Instr::St { prpo, dec, inc, wb, src, dst } => bytes(15, &[prpo, dec, inc, wb, src, dst]),
        Instr::MovImm { op, byte, dst } => bytes(16, &[op, byte, dst]),
        Instr::Ldr { offset, wb, src, dst } => relative(bytes(17, &[wb, src, dst]), offset),
        Instr::Str { offset, wb, src, dst } => relative(bytes(18, &[wb, src, dst]), offset),
    }
}

/// How many one-byte fields a format has, and whether it has an offset in bytes 6 and 7. Nothing for no format.
pub fn shape(format: u8) -> Option<(usize, bool)> {
    Some(match format {
        0 => (0, false),
        1 => (0, true),
        2 => (1, true),
        3 => (5, false),
        4..=6 | 13 | 16 => (3, false),
        7 | 8 => (2, false),
        9..=12 => (1, false),
        14 | 15 => (6, false),
        17 | 18 => (3, true),
        _ => return None,
    })
}

/// The instruction of a number, its fields not yet judged. Nothing for an unknown format or a used unused byte.
pub fn instr_of(number: u64) -> Option<Instr> {
    let b = number.to_le_bytes();
    let offset = i16::from_le_bytes([b[6], b[7]]);
    let (fields, has_offset) = shape(b[0])?;
    let used = if has_offset { 6 } else { 8 };
    if b[1 + fields..used].iter().any(|&byte| byte != 0) {
        return None;
    }
    Some(match b[0] {
        0 => Instr::Illegal,
        1 => Instr::Bl { offset },
        2 => Instr::Branch { cond: b[1], offset },
        3 => Instr::Alu { op: b[1], rc: b[2], wb: b[3], src: b[4], dst: b[5] },
        4 => Instr::Mov { wb: b[1], src: b[2], dst: b[3] },
        5 => Instr::Swap { src: b[1], dst: b[2], ignored: b[3] },
        6 => Instr::Unary { op: b[1], wb: b[2], dst: b[3] },
        7 => Instr::Swpb { dst: b[1], ignored: b[2] },
        8 => Instr::Sxt { dst: b[1], ignored: b[2] },
        9 => Instr::SetPri { level: b[1] },
        10 => Instr::Svc { vector: b[1] },
        11 => Instr::SetCc { flags: b[1] },
        12 => Instr::ClrCc { flags: b[1] },
        13 => Instr::Cex { cond: b[1], if_true: b[2], if_false: b[3] },
        14 => Instr::Ld { prpo: b[1], dec: b[2], inc: b[3], wb: b[4], src: b[5], dst: b[6] },
        15 => Instr::St { prpo: b[1], dec: b[2], inc: b[3], wb: b[4], src: b[5], dst: b[6] },
        16 => Instr::MovImm { op: b[1], byte: b[2], dst: b[3] },
        17 => Instr::Ldr { offset, wb: b[1], src: b[2], dst: b[3] },
        _ => Instr::Str { offset, wb: b[1], src: b[2], dst: b[3] },
    })
}

/// What `xm23_decode` must answer.
#[inline(never)]
pub fn xm23_decode(word: u16) -> u64 {
    number_of(decode(word))
}

/// What `xm23_encode` must answer: the word in bits 31 to 16, or 8 and nothing else.
#[inline(never)]
pub fn xm23_encode(number: u64) -> u32 {
    match instr_of(number).and_then(encode) {
        Some(word) => u32::from(word) << 16,
        None => REFUSED,
    }
}

#[cfg(test)]
mod tests {
    use super::*;

    #[test]
    fn an_instruction_is_its_number() {
        for word in 0..=u16::MAX {
            assert_eq!(instr_of(xm23_decode(word)), Some(decode(word)), "{word:04X}");
        }
    }

    #[test]
    fn the_example_of_the_format() {
        // SUB.B #1,R3 is the word #424B | constant bit.
        assert_eq!(xm23_decode(0x42CB), 0x0000_0301_0101_0203);
        // BRA to itself: an offset of -1 word.
        assert_eq!(xm23_decode(0x3FFF), 0xFFFF_0000_0000_0702);
        assert_eq!(xm23_encode(0xFFFF_0000_0000_0702), 0x3FFF_0000);
        // SWPB R6 with its ignored bit; with 2 there it is no instruction.
        assert_eq!(xm23_decode(0x4D5E), 0x0001_0607);
        assert_eq!(xm23_encode(0x0001_0607), 0x4D5E_0000);
        assert_eq!(xm23_encode(0x0002_0607), 8);
        assert_eq!(xm23_encode(0), 8);
        assert_eq!(xm23_encode(19), 8);
    }
}
