//! The instruction words of 003 section 14: what each of the 65,536 words means, and the word of each instruction.

/// A decoded instruction: a case for each format, with its fields, and `Illegal` for every other word. `ignored` is bit
/// 6, which SWAP, SWPB and SXT carry and do not look at.
#[derive(Clone, Copy, Debug, PartialEq, Eq, Hash)]
#[rustfmt::skip]
pub enum Instr {
    Illegal,
    /// Branch with link, a signed count of words.
    Bl { offset: i16 },
    /// BEQ, BNE, BC, BNC, BN, BGE, BLT, BRA, a signed count of words.
    Branch { cond: u8, offset: i16 },
    /// ADD, ADDC, SUB, SUBC, DADD, CMP, XOR, AND, OR, BIT, BIC, BIS.
    Alu { op: u8, rc: u8, wb: u8, src: u8, dst: u8 },
    Mov { wb: u8, src: u8, dst: u8 },
    Swap { src: u8, dst: u8, ignored: u8 },
    /// SRA, RRC, COMP.
    Unary { op: u8, wb: u8, dst: u8 },
    Swpb { dst: u8, ignored: u8 },
    Sxt { dst: u8, ignored: u8 },
    SetPri { level: u8 },
    Svc { vector: u8 },
    /// V, SLP, N, Z, C from bit 4 to bit 0, as in the word.
    SetCc { flags: u8 },
    ClrCc { flags: u8 },
    Cex { cond: u8, if_true: u8, if_false: u8 },
    Ld { prpo: u8, dec: u8, inc: u8, wb: u8, src: u8, dst: u8 },
    St { prpo: u8, dec: u8, inc: u8, wb: u8, src: u8, dst: u8 },
    /// MOVL, MOVLZ, MOVLS, MOVH.
    MovImm { op: u8, byte: u8, dst: u8 },
    /// A signed count of bytes.
    Ldr { offset: i16, wb: u8, src: u8, dst: u8 },
    Str { offset: i16, wb: u8, src: u8, dst: u8 },
}

/// Bits `high` down to `low` of the word.
fn bits(word: u16, high: u32, low: u32) -> u8 {
    ((word >> low) & ((1 << (high - low + 1)) - 1)) as u8
}

/// The signed number in the `width` bits of the word that end at bit `low`.
fn signed(word: u16, width: u32, low: u32) -> i16 {
    let above = 16 - width - low;
    ((word << above) as i16) >> (above + low)
}

/// What a word means. Bit 6 of SWAP, SWPB and SXT is ignored, and carried; every other bit is opcode or field.
pub fn decode(word: u16) -> Instr {
    let wb = bits(word, 6, 6);
    let src = bits(word, 5, 3);
    let dst = bits(word, 2, 0);
    match word >> 13 {
        0b000 => Instr::Bl { offset: signed(word, 13, 0) },
        0b001 => Instr::Branch { cond: bits(word, 12, 10), offset: signed(word, 10, 0) },
        0b010 => decode_group(word, wb, src, dst),
        0b011 => Instr::MovImm { op: bits(word, 12, 11), byte: bits(word, 10, 3), dst },
        0b100 | 0b101 => Instr::Ldr { offset: signed(word, 7, 7), wb, src, dst },
        _ => Instr::Str { offset: signed(word, 7, 7), wb, src, dst },
    }
}

/// Words #4000 to #5FFF, by bits 12 to 10.
fn decode_group(word: u16, wb: u8, src: u8, dst: u8) -> Instr {
    let (prpo, dec, inc) = (bits(word, 9, 9), bits(word, 8, 8), bits(word, 7, 7));
    match bits(word, 12, 10) {
        0..=2 => Instr::Alu { op: bits(word, 11, 8), rc: bits(word, 7, 7), wb, src, dst },
        3 => match bits(word, 9, 7) {
            0 => Instr::Mov { wb, src, dst },
            1 => Instr::Swap { src, dst, ignored: wb },
            2 => decode_unary(src, wb, dst),
            3 => decode_system(word),
            _ => Instr::Illegal,
        },
        4 => Instr::Cex { cond: bits(word, 9, 6), if_true: src, if_false: dst },
        6 => Instr::Ld { prpo, dec, inc, wb, src, dst },
        7 => Instr::St { prpo, dec, inc, wb, src, dst },
        _ => Instr::Illegal,
    }
}

/// Words #4D00 to #4D7F: one register and no operand.
fn decode_unary(kind: u8, bit6: u8, dst: u8) -> Instr {
    match kind {
        0..=2 => Instr::Unary { op: kind, wb: bit6, dst },
        3 => Instr::Swpb { dst, ignored: bit6 },
        4 => Instr::Sxt { dst, ignored: bit6 },
        _ => Instr::Illegal,
    }
}

/// Words #4D80 to #4DFF: program status word and supervisory call.
fn decode_system(word: u16) -> Instr {
    let low = bits(word, 4, 0);
    match bits(word, 6, 5) {
        0 if low < 8 => Instr::SetPri { level: low },
        1 if low < 16 => Instr::Svc { vector: low },
        2 => Instr::SetCc { flags: low },
        3 => Instr::ClrCc { flags: low },
        _ => Instr::Illegal,
    }
}

/// Collects a word from the most significant field down, and notes whether each field fits.
struct Packer {
    word: u32,
    fits: bool,
}

impl Packer {
    /// Starts with the opcode bits, given in their place in the word.
    fn opcode(opcode: u32) -> Packer {
        Packer { word: opcode, fits: true }
    }

    /// Puts a field of `width` bits that ends at bit `low`.
    fn field(mut self, value: u8, width: u32, low: u32) -> Packer {
        self.fits &= u32::from(value) < 1 << width;
        self.word |= u32::from(value) << low;
        self
    }

    /// Puts a signed field of `width` bits that ends at bit `low`.
    fn offset(mut self, value: i16, width: u32, low: u32) -> Packer {
        let half = 1 << (width - 1);
        let value = i32::from(value);
        self.fits &= -half <= value && value < half;
        self.word |= ((value & (2 * half - 1)) as u32) << low;
        self
    }

    fn word(self) -> Option<u16> {
        self.fits.then_some(self.word as u16)
    }
}

/// The word of an instruction; nothing for `Illegal` and for a field that its format cannot hold.
pub fn encode(instr: Instr) -> Option<u16> {
    let indexed = |opcode, prpo, dec, inc, wb, src, dst| {
        let modes = Packer::opcode(opcode).field(prpo, 1, 9).field(dec, 1, 8).field(inc, 1, 7);
        modes.field(wb, 1, 6).field(src, 3, 3).field(dst, 3, 0)
    };
    let relative = |opcode, offset, wb, src, dst| {
        Packer::opcode(opcode).offset(offset, 7, 7).field(wb, 1, 6).field(src, 3, 3).field(dst, 3, 0)
    };
    let packer = match instr {
        Instr::Illegal => return None,
        Instr::Bl { offset } => Packer::opcode(0x0000).offset(offset, 13, 0),
        Instr::Branch { cond, offset } => Packer::opcode(0x2000).field(cond, 3, 10).offset(offset, 10, 0),
        Instr::Alu { op, .. } if op > 11 => return None,
        Instr::Alu { op, rc, wb, src, dst } => {
            let head = Packer::opcode(0x4000).field(op, 4, 8).field(rc, 1, 7);
            head.field(wb, 1, 6).field(src, 3, 3).field(dst, 3, 0)
        }
        Instr::Mov { wb, src, dst } => Packer::opcode(0x4C00).field(wb, 1, 6).field(src, 3, 3).field(dst, 3, 0),
        Instr::Swap { src, dst, ignored } => {
            Packer::opcode(0x4C80).field(ignored, 1, 6).field(src, 3, 3).field(dst, 3, 0)
        }
        Instr::Unary { op, .. } if op > 2 => return None,
        Instr::Unary { op, wb, dst } => Packer::opcode(0x4D00).field(wb, 1, 6).field(op, 3, 3).field(dst, 3, 0),
        Instr::Swpb { dst, ignored } => Packer::opcode(0x4D18).field(ignored, 1, 6).field(dst, 3, 0),
        Instr::Sxt { dst, ignored } => Packer::opcode(0x4D20).field(ignored, 1, 6).field(dst, 3, 0),
        Instr::SetPri { level } => Packer::opcode(0x4D80).field(level, 3, 0),
        Instr::Svc { vector } => Packer::opcode(0x4DA0).field(vector, 4, 0),
        Instr::SetCc { flags } => Packer::opcode(0x4DC0).field(flags, 5, 0),
        Instr::ClrCc { flags } => Packer::opcode(0x4DE0).field(flags, 5, 0),
        Instr::Cex { cond, if_true, if_false } => {
            Packer::opcode(0x5000).field(cond, 4, 6).field(if_true, 3, 3).field(if_false, 3, 0)
        }
        Instr::Ld { prpo, dec, inc, wb, src, dst } => indexed(0x5800, prpo, dec, inc, wb, src, dst),
        Instr::St { prpo, dec, inc, wb, src, dst } => indexed(0x5C00, prpo, dec, inc, wb, src, dst),
        Instr::MovImm { op, byte, dst } => Packer::opcode(0x6000).field(op, 2, 11).field(byte, 8, 3).field(dst, 3, 0),
        Instr::Ldr { offset, wb, src, dst } => relative(0x8000, offset, wb, src, dst),
        Instr::Str { offset, wb, src, dst } => relative(0xC000, offset, wb, src, dst),
    };
    packer.word()
}

#[cfg(test)]
mod tests {
    use super::*;
    use crate::operation::{matches, ROWS};

    /// The fields of a row in its order, `o` sign-extended.
    fn fields(row: &str, word: u16) -> Vec<i32> {
        let mut found: Vec<(char, i32)> = Vec::new();
        for (i, c) in row.chars().enumerate().filter(|(_, c)| c.is_ascii_lowercase()) {
            let bit = i32::from(word >> (15 - i) & 1);
            match found.last_mut() {
                Some((name, value)) if *name == c => *value = *value * 2 + bit,
                _ => found.push((c, if c == 'o' { -bit } else { bit })),
            }
        }
        found.into_iter().map(|(_, value)| value).collect()
    }

    /// The name and fields of a decoded instruction, in the order of its row.
    fn described(instr: Instr) -> (&'static str, Vec<i32>) {
        const BRANCH: [&str; 8] = ["BEQ", "BNE", "BC", "BNC", "BN", "BGE", "BLT", "BRA"];
        const ALU: [&str; 12] = ["ADD", "ADDC", "SUB", "SUBC", "DADD", "CMP", "XOR", "AND", "OR", "BIT", "BIC", "BIS"];
        const UNARY: [&str; 3] = ["SRA", "RRC", "COMP"];
        const IMM: [&str; 4] = ["MOVL", "MOVLZ", "MOVLS", "MOVH"];
        let bytes = |list: &[u8]| list.iter().map(|&b| i32::from(b)).collect::<Vec<_>>();
        let relative = |offset: i16, list: &[u8]| [vec![i32::from(offset)], bytes(list)].concat();
        match instr {
            Instr::Illegal => ("", vec![]),
            Instr::Bl { offset } => ("BL", vec![offset.into()]),
            Instr::Branch { cond, offset } => (BRANCH[usize::from(cond)], vec![offset.into()]),
            Instr::Alu { op, rc, wb, src, dst } => (ALU[usize::from(op)], bytes(&[rc, wb, src, dst])),
            Instr::Mov { wb, src, dst } => ("MOV", bytes(&[wb, src, dst])),
            Instr::Swap { src, dst, ignored } => ("SWAP", bytes(&[ignored, src, dst])),
            Instr::Unary { op, wb, dst } => (UNARY[usize::from(op)], bytes(&[wb, dst])),
            Instr::Swpb { dst, ignored } => ("SWPB", bytes(&[ignored, dst])),
            Instr::Sxt { dst, ignored } => ("SXT", bytes(&[ignored, dst])),
            Instr::SetPri { level } => ("SETPRI", bytes(&[level])),
            Instr::Svc { vector } => ("SVC", bytes(&[vector])),
            Instr::SetCc { flags } => ("SETCC", bytes(&[flags])),
            Instr::ClrCc { flags } => ("CLRCC", bytes(&[flags])),
            Instr::Cex { cond, if_true, if_false } => ("CEX", bytes(&[cond, if_true, if_false])),
            Instr::Ld { prpo, dec, inc, wb, src, dst } => ("LD", bytes(&[prpo, dec, inc, wb, src, dst])),
            Instr::St { prpo, dec, inc, wb, src, dst } => ("ST", bytes(&[prpo, dec, inc, wb, src, dst])),
            Instr::MovImm { op, byte, dst } => (IMM[usize::from(op)], bytes(&[byte, dst])),
            Instr::Ldr { offset, wb, src, dst } => ("LDR", relative(offset, &[wb, src, dst])),
            Instr::Str { offset, wb, src, dst } => ("STR", relative(offset, &[wb, src, dst])),
        }
    }

    #[test]
    fn every_word_means_its_row_of_section_14() {
        for word in 0..=u16::MAX {
            let rows: Vec<_> = ROWS.iter().filter(|(row, _)| matches(row, word)).collect();
            let expected = match rows[..] {
                [] => ("", vec![]),
                [(row, name)] => (*name, fields(row, word)),
                _ => panic!("{word:04X} is in two rows"),
            };
            assert_eq!(described(decode(word)), expected, "{word:04X}");
        }
    }

    #[test]
    fn exactly_the_listed_ranges_are_illegal() {
        let ranges = [
            (0x4D28, 0x4D3F),
            (0x4D68, 0x4D7F),
            (0x4D88, 0x4D9F),
            (0x4DB0, 0x4DBF),
            (0x4E00, 0x4FFF),
            (0x5400, 0x57FF),
        ];
        let mut count = 0;
        for word in 0..=u16::MAX {
            let listed = ranges.iter().any(|&(low, high)| (low..=high).contains(&word));
            assert_eq!(decode(word) == Instr::Illegal, listed, "{word:04X}");
            count += u32::from(listed);
        }
        assert_eq!(count, 1624);
    }

    #[test]
    fn a_legal_word_comes_back_unaltered() {
        for word in 0..=u16::MAX {
            let legal = ROWS.iter().any(|(row, _)| matches(row, word));
            assert_eq!(encode(decode(word)), legal.then_some(word), "{word:04X}");
        }
    }

    #[test]
    fn two_legal_words_are_equal_instructions_only_if_they_are_one() {
        let mut seen = std::collections::HashMap::new();
        for word in (0..=u16::MAX).filter(|&word| decode(word) != Instr::Illegal) {
            assert_eq!(seen.insert(decode(word), word), None, "{word:04X}");
        }
        assert_eq!(seen.len(), 65536 - 1624);
    }
}
