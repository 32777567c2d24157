//! What the operations compute, and their flags: 01 "Arithmetic" with 003's chapters 6 and 8.

/// Flags and fields of the PSW.
pub const C: u16 = 1 << 0;
pub const Z: u16 = 1 << 1;
pub const N: u16 = 1 << 2;
pub const SLP: u16 = 1 << 3;
pub const V: u16 = 1 << 4;
pub const FLT: u16 = 1 << 8;

#[derive(Clone, Copy, Debug, PartialEq, Eq, Hash)]
pub enum Op {
    Add,
    Addc,
    Sub,
    Subc,
    Cmp,
    Dadd,
    And,
    Or,
    Xor,
    Bit,
    Bic,
    Bis,
    Sra,
    Rrc,
    Comp,
    Swpb,
    Sxt,
}

/// The operations in the order of their numbers, 0 to 16.
pub const OPS: [Op; 17] = [
    Op::Add,
    Op::Addc,
    Op::Sub,
    Op::Subc,
    Op::Cmp,
    Op::Dadd,
    Op::And,
    Op::Or,
    Op::Xor,
    Op::Bit,
    Op::Bic,
    Op::Bis,
    Op::Sra,
    Op::Rrc,
    Op::Comp,
    Op::Swpb,
    Op::Sxt,
];

/// A byte or a word: how many bits an operation works on.
#[derive(Clone, Copy, Debug, PartialEq, Eq)]
pub struct Width(pub u32);

impl Width {
    pub fn of(byte: bool) -> Width {
        Width(if byte { 8 } else { 16 })
    }

    fn mask(self) -> u32 {
        (1 << self.0) - 1
    }

    fn cut(self, value: u32) -> u32 {
        value & self.mask()
    }

    fn not(self, value: u32) -> u32 {
        self.cut(!value)
    }

    fn negative(self, value: u32) -> bool {
        value >> (self.0 - 1) & 1 == 1
    }

    /// The bit that BIC or BIS acts on: the operand, cut to the width, names it; a number above names none. [02 §5]
    fn named(self, number: u32) -> u32 {
        if number < self.0 {
            1 << number
        } else {
            0
        }
    }
}

/// The PSW with the flags of `which` set or cleared as `on` says, all else kept.
fn put(psw: u16, which: u16, on: bool) -> u16 {
    if on {
        psw | which
    } else {
        psw & !which
    }
}

fn put_zero(psw: u16, result: u32) -> u16 {
    put(psw, Z, result == 0)
}

fn put_zero_negative(psw: u16, w: Width, result: u32) -> u16 {
    put(put_zero(psw, result), N, w.negative(result))
}

/// a + b + carry, with all four flags. V: both addends have one sign and the result the other.
fn add(psw: u16, w: Width, a: u32, b: u32, carry: u32) -> (u32, u16) {
    let sum = a + b + carry;
    let result = w.cut(sum);
    let overflow = w.negative(a) == w.negative(b) && w.negative(a) != w.negative(result);
    let psw = put_zero_negative(psw, w, result);
    (result, put(put(psw, C, sum > w.mask()), V, overflow))
}

/// a + b + carry digit by digit: above 9, less 10 with a carry; each digit kept modulo 16. C and Z.
fn decimal_add(psw: u16, w: Width, a: u32, b: u32, carry: u32) -> (u32, u16) {
    let mut result = 0;
    let mut carry = carry;
    for place in (0..w.0).step_by(4) {
        let mut digit = (a >> place & 15) + (b >> place & 15) + carry;
        carry = 0;
        if digit > 9 {
            digit -= 10;
            carry = 1;
        }
        result |= (digit % 16) << place;
    }
    (result, put(put_zero(psw, result), C, carry == 1))
}

/// One place to the right, `top` moving in and the lowest bit into C. C, Z and N.
fn shift(psw: u16, w: Width, a: u32, top: bool) -> (u32, u16) {
    let result = a >> 1 | u32::from(top) << (w.0 - 1);
    (result, put(put_zero_negative(psw, w, result), C, a & 1 == 1))
}

/// The destination register and the PSW after an operation on `dst` and `src`, byte or word. A byte form works on the
/// low bytes and keeps the high byte of `dst`; CMP and BIT keep `dst`; SWPB and SXT have no byte form.
pub fn operate(op: Op, byte: bool, dst: u16, src: u16, psw: u16) -> (u16, u16) {
    match op {
        Op::Swpb => return (dst.rotate_left(8), psw),
        Op::Sxt => return (dst as u8 as i8 as u16, psw),
        _ => {}
    }
    let w = Width::of(byte);
    let (a, b) = (w.cut(dst.into()), w.cut(src.into()));
    let carry = u32::from(psw & C);
    let logic = |result| (result, put_zero_negative(psw, w, result));
    let (result, psw) = match op {
        Op::Add => add(psw, w, a, b, 0),
        Op::Addc => add(psw, w, a, b, carry),
        Op::Sub | Op::Cmp => add(psw, w, a, w.not(b), 1),
        Op::Subc => add(psw, w, a, w.not(b), carry),
        Op::Dadd => decimal_add(psw, w, a, b, carry),
        Op::And | Op::Bit => logic(a & b),
        Op::Or => logic(a | b),
        Op::Xor => logic(a ^ b),
        Op::Comp => logic(w.not(a)),
        Op::Bic => (a & !w.named(b), put_zero(psw, a & !w.named(b))),
        Op::Bis => (a | w.named(b), put(psw, Z, false)),
        Op::Sra => shift(psw, w, a, w.negative(a)),
        Op::Rrc => shift(psw, w, a, carry == 1),
        Op::Swpb | Op::Sxt => unreachable!(),
    };
    match op {
        Op::Cmp | Op::Bit => (dst, psw),
        _ => (dst & !(w.mask() as u16) | result as u16, psw),
    }
}

/// What `probe_alu` must answer: the value in bits 31 to 16 and the PSW in bits 47 to 32, or 1 for no such operation.
#[inline(never)]
pub fn probe_alu(op: u8, byte: u8, dst: u16, src: u16, psw: u16) -> u64 {
    match OPS.get(usize::from(op)) {
        Some(&op) if byte <= 1 => {
            let (value, psw) = operate(op, byte == 1, dst, src, psw);
            u64::from(value) << 16 | u64::from(psw) << 32
        }
        _ => 1,
    }
}

#[cfg(test)]
mod tests {
    use super::*;

    const BYTE: bool = true;
    const WORD: bool = false;

    /// Operates from a PSW of only `psw`, and compares value and flags.
    #[track_caller]
    fn gives(op: Op, byte: bool, dst: u16, src: u16, psw: u16, value: u16, flags: u16) {
        assert_eq!(operate(op, byte, dst, src, psw), (value, flags), "{op:?} byte {byte} {dst:04X} {src:04X}");
    }

    #[test]
    fn starred_cases() {
        gives(Op::Add, BYTE, 0xFF, 0xF8, 0, 0xF7, C | N);
        gives(Op::Add, WORD, 0x7FFF, 1, 0, 0x8000, N | V);
        gives(Op::Addc, WORD, 0xFFFF, 0, C, 0, C | Z);
        gives(Op::Sub, BYTE, 0x03, 0x04, 0, 0xFF, N);
        gives(Op::Sub, BYTE, 0xF5, 0x04, 0, 0xF1, C | N);
        gives(Op::Subc, WORD, 0, 0xFFFF, 0, 0, Z);
        gives(Op::Dadd, BYTE, 0x99, 0x01, 0, 0x00, C | Z);
        gives(Op::Dadd, BYTE, 0xFF, 0xFF, C, 0x55, C);
        gives(Op::Sra, WORD, 0xFFF0, 0, C, 0xFFF8, N);
        gives(Op::Sxt, WORD, 0x0080, 0, 0, 0xFF80, 0);
    }

    #[test]
    fn section_8_1_1() {
        gives(Op::Add, BYTE, 0x05, 0xFE, 0, 0x03, C);
        gives(Op::Add, BYTE, 0x7F, 0x02, 0, 0x81, N | V);
        gives(Op::Add, BYTE, 0xFF, 0xF8, 0, 0xF7, C | N);
        gives(Op::Sub, BYTE, 0x05, 0x06, 0, 0xFF, N);
        gives(Op::Sub, BYTE, 0x80, 0x01, 0, 0x7F, C | V);
    }

    #[test]
    fn section_8_3() {
        gives(Op::Sub, BYTE, 0x03, 0x02, 0, 0x01, C);
        gives(Op::Sub, BYTE, 0x03, 0x03, 0, 0x00, C | Z);
        gives(Op::Sub, BYTE, 0x03, 0x04, 0, 0xFF, N);
        // Printed as -3 - 4 with #F5; -3 is #FD, and the bits of the table are those of #FD.
        gives(Op::Sub, BYTE, 0xFD, 0x04, 0, 0xF9, C | N);
        // Printed as #03 - #F5; the table is that of #03 - #FD.
        gives(Op::Sub, BYTE, 0x03, 0xFD, 0, 0x06, 0);
        gives(Op::Sub, BYTE, 0x03, 0xF5, 0, 0x0E, 0);
    }

    #[test]
    fn section_8_3_1() {
        // #0003 - #FFFD = #0006, #0103 - #0004 = #00FF, 0 - 0 = 0, #0103 - #0104 = #FFFF, byte by byte.
        for (dst, src, result) in [(0x0003, 0xFFFD, 6), (0x0103, 4, 0xFF), (0, 0, 0), (0x0103, 0x0104, 0xFFFF)] {
            let (low, psw) = operate(Op::Sub, BYTE, dst & 0xFF, src & 0xFF, 0);
            let (high, _) = operate(Op::Subc, BYTE, dst >> 8, src >> 8, psw);
            assert_eq!(high << 8 | low, result);
        }
    }

    #[test]
    fn chapter_6() {
        gives(Op::Add, BYTE, 0xFFFF, 0x0002, 0, 0xFF01, C);
        gives(Op::Add, WORD, 0xFFFF, 2, 0, 1, C);
        gives(Op::Addc, WORD, 0, 0, C, 1, 0);
        gives(Op::Sub, WORD, 1, 0, 0, 1, C);
        gives(Op::Sub, WORD, 1, 2, 0, 0xFFFF, N);
        // Example 3 prints N=1 and "non-negative": 2 is not negative.
        gives(Op::Sub, WORD, 1, 0xFFFF, 0, 2, 0);
        gives(Op::Sub, WORD, 1, 1, 0, 0, C | Z);
        gives(Op::Cmp, WORD, 0, 0, 0, 0, C | Z);
        gives(Op::Cmp, BYTE, 0x80, 0x7F, 0, 0x80, C | V);
        gives(Op::Cmp, BYTE, 0x78, 0xF8, 0, 0x78, N | V);
        gives(Op::Dadd, WORD, 0x12, 1, 0, 0x13, 0);
        gives(Op::Dadd, WORD, 0x19, 1, 0, 0x20, 0);
        gives(Op::Swpb, WORD, 0x4241, 0, 0, 0x4142, 0);
        gives(Op::Sxt, WORD, 0xFF0F, 0, 0, 0x000F, 0);
        let mut value = 0xFFF0;
        for halved in [0xFFF8, 0xFFFC, 0xFFFE, 0xFFFF] {
            gives(Op::Sra, WORD, value, 0, 0, halved, N);
            value = halved;
        }
    }

    #[test]
    fn overflow_of_subc_is_worked_from_the_complement() {
        // 0 - #80 - 1: the addends #00 and #7F have one sign, and so has the result #7F.
        gives(Op::Subc, BYTE, 0x00, 0x80, 0, 0x7F, 0);
        // #80 - 0 - 1: the addends #80 and #FF have one sign and the result #7F the other.
        gives(Op::Subc, BYTE, 0x80, 0x00, 0, 0x7F, C | V);
        // 0 - #80: the addends #00 and #7F, and the result #80.
        gives(Op::Subc, BYTE, 0x00, 0x80, C, 0x80, N | V);
    }

    #[test]
    fn bis_clears_zero_and_bic_keeps_negative() {
        gives(Op::Bis, WORD, 0, 16, Z | N, 0, N);
        gives(Op::Bic, WORD, 0x8001, 0, N | C | V, 0x8000, N | C | V);
        gives(Op::Bic, WORD, 0x0001, 0, N | C | V, 0, N | C | V | Z);
    }

    #[test]
    fn bic_and_bis_take_the_number_of_a_bit() {
        for number in 0..16 {
            gives(Op::Bis, WORD, 0, number, 0, 1 << number, 0);
            gives(Op::Bic, WORD, 0xFFFF, number, Z, !(1 << number), 0);
        }
        // Above 15 no bit changes; BIC sets Z from the unchanged result, and BIS clears Z.
        for number in [16, 17, 0x20, 0x100, 0x7FFF, 0x8000, 0xFFFF] {
            gives(Op::Bis, WORD, 0, number, Z, 0, 0);
            gives(Op::Bic, WORD, 0, number, 0, 0, Z);
            gives(Op::Bic, WORD, 0x1234, number, Z, 0x1234, 0);
        }
        // A byte form takes the operand's low byte, 0 to 7: #0103 names bit 3 there, and none of a word.
        gives(Op::Bis, BYTE, 0xAB00, 0x0103, Z, 0xAB08, 0);
        gives(Op::Bic, BYTE, 0xABFF, 0xFF07, Z, 0xAB7F, 0);
        gives(Op::Bis, WORD, 0xAB00, 0x0103, Z, 0xAB00, 0);
        for number in [8, 9, 15, 16, 0x88, 0xFF, 0x0108] {
            gives(Op::Bis, BYTE, 0xAB00, number, Z, 0xAB00, 0);
            gives(Op::Bic, BYTE, 0xAB00, number, 0, 0xAB00, Z);
        }
        // BIT keeps its mask.
        gives(Op::Bit, WORD, 0x0008, 3, 0, 0x0008, Z);
    }

    #[test]
    fn overflow_is_a_signed_result_out_of_range() {
        let signed = |x: u16| i32::from(x as u8 as i8);
        for dst in 0..=255 {
            for src in 0..=255 {
                for carry in [0, C] {
                    let out = |exact: i32| !(-128..128).contains(&exact);
                    let c = i32::from(carry);
                    let overflowed = |op| operate(op, BYTE, dst, src, carry).1 & V != 0;
                    assert_eq!(overflowed(Op::Addc), out(signed(dst) + signed(src) + c));
                    assert_eq!(overflowed(Op::Subc), out(signed(dst) - signed(src) - (1 - c)));
                    assert_eq!(overflowed(Op::Sub), out(signed(dst) - signed(src)));
                }
            }
        }
    }

    #[test]
    fn nothing_but_its_flags_changes() {
        let flags = |op| match op {
            Op::Add | Op::Addc | Op::Sub | Op::Subc | Op::Cmp => C | Z | N | V,
            Op::And | Op::Or | Op::Xor | Op::Bit | Op::Comp => Z | N,
            Op::Bic | Op::Bis => Z,
            Op::Sra | Op::Rrc => C | Z | N,
            Op::Dadd => C | Z,
            Op::Swpb | Op::Sxt => 0,
        };
        let mut random = crate::random::Random::new(1);
        for _ in 0..100_000 {
            let (dst, src, psw) = (random.word(), random.word(), random.word());
            for op in OPS {
                for byte in [BYTE, WORD] {
                    let (value, after) = operate(op, byte, dst, src, psw);
                    assert_eq!((after ^ psw) & !flags(op), 0, "{op:?}");
                    if byte && !matches!(op, Op::Swpb | Op::Sxt) {
                        assert_eq!(value >> 8, dst >> 8, "{op:?}");
                    }
                }
            }
        }
    }
}
