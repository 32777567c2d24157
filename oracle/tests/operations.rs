//! libalu_probe.a beside the oracle: every operation at both widths.

use oracle::alu;
use oracle::random::Random;

#[link(name = "alu_probe", kind = "static")]
extern "C" {
    fn probe_alu(op: u8, byte: u8, dst: u16, src: u16, psw: u16) -> u64;
}

#[track_caller]
fn same(op: u8, byte: u8, dst: u16, src: u16, psw: u16) -> u64 {
    let reply = unsafe { probe_alu(op, byte, dst, src, psw) };
    let expected = alu::probe_alu(op, byte, dst, src, psw);
    assert_eq!(reply, expected, "op {op} byte {byte} dst {dst:04X} src {src:04X} psw {psw:04X}: {reply:012X}");
    reply
}

#[test]
fn every_pair_of_bytes_with_either_carry() {
    let mut random = Random::new(7);
    for op in 0..17 {
        for byte in 0..2 {
            for a in 0..256 {
                for b in 0..256 {
                    for carry in 0..2 {
                        let high = random.draw();
                        let (dst, src) = (high as u16 & 0xFF00 | a, (high >> 16) as u16 & 0xFF00 | b);
                        same(op, byte, dst, src, (high >> 32) as u16 & !1 | carry);
                        same(op, byte, a, b, carry);
                    }
                }
            }
        }
    }
}

#[test]
fn random_words() {
    let mut random = Random::new(8);
    for _ in 0..250_000 {
        for op in 0..17 {
            for byte in 0..2 {
                same(op, byte, random.word(), random.word(), random.word());
            }
        }
    }
}

/// BIC and BIS by the number of a bit: every operand there is, and a million random ones. [02 §5]
#[test]
fn every_number_of_a_bit() {
    let mut random = Random::new(9);
    for op in [10, 11] {
        for byte in 0..2 {
            for number in 0..=u16::MAX {
                same(op, byte, random.word(), number, random.word());
                same(op, byte, 0, number, 0x0002);
            }
            for _ in 0..250_000 {
                same(op, byte, random.word(), random.word() % 32, random.word());
            }
        }
    }
}

#[test]
fn words_at_the_corners() {
    let corners = [
        0, 1, 2, 0x7F, 0x80, 0x81, 0xFF, 0x100, 0x999, 0x9999, 0x7FFE, 0x7FFF, 0x8000, 0x8001, 0x80FF, 0xFF00, 0xFF7F,
        0xFF80, 0xFFFE, 0xFFFF,
    ];
    for op in 0..17 {
        for byte in 0..2 {
            for dst in corners {
                for src in corners {
                    for psw in 0..512 {
                        same(op, byte, dst, src, psw);
                    }
                }
            }
        }
    }
}

#[test]
fn no_such_operation_or_width() {
    for op in 0..=255 {
        for byte in 0..=255 {
            let reply = same(op, byte, 0x1234, 0x5678, 0xE1FF);
            assert_eq!(reply == 1, op > 16 || byte > 1, "op {op} byte {byte}");
        }
    }
}
