//! Time of each operation, the proved code beside the oracle, on the same random words.

use oracle::alu;
use oracle::random::Random;

mod timing;

#[link(name = "alu_probe", kind = "static")]
extern "C" {
    fn probe_alu(op: u8, byte: u8, dst: u16, src: u16, psw: u16) -> u64;
}

fn main() {
    let mut random = Random::new(10);
    let inputs: Vec<[u16; 4]> =
        (0..1 << 16).map(|_| [random.below(2) as u16, random.word(), random.word(), random.word()]).collect();
    timing::heading();
    for (op, name) in alu::OPS.iter().enumerate() {
        let op = op as u8;
        timing::compare(
            &format!("{name:?}").to_uppercase(),
            &inputs,
            |&[byte, dst, src, psw]| unsafe { probe_alu(op, byte as u8, dst, src, psw) },
            |&[byte, dst, src, psw]| alu::probe_alu(op, byte as u8, dst, src, psw),
        );
    }
}
