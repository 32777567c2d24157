//! Inputs of the calls for S-records, each named by its kind and seed: files as tools and candidates make them, and
//! files that are wrong in every way that 02 §2 speaks of.

use crate::machine::MEMORY;
use crate::random::Random;

/// What xm23_load_srec is lent.
#[derive(Clone, Debug, PartialEq, Eq)]
pub struct Load {
    pub memory: Vec<u8>,
    pub text: Vec<u8>,
    pub pc: u16,
}

/// What xm23_write_srec is lent.
#[derive(Clone, Debug, PartialEq, Eq)]
pub struct Write {
    pub memory: Vec<u8>,
    pub start: u16,
    pub length: u32,
    pub pc: u16,
    pub text: Vec<u8>,
}

#[derive(Clone, Copy, Debug, PartialEq, Eq)]
pub enum Kind {
    /// Files that are to be accepted.
    Lawful,
    /// The same with a few bytes or lines changed.
    Damaged,
    /// One line wrong in one way, its checksum right.
    Crafted,
    /// Files that srec_cat and objcopy made, whole or with a few bytes or lines changed.
    Real,
    /// Bytes of no plan, and next to none.
    Junk,
}

pub const KINDS: [Kind; 5] = [Kind::Lawful, Kind::Damaged, Kind::Crafted, Kind::Real, Kind::Junk];

/// Files of tests/srec.
pub const REAL: [(&str, &[u8]); 6] = [
    ("objcopy.s19", include_bytes!("../../tests/srec/objcopy.s19")),
    ("objcopy_28.s19", include_bytes!("../../tests/srec/objcopy_28.s19")),
    ("srec_cat.s19", include_bytes!("../../tests/srec/srec_cat.s19")),
    ("srec_cat_16.s19", include_bytes!("../../tests/srec/srec_cat_16.s19")),
    ("srec_cat_s5.s19", include_bytes!("../../tests/srec/srec_cat_s5.s19")),
    ("srec_cat_end.s19", include_bytes!("../../tests/srec/srec_cat_end.s19")),
];

/// Characters that files have, or almost have.
const NEARBY: &[u8] = b"0123456789ABCDEFabcdefGgSs \t\r\n\0:";

/// A memory in which every byte is told from its neighbours.
fn memory(random: &mut Random) -> Vec<u8> {
    let (a, b) = (random.byte() | 1, random.byte());
    let length = if random.one_in(40) { [0, 1, MEMORY - 1, MEMORY + 1][random.below(4) as usize] } else { MEMORY };
    (0..length).map(|i| (i as u8).wrapping_mul(a).wrapping_add((i >> 8) as u8).wrapping_add(b)).collect()
}

/// A line with the checksum that is right for its bytes, whatever they are.
fn line(kind: u8, bytes: &[u8]) -> Vec<u8> {
    let sum = bytes.iter().fold(0u8, |sum, &b| sum.wrapping_add(b));
    let digits: String = bytes.iter().chain(&[!sum]).map(|b| format!("{b:02X}")).collect();
    [b"S", &[kind][..], digits.as_bytes()].concat()
}

/// A record as it should be.
fn sound(kind: u8, address: u16, data: &[u8]) -> Vec<u8> {
    line(kind, &[&[data.len() as u8 + 3][..], &address.to_be_bytes(), data].concat())
}

fn data(random: &mut Random) -> Vec<u8> {
    let length = match random.below(8) {
        0 => 0,
        1 => 252,
        2 => random.below(253),
        3 | 4 => 16,
        _ => random.below(20),
    };
    (0..length).map(|_| random.byte()).collect()
}

/// S0 now and then, some S1 that overlap or end at #FFFF, S9.
fn records(random: &mut Random) -> Vec<Vec<u8>> {
    let mut all = Vec::new();
    if !random.one_in(3) {
        all.push(sound(b'0', if random.one_in(2) { 0 } else { random.word() }, b"HDR"));
    }
    let mut near = random.word();
    let most = if random.one_in(30) { 200 } else { 9 };
    for _ in 0..random.below(most) {
        let data = data(random);
        let highest = (MEMORY - data.len()).min(0xFFFF) as u16;
        let address = match random.below(4) {
            0 => random.word().min(highest),
            1 => highest,
            _ => near.wrapping_add(random.below(24) as u16).min(highest),
        };
        near = address;
        all.push(sound(b'1', address, &data));
    }
    all.push(sound(b'9', random.word(), &[]));
    all
}

/// Lines as a text: of one case or of both, with one ending or both, the last one's perhaps absent.
fn text(random: &mut Random, lines: &[Vec<u8>]) -> Vec<u8> {
    let (case, ending) = (random.below(3), random.below(3));
    let mut text = Vec::new();
    for (i, line) in lines.iter().enumerate() {
        let lower = |random: &mut Random| case == 1 || case == 2 && random.one_in(2);
        for (at, &byte) in line.iter().enumerate() {
            text.push(if at > 1 && lower(random) { byte.to_ascii_lowercase() } else { byte });
        }
        if i + 1 == lines.len() && random.one_in(3) {
            break;
        }
        let cr = ending == 1 || ending == 2 && random.one_in(2);
        text.extend(if cr { &b"\r\n"[..] } else { &b"\n"[..] });
    }
    text
}

/// A text with lines changed about, their endings with them.
fn change_lines(random: &mut Random, text: &[u8]) -> Vec<u8> {
    let mut all: Vec<&[u8]> = text.split_inclusive(|&b| b == b'\n').collect();
    if all.is_empty() {
        return Vec::new();
    }
    let (i, j) = (random.below(all.len() as u64) as usize, random.below(all.len() as u64) as usize);
    match random.below(4) {
        0 => all.insert(j, all[i]),
        1 => drop(all.remove(i)),
        2 => all.swap(i, j),
        _ => all.insert(i, b"\n"),
    }
    all.concat()
}

/// A few changes to a text.
pub fn damage(random: &mut Random, mut text: Vec<u8>) -> Vec<u8> {
    for _ in 0..=random.below(3) {
        let at = random.below(text.len() as u64 + 1) as usize;
        let near = NEARBY[random.below(NEARBY.len() as u64) as usize];
        match random.below(8) {
            0 => text.insert(at, near),
            1 => text = change_lines(random, &text),
            2 => text.truncate(at),
            _ if at == text.len() => text.push(near),
            3 => text[at] = random.byte(),
            4 => drop(text.remove(at)),
            5 | 6 => text[at] = b"0123456789ABCDEF"[random.below(16) as usize],
            _ => text[at] = near,
        }
    }
    text
}

/// One line wrong in one way.
fn crafted(random: &mut Random) -> Vec<u8> {
    let mut all = records(random);
    let last = all.len() - 1;
    let at = random.below(all.len() as u64) as usize;
    let [a, b] = random.word().to_be_bytes();
    let bytes = data(random);
    match random.below(16) {
        0 => all[last] = sound(b'9', random.word(), &[1]),
        1 => all.insert(at, sound(b'9', random.word(), &[])),
        2 => all.insert(at, sound(b'2' + random.below(7) as u8, random.word(), &bytes)),
        3 => all.insert(at, line(b'1', &[&[bytes.len() as u8 + 4, a, b][..], &bytes].concat())),
        4 => all.insert(at, line(b'1', &[&[bytes.len() as u8 + 2, a, b][..], &bytes].concat())),
        5 => all.insert(at, line(b"019"[random.below(3) as usize], &[&[2][..], &[a][..1]].concat())),
        6 => all.insert(at, line(b'0', &[1])),
        7 => all.insert(at, line(b'1', &[])),
        8 => all.insert(at, sound(b'1', 0xFFFF - random.below(20) as u16, &[bytes, vec![7; 3]].concat())),
        9 => drop(all.remove(last)),
        10 => all[at].push(b" \t\r\0S0"[random.below(6) as usize]),
        11 => all[at].insert(random.below(3) as usize, b" \r\0s"[random.below(4) as usize]),
        12 => all[at][0] = b's',
        13 => all.insert(at, line(b'9', &[3, a, b, 1])[..10].to_vec()),
        14 => all.push(Vec::new()),
        _ => *all[at].last_mut().expect("a checksum") ^= 1,
    }
    text(random, &all)
}

fn junk(random: &mut Random) -> Vec<u8> {
    let most = if random.one_in(4) { 300 } else { 12 };
    let length = random.below(most);
    match random.below(4) {
        0 => (0..length).map(|_| random.byte()).collect(),
        1 => (0..length).map(|_| NEARBY[random.below(NEARBY.len() as u64) as usize]).collect(),
        2 => vec![b"\r\n\0S"[random.below(4) as usize]; length as usize],
        _ => [&b"S1FF"[..], &vec![b'0'; length as usize]].concat(),
    }
}

/// The input of a kind and a seed.
pub fn load(kind: Kind, seed: u64) -> Load {
    let random = &mut Random::new(seed.wrapping_mul(0x9E37_79B9_7F4A_7C15) ^ kind as u64);
    let lawful = |random: &mut Random| {
        let records = records(random);
        text(random, &records)
    };
    let text = match kind {
        Kind::Lawful => lawful(random),
        Kind::Damaged => {
            let whole = lawful(random);
            damage(random, whole)
        }
        Kind::Crafted => crafted(random),
        Kind::Real => {
            let whole = REAL[random.below(REAL.len() as u64) as usize].1.to_vec();
            if random.one_in(8) {
                whole
            } else {
                damage(random, whole)
            }
        }
        Kind::Junk => junk(random),
    };
    Load { memory: memory(random), text, pc: random.word() }
}

/// A span and a buffer: those that fit, those that just fit and those that just do not.
pub fn write(seed: u64) -> Write {
    let random = &mut Random::new(seed.wrapping_mul(0xD6E8_FEB8_6659_FD93));
    let start = if random.one_in(4) { 0xFFFF - random.below(40) as u16 } else { random.word() };
    let most = MEMORY as u64 - u64::from(start);
    let length = match random.below(12) {
        0 => 0,
        1 => most,
        2 => most + 1 + random.below(3),
        3 => random.draw() & 0xFFFF_FFFF,
        4 => 16 * random.below(20),
        _ => random.below(120),
    };
    let whole = random.one_in(60);
    let (start, length) = if whole { (0, MEMORY as u64) } else { (start, length) };
    let need = 11 * length.min(70_000).div_ceil(16) + 2 * length.min(70_000) + 11;
    let room = match random.below(5) {
        0 => need - 1,
        1 => need,
        2 => random.below(need),
        _ => need + random.below(100),
    };
    let text = (0..room).map(|i| (i as u8).wrapping_mul(37)).collect();
    Write { memory: memory(random), start, length: length as u32, pc: random.word(), text }
}
