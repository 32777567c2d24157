//! libxm23.a beside the oracle: every word and its range, every operation's list, random
//! instruction numbers, and the near misses of every format.

use oracle::number;
use oracle::operation::{self, Reached};
use oracle::random::Random;

#[link(name = "xm23", kind = "static")]
extern "C" {
    fn xm23_decode(word: u16) -> u64;
    fn xm23_encode(instruction: u64) -> u32;
    fn xm23_range(word: u16) -> u64;
    fn xm23_count(operation: u32) -> u32;
    fn xm23_next(operation: u32, word: u32) -> u64;
}

fn decode(word: u16) -> u64 {
    unsafe { xm23_decode(word) }
}

fn encode(instruction: u64) -> u32 {
    unsafe { xm23_encode(instruction) }
}

/// A format: how many values each of its one-byte fields may take, and half the range of its offset (0: it has none).
struct Format {
    limits: &'static [u64],
    half: i32,
}

const fn format(limits: &'static [u64], half: i32) -> Format {
    Format { limits, half }
}

/// The formats from 0, as docs/FORMATS.md lists them.
const FORMATS: [Format; 19] = [
    format(&[], 0),
    format(&[], 4096),
    format(&[8], 512),
    format(&[12, 2, 2, 8, 8], 0),
    format(&[2, 8, 8], 0),
    format(&[8, 8, 2], 0),
    format(&[3, 2, 8], 0),
    format(&[8, 2], 0),
    format(&[8, 2], 0),
    format(&[8], 0),
    format(&[16], 0),
    format(&[32], 0),
    format(&[32], 0),
    format(&[16, 8, 8], 0),
    format(&[2, 2, 2, 2, 8, 8], 0),
    format(&[2, 2, 2, 2, 8, 8], 0),
    format(&[4, 256, 8], 0),
    format(&[2, 8, 8], 64),
    format(&[2, 8, 8], 64),
];

fn with_byte(number: u64, place: usize, value: u64) -> u64 {
    number & !(0xFF << (8 * place)) | value << (8 * place)
}

fn with_offset(number: u64, offset: i32) -> u64 {
    number & 0xFFFF_FFFF_FFFF | u64::from(offset as u16) << 48
}

/// An instruction's number of the format, every field in its range.
fn lawful(random: &mut Random, format: usize) -> u64 {
    let shape = &FORMATS[format];
    let mut number = format as u64;
    for (i, &limit) in shape.limits.iter().enumerate() {
        number = with_byte(number, 1 + i, random.below(limit));
    }
    if shape.half != 0 {
        number = with_offset(number, random.below(2 * shape.half as u64) as i32 - shape.half);
    }
    number
}

#[track_caller]
fn same_encoding(number: u64) -> u32 {
    let expected = number::xm23_encode(number);
    assert_eq!(encode(number), expected, "instruction {number:016X}");
    expected
}

#[track_caller]
fn refused(number: u64) {
    assert_eq!(same_encoding(number), 8, "instruction {number:016X}");
}

#[test]
fn every_word_decodes_and_comes_back() {
    for word in 0..=u16::MAX {
        let number = number::xm23_decode(word);
        assert_eq!(decode(word), number, "word {word:04X}");
        let reply = if number == 0 { 8 } else { u32::from(word) << 16 };
        assert_eq!(same_encoding(number), reply, "word {word:04X}");
    }
}

#[test]
fn every_word_has_its_range() {
    for (word, reply) in (0..=u16::MAX).zip(operation::replies()) {
        assert_eq!(unsafe { xm23_range(word) }, reply, "word {word:04X}");
    }
}

/// Numbers that are no operation's, and numbers that are no word's.
const BEYOND: [u32; 5] = [65_536, 65_537, 0x1_4C80, 0x8000_0000, u32::MAX];

#[test]
fn every_operation_has_its_words() {
    let mut sum = 0;
    for number in (0..300).chain(BEYOND) {
        let words = operation::words(number);
        assert_eq!(unsafe { xm23_count(number) }, operation::count(&words), "operation {number}");
        sum += words.len();
        let mut listed = Vec::new();
        let mut word = 0;
        loop {
            let reply = unsafe { xm23_next(number, word) };
            if reply == 0 {
                break;
            }
            listed.push((reply >> 16) as u16);
            word = (reply >> 16) as u32 + 1;
        }
        assert_eq!(listed, if number == 0 { Vec::new() } else { words }, "operation {number}");
    }
    assert_eq!(sum, 65536);
}

/// Each number, with words around each of its own. Everything that a call can meet must be met.
#[test]
fn every_word_has_its_next() {
    let mut reached = Reached::default();
    for number in (0..44).chain(BEYOND) {
        let words = operation::words(number);
        assert_eq!(unsafe { xm23_count(number) }, reached.count(number, &words), "operation {number}");
        let near = |word: u16| [u32::from(word).saturating_sub(1), u32::from(word), u32::from(word) + 1];
        for word in words.iter().copied().flat_map(near).chain((0..65_540).step_by(61)).chain(BEYOND) {
            let expected = reached.next(number, &words, word);
            assert_eq!(unsafe { xm23_next(number, word) }, expected, "operation {number}, word {word:X}");
        }
    }
    assert_eq!(reached.gaps(), []);
}

#[test]
fn two_legal_words_have_equal_numbers_only_if_they_are_one() {
    let mut numbers: Vec<u64> = (0..=u16::MAX).map(decode).filter(|&number| number != 0).collect();
    let legal = numbers.len();
    numbers.sort();
    numbers.dedup();
    assert_eq!((legal, numbers.len()), (65536 - 1624, 65536 - 1624));
}

/// The number that a word had when the ignored bit was left out: it has the word that it had, whose bit is 0.
#[test]
fn a_number_without_the_ignored_bit_keeps_its_word() {
    for (first, last, place) in [(0x4C80, 0x4CBF, 3), (0x4D18, 0x4D1F, 2), (0x4D20, 0x4D27, 2)] {
        for word in first..=last {
            let number = decode(word);
            assert_eq!(with_byte(number, place, 0), number, "word {word:04X}");
            assert_eq!(same_encoding(number), u32::from(word) << 16);
            assert_eq!(same_encoding(with_byte(number, place, 1)), u32::from(word | 0x40) << 16);
            refused(with_byte(number, place, 2));
        }
    }
}

#[test]
fn an_encoded_instruction_decodes_to_itself() {
    let mut random = Random::new(2);
    for _ in 0..100_000 {
        for format in 1..FORMATS.len() {
            let number = lawful(&mut random, format);
            let reply = same_encoding(number);
            assert_eq!(reply & 0xFFFF, 0, "instruction {number:016X}");
            assert_eq!(decode((reply >> 16) as u16), number);
        }
    }
}

#[test]
fn random_numbers() {
    let mut random = Random::new(3);
    let mut accepted = 0;
    for _ in 0..1_000_000 {
        let wild = random.draw();
        same_encoding(wild);
        same_encoding(with_byte(wild, 0, random.below(20)));
        // A lawful number with up to two bytes replaced.
        let format = random.below(19) as usize;
        let mut near = lawful(&mut random, format);
        for _ in 0..random.below(3) {
            let place = random.below(8) as usize;
            let value = if random.one_in(2) { random.below(16) } else { random.byte().into() };
            near = with_byte(near, place, value);
        }
        accepted += u32::from(same_encoding(near) != 8);
    }
    assert!((250_000..750_000).contains(&accepted), "{accepted} accepted");
}

#[test]
fn a_field_out_of_its_range_is_refused() {
    let mut random = Random::new(4);
    for (format, shape) in FORMATS.iter().enumerate() {
        for (i, &limit) in shape.limits.iter().enumerate() {
            for value in 0..256 {
                let number = with_byte(lawful(&mut random, format), 1 + i, value);
                assert_eq!(same_encoding(number) == 8, value >= limit, "instruction {number:016X}");
            }
        }
    }
    for word in 0..=u16::MAX {
        let number = number::xm23_decode(word);
        let shape = &FORMATS[(number & 0xFF) as usize];
        for (i, &limit) in shape.limits.iter().enumerate().filter(|(_, &limit)| limit < 256) {
            refused(with_byte(number, 1 + i, limit));
            refused(with_byte(number, 1 + i, 255));
        }
    }
}

#[test]
fn an_offset_out_of_its_range_is_refused() {
    let mut random = Random::new(5);
    for (format, shape) in FORMATS.iter().enumerate().filter(|(_, shape)| shape.half != 0) {
        for offset in -32768..32768 {
            let number = with_offset(lawful(&mut random, format), offset);
            let inside = -shape.half <= offset && offset < shape.half;
            assert_eq!(same_encoding(number) == 8, !inside, "instruction {number:016X}");
        }
    }
}

#[test]
fn anything_in_an_unused_byte_is_refused() {
    for word in 0..=u16::MAX {
        let number = number::xm23_decode(word);
        let shape = &FORMATS[(number & 0xFF) as usize];
        let end = if shape.half != 0 { 6 } else { 8 };
        for place in 1 + shape.limits.len()..end {
            for value in [1, 2, 128, 255] {
                refused(with_byte(number, place, value));
            }
        }
    }
}

#[test]
fn an_unknown_format_and_illegal_are_refused() {
    let mut random = Random::new(6);
    refused(0);
    for unknown in 19..256 {
        refused(unknown);
        for format in 0..19 {
            refused(with_byte(lawful(&mut random, format), 0, unknown));
        }
    }
    for place in 1..8 {
        for value in 1..256 {
            refused(with_byte(0, place, value));
        }
    }
}
