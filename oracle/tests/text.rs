//! The call for a word's text of libxm23.a beside the oracle: reply and every byte of the buffer, for every word; and
//! each text assembled again, by the oracle and by the library.

#[path = "library/assemble.rs"]
mod assembler;
#[path = "library/text.rs"]
mod library;

use oracle::assemble::judge;
use oracle::assemble_inputs::Input;
use oracle::listing::{notation, text_call};
use oracle::machine::MEMORY;
use oracle::random::Random;
use oracle::text_compare::{compare, owed, Printer, Reached};

/// Places, even and odd, at the ends of memory, of a digit and of a branch's way.
const PLACES: [u16; 12] = [0, 1, 2, 0x00FE, 0x0101, 0x1FFE, 0x2000, 0x7FFF, 0x8000, 0xE002, 0xFFFE, 0xFFFF];

/// Every word at a place in a buffer: the first difference, if there is one.
fn every_word(printer: Printer, place: u16, room: usize) -> Result<(), String> {
    (0..=u16::MAX).try_for_each(|word| compare(printer, word, place, room))
}

/// All words at each place in 24 bytes, and in buffers of 0 to 26 at two of them. What is owed must be reached.
#[test]
fn every_word_at_many_places() {
    let mut reached = Reached::default();
    let rooms = (0..=26).flat_map(|room| [(0x0100, room), (0x0101, room)]);
    for (place, room) in PLACES.into_iter().map(|place| (place, 24)).chain(rooms) {
        every_word(library::text, place, room).unwrap_or_else(|difference| panic!("{difference}"));
        (0..=u16::MAX).for_each(|word| reached.word(word, place, room));
    }
    let gaps = reached.gaps();
    println!("65,536 words at {} places; {} things to reach", PLACES.len(), owed().len());
    assert!(gaps.is_empty(), "not reached: {gaps:#?}");
}

/// Any word, place and length.
#[test]
fn random_words_and_places() {
    let mut random = Random::new(41);
    for _ in 0..1_000_000 {
        let (word, place, room) = (random.word(), random.word(), usize::from(random.word() % 64));
        compare(library::text, word, place, room).unwrap_or_else(|difference| panic!("{difference}"));
    }
}

/// How many words have no notation at an even place.
#[test]
fn words_without_a_notation() {
    assert_eq!((0..=u16::MAX).filter(|&word| notation(word, 0).is_err()).count(), 2_474);
}

/// The text of a word as the library writes it.
fn text(word: u16, place: u16) -> String {
    let mut buffer = [0; 24];
    let reply = library::text(word, place, &mut buffer);
    assert_eq!(reply as u8, 0);
    String::from_utf8(buffer[..(reply >> 8) as usize].to_vec()).expect("ASCII")
}

/// Writing and reading undo each other: ORG, the text, END put the word's bytes at the place, and touch no other.
#[test]
fn each_text_assembles_to_its_word() {
    let memory: Vec<u8> = (0..MEMORY).map(|at| (at * 7) as u8).collect();
    let mut made = Input { memory: memory.clone(), source: Vec::new() };
    for place in [0x0000, 0x0100, 0x7FFE, 0xFFFE] {
        for word in 0..=u16::MAX {
            let (low, at) = (word.to_le_bytes(), usize::from(place));
            let source = format!("ORG ${place:04X}\n{}\nEND\n", text(word, place));
            let bytes = judge(source.as_bytes()).unwrap_or_else(|f| panic!("{source}: {f:?}")).bytes;
            assert_eq!(bytes, [(place, low[0]), (place + 1, low[1])], "{source}");
            made.source = source.into_bytes();
            assert_eq!(assembler::assemble(&mut made), 0);
            assert_eq!(made.memory[at..at + 2], low);
            made.memory[at..at + 2].copy_from_slice(&memory[at..at + 2]);
            assert!(made.memory == memory, "{word:04X} at {place:04X}: another byte");
        }
    }
}

/// A listing of a whole memory assembles to that memory: every word there is, and random ones.
#[test]
fn a_listing_assembles_to_its_words() {
    let mut random = Random::new(43);
    let rising = |from: u32| (from..from + 32_768).map(|w| w as u16).collect::<Vec<u16>>();
    let mut memories = vec![rising(0), rising(32_768)];
    memories.extend((0..8).map(|_| (0..32_768).map(|_| random.word()).collect()));
    for words in memories {
        let line = |(i, &word): (usize, &u16)| text(word, 2 * i as u16) + "\n";
        let source: String = words.iter().enumerate().map(line).collect();
        let mut made = Input { memory: vec![0xEE; MEMORY], source: format!("ORG $0000\n{source}END\n").into_bytes() };
        let expected: Vec<u8> = words.iter().flat_map(|word| word.to_le_bytes()).collect();
        assert_eq!(judge(&made.source).expect("a listing").memory(), expected);
        assert_eq!(assembler::assemble(&mut made), 0);
        assert!(made.memory == expected);
    }
}

/// A printer that changes what the oracle writes, and gives its length.
fn changed(word: u16, place: u16, buffer: &mut [u8], change: impl Fn(String) -> String) -> u32 {
    let mut right = [0; 24];
    let reply = text_call(word, place, &mut right);
    if buffer.len() < 24 {
        return 22;
    }
    let text = change(String::from_utf8_lossy(&right[..(reply >> 8) as usize]).into_owned());
    buffer[..text.len()].copy_from_slice(text.as_bytes());
    (text.len() as u32) << 8
}

/// Printers that are wrong on purpose are caught.
#[test]
fn wrong_printers() {
    let wrong: [(&str, Printer); 9] = [
        ("lower-case digits", |w, p, b| {
            changed(w, p, b, |t| match t.split_once('$') {
                Some((before, digits)) => format!("{before}${}", digits.to_lowercase()),
                None => t,
            })
        }),
        ("BP for R4", |w, p, b| changed(w, p, b, |t| t.replace("R4", "BP"))),
        ("R5 for LR", |w, p, b| changed(w, p, b, |t| t.replace("LR", "R5"))),
        ("a target from the word's own place", |w, p, b| {
            text_call(w, if w < 0x4000 { p.wrapping_sub(2) } else { p }, b)
        }),
        ("WORD for a word that has a notation", |w, p, b| {
            changed(w, p, b, |t| if w == 0x4C53 { "WORD $4C53".to_string() } else { t })
        }),
        ("a notation for a word that has none", |w, p, b| text_call(if w == 0x4CD3 { 0x4C93 } else { w }, p, b)),
        ("flags from the low bit on", |w, p, b| {
            changed(w, p, b, |t| if t == "SETCC VC" { "SETCC CV".to_string() } else { t })
        }),
        ("bytes past the text cleared", |w, p, b| {
            let reply = text_call(w, p, b);
            b.iter_mut().skip((reply >> 8) as usize).for_each(|byte| *byte = 0);
            reply
        }),
        ("23 bytes are enough", |w, p, b| {
            if b.len() != 23 {
                return text_call(w, p, b);
            }
            let mut right = [0; 24];
            let reply = text_call(w, p, &mut right);
            b.copy_from_slice(&right[..23]);
            reply
        }),
    ];
    for (name, printer) in wrong {
        let caught = [(0x0100, 24), (0x0100, 23), (0x0101, 24)].map(|(p, room)| every_word(printer, p, room).is_err());
        assert!(caught.contains(&true), "{name}");
    }
    for place in [0x0100, 0x0101] {
        every_word(text_call, place, 24).expect("the oracle itself");
    }
}
