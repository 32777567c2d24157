//! The operations of 003 section 14, row by row, and the longest unbroken range around each word whose words all have
//! its operation (02 §4), found by looking from each word to its neighbour.

use std::collections::HashSet;

/// Section 14 row by row. Letters are fields, in the order of the row; `i` in SWAP, SWPB and SXT is the ignored bit.
pub const ROWS: [(&str, &str); 41] = [
    ("000ooooooooooooo", "BL"),
    ("001000oooooooooo", "BEQ"),
    ("001001oooooooooo", "BNE"),
    ("001010oooooooooo", "BC"),
    ("001011oooooooooo", "BNC"),
    ("001100oooooooooo", "BN"),
    ("001101oooooooooo", "BGE"),
    ("001110oooooooooo", "BLT"),
    ("001111oooooooooo", "BRA"),
    ("01000000rwsssddd", "ADD"),
    ("01000001rwsssddd", "ADDC"),
    ("01000010rwsssddd", "SUB"),
    ("01000011rwsssddd", "SUBC"),
    ("01000100rwsssddd", "DADD"),
    ("01000101rwsssddd", "CMP"),
    ("01000110rwsssddd", "XOR"),
    ("01000111rwsssddd", "AND"),
    ("01001000rwsssddd", "OR"),
    ("01001001rwsssddd", "BIT"),
    ("01001010rwsssddd", "BIC"),
    ("01001011rwsssddd", "BIS"),
    ("010011000wsssddd", "MOV"),
    ("010011001isssddd", "SWAP"),
    ("010011010w000ddd", "SRA"),
    ("010011010w001ddd", "RRC"),
    ("010011010w010ddd", "COMP"),
    ("010011010i011ddd", "SWPB"),
    ("010011010i100ddd", "SXT"),
    ("0100110110000ppp", "SETPRI"),
    ("010011011010aaaa", "SVC"),
    ("01001101110fffff", "SETCC"),
    ("01001101111fffff", "CLRCC"),
    ("010100cccctttfff", "CEX"),
    ("010110pdiwsssddd", "LD"),
    ("010111pdiwsssddd", "ST"),
    ("01100bbbbbbbbddd", "MOVL"),
    ("01101bbbbbbbbddd", "MOVLZ"),
    ("01110bbbbbbbbddd", "MOVLS"),
    ("01111bbbbbbbbddd", "MOVH"),
    ("10ooooooowsssddd", "LDR"),
    ("11ooooooowsssddd", "STR"),
];

/// Whether a word has the printed bits of a row.
pub fn matches(row: &str, word: u16) -> bool {
    row.chars().enumerate().all(|(i, c)| match c {
        '0' => word >> (15 - i) & 1 == 0,
        '1' => word >> (15 - i) & 1 == 1,
        _ => true,
    })
}

/// The operation of a word: 0 illegal, or its row's number from 1 on.
pub fn operation(word: u16) -> u8 {
    ROWS.iter().position(|(row, _)| matches(row, word)).map_or(0, |at| at as u8 + 1)
}

/// Operation, first and last word of the range around each word.
pub fn ranges() -> Vec<(u8, u16, u16)> {
    let mut found: Vec<(u8, u16, u16)> = (0..=u16::MAX).map(|word| (operation(word), word, word)).collect();
    for at in 1..found.len() {
        if found[at].0 == found[at - 1].0 {
            found[at].1 = found[at - 1].1;
        }
    }
    for at in (1..found.len()).rev() {
        if found[at - 1].0 == found[at].0 {
            found[at - 1].2 = found[at].2;
        }
    }
    found
}

/// What `xm23_range` must answer for each word: operation in bits 15-8, first word in 31-16, last in 47-32.
pub fn replies() -> Vec<u64> {
    let reply = |(operation, first, last)| u64::from(operation) << 8 | u64::from(first) << 16 | u64::from(last) << 32;
    ranges().into_iter().map(reply).collect()
}

/// The words that mean an operation, rising, by looking at every word; 0 is the illegal words (02 §11).
pub fn words(operation_number: u32) -> Vec<u16> {
    (0..=u16::MAX).filter(|&word| u32::from(operation(word)) == operation_number).collect()
}

/// What `xm23_count` must answer, of those words: their number in bits 31-8.
pub fn count(words: &[u16]) -> u32 {
    (words.len() as u32) << 8
}

/// What `xm23_next` must answer, of those words: 1 in bits 15-8 and in 31-16 the first word at or above the given one;
/// 0 for none, and for the illegal words, which are no instructions.
pub fn next(operation_number: u32, words: &[u16], word: u32) -> u64 {
    let found = words.iter().find(|&&w| operation_number != 0 && u32::from(w) >= word);
    found.map_or(0, |&w| 1 << 8 | u64::from(w) << 16)
}

/// What a call of `xm23_count` or `xm23_next` can meet.
#[derive(Clone, Copy, Debug, PartialEq, Eq, Hash)]
pub enum Item {
    /// A count or a next of each operation, and of numbers that are none's.
    Count(u32),
    CountOfNone,
    Next(u32),
    NextOfNone,
    NextOfIllegal,
    /// Where the word asked at stands among an operation's words.
    AtTheWord,
    BelowTheFirst,
    BetweenTwoBlocks,
    AtTheLast,
    PastTheLast,
    NoWord,
    /// The word found has its ignored bit set.
    IgnoredBit,
}

/// Which items calls have met.
#[derive(Default)]
pub struct Reached(HashSet<Item>);

impl Reached {
    fn mark(&mut self, holds: bool, item: Item) {
        if holds {
            self.0.insert(item);
        }
    }

    /// What `xm23_count` must answer, as `count` has it.
    pub fn count(&mut self, operation_number: u32, words: &[u16]) -> u32 {
        self.mark(true, if operation_number > 41 { Item::CountOfNone } else { Item::Count(operation_number) });
        count(words)
    }

    /// What `xm23_next` must answer, as `next` has it.
    pub fn next(&mut self, operation_number: u32, words: &[u16], word: u32) -> u64 {
        let reply = next(operation_number, words, word);
        self.mark(operation_number == 0, Item::NextOfIllegal);
        self.mark(operation_number > 41, Item::NextOfNone);
        if let (1..=41, &[first, .., last]) = (operation_number, words) {
            let (first, last, found) = (u32::from(first), u32::from(last), (reply >> 16) as u32);
            self.mark(true, Item::Next(operation_number));
            self.mark(found == word && reply != 0, Item::AtTheWord);
            self.mark(word < first, Item::BelowTheFirst);
            self.mark(first < word && word < found, Item::BetweenTwoBlocks);
            self.mark(word == last, Item::AtTheLast);
            self.mark(word == last + 1, Item::PastTheLast);
            self.mark(word > 65_535, Item::NoWord);
            self.mark(matches!(operation_number, 23 | 27 | 28) && found & 0x40 != 0, Item::IgnoredBit);
        }
        reply
    }

    /// What was not met.
    pub fn gaps(&self) -> Vec<Item> {
        let single = [Item::CountOfNone, Item::NextOfNone, Item::NextOfIllegal, Item::AtTheWord, Item::BelowTheFirst];
        let more = [Item::BetweenTwoBlocks, Item::AtTheLast, Item::PastTheLast, Item::NoWord, Item::IgnoredBit];
        let all = (0..=41).map(Item::Count).chain((1..=41).map(Item::Next)).chain(single).chain(more);
        all.filter(|item| !self.0.contains(item)).collect()
    }
}

#[cfg(test)]
mod tests {
    use super::*;

    fn number(name: &str) -> u8 {
        ROWS.iter().position(|row| row.1 == name).map_or(0, |at| at as u8 + 1)
    }

    #[test]
    fn the_numbers_of_the_operations() {
        let named =
            ["BL", "BRA", "ADD", "BIS", "MOV", "SWAP", "SRA", "SXT", "SETPRI", "CEX", "LD", "MOVL", "MOVH", "STR"];
        assert_eq!(named.map(number), [1, 9, 10, 21, 22, 23, 24, 28, 29, 33, 34, 36, 39, 41]);
        assert_eq!(operation(0x4E00), 0);
    }

    #[test]
    fn there_are_52_ranges() {
        let all = ranges();
        assert_eq!(all.iter().enumerate().filter(|(word, range)| *word == usize::from(range.1)).count(), 52);
        let words = |o: u8| all.iter().filter(|range| range.0 == o).count();
        assert_eq!((words(0), words(number("SWAP")), words(number("SXT"))), (1624, 128, 16));
    }

    #[test]
    fn lists_by_hand() {
        let swap = words(u32::from(number("SWAP")));
        assert_eq!((swap.len(), swap[0], swap[64], swap[127]), (128, 0x4C80, 0x4CC0, 0x4CFF));
        let sxt = words(u32::from(number("SXT")));
        assert_eq!((sxt[0], sxt[7], sxt[8], sxt[15]), (0x4D20, 0x4D27, 0x4D60, 0x4D67));
        assert_eq!(next(28, &sxt, 0x4D28), 0x4D60_0100);
        assert_eq!((next(28, &sxt, 0x4D68), next(0, &words(0), 0)), (0, 0));
        assert_eq!(words(42), []);
    }

    #[test]
    fn ranges_by_hand() {
        let all = ranges();
        for (word, operation, first, last) in [
            (0x0000, "BL", 0x0000, 0x1FFF),
            (0x23FF, "BEQ", 0x2000, 0x23FF),
            // Byte and word form, register and constant are one operation.
            (0x40C0, "ADD", 0x4000, 0x40FF),
            (0x4C40, "MOV", 0x4C00, 0x4C7F),
            (0x4CFF, "SWAP", 0x4C80, 0x4CFF),
            // Other words lie between the two forms.
            (0x4D03, "SRA", 0x4D00, 0x4D07),
            (0x4D43, "SRA", 0x4D40, 0x4D47),
            // Gaps are apart where an operation lies between them.
            (0x4D3F, "", 0x4D28, 0x4D3F),
            (0x4D7F, "", 0x4D68, 0x4D7F),
            (0x4D9F, "", 0x4D88, 0x4D9F),
            (0x4DB0, "", 0x4DB0, 0x4DBF),
            (0x4FFF, "", 0x4E00, 0x4FFF),
            (0xFFFF, "STR", 0xC000, 0xFFFF),
        ] {
            assert_eq!(all[word], (number(operation), first, last), "{word:04X}");
        }
    }
}
