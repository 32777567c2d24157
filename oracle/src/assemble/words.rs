//! The words of the language of 02 §12: what 003 calls each thing, in the order of its codes.

use std::collections::HashSet;
use std::sync::OnceLock;

/// In the order of the codes; a name and its other spellings stand together.
pub const BRANCHES: [&str; 8] = ["BEQ BZ", "BNE BNZ", "BC BHS", "BNC BLO", "BN", "BGE", "BLT", "BRA"];
pub const ALU: [&str; 12] = ["ADD", "ADDC", "SUB", "SUBC", "DADD", "CMP", "XOR", "AND", "OR", "BIT", "BIC", "BIS"];
pub const UNARY: [&str; 3] = ["SRA", "RRC", "COMP"];
pub const MOVES: [&str; 4] = ["MOVL", "MOVLZ", "MOVLS", "MOVH"];
pub const CONDITIONS: [&str; 16] =
    ["EQ", "NE", "CS HS", "CC LO", "MI", "PL", "VS", "VC", "HI", "LS", "GE", "LT", "GT", "LE", "TR", "FL"];
pub const REGISTERS: [&str; 8] = ["R0", "R1", "R2", "R3", "R4 BP", "R5 LR", "R6 SP", "R7 PC"];
/// What R/C makes of SRC.
pub const CONSTANTS: [i32; 8] = [0, 1, 2, 4, 8, 16, 32, -1];

pub const DIRECTIVES: [&str; 6] = ["ORG", "EQU", "BSS", "BYTE", "WORD", "END"];
/// The instructions that stand in no list above.
const OTHERS: [&str; 14] =
    ["BL", "MOV", "SWAP", "SWPB", "SXT", "SETPRI", "SVC", "SETCC", "CLRCC", "CEX", "LD", "ST", "LDR", "STR"];
/// 003 chapter 7: no statements, since what they are decodes to another operation; no names either.
const EMULATED: [&str; 26] = [
    "ADC", "CALL", "CLC", "CLN", "CLR", "CLS", "CLV", "CLZ", "DADC", "DEC", "DECD", "INC", "INCD", "JUMP", "NOP",
    "PULL", "PUSH", "RET", "RLC", "SBC", "SEC", "SEN", "SEV", "SEZ", "SLA", "TST",
];

/// The place of a word in a list.
pub fn index(list: &[&str], word: &str) -> Option<u8> {
    list.iter().position(|spellings| spellings.split(' ').any(|s| s == word)).map(|at| at as u8)
}

/// Every word of the language.
pub fn all() -> Vec<&'static str> {
    let lists: [&[&'static str]; 9] =
        [&DIRECTIVES, &BRANCHES, &ALU, &UNARY, &MOVES, &OTHERS, &REGISTERS, &CONDITIONS, &EMULATED];
    lists.iter().flat_map(|list| list.iter()).flat_map(|spellings| spellings.split(' ')).collect()
}

/// Whether a word is one of the language.
pub fn reserved(word: &str) -> bool {
    static WORDS: OnceLock<HashSet<&str>> = OnceLock::new();
    WORDS.get_or_init(|| all().into_iter().collect()).contains(word)
}

#[cfg(test)]
mod tests {
    use super::*;

    #[test]
    fn the_words() {
        let mut words = all();
        // 6 directives, 45 mnemonics, 12 registers, 18 conditions, 26 emulated instructions; no word is in two lists.
        assert_eq!(words.len(), 6 + 45 + 12 + 18 + 26);
        words.sort_unstable();
        words.dedup();
        assert_eq!(words.len(), 107);
        assert!(words.iter().all(|word| reserved(word)));
        assert!(["C", "ZN", "R8", "RA", "START", "A", "BEQ BZ", ""].iter().all(|word| !reserved(word)));
    }
}
