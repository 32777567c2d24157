//! Inputs of the assembler's call, each named by its kind and seed: sources as setters write them, and sources that are
//! wrong in every way that 02 §12 speaks of.

use crate::assemble::words::{all, ALU, BRANCHES, CONDITIONS, CONSTANTS, MOVES, REGISTERS, UNARY};
use crate::machine::MEMORY;
use crate::random::Random;
use crate::{case, source_case};
use std::sync::OnceLock;

/// What xm23_assemble is lent.
#[derive(Clone, Debug, PartialEq, Eq)]
pub struct Input {
    pub memory: Vec<u8>,
    pub source: Vec<u8>,
}

#[derive(Clone, Copy, Debug, PartialEq, Eq)]
pub enum Kind {
    /// Sources that are to be accepted.
    Lawful,
    /// The same with one or two lines put in that are wrong in one way each.
    Crafted,
    /// The same with a few bytes or lines changed.
    Damaged,
    /// Expressions of many brackets, and values beside the ends of 32 bits.
    Deep,
    /// A thousand names, some given twice, some used.
    Names,
    /// The sources of the readable cases and the corner sources, whole or with a few bytes or lines changed.
    Real,
    /// Tokens in no order, and bytes of no plan.
    Junk,
}

pub const KINDS: [Kind; 7] =
    [Kind::Lawful, Kind::Crafted, Kind::Damaged, Kind::Deep, Kind::Names, Kind::Real, Kind::Junk];

/// Characters that sources have, or almost have.
const NEARBY: &[u8] = b"0123456789ABCDEFRSTVNZ#$-+*/(),.;; \t\r\n\0a_:'\xFF";

/// Lines that are wrong alone, whatever stands around them: 17, 18 or 19.
#[rustfmt::skip]
const WRONG: &[&str] = &[
    // 17
    "WORD", "WORD #", "WORD $", "WORD 5", "WORD # 5", "WORD #- 5", "WORD -#5", "WORD $-1", "WORD #1+#2", "WORD (#1",
    "WORD #1)", "WORD ()", "WORD (-#1)", "WORD (#1+)", "WORD #1,#2", "WORD 'A'", "WORD R0", "WORD (R0)", "BYTE $ab",
    "EQU #1", "SP EQU #1", "EQ BYTE #1", "ADC BYTE #1", "RET", "INC R0", "CALL X", "END #1", "ADD .B R0,R1",
    "ADD.BR0,R1", "ADD.X R0,R1", "SWAP.B R0,R1", "SWPB.W R0", "MOV #1,R0", "ADD R0 R1", "ADD R0", "ADD R0,#1",
    "ADD R0,R1,R2", "SETCC", "SETCC CC", "SETCC V C", "SETCC X", "CLRCC #1", "LD +R0+,R1", "LD #1,R1", "LD R0,+R1",
    "ST +R0,R1", "LDR R0,R1,#1", "STR R0,#1,R1", "MOVL R0,R1", "MOVL.B #1,R0", "CEX #1,#1", "CEX XX,#1,#1", "CEX EQ,#1",
    "BRA R0", "A_B BYTE #1", "LOOP: BYTE #1", "QA QB BYTE #1", "add R0,R1", "\r", "BYTE #1\r\r", "BYTE #1\rBYTE #2",
    "BYTE #1\0", "QA.B BYTE #1", "R0", "EQ", "WORD (((((((((((((((((#1)))))))))))))))))", "SETPRI", "SVC R0", "BSS",
    "ORG", "1A", "ADD. B R0,R1", "SETPRI.B #1",
    // 18
    "WORD NOWHERE", "BRA NOWHERE", "ORG NOWHERE", "BSS (NOWHERE)", "QX EQU (QX+#1)", "QY ORG QY", "QZ BSS (QZ*#0)",
    "MOVH NOWHERE,R0", "BYTE (NOWHERE/#0)", "ORG QBELOW", "BSS QBELOW", "QV EQU QBELOW",
    // 19
    "BYTE #256", "BYTE #-129", "WORD #65536", "WORD #-32769", "WORD #99999999999999999999", "WORD $FFFFFFFF",
    "WORD (#2147483647+#1-#2147483647)", "WORD (#1/#0)", "WORD (#0/(#1-#1))", "WORD (#-2147483648/#-1)",
    "WORD (#65536*#32768/#65536)", "QE EQU #2147483648", "QE EQU (#1/#0)", "ORG #-1", "BSS #-1", "BSS #70000",
    "ADD #3,R0", "ADD #65535,R0", "CMP.B (#5+#2),R1", "SETPRI #8", "SETPRI #-1", "SVC #16", "SVC #-1", "CEX EQ,#8,#0",
    "CEX FL,#0,#8", "CEX FL,#0,#-1", "LDR R0,#64,R1", "LDR.B R0,#-65,R1", "STR R0,R1,#64", "STR.W R0,R1,#-65",
    "MOVL #256,R0", "MOVH #-129,R0", "MOVLZ (#256),R0", "MOVLS (#-129),R0", "MOVH (#255+#1),R0", "MOVL (#65535),R0",
    "QMOV MOVLZ (QMOV*#0+#65536),R0", "QMOV MOVLS (QMOV*#0-#32769),R0", "BRA #65536", "BL #-32769",
    "BRA (QHERE+#1026)", "QHERE BRA (QHERE+#1026)", "QHERE BRA (QHERE-#1024)", "QHERE BL (QHERE+#8194)",
    "QHERE BL (QHERE-#8192)", "QHERE BNE (QHERE+#1)", "QHERE BEQ (QHERE+#3)", "ORG #70000\nWORD #0",
    "ORG #70000\nBRA #0", "ORG $FFFE\nWORD #0\nWORD #0", "ORG #65536\nBYTE #0", "ORG #70001\nWORD #0",
    "ORG $FFFF\nBYTE #0\nBYTE #0", "ORG $FFFF\nWORD #0", "ORG $FFFE\nWORD #0\nADD R0,R0", "ORG #1\nADD R0,R0",
    "ORG #1\nWORD #0", "ORG $FFF0\nBSS #17", "ORG #70000\nBSS #1", "ORG #2147483647\nBYTE #0\nQFAR",
    "ORG #70000\nQFAR\nORG #0\nWORD QFAR",
];

/// Lines that are right alone, and seldom made.
#[rustfmt::skip]
const RIGHT: &[&str] = &[
    "SETCC SVC", "QA", "QFAR ORG #70000\nQEND\nBSS #0\nORG #0", "ORG $FFFF\nBYTE #1\nORG #0",
    "ORG $FFFE\nWORD #1\nORG #0", "ORG $FFF0\nBSS #16\nQE\nORG #0",
    "QH ORG $4000\nQHERE BRA (QHERE+#1024)\nBL (QHERE+#8194)", "ORG $4000\nQHERE BRA (QHERE-#1022)\nBL (QHERE-#8188)",
    "ORG $FFFE\nBRA #0\nORG #0\nBRA $FFFE\nBRA #-2\nORG $100", "WORD ((((((((((((((((#1))))))))))))))))",
    "WORD (#-7/#2)", "WORD (#10-#3-#2)", "WORD (#100/#5/#2)", "WORD (#1+#2*#3)", "QN EQU #-2147483648",
    "QN EQU $7FFFFFFF", "MOVH (#32),R0", "MOVL (#300-#45),R0", "MOVH (#-1*#128),R0", "QMOV MOVH (QMOV*#0+#65535),R0",
    "QMOV MOVL (#300+QMOV*#0),R0", "MOVH #32,R0", "MOVH QBELOW,R0", "WORD QBELOW",
    "ORG $200\nWORD $1234\nORG $201\nBYTE $AB\nORG $300", "BYTE #1 ;\r\0 lower\r", "ORG #2147483647\nQFAR\nORG #0",
    "ORG #80000\nQFAR BSS #0\nQFARTHER ORG #0", "WORD #000000000000000000000000000000007", "C EQU #1", "R8 EQU #1",
    "LD R1 + , R2", "ST R1,- SP", "BSS #0", "", "\t;", "L1 BSS #0",
];

/// A memory in which every byte is told from its neighbours.
fn memory(random: &mut Random) -> Vec<u8> {
    let (a, b) = (random.byte() | 1, random.byte());
    let length = if random.one_in(60) { [0, 1, MEMORY - 1, MEMORY + 1][random.below(4) as usize] } else { MEMORY };
    (0..length).map(|i| (i as u8).wrapping_mul(a).wrapping_add((i >> 8) as u8).wrapping_add(b)).collect()
}

/// One of a list, of its other spellings too.
fn one<'a>(random: &mut Random, list: &[&'a str]) -> &'a str {
    let spellings: Vec<&str> = list[random.below(list.len() as u64) as usize].split(' ').collect();
    spellings[random.below(spellings.len() as u64) as usize]
}

/// A number of a value in one of its spellings.
fn number(random: &mut Random, value: i64) -> String {
    let zeros = "0".repeat(if random.one_in(20) { random.below(12) as usize } else { 0 });
    match random.below(2) {
        0 if value >= 0 => format!("${zeros}{value:X}"),
        _ if value < 0 => format!("#-{zeros}{}", -value),
        _ => format!("#{zeros}{value}"),
    }
}

/// A source that is being written. Names N0, N1 .. are its own, K0, K1 .. are constants that it gives first.
struct Maker<'a> {
    random: &'a mut Random,
    lines: Vec<String>,
    place: i64,
    constants: Vec<i64>,
    given: u64,
    /// How many names there are to be in the end.
    names: u64,
}

impl Maker<'_> {
    fn below(&mut self, limit: u64) -> i64 {
        self.random.below(limit) as i64
    }

    /// A value as a number, a name or an expression of so many brackets more, each number in it small.
    fn value(&mut self, wanted: i64, left: u64) -> String {
        let named = self.constants.iter().position(|&c| c == wanted);
        match (self.random.below(8), named) {
            (0..=3, Some(k)) => format!("K{k}"),
            (4 | 5, _) if left > 0 => format!("({})", self.expression(wanted, left - 1)),
            _ => number(self.random, wanted),
        }
    }

    /// An expression that has a value, whatever is put between.
    fn expression(&mut self, wanted: i64, left: u64) -> String {
        let other = self.below(2_000) - 1_000;
        match self.random.below(7) {
            0 => format!("{}+{}", self.value(wanted - other, left), self.value(other, left)),
            1 => format!("{}-{}", self.value(wanted + other, left), self.value(other, left)),
            2 => {
                let (by, rest) = (other % 9 + 10, other % 5);
                let times = (wanted - rest) / by;
                let last = wanted - times * by;
                format!("{}*{}+{}", self.value(times, left), self.value(by, left), self.value(last, left))
            }
            3 => {
                let by = other % 6 + 7;
                let inside = if wanted < 0 { wanted * by - 1 } else { wanted * by + 1 };
                format!("{}/{}", self.value(inside, left), self.value(by, left))
            }
            4 => format!("{}-{}-{}", self.value(wanted + 9, left), self.value(4, left), self.value(5, left)),
            5 => format!("{}-{}*{}", self.value(wanted + 12, left), self.value(3, left), self.value(4, left)),
            _ => self.value(wanted, left),
        }
    }

    fn within(&mut self, least: i64, greatest: i64) -> String {
        let wanted = match self.random.below(8) {
            0 => least,
            1 => greatest,
            _ => least + self.below((greatest - least + 1) as u64),
        };
        let left = if self.random.one_in(6) { self.random.below(16) + 1 } else { 2 };
        self.value(wanted, left)
    }

    fn register(&mut self) -> &'static str {
        one(self.random, &REGISTERS)
    }

    fn suffix(&mut self) -> &'static str {
        ["", "", ".B", ".W"][self.random.below(4) as usize]
    }

    /// A name that is given somewhere, or will be.
    fn any_name(&mut self) -> String {
        format!("N{}", self.random.below(self.names))
    }

    /// A target that a branch of so many words reaches.
    fn target(&mut self, words: i64) -> String {
        let offset = match self.random.below(6) {
            0 => -words,
            1 => words - 1,
            _ => self.below(2 * words as u64) - words,
        };
        let address = (self.place + 2 + 2 * offset).rem_euclid(65_536);
        let address = if address > 32_768 && self.random.one_in(3) { address - 65_536 } else { address };
        self.value(address, 2)
    }

    fn indexed(&mut self) -> String {
        let register = self.register();
        match self.random.below(5) {
            0 => format!("+{register}"),
            1 => format!("-{register}"),
            2 => format!("{register}+"),
            3 => format!("{register}-"),
            _ => register.to_string(),
        }
    }

    /// An instruction that assembles where it stands.
    fn instruction(&mut self) -> String {
        let (suffix, first, second) = (self.suffix(), self.register(), self.register());
        match self.random.below(18) {
            0 => format!("BL {}", self.target(4_096)),
            1 | 2 => format!("{} {}", one(self.random, &BRANCHES), self.target(512)),
            3 | 4 => format!("{}{suffix} {first},{second}", one(self.random, &ALU)),
            5 | 6 => {
                let constant = CONSTANTS[self.random.below(8) as usize];
                format!("{}{suffix} {},{second}", one(self.random, &ALU), self.value(constant.into(), 2))
            }
            7 => format!("MOV{suffix} {first},{second}"),
            8 => format!("SWAP {first},{second}"),
            9 => format!("{}{suffix} {first}", one(self.random, &UNARY)),
            10 => format!("{} {first}", ["SWPB", "SXT"][self.random.below(2) as usize]),
            11 => format!("SETPRI {}", self.within(0, 7)),
            12 => format!("SVC {}", self.within(0, 15)),
            13 => self.flags(),
            14 => format!("CEX {},{},{}", one(self.random, &CONDITIONS), self.within(0, 7), self.within(0, 7)),
            15 => match self.random.below(4) {
                0 => format!("LD{suffix} {},{second}", self.indexed()),
                1 => format!("ST{suffix} {first},{}", self.indexed()),
                2 => format!("LDR{suffix} {first},{},{second}", self.within(-64, 63)),
                _ => format!("STR{suffix} {first},{second},{}", self.within(-64, 63)),
            },
            16 => format!("{} {},{first}", one(self.random, &MOVES), self.within(-128, 255)),
            _ => format!("{} {},{first}", one(self.random, &MOVES), self.any_name()),
        }
    }

    fn flags(&mut self) -> String {
        let mut letters: Vec<char> = "VSNZC".chars().collect();
        let many = 1 + self.random.below(5) as usize;
        let list: String =
            (0..many).map(|_| letters.remove(self.random.below(letters.len() as u64) as usize)).collect();
        format!("{} {list}", ["SETCC", "CLRCC"][self.random.below(2) as usize])
    }

    /// A line, with a name where one is still to be given.
    fn line(&mut self, statement: &str, length: i64) {
        let named = self.given < self.names && self.random.one_in(3);
        let name = if named { format!("N{} ", self.given) } else { String::new() };
        self.given += u64::from(named);
        self.lines.push(name + statement);
        self.place += length;
    }

    fn step(&mut self) {
        if self.place > 65_000 || self.random.one_in(25) {
            let place = if self.random.one_in(3) { self.below(40_000) } else { 2 * self.below(20_000) };
            let org = format!("ORG {}", self.value(place, 2));
            self.line(&org, 0);
            self.place = place;
        }
        match self.random.below(10) {
            0 => {
                let byte = format!("BYTE {}", self.within(-128, 255));
                self.line(&byte, 1);
            }
            1 => {
                let length = self.below(9);
                let bss = format!("BSS {}", self.value(length, 2));
                self.line(&bss, length);
            }
            2 => self.line("", 0),
            _ if self.place % 2 == 1 => self.line("BYTE #0", 1),
            3 => {
                let word = if self.random.one_in(2) {
                    format!("WORD {}", self.any_name())
                } else {
                    format!("WORD {}", self.within(-32_768, 65_535))
                };
                self.line(&word, 2);
            }
            _ => {
                let instruction = self.instruction();
                self.line(&instruction, 2);
            }
        }
    }
}

/// The lines of a source that is to be accepted, END the last.
fn lawful(random: &mut Random) -> Vec<String> {
    let (names, many) = (1 + random.below(12), random.below(40));
    let mut maker = Maker { random, lines: Vec::new(), place: 0, constants: Vec::new(), given: 0, names };
    for k in 0..maker.random.below(6) {
        let value = maker.below(70_000) - 3_000;
        let line = format!("K{k} EQU {}", maker.value(value, 3));
        maker.lines.push(line);
        maker.constants.push(value);
    }
    (0..many).for_each(|_| maker.step());
    while maker.given < maker.names {
        maker.lines.push(format!("N{}", maker.given));
        maker.given += 1;
    }
    maker.lines.push(if maker.random.one_in(4) { "LAST END" } else { "END" }.to_string());
    maker.lines
}

/// Blanks at some places where they may be many or none, and a comment now and then.
fn spaced(random: &mut Random, line: &str) -> Vec<u8> {
    let mut text = Vec::new();
    let blanks = |random: &mut Random, text: &mut Vec<u8>| {
        for _ in 0..random.below(3) {
            text.push(if random.one_in(4) { b'\t' } else { b' ' });
        }
    };
    blanks(random, &mut text);
    for (i, &b) in line.as_bytes().iter().enumerate() {
        let sign = b",()*+/".contains(&b) || b == b'-' && i > 0 && line.as_bytes()[i - 1] != b'#';
        if (sign || b == b' ') && random.one_in(4) {
            blanks(random, &mut text);
        }
        text.push(b);
        if sign && random.one_in(6) {
            blanks(random, &mut text);
        }
    }
    if random.one_in(6) {
        text.push(b';');
        text.extend((0..random.below(12)).map(|_| random.byte()).filter(|&b| b != b'\n'));
    }
    text
}

/// Lines as a source: with one ending or both, the last one's perhaps absent, and lines after END now and then.
fn text(random: &mut Random, lines: &[String]) -> Vec<u8> {
    let (ending, free) = (random.below(3), !random.one_in(3));
    let mut text = Vec::new();
    for (i, line) in lines.iter().flat_map(|line| line.split('\n')).enumerate() {
        if i > 0 {
            let cr = ending == 1 || ending == 2 && random.one_in(2);
            text.extend(if cr { &b"\r\n"[..] } else { &b"\n"[..] });
        }
        text.extend(if free { spaced(random, line) } else { line.as_bytes().to_vec() });
    }
    match random.below(6) {
        0 => {}
        1 => text.extend(b"\r\n"),
        2 => {
            text.push(b'\n');
            text.extend((0..random.below(30)).map(|_| NEARBY[random.below(NEARBY.len() as u64) as usize]));
        }
        _ => text.push(b'\n'),
    }
    text
}

/// A lawful source with lines of the two lists put in, seldom right at its end.
fn crafted(random: &mut Random) -> Vec<u8> {
    let mut lines = lawful(random);
    if random.one_in(2) {
        let end = lines.len() - 1;
        lines.insert(end, "QBELOW EQU $1234".into());
    }
    for _ in 0..1 + random.below(2) {
        let list = if random.one_in(2) { WRONG } else { RIGHT };
        let line = list[random.below(list.len() as u64) as usize];
        let at = random.below(lines.len() as u64) as usize;
        lines.insert(at, line.to_string());
    }
    match random.below(24) {
        0 => drop(lines.pop()),
        1 => lines.push("NOWHERE EQU #1".into()),
        2 => {
            let (from, to) = (random.below(lines.len() as u64) as usize, random.below(lines.len() as u64) as usize);
            lines.insert(to, lines[from].clone());
        }
        _ => {}
    }
    text(random, &lines)
}

/// A source with a few bytes or lines changed.
fn damage(random: &mut Random, mut source: Vec<u8>) -> Vec<u8> {
    for _ in 0..1 + random.below(3) {
        let near = NEARBY[random.below(NEARBY.len() as u64) as usize];
        let at = random.below(source.len() as u64 + 1) as usize;
        match random.below(6) {
            0 if at < source.len() => drop(source.remove(at)),
            1 | 2 if at < source.len() => source[at] = near,
            3 => {
                let mut lines: Vec<&[u8]> = source.split_inclusive(|&b| b == b'\n').collect();
                if !lines.is_empty() {
                    let (i, j) = (random.below(lines.len() as u64) as usize, random.below(lines.len() as u64) as usize);
                    match random.below(3) {
                        0 => lines.insert(j, lines[i]),
                        1 => drop(lines.remove(i)),
                        _ => lines.swap(i, j),
                    }
                }
                source = lines.concat();
            }
            4 if at < source.len() && source[at].is_ascii_digit() => source[at] = b'0' + random.below(10) as u8,
            _ => source.insert(at, near),
        }
    }
    source
}

/// An expression of any value, with so many brackets left.
fn wild(random: &mut Random, left: u64) -> String {
    let factor = |random: &mut Random| match random.below(8) {
        0..=3 if left > 0 => format!("({})", wild(random, left - 1)),
        4 => format!("K{}", random.below(3)),
        5 => {
            let near =
                [0, 1, -1, 2, i64::from(i32::MAX), i64::from(i32::MIN), 46_341, -65_536][random.below(8) as usize];
            let value = near + random.below(3) as i64 - 1;
            number(random, value)
        }
        _ => {
            let value = random.below(9) as i64 - 3;
            number(random, value)
        }
    };
    let mut text = factor(random);
    for _ in 0..random.below(3) {
        let sign = ["+", "-", "*", "/"][random.below(4) as usize];
        text = format!("{text}{sign}{}", factor(random));
    }
    text
}

/// A few lines of expressions, of which one may be a bracket too deep.
fn deep(random: &mut Random) -> Vec<u8> {
    let mut lines: Vec<String> = (0..3).map(|k| format!("K{k} EQU {}", [0, -7, 1 << 20][k])).collect();
    lines = lines.iter().map(|line| line.replace("EQU ", "EQU #")).collect();
    for i in 0..1 + random.below(4) {
        let left = random.below(7);
        let inside = wild(random, left);
        let around = match random.below(12) {
            0 => 17,
            1 => 16,
            2 => 15,
            _ => random.below(4) as usize,
        };
        let value = format!("{}({inside}){}", "(".repeat(around), ")".repeat(around));
        lines.push(match random.below(4) {
            0 => format!("WORD {value}"),
            1 => format!("BYTE ({value}-{value})"),
            2 => format!("MOVL {value},R0\nBSS #0"),
            _ => format!("Q{i} EQU {value}\nBYTE (Q{i}/Q{i})\nBSS #1"),
        });
    }
    lines.push("END".into());
    text(random, &lines)
}

/// About as many names as there may be.
fn names(random: &mut Random) -> Vec<u8> {
    let many = if random.one_in(2) { 1_022 + random.below(5) } else { random.below(1_100) };
    let mut lines: Vec<String> = (0..many).map(|i| format!("N{i}")).collect();
    for _ in 0..random.below(4) {
        let (name, at) = (random.below(many + 2), random.below(lines.len() as u64 + 1) as usize);
        let line = match random.below(5) {
            0 => format!("N{name} BSS #0"),
            1 => format!("ORG N{name}\nORG #0"),
            2 => format!("Z{} EQU N{name}", random.below(2)),
            _ => format!("WORD N{name}"),
        };
        lines.insert(at, line);
    }
    lines.push("END".into());
    lines.join("\n").into_bytes()
}

/// The sources of the repository.
fn real() -> &'static [Vec<u8>] {
    static REAL: OnceLock<Vec<Vec<u8>>> = OnceLock::new();
    REAL.get_or_init(|| {
        let cases = case::all().into_iter().map(|case| case.source);
        cases.chain(source_case::all().into_iter().map(|case| case.source)).collect()
    })
}

/// Tokens in no order, or bytes of no plan, or none.
fn junk(random: &mut Random) -> Vec<u8> {
    if random.one_in(40) {
        return Vec::new();
    }
    if random.one_in(4) {
        let any = random.one_in(2);
        let byte =
            |random: &mut Random| if any { random.byte() } else { NEARBY[random.below(NEARBY.len() as u64) as usize] };
        return (0..random.below(200)).map(|_| byte(random)).collect();
    }
    let vocabulary = all();
    let mut text = Vec::new();
    for _ in 0..random.below(30) {
        let token = match random.below(9) {
            0 | 1 => one(random, &vocabulary).to_string(),
            2 => format!("N{}", random.below(3)),
            3 => format!("#{}", random.below(300)),
            4 => format!("${:X}", random.below(300)),
            5 => "\n".into(),
            6 => ",".into(),
            _ => ["(", ")", "+", "-", "*", "/", ".B", ".W", ";", "\r\n", "END\n"][random.below(11) as usize].into(),
        };
        text.extend(token.bytes());
        if random.one_in(2) {
            text.push(b' ');
        }
    }
    if random.one_in(2) {
        text.extend(b"\nEND");
    }
    text
}

/// The input of a kind and a seed.
pub fn input(kind: Kind, seed: u64) -> Input {
    let random = &mut Random::new(seed.wrapping_mul(0x9E37_79B9_7F4A_7C15) ^ kind as u64);
    let whole = |random: &mut Random| {
        let lines = lawful(random);
        text(random, &lines)
    };
    let source = match kind {
        Kind::Lawful => whole(random),
        Kind::Crafted => crafted(random),
        Kind::Damaged => {
            let source = whole(random);
            damage(random, source)
        }
        Kind::Deep => deep(random),
        Kind::Names => names(random),
        Kind::Real => {
            let source = real()[random.below(real().len() as u64) as usize].clone();
            if random.one_in(8) {
                source
            } else {
                damage(random, source)
            }
        }
        Kind::Junk => junk(random),
    };
    Input { memory: memory(random), source }
}
