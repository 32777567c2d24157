//! What a line of 02 §12 says: its tokens, and the statement that they fit, where they fit one.

use super::words::{index, reserved, ALU, BRANCHES, CONDITIONS, MOVES, REGISTERS, UNARY};
use crate::isa::Instr;

/// "at most 16 deep".
pub const DEEPEST: usize = 16;

/// A token. A word carries its suffix; a number is none where it leaves 32 signed bits.
#[derive(Clone, Debug, PartialEq, Eq)]
enum Token {
    Word(String, Option<u8>),
    Number(Option<i32>),
    Sign(u8),
}

use Token::{Number, Sign, Word};

/// A name, a number, or an expression in brackets.
#[derive(Clone, Debug, PartialEq, Eq)]
pub enum Factor {
    Number(Option<i32>),
    Name(String),
    Bracket(Vec<Term>),
}

/// The sign before a part and the part: the first part of a list has `+`, or `*`.
pub type Term = (u8, Vec<(u8, Factor)>);

/// The source of an instruction of the arithmetic.
#[derive(Clone, Debug, PartialEq, Eq)]
pub enum Source {
    Register(u8),
    Constant(Factor),
}

#[derive(Clone, Debug, PartialEq, Eq)]
pub enum Statement {
    Org(Factor),
    Equ(Factor),
    Bss(Factor),
    Byte(Factor),
    Word(Factor),
    End,
    /// An instruction with no value in it.
    Plain(Instr),
    Bl(Factor),
    Branch {
        cond: u8,
        target: Factor,
    },
    Alu {
        op: u8,
        wb: u8,
        source: Source,
        dst: u8,
    },
    SetPri(Factor),
    Svc(Factor),
    Cex {
        cond: u8,
        if_true: Factor,
        if_false: Factor,
    },
    MovImm {
        op: u8,
        value: Factor,
        dst: u8,
    },
    Ldr {
        wb: u8,
        src: u8,
        offset: Factor,
        dst: u8,
    },
    Str {
        wb: u8,
        src: u8,
        dst: u8,
        offset: Factor,
    },
}

impl Statement {
    /// The values that it has.
    pub fn values(&self) -> Vec<&Factor> {
        use Statement::*;
        match self {
            End | Plain(_) | Alu { source: Source::Register(_), .. } => vec![],
            Org(v) | Equ(v) | Bss(v) | Byte(v) | Word(v) | Bl(v) | SetPri(v) | Svc(v) => vec![v],
            Alu { source: Source::Constant(v), .. } => vec![v],
            Branch { target: v, .. } | MovImm { value: v, .. } | Ldr { offset: v, .. } | Str { offset: v, .. } => {
                vec![v]
            }
            Cex { if_true, if_false, .. } => vec![if_true, if_false],
        }
    }
}

impl Factor {
    /// The names in it.
    pub fn names(&self) -> Vec<&str> {
        match self {
            Factor::Number(_) => vec![],
            Factor::Name(name) => vec![name],
            Factor::Bracket(terms) => terms.iter().flat_map(|(_, parts)| parts).flat_map(|(_, f)| f.names()).collect(),
        }
    }

    /// How many brackets lie in one another.
    pub fn depth(&self) -> usize {
        match self {
            Factor::Bracket(terms) => {
                1 + terms.iter().flat_map(|(_, parts)| parts).map(|(_, f)| f.depth()).max().unwrap_or(0)
            }
            _ => 0,
        }
    }
}

/// "at most a name, a statement and a comment".
#[derive(Clone, Debug, Default, PartialEq, Eq)]
pub struct Line {
    pub name: Option<String>,
    pub statement: Option<Statement>,
}

// ---- tokens

/// How many bytes at the start are of a kind.
fn run(bytes: &[u8], kind: impl Fn(u8) -> bool) -> usize {
    bytes.iter().take_while(|&&b| kind(b)).count()
}

fn letter(b: u8) -> bool {
    b.is_ascii_uppercase()
}

fn letter_or_digit(b: u8) -> bool {
    letter(b) || b.is_ascii_digit()
}

/// The number of some digits, none where it leaves 32 signed bits, however many digits there are.
fn number(digits: &[u8], base: i64, negative: bool) -> Option<i32> {
    let value = |b: u8| i64::from(char::from(b).to_digit(16).expect("a digit"));
    let whole = digits.iter().fold(0i64, |sum, &b| (sum * base + value(b)).min(1 << 40));
    i32::try_from(if negative { -whole } else { whole }).ok()
}

/// The first token of some bytes that do not begin with a blank, and its length.
fn token(bytes: &[u8]) -> Option<(Token, usize)> {
    match bytes[0] {
        b if letter(b) => word(bytes),
        b'#' => {
            let negative = bytes.get(1) == Some(&b'-');
            let from = 1 + usize::from(negative);
            let length = run(&bytes[from..], |b| b.is_ascii_digit());
            (length > 0).then(|| (Number(number(&bytes[from..from + length], 10, negative)), from + length))
        }
        b'$' => {
            let length = run(&bytes[1..], |b| b.is_ascii_digit() || (b'A'..=b'F').contains(&b));
            (length > 0).then(|| (Number(number(&bytes[1..1 + length], 16, false)), 1 + length))
        }
        b @ (b',' | b'(' | b')' | b'+' | b'-' | b'*' | b'/') => Some((Sign(b), 1)),
        _ => None,
    }
}

/// A word with its suffix, `.B` or `.W`, behind which no letter and no digit stands.
fn word(bytes: &[u8]) -> Option<(Token, usize)> {
    let length = run(bytes, letter_or_digit);
    let text = String::from_utf8_lossy(&bytes[..length]).into_owned();
    if bytes.get(length) != Some(&b'.') {
        return Some((Word(text, None), length));
    }
    let wb = match bytes.get(length + 1) {
        Some(b'B') => 1,
        Some(b'W') => 0,
        _ => return None,
    };
    let ends = !bytes.get(length + 2).is_some_and(|&b| letter_or_digit(b));
    ends.then_some((Word(text, Some(wb)), length + 2))
}

/// The tokens of a line without its ending, up to the comment.
fn tokens(line: &[u8]) -> Option<Vec<Token>> {
    let (mut at, mut all) = (0, Vec::new());
    loop {
        at += run(&line[at..], |b| b == b' ' || b == b'\t');
        if at == line.len() || line[at] == b';' {
            return Some(all);
        }
        let (token, length) = token(&line[at..])?;
        all.push(token);
        at += length;
    }
}

// ---- statements

/// The tokens that are still to be read.
struct Rest<'a>(&'a [Token]);

impl Rest<'_> {
    fn next(&mut self) -> Option<Token> {
        let (first, rest) = self.0.split_first()?;
        self.0 = rest;
        Some(first.clone())
    }

    /// Takes a sign, where it is the next token.
    fn take(&mut self, sign: u8) -> Option<()> {
        self.0 = self.0.strip_prefix(&[Sign(sign)])?;
        Some(())
    }

    /// Takes one of two signs and gives it.
    fn either(&mut self, first: u8, second: u8) -> Option<u8> {
        let taken = [first, second].into_iter().find(|&sign| self.0.first() == Some(&Sign(sign)))?;
        self.take(taken)?;
        Some(taken)
    }

    /// A word without a suffix.
    fn word(&mut self) -> Option<String> {
        match self.next()? {
            Word(text, None) => Some(text),
            _ => None,
        }
    }

    fn register(&mut self) -> Option<u8> {
        index(&REGISTERS, &self.word()?)
    }

    fn comma_register(&mut self) -> Option<u8> {
        self.take(b',')?;
        self.register()
    }

    fn comma_value(&mut self) -> Option<Factor> {
        self.take(b',')?;
        self.value()
    }

    fn value(&mut self) -> Option<Factor> {
        self.factor(DEEPEST)
    }

    /// A number, a name, or an expression in brackets, of which so many may still be opened.
    fn factor(&mut self, left: usize) -> Option<Factor> {
        match self.next()? {
            Number(value) => Some(Factor::Number(value)),
            Word(name, None) if !reserved(&name) => Some(Factor::Name(name)),
            Sign(b'(') => {
                let inside = self.expression(left.checked_sub(1)?)?;
                self.take(b')')?;
                Some(Factor::Bracket(inside))
            }
            _ => None,
        }
    }

    fn expression(&mut self, left: usize) -> Option<Vec<Term>> {
        let mut terms = vec![(b'+', self.term(left)?)];
        while let Some(sign) = self.either(b'+', b'-') {
            terms.push((sign, self.term(left)?));
        }
        Some(terms)
    }

    fn term(&mut self, left: usize) -> Option<Vec<(u8, Factor)>> {
        let mut factors = vec![(b'*', self.factor(left)?)];
        while let Some(sign) = self.either(b'*', b'/') {
            factors.push((sign, self.factor(left)?));
        }
        Some(factors)
    }

    /// `R`, `+R`, `-R`, `R+` or `R-`: PRPO, DEC, INC and the register.
    fn indexed(&mut self) -> Option<(u8, u8, u8, u8)> {
        let before = self.either(b'+', b'-');
        let register = self.register()?;
        let after = if before.is_none() { self.either(b'+', b'-') } else { None };
        let sign = before.or(after);
        Some((before.is_some().into(), (sign == Some(b'-')).into(), (sign == Some(b'+')).into(), register))
    }

    /// One to five of the letters V, S, N, Z, C, each once.
    fn flags(&mut self) -> Option<u8> {
        self.word()?.chars().try_fold(0, |sum, c| {
            let flag = 16 >> "VSNZC".find(c)?;
            (sum & flag == 0).then_some(sum | flag)
        })
    }

    /// The statement of a word and its suffix, up to its last operand.
    fn statement(&mut self, word: &str, suffix: Option<u8>) -> Option<Statement> {
        // No suffix is word.
        let wb = suffix.unwrap_or(0);
        if let Some(op) = index(&ALU, word) {
            let source = self.source()?;
            return Some(Statement::Alu { op, wb, source, dst: self.comma_register()? });
        }
        if let Some(op) = index(&UNARY, word) {
            return Some(Statement::Plain(Instr::Unary { op, wb, dst: self.register()? }));
        }
        match word {
            "MOV" => Some(Statement::Plain(Instr::Mov { wb, src: self.register()?, dst: self.comma_register()? })),
            "LD" => {
                let (prpo, dec, inc, src) = self.indexed()?;
                Some(Statement::Plain(Instr::Ld { prpo, dec, inc, wb, src, dst: self.comma_register()? }))
            }
            "ST" => {
                let src = self.register()?;
                self.take(b',')?;
                let (prpo, dec, inc, dst) = self.indexed()?;
                Some(Statement::Plain(Instr::St { prpo, dec, inc, wb, src, dst }))
            }
            "LDR" => {
                let (src, offset) = (self.register()?, self.comma_value()?);
                Some(Statement::Ldr { wb, src, offset, dst: self.comma_register()? })
            }
            "STR" => {
                let (src, dst) = (self.register()?, self.comma_register()?);
                Some(Statement::Str { wb, src, dst, offset: self.comma_value()? })
            }
            _ if suffix.is_some() => None,
            _ => self.without_suffix(word),
        }
    }

    fn source(&mut self) -> Option<Source> {
        match self.0.first()? {
            Word(word, None) if index(&REGISTERS, word).is_some() => Some(Source::Register(self.register()?)),
            _ => Some(Source::Constant(self.value()?)),
        }
    }

    /// The statements that have no suffix.
    fn without_suffix(&mut self, word: &str) -> Option<Statement> {
        if let Some(cond) = index(&BRANCHES, word) {
            return Some(Statement::Branch { cond, target: self.value()? });
        }
        if let Some(op) = index(&MOVES, word) {
            return Some(Statement::MovImm { op, value: self.value()?, dst: self.comma_register()? });
        }
        match word {
            "ORG" => Some(Statement::Org(self.value()?)),
            "EQU" => Some(Statement::Equ(self.value()?)),
            "BSS" => Some(Statement::Bss(self.value()?)),
            "BYTE" => Some(Statement::Byte(self.value()?)),
            "WORD" => Some(Statement::Word(self.value()?)),
            "END" => Some(Statement::End),
            "BL" => Some(Statement::Bl(self.value()?)),
            "SETPRI" => Some(Statement::SetPri(self.value()?)),
            "SVC" => Some(Statement::Svc(self.value()?)),
            "SETCC" => Some(Statement::Plain(Instr::SetCc { flags: self.flags()? })),
            "CLRCC" => Some(Statement::Plain(Instr::ClrCc { flags: self.flags()? })),
            "SWPB" => Some(Statement::Plain(Instr::Swpb { dst: self.register()?, ignored: 0 })),
            "SXT" => Some(Statement::Plain(Instr::Sxt { dst: self.register()?, ignored: 0 })),
            "SWAP" => {
                let (src, dst) = (self.register()?, self.comma_register()?);
                Some(Statement::Plain(Instr::Swap { src, dst, ignored: 0 }))
            }
            "CEX" => {
                let cond = index(&CONDITIONS, &self.word()?)?;
                Some(Statement::Cex { cond, if_true: self.comma_value()?, if_false: self.comma_value()? })
            }
            _ => None,
        }
    }
}

/// What a line without its ending says, where it fits a statement.
pub fn line(text: &[u8]) -> Option<Line> {
    let tokens = tokens(text)?;
    let mut rest = Rest(&tokens);
    let mut line = Line::default();
    if let Some(Word(name, None)) = tokens.first() {
        if !reserved(name) {
            line.name = rest.word();
        }
    }
    if let Some(token) = rest.next() {
        let Word(word, suffix) = token else { return None };
        line.statement = Some(rest.statement(&word, suffix)?);
    }
    let named = line.name.is_some() || !matches!(line.statement, Some(Statement::Equ(_)));
    (rest.0.is_empty() && named).then_some(line)
}
