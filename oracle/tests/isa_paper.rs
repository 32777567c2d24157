//! The worked examples of 003's chapters 6, 8, 10 and 11 as programs, with 01's corrections where the two differ.

use oracle::alu::{C, N, V, Z};
use oracle::assemble::{assemble, Assembled};
use oracle::machine::*;

const FLAGS: u16 = C | Z | N | V;

struct Done {
    m: Machine,
    memory: Vec<u8>,
    program: Assembled,
}

impl Done {
    fn flags(&self) -> u16 {
        self.m.psw & FLAGS
    }

    fn word(&self, label: &str) -> u16 {
        word_at(&self.memory, self.program.names[label] as u16)
    }
}

/// Runs a program from its label START, at priority 0 with SP #0800, until it reaches its label DONE.
fn run_to_done(source: &str, prepare: impl Fn(&mut Machine, &mut [u8])) -> Done {
    let program = assemble(&format!("{source}\n END"));
    let mut memory = program.memory();
    let mut m = Machine::default();
    m.regs[PC] = program.names["START"] as u16;
    m.regs[SP] = 0x0800;
    prepare(&mut m, &mut memory);
    for _ in 0..10_000 {
        if i32::from(m.regs[PC]) == program.names["DONE"] {
            return Done { m, memory, program };
        }
        m.step(&mut memory, &[]).expect("a step");
    }
    panic!("did not end");
}

fn done(source: &str) -> Done {
    run_to_done(source, |_, _| ())
}

// ---- chapter 6

#[test]
fn register_initialization() {
    let d = done(
        "
        ORG $1000
ARRAY   BSS #16
        ORG $2000
START   MOVL $10,R0
        MOVH $20,R0
        MOVLS $FF,R4
        MOVLZ #0,R3
        MOVL ARRAY,R1
        MOVH ARRAY,R1
DONE
",
    );
    assert_eq!((d.m.regs[0], d.m.regs[1], d.m.regs[3], d.m.regs[4]), (0x2010, 0x1000, 0, 0xFFFF));
}

#[test]
fn direct_addressing() {
    let d = done(
        "
        ORG $1000
DATA1   WORD $1234
DATA2   BSS #2
        ORG $2000
START   MOVL DATA1,R0
        MOVH DATA1,R0
        MOVL DATA2,R1
        MOVH DATA2,R1
        LD R0,R2
        ST R2,R1
DONE
",
    );
    assert_eq!((d.word("DATA1"), d.word("DATA2")), (0x1234, 0x1234));
}

/// 003 leaves the index at #1001 and loads the word there, which is a fault since 02, §6: here it goes back to #1000.
#[test]
fn indexed_and_relative_addressing() {
    let d = done(
        "
        ORG $1000
DATA1   BSS $2
        ORG $2000
START   MOVL DATA1,R0
        MOVH DATA1,R0
        MOVLZ $F0,R1
        ST.B R1,R0+
        MOVLZ $0F,R1
        ST.B R1,R0-
        LD.W R0,R2
DONE
",
    );
    assert_eq!((d.m.regs[0], d.m.regs[2]), (0x1000, 0x0FF0));
    let d = done(
        "
        ORG $1000
DATA1   BSS $2
        ORG $2000
START   MOVL DATA1,R0
        MOVH DATA1,R0
        MOVLZ $F0,R1
        STR.B R1,R0,$0
        MOVLZ $0F,R1
        STR.B R1,R0,$1
        LDR.W R0,$0,R2
DONE
",
    );
    assert_eq!(d.m.regs[2], 0x0FF0);
}

#[test]
fn ten_words_copied() {
    let d = run_to_done(
        "
        ORG $100
AR1     BSS #20
AR2     BSS #20
        ORG $1000
START   MOVL AR1,R2
        MOVH AR1,R2
        MOVL AR2,R3
        MOVH AR2,R3
        MOVLZ #10,R0
LOOP    LD R2+,R1
        ST R1,R3+
        SUB #1,R0
        BNZ LOOP
DONE
",
        |_, memory| (0..20).for_each(|i| memory[0x100 + i] = 7 * i as u8 + 1),
    );
    assert_eq!(d.memory[0x100..0x114], d.memory[0x114..0x128]);
    assert_eq!((d.m.regs[2], d.m.regs[3], d.m.regs[0]), (0x114, 0x128, 0));
}

#[test]
fn bytes_of_a_string_counted() {
    let d = run_to_done(
        "
NUL     EQU $0
        ORG $200
STRG    BSS #80
        ORG $1000
START   MOVL STRG,R1
        MOVH STRG,R1
        MOVLZ #0,R0
LOOP    LD.B R1+,R2
        CMP.B NUL,R2
        BZ DONE
        ADD #1,R0
        BRA LOOP
DONE
",
        |_, memory| memory[0x200..0x205].copy_from_slice(b"hello"),
    );
    assert_eq!((d.m.regs[0], d.m.regs[1]), (5, 0x206));
}

#[test]
fn push_and_pull() {
    let d = run_to_done(
        "
        ORG $1000
START   ST R2,-SP
        MOVLZ #0,R2
        LD SP+,R2
DONE
",
        |m, _| {
            m.regs[SP] = 0xFFC0;
            m.regs[2] = 0xBEEF;
        },
    );
    assert_eq!((d.m.regs[2], d.m.regs[SP], word_at(&d.memory, 0xFFBE)), (0xBEEF, 0xFFC0, 0xBEEF));
}

#[test]
fn byte_addition_keeps_the_high_byte() {
    let d = done(" ORG $1000\nSTART MOVLS #-1,R0\n MOVLZ #2,R1\n ADD.B R1,R0\nDONE");
    assert_eq!((d.m.regs[0], d.flags()), (0xFF01, C));
}

#[test]
fn a_carry_into_the_high_word() {
    let d = done(
        "
        ORG $80
LOWORD  WORD $FFFF
HOWORD  WORD $0
        ORG $1000
START   MOVLZ LOWORD,R0
        LD R0,R1
        LDR R0,$2,R2
        ADD $2,R1
        ADDC $0,R2
DONE
",
    );
    assert_eq!((d.m.regs[1], d.m.regs[2], d.flags() & C), (1, 1, 0));
}

#[test]
fn subtractions() {
    for (source, result, flags) in [
        ("SUB $0,R0", 1, C),
        ("SUB $2,R0", 0xFFFF, N),
        // 003 prints N=1 beside "non-negative": the result is 2.
        ("SUB #-1,R0", 2, 0),
        ("SUB $1,R0", 0, C | Z),
    ] {
        let d = done(&format!(" ORG $1000\nSTART MOVLZ $1,R0\n {source}\nDONE"));
        assert_eq!((d.m.regs[0], d.flags()), (result, flags), "{source}");
    }
}

#[test]
fn a_decimal_counter() {
    for (from, to, flags) in [(0x12, 0x13, 0), (0x19, 0x20, 0), (0x99, 0x00, C | Z)] {
        let d = run_to_done(" ORG $1000\nSTART DADD.B $1,R2\nDONE", |m, _| m.regs[2] = from);
        assert_eq!((d.m.regs[2], d.flags()), (to, flags));
    }
}

#[test]
fn exchanges() {
    let d =
        run_to_done(" ORG $1000\nSTART SWAP R2,R3\n MOV.B R3,R0\n SWPB R3\n MOV.B R3,R1\n SWPB R3\nDONE", |m, _| {
            m.regs = [0x1111, 0x2222, 0x3344, 0x5566, 0, 0, 0x0800, 0x1000];
        });
    assert_eq!(d.m.regs[..4], [0x1144, 0x2233, 0x5566, 0x3344]);
    assert_eq!(d.flags(), 0);
}

#[test]
fn shifts_and_rotations() {
    let d = done(" ORG $1000\nSTART MOVLZ #16,R0\n COMP R0\n ADD $1,R0\n SRA R0\n SRA R0\n SRA R0\n SRA R0\nDONE");
    assert_eq!(d.m.regs[0], 0xFFFF);
    // Bits of R0 counted: seventeen turns bring R0 back.
    let turn = " RRC R0\n ADDC $0,R1\n".repeat(16);
    let d = run_to_done(&format!(" ORG $1000\nSTART CLRCC C\n{turn}DONE"), |m, _| m.regs[0] = 0xB00F);
    assert_eq!(d.m.regs[1], 7);
    let d =
        run_to_done(&format!(" ORG $1000\nSTART CLRCC C\n{}DONE", " RRC R0\n".repeat(17)), |m, _| m.regs[0] = 0xB00F);
    assert_eq!((d.m.regs[0], d.flags() & C), (0xB00F, 0));
}

#[test]
fn byte_exchange_and_sign_extension() {
    let d = done(
        "
        ORG $80
DATA    BYTE $41
        BYTE $42
        ORG $1000
START   MOVLZ DATA,R0
        LD R0,R0
        SWPB R0
        MOVLS $0F,R1
        SXT R1
        MOVLZ $80,R2
        SXT R2
DONE
",
    );
    assert_eq!(d.m.regs[..3], [0x4142, 0x000F, 0xFF80]);
}

#[test]
fn nested_subroutines() {
    let d = done(
        "
        ORG $1000
START   BL SUBR
        ADD #4,R0
        BRA DONE
SUBR    ST LR,-SP
        BL SUBR2
        ADD #2,R0
        LD SP+,PC
SUBR2   ADD #1,R0
        MOV LR,PC
DONE
",
    );
    assert_eq!((d.m.regs[0], d.m.regs[SP]), (7, 0x0800));
}

#[test]
fn if_then_else() {
    let branches = "
        ORG $1000
START   CMP #8,R0
        BNE ELSE
        MOVLZ #1,R1
        BRA ENDIF
ELSE    MOVLZ #2,R1
ENDIF   MOVLZ #1,R2
DONE
";
    let one_cex = "
        ORG $1000
START   CMP #8,R0
        CEX EQ,#1,#1
        MOVLZ #1,R1
        MOVLZ #2,R1
        MOVLZ #1,R2
DONE
";
    let cex_and_branch = "
        ORG $1000
START   CMP #8,R0
        CEX NE,#1,#0
        BRA ELSE
        MOVLZ #1,R1
        BRA ENDIF
ELSE    MOVLZ #2,R1
ENDIF   MOVLZ #1,R2
DONE
";
    for source in [branches, one_cex, cex_and_branch] {
        for (data, alpha) in [(8, 1), (9, 2), (0, 2)] {
            let d = run_to_done(source, |m, _| m.regs[0] = data);
            assert_eq!(d.m.regs[..3], [data, alpha, 1]);
        }
    }
}

#[test]
fn a_conditional_operator() {
    for (alpha, gamma) in [(32, 12), (31, 8), (40, 12)] {
        let d = run_to_done(
            "
        ORG $20
ALPHA   WORD $0
BETA    WORD $2
GAMMA   WORD $A
        ORG $1000
START   MOVLZ BETA,R0
        LD R0,R1
        MOVLZ GAMMA,R0
        LD R0,R2
        MOVLZ ALPHA,R0
        LD R0,R3
        CMP #32,R3
        CEX GE,#1,#1
        ADD R1,R2
        SUB R1,R2
        ST R2,R0
DONE
",
            |_, memory| memory[0x20] = alpha,
        );
        assert_eq!(d.word("ALPHA"), gamma);
    }
}

#[test]
fn success_in_the_carry() {
    for (r0, carry) in [(4, C), (3, 0)] {
        // 003 writes #3, which is no constant: 4 stands in.
        let d =
            run_to_done(" ORG $1000\nSTART CMP #4,R0\n CEX EQ,$1,$1\n SETCC C\n CLRCC C\nDONE", |m, _| m.regs[0] = r0);
        assert_eq!(d.flags() & C, carry);
    }
}

// ---- chapter 8

#[test]
fn double_words_added_and_subtracted() {
    let add = "
        ORG $100
DW0     BSS #4
DW1     BSS #4
        ORG $1000
START   MOVL DW0,R0
        MOVH DW0,R0
        MOVL DW1,R1
        MOVH DW1,R1
        BL DWADD
        BRA DONE
DWADD   LD R0,R2
        LD R1+,R3
        ADD.W R3,R2
        ST R2,R0+
        LD R0,R2
        LD R1,R3
        ADDC.W R3,R2
        ST R2,R0
        MOV LR,PC
DONE
";
    // 003 subtracts the high words into R3 and stores R2: the operands are meant the other way round.
    let sub = add.replace("ADDC.W R3,R2", "SUBC R3,R2").replace("ADD.W R3,R2", "SUB R3,R2");
    for (a, b) in [(1u32, 2u32), (0xFFFF, 1), (0x1234_5678, 0x9ABC_DEF0), (u32::MAX, u32::MAX), (0, 0x8000_0000)] {
        for (source, expected) in [(add, a.wrapping_add(b)), (&sub[..], a.wrapping_sub(b))] {
            let d = run_to_done(source, |_, memory| {
                memory[0x100..0x104].copy_from_slice(&a.to_le_bytes());
                memory[0x104..0x108].copy_from_slice(&b.to_le_bytes());
            });
            assert_eq!(d.memory[0x100..0x104], expected.to_le_bytes());
        }
    }
}

#[test]
fn the_first_addition_of_chapter_8() {
    let d = done(" ORG $1000\nSTART MOVLZ #-1,R0\n MOVLZ #-8,R1\n ADD.B R1,R0\nDONE");
    assert_eq!((d.m.regs[0], d.flags()), (0x00F7, C | N));
}

// ---- chapter 10

#[test]
fn polled_clock_and_screen() {
    // The screen's events follow its stores; the clock's come every 40 steps.
    let program = assemble(
        "
DEVREGS EQU #0
CLKCSR  EQU #0
SCRCSR  EQU #4
SCRDR   EQU #5
ASCA    EQU $41
        ORG $1000
START   MOVLZ DEVREGS,R0
        MOVLZ ASCA,R3
INLOOP  LDR.B R0,CLKCSR,R1
        BIT #4,R1
        BEQ INLOOP
        STR.B R3,R0,SCRDR
OUTLOOP LDR.B R0,SCRCSR,R1
        BIT $4,R1
        BEQ OUTLOOP
        ADD.B $1,R3
        MOVLZ $7F,R4
        AND.B R4,R3
        BRA INLOOP
        END
",
    );
    let mut memory = program.memory();
    memory[0] = 0x12;
    memory[4] = 0x10;
    let mut m = Machine::default();
    m.regs[PC] = 0x1000;
    let events: Vec<Event> = (1..4)
        .flat_map(|i| [Event { step: 40 * i, device: 0, data: 0 }, Event { step: 40 * i + 20, device: 2, data: 0 }])
        .collect();
    let mut shown = Vec::new();
    for _ in 0..200 {
        let trace = m.step(&mut memory, &events).unwrap();
        if trace.written.contains(&5) {
            shown.push(memory[5]);
        }
    }
    assert_eq!(shown, b"ABC");
    assert_eq!((m.regs[3], memory[0] & 0x0C), (u16::from(b'D'), 0));
}

// ---- chapter 11

#[test]
fn clock_and_screen_interrupts() {
    let program = assemble(
        "
CLKCSR  EQU $0
CLKDATA EQU $1
SCRCSR  EQU $4
SCRDATA EQU $5
INTRENA EQU #0
ASCA    EQU $41
VECTORS EQU $FFC0
CLKINT  EQU #16
PSW4    EQU $0080
PSW5    EQU $00A0
PSW7    EQU $00E0
APPPRI  EQU $3
        ORG $0080
CH      BYTE ASCA
        ORG $800
RESET   BRA RESET
        ORG $1000
START   MOVL VECTORS,SP
        MOVH VECTORS,SP
        MOVLZ CLKCSR,R0
        LD.B R0,R1
        BIS INTRENA,R1
        ST.B R1,R0
        MOVLZ CLKINT,R1
        STR.B R1,R0,CLKDATA
        LDR.B R0,SCRCSR,R1
        BIS INTRENA,R1
        STR.B R1,R0,SCRCSR
        MOVLZ CH,R1
        LD.B R1,R1
        STR.B R1,R0,SCRDATA
        SETPRI APPPRI
WAIT    BL DO
        BRA WAIT
DO      SETCC S
        MOV LR,PC
        ORG $2000
CLKISR  ST R0,-SP
        ST R1,-SP
        MOVLZ CLKCSR,R0
        LD.B R0,R1
        MOVLZ CH,R0
        LD.B R0,R1
        ADD.B $1,R1
        ST.B R1,R0
        LD SP+,R1
        LD SP+,R0
        MOV LR,PC
SCRISR  ST R0,-SP
        ST R1,-SP
        MOVLZ CH,R0
        LD.B R0,R1
        MOVLZ CLKCSR,R0
        STR.B R1,R0,SCRDATA
        LD SP+,R1
        LD SP+,R0
        MOV LR,PC
        ORG VECTORS
        WORD PSW5
        WORD CLKISR
        WORD PSW7
        WORD RESET
        WORD PSW4
        WORD SCRISR
        END
",
    );
    let mut memory = program.memory();
    // 01: a store changes IE and ENA only, so both devices start enabled, the clock as input.
    memory[0] = 0x12;
    memory[4] = 0x10;
    let mut m = Machine { psw: 0x60E0, ..Machine::default() };
    m.regs[PC] = 0x1000;
    m.regs[0] = 0x1234;
    let at = |step, device| Event { step, device, data: 0 };
    // A clock tick alone; a screen alone; the clock while the screen's handler runs (nested); the screen while the
    // clock's handler runs (chained).
    let events = [at(50, 0), at(100, 2), at(150, 2), at(153, 0), at(200, 0), at(203, 2)];
    let mut acts = Vec::new();
    let mut shown = Vec::new();
    let mut depth: i32 = 0;
    let mut deepest = 0;
    for _ in 0..300 {
        let trace = m.step(&mut memory, &events).unwrap();
        match trace.act {
            Act::Accept(_) => depth += 1,
            Act::Pull => depth -= 1,
            _ => {}
        }
        deepest = deepest.max(depth);
        if matches!(trace.act, Act::Accept(_) | Act::Chain(_) | Act::Pull) {
            acts.push(trace.act);
        }
        if trace.written.contains(&5) {
            shown.push(memory[5]);
        }
    }
    use Act::{Accept, Chain, Pull};
    let expected = [Accept(0), Pull, Accept(2), Pull, Accept(2), Accept(0), Pull, Pull, Accept(0), Chain(2), Pull];
    assert_eq!(acts, expected);
    assert_eq!((shown, deepest, depth), (b"ABCD".to_vec(), 2, 0));
    assert_eq!((memory[0x80], m.regs[SP], current(m.psw)), (b'D', 0xFFC0, 3));
    // Asleep again, waiting.
    assert_eq!(m.step(&mut memory, &events).unwrap().act, Act::Sleep);
}
