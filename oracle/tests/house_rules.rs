//! The oracle held to 01: its sheet, its cases, its plausible misreadings, and each sentence of its rules that a small
//! program can show.

use oracle::alu::{C, FLT, N, SLP, V, Z};
use oracle::assemble::assemble;
use oracle::isa::Instr;
use oracle::machine::*;

/// A machine at #1000 with SP #0800 at priority `priority`, previous 0, and the program in memory.
fn start(source: &str, priority: u16) -> (Machine, Vec<u8>) {
    let mut m = Machine { psw: priority << 5, ..Machine::default() };
    m.regs[SP] = 0x0800;
    m.regs[PC] = 0x1000;
    let memory = assemble(&format!(" ORG $1000\n{source}\n END")).memory();
    (m, memory)
}

/// Puts the PSW and entry point of a vector.
fn set_vector(memory: &mut [u8], v: usize, psw: u16, entry: u16) {
    let at = 0xFFC0 + 4 * v;
    memory[at..at + 2].copy_from_slice(&psw.to_le_bytes());
    memory[at + 2..at + 4].copy_from_slice(&entry.to_le_bytes());
}

fn act(m: &mut Machine, memory: &mut [u8], events: &[Event]) -> Act {
    m.step(memory, events).expect("a step").act
}

fn steps(m: &mut Machine, memory: &mut [u8], n: usize) {
    for _ in 0..n {
        m.step(memory, &[]);
    }
}

fn event(step: u32, device: u8, data: u8) -> Event {
    Event { step, device, data }
}

/// The word pushed `n`th by the newest entry (0 is PC), with the stack as the entry left it.
fn pushed(m: &Machine, memory: &[u8], n: u16) -> u16 {
    word_at(memory, m.regs[SP].wrapping_add(6 - 2 * n))
}

// ---- the sheet and the cases

#[test]
fn the_line_of_the_sheet() {
    let mut m = Machine { psw: 0x60E0, ..Machine::default() };
    m.regs[PC] = 0x0801;
    m.regs[SP] = 0x0800;
    let mut input = 1u32.to_le_bytes().to_vec();
    input.extend(m.to_record());
    input.extend(vec![0; MEMORY]);
    assert_eq!(sheet(&input).0, "0 1 0000 0000 0000 0000 0000 FFFF 07F8 0000 E100 00 00000000 1\n");
}

#[test]
fn entry_with_sp_0() {
    let (mut m, mut memory) = start("", 0);
    m.regs[SP] = 0;
    m.regs[PC] = 0x1001;
    m.regs[LR] = 0x1234;
    assert_eq!(act(&mut m, &mut memory, &[]), Act::Fault(9));
    assert_eq!(m.regs[SP], 0xFFF8);
    assert_eq!(word_at(&memory, 0xFFFE), 0x1001);
    assert_eq!(word_at(&memory, 0xFFFC), 0x1234);
}

#[test]
fn branch_to_itself() {
    let (mut m, mut memory) = start("HERE BRA HERE", 0);
    assert_eq!(word_at(&memory, 0x1000), 0x3FFF);
    assert_eq!(act(&mut m, &mut memory, &[]), Act::Execute(Instr::Branch { cond: 7, offset: -1 }));
    assert_eq!(m.regs[PC], 0x1000);
}

#[test]
fn branches_wrap_around_zero() {
    let (mut m, mut memory) = start("", 0);
    m.regs[PC] = 0;
    memory[..2].copy_from_slice(&0x3FFEu16.to_le_bytes());
    steps(&mut m, &mut memory, 1);
    assert_eq!(m.regs[PC], 0xFFFE);
    memory[0xFFFE..].copy_from_slice(&0x3C01u16.to_le_bytes());
    steps(&mut m, &mut memory, 1);
    assert_eq!(m.regs[PC], 2);
}

#[test]
fn word_accesses_at_odd_addresses() {
    for source in [" LD R0+,R1", " ST R1,-R0", " LDR R0,#0,R1", " STR R1,R0,#2", " LDR R2,#1,R1"] {
        let (mut m, mut memory) = start(source, 0);
        (m.regs[0], m.regs[2], m.cex) = (0x0101, 0x0200, 0x49);
        let mut expected = memory.clone();
        assert_eq!(act(&mut m, &mut memory, &[]), Act::Fault(9), "{source}");
        for (at, word) in [(0x7FE, 0x1002u16), (0x7FC, 0), (0x7FA, 0), (0x7F8, 0x41)] {
            expected[at..at + 2].copy_from_slice(&word.to_le_bytes());
        }
        assert!(memory == expected, "{source}");
        assert_eq!(m.regs[..5], [0x0101, 0, 0x0200, 0, 0], "{source}");
    }
}

#[test]
fn words_at_even_places_from_odd_registers() {
    let (mut m, mut memory) = start(" LDR R0,#1,R1\n LD.B R0,R2", 0);
    m.regs[0] = 0x0101;
    memory[0x101..0x104].copy_from_slice(&[0x99, 0x34, 0x12]);
    steps(&mut m, &mut memory, 2);
    assert_eq!((m.regs[1], m.regs[2]), (0x1234, 0x0099));
}

#[test]
fn limits_of_a_run() {
    let (m, mut memory) = start("HERE BRA HERE", 0);
    let mut record = m.to_record();
    assert_eq!(run(&mut memory, 1_000_001, &mut record, &[], &mut []), Err(2));
    assert_eq!(run(&mut memory, 0, &mut record, &[], &mut []), Ok(Ran::default()));
    assert_eq!(record, m.to_record());
    let all = Ran { steps: 1_000_000, ..Ran::default() };
    assert_eq!(run(&mut memory, 1_000_000, &mut record, &[], &mut []), Ok(all));
    assert_eq!(Machine::from_record(&record), Machine { count: 1_000_000, ..m });
    let events = |n: u32| (0..n).flat_map(|i| event_record(event(i, 0, 0))).collect::<Vec<u8>>();
    assert_eq!(run(&mut memory, 1, &mut record, &events(4096), &mut []), Ok(Ran { steps: 1, ..Ran::default() }));
    assert_eq!(run(&mut memory, 1, &mut record, &events(4097), &mut []), Err(5));
}

// ---- plausible misreadings

#[test]
fn setpri_3_after_reset_leaves_both_3() {
    let (mut m, mut memory) = start(" SETPRI #3", 0);
    m.psw = 0x60E0;
    steps(&mut m, &mut memory, 1);
    assert_eq!(m.psw, 0x6060);
    assert_eq!((current(m.psw), previous(m.psw)), (3, 3));
}

#[test]
fn a_skipped_word_is_not_decoded() {
    let (mut m, mut memory) = start(" CEX FL,#1,#1\n WORD $4E00\n MOVLZ $07,R0", 0);
    assert!(matches!(act(&mut m, &mut memory, &[]), Act::Execute(_)));
    let trace = m.step(&mut memory, &[]).unwrap();
    assert_eq!((trace.act, trace.fetched), (Act::Skip, None));
    steps(&mut m, &mut memory, 1);
    assert_eq!((m.regs[0], m.cex, m.psw & FLT), (7, 0, 0));
}

#[test]
fn a_return_is_no_fault() {
    let (mut m, mut memory) = start("", 4);
    m.regs[PC] = 0xFFFF;
    for (i, value) in [0xFFFF, 0xFFFF, 0x2222, 0x1000].iter().enumerate() {
        memory[0x800 + 2 * i..0x802 + 2 * i].copy_from_slice(&u16::to_le_bytes(*value));
    }
    assert_eq!(act(&mut m, &mut memory, &[]), Act::Pull);
    assert_eq!((m.cex, m.psw, m.regs[LR], m.regs[PC], m.regs[SP]), (0x7F, 0xE1F7, 0x2222, 0x1000, 0x0808));
}

#[test]
fn asleep_at_ffff_is_no_return_and_awake_is() {
    let (mut m, mut memory) = start("", 0);
    m.regs[PC] = 0xFFFF;
    m.psw = SLP;
    assert_eq!(act(&mut m, &mut memory, &[]), Act::Sleep);
    m.psw = 0;
    assert_eq!(act(&mut m, &mut memory, &[]), Act::Pull);
}

// ---- the step, in order

#[test]
fn a_halted_machine_takes_no_step_and_no_event() {
    let (mut m, mut memory) = start(" MOVLZ $01,R0", 0);
    m.halted = true;
    memory[0] = 0x13;
    let (was, bytes) = (m, memory.clone());
    assert_eq!(m.step(&mut memory, &[event(0, 0, 9)]), None);
    assert_eq!((m, &memory), (was, &bytes));
    let mut record = m.to_record();
    assert_eq!(run(&mut memory, 0, &mut record, &[], &mut []), Ok(Ran { reason: 1, ..Ran::default() }));
    assert_eq!(run(&mut memory, 5, &mut record, &[], &mut []), Ok(Ran { reason: 1, ..Ran::default() }));
}

#[test]
fn events_of_the_count_are_applied_and_earlier_ones_passed_over() {
    let (mut m, mut memory) = start("HERE BRA HERE", 7);
    m.count = 5;
    memory[2] = 0x12;
    memory[4] = 0x16;
    let events = [event(4, 1, 0x44), event(5, 2, 0x55), event(5, 1, 0x56), event(6, 1, 0x66)];
    act(&mut m, &mut memory, &events);
    assert_eq!((&memory[2..6], m.lines), (&[0x16, 0x56, 0x1E, 0x55][..], Lines::default()));
    act(&mut m, &mut memory, &events);
    assert_eq!((memory[2], memory[3], m.count), (0x1E, 0x66, 7));
}

#[test]
fn a_line_raised_in_a_step_is_accepted_in_it() {
    let (mut m, mut memory) = start("HERE BRA HERE", 3);
    memory[4] = 0x11;
    set_vector(&mut memory, 2, 0x0080, 0x2000);
    assert_eq!(act(&mut m, &mut memory, &[event(0, 2, 0)]), Act::Accept(2));
    assert_eq!((m.lines, m.regs[PC], m.regs[LR], m.psw), (Lines::default(), 0x2000, 0xFFFF, 0x6080));
}

#[test]
fn lines_above_the_priority_only_best_first() {
    let (mut m, mut memory) = start("HERE BRA HERE", 4);
    m.lines = Lines::of(&[1, 2, 3]);
    for (v, priority) in [(1, 4u16), (2, 5), (3, 5)] {
        set_vector(&mut memory, v, priority << 5, 0x2000);
    }
    assert_eq!(act(&mut m, &mut memory, &[]), Act::Accept(2));
    m.psw = 4 << 5;
    assert_eq!(act(&mut m, &mut memory, &[]), Act::Accept(3));
    m.psw = 4 << 5;
    assert!(matches!(act(&mut m, &mut memory, &[]), Act::Execute(_) | Act::Fault(_)));
    assert_eq!(m.lines, Lines::of(&[1]));
}

#[test]
fn a_vector_of_priority_0_is_never_accepted() {
    let (mut m, mut memory) = start("HERE BRA HERE", 0);
    m.lines = Lines::of(&[0]);
    assert!(matches!(act(&mut m, &mut memory, &[]), Act::Execute(_)));
    assert_eq!(m.lines, Lines::of(&[0]));
}

#[test]
fn lines_come_before_sleep_and_odd_pc() {
    for (psw, pc) in [(SLP, 0x1000), (SLP, 0xFFFF), (0, 0x1001)] {
        let (mut m, mut memory) = start("", 0);
        m.psw = psw;
        m.regs[PC] = pc;
        m.lines = Lines::of(&[0]);
        set_vector(&mut memory, 0, 0x0020, 0x2000);
        assert_eq!(act(&mut m, &mut memory, &[]), Act::Accept(0));
        assert_eq!(pushed(&m, &memory, 0), pc);
        assert_eq!(pushed(&m, &memory, 2), psw);
    }
}

#[test]
fn sleep_comes_before_odd_pc_and_changes_only_the_count() {
    let (mut m, mut memory) = start("", 0);
    m.psw = SLP;
    m.regs[PC] = 0x1001;
    let was = m;
    assert_eq!(act(&mut m, &mut memory, &[]), Act::Sleep);
    assert_eq!(m, Machine { count: 1, ..was });
}

// ---- CEX

#[test]
fn cex_runs_one_part_and_skips_the_other() {
    let program = " CEX NE,#2,#2\n ADD #1,R0\n ADD #1,R0\n ADD #1,R1\n ADD #1,R1\n ADD #1,R2";
    for (psw, expected, held) in [(0, [2, 0, 1], 0x40), (Z, [0, 2, 1], 0)] {
        let (mut m, mut memory) = start(program, 0);
        m.psw = psw;
        steps(&mut m, &mut memory, 3);
        assert_eq!(m.cex, held | 2);
        steps(&mut m, &mut memory, 3);
        assert_eq!(m.regs[..3], expected);
        assert_eq!(m.cex, held);
    }
}

#[test]
fn all_sixteen_conditions() {
    for cond in 0..16u16 {
        for flags in 0..16u16 {
            let (c, z, n, v) = (flags & 1 != 0, flags & 2 != 0, flags & 4 != 0, flags & 8 != 0);
            let expected =
                [z, !z, c, !c, n, !n, v, !v, c && !z, !c || z, n == v, n != v, !z && n == v, z || n != v, true, false]
                    [usize::from(cond)];
            let (mut m, mut memory) = start("", 0);
            memory[0x1000..0x1002].copy_from_slice(&(0x5000 | cond << 6 | 0x0A).to_le_bytes());
            m.psw = flags & 7 | if v { V } else { 0 };
            steps(&mut m, &mut memory, 1);
            assert_eq!(m.cex, u16::from(expected) << 6 | 0x0A, "condition {cond} flags {flags}");
        }
    }
}

#[test]
fn branches_by_their_conditions() {
    for cond in 0..8u16 {
        for flags in 0..16u16 {
            let (c, z, n, v) = (flags & 1 != 0, flags & 2 != 0, flags & 4 != 0, flags & 8 != 0);
            let taken = [z, !z, c, !c, n, n == v, n != v, true][usize::from(cond)];
            let (mut m, mut memory) = start("", 0);
            memory[0x1000..0x1002].copy_from_slice(&(0x2000 | cond << 10 | 5).to_le_bytes());
            m.psw = flags & 7 | if v { V } else { 0 };
            m.cex = 0x40;
            steps(&mut m, &mut memory, 1);
            assert_eq!(m.regs[PC], if taken { 0x100C } else { 0x1002 });
            assert_eq!(m.cex, if taken { 0 } else { 0x40 });
        }
    }
}

#[test]
fn cex_in_a_block_lowers_the_old_count_and_then_replaces() {
    let (mut m, mut memory) = start(" CEX TR,#3,#0\n CEX FL,#0,#0", 0);
    steps(&mut m, &mut memory, 1);
    assert_eq!(m.cex, 0x58);
    steps(&mut m, &mut memory, 1);
    assert_eq!(m.cex, 0);
}

#[test]
fn a_write_to_r7_clears_cex_whatever_the_value() {
    let clears = [
        " MOV PC,PC",
        " SWAP PC,PC",
        " SWAP R0,PC",
        " SWAP PC,R0",
        " ADD #0,PC",
        " ADD.B #0,PC",
        " BIS #0,PC",
        " BIS #-1,PC",
        " SXT PC",
        " SWPB PC",
        " SRA PC",
        " MOVL $02,PC",
        " LD R0,PC",
        " LD PC+,R0",
        " ST R0,PC+",
        " LDR R0,#0,PC",
        " BRA NEXT\nNEXT ADD #1,R0",
        " BL NEXT\nNEXT ADD #1,R0",
    ];
    let keeps = [
        " CMP #0,PC",
        " BIT #0,PC",
        " ST PC,R0",
        " LD PC,R0",
        " STR R0,PC,#0",
        " LDR PC,#0,R0",
        " MOV PC,R0",
        " BN $1234",
    ];
    for (programs, expected) in [(&clears[..], 0), (&keeps[..], 0x42)] {
        for program in programs {
            let (mut m, mut memory) = start(program, 0);
            m.cex = 0x4A;
            m.regs[0] = 0x3000;
            steps(&mut m, &mut memory, 1);
            assert_eq!(m.cex, expected, "{program}");
        }
    }
}

#[test]
fn up_and_down_together_move_nothing() {
    for modes in [0b011u16, 0b100, 0b111] {
        let (mut m, mut memory) = start("", 0);
        // LD R7 into R1 with the modes; an adjustment that moves nothing is no write to R7.
        memory[0x1000..0x1002].copy_from_slice(&(0x5800 | modes << 7 | 7 << 3 | 1).to_le_bytes());
        memory[0x1002..0x1004].copy_from_slice(&[0x34, 0x12]);
        m.cex = 0x48;
        steps(&mut m, &mut memory, 1);
        assert_eq!((m.regs[1], m.regs[PC], m.cex), (0x1234, 0x1002, 0x40));
    }
}

// ---- entry, return, faults

#[test]
fn entry_pushes_pc_lr_psw_cex_and_takes_the_vector() {
    let (mut m, mut memory) = start("HERE BRA HERE", 2);
    m.psw |= C | V | 3 << 13;
    m.regs[LR] = 0xABCD;
    m.cex = 0x59;
    m.lines = Lines::of(&[7]);
    set_vector(&mut memory, 7, 0xFFFF, 0x2345);
    assert_eq!(act(&mut m, &mut memory, &[]), Act::Accept(7));
    assert_eq!(m.regs[SP], 0x07F8);
    assert_eq!([0, 1, 2, 3].map(|n| pushed(&m, &memory, n)), [0x1000, 0xABCD, 0x6051, 0x59]);
    // FLT of the vector does not count; previous is the old current; SLP and bits 12-9 are clear.
    assert_eq!((m.psw, m.regs[PC], m.regs[LR], m.cex, m.lines), (0x40F7, 0x2345, 0xFFFF, 0, Lines::default()));
}

#[test]
fn the_vector_is_read_before_the_pushes() {
    let (mut m, mut memory) = start("HERE BRA HERE", 0);
    m.regs[SP] = 0xFFC8;
    m.lines = Lines::of(&[0]);
    set_vector(&mut memory, 0, 0x0020, 0x2000);
    act(&mut m, &mut memory, &[]);
    assert_eq!((m.regs[PC], m.psw, m.regs[SP]), (0x2000, 0x0020, 0xFFC0));
}

#[test]
fn an_odd_sp_keeps_its_bit() {
    let (mut m, mut memory) = start("HERE BRA HERE", 0);
    m.regs[SP] = 0x0801;
    m.lines = Lines::of(&[0]);
    set_vector(&mut memory, 0, 0x0020, 0xFFFF);
    act(&mut m, &mut memory, &[]);
    assert_eq!(m.regs[SP], 0x07F9);
    assert_eq!(word_at(&memory, 0x07FE), 0x1000);
    assert_eq!(act(&mut m, &mut memory, &[]), Act::Pull);
    assert_eq!((m.regs[SP], m.regs[PC]), (0x0801, 0x1000));
}

#[test]
fn a_pull_clears_slp_and_the_zero_bits() {
    let (mut m, mut memory) = start("", 4);
    m.regs[PC] = 0xFFFF;
    memory[0x800..0x808].copy_from_slice(&[0xFF, 0xFF, 0xFF, 0xFF, 1, 2, 3, 4]);
    act(&mut m, &mut memory, &[]);
    assert_eq!((m.cex, m.psw, m.regs[LR], m.regs[PC]), (0x7F, 0xE1F7, 0x0201, 0x0403));
}

#[test]
fn a_chained_entry_keeps_the_previous_priority_and_pushes_nothing() {
    let (mut m, mut memory) = start("", 5);
    m.psw |= 2 << 13;
    m.regs[PC] = 0xFFFF;
    m.lines = Lines::of(&[0, 1]);
    m.cex = 0x11;
    set_vector(&mut memory, 0, 2 << 5, 0x2000);
    set_vector(&mut memory, 1, 3 << 5 | 7 << 13, 0x3000);
    let was = memory.clone();
    assert_eq!(act(&mut m, &mut memory, &[]), Act::Chain(1));
    assert_eq!((m.psw, m.regs[PC], m.regs[LR], m.regs[SP]), (0x4060, 0x3000, 0xFFFF, 0x0800));
    assert_eq!((m.cex, m.lines), (0, Lines::of(&[0])));
    assert_eq!(memory, was);
    m.regs[PC] = 0xFFFF;
    assert_eq!(act(&mut m, &mut memory, &[]), Act::Pull);
}

#[test]
fn faults_push_their_pc_and_set_flt() {
    for (program, pc, fault, pushed_pc) in
        [(" WORD $4E00", 0x1000, 8, 0x1002), ("", 0x1001, 9, 0x1001), (" SETPRI #5", 0x1000, 10, 0x1002)]
    {
        let (mut m, mut memory) = start(program, 4);
        m.regs[PC] = pc;
        m.cex = 0x4A;
        set_vector(&mut memory, fault.into(), 0, 0x2000);
        assert_eq!(act(&mut m, &mut memory, &[]), Act::Fault(fault));
        assert_eq!(pushed(&m, &memory, 0), pushed_pc);
        assert_eq!(pushed(&m, &memory, 3), if fault == 9 { 0x4A } else { 0x42 });
        // Entered although the vector's priority is 0.
        assert_eq!((m.psw, m.regs[PC]), (4 << 13 | FLT, 0x2000));
    }
}

#[test]
fn a_fault_with_flt_set_halts_and_changes_nothing_else() {
    for (program, pc, fault) in
        [(" WORD $4E00", 0x1000, 8), ("", 0x1001, 9), (" SETPRI #5", 0x1000, 10), (" SVC #3", 0x1000, 10)]
    {
        let (mut m, mut memory) = start(program, 4);
        m.psw |= FLT;
        m.regs[PC] = pc;
        m.cex = 0x4A;
        memory[0] = 0x12;
        let (was, mut bytes) = (m, memory.clone());
        assert_eq!(act(&mut m, &mut memory, &[event(0, 0, 0x77)]), Act::Halt(fault));
        bytes[..2].copy_from_slice(&[0x16, 0x77]);
        assert_eq!((m, &memory), (Machine { halted: true, count: 1, ..was }, &bytes));
    }
}

#[test]
fn an_interrupt_keeps_flt_and_a_handler_of_a_fault_has_it() {
    let (mut m, mut memory) = start("HERE BRA HERE", 0);
    m.psw = FLT;
    m.lines = Lines::of(&[0]);
    set_vector(&mut memory, 0, 0x0020, 0x2000);
    act(&mut m, &mut memory, &[]);
    assert_eq!(m.psw, FLT | 0x0020);
}

#[test]
fn svc_needs_a_priority_above_and_lowers_no_line() {
    for (priority, expected) in [(3, Act::Trap(2)), (4, Act::Fault(10)), (5, Act::Fault(10))] {
        let (mut m, mut memory) = start(" SVC #2", priority);
        m.cex = 0x49;
        m.lines = Lines::of(&[2]);
        set_vector(&mut memory, 2, 4 << 5, 0x2000);
        // The line itself waits at the same priority as the trap: point 3 takes it first at priority 3.
        if priority == 3 {
            m.lines = Lines::default();
        }
        assert_eq!(act(&mut m, &mut memory, &[]), expected);
        assert_eq!(pushed(&m, &memory, 0), 0x1002);
        assert_eq!(pushed(&m, &memory, 3), 0x41);
        assert_eq!(m.psw & FLT != 0, priority != 3);
        assert_eq!(m.lines, if priority == 3 { Lines::default() } else { Lines::of(&[2]) });
    }
}

#[test]
fn svc_to_the_last_vector() {
    let (mut m, mut memory) = start(" SVC #15", 0);
    set_vector(&mut memory, 15, 0x00E0, 0x0800);
    assert_eq!(act(&mut m, &mut memory, &[]), Act::Trap(15));
    assert_eq!((m.psw, m.regs[PC]), (0x00E0, 0x0800));
}

#[test]
fn setpri_to_the_same_is_no_fault() {
    let (mut m, mut memory) = start(" SETPRI #4", 4);
    m.psw |= 6 << 13 | N;
    let psw = m.psw;
    assert!(matches!(act(&mut m, &mut memory, &[]), Act::Execute(_)));
    assert_eq!(m.psw, psw);
}

#[test]
fn setcc_at_priority_7_leaves_slp_clear() {
    for (priority, sleeps) in [(7, false), (6, true)] {
        let (mut m, mut memory) = start(" SETCC VSNZC", priority);
        steps(&mut m, &mut memory, 1);
        assert_eq!(m.psw, priority << 5 | V | N | Z | C | if sleeps { SLP } else { 0 });
    }
}

#[test]
fn clrcc_clears_what_it_names() {
    let (mut m, mut memory) = start(" CLRCC VC", 5);
    m.psw |= V | N | Z | C;
    steps(&mut m, &mut memory, 1);
    assert_eq!(m.psw, 5 << 5 | N | Z);
}

// ---- devices

#[test]
fn events_by_the_status_bits() {
    // status before, status after, data taken, line raised
    let rows = [
        (0x00, 0x00, false, false),
        (0x0F, 0x0F, false, false),
        (0x10, 0x14, false, false),
        (0x11, 0x14 | 1, false, true),
        (0x12, 0x16, true, false),
        (0x13, 0x17, true, true),
        (0x14, 0x1C, false, false),
        (0x17, 0x1F, true, true),
        (0x1A, 0x1E, true, false),
        (0xF0, 0xF4, false, false),
    ];
    for (before, after, taken, raised) in rows {
        let (mut m, mut memory) = start("HERE BRA HERE", 7);
        memory[6] = before;
        memory[7] = 0xAA;
        act(&mut m, &mut memory, &[event(0, 3, 0x55)]);
        let data = if taken { 0x55 } else { 0xAA };
        let lines = if raised { Lines::of(&[3]) } else { Lines::default() };
        assert_eq!((memory[6], memory[7], m.lines), (after, data, lines), "{before:02X}");
    }
}

// ---- lines that count (02, §7)

#[test]
fn a_count_gains_one_an_event_and_stays_at_15() {
    let (mut m, mut memory) = start("HERE BRA HERE", 7);
    memory[6] = 0x13;
    for (step, count) in (1..=40).map(|k: u8| (u32::from(k) - 1, k.min(15))) {
        act(&mut m, &mut memory, &[event(step, 3, step as u8)]);
        assert_eq!((m.lines.0, memory[7]), ([0, 0, 0, count, 0, 0, 0, 0], step as u8));
        assert_eq!(memory[6], if step == 0 { 0x17 } else { 0x1F });
    }
    // With IE clear nothing is counted, and ENA clear not either.
    for status in [0x12, 0x03] {
        (memory[6], m.lines) = (status, Lines::of(&[3, 3]));
        let now = m.count;
        act(&mut m, &mut memory, &[event(now, 3, 0)]);
        assert_eq!(m.lines, Lines::of(&[3, 3]));
    }
}

#[test]
fn an_entry_takes_one_from_its_own_count() {
    let (mut m, mut memory) = start("HERE BRA HERE", 3);
    m.lines = Lines([15, 3, 15, 1, 2, 0, 15, 15]);
    set_vector(&mut memory, 2, 0x0080, 0xFFFF);
    assert_eq!(act(&mut m, &mut memory, &[]), Act::Accept(2));
    assert_eq!(m.lines.0, [15, 3, 14, 1, 2, 0, 15, 15]);
    // The handler returns at once: its own line is chained again, without a push, until the count is 0.
    for left in (0..14).rev() {
        assert_eq!(act(&mut m, &mut memory, &[]), Act::Chain(2));
        assert_eq!((m.lines.count(2), m.regs[SP]), (left, 0x07F8));
    }
    assert_eq!(act(&mut m, &mut memory, &[]), Act::Pull);
    assert_eq!(m.lines.0, [15, 3, 0, 1, 2, 0, 15, 15]);
}

#[test]
fn an_event_and_an_acceptance_in_one_step() {
    // The event comes first, so one that falls on a full count is lost though the step then takes one.
    for (before, after) in [(0, 0), (1, 1), (14, 14), (15, 14)] {
        let (mut m, mut memory) = start("HERE BRA HERE", 3);
        m.lines.0[2] = before;
        memory[4] = 0x11;
        set_vector(&mut memory, 2, 0x0080, 0x2000);
        assert_eq!(act(&mut m, &mut memory, &[event(0, 2, 0)]), Act::Accept(2));
        assert_eq!(m.lines.count(2), after);
    }
}

#[test]
fn forty_ticks_enter_the_handler_fifteen_times_more() {
    // The handler of device 0 runs 51 steps and a return; 40 ticks fall in its first ones.
    let handler = " ORG $2000\n ADD #1,R1\n MOVL #24,R0\nNEXT SUB #1,R0\n BNE NEXT\n MOV LR,PC";
    let (mut m, mut memory) = start(&format!("HERE BRA HERE\n{handler}"), 3);
    memory[0] = 0x13;
    set_vector(&mut memory, 0, 0x0080, 0x2000);
    let ticks: Vec<Event> = (0..41).map(|step| event(step, 0, 0)).collect();
    let mut entries = 0;
    for _ in 0..2000 {
        entries += u32::from(matches!(act(&mut m, &mut memory, &ticks), Act::Accept(0) | Act::Chain(0)));
    }
    assert_eq!((entries, m.regs[1], m.lines), (16, 16, Lines::default()));
}

#[test]
fn counts_in_the_record_and_on_the_line() {
    let m = Machine { lines: Lines([1, 2, 3, 4, 5, 6, 7, 15]), ..Machine::default() };
    let record = m.to_record();
    assert_eq!((record[20], &record[26..]), (0, &[0x21, 0x43, 0x65, 0xF7, 0, 0][..]));
    assert_eq!(m.lines.to_string(), "F7654321");
}

#[test]
fn loads_of_status_clear_dba_and_of() {
    for (program, address, value, after) in [
        (" LD.B R0,R1", 4, 0x00FF, 0xF3),
        (" LD.B R0,R1", 5, 0x0077, 0xFF),
        (" LD R0,R1", 4, 0x77FF, 0xF3),
        (" LD R0,R1", 5, 0x0000, 0xFF),
        (" LDR.B R0,#0,R1", 4, 0x00FF, 0xF3),
        (" LDR R0,#0,R1", 4, 0x77FF, 0xF3),
    ] {
        let (mut m, mut memory) = start(program, 7);
        m.regs[0] = address;
        memory[4..6].copy_from_slice(&[0xFF, 0x77]);
        act(&mut m, &mut memory, &[]);
        assert_eq!((m.regs[1], memory[4], memory[5]), (value, after, 0x77), "{program} {address}");
    }
}

#[test]
fn stores_to_status_change_ie_and_ena_only() {
    for (before, stored, after) in [(0x00, 0xFF, 0x11), (0xFF, 0x00, 0xEE), (0x0E, 0x11, 0x1F), (0xE2, 0x1D, 0xF3)] {
        let (mut m, mut memory) = start(" ST.B R1,R0", 7);
        m.regs[..2].copy_from_slice(&[14, 0x5500 | stored]);
        memory[14] = before;
        act(&mut m, &mut memory, &[]);
        assert_eq!((memory[14], memory[15]), (after, 0));
    }
}

#[test]
fn stores_to_data_clear_dba_on_an_output_device() {
    for (status, after) in [(0x04, 0x00), (0x06, 0x06), (0x1D, 0x19), (0x1F, 0x1F)] {
        let (mut m, mut memory) = start(" ST.B R1,R0", 7);
        m.regs[..2].copy_from_slice(&[9, 0x66]);
        memory[8] = status;
        act(&mut m, &mut memory, &[]);
        assert_eq!((memory[8], memory[9]), (after, 0x66));
    }
    // A word store applies both rules.
    let (mut m, mut memory) = start(" ST R1,R0", 7);
    m.regs[..2].copy_from_slice(&[8, 0x66FF]);
    memory[8] = 0x04;
    act(&mut m, &mut memory, &[]);
    assert_eq!((memory[8], memory[9]), (0x11, 0x66));
}

#[test]
fn fetches_pushes_and_pulls_are_plain() {
    let (mut m, mut memory) = start("", 0);
    m.regs[PC] = 4;
    memory[4..6].copy_from_slice(&0x684Cu16.to_le_bytes());
    act(&mut m, &mut memory, &[]);
    assert_eq!((m.regs[4], memory[4]), (9, 0x4C));
    m.regs[SP] = 8;
    m.lines = Lines::of(&[0]);
    set_vector(&mut memory, 0, 0x0020, 0xFFFF);
    m.regs[LR] = 0x0C0C;
    act(&mut m, &mut memory, &[]);
    assert_eq!(memory[..8], [0, 0, 0, 0, 0x0C, 0x0C, 6, 0]);
    assert_eq!(act(&mut m, &mut memory, &[]), Act::Pull);
    assert_eq!((memory[4], m.regs[LR]), (0x0C, 0x0C0C));
}

// ---- LD and ST

#[test]
fn load_writes_last_and_store_reads_first() {
    // Its own index register: adjusted, then the value is written.
    let (mut m, mut memory) = start(" LD R0+,R0\n LD.B R1+,R1\n ST R2,R2+\n ST R3,-R3", 0);
    m.regs[..4].copy_from_slice(&[0x200, 0x2FF, 0x400, 0x500]);
    memory[0x200..0x202].copy_from_slice(&[0x34, 0x12]);
    memory[0x2FF] = 0x99;
    steps(&mut m, &mut memory, 4);
    assert_eq!(m.regs[..4], [0x1234, 0x0399, 0x402, 0x4FE]);
    assert_eq!(word_at(&memory, 0x400), 0x400);
    assert_eq!(word_at(&memory, 0x4FE), 0x500);
}

#[test]
fn steps_are_1_for_bytes_and_2_for_words() {
    let program = " LD +R0,R1\n LD -R0,R1\n LD R0-,R1\n LD.B +R0,R1\n LD.B -R0,R1\n LD.B R0-,R1";
    let (mut m, mut memory) = start(program, 0);
    m.regs[0] = 0x200;
    for expected in [0x202, 0x200, 0x1FE, 0x1FF, 0x1FE, 0x1FD] {
        steps(&mut m, &mut memory, 1);
        assert_eq!(m.regs[0], expected);
    }
}

#[test]
fn relative_addresses_are_even_by_their_sum() {
    let (mut m, mut memory) = start(" LDR R0,#1,R1\n LDR R0,#-63,R2\n STR.B R3,R0,#63", 0);
    m.regs[0] = 0x0301;
    m.regs[3] = 0xAB;
    memory[0x302..0x304].copy_from_slice(&[1, 2]);
    memory[0x2C2..0x2C4].copy_from_slice(&[3, 4]);
    steps(&mut m, &mut memory, 3);
    assert_eq!((m.regs[1], m.regs[2], memory[0x340]), (0x0201, 0x0403, 0xAB));
}

#[test]
fn addresses_wrap() {
    let (mut m, mut memory) = start(" LDR R0,#-2,R1\n LD R2+,R3\n ST R3,-R4", 0);
    m.regs[..5].copy_from_slice(&[0, 0, 0xFFFE, 0, 0]);
    memory[0xFFFE..].copy_from_slice(&[0x78, 0x56]);
    steps(&mut m, &mut memory, 3);
    assert_eq!(m.regs[..5], [0, 0x5678, 0, 0x5678, 0xFFFE]);
}

// ---- refusals

/// Input that is accepted, to be broken in one place or several.
struct Input {
    memory: Vec<u8>,
    n: u64,
    record: Vec<u8>,
    events: Vec<u8>,
    log: Vec<u8>,
}

fn accepted() -> Input {
    let events = [event(0, 0, 1), event(0, 7, 2), event(9, 3, 3)].iter().flat_map(|&e| event_record(e)).collect();
    Input { memory: vec![0; MEMORY], n: 10, record: vec![0; RECORD], events, log: vec![7; 16] }
}

/// The refusal of the input that `break_it` makes of an accepted one; nothing may change when it is refused.
fn refused(break_it: impl Fn(&mut Input)) -> Option<u8> {
    let mut i = accepted();
    break_it(&mut i);
    let (memory, record, log) = (i.memory.clone(), i.record.clone(), i.log.clone());
    match run(&mut i.memory, i.n, &mut i.record, &i.events, &mut i.log) {
        Ok(_) => None,
        Err(number) => {
            assert!(i.memory == memory && i.record == record && i.log == log);
            Some(number)
        }
    }
}

#[test]
fn each_refusal_and_its_near_miss() {
    assert_eq!(refused(|_| ()), None);
    assert_eq!(refused(|i| i.memory.truncate(65_535)), Some(1));
    assert_eq!(refused(|i| i.memory.push(0)), Some(1));
    assert_eq!(refused(|i| i.n = 1_000_001), Some(2));
    assert_eq!(refused(|i| i.record[22..26].copy_from_slice(&(u32::MAX - 10).to_le_bytes())), None);
    assert_eq!(refused(|i| i.record[22..26].copy_from_slice(&(u32::MAX - 9).to_le_bytes())), Some(2));
    assert_eq!(refused(|i| i.record.truncate(31)), Some(3));
    assert_eq!(refused(|i| i.record.push(0)), Some(3));
    for bit in 0..16 {
        let zero = (9..13).contains(&bit);
        let set = move |i: &mut Input| i.record[16 + bit / 8] |= 1 << (bit % 8);
        assert_eq!(refused(set), zero.then_some(4), "PSW bit {bit}");
        let set = move |i: &mut Input| i.record[18 + bit / 8] |= 1 << (bit % 8);
        assert_eq!(refused(set), (bit >= 7).then_some(4), "CEX bit {bit}");
    }
    assert_eq!(refused(|i| i.record[21] = 1), None);
    assert_eq!(refused(|i| i.record[21] = 2), Some(4));
    for at in [20, 30, 31] {
        assert_eq!(refused(move |i| i.record[at] = 1), Some(4));
    }
    for at in 26..30 {
        assert_eq!(refused(move |i| i.record[at] = 0xFF), None);
    }
    assert_eq!(refused(|i| i.events.push(0)), Some(5));
    assert_eq!(refused(|i| i.events.clear()), None);
    let list = |n: u32| (0..n).flat_map(|k| event_record(event(k / 8, k as u8 % 8, 0))).collect();
    assert_eq!(refused(|i| i.events = list(4096)), None);
    assert_eq!(refused(|i| i.events = list(4097)), Some(5));
    assert_eq!(refused(|i| i.events[12] = 8), Some(6));
    assert_eq!(refused(|i| i.events[22] = 1), Some(6));
    assert_eq!(refused(|i| i.events[23] = 1), Some(6));
    assert_eq!(refused(|i| i.events[0] = 1), Some(7));
    assert_eq!(refused(|i| i.events[3] = 1), Some(7));
}

/// 02 §3: two records that share step and device, wherever they stand.
#[test]
fn twins_are_refused_wherever_they_stand() {
    let list = |events: &[(u32, u8, u8)]| {
        let list: Vec<u8> =
            events.iter().flat_map(|&(step, device, data)| event_record(event(step, device, data))).collect();
        refused(|i| i.events.clone_from(&list))
    };
    assert_eq!(list(&[(5, 0, 1), (5, 1, 1), (5, 0, 1)]), Some(13));
    assert_eq!(list(&[(5, 0, 1), (5, 0, 2)]), Some(13));
    assert_eq!(list(&[(5, 0, 1), (6, 0, 1)]), None);
    // "Equal steps on different devices stay lawful, whichever order they are listed in."
    let all = |devices: [u8; 8]| list(&devices.map(|device| (5, device, 1)));
    assert_eq!(
        (all([0, 1, 2, 3, 4, 5, 6, 7]), all([7, 6, 5, 4, 3, 2, 1, 0]), all([3, 0, 7, 1, 6, 2, 5, 4])),
        (None, None, None)
    );
    // The marks of one step are none of the next.
    assert_eq!(list(&[(5, 0, 1), (5, 1, 1), (6, 1, 1), (6, 0, 1)]), None);
    assert_eq!(list(&[(5, 0, 1), (6, 1, 1), (6, 0, 1), (6, 2, 1), (6, 1, 1)]), Some(13));
    // Beyond n, on the last step that there is, and the first with the last of a full step.
    assert_eq!(list(&[(u32::MAX, 7, 1), (u32::MAX, 7, 1)]), Some(13));
    assert_eq!(list(&[0, 1, 2, 3, 4, 5, 6, 7, 0].map(|device| (9, device, 1))), Some(13));
    // An unsorted list is 7, and a device that there is not is 6, though two records are twins.
    assert_eq!(list(&[(5, 0, 1), (5, 0, 1), (4, 0, 1)]), Some(7));
    assert_eq!(list(&[(5, 0, 1), (5, 0, 1), (5, 8, 1)]), Some(6));
    assert_eq!(list(&[(5, 0, 1), (4, 0, 1), (5, 0, 1)]), Some(7));
}

#[test]
fn refusals_in_their_order() {
    // All at once, then mended one by one.
    type Break = fn(&mut Input);
    let all: [(Break, u8); 9] = [
        (|i| i.memory.push(0), 1),
        (|i| i.n = 1_000_001, 2),
        (|i| i.record[22..26].copy_from_slice(&u32::MAX.to_le_bytes()), 2),
        (|i| i.record[31] = 1, 4),
        (|i| i.events.push(0), 5),
        (|i| i.events[23] = 1, 6),
        (|i| i.events[0] = 200, 7),
        (|i| i.events[12] = i.events[4], 13),
        (|i| i.log.push(0), 9),
    ];
    for from in 0..all.len() {
        let broken = |i: &mut Input| all[from..].iter().for_each(|(break_it, _)| break_it(i));
        assert_eq!(refused(broken), Some(all[from].1), "from {from}");
    }
    // A record of another length is 3, after n and before the sum.
    assert_eq!(refused(|i| (i.n, i.record) = (1_000_001, vec![0xFF; 31])), Some(2));
    assert_eq!(refused(|i| i.record = vec![0xFF; 31]), Some(3));
    // The sum is compared for a halted machine too.
    assert_eq!(refused(|i| i.record[21..26].copy_from_slice(&[1, 255, 255, 255, 255])), Some(2));
}

#[test]
fn short_input_of_the_program() {
    let mut input = vec![0; 4 + RECORD + MEMORY];
    assert!(sheet(&input).0.starts_with("0 0 "));
    assert_eq!(sheet(&input[..35]).0, "R3\n");
    assert_eq!(sheet(&input[..36]).0, "R1\n");
    assert_eq!(sheet(&input[..4 + RECORD + MEMORY - 1]).0, "R1\n");
    input[3] = 1;
    assert_eq!(sheet(&input[..35]).0, "R3\n");
    assert_eq!(sheet(&input[..36]).0, "R1\n");
    assert_eq!(sheet(&input).0, "R2\n");
}

#[test]
fn the_places_in_the_records() {
    let mut record: Vec<u8> = (1..=16).collect();
    record.extend([0x17, 0xE1, 0x2B, 0x00, 0x00, 0x01, 0x78, 0x56, 0x34, 0x12, 0x21, 0x43, 0x65, 0xF7, 0, 0]);
    let m = Machine::from_record(&record);
    assert_eq!(m.regs, [0x0201, 0x0403, 0x0605, 0x0807, 0x0A09, 0x0C0B, 0x0E0D, 0x100F]);
    assert_eq!(
        (m.psw, m.cex, m.lines.0, m.halted, m.count),
        (0xE117, 0x2B, [1, 2, 3, 4, 5, 6, 7, 15], true, 0x1234_5678)
    );
    assert_eq!(m.to_record()[..], record[..]);
    let list = [0x78, 0x56, 0x34, 0x12, 7, 0x9A, 0, 0];
    assert_eq!(events_of(&list), [event(0x1234_5678, 7, 0x9A)]);
    assert_eq!(event_record(event(0x1234_5678, 7, 0x9A)), list);
    let mut input = vec![5, 0, 0, 0];
    input.extend(record);
    input.extend(vec![0; MEMORY]);
    assert_eq!(sheet(&input).0, "1 0 0201 0403 0605 0807 0A09 0C0B 0E0D 100F E117 2B F7654321 0\n");
}

#[test]
fn records_go_both_ways() {
    let mut random = oracle::random::Random::new(11);
    for _ in 0..1000 {
        let mut record: Vec<u8> = (0..RECORD).map(|_| random.byte()).collect();
        record[17] &= !0x1E;
        record[18] &= 0x7F;
        record[19] = 0;
        record[20] = 0;
        record[21] &= 1;
        record[30..].fill(0);
        assert_eq!(Machine::from_record(&record).to_record()[..], record[..]);
    }
}
