//! Why 01 "Depth", demand 3 and 02 §13 say what they say: for each premise a run that breaks it alone and breaks the
//! promise, or breaks it alone and shows that it is idle, and for each other reading of their words a run that meets
//! the premises so read and breaks the promise.

use oracle::alu::SLP;
use oracle::assemble::assemble;
use oracle::machine::*;
use oracle::resume::{judge, Premise, Reading};

/// The application at #1000, awake at priority 0, with SP #0800 and LR #FFFF. Every device is enabled with IE. Vector v
/// has priority v, at most 7, and enters at the label Hv; without such a label its handler returns at once.
fn setup(source: &str, n: u32, events: &[(u32, u8)]) -> Setup {
    let program = assemble(&format!(" ORG $1000\n{source}\n END"));
    let mut memory = program.memory();
    for v in 0..16u16 {
        let entry = program.names.get(&format!("H{v}")).copied().unwrap_or(0xFFFF) as u16;
        set_word(&mut memory, 0xFFC0 + 4 * v, v.min(7) << 5);
        set_word(&mut memory, 0xFFC2 + 4 * v, entry);
    }
    for d in 0..8 {
        memory[2 * d] = 0x11;
    }
    let mut machine = Machine::default();
    machine.regs[LR] = 0xFFFF;
    machine.regs[SP] = 0x0800;
    machine.regs[PC] = 0x1000;
    let events = events.iter().map(|&(step, device)| Event { step, device, data: 0x20 }).collect();
    Setup { machine, memory, events, n }
}

fn set_word(memory: &mut [u8], at: u16, value: u16) {
    memory[usize::from(at)..usize::from(at) + 2].copy_from_slice(&value.to_le_bytes());
}

/// The run breaks this premise of Resumption and no other, and the promise fails.
#[track_caller]
fn needed(premise: Premise, setup: &Setup) {
    let close = judge(setup, Reading::Decided);
    assert!(close.resumption.only(premise), "{close:?}");
    assert!(!close.resumes, "{close:?}");
}

/// The run breaks this premise and no other, and the promise holds.
#[track_caller]
fn idle(premise: Premise, setup: &Setup) {
    let close = judge(setup, Reading::Decided);
    assert!(close.resumption.only(premise) && close.resumes, "{close:?}");
}

/// The same for Depth.
#[track_caller]
fn needed_for_depth(premise: Premise, setup: &Setup) {
    let close = judge(setup, Reading::Decided);
    assert!(close.depth.only(premise), "{close:?}");
    assert!(!close.bounded, "{close:?}");
}

/// The run meets the premises so read and the promise fails; as decided it does not meet them.
#[track_caller]
fn false_reading(reading: Reading, setup: &Setup) {
    let close = judge(setup, reading);
    assert!(close.resumption.none() && !close.resumes, "{close:?}");
    assert!(!judge(setup, Reading::Decided).resumption.none());
}

/// The run meets the premises so read and as decided; the promise fails so read and holds as decided.
#[track_caller]
fn false_count(reading: Reading, setup: &Setup) {
    let close = judge(setup, reading);
    assert!(close.resumption.none() && !close.resumes, "{close:?}");
    let close = judge(setup, Reading::Decided);
    assert!(close.resumption.none() && close.resumes, "{close:?}");
}

const LOOP: &str = "LOOP ADD #1,R0\n BRA LOOP\n";

// ---- what holds

#[test]
fn a_sound_run() {
    // Device 3 is nested by 5, onto which 4 is chained; both handlers write and restore.
    let handlers = "
H3      ST R0,-SP
        MOVLZ #3,R0
        LD SP+,R0
        MOV LR,PC
H4      ST R1,-SP
        LD SP+,R1
        MOV LR,PC
H5      CMP R0,R1
        MOV LR,PC
";
    let s = setup(&format!("{LOOP}{handlers}"), 30, &[(3, 3), (5, 5), (5, 4), (20, 7)]);
    let close = judge(&s, Reading::Decided);
    assert!(close.resumption.none() && close.depth.none() && close.resumes && close.bounded, "{close:?}");
    assert!((close.met.closed, close.met.deepest, close.met.chained) == (3, 2, true), "{close:?}");
}

#[test]
fn a_sound_run_across_svc() {
    // SVC 1 calls SVC 2, whose handler device 5 interrupts and onto whose return device 6 is chained. Both handlers
    // change registers; that of SVC 1 returns from a copy of its frame, with SP 8 lower.
    let copy = " LDR SP,#6,R2\n ST R2,-SP\n".repeat(4);
    let source = format!(
        "LOOP ADD #1,R0\n SVC #1\n BRA LOOP\nH1 ADD #1,R1\n SVC #2\n{copy} MOV LR,PC\nH2 ADD #1,R1\n MOV LR,PC\n"
    );
    let close = judge(&setup(&source, 21, &[(4, 5), (8, 6)]), Reading::Decided);
    assert!(close.resumption.none() && close.resumes, "{close:?}");
    let met = close.met;
    assert!((met.closed, met.own_closed, met.deepest) == (2, 1, 3), "{close:?}");
    assert!(met.nested_svc && met.inside_svc && met.onto_svc && met.moved, "{close:?}");
}

// ---- Resumption: each premise

#[test]
fn start_awake() {
    // The pull clears SLP, which the run without events keeps.
    let mut s = setup(LOOP, 2, &[(0, 7)]);
    s.machine.psw = SLP;
    needed(Premise::Awake, &s);
}

#[test]
fn start_not_halted_is_idle() {
    let mut s = setup(LOOP, 5, &[(0, 7)]);
    s.machine.halted = true;
    idle(Premise::NotHalted, &s);
}

#[test]
fn no_line_waiting() {
    // The line is accepted in the run without events too.
    let mut s = setup(LOOP, 3, &[]);
    s.machine.lines = Lines::of(&[7]);
    needed(Premise::NoLine, &s);
}

#[test]
fn no_fault() {
    // In the run without events the handler's steps count.
    needed(Premise::NoFault, &setup(" WORD $4E00\nLOOP BRA LOOP", 3, &[]));
}

#[test]
fn no_svc_in_a_device_handler_is_idle() {
    // Its frame is then a device's, found as entry left it.
    idle(Premise::DeviceSvc, &setup(&format!("{LOOP}H3 SVC #5\n MOV LR,PC"), 8, &[(0, 3)]));
}

#[test]
fn no_return_with_no_frame_open() {
    // Pulling takes what an entry left below the stack.
    needed(Premise::NoStrayReturn, &setup(" SUB #8,SP\n MOV LR,PC\n", 5, &[(0, 7)]));
    // Chaining enters a line that waits.
    let mut s = setup(" MOV LR,PC\n", 2, &[(0, 3)]);
    s.machine.psw = 3 << 5;
    needed(Premise::NoStrayReturn, &s);
}

#[test]
fn every_frame_closed() {
    needed(Premise::Closed, &setup(LOOP, 1, &[(0, 7)]));
    // Chained onto an SVC frame.
    needed(Premise::Closed, &setup(" SVC #1\n", 2, &[(1, 3)]));
}

#[test]
fn every_frame_of_svc_closed_is_idle() {
    idle(Premise::OwnClosed, &setup(" SVC #1\nH1 BRA H1\n", 5, &[(2, 7)]));
}

#[test]
fn registers_restored() {
    let s = setup(&format!("{LOOP}H3 MOVLZ #1,R4\n MOV LR,PC"), 4, &[(0, 3)]);
    needed(Premise::Registers, &s);
}

#[test]
fn stack_pointer_restored() {
    let s = setup(&format!("{LOOP}H3 ADD #2,SP\n MOV LR,PC"), 4, &[(0, 3)]);
    needed(Premise::StackPointer, &s);
}

#[test]
fn frame_restored() {
    // The pushed PC is changed.
    let s = setup(&format!("{LOOP}H3 STR SP,SP,#6\n MOV LR,PC"), 4, &[(0, 3)]);
    needed(Premise::FrameBytes, &s);
}

#[test]
fn no_sleep() {
    // Woken by the handler's return.
    needed(Premise::NoSleep, &setup(&format!(" SETCC S\n{LOOP}"), 3, &[(1, 7)]));
}

#[test]
fn no_load_from_a_device_register() {
    // R1 is #0000: status of device 0, with DBA set by the event, which raises no line.
    let mut s = setup(&format!(" LD.B R1,R0\n{LOOP}"), 1, &[(0, 0)]);
    s.memory[0] = 0x10;
    needed(Premise::DeviceLoad, &s);
}

#[test]
fn no_fetch_from_a_device_register() {
    // Device 1, an input device without IE, has its data in the high byte of the word at #0002: MOVLZ #02,R2.
    let mut s = setup("", 1, &[(0, 1)]);
    set_word(&mut s.memory, 2, 0x6812);
    s.machine.regs[PC] = 2;
    needed(Premise::DeviceFetch, &s);
}

#[test]
fn no_load_from_a_byte_of_a_handler_or_an_entry() {
    // A handler stores SP at R1, #3000.
    let mut s = setup(" LD R1,R0\nH3 ST SP,R1\n MOV LR,PC", 5, &[(0, 3)]);
    s.machine.regs[1] = 0x3000;
    needed(Premise::ForeignLoad, &s);
    // The PC that an entry pushed.
    needed(Premise::ForeignLoad, &setup(" LDR SP,#-2,R0\n", 3, &[(0, 7)]));
}

#[test]
fn no_fetch_from_a_byte_of_a_handler_or_an_entry() {
    // A handler stores R0 at R1, over the application's first word: MOVLZ #00,R3 instead of #FF.
    let mut s = setup(" MOVLZ $FF,R3\nH3 ST R0,R1\n MOV LR,PC", 5, &[(0, 3)]);
    s.machine.regs[0] = 0x6803;
    s.machine.regs[1] = 0x1000;
    needed(Premise::ForeignFetch, &s);
    // The application goes on in the frame that an entry pushed: LR, MOVLZ #00,R3, and the PC after it.
    let mut s = setup("", 3, &[(0, 7)]);
    s.machine.regs[PC] = 0x07FC;
    s.machine.regs[LR] = 0x6803;
    needed(Premise::ForeignFetch, &s);
}

// ---- across SVC

/// SVC 1, whose handler sets R0 to 7, and onto whose return, the fourth step, device 3 is chained.
fn chained(handler: &str, n: u32, more: &[(u32, u8)]) -> Setup {
    let source = format!(" SVC #1\n{LOOP}H1 MOVLZ #7,R0\n MOV LR,PC\nH3 {handler}\n MOV LR,PC\n");
    setup(&source, n, &[&[(3, 3)], more].concat())
}

#[test]
fn chained_handler_leaves_registers() {
    needed(Premise::ChainedRegisters, &chained("MOVLZ #9,R4", 7, &[]));
}

#[test]
fn chained_handler_leaves_the_stack_pointer() {
    needed(Premise::ChainedStackPointer, &chained("ADD #2,SP", 7, &[]));
}

#[test]
fn chained_handler_leaves_the_eight_bytes() {
    // The PC that the return was about to pull is changed.
    needed(Premise::ChainedBytes, &chained("STR SP,SP,#6", 7, &[]));
}

#[test]
fn no_vector_of_a_handler() {
    // Device 7's handler stores #FFFF as entry point of vector 2: SVC 2 then returns at once.
    let mut s = setup(" SVC #2\n BRA H2\nH2 MOVLZ #9,R3\n MOV LR,PC\nH7 ST R0,R1\n MOV LR,PC\n", 6, &[(0, 7)]);
    s.machine.regs[0] = 0xFFFF;
    s.machine.regs[1] = 0xFFCA;
    needed(Premise::ForeignVector, &s);
}

#[test]
fn no_pull_of_bytes_of_a_handler() {
    // Inside the handler of SVC 2, device 7's stores R1 as the PC that SVC pushed. The return is pulled, or chained.
    let source = " SVC #2\n BRA H2\nH2 ADD #1,R0\n MOV LR,PC\nH7 STR R1,SP,#14\n MOV LR,PC\n";
    for (n, events) in [(8, vec![(1, 7)]), (9, vec![(1, 7), (7, 5)])] {
        let mut s = setup(source, n, &events);
        s.machine.regs[1] = 0x1004;
        needed(Premise::ForeignPull, &s);
    }
}

#[test]
fn no_pull_of_device_registers() {
    // SVC's frame lies on the registers of devices 4 to 7. The pushed PSW, V and Z, makes device 5 an enabled input
    // device without IE; the event of the next step, SVC's return, changes it.
    let mut s = setup(" SVC #2\n", 2, &[(1, 5)]);
    s.machine.regs[SP] = 16;
    s.machine.psw = 0x12;
    needed(Premise::DevicePull, &s);
}

// ---- Depth: each premise

/// At priority 6, where one frame is the most.
fn at_six(source: &str, n: u32, events: &[(u32, u8)]) -> Setup {
    let mut s = setup(source, n, events);
    s.machine.psw = 6 << 5;
    s
}

#[test]
fn depth_no_fault() {
    // A fault is entered whatever its priority.
    needed_for_depth(Premise::NoFault, &at_six(&format!("{LOOP}H7 WORD $4E00"), 2, &[(0, 7)]));
}

#[test]
fn depth_no_setpri_in_a_handler() {
    // Handler 7 goes down to 6 and is interrupted by its own line.
    let s = at_six(&format!("{LOOP}H7 SETPRI #6\nHERE BRA HERE"), 4, &[(0, 7), (2, 7)]);
    needed_for_depth(Premise::NoSetPri, &s);
}

/// At priority 5, where two frames are the most, handler 7 spoils its own frame or SP so that handler 6 goes on at
/// priority 0, where its line and 7 nest again.
fn spoiled(handler: &str) -> Setup {
    let mut s = setup(&format!("{LOOP}H6 BRA H6\nH7 {handler}\n MOV LR,PC"), 12, &[(0, 6), (1, 7), (8, 6), (9, 7)]);
    s.machine.psw = 5 << 5;
    s.machine.regs[0] = 0x1004;
    s
}

#[test]
fn depth_pull_finds_sp() {
    // Handler 7 leaves SP below a made-up frame: PC handler 6, PSW 0.
    let handler = "ST R0,-SP\n ST R0,-SP\n ST R1,-SP\n ST R1,-SP";
    needed_for_depth(Premise::AnyStackPointer, &spoiled(handler));
}

#[test]
fn depth_pull_finds_its_frame() {
    // The pushed PSW becomes 0.
    needed_for_depth(Premise::AnyFrameBytes, &spoiled("STR R1,SP,#2"));
}

#[test]
fn depth_idle_premises() {
    // SVC needs a priority above, as a line does.
    let close = judge(&at_six(" SVC #7\n", 1, &[]), Reading::Decided);
    assert!(close.depth.only(Premise::NoSvc) && close.bounded && close.met.deepest == 1);
    // A return with no frame open changes the priority only while no frame is open.
    let close = judge(&at_six(" MOV LR,PC\n", 4, &[(2, 7)]), Reading::Decided);
    assert!(close.depth.only(Premise::NoStrayReturn) && close.bounded && close.met.deepest == 1);
}

// ---- the other readings

#[test]
fn chaining_with_no_frame_open() {
    let mut s = setup(" MOV LR,PC\n", 2, &[(0, 3)]);
    s.machine.psw = 3 << 5;
    false_reading(Reading::StrayChains, &s);
}

#[test]
fn as_the_chained_entry_left_them() {
    // Handler 3 changes R0 and 2 is chained onto it, which finds R0 as its own entry left it.
    let s = setup(&format!("{LOOP}H3 MOVLZ #9,R0\n MOV LR,PC"), 5, &[(0, 3), (1, 2)]);
    false_reading(Reading::ChainedEntry, &s);
}

#[test]
fn finding_before_the_events() {
    // The frame lies on the registers of devices 0 to 3. PC #1012 at #0006 makes device 3 an enabled input device, and
    // the event of the closing step puts #20 into the high byte of PC.
    let mut s = setup("", 2, &[(0, 7), (1, 3)]);
    s.machine.regs[SP] = 8;
    s.machine.regs[PC] = 0x1012;
    false_reading(Reading::BeforeEvents, &s);
}

#[test]
fn last_written_over_the_whole_run() {
    // What a handler wrote is loaded, and then overwritten by the application.
    let mut s = setup(" LD R1,R0\n ST R2,R1\nH3 ST SP,R1\n MOV LR,PC", 6, &[(0, 3)]);
    s.machine.regs[1] = 0x3000;
    false_reading(Reading::WholeRun, &s);
}

#[test]
fn chaining_step_not_counted() {
    false_count(Reading::ChainingUncounted, &chained("", 7, &[]));
}

#[test]
fn frame_stays_the_applications() {
    // The steps of the chained handler would be the application's.
    false_count(Reading::StaysOwn, &chained("", 7, &[]));
}

#[test]
fn as_the_entry_of_svc_left_them() {
    // SVC's handler sets R0 to 7; the chained one sets it back to the 0 that SVC's entry left.
    false_reading(Reading::AsSvcLeft, &chained("MOVLZ #0,R0", 7, &[]));
}

#[test]
fn as_the_last_of_two_chained_handlers_found_them() {
    // Device 3's handler sets R0 to 9, which device 2's, chained onto it, finds and leaves.
    false_reading(Reading::LastChaining, &chained("MOVLZ #9,R0", 9, &[(6, 2)]));
}

#[test]
fn pushes_of_svc_as_an_entrys() {
    // No run with a return of SVC would meet the premises.
    let close = judge(&chained("", 7, &[]), Reading::PushesForeign);
    assert!(close.resumption.only(Premise::ForeignPull) && close.resumes, "{close:?}");
}
