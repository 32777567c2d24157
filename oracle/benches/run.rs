//! Speed of the run call: the proved library, the C interpreter of bench/ and the oracle, on the same inputs in one
//! run. Every workload's outcome is compared before it is timed, and the C interpreter is held against the oracle on
//! random inputs first. A time of the first two is the best of two code layouts (engines/mod.rs).
//!
//! Beside the times, instructions of the host per step, where valgrind is here. `run counts` prints the rows that have
//! them and no more, `run times` all without them, and `run WORKLOAD rattle` (or c, oracle, journal, back, judge, trace,
//! sparse) runs one workload once, for such a count. A run with a journal of 1,024 records, going back by all of them, a
//! judged run and traced ones stand beside the plain run.

mod callgrind;
mod engines;
#[path = "../tests/library/journal.rs"]
mod library_journal;
#[path = "../tests/library/judge.rs"]
mod library_judge;
#[path = "../tests/library/trace.rs"]
mod library_trace;
mod rows;

use callgrind::instructions;
use engines::{layouts, Engine, C, LAYOUTS, RATTLE};
use library_journal::LIBRARY;
use oracle::assemble::assemble;
use oracle::inputs::{input, Input, KINDS};
use oracle::journal::{Held, Journal, MAX_JOURNAL};
use oracle::journal_compare::ORACLE;
use oracle::judge::Case;
use oracle::machine::{self, event_record, Event, Machine};
use oracle::random::Random;
use oracle::trace::{Lent, KINDS as EVERY, TRACED};
use oracle::trace_compare::{differs, lend};
use std::fmt::Display;
use std::time::{Duration, Instant};

/// The rows are timed one after the other, and that so often, since a machine has slow minutes; the best time counts.
const PASSES: usize = 5;
/// How often a row's fast engines are timed in a pass at least, and for how long.
const TURNS: usize = 5;
const WHILE: Duration = Duration::from_millis(60);

/// Machines, and how many calls run each of them on.
struct Workload {
    name: &'static str,
    inputs: Vec<Input>,
    calls: usize,
}

type Group = fn() -> Vec<Workload>;

/// The loop of every application here: R1 is kept in memory, R2 points at it.
const MIXED: &str = "
        ORG $1000
LOOP    ADD R0,R1
        XOR R3,R1
        LD R2,R0
        ST R1,R2
        SUB #1,R4
        BRA LOOP
";

/// Ten steps, one of them a character for device 0.
const SCREEN: &str = "
        ORG $0000
        BYTE STATUS
        ORG $1000
LOOP    STR.B R1,R5,#1
        ADD R0,R1
        XOR R3,R1
        LD R2,R0
        ST R1,R2
        SUB #1,R4
        ADD R0,R3
        XOR R4,R3
        ADD #1,R4
        BRA LOOP
";

const TIGHT: &str = "
        ORG $1000
LOOP    ADD #1,R0
        BRA LOOP
";

/// Three devices at priorities 3, 4 and 5. Each handler saves two registers, reads its device and adds up its data.
const HANDLERS: &str = "
        ORG $0000
        WORD $0013
        WORD $0013
        WORD $0013
        ORG $2000
H0      ST R0,-SP
        ST R1,-SP
        MOVLZ $00,R0
        LDR R0,#0,R1
        MOVLZ $80,R0
        ST R1,R0+
        ST R1,R0
        LD SP+,R1
        LD SP+,R0
        MOV LR,PC
        ORG $2100
H1      ST R0,-SP
        ST R1,-SP
        MOVLZ $00,R0
        LDR R0,#2,R1
        MOVLZ $90,R0
        LDR R0,#0,R1
        ADD #1,R1
        STR R1,R0,#0
        LD SP+,R1
        LD SP+,R0
        MOV LR,PC
        ORG $2200
H2      ST R0,-SP
        MOVLZ $00,R0
        LDR.B R0,#4,R0
        LD SP+,R0
        MOV LR,PC
        ORG $FFC0
        WORD $0060
        WORD H0
        WORD $0080
        WORD H1
        WORD $00A0
        WORD H2
";

fn start(source: &str, n: u64) -> Input {
    let regs = [0x1234, 0x5678, 0x4000, 0x9ABC, 0x7777, 0, 0x0800, 0x1000];
    let record = Machine { regs, ..Machine::default() }.to_record().to_vec();
    Input { memory: assemble(&format!("{source}\n END")).memory(), record, n, ..Input::default() }
}

/// Events in threes, 4 steps apart, so that each handler interrupts the one before it.
fn bursts(events: u64, n: u64) -> Vec<u8> {
    let apart = n * 3 / events;
    let all =
        (0..events).map(|i| Event { step: (i / 3 * apart + 4 * (i % 3)) as u32, device: (i % 3) as u8, data: i as u8 });
    all.flat_map(event_record).collect()
}

/// Events on a device that raises no line, spread over the run.
fn spread(events: u64, n: u64) -> Vec<u8> {
    let all = (0..events).map(|i| Event { step: (i * n / events) as u32, device: 5, data: i as u8 });
    all.flat_map(event_record).collect()
}

fn mixed(events: u64, n: u64) -> Input {
    let mut i = start(MIXED, n);
    i.memory[10] = 0x12;
    i.events = if events > 0 { spread(events, n) } else { Vec::new() };
    i
}

/// Characters on an output device, with ENA set and a log long enough, or with ENA clear.
fn screen(logged: bool, n: u64) -> Input {
    let source = SCREEN.replace("STATUS", if logged { "$10" } else { "$00" });
    Input { log: machine::long_log(if logged { n } else { 0 }), ..start(&source, n) }
}

fn interrupts(n: u64) -> Input {
    Input { events: bursts(4_096, n), ..start(&format!("{MIXED}{HANDLERS}"), n) }
}

/// 640 machines: the same program, with registers, data and events of their own.
fn machines() -> Vec<Input> {
    let mut random = Random::new(14);
    let mut one = || {
        let mut i = start(&format!("{MIXED}{HANDLERS}"), 20_000);
        (0..10).for_each(|at| i.record[at] = random.byte());
        i.record[4..6].copy_from_slice(&[0x00, 0x40 + random.byte() % 16]);
        i.events = bursts(30 + random.below(60), 20_000);
        i
    };
    (0..640).map(|_| one()).collect()
}

fn one(name: &'static str, input: Input) -> Workload {
    Workload { name, inputs: vec![input], calls: 1 }
}

/// What is only timed.
fn timed() -> Vec<Workload> {
    vec![
        Workload { name: "640 machines", inputs: machines(), calls: 1 },
        one("mixed, n 10,000", mixed(0, 10_000)),
        one("mixed, n 100,000", mixed(0, 100_000)),
        one("mixed, 256 events", mixed(256, 1_000_000)),
        one("mixed, 1,024 events", mixed(1_024, 1_000_000)),
        one("mixed, 4,096 events", mixed(4_096, 1_000_000)),
    ]
}

/// What is timed and counted: long runs first.
fn loops() -> Vec<Workload> {
    vec![
        one("tight loop", start(TIGHT, 1_000_000)),
        one("mixed loop", mixed(0, 1_000_000)),
        one("interrupts", interrupts(160_000)),
        one("screen, logged", screen(true, 1_000_000)),
        one("screen, ENA clear", screen(false, 1_000_000)),
    ]
}

/// A line that waits, of a priority that is not above the program's.
fn waiting(n: u64) -> Input {
    let mut i = start(&format!("{MIXED}{HANDLERS}"), n);
    i.record[16] = 0xA0; // priority 5
    i.record[26] = 0x01; // device 0 has asked, at priority 3
    i
}

/// A program that sleeps between 40 bursts of events.
fn asleep(n: u64) -> Input {
    let source = format!(" ORG $1000\nLOOP SETCC S\n BRA LOOP\n{HANDLERS}");
    Input { events: bursts(120, n), ..start(&source, n) }
}

/// And short ones.
fn kinds() -> Vec<Workload> {
    let row = |(name, source)| one(name, start(&format!(" ORG $1000\n{source}\n"), 100_000));
    let all = [one("a line waiting", waiting(100_000)), one("sleep", asleep(100_000))];
    all.into_iter().chain(rows::ROWS.map(row)).collect()
}

/// And calls of few steps: with a long list of events lent each time; slices of the run of one machine; and of 1,000
/// machines one each, whose memories are too many for a cache.
fn cut() -> Vec<Workload> {
    let calls = |(name, n)| Workload { name, inputs: vec![mixed(0, n); 1_000], calls: 1 };
    let slices = |(name, n)| Workload { calls: 1_000, ..one(name, mixed(0, n)) };
    let lent = Input { n: 1, ..mixed(4_096, 1_000_000) };
    let mut all = vec![Workload { calls: 100, ..one("1 step, 4,096 events lent", lent) }];
    all.extend([("slices of 1 step", 1), ("slices of 10", 10), ("slices of 100", 100)].map(slices));
    all.extend([("calls of 1 step", 1), ("calls of 10", 10), ("calls of 100", 100)].map(calls));
    all
}

/// Calls of no steps, with a long list of events and with none.
fn lists() -> Vec<Workload> {
    let list = |name, events| one(name, Input { n: 0, ..mixed(events, 1_000_000) });
    vec![list("no list", 0), list("list", 4_096)]
}

// ---- with a journal

/// An input with an empty journal of 1,024 records.
fn held(input: &Input) -> Held {
    Held { input: input.clone(), journal: Journal { bytes: vec![0; MAX_JOURNAL], kept: 0, place: 0 } }
}

/// What a run with a journal may cost a step, in host instructions.
const MOST: f64 = 280.0;

/// The mixed loop with a journal and without one, and going back by all that is kept, by callgrind; compared first.
fn print_journal() {
    let input = mixed(0, 1_000_000);
    let (mut ours, mut theirs) = (held(&input), held(&input));
    assert!((LIBRARY.run)(&mut ours) == (ORACLE.run)(&mut theirs) && ours == theirs, "a journal that differs");
    assert!((LIBRARY.back)(&mut ours, 1_024) == (ORACLE.back)(&mut theirs, 1_024) && ours == theirs, "back differs");
    let count = |function: &str, engine: &str| instructions(function, &["mixed loop", engine]).unwrap_or(f64::NAN);
    let [plain, kept] = [("xm23_run", "rattle"), ("xm23_run_journal", "journal")].map(|(f, e)| count(f, e) / 1e6);
    println!("mixed loop with a journal: {kept:.1} host instructions a step (at most {MOST}), {plain:.1} without one");
    println!("going back: {:.1} host instructions a step", count("xm23_back", "back") / 1_024.0);
    assert!(!(kept > MOST), "a step with a journal costs more than {MOST} host instructions");
}

// ---- traced

/// Kinds of which no stretch has any, and what a run of them may cost beside `xm23_run`; what one with all kinds may
/// cost a step, in host instructions.
const SPARSE: u32 = EVERY & !(1 << 4 | 1 << 7 | 1 << 9 | 1 << 10 | 1 << 11);
const MOST_SPARSE: f64 = 1.05;
const MOST_TRACED: f64 = 300.0;

/// The mixed loop with all kinds and with those of no stretch, by callgrind; compared first.
fn print_trace() {
    for kinds in [EVERY, SPARSE] {
        let given = traced(&Input { n: 20_000, ..mixed(0, 20_000) }, kinds);
        assert_eq!(differs(library_trace::library, &given, &mut Default::default()), None, "a trace that differs");
    }
    let count =
        |function: &str, engine: &str| instructions(function, &["mixed loop", engine]).unwrap_or(f64::NAN) / 1e6;
    let engines = [("xm23_run", "rattle"), ("xm23_trace", "trace"), ("xm23_trace", "sparse")];
    let [plain, all, sparse] = engines.map(|(function, engine)| count(function, engine));
    println!(
        "mixed loop traced: {all:.1} host instructions a step with all kinds (at most {MOST_TRACED}), {sparse:.1} with those \
         of no stretch"
    );
    assert!(!(all > MOST_TRACED), "a traced step costs more than {MOST_TRACED} host instructions");
    assert!(!(sparse > MOST_SPARSE * plain), "a run with a sparse trace costs more than {MOST_SPARSE} times a run");
}

/// An input with a trace that is long enough.
fn traced(input: &Input, kinds: u32) -> Lent {
    lend(input.clone(), TRACED * (input.n as usize + input.events.len() / 8), kinds)
}

/// Runs a workload once, traced.
fn once_traced(inputs: &[Input], kinds: u32) -> (f64, u64) {
    let mut work: Vec<Lent> = inputs.iter().map(|input| traced(input, kinds)).collect();
    let clock = Instant::now();
    let steps = work.iter_mut().map(|lent| machine::steps_of(library_trace::library(lent))).sum();
    (clock.elapsed().as_secs_f64(), steps)
}

/// Runs a workload once with a journal, and goes back by all that is kept where it is asked for.
fn once_kept(inputs: &[Input], back: bool) -> (f64, u64) {
    let mut work: Vec<Held> = inputs.iter().map(held).collect();
    let clock = Instant::now();
    let steps = work.iter_mut().map(|held| machine::steps_of((LIBRARY.run)(held))).sum();
    let time = clock.elapsed().as_secs_f64();
    if back {
        work.iter_mut().for_each(|held| assert!((LIBRARY.back)(held, held.journal.kept.into()) == 0));
    }
    (time, steps)
}

// ---- judged

/// What a judged step may cost in host instructions, and a million of them in seconds.
const MOST_JUDGED: f64 = 400.0;
const SECONDS: f64 = 0.2;

/// The mixed loop judged, without events and with 4,096 of them; compared first.
fn print_judged() {
    for (name, input) in [("mixed loop", mixed(0, 1_000_000)), ("interrupts", interrupts(1_000_000))] {
        let start = Case::of(input);
        let (mut ours, mut theirs) = (start.clone(), start.clone());
        assert!(library_judge::judge(&mut ours) == theirs.judge() && ours == theirs, "{name}: a verdict that differs");
        let time = (0..PASSES).map(|_| once_judged(&[start.input.clone()]).0).fold(f64::INFINITY, f64::min);
        println!("{name}, judged: {time:.3} s a million steps (at most {SECONDS})");
        assert!(time < SECONDS, "{name}: a judged run takes longer than {SECONDS} s");
    }
    let step = instructions("xm23_judge", &["mixed loop", "judge"]).unwrap_or(f64::NAN) / 1e6;
    println!("mixed loop, judged: {step:.1} host instructions a step (at most {MOST_JUDGED})");
    assert!(!(step > MOST_JUDGED), "a judged step costs more than {MOST_JUDGED} host instructions");
}

/// Judges a workload once.
fn once_judged(inputs: &[Input]) -> (f64, u64) {
    let mut work: Vec<Case> = inputs.iter().cloned().map(Case::of).collect();
    let clock = Instant::now();
    let steps = work.iter_mut().map(|case| machine::steps_of(library_judge::judge(case))).sum();
    (clock.elapsed().as_secs_f64(), steps)
}

// ---- the table

/// Rows that should reach so much of the C interpreter's speed, LEAST of it.
const BOUND: [&str; 11] = [
    "tight loop",
    "mixed loop",
    "a line waiting",
    "bytes",
    "calls",
    "branches",
    "polling",
    "LD, ST with increment",
    "LDR, STR",
    "SETCC, CLRCC, SETPRI",
    "CEX",
];
const LEAST: f64 = 0.8;

/// Prints a line of the table; the last two columns are left out where there is one layout.
fn print_line<T: Display>(name: &str, cells: impl IntoIterator<Item = T>) {
    print!("{name:26}");
    let columns = if LAYOUTS.len() == 1 { 7 } else { 9 };
    cells.into_iter().take(columns).zip([11, 9, 11, 9, 8, 9, 9, 9, 8]).for_each(|(cell, wide)| print!("{cell:>wide$}"));
    println!();
}

fn print_heading() {
    println!("Rattle: the proved library; C: the interpreter of bench/. Speed is Rattle's, that of the other being 1.");
    println!("{}", layouts());
    print!("{:26}{:>20}{:>28}{:>18}", "", "host instructions", "million steps a second", "speed beside");
    println!("{}", if LAYOUTS.len() == 1 { "" } else { "      beside C in" });
    print_line("a step of", ["Rattle", "C", "Rattle", "C", "oracle", "C", "oracle", "layout a", "b"]);
}

/// A number with the digits that tell something.
fn short(x: f64) -> String {
    format!("{x:.*}", if x < 1.0 { 4 } else { 1 })
}

/// A row of the table: a workload, its steps, host instructions a step of Rattle and C, and the best times so far.
struct Row {
    workload: Workload,
    steps: f64,
    counts: [String; 2],
    laid: [[f64; 2]; LAYOUTS.len()],
    oracle: f64,
}

impl Row {
    fn new(workload: Workload, counted: bool) -> Row {
        let steps = compare(&workload) as f64;
        let of = |(function, engine)| counted.then(|| instructions(function, &[workload.name, engine])).flatten();
        let count = |of: Option<f64>| of.map_or("-".into(), |count| short(count / steps));
        let counts = [("xm23_run", "rattle"), ("xm23_fast_run", "c")].map(of).map(count);
        Row { workload, steps, counts, laid: [[f64::INFINITY; 2]; LAYOUTS.len()], oracle: f64::INFINITY }
    }

    /// A pass: the oracle once, then the others by turns.
    fn time(&mut self) {
        self.oracle = self.oracle.min(once(Engine::Oracle, &self.workload).0);
        let began = Instant::now();
        for _ in (0..).take_while(|&turn| turn < TURNS || began.elapsed() < WHILE) {
            for (time, engine) in self.laid.iter_mut().flatten().zip(LAYOUTS.into_iter().flatten()) {
                *time = time.min(once(engine, &self.workload).0);
            }
        }
    }

    /// The best time of the proved library and of the C interpreter.
    fn best(&self) -> [f64; 2] {
        [0, 1].map(|engine| self.laid.iter().map(|times| times[engine]).fold(f64::INFINITY, f64::min))
    }

    /// The proved library's speed beside the C interpreter's.
    fn speed(&self) -> f64 {
        let [ours, c] = self.best();
        c / ours
    }

    fn print(&self) {
        let [ours, c] = self.best();
        let per_second = [ours, c, self.oracle].map(|time| short(self.steps / 1e6 / time));
        let beside = [c / ours, self.oracle / ours].into_iter().chain(self.laid.map(|[ours, c]| c / ours));
        let cells = self.counts.iter().cloned().chain(per_second).chain(beside.map(|speed| format!("{speed:.2}")));
        print_line(self.workload.name, cells);
    }
}

/// The table of some groups, and of each whether its host instructions are counted.
fn print_table(groups: &[(Group, bool)]) {
    print_heading();
    let mut rows: Vec<Row> =
        groups.iter().flat_map(|&(group, counted)| group().into_iter().map(move |w| Row::new(w, counted))).collect();
    (0..PASSES).for_each(|_| rows.iter_mut().for_each(Row::time));
    rows.iter().for_each(Row::print);
    let behind = rows.iter().filter(|row| BOUND.contains(&row.workload.name) && row.speed() < LEAST);
    let behind: Vec<String> = behind.map(|row| format!("{} {:.2}", row.workload.name, row.speed())).collect();
    let behind = if behind.is_empty() { "none".into() } else { behind.join("; ") };
    println!("of the {} rows that should have {LEAST} of the speed of C, below it: {behind}", BOUND.len());
}

/// What a record of an event list costs, and a journal, in instructions of the host.
fn print_costs() {
    let of = |name: &str| instructions("xm23_run", &[name, "rattle"]);
    let Some((none, list)) = of("no list").zip(of("list")) else {
        return println!("host instructions: valgrind is not here");
    };
    println!("a record of a list of 4,096, n 0: {:.1} host instructions", (list - none) / 4_096.0);
    print_journal();
    print_judged();
    print_trace();
}

/// Runs a workload once, and gives the seconds, the steps and what the runs left.
fn once(engine: Engine, workload: &Workload) -> (f64, u64, Vec<Input>) {
    let (mut work, mut steps) = (workload.inputs.clone(), 0);
    let clock = Instant::now();
    for i in &mut work {
        for _ in 0..workload.calls {
            steps += machine::steps_of(engine.run(i));
        }
    }
    (clock.elapsed().as_secs_f64(), steps, work)
}

/// How many times longer the proved library takes for one input than for another.
fn ratio(inputs: [Input; 2]) -> f64 {
    let (workloads, mut best) = (inputs.map(|input| one("", input)), [f64::INFINITY; 2]);
    for [engine, _] in [LAYOUTS; PASSES * TURNS].into_iter().flatten() {
        for (time, workload) in best.iter_mut().zip(&workloads) {
            *time = time.min(once(engine, workload).0);
        }
    }
    best[0] / best[1]
}

/// The C interpreter beside the oracle, on random inputs of every kind.
fn hold_to_the_oracle() {
    for kind in KINDS {
        for seed in 1..=5_000 {
            let mut theirs = input(kind, seed);
            let mut ours = theirs.clone();
            let replies = [C.run(&mut ours), Engine::Oracle.run(&mut theirs)];
            assert!(replies[0] == replies[1] && ours == theirs, "{kind:?} {seed}: the C interpreter differs");
        }
    }
}

/// Compares the outcomes of a workload, of every engine in every layout, and gives its steps.
fn compare(workload: &Workload) -> u64 {
    let (_, steps, left) = once(Engine::Oracle, workload);
    for engines in [[RATTLE, C]].into_iter().chain(LAYOUTS) {
        for (engine, name) in engines.into_iter().zip(["the proved library", "the C interpreter"]) {
            let ours = once(engine, workload);
            assert!(ours.1 == steps && ours.2 == left, "{}: {name} differs", workload.name);
        }
    }
    steps
}

fn main() {
    let words: Vec<String> = std::env::args().skip(1).filter(|word| !word.starts_with('-')).collect();
    if let [name, engine] = &words[..] {
        // One after the other: a workload that is not asked for is not made.
        let groups: [Group; 5] = [loops, kinds, lists, cut, timed];
        let workload = groups.iter().flat_map(|group| group()).find(|w| w.name == name).expect("a workload");
        if engine == "judge" {
            return println!("{} steps", once_judged(&workload.inputs).1);
        }
        if ["journal", "back"].contains(&engine.as_str()) {
            return println!("{} steps", once_kept(&workload.inputs, engine == "back").1);
        }
        if let Some((_, kinds)) = [("trace", EVERY), ("sparse", SPARSE)].into_iter().find(|e| e.0 == engine) {
            return println!("{} steps", once_traced(&workload.inputs, kinds).1);
        }
        let engines = [("rattle", RATTLE), ("c", C), ("oracle", Engine::Oracle)];
        let engine = engines.iter().find(|e| e.0 == engine).expect("an engine").1;
        println!("{} steps", once(engine, &workload).1);
        return;
    }
    if words == ["counts"] {
        print_table(&[(loops, true), (kinds, true), (cut, true)]);
        return print_costs();
    }
    if words == ["times"] {
        return print_table(&[(loops, false), (kinds, false), (cut, false), (timed, false)]);
    }
    hold_to_the_oracle();
    print_table(&[(loops, true), (kinds, true), (cut, true), (timed, false)]);
    let events = ratio([mixed(4_096, 1_000_000), mixed(0, 1_000_000)]);
    println!("a million steps with 4,096 events take {events:.2} times those with none");
    let screen = ratio([screen(true, 1_000_000), screen(false, 1_000_000)]);
    println!("a character every 10th step, logged, takes {screen:.2} times the same with ENA clear");
    let kept = (0..PASSES * TURNS).map(|_| once_kept(&[mixed(0, 1_000_000)], false).0).fold(f64::INFINITY, f64::min);
    println!("mixed loop with a journal: {:.1} million steps a second", 1.0 / kept);
    print_costs();
}
