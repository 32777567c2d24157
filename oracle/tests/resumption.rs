//! Random search for a run that meets the premises of 01 "Depth" or of "Resumption" as 02 §13 has it, and breaks their
//! promise. The seeds are fixed; XM23_SEARCH=N walks N setups from a seed of the clock.

use oracle::programs::setup;
use oracle::resume::{Broken, Met, Premise, Reading, Walk, DEPTH, RESUMPTION};
use std::thread;

/// Premises that the promises do not need, though 01 and 02 word them.
const IDLE_RESUMPTION: [Premise; 3] = [Premise::NotHalted, Premise::DeviceSvc, Premise::OwnClosed];
const IDLE_DEPTH: [Premise; 2] = [Premise::NoSvc, Premise::NoStrayReturn];

/// For each premise of a list: the setups with a close that breaks it alone, and those where the promise then fails.
#[derive(Clone, Debug)]
struct Dropped {
    list: &'static [Premise],
    alone: Vec<u64>,
    failed: Vec<u64>,
}

impl Dropped {
    fn new(list: &'static [Premise]) -> Dropped {
        Dropped { list, alone: vec![0; list.len()], failed: vec![0; list.len()] }
    }

    /// Marks this close for the premise that alone is broken.
    fn mark(&mut self, broken: Broken, holds: bool) {
        if let Some(i) = self.list.iter().position(|&p| broken.only(p)) {
            self.alone[i] = 1;
            self.failed[i] |= u64::from(!holds);
        }
    }

    fn add(&mut self, other: &Dropped) {
        for i in 0..self.list.len() {
            self.alone[i] += other.alone[i];
            self.failed[i] += other.failed[i];
        }
    }

    fn print(&self, idle: &[Premise]) {
        for (i, p) in self.list.iter().enumerate() {
            println!("  {p:?} broken alone: {} setups, promise failed in {}", self.alone[i], self.failed[i]);
            assert!(!idle.contains(p) || self.alone[i] > 0 && self.failed[i] == 0, "{p:?} is not idle");
        }
    }
}

/// The names of what runs met, in the order of `features`.
const FEATURES: [&str; 14] = [
    "nested",
    "chained",
    "with an odd SP",
    "with a frame across address 0",
    "with one on device registers",
    "with one on vectors",
    "interrupted in a CEX block",
    "with SETPRI downwards",
    "with SETPRI downwards in a handler",
    "across a return of SVC",
    "across SVC in a handler of SVC",
    "interrupted in a handler of SVC",
    "chained onto a return of SVC",
    "with SP moved by a handler of SVC",
];

fn features(met: &Met) -> [bool; 14] {
    [
        met.deepest > 1,
        met.chained,
        met.odd_sp,
        met.across_zero,
        met.on_devices,
        met.on_vectors,
        met.in_block,
        met.lowered,
        met.handler_lowered,
        met.own_closed > 0,
        met.nested_svc,
        met.inside_svc,
        met.onto_svc,
        met.moved,
    ]
}

/// What was found over the setups.
#[derive(Clone, Debug)]
struct Tally {
    /// Setups with a run that meets the premises of Resumption after a frame was closed, and what those runs met.
    resumption: u64,
    met: [u64; 14],
    /// Setups with a run that meets the premises of Depth with a frame open, and those that reach the bound.
    depth: u64,
    bound: u64,
    deepest: usize,
    resumption_dropped: Dropped,
    depth_dropped: Dropped,
}

impl Tally {
    fn new() -> Tally {
        Tally {
            resumption: 0,
            met: [0; 14],
            depth: 0,
            bound: 0,
            deepest: 0,
            resumption_dropped: Dropped::new(&RESUMPTION),
            depth_dropped: Dropped::new(&DEPTH),
        }
    }

    fn add(&mut self, other: &Tally) {
        self.resumption += other.resumption;
        self.depth += other.depth;
        self.bound += other.bound;
        self.deepest = self.deepest.max(other.deepest);
        self.met = std::array::from_fn(|i| self.met[i] + other.met[i]);
        self.resumption_dropped.add(&other.resumption_dropped);
        self.depth_dropped.add(&other.depth_dropped);
    }

    fn print(&self) {
        println!("{} setups meet the premises of Resumption and close a frame:", self.resumption);
        FEATURES.iter().zip(self.met).for_each(|(name, count)| println!("  {count} {name}"));
        self.resumption_dropped.print(&IDLE_RESUMPTION);
        let (depth, bound, deepest) = (self.depth, self.bound, self.deepest);
        println!(
            "{depth} setups meet the premises of Depth and open a frame, {bound} reach the bound, {deepest} deep:"
        );
        self.depth_dropped.print(&IDLE_DEPTH);
    }
}

/// Judges every close of a setup's run.
fn search(seed: u64) -> Tally {
    let setup = setup(seed);
    let mut walk = Walk::new(&setup, Reading::Decided);
    let mut tally = Tally::new();
    for step in 0..=setup.n {
        let close = walk.close();
        if close.resumption.none() {
            assert!(close.resumes, "seed {seed}: after {step} steps the promise of Resumption fails");
            tally.resumption = u64::from(close.met.closed > 0);
            tally.met = features(&close.met).map(u64::from);
        }
        if close.depth.none() {
            assert!(close.bounded, "seed {seed}: after {step} steps the promise of Depth fails");
            tally.deepest = close.met.deepest;
            tally.depth = u64::from(close.met.deepest > 0);
            tally.bound |= u64::from(close.met.deepest > 0 && close.met.deepest == usize::from(7 - close.lowest));
        }
        tally.resumption_dropped.mark(close.resumption, close.resumes);
        tally.depth_dropped.mark(close.depth, close.bounded);
        if walk.hopeless() {
            break;
        }
        walk.step();
    }
    if tally.resumption == 0 {
        tally.met = [0; 14];
    }
    tally
}

/// Searches on two threads, every other seed on each.
fn search_all(first: u64, setups: u64) -> Tally {
    let half = |from: u64| {
        let mut tally = Tally::new();
        (first + from..first + setups).step_by(2).for_each(|seed| tally.add(&search(seed)));
        tally
    };
    thread::scope(|scope| {
        let other = scope.spawn(move || half(1));
        let mut tally = half(0);
        tally.add(&other.join().expect("no counterexample"));
        tally
    })
}

/// The judge goes by what each step tells of its writes, so that must be all of them.
#[test]
fn every_written_byte_is_told() {
    for seed in 1..2_000 {
        let mut setup = setup(seed);
        let mut told = setup.memory.clone();
        for _ in 0..setup.n {
            let Some(trace) = setup.machine.step(&mut setup.memory, &setup.events) else { break };
            let devices = 0..16u16;
            for a in devices.chain(trace.written).map(usize::from) {
                told[a] = setup.memory[a];
            }
        }
        assert!(told == setup.memory, "seed {seed}");
    }
}

#[test]
fn no_run_breaks_depth_or_resumption() {
    let (first, setups) = match std::env::var("XM23_SEARCH") {
        Ok(n) => {
            let clock = std::time::SystemTime::now().duration_since(std::time::UNIX_EPOCH).unwrap();
            (clock.as_nanos() as u64, n.parse().expect("a number of setups"))
        }
        Err(_) => (1, 120_000u64),
    };
    println!("{setups} setups from seed {first}");
    let tally = search_all(first, setups);
    tally.print();
    assert!(tally.resumption > setups / 4 && tally.depth > setups / 2 && tally.bound > setups / 200);
    for (name, count) in FEATURES.iter().zip(tally.met) {
        assert!(count > setups / 200, "only {count} {name}");
    }
    assert_eq!(tally.deepest, 7);
}
