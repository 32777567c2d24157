//! Compares the library with the oracle on more inputs than the gate does. `fuzz INPUTS [SEED]` runs so many of each
//! kind, a tenth as many sessions with a journal, a quarter as many of each kind of S-record file and of source,
//! assembled and listed, and as many calls for stack bytes and judged runs, from a seed of the clock if none is given, and saves the
//! first difference under build/fuzz. `fuzz replay FOLDER` runs a saved input again, or a saved call on a journal, for
//! S-records, source or places.
//! The exit status is 1 where there is a difference, and 2, with one line, where the command cannot be carried out.

#[path = "../tests/library/mod.rs"]
mod library;
#[path = "../tests/library/assemble.rs"]
mod library_assemble;
#[path = "../tests/library/journal.rs"]
mod library_journal;
#[path = "../tests/library/judge.rs"]
mod library_judge;
#[path = "../tests/library/places.rs"]
mod library_places;
#[path = "../tests/library/srec.rs"]
mod library_srec;
#[path = "../tests/library/stack.rs"]
mod library_stack;

use library::library;
use oracle::assemble_compare;
use oracle::assemble_inputs;
use oracle::compare::{compare, compare_many, folder, saved, Found};
use oracle::coverage::Coverage;
use oracle::inputs::KINDS;
use oracle::journal_compare;
use oracle::judge;
use oracle::places;
use oracle::random::Random;
use oracle::srec_compare::{self, Reached};
use oracle::srec_inputs;
use oracle::stack::Stack;
use std::path::Path;
use std::process::ExitCode;
use std::sync::Mutex;
use std::time::{Duration, Instant, SystemTime, UNIX_EPOCH};

/// How often progress is told.
const PAUSE: Duration = Duration::from_secs(2);

/// What was found: no difference, one, or nothing since the command cannot be carried out.
type Outcome = Result<bool, String>;

fn main() -> ExitCode {
    let words: Vec<String> = std::env::args().skip(1).collect();
    let words: Vec<&str> = words.iter().map(String::as_str).collect();
    match command(&words) {
        Ok(fine) => ExitCode::from(u8::from(!fine)),
        Err(text) => {
            eprintln!("fuzz: {text}");
            ExitCode::from(2)
        }
    }
}

fn command(words: &[&str]) -> Outcome {
    let number = |name: &str, text: &str| text.parse::<u64>().map_err(|_| format!("{name}={text} is no number"));
    match *words {
        ["replay", place] => replay(Path::new(place)),
        [inputs] => Ok(fuzz(number("INPUTS", inputs)?, clock())),
        [inputs, seed] => Ok(fuzz(number("INPUTS", inputs)?, number("SEED", seed)?)),
        _ => Err("usage: fuzz INPUTS [SEED], or fuzz replay FOLDER".to_string()),
    }
}

/// A seed that no other run has had.
fn clock() -> u64 {
    let time = SystemTime::now().duration_since(UNIX_EPOCH).expect("a clock");
    time.as_nanos() as u64 >> 8
}

/// Compares on `inputs` inputs of each kind. Gives whether all are the same.
fn fuzz(inputs: u64, seed: u64) -> bool {
    println!("seed {seed}: {inputs} inputs of each of {} kinds (again: make fuzz SEED={seed})", KINDS.len());
    for kind in KINDS {
        let (start, told) = (Instant::now(), Mutex::new(Instant::now()));
        let tell = |done: u64| {
            let mut told = told.lock().expect("no panic");
            if told.elapsed() > PAUSE {
                *told = Instant::now();
                println!("{kind:?}: {done} of {inputs}, no difference yet");
            }
        };
        if let Err(found) = compare_many(library, kind, seed, inputs, &tell) {
            return report(found, seed);
        }
        println!("{kind:?}: {inputs} of {inputs}, no difference, {:.1} s", start.elapsed().as_secs_f64());
    }
    journal(inputs / 10, seed)
        && srec(inputs / 4, seed)
        && sources(inputs / 4, seed)
        && listed(inputs / 4, seed)
        && stack(inputs, seed)
        && judged(inputs, seed)
}

/// Compares judged runs. A difference is told with its seed, which makes the case again.
fn judged(inputs: u64, seed: u64) -> bool {
    let start = Instant::now();
    let differs = |i: u64| judge::difference(library_judge::judge, seed.wrapping_add(i)).map(|what| (i, what));
    if let Some((i, what)) = (0..inputs).find_map(differs) {
        println!("judged run of seed {}: {what}", seed.wrapping_add(i));
        return false;
    }
    println!("judged runs: {inputs}, no difference, {:.1} s", start.elapsed().as_secs_f64());
    true
}

/// Compares sessions of runs and goings-back.
fn journal(sessions: u64, seed: u64) -> bool {
    let (start, mut reached) = (Instant::now(), journal_compare::Reached::default());
    let found = journal_compare::compare_many(library_journal::LIBRARY, seed, sessions, &mut reached);
    let Err((at, difference)) = found else {
        println!("journal: {sessions} sessions, no difference, {:.1} s", start.elapsed().as_secs_f64());
        return true;
    };
    println!("journal {at}: {}", difference.what);
    match difference.save(&folder(), &format!("journal-{at}")) {
        Ok(place) => println!("saved in {} (again: make replay FOUND={0})", place.display()),
        Err(e) => println!("not saved: {e}"),
    }
    false
}

/// Compares sources of every kind, those of the repository mutated among them.
fn sources(inputs: u64, seed: u64) -> bool {
    let (start, mut reached) = (Instant::now(), assemble_compare::Reached::default());
    let kinds = assemble_inputs::KINDS;
    let mut one = |kind| {
        let many = if kind == assemble_inputs::Kind::Names { inputs / 10 } else { inputs };
        assemble_compare::compare_many(library_assemble::assemble, kind, seed, many, &mut reached)
    };
    let Some(found) = kinds.into_iter().find_map(|kind| one(kind).err()) else {
        let time = start.elapsed().as_secs_f64();
        println!("sources: {inputs} of each of {} kinds, no difference, {time:.1} s", kinds.len());
        return true;
    };
    println!("{}: {}", found.name, found.difference.what);
    match found.difference.save(&folder(), &found.name) {
        Ok(place) => println!("saved in {}", place.display()),
        Err(e) => println!("not saved: {e}"),
    }
    false
}

/// Compares what stands where in sources of every kind, with buffers of every length.
fn listed(inputs: u64, seed: u64) -> bool {
    let (start, mut reached) = (Instant::now(), places::Reached::default());
    let kinds = assemble_inputs::KINDS;
    let mut one = |kind| {
        let many = if kind == assemble_inputs::Kind::Names { inputs / 10 } else { inputs };
        places::compare_many(library_places::places, kind, seed, many, &mut reached)
    };
    let Some((name, difference)) = kinds.into_iter().find_map(|kind| one(kind).err()) else {
        let time = start.elapsed().as_secs_f64();
        println!("places: {inputs} of each of {} kinds, no difference, {time:.1} s", kinds.len());
        return true;
    };
    println!("{name}: {}", difference.what);
    match difference.save(&folder(), &name) {
        Ok(_) => println!("saved in build/fuzz/{name} (again: make replay FOUND=build/fuzz/{name})"),
        Err(e) => println!("not saved: {e}"),
    }
    false
}

/// Compares calls for stack bytes with every choice of devices tried. A difference is printed whole.
fn stack(inputs: u64, seed: u64) -> bool {
    let (start, mut random) = (Instant::now(), Random::new(seed));
    let mut calls = (0..inputs).map(|_| Stack::random(&mut random));
    if let Some(call) = calls.find(|call| library_stack::stack(call) != call.reply()) {
        println!("stack bytes: {:#X} and not {:#X} of {call:?}", library_stack::stack(&call), call.reply());
        return false;
    }
    println!("stack bytes: {inputs} calls, no difference, {:.1} s", start.elapsed().as_secs_f64());
    true
}

/// Compares loads and writes of S-records: files of every kind, real ones mutated among them.
fn srec(inputs: u64, seed: u64) -> bool {
    let (start, mut reached) = (Instant::now(), Reached::default());
    let mut load = |kind| srec_compare::loads(library_srec::load, kind, seed, inputs, &mut reached);
    let found = srec_inputs::KINDS.into_iter().find_map(|kind| load(kind).err());
    let write =
        || srec_compare::writes((library_srec::write, library_srec::load), seed, inputs, &mut Reached::default());
    let Some(found) = found.or_else(|| write().err()) else {
        let (kinds, time) = (srec_inputs::KINDS.len(), start.elapsed().as_secs_f64());
        println!("S-records: {inputs} loads of each of {kinds} kinds and {inputs} writes, no difference, {time:.1} s");
        return true;
    };
    println!("{}: {}", found.name, found.difference.what);
    match found.difference.save(&folder(), &found.name) {
        Ok(_) => println!("saved in build/fuzz/{0} (again: make replay FOUND=build/fuzz/{0})", found.name),
        Err(e) => println!("not saved: {e}"),
    }
    false
}

fn report(found: Found, first: u64) -> bool {
    let Found { kind, seed, difference } = found;
    let name = format!("{first}-{}-{}", format!("{kind:?}").to_lowercase(), seed - first);
    println!("{kind:?} {seed}: {}", difference.what);
    match difference.save(&folder(), &name) {
        Ok(_) => println!("saved in build/fuzz/{name} (again: make replay FOUND=build/fuzz/{name})"),
        Err(e) => println!("not saved: {e}"),
    }
    false
}

/// Runs a saved input again, and tells what both leave where they differ.
fn replay(place: &Path) -> Outcome {
    if assemble_compare::is_saved(place) {
        return replay_source(place);
    }
    if places::is_saved(place) {
        return replay_places(place);
    }
    if srec_compare::is_saved(place) {
        return replay_srec(place);
    }
    if journal_compare::is_saved(place) {
        return replay_journal(place);
    }
    let input = saved(place).map_err(|e| format!("{}: {e}", place.display()))?;
    match compare(library, &input, &mut Coverage::default()) {
        Ok(outcome) => {
            println!("no difference; both leave\n{}", outcome.text(&input));
            Ok(true)
        }
        Err(difference) => {
            println!("{}", difference.what);
            println!("oracle:\n{}library:\n{}", difference.oracle.text(&input), difference.library.text(&input));
            Ok(false)
        }
    }
}

/// Assembles a saved source again, and tells where the two differ.
fn replay_journal(place: &Path) -> Outcome {
    let call = journal_compare::replay(library_journal::LIBRARY, place);
    match call.map_err(|e| format!("{}: {e}", place.display()))? {
        Ok(reply) => println!("no difference; both reply {reply:016X}"),
        Err(difference) => {
            println!("{}", difference.what);
            return Ok(false);
        }
    }
    Ok(true)
}

fn replay_source(place: &Path) -> Outcome {
    let input = assemble_compare::saved(place).map_err(|e| format!("{}: {e}", place.display()))?;
    match assemble_compare::compare(library_assemble::assemble, &input, &mut assemble_compare::Reached::default()) {
        Ok(reply) => println!("no difference; both reply {reply:016X}"),
        Err(difference) => {
            println!("{}", difference.what);
            return Ok(false);
        }
    }
    Ok(true)
}

/// Lists a saved source again, and tells where the two differ.
fn replay_places(place: &Path) -> Outcome {
    let lent = places::saved(place).map_err(|e| format!("{}: {e}", place.display()))?;
    match places::compare(library_places::places, &lent, &mut places::Reached::default()) {
        Ok(reply) => println!("no difference; both reply {reply:016X}"),
        Err(difference) => {
            println!("{}", difference.what);
            return Ok(false);
        }
    }
    Ok(true)
}

/// Makes a saved call for S-records again, and tells where the two differ.
fn replay_srec(place: &Path) -> Outcome {
    let call = srec_compare::saved(place).map_err(|e| format!("{}: {e}", place.display()))?;
    match srec_compare::compare_call((library_srec::write, library_srec::load), &call) {
        Ok(reply) => println!("no difference; both reply {reply:016X}"),
        Err(difference) => {
            println!("{}", difference.what);
            return Ok(false);
        }
    }
    Ok(true)
}
