//! The two calls on a journal of libxm23.a, for Rust.

#[macro_use]
#[path = "declared.rs"]
mod declared;

use oracle::journal::Held;
use oracle::journal_compare::Engine;

run_call!(xm23_run_journal, journal: *mut u8, journal_len: usize, kept: *mut u32, place: *mut u32, n: u64);

#[link(name = "xm23", kind = "static")]
extern "C" {
    pub fn xm23_back(
        memory: *mut u8,
        memory_len: usize,
        record: *mut u8,
        record_len: usize,
        journal: *const u8,
        journal_len: usize,
        kept: *mut u32,
        place: *mut u32,
        k: u64,
    ) -> u32;
}

/// Runs in place by the proved library.
fn run(held: &mut Held) -> u64 {
    let (i, j) = (&mut held.input, &mut held.journal);
    let (m, r, e, l) = (i.memory.as_mut_ptr(), i.record.as_mut_ptr(), i.events.as_ptr(), i.log.as_mut_ptr());
    let (ml, rl, el, ll, jl) = (i.memory.len(), i.record.len(), i.events.len(), i.log.len(), j.bytes.len());
    // Each buffer is lent for its own length, and none overlaps another or a number.
    unsafe {
        let bytes = j.bytes.as_mut_ptr();
        xm23_run_journal(m, ml, r, rl, e, el, l, ll, &mut i.deepest, bytes, jl, &mut j.kept, &mut j.place, i.n)
    }
}

/// Goes back in place by the proved library.
fn back(held: &mut Held, k: u64) -> u64 {
    let (i, j) = (&mut held.input, &mut held.journal);
    let (m, r, ml, rl) = (i.memory.as_mut_ptr(), i.record.as_mut_ptr(), i.memory.len(), i.record.len());
    unsafe { xm23_back(m, ml, r, rl, j.bytes.as_ptr(), j.bytes.len(), &mut j.kept, &mut j.place, k) }.into()
}

pub const LIBRARY: Engine = Engine { run, back };
