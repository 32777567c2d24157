//! The run call of libxm23.a, for Rust.

#[macro_use]
#[path = "declared.rs"]
mod declared;

use oracle::inputs::Input;

run_call!(xm23_run, n: u64);

/// Runs an input in place by the proved library.
pub fn library(i: &mut Input) -> u64 {
    let (memory, record, events, log) = (&mut i.memory, &mut i.record, &i.events, &mut i.log);
    // Each buffer is lent for its own length, and none overlaps another or the number.
    unsafe {
        xm23_run(
            memory.as_mut_ptr(),
            memory.len(),
            record.as_mut_ptr(),
            record.len(),
            events.as_ptr(),
            events.len(),
            log.as_mut_ptr(),
            log.len(),
            &mut i.deepest,
            i.n,
        )
    }
}
