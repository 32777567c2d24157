//! The trace call of libxm23.a, for Rust.

use oracle::trace::Lent;

#[link(name = "xm23", kind = "static")]
extern "C" {
    fn xm23_trace(
        memory: *mut u8,
        memory_len: usize,
        record: *mut u8,
        record_len: usize,
        events: *const u8,
        events_len: usize,
        trace: *mut u8,
        trace_len: usize,
        kinds: u32,
        n: u64,
    ) -> u64;
}

/// Runs in place by the proved library.
pub fn library(lent: &mut Lent) -> u64 {
    let (m, r, e, t) = (&mut lent.memory, &mut lent.record, &lent.events, &mut lent.trace);
    // Each buffer is lent for its own length, and none overlaps another.
    unsafe {
        xm23_trace(
            m.as_mut_ptr(),
            m.len(),
            r.as_mut_ptr(),
            r.len(),
            e.as_ptr(),
            e.len(),
            t.as_mut_ptr(),
            t.len(),
            lent.kinds,
            lent.n,
        )
    }
}
