//! The judge call of libxm23.a, for Rust.

use oracle::judge::Case;

#[link(name = "xm23", kind = "static")]
extern "C" {
    fn xm23_judge(
        memory: *mut u8,
        memory_len: usize,
        record: *mut u8,
        record_len: usize,
        events: *const u8,
        events_len: usize,
        writers: *mut u8,
        writers_len: usize,
        findings: *mut u8,
        findings_len: usize,
        n: u64,
    ) -> u64;
}

/// Judges a case in place by the proved library.
pub fn judge(case: &mut Case) -> u64 {
    let Case { input: i, writers, findings } = case;
    // Each buffer is lent for its own length, and none overlaps another.
    unsafe {
        xm23_judge(
            i.memory.as_mut_ptr(),
            i.memory.len(),
            i.record.as_mut_ptr(),
            i.record.len(),
            i.events.as_ptr(),
            i.events.len(),
            writers.as_mut_ptr(),
            writers.len(),
            findings.as_mut_ptr(),
            findings.len(),
            i.n,
        )
    }
}
