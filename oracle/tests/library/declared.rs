//! The parameters that a call of a run has before its own: four buffers, each with its length, and the depth.

/// Declares a call of libxm23.a that runs, by its name and the parameters after those of every run.
macro_rules! run_call {
    ($name:ident, $($own:ident: $kind:ty),+) => {
        #[link(name = "xm23", kind = "static")]
        extern "C" {
            pub fn $name(
                memory: *mut u8,
                memory_len: usize,
                record: *mut u8,
                record_len: usize,
                events: *const u8,
                events_len: usize,
                log: *mut u8,
                log_len: usize,
                deepest: *mut u32,
                $($own: $kind),+
            ) -> u64;
        }
    };
}
