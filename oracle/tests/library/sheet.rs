//! The call for the printed line of libxm23.a, for Rust.

#[link(name = "xm23", kind = "static")]
extern "C" {
    fn xm23_sheet(input: *const u8, input_len: usize, line: *mut u8, line_len: usize) -> u32;
}

/// The line of an input, at the start of a buffer, by the proved library.
pub fn sheet_call(input: &[u8], line: &mut [u8]) -> u32 {
    // Two buffers, each lent for its own length.
    unsafe { xm23_sheet(input.as_ptr(), input.len(), line.as_mut_ptr(), line.len()) }
}
