//! The calls for S-records of libxm23.a, for Rust.

use oracle::srec_inputs::{Load, Write};

#[link(name = "xm23", kind = "static")]
extern "C" {
    fn xm23_load_srec(memory: *mut u8, memory_len: usize, text: *const u8, text_len: usize, pc: u16) -> u64;
    fn xm23_write_srec(
        memory: *const u8,
        memory_len: usize,
        start: u16,
        length: u32,
        pc: u16,
        text: *mut u8,
        text_len: usize,
    ) -> u64;
}

/// Loads an input in place by the proved library.
pub fn load(i: &mut Load) -> u64 {
    // Two buffers, each lent for its own length.
    unsafe { xm23_load_srec(i.memory.as_mut_ptr(), i.memory.len(), i.text.as_ptr(), i.text.len(), i.pc) }
}

/// Writes an input in place by the proved library.
pub fn write(i: &mut Write) -> u64 {
    let (memory, text) = (&i.memory, &mut i.text);
    // Two buffers, each lent for its own length.
    unsafe { xm23_write_srec(memory.as_ptr(), memory.len(), i.start, i.length, i.pc, text.as_mut_ptr(), text.len()) }
}
