//! The assembler's call of libxm23.a, for Rust.

use oracle::assemble_inputs::Input;

#[link(name = "xm23", kind = "static")]
extern "C" {
    fn xm23_assemble(memory: *mut u8, memory_len: usize, source: *const u8, source_len: usize) -> u64;
}

/// Assembles an input in place by the proved library.
pub fn assemble(i: &mut Input) -> u64 {
    // Two buffers, each lent for its own length.
    unsafe { xm23_assemble(i.memory.as_mut_ptr(), i.memory.len(), i.source.as_ptr(), i.source.len()) }
}
