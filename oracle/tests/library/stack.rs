//! The call for stack bytes of libxm23.a, for Rust.

use oracle::stack::Stack;

#[link(name = "xm23", kind = "static")]
extern "C" {
    fn xm23_stack(vectors: *const u8, vectors_len: usize, devices: u8, uses: *const u8, uses_len: usize, p: u32)
        -> u32;
}

/// The reply of the proved library.
pub fn stack(i: &Stack) -> u32 {
    let (vectors, uses) = (&i.vectors, &i.uses);
    // Two buffers, each lent for its own length.
    unsafe { xm23_stack(vectors.as_ptr(), vectors.len(), i.devices, uses.as_ptr(), uses.len(), i.priority) }
}
