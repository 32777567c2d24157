//! The call for a word's text of libxm23.a, for Rust.

#[link(name = "xm23", kind = "static")]
extern "C" {
    fn xm23_text(word: u16, place: u16, text: *mut u8, text_len: usize) -> u32;
}

/// The text of a word at a place, at the start of a buffer, by the proved library.
pub fn text(word: u16, place: u16, buffer: &mut [u8]) -> u32 {
    // The buffer is lent for its own length.
    unsafe { xm23_text(word, place, buffer.as_mut_ptr(), buffer.len()) }
}
