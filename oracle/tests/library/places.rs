//! The call of libxm23.a that tells what stands where in a source, for Rust.

use oracle::places::Lent;

#[link(name = "xm23", kind = "static")]
extern "C" {
    fn xm23_places(source: *const u8, source_len: usize, places: *mut u8, places_len: usize) -> u64;
}

/// Lists a source in place by the proved library.
pub fn places(lent: &mut Lent) -> u64 {
    let (source, places) = (&lent.source, &mut lent.places);
    // Two buffers, each lent for its own length.
    unsafe { xm23_places(source.as_ptr(), source.len(), places.as_mut_ptr(), places.len()) }
}
