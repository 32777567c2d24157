//! Time of a decode, of an encode, of a range, of a count, of a next word and of a text, the proved library beside the
//! oracle, on the same random words. Of the range the oracle has a table with an entry for each word, of counts and next
//! words a list for each operation.

use oracle::listing;
use oracle::number;
use oracle::operation;
use oracle::random::Random;

mod timing;

#[link(name = "xm23", kind = "static")]
extern "C" {
    fn xm23_decode(word: u16) -> u64;
    fn xm23_encode(instruction: u64) -> u32;
    fn xm23_range(word: u16) -> u64;
    fn xm23_count(operation: u32) -> u32;
    fn xm23_next(operation: u32, word: u32) -> u64;
    fn xm23_text(word: u16, place: u16, text: *mut u8, text_len: usize) -> u32;
}

/// The text of a word at a place, folded into a number with the reply.
fn folded(print: impl Fn(&mut [u8]) -> u32) -> u64 {
    let mut text = [0; 24];
    let reply = u64::from(print(&mut text));
    text.chunks(8).fold(reply, |sum, part| sum.rotate_left(5) ^ u64::from_le_bytes(part.try_into().expect("eight")))
}

fn main() {
    let mut random = Random::new(9);
    let words: Vec<u16> = (0..1 << 16).map(|_| random.word()).collect();
    let numbers: Vec<u64> = words.iter().map(|&word| number::xm23_decode(word)).collect();
    timing::heading();
    timing::compare("decode", &words, |&w| unsafe { xm23_decode(w) }, |&w| number::xm23_decode(w));
    timing::compare(
        "encode",
        &numbers,
        |&n| u64::from(unsafe { xm23_encode(n) }),
        |&n| u64::from(number::xm23_encode(n)),
    );
    let ranges = operation::replies();
    timing::compare("range", &words, |&w| unsafe { xm23_range(w) }, |&w| ranges[usize::from(w)]);
    let lists: Vec<Vec<u16>> = (0..42).map(operation::words).collect();
    let asked: Vec<(u32, u32)> = words.iter().map(|&word| (u32::from(word) % 42, u32::from(random.word()))).collect();
    timing::compare(
        "count",
        &asked,
        |&(o, _)| u64::from(unsafe { xm23_count(o) }),
        |&(o, _)| u64::from(operation::count(&lists[o as usize])),
    );
    timing::compare(
        "next",
        &asked,
        |&(o, w)| unsafe { xm23_next(o, w) },
        |&(o, w)| match lists[o as usize].partition_point(|&v| u32::from(v) < w) {
            at if o == 0 || at == lists[o as usize].len() => 0,
            at => 1 << 8 | u64::from(lists[o as usize][at]) << 16,
        },
    );
    timing::compare(
        "text",
        &words,
        |&w| folded(|text| unsafe { xm23_text(w, 0x1000, text.as_mut_ptr(), text.len()) }),
        |&w| folded(|text| listing::text_call(w, 0x1000, text)),
    );
}
