//! The proved search and the proved mark alone, from libgauge.a: to tell how much of a decode lies outside them.
//!
//! Why it is sound: as in the package juzambore, a pointer and a length come from one slice, and a slice that is
//! written overlaps no other.

extern "C" {
    fn gauge_search(
        n: u32, heard: *const u8, heard_len: usize, train: *mut u8, train_len: usize, words: *mut u64, words_len: usize,
    ) -> u32;
    fn gauge_mark(n: u32, heard: *const u8, heard_len: usize, train: *const u8, train_len: usize) -> u32;
}

/// The cost of the least train, which goes to `train`. `heard` has 2(n + 6) soft bytes counted from -128, 0 is not
/// heard.
pub fn search(n: u32, heard: &[u8], train: &mut [u8], words: &mut [u64]) -> u32 {
    let (to, work) = ((train.as_mut_ptr(), train.len()), (words.as_mut_ptr(), words.len()));
    unsafe { gauge_search(n, heard.as_ptr(), heard.len(), to.0, to.1, work.0, work.1) }
}

/// 1 if the train is confirmed, 0 if not.
pub fn mark(n: u32, heard: &[u8], train: &[u8]) -> u32 {
    unsafe { gauge_mark(n, heard.as_ptr(), heard.len(), train.as_ptr(), train.len()) }
}
