//! The two yardsticks in Rust under C names, as the proved library has its own. Build it as a static library with
//! `rustc -C opt-level=3 --crate-type staticlib yardsticks.rs`.
use std::slice::{from_raw_parts, from_raw_parts_mut};

mod ordinary;
mod same_shape;

const MOST: usize = 3472;
const REFUSED: u32 = 0xffff_ffff;

type Search = fn(usize, &[u8], &mut [u8], &mut [u64]) -> u32;
type Mark = fn(usize, &[u8], &[u8]) -> bool;

fn search(f: Search, n: u32, heard: &[u8], train: &mut [u8], words: &mut [u64]) -> u32 {
    let n = n as usize;
    if n > MOST || heard.len() != 2 * (n + 6) || train.len() < n || words.len() < n + 6 {
        return REFUSED;
    }
    f(n, heard, &mut train[..n], &mut words[..n + 6])
}

fn mark(f: Mark, n: u32, heard: &[u8], train: &[u8]) -> u32 {
    let n = n as usize;
    if n > MOST || heard.len() != 2 * (n + 6) || train.len() < n || train[..n].iter().any(|&bit| bit > 1) {
        return REFUSED;
    }
    f(n, heard, &train[..n]) as u32
}

macro_rules! c_names {
    ($search:ident, $mark:ident, $from:ident) => {
        /// # Safety
        /// Each pointer must be good for its length, and the buffers must not overlap.
        #[no_mangle]
        pub unsafe extern "C" fn $search(
            n: u32,
            heard: *const u8,
            heard_len: usize,
            train: *mut u8,
            train_len: usize,
            words: *mut u64,
            words_len: usize,
        ) -> u32 {
            let train = from_raw_parts_mut(train, train_len);
            let words = from_raw_parts_mut(words, words_len);
            search($from::search, n, from_raw_parts(heard, heard_len), train, words)
        }

        /// # Safety
        /// Each pointer must be good for its length.
        #[no_mangle]
        pub unsafe extern "C" fn $mark(
            n: u32,
            heard: *const u8,
            heard_len: usize,
            train: *const u8,
            train_len: usize,
        ) -> u32 {
            mark($from::mark, n, from_raw_parts(heard, heard_len), from_raw_parts(train, train_len))
        }
    };
}

c_names!(shape_search, shape_mark, same_shape);
c_names!(ordinary_search, ordinary_mark, ordinary);
