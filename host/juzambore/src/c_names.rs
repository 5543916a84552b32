//! The library's C names: what juzambore.h declares and says.
#![allow(missing_docs)]
use crate::Answer;

#[repr(C)]
pub struct CPoint {
    pub refusal: u32,
    pub i: f32,
    pub q: f32,
}

#[repr(C)]
pub struct CAnswer {
    pub refusal: u32,
    pub symbols: u32,
    pub n: u32,
    pub cost: u32,
    pub confirmed: u32,
    pub comparisons: u32,
}

extern "C" {
    pub fn juzambore_encode(
        kind: u32, count: u32, modes: *const u32, lengths: *const u32, counter: u32, a: u32, octets: *const u8,
        octets_len: usize, sent: *mut u8, sent_len: usize,
    ) -> u32;
    pub fn juzambore_ideal(
        count: u32, modes: *const u32, lengths: *const u32, sent: *const u8, sent_len: usize, i: *mut i16,
        i_len: usize, q: *mut i16, q_len: usize,
    ) -> u32;
    pub fn juzambore_mapped(mode: u32, group: u32) -> CPoint;
    pub fn juzambore_soften(
        count: u32, modes: *const u32, lengths: *const u32, i: *const i16, i_len: usize, q: *const i16, q_len: usize,
        soft: *mut i8, soft_len: usize,
    ) -> u32;
    pub fn juzambore_decode_soft(
        kind: u32, count: u32, modes: *const u32, lengths: *const u32, counter: u32, a: u32, soft: *const i8,
        soft_len: usize, octets: *mut u8, octets_len: usize, words: *mut u64, words_len: usize,
    ) -> CAnswer;
    pub fn juzambore_decode_readings(
        kind: u32, count: u32, modes: *const u32, lengths: *const u32, counter: u32, a: u32, i: *const i16,
        i_len: usize, q: *const i16, q_len: usize, octets: *mut u8, octets_len: usize, words: *mut u64,
        words_len: usize,
    ) -> CAnswer;
}

impl From<CAnswer> for Answer {
    fn from(CAnswer { refusal, symbols, n, cost, confirmed, comparisons }: CAnswer) -> Answer {
        Answer { refusal, symbols, n, cost, confirmed: confirmed != 0, comparisons }
    }
}
