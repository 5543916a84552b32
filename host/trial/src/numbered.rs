//! The calls that take a kind by their C names, with a number for it, whatever kind is asked for.
//!
//! Why it is sound: as in the package juzambore, a pointer and a length come from one slice, a slice that is written
//! overlaps no other, and modes and lengths are sixteen numbers each.
use juzambore::c_names::{juzambore_decode_readings, juzambore_decode_soft, juzambore_encode};
use juzambore::{Answer, Kind};

#[allow(clippy::too_many_arguments)]
pub fn encode<const KIND: u32>(
    _: Kind, count: u32, modes: &[u32; 16], lengths: &[u32; 16], counter: u32, a: u32, octets: &[u8], sent: &mut [u8],
) -> u32 {
    let (modes, lengths) = (modes.as_ptr(), lengths.as_ptr());
    let (from, to) = ((octets.as_ptr(), octets.len()), (sent.as_mut_ptr(), sent.len()));
    unsafe { juzambore_encode(KIND, count, modes, lengths, counter, a, from.0, from.1, to.0, to.1) }
}

#[allow(clippy::too_many_arguments)]
pub fn decode_soft<const KIND: u32>(
    _: Kind, count: u32, modes: &[u32; 16], lengths: &[u32; 16], counter: u32, a: u32, soft: &[i8], octets: &mut [u8],
    words: &mut [u64],
) -> Answer {
    let (modes, lengths) = (modes.as_ptr(), lengths.as_ptr());
    let (to, work) = ((octets.as_mut_ptr(), octets.len()), (words.as_mut_ptr(), words.len()));
    let from = (soft.as_ptr(), soft.len());
    let answer = unsafe {
        juzambore_decode_soft(KIND, count, modes, lengths, counter, a, from.0, from.1, to.0, to.1, work.0, work.1)
    };
    answer.into()
}

#[allow(clippy::too_many_arguments)]
pub fn decode_readings<const KIND: u32>(
    _: Kind, count: u32, modes: &[u32; 16], lengths: &[u32; 16], counter: u32, a: u32, i: &[i16], q: &[i16],
    octets: &mut [u8], words: &mut [u64],
) -> Answer {
    let (modes, lengths) = (modes.as_ptr(), lengths.as_ptr());
    let (on_i, on_q) = ((i.as_ptr(), i.len()), (q.as_ptr(), q.len()));
    let (to, work) = ((octets.as_mut_ptr(), octets.len()), (words.as_mut_ptr(), words.len()));
    let answer = unsafe {
        juzambore_decode_readings(
            KIND, count, modes, lengths, counter, a, on_i.0, on_i.1, on_q.0, on_q.1, to.0, to.1, work.0, work.1,
        )
    };
    answer.into()
}
