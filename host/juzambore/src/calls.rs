//! The safe functions over the library's C names.
//!
//! Why it is sound. The library asks three things of its caller: that each pointer is good for its length, that a
//! buffer it writes overlaps no other, and that its declarations are those of juzambore.h. A pointer and a length
//! always come from one slice, which is good for that many elements while it is borrowed, and a length goes as usize,
//! which is size_t. Modes and lengths go without one: they are arrays of the sixteen numbers that juzambore.h asks for.
//! A slice behind `&mut` overlaps no other borrowed one; two that are only read may, and no read can tell. Every other
//! value is a plain number, of which any is accepted, and every bit pattern of what is written or answered is a value
//! of its type.
use crate::c_names::{
    juzambore_decode_readings, juzambore_decode_soft, juzambore_encode, juzambore_ideal, juzambore_mapped,
    juzambore_soften, CPoint,
};
use crate::{Answer, Kind, Mapping};

/// The number of a kind in C, where any number but 0 is BCH.
fn number(kind: Kind) -> u32 {
    match kind {
        Kind::Data => 0,
        Kind::Bch => 1,
    }
}

/// The sent bits of a train, one to a byte, in the order after the interleaver. Refusals 1 to 8 and 11; of a BCH also
/// 12.
///
/// It needs `N / 8` octets in, and room for the train's sent bits. The first four bits of a BCH must be the counter.
#[allow(clippy::too_many_arguments)]
pub fn encode(
    kind: Kind, count: u32, modes: &[u32; 16], lengths: &[u32; 16], counter: u32, a: u32, octets: &[u8],
    sent: &mut [u8],
) -> u32 {
    let (modes, lengths) = (modes.as_ptr(), lengths.as_ptr());
    let (from, to) = ((octets.as_ptr(), octets.len()), (sent.as_mut_ptr(), sent.len()));
    unsafe { juzambore_encode(number(kind), count, modes, lengths, counter, a, from.0, from.1, to.0, to.1) }
}

/// The ideal readings of sent bits: 256 times the level, 48 to a symbol on each axis. Refusals 1, 3, 4, 5, 7, 8, 9, 11.
///
/// It needs the sent bits of a train of these PDUs, each 0 or 1, and room for 48 x symbols readings on each axis.
/// BPSK's readings of Q are 0.
pub fn ideal(count: u32, modes: &[u32; 16], lengths: &[u32; 16], sent: &[u8], i: &mut [i16], q: &mut [i16]) -> u32 {
    let (modes, lengths) = (modes.as_ptr(), lengths.as_ptr());
    let (on_i, on_q) = ((i.as_mut_ptr(), i.len()), (q.as_mut_ptr(), q.len()));
    let from = (sent.as_ptr(), sent.len());
    unsafe { juzambore_ideal(count, modes, lengths, from.0, from.1, on_i.0, on_i.1, on_q.0, on_q.1) }
}

/// The transmitter's point for one group of bits, the earliest the highest. Refusals 1 and 9.
pub fn mapped(mode: u32, group: u32) -> Mapping {
    let CPoint { refusal, i, q } = unsafe { juzambore_mapped(mode, group) };
    Mapping { refusal, i, q }
}

/// The soft bytes of readings, -80 to 80, one for each sent bit. Refusals 1, 3, 4, 5, 7, 8, 11.
///
/// It needs 48 x symbols readings on each axis, and room for the train's sent bits. BPSK's readings of Q must be there
/// and do not matter.
pub fn soften(count: u32, modes: &[u32; 16], lengths: &[u32; 16], i: &[i16], q: &[i16], soft: &mut [i8]) -> u32 {
    let (modes, lengths) = (modes.as_ptr(), lengths.as_ptr());
    let (on_i, on_q) = ((i.as_ptr(), i.len()), (q.as_ptr(), q.len()));
    let to = (soft.as_mut_ptr(), soft.len());
    unsafe { juzambore_soften(count, modes, lengths, on_i.0, on_i.1, on_q.0, on_q.1, to.0, to.1) }
}

/// The train of least cost, from soft bytes. Refusals 1 to 9 and 11; of a BCH also 12, and not 2.
///
/// It needs a soft byte of -80 to 80 for each sent bit, room for `N / 8` octets, and `N + 6` working words, which are
/// zero after success; what they held before does not matter. The counter of a BCH comes from the train that is found;
/// the one that is given is not read.
#[allow(clippy::too_many_arguments)]
pub fn decode_soft(
    kind: Kind, count: u32, modes: &[u32; 16], lengths: &[u32; 16], counter: u32, a: u32, soft: &[i8],
    octets: &mut [u8], words: &mut [u64],
) -> Answer {
    let (kind, modes, lengths) = (number(kind), modes.as_ptr(), lengths.as_ptr());
    let (to, work) = ((octets.as_mut_ptr(), octets.len()), (words.as_mut_ptr(), words.len()));
    let from = (soft.as_ptr(), soft.len());
    let answer = unsafe {
        juzambore_decode_soft(kind, count, modes, lengths, counter, a, from.0, from.1, to.0, to.1, work.0, work.1)
    };
    answer.into()
}

/// The train of least cost, from readings: as [`soften`] and then [`decode_soft`]. Refusals 1 to 8 and 11; of a BCH
/// also 12, and not 2.
///
/// It needs 48 x symbols readings on each axis, room for `N / 8` octets, and `N + 6` working words, which are zero
/// after success; what they held before does not matter. The counter of a BCH is not read, as there.
#[allow(clippy::too_many_arguments)]
pub fn decode_readings(
    kind: Kind, count: u32, modes: &[u32; 16], lengths: &[u32; 16], counter: u32, a: u32, i: &[i16], q: &[i16],
    octets: &mut [u8], words: &mut [u64],
) -> Answer {
    let (kind, modes, lengths) = (number(kind), modes.as_ptr(), lengths.as_ptr());
    let (on_i, on_q) = ((i.as_ptr(), i.len()), (q.as_ptr(), q.len()));
    let (to, work) = ((octets.as_mut_ptr(), octets.len()), (words.as_mut_ptr(), words.len()));
    let answer = unsafe {
        juzambore_decode_readings(
            kind, count, modes, lengths, counter, a, on_i.0, on_i.1, on_q.0, on_q.1, to.0, to.1, work.0, work.1,
        )
    };
    answer.into()
}
