//! The calls of Juzambore, a proved software baseband for HIPERLAN/2, as safe functions over its static library.
//!
//! A train is a list of 1 to 16 PDUs, each with a mode 1 to 7 and a length in information bits; with a frame counter
//! 0 to 15 and a place a where P1 begins, counted from the train's first bit. Its N bits, the sum of the lengths, are
//! N/8 octets, most significant bit first. The calls take the list as a count and two arrays of sixteen numbers, of
//! which those past the count are not read.
//!
//! A train has a [`Kind`]. Data is scrambled from its first bit. A BCH is one PDU of 120 bits in mode 1 with a = 0; its
//! first four bits are the counter, the highest first, and the scrambler starts at the fifth. Where a BCH is decoded,
//! the counter comes from the train that is found, and the one that is given is not read.
//!
//! [`encode`] makes the sent bits and [`ideal`] their ideal readings; [`mapped`] gives the point of one carrier.
//! [`soften`] makes soft bytes of readings, and [`decode_soft`] and [`decode_readings`] find the train of least cost and
//! say whether it is confirmed.
//!
//! Every input of any length is accepted. Bad input is answered with a refusal number, 0 means done. A refused call
//! changes no lent element and reports zero for everything else. Elements past the needed length are never changed.
//!
//! | no. | when |
//! |---|---|
//! | 11 | the list has no PDU or more than 16 |
//! | 1 | a mode is not 1 to 7 |
//! | 2 | the counter is above 15; not in decoding a BCH |
//! | 3 | a PDU's length is below 72 or above 3,456 |
//! | 4 | it is not a multiple of 8 |
//! | 5 | it is not a multiple of the information bits per symbol of its mode |
//! | 3 | N is above 3,456 |
//! | 6 | a is above N - 72 |
//! | 12 | a BCH has another list, length, mode or a than it must have |
//! | 7 | an input slice is not exactly as long as the call needs |
//! | 8 | an output or working slice is shorter than the call needs |
//! | 9 | a value is out of range |
//! | 12 | in encoding, the first four bits of a BCH are not the counter |
//!
//! They are tested in this order, the lengths PDU by PDU; a call without some parameter skips its test. A PDU has
//! length / (information bits per symbol) symbols, each of so many sent bits; symbols and n of a train are sums:
//!
//! | mode | constellation | rate | sent bits per symbol | information bits per symbol |
//! |---|---|---|---|---|
//! | 1 | BPSK | 1/2 | 48 | 24 |
//! | 2 | BPSK | 3/4 | 48 | 36 |
//! | 3 | QPSK | 1/2 | 96 | 48 |
//! | 4 | QPSK | 3/4 | 96 | 72 |
//! | 5 | 16QAM | 9/16 | 192 | 108 |
//! | 6 | 16QAM | 3/4 | 192 | 144 |
//! | 7 | 64QAM | 3/4 | 288 | 216 |
//!
//! `cargo run --example roundtrip` sends a train of two PDUs and takes it back. The library is x86-64 code; `build.rs`
//! says where it is looked for.
#![deny(unsafe_code, missing_docs)]

#[allow(unsafe_code)]
pub mod c_names;
#[allow(unsafe_code)]
mod calls;

pub use calls::{decode_readings, decode_soft, encode, ideal, mapped, soften};

/// What a train carries, which decides where its scrambler starts.
#[derive(Clone, Copy, Debug, PartialEq, Eq)]
pub enum Kind {
    /// Data, scrambled from the first bit.
    Data,
    /// The broadcast channel, scrambled from the fifth bit.
    Bch,
}

/// What a decode reports. All is zero and false but the refusal where the call is refused.
#[derive(Clone, Copy, Debug, PartialEq, Eq)]
pub struct Answer {
    /// The refusal number; 0 is done.
    pub refusal: u32,
    /// The symbols of the train.
    pub symbols: u32,
    /// Its sent bits.
    pub n: u32,
    /// Its rounded cost.
    pub cost: u32,
    /// Whether it is confirmed: every other train costs more, by over half the sent bits in which the two differ.
    pub confirmed: bool,
    /// How many comparisons of two partial trains the search for it takes: 64 x (N - 6) + 63. A planner reserves cycles
    /// by it; the machine's own steps take all 64 states at once.
    pub comparisons: u32,
}

/// The point of one carrier; +0 and +0 where the call is refused.
#[derive(Clone, Copy, Debug, PartialEq)]
pub struct Mapping {
    /// The refusal number; 0 is done.
    pub refusal: u32,
    /// The part on the axis I.
    pub i: f32,
    /// The part on the axis Q.
    pub q: f32,
}
