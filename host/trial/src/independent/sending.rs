//! From octets to sent bits, stage by stage. Bits are 0 and 1, one to an entry.
use super::modes::{Mode, Pdu, Rate};
use juzambore::Kind;

/// Most significant bit first.
pub fn bits_of(octets: &[u8]) -> Vec<u8> {
    octets.iter().flat_map(|octet| (0..8).rev().map(move |k| octet >> k & 1)).collect()
}

/// The number that bits write, the earliest the highest.
pub fn value_of(bits: &[u8]) -> u32 {
    bits.iter().fold(0, |value, &bit| 2 * value + u32::from(bit))
}

pub fn octets_of(bits: &[u8]) -> Vec<u8> {
    bits.chunks(8).map(|eight| value_of(eight) as u8).collect()
}

/// Clause 5.2. `stage[k]` is stage k + 1; stages 7 to 1 start as 1 1 1 n4 n3 n2 n1. Descrambling is the same.
pub fn scrambled(bits: &[u8], counter: u32) -> Vec<u8> {
    let mut stage = [0, 1, 2, 3, 4, 5, 6].map(|k| if k < 4 { (counter >> k & 1) as u8 } else { 1 });
    let mut out = Vec::new();
    for bit in bits {
        let feedback = stage[6] ^ stage[3];
        stage.rotate_right(1);
        stage[0] = feedback;
        out.push(bit ^ feedback);
    }
    out
}

/// The counter that the first four bits of a BCH are, n4 first.
pub fn counter_of(bits: &[u8]) -> u32 {
    value_of(&bits[..4])
}

/// A train's bits as they enter the encoder: those of a BCH are scrambled from the fifth on. From there and back is the
/// same.
pub fn entering(kind: Kind, bits: &[u8], counter: u32) -> Vec<u8> {
    let (clear, rest) = bits.split_at(if kind == Kind::Bch { 4 } else { 0 });
    [clear, &scrambled(rest, counter)].concat()
}

/// The lags of X and of Y.
pub const LAGS: [[usize; 5]; 2] = [[0, 2, 3, 5, 6], [0, 1, 2, 3, 6]];

/// X and Y at each input, from the zero state.
pub fn coded(inputs: &[u8]) -> Vec<[u8; 2]> {
    let at = |t: usize, lag: usize| if lag <= t { inputs[t - lag] } else { 0 };
    (0..inputs.len()).map(|t| LAGS.map(|lags| lags.iter().map(|&lag| at(t, lag)).sum::<u8>() % 2)).collect()
}

/// P1 on the pairs of inputs a to a + 77; all other pairs go out X then Y.
pub fn p1<T: Copy>(pairs: &[[T; 2]], a: usize) -> Vec<T> {
    let mut out = pairs[..a].concat();
    for period in pairs[a..a + 78].chunks(13) {
        let (x, y) = (|k: usize| period[k - 1][0], |k: usize| period[k - 1][1]);
        for k in 1..=6 {
            out.extend([x(k), y(k)]);
        }
        for k in 7..=12 {
            out.extend([x(k + 1), y(k)]);
        }
    }
    out.extend(pairs[a + 78..].concat());
    out
}

/// P2, from a PDU's first bit.
pub fn p2<T: Copy>(bits: &[T], rate: Rate) -> Vec<T> {
    let is_kept = |k: usize| match rate {
        Rate::Half => true,
        Rate::ThreeQuarters => k % 6 != 3 && k % 6 != 4,
        Rate::NineSixteenths => k % 18 != 9 && k % 18 != 16,
    };
    (0..bits.len()).filter(|&k| is_kept(k)).map(|k| bits[k]).collect()
}

/// Clause 5.4: where bit k of a symbol goes.
pub fn place(mode: &Mode, k: usize) -> usize {
    let (size, s) = (mode.sent, (mode.carrier / 2).max(1));
    let i = size / 16 * (k % 16) + k / 16;
    s * (i / s) + (i + size - 16 * i / size) % s
}

pub fn interleaved<T: Copy>(mode: &Mode, bits: &[T]) -> Vec<T> {
    let mut out = bits.to_vec();
    for (symbol, from) in out.chunks_mut(mode.sent).zip(bits.chunks(mode.sent)) {
        for (k, &bit) in from.iter().enumerate() {
            symbol[place(mode, k)] = bit;
        }
    }
    out
}

/// What stands for each coded bit, in the order of the sent bits; what is dropped is left out. Of P1's output each PDU
/// has its share, twice its information bits, and P2 begins anew with it.
pub fn in_sent_order<T: Copy>(pdus: &[Pdu], a: usize, pairs: &[[T; 2]]) -> Vec<T> {
    let all = p1(pairs, a);
    let mut rest = &all[..];
    let mut out = Vec::new();
    for pdu in pdus {
        let (share, others) = rest.split_at(2 * pdu.n);
        out.extend(interleaved(pdu.mode, &p2(share, pdu.mode.rate)));
        rest = others;
    }
    assert!(rest.is_empty(), "the PDUs share all of P1's output");
    out
}

/// The train is scrambled, tailed and coded once.
pub fn sent_bits(kind: Kind, pdus: &[Pdu], counter: u32, a: usize, octets: &[u8]) -> Vec<u8> {
    let mut inputs = entering(kind, &bits_of(octets), counter);
    inputs.extend([0; 6]);
    in_sent_order(pdus, a, &coded(&inputs))
}
