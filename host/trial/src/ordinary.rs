//! An ordinary encoder and decoder of trains, without proofs: the yardstick for the speed of the proved ones. It takes
//! the same parameters and gives the same refusals. The decoder has two hearts: an ordinary one, and one in the
//! shape of the proved one.
#[path = "../../search/same_shape.rs"]
mod same_shape;
#[path = "../../search/ordinary.rs"]
mod search;

use juzambore::{Answer, Kind};
use std::ops::Range;

const MOST: usize = 3456;

#[derive(Clone, Copy)]
enum Rate {
    Half,
    NineSixteenths,
    ThreeQuarters,
}

struct Mode {
    rate: Rate,
    sent: usize,
    info: usize,
    places: &'static [u16],
}

static PLACES_48: [u16; 48] = places(1);
static PLACES_96: [u16; 96] = places(1);
static PLACES_192: [u16; 192] = places(2);
static PLACES_288: [u16; 288] = places(3);

static MODES: [Mode; 7] = [
    Mode { rate: Rate::Half, sent: 48, info: 24, places: &PLACES_48 },
    Mode { rate: Rate::ThreeQuarters, sent: 48, info: 36, places: &PLACES_48 },
    Mode { rate: Rate::Half, sent: 96, info: 48, places: &PLACES_96 },
    Mode { rate: Rate::ThreeQuarters, sent: 96, info: 72, places: &PLACES_96 },
    Mode { rate: Rate::NineSixteenths, sent: 192, info: 108, places: &PLACES_192 },
    Mode { rate: Rate::ThreeQuarters, sent: 192, info: 144, places: &PLACES_192 },
    Mode { rate: Rate::ThreeQuarters, sent: 288, info: 216, places: &PLACES_288 },
];

/// Where each bit of a symbol goes; s is half the bits per carrier, at least 1.
const fn places<const S: usize>(s: usize) -> [u16; S] {
    let mut out = [0; S];
    let mut k = 0;
    while k < S {
        let i = S / 16 * (k % 16) + k / 16;
        out[k] = (s * (i / s) + (i + S - 16 * i / S) % s) as u16;
        k += 1;
    }
    out
}

impl Mode {
    /// P2's period and the places in it that are kept.
    fn kept(&self) -> (usize, &'static [usize]) {
        match self.rate {
            Rate::Half => (2, &[0, 1]),
            Rate::ThreeQuarters => (6, &[0, 1, 2, 5]),
            Rate::NineSixteenths => (18, &[0, 1, 2, 3, 4, 5, 6, 7, 8, 10, 11, 12, 13, 14, 15, 17]),
        }
    }
}

/// A good description: the train's kind, the PDUs' modes and lengths, and the train's counts.
pub struct Train<'a> {
    kind: Kind,
    modes: &'a [u32],
    lengths: &'a [u32],
    n: usize,
    symbols: usize,
    sent: usize,
}

/// What its description says of a train, or its refusal.
pub fn described<'a>(
    kind: Kind, count: u32, modes: &'a [u32; 16], lengths: &'a [u32; 16], counter: u32, a: u32,
) -> Result<Train<'a>, u32> {
    if !(1..=16).contains(&count) {
        return Err(11);
    }
    let (modes, lengths) = (&modes[..count as usize], &lengths[..count as usize]);
    if modes.iter().any(|mode| !(1..=7).contains(mode)) {
        return Err(1);
    }
    if counter > 15 {
        return Err(2);
    }
    let mut train = Train { kind, modes, lengths, n: 0, symbols: 0, sent: 0 };
    for (m, length) in train.pdus() {
        let symbols = symbols_of(m, length)?;
        train.n += length;
        train.symbols += symbols;
        train.sent += symbols * m.sent;
    }
    match train.n {
        n if n > MOST => Err(3),
        n if a as usize > n - 72 => Err(6),
        _ if kind == Kind::Bch && (modes, lengths, a) != (&[1], &[120], 0) => Err(12),
        _ => Ok(train),
    }
}

/// The symbols of a PDU, or the refusal of its own length.
fn symbols_of(m: &Mode, length: usize) -> Result<usize, u32> {
    if !(72..=MOST).contains(&length) {
        Err(3)
    } else if length % 8 != 0 {
        Err(4)
    } else if length % m.info != 0 {
        Err(5)
    } else {
        Ok(length / m.info)
    }
}

impl<'a> Train<'a> {
    fn pdus(&self) -> impl Iterator<Item = (&'static Mode, usize)> + 'a {
        self.modes.iter().zip(self.lengths).map(|(&mode, &length)| (&MODES[mode as usize - 1], length as usize))
    }

    /// Of each PDU its mode, and where its share of P1's output and its sent bits are.
    fn shares(&self) -> impl Iterator<Item = (&'static Mode, Range<usize>, Range<usize>)> + 'a {
        let (mut coded, mut sent) = (0, 0);
        self.pdus().map(move |(m, length)| {
            let (from, to) = (coded, sent);
            coded += 2 * length;
            sent += length / m.info * m.sent;
            (m, from..coded, to..sent)
        })
    }
}

/// Its state, and how many bits go through it before it starts: the four of a BCH's counter.
struct Scrambler {
    state: u32,
    waits: u32,
}

impl Scrambler {
    fn new(kind: Kind, counter: u32) -> Scrambler {
        Scrambler { state: 0x70 | counter, waits: if kind == Kind::Bch { 4 } else { 0 } }
    }

    /// The next bit, scrambled.
    fn pass(&mut self, bit: u8) -> u8 {
        if self.waits > 0 {
            self.waits -= 1;
            return bit;
        }
        let feedback = (self.state >> 6 ^ self.state >> 3) & 1;
        self.state = (self.state << 1 | feedback) & 0x7f;
        bit ^ feedback as u8
    }
}

/// Whether P1 at a keeps X and Y of input t.
fn kept_by_p1(a: usize, t: usize) -> (bool, bool) {
    let within = if (a..a + 78).contains(&t) { (t - a) % 13 } else { 0 };
    (within != 6, within != 12)
}

#[allow(clippy::too_many_arguments)]
pub fn encode(
    kind: Kind, count: u32, modes: &[u32; 16], lengths: &[u32; 16], counter: u32, a: u32, octets: &[u8],
    sent: &mut [u8],
) -> u32 {
    let train = match described(kind, count, modes, lengths, counter, a) {
        Ok(train) => train,
        Err(refusal) => return refusal,
    };
    if octets.len() != train.n / 8 {
        return 7;
    }
    if sent.len() < train.sent {
        return 8;
    }
    if kind == Kind::Bch && u32::from(octets[0] >> 4) != counter {
        return 12;
    }
    let mut coded = [0u8; 2 * MOST];
    code(Scrambler::new(kind, counter), train.n, a as usize, octets, &mut coded);
    for (m, share, place) in train.shares() {
        send(m, &coded[share], &mut sent[place]);
    }
    0
}

/// Scrambler, tail, X and Y, and P1. The kept X go out at even places and the kept Y at odd ones.
fn code(mut scrambler: Scrambler, n: usize, a: usize, octets: &[u8], coded: &mut [u8]) {
    let mut register = 0u32;
    let (mut even, mut odd) = (0, 1);
    for t in 0..n + 6 {
        let mut bit = 0;
        if t < n {
            bit = scrambler.pass(octets[t / 8] >> (7 - t % 8) & 1);
        }
        register = register >> 1 | u32::from(bit) << 6;
        let (keeps_x, keeps_y) = kept_by_p1(a, t);
        if keeps_x {
            coded[even] = (register & 0o133).count_ones() as u8 & 1;
            even += 2;
        }
        if keeps_y {
            coded[odd] = (register & 0o171).count_ones() as u8 & 1;
            odd += 2;
        }
    }
}

/// P2 and the interleaver, symbol by symbol: a symbol is a whole number of P2's periods.
fn send(m: &Mode, coded: &[u8], sent: &mut [u8]) {
    let (period, kept) = m.kept();
    for (symbol, coded) in sent.chunks_exact_mut(m.sent).zip(coded.chunks_exact(2 * m.info)) {
        for (block, places) in coded.chunks_exact(period).zip(m.places.chunks_exact(kept.len())) {
            for (&from, &to) in kept.iter().zip(places) {
                symbol[to as usize] = block[from];
            }
        }
    }
}

fn refused(refusal: u32) -> Answer {
    Answer { refusal, symbols: 0, n: 0, cost: 0, confirmed: false, comparisons: 0 }
}

/// The counter of a BCH is not read: one that is never refused stands for it.
fn read_by_decode(kind: Kind, counter: u32) -> u32 {
    match kind {
        Kind::Data => counter,
        Kind::Bch => 0,
    }
}

type Heart = (fn(usize, &[u8], &mut [u8], &mut [u64]) -> u32, fn(usize, &[u8], &[u8]) -> bool);

#[allow(clippy::too_many_arguments)]
pub fn decode_soft(
    kind: Kind, count: u32, modes: &[u32; 16], lengths: &[u32; 16], counter: u32, a: u32, soft: &[i8],
    octets: &mut [u8], words: &mut [u64],
) -> Answer {
    let train = described(kind, count, modes, lengths, read_by_decode(kind, counter), a);
    decode_by((search::search, search::mark), train, counter, a, soft, octets, words).unwrap_or_else(refused)
}

#[allow(clippy::too_many_arguments)]
pub fn decode_in_same_shape(
    kind: Kind, count: u32, modes: &[u32; 16], lengths: &[u32; 16], counter: u32, a: u32, soft: &[i8],
    octets: &mut [u8], words: &mut [u64],
) -> Answer {
    let train = described(kind, count, modes, lengths, read_by_decode(kind, counter), a);
    decode_by((same_shape::search, same_shape::mark), train, counter, a, soft, octets, words).unwrap_or_else(refused)
}

fn decode_by(
    (search, mark): Heart, train: Result<Train, u32>, counter: u32, a: u32, soft: &[i8], octets: &mut [u8],
    words: &mut [u64],
) -> Result<Answer, u32> {
    let train = train?;
    let n = train.n;
    if soft.len() != train.sent {
        return Err(7);
    }
    if octets.len() < n / 8 || words.len() < n + 6 {
        return Err(8);
    }
    if soft.iter().any(|byte| byte.unsigned_abs() > 80) {
        return Err(9);
    }
    let heard = &spread(&train, a as usize, soft)[..2 * (n + 6)];
    let mut found = [0u8; MOST];
    let found = &mut found[..n];
    let cost = search(n, heard, found, &mut words[..n + 6]);
    let confirmed = mark(n, heard, found);
    descramble(train.kind, counter, found, octets);
    let comparisons = 64 * (n as u32 - 6) + 63;
    Ok(Answer { refusal: 0, symbols: train.symbols as u32, n: soft.len() as u32, cost, confirmed, comparisons })
}

/// The soft bytes by their coded bits, X and Y of each input, counted from -128; 0 is a bit not sent.
pub fn spread(train: &Train, a: usize, soft: &[i8]) -> [u8; 2 * (MOST + 6)] {
    let mut coded = [0u8; 2 * MOST];
    for (m, share, place) in train.shares() {
        receive(m, &soft[place], &mut coded[share]);
    }
    let mut heard = [0; 2 * (MOST + 6)];
    let (mut even, mut odd) = (0, 1);
    for (t, pair) in heard.chunks_exact_mut(2).take(train.n + 6).enumerate() {
        let (keeps_x, keeps_y) = kept_by_p1(a, t);
        if keeps_x {
            pair[0] = coded[even];
            even += 2;
        }
        if keeps_y {
            pair[1] = coded[odd];
            odd += 2;
        }
    }
    heard
}

/// The interleaver and P2 undone.
fn receive(m: &Mode, soft: &[i8], coded: &mut [u8]) {
    let (period, kept) = m.kept();
    for (symbol, coded) in soft.chunks_exact(m.sent).zip(coded.chunks_exact_mut(2 * m.info)) {
        for (block, places) in coded.chunks_exact_mut(period).zip(m.places.chunks_exact(kept.len())) {
            for (&to, &from) in kept.iter().zip(places) {
                block[to] = (symbol[from as usize] as u8).wrapping_add(128);
            }
        }
    }
}

/// A BCH tells its own counter.
fn descramble(kind: Kind, counter: u32, train: &[u8], octets: &mut [u8]) {
    let told = train[..4].iter().fold(0, |counter, &bit| counter << 1 | u32::from(bit));
    let mut scrambler = Scrambler::new(kind, if kind == Kind::Bch { told } else { counter });
    for (bits, octet) in train.chunks_exact(8).zip(octets) {
        *octet = bits.iter().fold(0, |octet, &bit| octet << 1 | scrambler.pass(bit));
    }
}
