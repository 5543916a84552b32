//! One call of the six with all it is lent, which any implementation can be asked to do.
use crate::description::Description;
use crate::independent;
use crate::lent::Lent;
use crate::{numbered, ordinary};
use juzambore::{Answer, Kind, Mapping};

#[derive(Clone, Copy, Debug, PartialEq)]
pub enum Call {
    Encode,
    Ideal,
    Mapped,
    Soften,
    DecodeSoft,
    DecodeReadings,
}

impl Call {
    pub const ALL: [Call; 6] =
        [Call::Encode, Call::Ideal, Call::Mapped, Call::Soften, Call::DecodeSoft, Call::DecodeReadings];

    pub fn name(self) -> &'static str {
        ["encode", "ideal", "mapped", "soften", "decode_soft", "decode_readings"][self as usize]
    }

    /// Whether it takes a kind, a counter and an a.
    pub fn has_place(self) -> bool {
        matches!(self, Call::Encode | Call::DecodeSoft | Call::DecodeReadings)
    }

    /// Whether the documents give this call, of this kind, the refusal of a number: one of its parameters, lengths or
    /// values.
    pub fn can_refuse(self, kind: Kind, number: u32) -> bool {
        match number {
            1 => true,
            2 => self == Call::Encode || self.has_place() && kind == Kind::Data,
            6 => self.has_place(),
            9 => matches!(self, Call::Ideal | Call::Mapped | Call::DecodeSoft),
            12 => self.has_place() && kind == Kind::Bch,
            _ => self != Call::Mapped,
        }
    }
}

pub type Encode = fn(Kind, u32, &[u32; 16], &[u32; 16], u32, u32, &[u8], &mut [u8]) -> u32;
type Ideal = fn(u32, &[u32; 16], &[u32; 16], &[u8], &mut [i16], &mut [i16]) -> u32;
type Soften = fn(u32, &[u32; 16], &[u32; 16], &[i16], &[i16], &mut [i8]) -> u32;
pub type DecodeSoft = fn(Kind, u32, &[u32; 16], &[u32; 16], u32, u32, &[i8], &mut [u8], &mut [u64]) -> Answer;
type DecodeReadings = fn(Kind, u32, &[u32; 16], &[u32; 16], u32, u32, &[i16], &[i16], &mut [u8], &mut [u64]) -> Answer;

/// An implementation of the six calls.
pub struct Calls {
    encode: Encode,
    ideal: Ideal,
    mapped: fn(u32, u32) -> Mapping,
    soften: Soften,
    decode_soft: DecodeSoft,
    decode_readings: DecodeReadings,
}

pub const LIBRARY: Calls = Calls {
    encode: juzambore::encode,
    ideal: juzambore::ideal,
    mapped: juzambore::mapped,
    soften: juzambore::soften,
    decode_soft: juzambore::decode_soft,
    decode_readings: juzambore::decode_readings,
};

pub const INDEPENDENT: Calls = Calls {
    encode: independent::encode,
    ideal: independent::ideal,
    mapped: independent::mapped,
    soften: independent::soften,
    decode_soft: independent::decode_soft,
    decode_readings: independent::decode_readings,
};

/// The two calls that the ordinary one has; the others are as above.
pub const ORDINARY: Calls = Calls { encode: ordinary::encode, decode_soft: ordinary::decode_soft, ..INDEPENDENT };

/// The library with a number for the kind, whatever kind is asked for: its number, what it must mean, and the calls.
pub const BY_NUMBER: [(u32, Kind, Calls); 5] = [
    (0, Kind::Data, with_number::<0>()),
    (1, Kind::Bch, with_number::<1>()),
    (2, Kind::Bch, with_number::<2>()),
    (7, Kind::Bch, with_number::<7>()),
    (u32::MAX, Kind::Bch, with_number::<{ u32::MAX }>()),
];

const fn with_number<const KIND: u32>() -> Calls {
    Calls {
        encode: numbered::encode::<KIND>,
        decode_soft: numbered::decode_soft::<KIND>,
        decode_readings: numbered::decode_readings::<KIND>,
        ..LIBRARY
    }
}

/// What a call answers; the parts of a point as their bits.
#[derive(Clone, Copy, Debug, PartialEq)]
pub enum Told {
    Number(u32),
    Point { refusal: u32, i: u32, q: u32 },
    Decoded(Answer),
}

impl Told {
    pub fn refusal(self) -> u32 {
        match self {
            Told::Number(refusal) | Told::Point { refusal, .. } => refusal,
            Told::Decoded(answer) => answer.refusal,
        }
    }
}

/// A call's parameters and lent buffers; those that it hasn't do not matter or are empty.
#[derive(Clone, Debug, PartialEq)]
pub struct Case {
    pub call: Call,
    pub train: Description,
    pub mode: u32,
    pub group: u32,
    pub octets: Lent<u8>,
    pub sent: Lent<u8>,
    pub i: Lent<i16>,
    pub q: Lent<i16>,
    pub soft: Lent<i8>,
    pub words: Lent<u64>,
}

impl Case {
    /// A call with nothing lent yet.
    pub fn new(call: Call, train: Description) -> Case {
        let (octets, sent, soft) = (Lent::none(), Lent::none(), Lent::none());
        let (i, q, words) = (Lent::none(), Lent::none(), Lent::none());
        Case { call, train, mode: 0, group: 0, octets, sent, i, q, soft, words }
    }

    pub fn title(&self) -> String {
        let Case { call, train, mode, group, .. } = self;
        format!("{}, {train:?}, or mode {mode}, group {group}", call.name())
    }

    /// Does the call; the buffers are then as it left them.
    pub fn run(&mut self, by: &Calls) -> Told {
        let Case { train, octets, sent, i, q, soft, words, .. } = self;
        let &mut Description { kind, count, ref modes, ref lengths, counter, a } = train;
        match self.call {
            Call::Encode => {
                Told::Number((by.encode)(kind, count, modes, lengths, counter, a, octets.part(), sent.part_mut()))
            }
            Call::Ideal => Told::Number((by.ideal)(count, modes, lengths, sent.part(), i.part_mut(), q.part_mut())),
            Call::Mapped => {
                let Mapping { refusal, i, q } = (by.mapped)(self.mode, self.group);
                Told::Point { refusal, i: i.to_bits(), q: q.to_bits() }
            }
            Call::Soften => Told::Number((by.soften)(count, modes, lengths, i.part(), q.part(), soft.part_mut())),
            Call::DecodeSoft => {
                let (octets, words) = (octets.part_mut(), words.part_mut());
                Told::Decoded((by.decode_soft)(kind, count, modes, lengths, counter, a, soft.part(), octets, words))
            }
            Call::DecodeReadings => {
                let (i, q, octets, words) = (i.part(), q.part(), octets.part_mut(), words.part_mut());
                Told::Decoded((by.decode_readings)(kind, count, modes, lengths, counter, a, i, q, octets, words))
            }
        }
    }
}
