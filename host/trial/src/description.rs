//! A train's description as the calls take it.
use crate::independent::modes::Size;
use crate::independent::origins;
use crate::random::Random;
use juzambore::Kind;

/// A kind, a list of PDUs, a frame counter, and the place where P1 begins.
#[derive(Clone, Copy, Debug, PartialEq)]
pub struct Description {
    pub kind: Kind,
    pub count: u32,
    pub modes: [u32; 16],
    pub lengths: [u32; 16],
    pub counter: u32,
    pub a: u32,
}

impl Description {
    /// Data of these PDUs, of each its mode and length. What stands past them would be refused, if it were read.
    pub fn of(pdus: &[(u32, u32)], counter: u32, a: u32) -> Description {
        let (mut modes, mut lengths) = ([9; 16], [73; 16]);
        for (k, &(mode, length)) in pdus.iter().enumerate() {
            (modes[k], lengths[k]) = (mode, length);
        }
        Description { kind: Kind::Data, count: pdus.len() as u32, modes, lengths, counter, a }
    }

    /// The same, called a BCH.
    pub fn as_bch(self) -> Description {
        Description { kind: Kind::Bch, ..self }
    }

    /// The counts of the train, whose description must be a good one but for the counter.
    pub fn size(&self) -> Size {
        self.checked().expect("a good description")
    }

    /// Whether it is a good one but for the counter.
    pub fn is_good(&self) -> bool {
        self.checked().is_ok()
    }

    fn checked(&self) -> Result<Size, u32> {
        Size::of(self.kind, self.count, &self.modes, &self.lengths, None, Some(self.a))
    }

    /// Random octets for the train; those of a BCH begin with its counter.
    pub fn octets(&self, random: &mut Random) -> Vec<u8> {
        let mut octets = random.octets(self.size().n / 8);
        if self.kind == Kind::Bch {
            begin_with(&mut octets, self.counter);
        }
        octets
    }

    /// Which sent bits hang on the first four inputs: those of X and Y up to six inputs later.
    pub fn counter_bits(&self) -> Vec<bool> {
        origins(&self.size(), self.a as usize).into_iter().map(|coded| coded / 2 < 4 + 6).collect()
    }

    /// Whether it is a list of 2 to 16 PDUs.
    pub fn is_mixed(&self) -> bool {
        (2..=16).contains(&self.count)
    }

    /// The train's bits before each PDU but the first. The description must be a good one.
    pub fn borders(&self) -> Vec<u32> {
        let mut end = 0;
        let next = |length: &u32| {
            end += length;
            end
        };
        self.lengths[..self.count as usize - 1].iter().map(next).collect()
    }

    /// The first PDU that alone would be refused with this number.
    pub fn culprit(&self, refusal: u32) -> Option<usize> {
        let alone = |k: usize| Description::of(&[(self.modes[k], self.lengths[k])], 0, 0).checked().err();
        (0..self.count.min(16) as usize).find(|&k| alone(k) == Some(refusal))
    }
}

/// Puts the lowest four bits of a counter at the beginning of the octets, if there are any.
pub fn begin_with(octets: &mut [u8], counter: u32) {
    octets.iter_mut().take(1).for_each(|octet| *octet = (counter as u8) << 4 | *octet & 15);
}
