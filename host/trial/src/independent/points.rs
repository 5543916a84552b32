//! Levels, points and soft bytes.
use super::sending::value_of;

/// Table 5: the level of one axis for its bits, the earliest the highest. With no bits it is 0.
fn level(bits: usize, value: usize) -> i16 {
    match bits {
        0 => 0,
        1 => [-1, 1][value],
        2 => [-3, -1, 3, 1][value],
        _ => [-7, -5, -1, -3, 7, 5, 1, 3][value],
    }
}

/// How many of a carrier's bits choose I, and how many Q.
fn split(carrier: usize) -> [usize; 2] {
    match carrier {
        1 => [1, 0],
        _ => [carrier / 2, carrier / 2],
    }
}

/// I and Q of one carrier's bits.
fn levels(group: &[u8]) -> [i16; 2] {
    let [of_i, of_q] = split(group.len());
    [level(of_i, value_of(&group[..of_i]) as usize), level(of_q, value_of(&group[of_i..]) as usize)]
}

/// The transmitter's point: each level times K by one f32 multiplication.
pub fn point(carrier: usize, group: u32) -> [f32; 2] {
    let k = match carrier {
        1 => 1.0,
        2 => f32::from_bits(0x3F3504F3),
        4 => f32::from_bits(0x3EA1E89B),
        _ => f32::from_bits(0x3E1E01B3),
    };
    let bits: Vec<u8> = (0..carrier).rev().map(|j| (group >> j & 1) as u8).collect();
    levels(&bits).map(|level| f32::from(level) * k)
}

/// S of one bit of an axis, by the squared distances to all levels.
pub fn leaning(reading: i16, bits: usize, bit: usize) -> i64 {
    let held = i64::from(reading.clamp(-2048, 2048));
    let least = |wanted: usize| {
        let values = (0..1 << bits).filter(|value| value >> (bits - 1 - bit) & 1 == wanted);
        values.map(|value| (held - 256 * i64::from(level(bits, value))).pow(2)).min().expect("a level for each bit")
    };
    let s = least(0) - least(1);
    assert_eq!(s % 1024, 0, "S is a whole number");
    s / 1024
}

/// S / 64 rounded to the nearest, halves away from zero.
pub fn soft_byte(s: i64) -> i8 {
    let size = (s.abs() + 32) / 64;
    (size * s.signum()) as i8
}

/// The soft bytes of all carriers, each of so many bits; BPSK reads no Q.
pub fn soft_bytes(carriers: impl Iterator<Item = usize>, i: &[i16], q: &[i16]) -> Vec<i8> {
    let mut out = Vec::new();
    for (carrier, readings) in carriers.zip(i.iter().zip(q).map(|(&i, &q)| [i, q])) {
        for (reading, bits) in readings.into_iter().zip(split(carrier)) {
            out.extend((0..bits).map(|bit| soft_byte(leaning(reading, bits, bit))));
        }
    }
    out
}

/// I and Q of all carriers, each of so many of the sent bits.
pub fn all_levels(carriers: impl Iterator<Item = usize>, sent: &[u8]) -> Vec<[i16; 2]> {
    let mut rest = sent;
    let next = |carrier: usize| {
        let (group, others) = rest.split_at(carrier);
        rest = others;
        levels(group)
    };
    carriers.map(next).collect()
}
