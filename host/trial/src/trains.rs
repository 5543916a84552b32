//! Random descriptions: lists of 1 to 16 PDUs, short and long, P1 anywhere; BCHs and what is near them; and what can be
//! wrong with each number.
use crate::description::Description;
use crate::independent::modes::MODES;
use crate::random::Random;

pub const MOST: u32 = u32::MAX;

/// The longest train, and a length that is good in every mode.
const LONGEST: u32 = 3456;
const ALWAYS_GOOD: u32 = 216 * 2;

/// A good description: of four, three are lists of several PDUs.
pub fn any(random: &mut Random) -> Description {
    match random.below(4) {
        0 => {
            let mode = some_mode(random);
            single(random, mode)
        }
        _ => mixed(random),
    }
}

fn some_mode(random: &mut Random) -> u32 {
    1 + random.below(7) as u32
}

/// One PDU of this mode. Most are short, one in 64 is of the greatest length.
pub fn single(random: &mut Random, mode: u32) -> Description {
    let (least, most) = match random.below(64) {
        0 => (LONGEST, LONGEST),
        1 => (72, LONGEST),
        2..=7 => (72, 1000),
        _ => (72, 432),
    };
    let length = some_length(random, mode, least, most);
    finished(random, &[(mode, length)])
}

/// One PDU of mode 1, of the greatest length.
pub fn longest(random: &mut Random) -> Description {
    finished(random, &[(1, LONGEST)])
}

/// Lists of 2 to 16 PDUs, most of them short. One in 32 has the greatest sum.
pub fn mixed(random: &mut Random) -> Description {
    let several = 2 + random.below(15);
    let count = random.pick(&[2, 2, 3, 3, 4, 5, 16, several]);
    let to_the_end = random.one_in(32);
    let mut pdus: Vec<(u32, u32)> = Vec::new();
    let mut left = LONGEST;
    for others in (0..count as u32).rev() {
        let pdu = if others == 0 && to_the_end { (1, left) } else { some_pdu(random, left - 216 * others) };
        left -= pdu.1;
        pdus.push(pdu);
    }
    pdus.swap(count - 1, random.below(count));
    finished(random, &pdus)
}

/// A PDU of at most so many bits, which are 216 or more: what every mode needs at most.
fn some_pdu(random: &mut Random, most: u32) -> (u32, u32) {
    let mode = some_mode(random);
    let most = if random.one_in(24) { most } else { most.min(300) };
    (mode, some_length(random, mode, 72, most))
}

fn some_length(random: &mut Random, mode: u32, least: u32, most: u32) -> u32 {
    let is_whole = |length: &u32| *length as usize % MODES[mode as usize - 1].info == 0;
    let lengths: Vec<u32> = (least..=most).step_by(8).filter(is_whole).collect();
    random.pick(&lengths)
}

/// With a counter, a place for P1, and anything past the PDUs, good numbers and bad ones.
fn finished(random: &mut Random, pdus: &[(u32, u32)]) -> Description {
    let mut train = Description::of(pdus, random.below(16) as u32, 0);
    let any = random.word() as u32;
    for k in pdus.len()..16 {
        train.modes[k] = random.pick(&[0, 1, 6, 8, any, MOST]);
        train.lengths[k] = random.pick(&[0, 64, 72, ALWAYS_GOOD, 3464, any, MOST]);
    }
    train.a = some_place(random, &train);
    train
}

/// P1 at an end of the train, at or around the border of two PDUs, or anywhere.
fn some_place(random: &mut Random, train: &Description) -> u32 {
    let last = train.size().n as u32 - 72;
    let within = random.below(last as usize + 1) as u32;
    let border = match train.borders()[..] {
        [] => within,
        ref borders => {
            let shift = random.pick(&[0, 1, 2, 20, 36, 50, 71, 72, 73, 77, 78, 79]);
            (random.pick(borders) + 1).saturating_sub(shift).min(last)
        }
    };
    random.pick(&[0, last, within, border, border, border])
}

/// A good BCH.
pub fn bch(random: &mut Random) -> Description {
    let train = finished(random, &[(1, 120)]);
    Description { a: 0, ..train.as_bch() }
}

/// Good as data, and all but a BCH: it has more PDUs, another length, another mode, whose lengths are never 120, or
/// another a.
pub fn near_bch(random: &mut Random) -> Description {
    let (mode, more) = (2 + random.below(6) as u32, random.pick(&[1, 1, 2, 15]));
    let (other, behind) = (random.pick(&[72, 96, 144, 240, LONGEST]), random.pick(&[72, 120]));
    let mut pdus = vec![(1, 120)];
    let mut a = 0;
    match random.below(4) {
        0 => pdus.resize(1 + more, (1, behind)),
        1 => pdus[0].1 = other,
        2 => pdus[0] = (mode, some_length(random, mode, 72, 216)),
        _ => a = random.pick(&[1, 2, 8, 24, 47, 48]),
    }
    Description { a, ..finished(random, &pdus) }
}

/// Now and then some of a description's numbers are bad, or any 32 bits.
pub fn damage(random: &mut Random, train: &mut Description) {
    if !random.one_in(3) {
        return;
    }
    let (any, count) = (random.word() as u32, train.count as usize);
    let last = train.size().n as u32 - 72;
    if random.one_in(6) {
        let other = random.below(18) as u32;
        train.count = random.pick(&[0, 17, 18, other, 256 + train.count, any, MOST]);
    }
    if random.one_in(4) {
        let mode = &mut train.modes[random.below(count)];
        *mode = random.pick(&[0, 8, 9, 256 + *mode, any, MOST]);
    }
    if random.one_in(4) {
        train.counter = random.pick(&[16, 17, 256, any, MOST]);
    }
    if random.one_in(2) {
        let times = random.pick(&[1, 1, 2, count]);
        (0..times).for_each(|_| damage_length(random, &mut train.lengths[..count]));
    }
    if random.one_in(8) {
        train.lengths[random.below(count)] = random.pick(&[ALWAYS_GOOD, 3024, LONGEST]);
    }
    if random.one_in(4) {
        train.a = random.pick(&[last + 1, last + 1, last + 72, LONGEST, any, MOST, MOST - 71]);
    }
}

fn damage_length(random: &mut Random, lengths: &mut [u32]) {
    let (any, more) = (random.word() as u32, 1 + random.below(7) as u32);
    let length = &mut lengths[random.below(lengths.len())];
    let near = random.pick(&[more, more, 8, 8, 4, MOST - 7]);
    let far = random.pick(&[0, 64, 71, 73, 108, 3457, 3464, any, MOST, MOST - 7]);
    *length = random.pick(&[length.wrapping_add(near), far]);
}
