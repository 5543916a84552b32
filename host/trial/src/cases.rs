//! Random calls: random trains, and what can be wrong with each length and value that a call is lent.
use crate::calls::{Call, Case};
use crate::description::{begin_with, Description};
use crate::independent::encode;
use crate::lent::Lent;
use crate::random::Random;
use crate::trains::{self, MOST};
use juzambore::Kind;

/// The deviation of the noise that drowns a BCH's counter; its levels are 512 apart.
pub const DROWNING: i32 = 900;

/// The length of a slice that must be exactly so long, now and then wrong.
fn exact(random: &mut Random, needed: usize) -> usize {
    if !random.one_in(20) {
        return needed;
    }
    let any = random.below(2 * needed);
    random.pick(&[0, needed - 1, needed + 1, any])
}

/// The length of a slice that must be at least so long: mostly enough, often more.
fn enough(random: &mut Random, needed: usize) -> usize {
    if !random.one_in(20) {
        return needed + random.pick(&[0, 0, 1, 5, 40]);
    }
    let any = random.below(needed);
    random.pick(&[0, needed - 1, any])
}

fn sent_bits(random: &mut Random, count: usize) -> Vec<u8> {
    let mut sent: Vec<u8> = (0..count).map(|_| random.below(2) as u8).collect();
    if random.one_in(8) {
        let (at, any) = (random.below(count), random.word() as u8);
        sent[at] = random.pick(&[2, 3, 128, 254, 255, any]);
    }
    sent
}

/// The sent bits of a random train of this description.
fn train(random: &mut Random, train: &Description) -> Vec<u8> {
    let Description { kind, count, modes, lengths, counter, a } = train;
    let (octets, mut sent) = (train.octets(random), vec![0; train.size().sent]);
    assert_eq!(encode(*kind, *count, modes, lengths, *counter, *a, &octets, &mut sent), 0);
    sent
}

/// Soft bytes of a train with noise, or of none: random, of one size, with many ties.
fn soft_bytes(random: &mut Random, described: &Description) -> Vec<i8> {
    let sent = train(random, described);
    let (level, noise) = (random.pick(&[1, 2, 8, 24, 80]), random.pick(&[0, 1, 4, 12, 30]));
    let (size, end) = (random.pick(&[1, 1, 2, 16, 80]), random.pick(&[1, 8, 80]));
    let kind = random.below(10);
    let mut soft: Vec<i8> = Vec::new();
    for bit in sent {
        let clear = if bit == 1 { level } else { -level };
        soft.push(match kind {
            0 => 0,
            1 | 2 => random.around(size) as i8,
            3 => random.pick(&[-end, end]),
            4 => end,
            5 => -end,
            _ => (clear + random.noise(noise)).clamp(-80, 80) as i8,
        });
    }
    spoil(random, &mut soft);
    soft
}

/// Now and then soft bytes out of range: one, several or all.
fn spoil(random: &mut Random, soft: &mut [i8]) {
    if !random.one_in(12) {
        return;
    }
    let bad = random.pick(&[81, -81, 127, -127, -128, -128]);
    match random.below(6) {
        0 => soft.fill(bad),
        1 => soft.iter_mut().step_by(7).for_each(|byte| *byte = bad),
        2 => soft[0] = bad,
        3 => soft[soft.len() - 1] = bad,
        _ => {
            let at = random.below(soft.len());
            soft[at] = bad;
        }
    }
}

/// Nothing is left of exactly those soft bytes that hang on a BCH's counter.
fn lose_counter(random: &mut Random, train: &Description, soft: &mut [i8]) {
    for (byte, _) in soft.iter_mut().zip(train.counter_bits()).filter(|(_, hangs)| *hangs) {
        *byte = random.around(80) as i8;
    }
}

/// Readings of no train: anything, around the levels, at the ends of what is held, zero.
fn readings(random: &mut Random, count: usize) -> Vec<i16> {
    let ends = [-32768, 32767, 2047, 2048, 2049, -2047, -2048, -2049, 0];
    let kind = random.below(5);
    let mut one = || match kind {
        0 => random.word() as i16,
        1 => random.around(3000) as i16,
        2 => random.pick(&ends),
        3 => (256 * random.around(8) + random.around(2)) as i16,
        _ => 32 * random.around(2) as i16,
    };
    (0..count).map(|_| one()).collect()
}

/// Readings with noise of this strength.
pub fn with_noise(random: &mut Random, ideal: &[i16], strength: i32) -> Vec<i16> {
    let noisy = |&reading: &i16| (i32::from(reading) + random.noise(strength)).clamp(-32768, 32767) as i16;
    ideal.iter().map(noisy).collect()
}

/// Noise that leaves little of exactly those readings that hang on a BCH's counter.
pub fn drown_counter(random: &mut Random, train: &Description, i: &mut [i16]) {
    for (reading, _) in i.iter_mut().zip(train.counter_bits()).filter(|(_, hangs)| *hangs) {
        *reading = with_noise(random, &[*reading], DROWNING)[0];
    }
}

/// A random call for data.
pub fn random_case(random: &mut Random, call: Call) -> Case {
    let train = trains::any(random);
    case_of(random, call, train)
}

/// The longest train from soft bytes of size 80 with random signs: its cost passes what sixteen bits hold.
pub fn dear_case(random: &mut Random) -> Case {
    let mut case = Case::new(Call::DecodeSoft, trains::longest(random));
    let soft: Vec<i8> = (0..case.train.size().sent).map(|_| random.pick(&[-80, 80])).collect();
    case.soft = Lent::holding(random, &soft, soft.len());
    train_out(random, &mut case);
    case
}

/// A random call for a BCH: good ones, near ones, and any train that is called a BCH.
pub fn bch_case(random: &mut Random, call: Call) -> Case {
    let train = match random.below(6) {
        0 => trains::any(random),
        1 => trains::near_bch(random),
        _ => trains::bch(random),
    };
    let mut case = case_of(random, call, train);
    case.train = case.train.as_bch();
    match call {
        Call::Encode => begin(random, &mut case),
        _ => case.train.counter = any_counter(random, case.train.counter),
    }
    case
}

/// The counter goes before the octets, now and then with a wrong bit or n1 first.
fn begin(random: &mut Random, case: &mut Case) {
    let counter = case.train.counter;
    let (wrong, turned) = (counter ^ 1 << random.below(4), (counter << 28).reverse_bits());
    begin_with(case.octets.part_mut(), random.pick(&[counter, counter, counter, counter, wrong, turned]));
}

/// A counter to decode a BCH with, which is not read: this one, another, or none.
pub fn any_counter(random: &mut Random, counter: u32) -> u32 {
    let (other, any) = (random.below(16) as u32, random.word() as u32);
    random.pick(&[counter, other, 16, 99, any, MOST])
}

/// A call for a good train, with all it needs, and then now and then something wrong.
fn case_of(random: &mut Random, call: Call, train: Description) -> Case {
    let mut case = Case::new(call, train);
    match call {
        Call::Encode => encode_case(random, &mut case),
        Call::Ideal => ideal_case(random, &mut case),
        Call::Mapped => mapped_case(random, &mut case),
        Call::Soften => soften_case(random, &mut case),
        Call::DecodeSoft => decode_soft_case(random, &mut case),
        Call::DecodeReadings => decode_readings_case(random, &mut case),
    }
    trains::damage(random, &mut case.train);
    case
}

fn mapped_case(random: &mut Random, case: &mut Case) {
    case.mode = random.below(9) as u32;
    case.group = random.pick(&[0, 1, 2, 3, 4, 15, 16, 17, 63, 64, 65, MOST]);
}

fn encode_case(random: &mut Random, case: &mut Case) {
    let size = case.train.size();
    let (octets, room) = (exact(random, size.n / 8), enough(random, size.sent));
    case.octets = Lent::random(random, octets);
    case.sent = Lent::random(random, room);
}

fn ideal_case(random: &mut Random, case: &mut Case) {
    let size = case.train.size();
    let (bits, count) = (sent_bits(random, size.sent), exact(random, size.sent));
    let (on_i, on_q) = (enough(random, size.carriers), enough(random, size.carriers));
    case.sent = Lent::holding(random, &bits, count);
    case.i = Lent::random(random, on_i);
    case.q = Lent::random(random, on_q);
}

fn soften_case(random: &mut Random, case: &mut Case) {
    readings_in(random, case);
    let room = enough(random, case.train.size().sent);
    case.soft = Lent::random(random, room);
}

fn decode_soft_case(random: &mut Random, case: &mut Case) {
    let mut soft = soft_bytes(random, &case.train);
    if case.train.kind == Kind::Bch && random.one_in(2) {
        lose_counter(random, &case.train, &mut soft);
    }
    let count = exact(random, soft.len());
    case.soft = Lent::holding(random, &soft, count);
    train_out(random, case);
}

fn decode_readings_case(random: &mut Random, case: &mut Case) {
    readings_in(random, case);
    train_out(random, case);
}

fn readings_in(random: &mut Random, case: &mut Case) {
    let carriers = case.train.size().carriers;
    let (i, q) = (readings(random, carriers), readings(random, carriers));
    let (on_i, on_q) = (exact(random, carriers), exact(random, carriers));
    case.i = Lent::holding(random, &i, on_i);
    case.q = Lent::holding(random, &q, on_q);
}

fn train_out(random: &mut Random, case: &mut Case) {
    let n = case.train.size().n;
    let (octets, words) = (enough(random, n / 8), enough(random, n + 6));
    case.octets = Lent::random(random, octets);
    case.words = Lent::random(random, words);
}
