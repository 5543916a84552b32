//! The proved calls and the others on the same trains of 3,456 bits, of one PDU in each mode and of sixteen in all of
//! them: that they agree, runs whose instructions can be counted, also of a single PDU, and times.
use crate::calls::{DecodeSoft, Encode};
use crate::description::Description;
use crate::random::Random;
use crate::{gauge, ordinary};
use juzambore::Kind;
use std::hint::black_box;
use std::time::Instant;

const N: u32 = 3456;
const COUNTER: u32 = 4;
const A: u32 = 72;
const TRAINS: u64 = 4;
const ROUNDS: usize = 200;

/// The mixed train, N bits in all: the mode and the length of each PDU. P1 lies across the first two.
const MIXED: [(u32, u32); 16] = [
    (1, 120),
    (1, 216),
    (2, 216),
    (3, 192),
    (4, 216),
    (5, 216),
    (6, 288),
    (7, 216),
    (7, 216),
    (6, 288),
    (5, 216),
    (4, 216),
    (3, 192),
    (2, 216),
    (1, 216),
    (7, 216),
];

/// The trains of the race by their names: a mode's number, or `mixed`.
const NAMES: [&str; 8] = ["1", "2", "3", "4", "5", "6", "7", "mixed"];

/// A train by its name: these, or a PDU by its mode and length, as `5:216`, for which P1 begins with the train.
fn named(name: &str) -> Description {
    let number = |word: &str| word.parse().expect("a mode, MODE:LENGTH or `mixed`");
    match name.split_once(':') {
        Some((mode, length)) => Description::of(&[(number(mode), number(length))], COUNTER, 0),
        None if name == "mixed" => Description::of(&MIXED, COUNTER, A),
        None => Description::of(&[(number(name), N)], COUNTER, A),
    }
}

/// A train with its noisy soft bytes and noisy readings, and the buffers to lend.
struct Desk {
    train: Description,
    octets: Vec<u8>,
    soft: Vec<i8>,
    heard: Vec<u8>,
    i: Vec<i16>,
    q: Vec<i16>,
    sent: Vec<u8>,
    softened: Vec<i8>,
    found: Vec<u8>,
    words: Vec<u64>,
}

impl Desk {
    fn new(name: &str, seed: u64) -> Desk {
        let random = &mut Random::new(seed);
        let train = named(name);
        let n = train.size().n;
        let octets = random.octets(n / 8);
        let Description { count, modes, lengths, a, .. } = &train;
        let mut sent = vec![0; train.size().sent];
        assert_eq!(juzambore::encode(Kind::Data, *count, modes, lengths, COUNTER, *a, &octets, &mut sent), 0);
        let noisy = |&bit: &u8| ((if bit == 1 { 24 } else { -24 }) + random.noise(10)).clamp(-80, 80) as i8;
        let soft: Vec<i8> = sent.iter().map(noisy).collect();
        let described =
            ordinary::described(Kind::Data, *count, modes, lengths, COUNTER, *a).expect("a good description");
        let heard = ordinary::spread(&described, *a as usize, &soft).to_vec();
        let mut i = vec![0; 48 * train.size().symbols];
        let mut q = i.clone();
        assert_eq!(juzambore::ideal(*count, modes, lengths, &sent, &mut i, &mut q), 0);
        i.iter_mut().chain(&mut q).for_each(|reading| *reading += random.noise(100) as i16);
        let softened = vec![0; sent.len()];
        Desk { train, octets, soft, heard, i, q, sent, softened, found: vec![0; n], words: vec![0; n + 6] }
    }

    /// An encode with the buffer cleared first.
    fn encode(&mut self, by: Encode) -> u32 {
        let Description { count, modes, lengths, a, .. } = black_box(&self.train);
        self.sent.fill(0);
        let refusal = by(Kind::Data, *count, modes, lengths, COUNTER, *a, &self.octets, &mut self.sent);
        black_box(&self.sent);
        refusal
    }

    /// The proved soft bytes of the readings, with the buffer cleared first.
    fn soften(&mut self) -> u32 {
        let Description { count, modes, lengths, .. } = black_box(&self.train);
        self.softened.fill(0);
        let refusal = juzambore::soften(*count, modes, lengths, &self.i, &self.q, &mut self.softened);
        black_box(&self.softened);
        refusal
    }

    /// A decode with the buffers cleared first: twice its cost, and 1 more if it is confirmed.
    fn decode(&mut self, by: DecodeSoft) -> u32 {
        let Description { count, modes, lengths, a, .. } = black_box(&self.train);
        let (octets, words) = (&mut self.found[..self.octets.len()], &mut self.words[..]);
        octets.fill(0);
        words.fill(0);
        let answer = by(Kind::Data, *count, modes, lengths, COUNTER, *a, &self.soft, octets, words);
        black_box((octets, words));
        2 * answer.cost + u32::from(answer.confirmed)
    }

    /// The proved search and mark on the same soft bytes, with the same clearing.
    fn passes(&mut self) -> u32 {
        self.found[..self.octets.len()].fill(0);
        self.words.fill(0);
        let cost = gauge::search(N, &self.heard, &mut self.found, &mut self.words);
        2 * cost + gauge::mark(N, &self.heard, &self.found)
    }
}

type Job = fn(&mut Desk) -> u32;

const RACERS: [&str; 3] = ["proved", "ordinary", "shape"];

fn job(who: &str, what: &str) -> Option<Job> {
    match (who, what) {
        ("proved", "encode") => Some(|desk| desk.encode(juzambore::encode)),
        ("ordinary", "encode") => Some(|desk| desk.encode(ordinary::encode)),
        ("proved", "decode") => Some(|desk| desk.decode(juzambore::decode_soft)),
        ("ordinary", "decode") => Some(|desk| desk.decode(ordinary::decode_soft)),
        ("shape", "decode") => Some(|desk| desk.decode(ordinary::decode_in_same_shape)),
        ("proved", "passes") => Some(Desk::passes),
        ("proved", "soften") => Some(Desk::soften),
        _ => None,
    }
}

/// Whether all racers give the train back with its cost, and confirmed: then no pass of a mark ends early.
fn is_fair(desk: &mut Desk) -> bool {
    let sent = desk.sent.clone();
    let cost = |(&soft, &bit): (&i8, &u8)| (if bit == 0 { soft } else { -soft }).max(0) as u32;
    let answer = 2 * desk.soft.iter().zip(&sent).map(cost).sum::<u32>() + 1;
    let mut good = desk.passes() == answer;
    for who in RACERS {
        good &= job(who, "encode").into_iter().all(|encode| encode(desk) == 0 && desk.sent == sent);
        good &=
            job(who, "decode").into_iter().all(|decode| decode(desk) == answer && desk.found.starts_with(&desk.octets));
    }
    good
}

pub fn agree() -> bool {
    let desks = NAMES.into_iter().flat_map(|name| (0..TRAINS).map(move |seed| Desk::new(name, seed)));
    let fair: Vec<bool> = desks.map(|mut desk| is_fair(&mut desk)).collect();
    let good = fair.iter().filter(|&&fair| fair).count();
    println!("{good} of {} noisy trains for the race come back as sent and confirmed from all decoders", fair.len());
    good == fair.len()
}

/// Prints how many bits of a train are sent.
pub fn print_sent(name: &str) {
    println!("{}", named(name).size().sent);
}

/// Prints the mode and the length of each PDU of the mixed train.
pub fn print_mixed() {
    MIXED.iter().for_each(|(mode, length)| println!("{mode} {length}"));
}

/// One job so many times, to count its instructions.
pub fn run(who: &str, what: &str, name: &str, count: usize) {
    let job = job(who, what).unwrap_or_else(|| panic!("no job {who} {what}"));
    let desk = &mut Desk::new(name, 0);
    let sum: u32 = (0..count).map(|_| job(desk)).sum();
    println!("{sum}");
}

/// Nanoseconds of one job, over all the trains.
fn time(desks: &mut [Desk], job: Job) -> u64 {
    let start = Instant::now();
    for desk in desks.iter_mut() {
        black_box(job(desk));
    }
    start.elapsed().as_nanos() as u64 / desks.len() as u64
}

/// Prints for each call and train the least nanoseconds of each racer, taken in turn; 0 for one without the call.
pub fn times() {
    for (what, name) in ["encode", "soften", "decode"].into_iter().flat_map(|what| NAMES.map(|name| (what, name))) {
        let mut desks: Vec<Desk> = (0..TRAINS).map(|seed| Desk::new(name, seed)).collect();
        let mut least = [u64::MAX; RACERS.len()];
        for _ in 0..ROUNDS {
            for (least, who) in least.iter_mut().zip(RACERS) {
                *least = job(who, what).map_or(0, |job| time(&mut desks, job).min(*least));
            }
        }
        println!("{what} {name} {} {} {}", least[0], least[1], least[2]);
    }
}
