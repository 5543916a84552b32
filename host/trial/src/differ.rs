//! The library against the independent implementation on random calls, and trains through noise and back.
use crate::calls::{Call, Calls, Case, Told, BY_NUMBER, INDEPENDENT, LIBRARY, ORDINARY};
use crate::cases::{any_counter, bch_case, dear_case, drown_counter, random_case, with_noise};
use crate::description::Description;
use crate::ladder::{bch_rungs, rungs, BchRung, Rung};
use crate::lent::Lent;
use crate::random::Random;
use crate::tally::{Tally, BCH, DROWNED, SEVERAL, STRENGTHS};
use crate::trains::{self, MOST};
use juzambore::Kind;

/// So many differences are printed in full, and of the others the call's numbers.
const SHOWN: usize = 5;

/// So many of the longest trains have a cost that sixteen bits do not hold.
const DEAR: usize = 40;

struct Trial {
    random: Random,
    tally: Tally,
    differences: usize,
}

/// Makes at least `count` calls of the library for data, half of them with lists of several PDUs, and a fifth as many
/// more for BCH; whether all agree, and every refusal, every counter and every number of a kind was seen.
pub fn differ(count: usize, seed: u64) -> bool {
    let mut trial = Trial { random: Random::new(seed), tally: Tally::default(), differences: 0 };
    trial.data(count);
    trial.bch(count / 5);
    let complete = trial.tally.print();
    println!("\n{} calls of the library, {} differences", trial.tally.calls(), trial.differences);
    if !complete {
        println!("something was NEVER reached");
    }
    trial.differences == 0 && complete
}

impl Trial {
    fn data(&mut self, count: usize) {
        self.every_group();
        self.every_rung();
        for _ in 0..DEAR {
            let case = dear_case(&mut self.random);
            self.pass(&case);
        }
        let mut round = 0;
        while self.tally.calls() < count || 2 * self.tally.lists() < count {
            self.random_calls([3, 3, 1, 3, 3, 2], random_case);
            self.through_noise(round % SEVERAL, round / SEVERAL % STRENGTHS.len());
            self.through_noise(SEVERAL, round % STRENGTHS.len());
            round += 1;
        }
    }

    /// At least 100 rounds, in which every refusal is reached.
    fn bch(&mut self, count: usize) {
        let before = self.tally.calls();
        self.every_bch_rung();
        self.every_counter();
        let mut round = 0;
        while round < 100 || self.tally.calls() < before + count {
            self.random_calls([3, 0, 0, 0, 3, 2], bch_case);
            self.through_noise(BCH, round % STRENGTHS.len());
            self.through_noise(DROWNED, round % STRENGTHS.len());
            round += 1;
        }
    }

    /// Does a call by the library and by the independent implementation, on equal buffers, and compares the answers and
    /// every element of every buffer. The library's answer and what it left.
    fn pass(&mut self, case: &Case) -> (Told, Case) {
        let mut ours = case.clone();
        let told = ours.run(&LIBRARY);
        self.tally.count(case, told, &ours);
        self.compare("independent", &INDEPENDENT, case, told, &ours);
        if matches!(case.call, Call::Encode | Call::DecodeSoft) {
            self.compare("ordinary", &ORDINARY, case, told, &ours);
        }
        if case.call.has_place() && case.train.kind == Kind::Bch {
            self.by_number(case);
        }
        (told, ours)
    }

    /// The same call with the next of the numbers that a kind can have in C: 0 is data, every other BCH.
    fn by_number(&mut self, case: &Case) {
        let next = self.tally.next_number();
        let (number, kind, calls) = &BY_NUMBER[next];
        let case = Case { train: Description { kind: *kind, ..case.train }, ..case.clone() };
        let mut ours = case.clone();
        let told = ours.run(calls);
        self.compare(&format!("independent (kind {number} in C)"), &INDEPENDENT, &case, told, &ours);
    }

    fn compare(&mut self, name: &str, by: &Calls, case: &Case, told: Told, ours: &Case) {
        let mut theirs = case.clone();
        let wanted = theirs.run(by);
        if told != wanted || *ours != theirs {
            let left = format!("left by the library: {ours:?}\nleft by the {name} one: {theirs:?}");
            self.difference(&format!("the library: {told:?}\nthe {name} one: {wanted:?}\n{left}"), case);
        }
    }

    fn difference(&mut self, what: &str, case: &Case) {
        self.differences += 1;
        println!("DIFFERENCE {}: {}", self.differences, case.title());
        if self.differences <= SHOWN {
            println!("the call: {case:?}\n{what}\n");
        }
    }

    /// `mapped`: all groups of all modes, and some that are none.
    fn every_group(&mut self) {
        let none = Description::of(&[], 0, 0);
        for mode in (0..=8).chain([u32::MAX]) {
            for group in (0..=64).chain([u32::MAX]) {
                self.pass(&Case { mode, group, ..Case::new(Call::Mapped, none) });
            }
        }
    }

    /// Every rung of the ladder in every call that takes a description.
    fn every_rung(&mut self) {
        for Rung { train, refusal, without_place } in rungs() {
            for call in Call::ALL.into_iter().filter(|&call| call != Call::Mapped) {
                self.is_refused(call, train, if call.has_place() { refusal } else { without_place });
            }
        }
    }

    fn every_bch_rung(&mut self) {
        for BchRung { train, encode, decode } in bch_rungs() {
            for call in Call::ALL.into_iter().filter(|&call| call.has_place()) {
                self.is_refused(call, train, if call == Call::Encode { encode } else { decode });
            }
        }
    }

    /// A call with nothing lent.
    fn is_refused(&mut self, call: Call, train: Description, wanted: u32) {
        let case = Case::new(call, train);
        let told = self.pass(&case).0;
        if told.refusal() != wanted {
            self.difference(&format!("the library: {told:?}, by the documents {wanted}"), &case);
        }
    }

    /// Random calls, of each as many as it is given.
    fn random_calls(&mut self, times: [usize; 6], some_case: fn(&mut Random, Call) -> Case) {
        for (call, times) in Call::ALL.into_iter().zip(times) {
            for _ in 0..times {
                let case = some_case(&mut self.random, call);
                if call == Call::DecodeReadings {
                    self.both_ways(&case);
                } else {
                    self.pass(&case);
                }
            }
        }
    }

    /// Decoding from readings; where it is done, also soft bytes first and decoding from these, which must leave the
    /// same.
    fn both_ways(&mut self, case: &Case) -> (Told, Case) {
        let (told, left) = self.pass(case);
        if told.refusal() == 0 && case.train.is_good() {
            let sent = case.train.size().sent;
            let room = sent + self.random.below(9);
            let soften = Case { call: Call::Soften, soft: Lent::random(&mut self.random, room), ..case.clone() };
            let (_, softened) = self.pass(&soften);
            let soft = Lent::holding(&mut self.random, softened.soft.part(), sent);
            let (told_soft, left_soft) = self.pass(&Case { call: Call::DecodeSoft, soft, ..case.clone() });
            if told != told_soft || left.octets != left_soft.octets || left.words != left_soft.words {
                self.difference(&format!("from readings {told:?}, from soft bytes {told_soft:?}"), case);
            }
        }
        (told, left)
    }

    /// A BCH of each counter without noise, decoded with every counter and with numbers that are none.
    fn every_counter(&mut self) {
        for sent in 0..16 {
            for given in (0..16).chain([16, 99, 256 + sent, MOST]) {
                let train = Description { counter: sent, ..trains::bch(&mut self.random) };
                let (octets, mut case) = self.sent_and_read(train, 0);
                case.train.counter = given;
                self.back(BCH, 0, &octets, &case);
            }
        }
    }

    /// A train of this kind is encoded, read with noise and decoded. A BCH is decoded with any counter.
    fn through_noise(&mut self, kind: usize, strength: usize) {
        let train = match kind {
            SEVERAL => trains::mixed(&mut self.random),
            BCH | DROWNED => trains::bch(&mut self.random),
            _ => trains::single(&mut self.random, kind as u32 + 1),
        };
        let (octets, mut case) = self.sent_and_read(train, STRENGTHS[strength]);
        if kind == DROWNED {
            drown_counter(&mut self.random, &train, case.i.part_mut());
        }
        if train.kind == Kind::Bch {
            case.train.counter = any_counter(&mut self.random, train.counter);
        }
        self.back(kind, strength, &octets, &case);
    }

    /// A train that went through noise is decoded. Without noise it must come back, at cost 0 and confirmed.
    fn back(&mut self, kind: usize, strength: usize, octets: &[u8], case: &Case) {
        let (told, left) = self.both_ways(case);
        let Told::Decoded(answer) = told else { unreachable!("a decode") };
        let right = left.octets.part().starts_with(octets);
        self.tally.heard(kind, strength, right, answer.confirmed);
        if case.train.kind == Kind::Bch {
            self.tally.counters(octets[0] >> 4, left.octets.part()[0] >> 4);
        }
        if kind != DROWNED && STRENGTHS[strength] == 0 && !(right && answer.cost == 0 && answer.confirmed) {
            self.difference(&format!("ideal readings come back with {told:?}, as sent: {right}"), case);
        }
    }

    /// The octets of a random train, and the call that decodes its noisy readings.
    fn sent_and_read(&mut self, train: Description, strength: i32) -> (Vec<u8>, Case) {
        let size = train.size();
        let octets = train.octets(&mut self.random);

        let mut encode = Case::new(Call::Encode, train);
        encode.octets = Lent::holding(&mut self.random, &octets, size.n / 8);
        encode.sent = Lent::random(&mut self.random, size.sent);
        let mut ideal = Case { call: Call::Ideal, octets: Lent::none(), ..self.pass(&encode).1 };
        ideal.i = Lent::random(&mut self.random, size.carriers);
        ideal.q = Lent::random(&mut self.random, size.carriers);
        let read = self.pass(&ideal).1;

        let mut decode = Case::new(Call::DecodeReadings, train);
        let on_i = with_noise(&mut self.random, read.i.part(), strength);
        let on_q = with_noise(&mut self.random, read.q.part(), strength);
        decode.i = Lent::holding(&mut self.random, &on_i, size.carriers);
        decode.q = Lent::holding(&mut self.random, &on_q, size.carriers);
        decode.octets = Lent::random(&mut self.random, size.n / 8 + 3);
        decode.words = Lent::random(&mut self.random, size.n + 6 + 3);
        (octets, decode)
    }
}
