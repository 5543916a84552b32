//! Document 01's own examples, lists of PDUs, BCH, and search and mark of short trains against all trains.
use super::modes::{Size, MODES};
use super::{points, search, sending};
use crate::description::Description;
use crate::ladder::{bch_rungs, rungs, BchRung, Rung};
use crate::random::Random;
use juzambore::Kind;
use std::collections::HashMap;

fn text(bits: &[u8]) -> String {
    bits.iter().map(|bit| bit.to_string()).collect()
}

#[test]
fn scrambler_example() {
    let scrambled = sending::scrambled(&[1, 0, 0, 1, 1, 1, 0, 1, 0, 0, 0], 0b0100);
    assert_eq!(text(&scrambled), "00111110011");
}

/// The same example behind a counter, and back by the counter that stands there.
#[test]
fn bch_example() {
    let bits = [0, 1, 0, 0, 1, 0, 0, 1, 1, 1, 0, 1];
    let inputs = sending::entering(Kind::Bch, &bits, 0b0100);
    assert_eq!(text(&inputs), "010000111110");
    assert_eq!(sending::entering(Kind::Bch, &inputs, sending::counter_of(&inputs)), bits);
}

/// n4 comes first.
#[test]
fn counters() {
    for (bits, counter) in [([0, 0, 0, 1], 1), ([1, 0, 0, 0], 8), ([0, 1, 1, 1], 7), ([1, 1, 0, 1], 13)] {
        assert_eq!(sending::counter_of(&bits), counter);
    }
}

#[test]
fn input_1_and_six_zeros() {
    assert_eq!(text(&sending::coded(&[1, 0, 0, 0, 0, 0, 0]).concat()), "11011111001011");
}

#[test]
fn interleaver_places() {
    for (mode, k, j) in [(1, 1, 3), (1, 17, 4), (5, 1, 13), (5, 2, 24), (7, 1, 20), (7, 17, 18)] {
        assert_eq!(sending::place(&MODES[mode - 1], k), j, "mode {mode}, k {k}");
    }
}

/// Readings by the bits of their axis and the place of the bit.
#[test]
fn soft_bytes() {
    let qpsk = [(32, 1), (-32, -1), (2049, 32), (31, 0), (95, 1), (96, 2), (2048, 32), (-32768, -32)];
    let others = [(768, 2, 0, 16), (0, 2, 1, 8), (2048, 2, 1, -24), (2048, 3, 0, 80), (1024, 3, 2, 8)];
    for (reading, bits, bit, soft) in qpsk.map(|(reading, soft)| (reading, 1, 0, soft)).into_iter().chain(others) {
        assert_eq!(
            points::soft_byte(points::leaning(reading, bits, bit)),
            soft,
            "reading {reading}, bit {bit} of {bits}"
        );
    }
}

/// The refusal of each rung, with counter and a and without; 7 is no refusal of a description.
#[test]
fn ladder() {
    for Rung { train, refusal, without_place } in rungs() {
        assert_eq!(refused(&train, Some(train.counter), Some(train.a)), refusal, "{train:?}");
        assert_eq!(refused(&train, None, None), without_place, "{train:?} without counter and a");
    }
    for BchRung { train, encode, decode } in bch_rungs() {
        assert_eq!(refused(&train, Some(train.counter), Some(train.a)), encode, "encoding {train:?}");
        assert_eq!(refused(&train, None, Some(train.a)), decode, "decoding {train:?}");
    }
}

fn refused(train: &Description, counter: Option<u32>, a: Option<u32>) -> u32 {
    Size::of(train.kind, train.count, &train.modes, &train.lengths, counter, a).err().unwrap_or(7)
}

/// The sent bits of a train of these PDUs, its octets all alike.
fn sent_bits(pdus: &[(u32, u32)], a: u32) -> Vec<u8> {
    let size = Description::of(pdus, 4, a).size();
    sending::sent_bits(Kind::Data, &size.pdus, 4, a as usize, &vec![0x9d; size.n / 8])
}

/// A symbol is a whole number of P2's periods, so that a train may be cut into PDUs of one mode without a change.
#[test]
fn cut_in_one_mode() {
    for (mode, a) in (1..=7).flat_map(|mode| [0, 180, 400, 792].map(|a| (mode, a))) {
        assert_eq!(sent_bits(&[(mode, 432), (mode, 432)], a), sent_bits(&[(mode, 864)], a), "mode {mode}, a {a}");
    }
}

/// Scrambler, code and P1 know no modes: a PDU is sent as its place in a train all of its mode. P1 lies across the two.
#[test]
fn mode_of_each_pdu() {
    let (slow, fast) = (sent_bits(&[(1, 864)], 396), sent_bits(&[(6, 864)], 396));
    let mixed = sent_bits(&[(1, 432), (6, 432)], 396);
    assert_eq!(mixed, [&slow[..864], &fast[fast.len() / 2..]].concat());
}

type Pair = [Option<i8>; 2];

fn some_heard(random: &mut Random, steps: usize) -> Vec<Pair> {
    let (size, lost) = (random.pick(&[0, 1, 1, 2, 2, 80]), random.below(3));
    let mut soft = || (random.below(4) >= lost).then(|| random.around(size) as i8);
    (0..steps).map(|_| [soft(), soft()]).collect()
}

/// All coded bits of a train of n bits, the first at 1.
fn coded(n: usize, train: usize) -> Vec<u8> {
    sending::coded(&(0..n + 6).map(|t| (train >> t & 1) as u8).collect::<Vec<u8>>()).concat()
}

fn cost(heard: &[Pair], coded: &[u8]) -> i64 {
    let bit = |(soft, bit): (&Option<i8>, &u8)| i64::from(soft.unwrap_or(0)) * if *bit == 0 { 1 } else { -1 };
    heard.iter().flatten().zip(coded).map(|pair| bit(pair).max(0)).sum()
}

fn differing(heard: &[Pair], one: &[u8], other: &[u8]) -> i64 {
    let sent = heard.iter().flatten().map(Option::is_some);
    sent.zip(one.iter().zip(other)).filter(|(sent, (a, b))| *sent && a != b).count() as i64
}

/// The pairs of step and state into which partial trains with different oldest bits lead, over every beginning of every
/// train of n bits, the first at 1, with its six zeros. Six inputs are the state, and the one before them is the oldest.
fn comparisons_by_trains(n: usize) -> u32 {
    let mut oldest: HashMap<(usize, usize), [bool; 2]> = HashMap::new();
    for (train, t) in (0..1 << n).flat_map(|train: usize| (0..n + 6).map(move |t| (train, t))) {
        let last_seven = (train << 6) >> t & 127;
        oldest.entry((t, last_seven >> 1)).or_default()[last_seven & 1] = true;
    }
    oldest.values().map(|seen| u32::from(*seen == [true, true])).sum()
}

#[test]
fn comparisons_against_all() {
    for n in 6..=10 {
        let formula = 64 * (n as u32 - 6) + 63;
        assert_eq!(comparisons_by_trains(n), formula, "{n} bits");
        assert_eq!(search::least(&vec![[None; 2]; n + 6]).2, formula, "{n} bits");
    }
}

/// The first train of least cost, in the order of numbers: of two, the lower has 0 at the last place where they differ.
#[test]
fn short_trains_against_all() {
    let mut random = Random::new(1);
    let (mut tied, mut confirmed, mut at_limit) = (0, 0, 0);
    for case in 0..3000 {
        let n = case % 9;
        let heard = some_heard(&mut random, n + 6);
        let all: Vec<Vec<u8>> = (0..1 << n).map(|train| coded(n, train)).collect();
        let costs: Vec<i64> = all.iter().map(|coded| cost(&heard, coded)).collect();
        let best = (0..all.len()).min_by_key(|&train| costs[train]).expect("a train");
        let rivals = (0..all.len()).filter(|&rival| rival != best);
        let margin = |rival: usize| 2 * (costs[rival] - costs[best]) - differing(&heard, &all[rival], &all[best]);
        let least = rivals.map(margin).min().unwrap_or(i64::MAX);

        let (train, found, _) = search::least(&heard);
        assert_eq!(train, (0..n).map(|t| (best >> t & 1) as u8).collect::<Vec<u8>>());
        assert_eq!(found, costs[best]);
        assert_eq!(search::is_confirmed(&heard, &train, found), least > 0);
        tied += usize::from(costs.iter().filter(|&&cost| cost == found).count() > 1);
        confirmed += usize::from(least > 0);
        at_limit += usize::from(least == 0);
    }
    assert!(
        tied > 100 && confirmed > 100 && at_limit > 50,
        "{tied} tied, {confirmed} confirmed, {at_limit} at the limit"
    );
}
