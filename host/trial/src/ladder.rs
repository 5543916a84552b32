//! Descriptions that are refused, with the numbers written down by hand from the order in the documents. A row has, as
//! far as it can, every later reason to be refused as well.
use crate::description::Description;
use crate::trains::MOST;

/// A description, its refusal, and that of a call without counter and a. Nothing is lent: a good one is refused with 7.
pub struct Rung {
    pub train: Description,
    pub refusal: u32,
    pub without_place: u32,
}

fn rung(refusal: u32, pdus: &[(u32, u32)], counter: u32, a: u32) -> Rung {
    Rung { train: Description::of(pdus, counter, a), refusal, without_place: refusal }
}

fn unless_left_out(without_place: u32, rung: Rung) -> Rung {
    Rung { without_place, ..rung }
}

/// So many PDUs, whatever the list holds.
fn counted(count: u32, mut rung: Rung) -> Rung {
    rung.train.count = count;
    rung
}

/// The same PDU so many times, and one more.
fn and_last(times: usize, pdu: (u32, u32), last: (u32, u32)) -> Vec<(u32, u32)> {
    let mut pdus = vec![pdu; times];
    pdus.push(last);
    pdus
}

pub fn rungs() -> Vec<Rung> {
    [counts_and_modes(), own_lengths(), sums()].into_iter().flatten().collect()
}

fn counts_and_modes() -> Vec<Rung> {
    let sixteen = and_last(15, (1, 72), (6, 144));
    vec![
        counted(0, rung(11, &[(8, 64)], 16, MOST)),
        counted(0, rung(11, &sixteen, 0, 0)),
        counted(17, rung(11, &[(8, 64)], 16, MOST)),
        counted(17, rung(11, &sixteen, 0, 0)),
        counted(MOST, rung(11, &[(8, 64)], 16, MOST)),
        counted(MOST, rung(11, &sixteen, 0, 0)),
        rung(1, &[(0, 64)], 16, MOST),
        rung(1, &[(MOST, 72)], 0, 0),
        rung(1, &[(1, 64), (1, 73), (8, 64)], 16, MOST),
        rung(1, &and_last(15, (1, 64), (0, 64)), 16, MOST),
        unless_left_out(3, rung(2, &[(1, 64), (2, 108)], 16, MOST)),
        unless_left_out(5, rung(2, &[(1, 72), (3, 72)], MOST, MOST)),
        unless_left_out(3, rung(2, &[(1, 3456), (1, 72)], 16, MOST)),
        unless_left_out(7, rung(2, &[(1, 72), (1, 72)], 16, 0)),
    ]
}

/// All three of a PDU's own before those of the next, and all of these before the sum.
fn own_lengths() -> Vec<Rung> {
    vec![
        rung(3, &[(1, 64), (1, 73)], 15, MOST),
        rung(3, &[(3, 71), (3, 72)], 15, MOST),
        rung(4, &[(1, 73), (1, 64)], 15, MOST),
        rung(4, &[(2, 108), (3, 72)], 15, MOST),
        rung(5, &[(3, 72), (1, 64)], 15, MOST),
        rung(5, &[(3, 72), (1, 73)], 15, MOST),
        rung(3, &[(1, 72), (1, 71), (1, 73)], 15, MOST),
        rung(3, &[(1, 72), (7, 3457), (3, 72)], 15, MOST),
        rung(4, &[(1, 72), (2, 108), (1, 64)], 15, MOST),
        rung(5, &[(1, 72), (3, 72), (1, MOST)], 15, MOST),
        rung(3, &[(1, 3456), (1, 0)], 15, MOST),
        rung(4, &[(1, 3456), (1, 73)], 15, MOST),
        rung(5, &[(1, 3456), (1, 3456), (3, 72)], 15, MOST),
        rung(3, &and_last(15, (7, 216), (1, MOST - 7)), 15, MOST),
        rung(4, &and_last(15, (7, 216), (2, 108)), 15, MOST),
        rung(5, &and_last(15, (7, 216), (7, 72)), 15, MOST),
    ]
}

/// The sum, P1 by the sum, and descriptions that are good.
fn sums() -> Vec<Rung> {
    let widest = and_last(15, (7, 216), (7, 216));
    vec![
        rung(3, &[(1, 3456), (1, 72)], 15, MOST),
        rung(3, &[(1, 3384), (1, 96)], 0, 0),
        rung(3, &and_last(15, (7, 216), (1, 240)), 15, MOST),
        rung(3, &and_last(15, (7, 3456), (7, 3456)), 15, MOST),
        unless_left_out(7, rung(6, &[(1, 72)], 0, 1)),
        unless_left_out(7, rung(6, &[(1, 72), (6, 144)], 15, 145)),
        unless_left_out(7, rung(6, &[(1, 72), (1, 3384)], 15, 3385)),
        unless_left_out(7, rung(6, &widest, 15, 3385)),
        unless_left_out(7, rung(6, &widest, 15, MOST - 71)),
        rung(7, &[(1, 72), (6, 144)], 15, 144),
        rung(7, &[(1, 72), (1, 3384)], 15, 3384),
        rung(7, &widest, 15, 3384),
    ]
}

/// A description of a BCH, and what encoding and decoding refuse it with. Decoding does not read the counter.
pub struct BchRung {
    pub train: Description,
    pub encode: u32,
    pub decode: u32,
}

pub fn bch_rungs() -> Vec<BchRung> {
    [bch_counters(), bch_lists()].into_iter().flatten().collect()
}

fn bch_rung(encode: u32, decode: u32, pdus: &[(u32, u32)], counter: u32, a: u32) -> BchRung {
    BchRung { train: Description::of(pdus, counter, a).as_bch(), encode, decode }
}

/// All counters that are good, and one above 15 before each later refusal.
fn bch_counters() -> Vec<BchRung> {
    let good = (0..=15).map(|counter| bch_rung(7, 7, &[(1, 120)], counter, 0));
    let above = [
        bch_rung(11, 11, &[], 16, MOST),
        bch_rung(1, 1, &[(0, 120)], MOST, 0),
        bch_rung(1, 1, &[(1, 120), (8, 64)], 16, MOST),
        bch_rung(2, 3, &[(1, 64)], 16, MOST),
        bch_rung(2, 4, &[(1, 124)], 16, MOST),
        bch_rung(2, 5, &[(1, 120), (3, 120)], MOST, MOST),
        bch_rung(2, 3, &[(1, 3456), (1, 120)], 16, MOST),
        bch_rung(2, 6, &[(1, 120)], 16, 49),
        bch_rung(2, 12, &[(1, 120)], 16, 48),
        bch_rung(2, 12, &[(1, 96)], MOST, 0),
        bch_rung(2, 7, &[(1, 120)], 16, 0),
        bch_rung(2, 7, &[(1, 120)], MOST, 0),
    ];
    good.chain(above).collect()
}

/// 12 comes after 6, for each of its causes. No mode but 1 has PDUs of 120 bits.
fn bch_lists() -> Vec<BchRung> {
    let both = |refusal: u32, pdus: &[(u32, u32)], a: u32| bch_rung(refusal, refusal, pdus, 15, a);
    let others = (2..=7).map(|mode| both(5, &[(mode, 120)], MOST));
    let rungs = [
        both(3, &[(1, 64)], MOST),
        both(4, &[(1, 124)], MOST),
        both(3, &[(1, 120), (1, 64)], MOST),
        both(4, &[(1, 120), (1, 124)], MOST),
        both(5, &[(1, 120), (2, 120)], MOST),
        both(3, &[(1, 120), (1, 3384)], MOST),
        both(6, &[(1, 120)], 49),
        both(6, &[(1, 96)], 25),
        both(6, &[(4, 72)], 1),
        both(6, &[(1, 120), (1, 120)], 169),
        both(12, &[(1, 120)], 48),
        both(12, &[(1, 120)], 1),
        both(12, &[(1, 96)], 24),
        both(12, &[(1, 96)], 0),
        both(12, &[(1, 144)], 0),
        both(12, &[(7, 216)], 144),
        both(12, &[(4, 72)], 0),
        both(12, &[(1, 120), (1, 120)], 120),
        both(12, &[(1, 120), (1, 72)], 0),
        both(12, &and_last(15, (1, 120), (1, 120)), 0),
    ];
    others.chain(rungs).collect()
}
