//! The six calls once more, slow and obvious, written from document 01 and the requests for lists of PDUs, for BCH and
//! for the count of comparisons alone: no code, table or definition comes from the proved crates. Each takes and answers
//! what the library's call does.
pub mod modes;
mod points;
mod search;
mod sending;
#[cfg(test)]
mod tests;

use juzambore::{Answer, Kind, Mapping};
use modes::{mode_of, Size};

/// The refusal `no` unless it fits.
fn unless(no: u32, fits: bool) -> Result<(), u32> {
    if fits {
        Ok(())
    } else {
        Err(no)
    }
}

fn number(result: Result<(), u32>) -> u32 {
    result.err().unwrap_or(0)
}

#[allow(clippy::too_many_arguments)]
pub fn encode(
    kind: Kind, count: u32, modes: &[u32; 16], lengths: &[u32; 16], counter: u32, a: u32, octets: &[u8],
    sent: &mut [u8],
) -> u32 {
    number((|| {
        let size = Size::of(kind, count, modes, lengths, Some(counter), Some(a))?;
        unless(7, octets.len() == size.n / 8)?;
        unless(8, sent.len() >= size.sent)?;
        unless(12, kind == Kind::Data || sending::counter_of(&sending::bits_of(octets)) == counter)?;
        sent[..size.sent].copy_from_slice(&sending::sent_bits(kind, &size.pdus, counter, a as usize, octets));
        Ok(())
    })())
}

pub fn ideal(count: u32, modes: &[u32; 16], lengths: &[u32; 16], sent: &[u8], i: &mut [i16], q: &mut [i16]) -> u32 {
    number((|| {
        let size = Size::of(Kind::Data, count, modes, lengths, None, None)?;
        unless(7, sent.len() == size.sent)?;
        unless(8, i.len() >= size.carriers && q.len() >= size.carriers)?;
        unless(9, sent.iter().all(|&bit| bit <= 1))?;
        for (k, levels) in points::all_levels(size.bits_of_carriers(), sent).into_iter().enumerate() {
            (i[k], q[k]) = (256 * levels[0], 256 * levels[1]);
        }
        Ok(())
    })())
}

pub fn mapped(mode: u32, group: u32) -> Mapping {
    let parts = (|| {
        let mode = mode_of(mode)?;
        unless(9, group < 1 << mode.carrier)?;
        Ok(points::point(mode.carrier, group))
    })();
    match parts {
        Ok([i, q]) => Mapping { refusal: 0, i, q },
        Err(refusal) => Mapping { refusal, i: 0.0, q: 0.0 },
    }
}

pub fn soften(count: u32, modes: &[u32; 16], lengths: &[u32; 16], i: &[i16], q: &[i16], soft: &mut [i8]) -> u32 {
    number((|| {
        let size = Size::of(Kind::Data, count, modes, lengths, None, None)?;
        unless(7, i.len() == size.carriers && q.len() == size.carriers)?;
        unless(8, soft.len() >= size.sent)?;
        soft[..size.sent].copy_from_slice(&points::soft_bytes(size.bits_of_carriers(), i, q));
        Ok(())
    })())
}

#[allow(clippy::too_many_arguments)]
pub fn decode_soft(
    kind: Kind, count: u32, modes: &[u32; 16], lengths: &[u32; 16], counter: u32, a: u32, soft: &[i8],
    octets: &mut [u8], words: &mut [u64],
) -> Answer {
    let counter = read_by_decode(kind, counter);
    answer((|| {
        let size = Size::of(kind, count, modes, lengths, counter, Some(a))?;
        unless(7, soft.len() == size.sent)?;
        unless(8, octets.len() >= size.n / 8 && words.len() >= size.n + 6)?;
        unless(9, soft.iter().all(|&byte| (-80..=80).contains(&byte)))?;
        Ok(decoded(kind, &size, counter, a as usize, soft, octets, words))
    })())
}

#[allow(clippy::too_many_arguments)]
pub fn decode_readings(
    kind: Kind, count: u32, modes: &[u32; 16], lengths: &[u32; 16], counter: u32, a: u32, i: &[i16], q: &[i16],
    octets: &mut [u8], words: &mut [u64],
) -> Answer {
    let counter = read_by_decode(kind, counter);
    answer((|| {
        let size = Size::of(kind, count, modes, lengths, counter, Some(a))?;
        unless(7, i.len() == size.carriers && q.len() == size.carriers)?;
        unless(8, octets.len() >= size.n / 8 && words.len() >= size.n + 6)?;
        let soft = points::soft_bytes(size.bits_of_carriers(), i, q);
        Ok(decoded(kind, &size, counter, a as usize, &soft, octets, words))
    })())
}

fn answer(result: Result<Answer, u32>) -> Answer {
    result.unwrap_or_else(|refusal| Answer { refusal, symbols: 0, n: 0, cost: 0, confirmed: false, comparisons: 0 })
}

/// The counter that a decode is given. That of a BCH is not read.
fn read_by_decode(kind: Kind, counter: u32) -> Option<u32> {
    (kind == Kind::Data).then_some(counter)
}

/// Which coded bit each sent bit is: X of input t is 2 t, Y is 2 t + 1.
pub fn origins(size: &Size, a: usize) -> Vec<usize> {
    let numbers: Vec<[usize; 2]> = (0..size.n + 6).map(|t| [2 * t, 2 * t + 1]).collect();
    sending::in_sent_order(&size.pdus, a, &numbers)
}

/// Each soft byte goes to the coded bit that it is of; then search, mark and descrambling, by the train's own counter
/// where none is given.
fn decoded(
    kind: Kind, size: &Size, counter: Option<u32>, a: usize, soft: &[i8], octets: &mut [u8], words: &mut [u64],
) -> Answer {
    let mut heard = vec![[None; 2]; size.n + 6];
    for (number, &byte) in origins(size, a).into_iter().zip(soft) {
        heard[number / 2][number % 2] = Some(byte);
    }
    let (train, cost, comparisons) = search::least(&heard);
    let confirmed = search::is_confirmed(&heard, &train, cost);
    let bits = sending::entering(kind, &train, counter.unwrap_or_else(|| sending::counter_of(&train)));
    octets[..size.n / 8].copy_from_slice(&sending::octets_of(&bits));
    words[..size.n + 6].fill(0);
    Answer { refusal: 0, symbols: size.symbols as u32, n: size.sent as u32, cost: cost as u32, confirmed, comparisons }
}
