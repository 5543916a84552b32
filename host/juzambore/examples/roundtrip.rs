//! Sends one train and takes it back: octets, sent bits, ideal readings, and octets again.
//!
//! Its two PDUs are control in a slow mode and data in a fast one.
use juzambore::{decode_readings, encode, ideal, Kind};

/// A list as the calls take it: what stands past the count is not read.
fn listed<const COUNT: usize>(numbers: [u32; COUNT]) -> [u32; 16] {
    std::array::from_fn(|k| numbers.get(k).copied().unwrap_or(0))
}

fn main() {
    // BPSK 1/2: three symbols of 48 sent bits. 16QAM 3/4: two symbols of 192. Each symbol has 48 carriers.
    let (count, modes, lengths) = (2, &listed([1, 6]), &listed([72, 288]));
    let (counter, a) = (4, 36); // P1 lies across the two PDUs
    let octets = *b"control: thirty-six octets of data in mode 6.";

    let mut sent = [0; 3 * 48 + 2 * 192];
    assert_eq!(encode(Kind::Data, count, modes, lengths, counter, a, &octets, &mut sent), 0);
    let (mut i, mut q) = ([0; 5 * 48], [0; 5 * 48]);
    assert_eq!(ideal(count, modes, lengths, &sent, &mut i, &mut q), 0);

    let (mut back, mut words) = ([0; 45], [0; 360 + 6]);
    let answer = decode_readings(Kind::Data, count, modes, lengths, counter, a, &i, &q, &mut back, &mut words);
    assert_eq!(answer.refusal, 0);

    println!("sent     {}", octets.escape_ascii());
    println!("decoded  {}", back.escape_ascii());
    let mark = if answer.confirmed { "confirmed" } else { "not confirmed" };
    println!("{} symbols, {} sent bits, cost {}, {mark}", answer.symbols, answer.n, answer.cost);
    println!("{} comparisons of two partial trains", answer.comparisons);
    assert_eq!(octets, back);
}
