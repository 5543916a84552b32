//! Recorded calls, line by line, by every implementation: the library, the independent and the ordinary one.
//!
//! A line of `encode` is: kind, modes, counter, lengths, a, octets in hex, sent bits. A line of `decode_soft` is: kind,
//! modes, counter, lengths, a, soft bytes, `=`, refusal, symbols, n, cost, mark (C, D or -), octets in hex. The kind is
//! data or bch. Modes and lengths are numbers with commas between them, one for each PDU.
use crate::calls::{Call, Case, Told, INDEPENDENT, LIBRARY, ORDINARY};
use crate::description::Description;
use crate::lent::Lent;
use crate::random::Random;
use juzambore::{Answer, Kind};
use std::fs;

/// A recorded call, what it answers and what it leaves.
struct Recorded {
    case: Case,
    told: Told,
    sent: Vec<u8>,
    octets: Vec<u8>,
}

fn number(word: &str) -> u32 {
    word.parse().expect("a number")
}

fn octets_of(hex: &str) -> Vec<u8> {
    (0..hex.len()).step_by(2).map(|k| u8::from_str_radix(&hex[k..k + 2], 16).expect("an octet")).collect()
}

fn described(words: &[&str]) -> Description {
    let pdus = words[1].split(',').zip(words[3].split(','));
    let pdus: Vec<(u32, u32)> = pdus.map(|(mode, length)| (number(mode), number(length))).collect();
    let train = Description::of(&pdus, number(words[2]), number(words[4]));
    match words[0] {
        "data" => train,
        "bch" => train.as_bch(),
        kind => panic!("no kind {kind}"),
    }
}

fn encode_line(line: &str) -> Recorded {
    let random = &mut Random::new(1);
    let words: Vec<&str> = line.split(' ').collect();
    let octets = octets_of(words[5]);
    let sent: Vec<u8> = words[6].bytes().map(|bit| bit - b'0').collect();
    let mut case = Case::new(Call::Encode, described(&words));
    case.octets = Lent::holding(random, &octets, octets.len());
    case.sent = Lent::random(random, sent.len());
    Recorded { case, told: Told::Number(0), sent, octets }
}

fn decode_line(call: &str, answer: &str) -> Recorded {
    let random = &mut Random::new(1);
    let words: Vec<&str> = call.split(' ').collect();
    let soft: Vec<i8> = words[5..].iter().map(|word| word.parse().expect("a soft byte")).collect();
    let mut case = Case::new(Call::DecodeSoft, described(&words));
    case.soft = Lent::holding(random, &soft, soft.len());
    let size = case.train.size();
    case.octets = Lent::random(random, size.n / 8);
    case.words = Lent::random(random, size.n + 6);
    let said: Vec<&str> = answer.split(' ').collect();
    let [refusal, symbols, n, cost] = [0, 1, 2, 3].map(|k| number(said[k]));
    let comparisons = 64 * (size.n as u32 - 6) + 63; // which the lines do not say
    let told = Told::Decoded(Answer { refusal, symbols, n, cost, confirmed: said[4] == "C", comparisons });
    Recorded { case, told, sent: Vec::new(), octets: octets_of(said[5]) }
}

/// Runs the lines of a file; whether all give what is recorded.
pub fn agree(path: &str) -> bool {
    let text = fs::read_to_string(path).unwrap_or_else(|error| panic!("{path}: {error}"));
    let (mut wrong, mut lists, mut bchs) = (0, 0, 0);
    for (number, line) in text.lines().enumerate() {
        let recorded = match line.split_once(" = ") {
            Some((call, answer)) => decode_line(call, answer),
            None => encode_line(line),
        };
        lists += usize::from(recorded.case.train.is_mixed());
        bchs += usize::from(recorded.case.train.kind == Kind::Bch);
        for (name, by) in [("library", &LIBRARY), ("independent", &INDEPENDENT), ("ordinary", &ORDINARY)] {
            let mut case = recorded.case.clone();
            let told = case.run(by);
            let left = case.sent.part() == recorded.sent && case.octets.part() == recorded.octets;
            if told != recorded.told || !left || case.words.part().iter().any(|&word| word != 0) {
                println!("{path} line {}: {name} differs: {told:?}, recorded {:?}", number + 1, recorded.told);
                wrong += 1;
            }
        }
    }
    let lines = text.lines().count();
    print!("{path}: {lines} lines, {lists} with several PDUs and {bchs} of BCH, ");
    println!("by the library and both others: {wrong} differences");
    wrong == 0 && lines > 0
}
