//! Holds libjuzambore.a against an independent implementation, and races it with an ordinary one.
//!
//!     trial vectors FILE...          recorded calls, line by line
//!     trial calls [COUNT [SEED]]     at least COUNT random calls for data (100,000), half of them with lists of several
//!                                    PDUs, and a fifth as many more for BCH
//!     trial agree                    that all agree on the trains of the race
//!     trial mixed                    the modes and lengths of the race's mixed train
//!     trial sent MODE                how many bits the race's train of that mode, or `mixed`, sends
//!     trial run WHO WHAT MODE COUNT  a job COUNT times, to count its instructions: WHO is proved, ordinary or shape (a
//!                                    decoder with the proved one's shape), WHAT encode or decode; or proved soften;
//!                                    or proved passes, which is the decoder's search and mark alone; MODE is 1 to 7,
//!                                    mixed, or one PDU as MODE:LENGTH
//!     trial times                    nanoseconds of each call in each mode: what, mode, proved, ordinary, shape
mod calls;
mod cases;
mod description;
mod differ;
mod gauge;
mod independent;
mod ladder;
mod lent;
mod numbered;
mod ordinary;
mod random;
mod speed;
mod tally;
mod trains;
mod vectors;

use std::process::exit;

fn number<T: std::str::FromStr>(word: &str) -> T {
    word.parse().unwrap_or_else(|_| panic!("{word} is not a number"))
}

/// Whether all went well; None where the words are not understood.
fn done(words: &[&str]) -> Option<bool> {
    match *words {
        ["vectors", ref files @ ..] if !files.is_empty() => {
            let wrong = files.iter().filter(|file| !vectors::agree(file)).count();
            Some(wrong == 0)
        }
        ["calls"] => Some(differ::differ(100_000, 1)),
        ["calls", count] => Some(differ::differ(number(count), 1)),
        ["calls", count, seed] => Some(differ::differ(number(count), number(seed))),
        ["agree"] => Some(speed::agree()),
        ["mixed"] => {
            speed::print_mixed();
            Some(true)
        }
        ["sent", mode] => {
            speed::print_sent(mode);
            Some(true)
        }
        ["run", who, what, mode, count] => {
            speed::run(who, what, mode, number(count));
            Some(true)
        }
        ["times"] => {
            speed::times();
            Some(true)
        }
        _ => None,
    }
}

fn main() {
    let words: Vec<String> = std::env::args().skip(1).collect();
    let words: Vec<&str> = words.iter().map(String::as_str).collect();
    let good = done(&words).unwrap_or_else(|| {
        eprintln!("trial vectors FILE... | calls [COUNT [SEED]] | agree | mixed | sent MODE | run WHO WHAT MODE COUNT | times");
        false
    });
    exit(i32::from(!good));
}
