//! What was seen of BCHs: their counters, as they were sent, given and found, and the numbers of their kind in C.
use crate::calls::{Call, Case, Told, BY_NUMBER};

#[derive(Default)]
pub struct Bchs {
    encoded: [usize; 16],
    decoded: [usize; 16],
    confirmed: usize,
    given_another: usize,
    given_none: usize,
    known: usize,
    changed: usize,
    by_number: [usize; BY_NUMBER.len()],
}

impl Bchs {
    /// A call that was done and what it left. The counter stands in the first octet, given or found.
    pub fn count(&mut self, case: &Case, told: Told, left: &Case) {
        let counter = left.octets.part().first().map_or(0, |octet| octet >> 4);
        match (case.call, told) {
            (Call::Encode, _) => self.encoded[usize::from(counter)] += 1,
            (_, Told::Decoded(answer)) => {
                self.decoded[usize::from(counter)] += 1;
                self.confirmed += usize::from(answer.confirmed);
                self.given_another += usize::from(case.train.counter != u32::from(counter));
                self.given_none += usize::from(case.train.counter > 15);
            }
            _ => (),
        }
    }

    /// A train that came back, by its counter as it was sent and as it was found.
    pub fn came_back(&mut self, sent: u8, found: u8) {
        self.known += 1;
        self.changed += usize::from(sent != found);
    }

    /// The place in BY_NUMBER of the number that is next, which is counted.
    pub fn next_number(&mut self) -> usize {
        let next = self.numbered() % BY_NUMBER.len();
        self.by_number[next] += 1;
        next
    }

    pub fn numbered(&self) -> usize {
        self.by_number.iter().sum()
    }

    /// Prints it; whether every counter was sent and found, also one in place of another, and every number tried.
    pub fn print(&self) -> bool {
        let Bchs { encoded, decoded, confirmed, given_another, given_none, known, changed, by_number } = self;
        println!("\nBCHs by the counter that was sent, and by the one that was found:");
        row("", &std::array::from_fn(|counter| counter));
        row("encoded", encoded);
        row("decoded", decoded);
        println!("{} were decoded and {confirmed} of them confirmed;", decoded.iter().sum::<usize>());
        println!("{given_another} decodes were given another counter than they found, {given_none} one above 15;");
        println!("of {known} that were sent and came back through noise or without, {changed} had another counter");
        print!("calls by the number of the kind in C:");
        BY_NUMBER.iter().zip(by_number).for_each(|((number, _, _), times)| print!("  {number}: {times}"));
        println!();
        let seen = [encoded, decoded].into_iter().flatten().chain(by_number).all(|&times| times > 0);
        seen && [confirmed, given_another, given_none, changed].into_iter().all(|&times| times > 0)
    }
}

fn row(name: &str, numbers: &[usize; 16]) {
    print!("{name:<8}");
    numbers.iter().for_each(|number| print!("{number:>7}"));
    println!();
}
