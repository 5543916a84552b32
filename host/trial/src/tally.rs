//! What was seen: how often each refusal of each call, which lists, which BCHs, and how trains came back through noise.
mod bchs;

use crate::calls::{Call, Case, Told};
use crate::cases::DROWNING;
use crate::description::Description;
use bchs::Bchs;
use juzambore::Kind;

/// Standard deviations of the noise on each reading; the levels of an axis are 512 apart.
pub const STRENGTHS: [i32; 7] = [0, 60, 120, 150, 180, 220, 300];

/// Trains of one sort are those of one PDU, by its mode, and behind them those of several, BCHs, and BCHs whose counter is
/// drowned.
pub const SEVERAL: usize = 7;
pub const BCH: usize = 8;
pub const DROWNED: usize = 9;
const SORTS: [&str; 10] = ["1", "2", "3", "4", "5", "6", "7", "several", "bch", "drowned"];

/// What can be to blame for a refusal of a description: one number, a PDU after the first, or the sum; for one as a BCH:
/// the count of its PDUs, their length, their mode, a, more than one of these, or else the octets' first bits.
#[derive(Clone, Copy, PartialEq)]
enum Blame {
    First,
    Later,
    Sum,
    Count,
    Length,
    Mode,
    Place,
    Several,
    Bits,
}

/// The answers of a call, in the order in which they are tested.
const ANSWERS: [(u32, Blame); 22] = [
    (0, Blame::First),
    (11, Blame::First),
    (1, Blame::First),
    (1, Blame::Later),
    (2, Blame::First),
    (3, Blame::First),
    (4, Blame::First),
    (5, Blame::First),
    (3, Blame::Later),
    (4, Blame::Later),
    (5, Blame::Later),
    (3, Blame::Sum),
    (6, Blame::First),
    (12, Blame::Count),
    (12, Blame::Length),
    (12, Blame::Mode),
    (12, Blame::Place),
    (12, Blame::Several),
    (7, Blame::First),
    (8, Blame::First),
    (9, Blame::First),
    (12, Blame::Bits),
];

const NEVER: &str = "NEVER";
const NOT_GIVEN: &str = "-";

/// Trains of one sort through noise of one strength.
#[derive(Clone, Copy, Default)]
pub struct Heard {
    pub trains: usize,
    pub right: usize,
    pub confirmed: usize,
    pub confirmed_wrong: usize,
}

/// Calls with lists of 2 to 16 PDUs: by that number, those that were done, and where P1 lay in them.
#[derive(Default)]
struct Lists {
    by_count: [usize; 17],
    done: usize,
    with_p1: usize,
    across: usize,
    at_border: usize,
    at_end: usize,
}

/// Decodes whose cost sixteen bits do not hold, and the greatest cost.
#[derive(Default)]
struct Dear {
    decodes: usize,
    cost: u32,
}

#[derive(Default)]
pub struct Tally {
    answers: [[[usize; ANSWERS.len()]; 6]; 2],
    strange: usize,
    lists: Lists,
    dear: Dear,
    bchs: Bchs,
    noise: [[Heard; STRENGTHS.len()]; SORTS.len()],
}

fn blame(case: &Case, refusal: u32) -> Blame {
    if refusal == 12 {
        return blame_as_bch(&case.train);
    }
    if case.call == Call::Mapped || !matches!(refusal, 1 | 3 | 4 | 5) {
        return Blame::First;
    }
    match case.train.culprit(refusal) {
        Some(0) => Blame::First,
        Some(_) => Blame::Later,
        None => Blame::Sum,
    }
}

/// No mode but 1 has PDUs of 120 bits: with another mode goes another length.
fn blame_as_bch(train: &Description) -> Blame {
    let (mode, length) = (train.modes[0], train.lengths[0]);
    let causes = [
        (train.count != 1, Blame::Count),
        (mode == 1 && length != 120, Blame::Length),
        (mode != 1, Blame::Mode),
        (train.a != 0, Blame::Place),
    ];
    let found: Vec<Blame> = causes.into_iter().filter(|(is_cause, _)| *is_cause).map(|(_, blame)| blame).collect();
    match found[..] {
        [] => Blame::Bits,
        [blame] => blame,
        _ => Blame::Several,
    }
}

impl Tally {
    /// A call, what it told and what it left.
    pub fn count(&mut self, case: &Case, told: Told, left: &Case) {
        let (kind, refusal) = (case.train.kind, told.refusal());
        let answer = (refusal, blame(case, refusal));
        match ANSWERS.iter().position(|&known| known == answer) {
            Some(column) => self.answers[kind as usize][case.call as usize][column] += 1,
            None => self.strange += 1,
        }
        if let Told::Decoded(answer) = told {
            self.dear.count(answer.cost);
        }
        match kind {
            Kind::Data if case.call != Call::Mapped && case.train.is_mixed() => self.lists.count(case, refusal),
            Kind::Bch if refusal == 0 => self.bchs.count(case, told, left),
            _ => (),
        }
    }

    pub fn calls(&self) -> usize {
        self.answers.iter().flatten().flatten().sum::<usize>() + self.strange + self.bchs.numbered()
    }

    /// The number to be tried next for a kind, by its place.
    pub fn next_number(&mut self) -> usize {
        self.bchs.next_number()
    }

    /// The calls for data that had lists of 2 to 16 PDUs.
    pub fn lists(&self) -> usize {
        self.lists.by_count.iter().sum()
    }

    /// A BCH came back: its counter as it was sent and as it was found.
    pub fn counters(&mut self, sent: u8, found: u8) {
        self.bchs.came_back(sent, found);
    }

    pub fn heard(&mut self, sort: usize, strength: usize, right: bool, confirmed: bool) {
        let heard = &mut self.noise[sort][strength];
        heard.trains += 1;
        heard.right += usize::from(right);
        heard.confirmed += usize::from(confirmed);
        heard.confirmed_wrong += usize::from(confirmed && !right);
    }

    /// Prints all; whether nothing is missing.
    pub fn print(&self) -> bool {
        println!("\ncalls by refusal, in the order of the tests; + a PDU after the first is to blame, s the sum");
        let of_data = self.print_refusals(Kind::Data);
        self.print_lists();
        println!("{} decodes cost more than {}, the dearest {}", self.dear.decodes, u16::MAX, self.dear.cost);
        println!("\nthe same for BCH, of which ideal and soften, that know no kind, have good trains only. 12 is for");
        println!("p more PDUs, n another N, m another mode and N, a another a, * several of these, b the first bits");
        let of_bch = self.print_refusals(Kind::Bch);
        let bchs = self.bchs.print();
        self.print_noise();
        of_data && of_bch && bchs && self.dear.decodes > 0
    }

    /// Prints calls by refusal; whether each refusal that a call can give was seen.
    fn print_refusals(&self, kind: Kind) -> bool {
        let is_used = |&column: &usize| Call::ALL.into_iter().any(|call| self.cell(kind, call, column) != NOT_GIVEN);
        let columns: Vec<usize> = (0..ANSWERS.len()).filter(is_used).collect();
        let mut complete = true;
        print!("{:<15}", "");
        columns.iter().map(|&column| title(ANSWERS[column])).for_each(|title| print!("{title:>7}"));
        println!();
        for call in Call::ALL.into_iter().filter(|&call| kind == Kind::Data || call != Call::Mapped) {
            print!("{:<15}", call.name());
            for &column in &columns {
                let cell = self.cell(kind, call, column);
                complete &= cell != NEVER;
                print!("{cell:>7}");
            }
            println!();
        }
        complete
    }

    /// How often a call gave an answer.
    fn cell(&self, kind: Kind, call: Call, column: usize) -> String {
        match self.answers[kind as usize][call as usize][column] {
            0 if is_given(kind, call, ANSWERS[column]) => NEVER.to_string(),
            0 => NOT_GIVEN.to_string(),
            times => times.to_string(),
        }
    }

    fn print_lists(&self) {
        let Lists { by_count, done, with_p1, across, at_border, at_end } = &self.lists;
        println!("\n{} calls have lists of 2 to 16 PDUs, by their number:", self.lists());
        (2..=16).for_each(|count| print!("{count:>7}"));
        println!();
        by_count[2..].iter().for_each(|times| print!("{times:>7}"));
        println!("\n{done} of them are done. Of these {with_p1} have P1: across a border of two PDUs in {across},");
        println!("beginning or ending at one in {at_border}, at an end of the train in {at_end}");
    }

    /// Prints, by sort of train and strength of noise: trains that came back as sent, confirmed ones, and confirmed but
    /// wrong ones.
    fn print_noise(&self) {
        println!("\ntrains through noise, by its deviation: as sent / confirmed / confirmed but not as sent, of all;");
        println!("drowned: exactly the sent bits of a BCH that hang on its counter have noise of {DROWNING} as well");
        print!("{:<8}", "mode");
        STRENGTHS.iter().for_each(|strength| print!("{strength:>18}"));
        println!();
        for (name, row) in SORTS.into_iter().zip(&self.noise) {
            print!("{name:<8}");
            for heard in row {
                let Heard { trains, right, confirmed, confirmed_wrong } = heard;
                print!("{:>18}", format!("{right}/{confirmed}/{confirmed_wrong} of {trains}"));
            }
            println!();
        }
    }
}

fn title((number, blame): (u32, Blame)) -> String {
    let sign = match blame {
        Blame::First => "",
        Blame::Later => "+",
        Blame::Sum => "s",
        Blame::Count => "p",
        Blame::Length => "n",
        Blame::Mode => "m",
        Blame::Place => "a",
        Blame::Several => "*",
        Blame::Bits => "b",
    };
    format!("{number}{sign}")
}

/// Whether the trial must have seen an answer. For BCH a call without a kind has good trains only.
fn is_given(kind: Kind, call: Call, (number, blame): (u32, Blame)) -> bool {
    let is_tried = kind == Kind::Data || call.has_place();
    let can_blame = match blame {
        Blame::First => true,
        Blame::Bits => call == Call::Encode,
        _ => call != Call::Mapped,
    };
    number == 0 || is_tried && can_blame && call.can_refuse(kind, number)
}

impl Dear {
    fn count(&mut self, cost: u32) {
        self.decodes += usize::from(cost > u16::MAX.into());
        self.cost = self.cost.max(cost);
    }
}

impl Lists {
    fn count(&mut self, case: &Case, refusal: u32) {
        self.by_count[case.train.count as usize] += 1;
        if refusal == 0 {
            self.done += 1;
            if case.call.has_place() {
                self.count_place(&case.train);
            }
        }
    }

    fn count_place(&mut self, train: &Description) {
        let (begins, ends, borders) = (train.a, train.a + 72, train.borders());
        self.with_p1 += 1;
        self.across += usize::from(borders.iter().any(|&border| begins < border && border < ends));
        self.at_border += usize::from(borders.iter().any(|&border| begins == border || border == ends));
        self.at_end += usize::from(begins == 0 || ends as usize == train.size().n);
    }
}
