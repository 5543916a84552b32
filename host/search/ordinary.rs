//! An ordinary Viterbi decoder, without proofs: a loop over the 64 states and their two predecessors, with a table of
//! outputs. The mark is a second pass with twice the costs, and one more for a heard bit that agrees with the train's.
//!
//! A register is the last seven bits, the newest at 64; a state is its upper six.

/// The coded bits of each register, X + 2 Y.
static OUTPUTS: [u8; 128] = outputs();

/// Above every cost of a train, and far enough from the end of u32.
const NEVER: u32 = 1 << 30;

const fn outputs() -> [u8; 128] {
    let mut out = [0; 128];
    let mut register = 0;
    while register < 128 {
        let x = (register as u32 & 0o133).count_ones() % 2;
        let y = (register as u32 & 0o171).count_ones() % 2;
        out[register] = (x + 2 * y) as u8;
        register += 1;
    }
    out
}

/// What a heard bit costs as 0 and as 1.
fn bit_costs(heard: u8) -> [u32; 2] {
    let soft = i32::from(heard) - 128;
    match heard {
        0 => [0, 0],
        _ => [soft.max(0) as u32, (-soft).max(0) as u32],
    }
}

/// What a step costs by its coded bits.
fn branches(x: [u32; 2], y: [u32; 2]) -> [u32; 4] {
    [x[0] + y[0], x[1] + y[0], x[0] + y[1], x[1] + y[1]]
}

/// The cost of arriving by a register.
fn arriving(costs: &[u32; 64], branches: &[u32; 4], register: usize) -> u32 {
    costs[register % 64] + branches[usize::from(OUTPUTS[register])]
}

/// The next costs, and at each state whether the predecessor with oldest bit 1 is the better one.
fn step(costs: &[u32; 64], branches: &[u32; 4]) -> ([u32; 64], u64) {
    let mut next = [0; 64];
    let mut word = 0;
    for (state, cost) in next.iter_mut().enumerate() {
        let even = arriving(costs, branches, 2 * state);
        let odd = arriving(costs, branches, 2 * state + 1);
        *cost = even.min(odd);
        word |= u64::from(odd < even) << state;
    }
    (next, word)
}

fn start() -> [u32; 64] {
    let mut costs = [NEVER; 64];
    costs[0] = 0;
    costs
}

pub fn search(_n: usize, heard: &[u8], train: &mut [u8], words: &mut [u64]) -> u32 {
    let mut costs = start();
    for (pair, word) in heard.chunks_exact(2).zip(words.iter_mut()) {
        let (next, decisions) = step(&costs, &branches(bit_costs(pair[0]), bit_costs(pair[1])));
        costs = next;
        *word = decisions;
    }
    let mut state = 0;
    for (t, word) in words.iter_mut().enumerate().rev() {
        let oldest = (*word >> state & 1) as usize;
        *word = 0;
        if t >= 6 {
            train[t - 6] = oldest as u8;
        }
        state = (2 * state + oldest) % 64;
    }
    costs[0]
}

/// Twice the cost of a heard bit, and one more where it agrees with the train's own.
fn own_costs(heard: u8, own: u8) -> [u32; 2] {
    let [zero, one] = bit_costs(heard);
    match heard {
        0 => [0, 0],
        _ => [2 * zero + u32::from(own == 0), 2 * one + u32::from(own == 1)],
    }
}

pub fn mark(_n: usize, heard: &[u8], train: &[u8]) -> bool {
    let mut costs = start();
    let mut own = 0;
    let bits = train.iter().copied().chain([0; 6]);
    for (pair, bit) in heard.chunks_exact(2).zip(bits) {
        own = own / 2 + 64 * usize::from(bit);
        let coded = OUTPUTS[own];
        let branches = branches(own_costs(pair[0], coded % 2), own_costs(pair[1], coded / 2));
        if arriving(&costs, &branches, own ^ 1) <= arriving(&costs, &branches, own) {
            return false;
        }
        costs = step(&costs, &branches).0;
    }
    true
}
