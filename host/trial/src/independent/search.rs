//! The train of least cost, and whether a train is confirmed.
//!
//! What is heard of a train are the soft bytes of X and Y at each input, tail included; None is a bit not sent. A past
//! is the last seven inputs, the newest at 1; a state is the last six.
use super::sending::LAGS;

type Pair = [Option<i8>; 2];

/// Of a state that no train has reached.
const NEVER: i64 = i64::MAX / 2;

/// X and Y of each past.
fn outputs() -> [[usize; 2]; 128] {
    let mut out = [[0; 2]; 128];
    for (past, pair) in out.iter_mut().enumerate() {
        *pair = LAGS.map(|lags| lags.iter().map(|lag| past >> lag & 1).sum::<usize>() % 2);
    }
    out
}

fn bit_cost(soft: Option<i8>, bit: usize) -> i64 {
    let soft = i64::from(soft.unwrap_or(0));
    if bit == 0 {
        soft.max(0)
    } else {
        (-soft).max(0)
    }
}

/// What a step costs by its X and Y.
fn pair_costs(pair: &Pair) -> [[i64; 2]; 2] {
    [0, 1].map(|x| [0, 1].map(|y| bit_cost(pair[0], x) + bit_cost(pair[1], y)))
}

/// The pasts that input t can make of a state: the last six inputs are zero.
fn pasts(state: usize, t: usize, steps: usize) -> impl Iterator<Item = usize> {
    let most = if t + 6 < steps { 1 } else { 0 };
    (0..=most).map(move |bit| 2 * state + bit)
}

/// The scrambled train of least cost, its cost, and how often two partial trains came into one state and were compared.
/// Two ways into a state differ last in the bit that now leaves the state, its highest; states are taken in order, so
/// of equals the one that has 0 there stays.
pub fn least(heard: &[Pair]) -> (Vec<u8>, i64, u32) {
    let outputs = outputs();
    let mut costs = [NEVER; 64];
    costs[0] = 0;
    let mut came_from = Vec::new();
    let mut comparisons = 0;
    for (t, pair) in heard.iter().enumerate() {
        let more = pair_costs(pair);
        let (mut next, mut from) = ([NEVER; 64], [0u8; 64]);
        for state in (0..64).filter(|&state| costs[state] < NEVER) {
            for past in pasts(state, t, heard.len()) {
                let [x, y] = outputs[past];
                let cost = costs[state] + more[x][y];
                comparisons += u32::from(next[past % 64] < NEVER);
                if cost < next[past % 64] {
                    next[past % 64] = cost;
                    from[past % 64] = state as u8;
                }
            }
        }
        costs = next;
        came_from.push(from);
    }
    (followed(&came_from), costs[0], comparisons)
}

/// The bits of the way that ends in state 0, without the tail.
fn followed(came_from: &[[u8; 64]]) -> Vec<u8> {
    let mut state = 0;
    let mut bits = Vec::new();
    for from in came_from.iter().rev() {
        bits.push(state % 2);
        state = from[usize::from(state)];
    }
    bits.reverse();
    bits.truncate(came_from.len() - 6);
    bits
}

/// What a step adds to 2 x cost - differing bits, by its X and Y, against a train with these own X and Y.
fn margins(pair: &Pair, own: [usize; 2]) -> [[i64; 2]; 2] {
    let costs = pair_costs(pair);
    let differs = |k: usize, bit: usize| i64::from(pair[k].is_some() && own[k] != bit);
    [0, 1].map(|x| [0, 1].map(|y| 2 * costs[x][y] - differs(0, x) - differs(1, y)))
}

/// Whether for every other train 2 x (its cost - this cost) is above the number of sent bits in which the two differ.
/// The least of 2 x cost - differing bits is sought over two layers: the train itself, and what has already left it.
pub fn is_confirmed(heard: &[Pair], train: &[u8], cost: i64) -> bool {
    let outputs = outputs();
    let mut left = [NEVER; 64];
    let (mut own, mut twice) = (0, 0);
    for (t, pair) in heard.iter().enumerate() {
        let state = own % 64;
        own = 2 * state + usize::from(train.get(t).copied().unwrap_or(0));
        let more = margins(pair, outputs[own]);
        let mut next = [NEVER; 64];
        let mut arrive = |past: usize, so_far: i64| {
            let [x, y] = outputs[past];
            next[past % 64] = next[past % 64].min(so_far + more[x][y]);
        };
        for other in (0..64).filter(|&other| left[other] < NEVER) {
            pasts(other, t, heard.len()).for_each(|past| arrive(past, left[other]));
        }
        pasts(state, t, heard.len()).filter(|&past| past != own).for_each(|past| arrive(past, twice));
        left = next;
        let [x, y] = outputs[own];
        twice += more[x][y];
    }
    assert_eq!(twice, 2 * cost, "the train's own layer adds up to its cost");
    left[0] > twice
}
