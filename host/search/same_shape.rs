//! The search and the mark in the shape of the proved ones, function by function: two butterflies at a time with masks,
//! costs of sixteen bits that wrap round, and choices that come four to a byte.
const X_TAPS: u32 = 0o133;
const Y_TAPS: u32 = 0o171;
const START: u16 = 4096;
const HALF: u16 = 1 << 15;

#[derive(Clone, Copy)]
struct Pair {
    x0: u16,
    x1: u16,
    y0: u16,
    y1: u16,
}

struct Crossing {
    low: u16,
    low_gap: u16,
    high: u16,
    high_gap: u16,
}

struct Entry {
    near: Crossing,
    far: Crossing,
}

struct Decided {
    costs: [u16; 64],
    chosen: [u8; 16],
}

struct Compared {
    costs: [u16; 64],
    gaps: [u16; 64],
}

fn plus(x: u16, y: u16) -> u16 {
    x.wrapping_add(y)
}

fn minus(x: u16, y: u16) -> u16 {
    x.wrapping_sub(y)
}

fn parity_of(register: u32, taps: u32) -> u8 {
    ((register & taps).count_ones() % 2) as u8
}

/// All ones at each j whose register 2j has the coded bit 1.
fn masks_of(taps: u32) -> [u16; 32] {
    let mut masks = [0; 32];
    for j in 0..32 {
        masks[j] = minus(0, parity_of(2 * j as u32, taps) as u16);
    }
    masks
}

fn started() -> [u16; 64] {
    let mut costs = [START; 64];
    costs[0] = 0;
    costs
}

fn masked(c0: u16, c1: u16, mask: u16) -> u16 {
    plus(c0, minus(c1, c0) & mask)
}

fn better(cost: u16, gap: u16) -> u16 {
    if gap < HALF {
        cost
    } else {
        plus(cost, gap)
    }
}

fn cross(even: u16, odd: u16, a: u16, b: u16) -> Crossing {
    let low = plus(even, a);
    let low_gap = minus(plus(odd, b), low);
    let high = plus(even, b);
    let high_gap = minus(plus(odd, a), high);
    Crossing { low: better(low, low_gap), low_gap, high: better(high, high_gap), high_gap }
}

fn four_of(g0: u16, g1: u16, g2: u16, g3: u16) -> u8 {
    (g0 / HALF + 4 * (g1 / HALF) + 16 * (g2 / HALF) + 64 * (g3 / HALF)) as u8
}

fn branch_of(pair: Pair, x_mask: u16, y_mask: u16) -> u16 {
    plus(masked(pair.x0, pair.x1, x_mask), masked(pair.y0, pair.y1, y_mask))
}

/// The ways into the states j and j + 32, and those into the two that are sixteen further on.
fn enter(old: &[u16; 64], xs: &[u16; 32], ys: &[u16; 32], pair: Pair, j: usize) -> Entry {
    let all = pair.x0 + pair.x1 + pair.y0 + pair.y1;
    let a = branch_of(pair, xs[j], ys[j]);
    let b = branch_of(pair, xs[j], ys[j + 16]);
    Entry {
        near: cross(old[2 * j], old[2 * j + 1], a, minus(all, a)),
        far: cross(old[2 * j + 32], old[2 * j + 33], b, minus(all, b)),
    }
}

fn put_four(l: &mut [u16; 64], j: usize, v0: u16, v1: u16, v2: u16, v3: u16) {
    l[j] = v0;
    l[j + 16] = v1;
    l[j + 32] = v2;
    l[j + 48] = v3;
}

fn decide(old: [u16; 64], xs: &[u16; 32], ys: &[u16; 32], pair: Pair) -> Decided {
    let mut costs = [0; 64];
    let mut chosen = [0; 16];
    for j in 0..16 {
        let e = enter(&old, xs, ys, pair, j);
        put_four(&mut costs, j, e.near.low, e.far.low, e.near.high, e.far.high);
        chosen[j] = four_of(e.near.low_gap, e.far.low_gap, e.near.high_gap, e.far.high_gap);
    }
    Decided { costs, chosen }
}

fn compare(old: [u16; 64], xs: &[u16; 32], ys: &[u16; 32], pair: Pair) -> Compared {
    let mut costs = [0; 64];
    let mut gaps = [0; 64];
    for j in 0..16 {
        let e = enter(&old, xs, ys, pair, j);
        put_four(&mut costs, j, e.near.low, e.far.low, e.near.high, e.far.high);
        put_four(&mut gaps, j, e.near.low_gap, e.far.low_gap, e.near.high_gap, e.far.high_gap);
    }
    Compared { costs, gaps }
}

fn two(bytes: &[u8; 16], k: usize) -> u64 {
    bytes[k] as u64 + 256 * bytes[k + 1] as u64
}

fn four(bytes: &[u8; 16], k: usize) -> u64 {
    two(bytes, k) + 65536 * two(bytes, k + 2)
}

fn eight(bytes: &[u8; 16], k: usize) -> u64 {
    four(bytes, k) + 4294967296 * four(bytes, k + 4)
}

/// Bit 8(s % 8) + s / 8 is that of state s.
fn word_of(chosen: &[u8; 16]) -> u64 {
    eight(chosen, 0) + 2 * eight(chosen, 8)
}

/// The number beside the total that is stored so.
fn nearest(total: u32, stored: u16) -> u32 {
    let up = plus(minus(stored, total as u16), HALF);
    total + up as u32 - 32768
}

fn cost_of_0(heard: u8) -> u16 {
    if heard > 128 {
        heard as u16 - 128
    } else {
        0
    }
}

fn cost_of_1(heard: u8) -> u16 {
    if heard != 0 && heard < 128 {
        128 - heard as u16
    } else {
        0
    }
}

fn pair_of(x: u8, y: u8) -> Pair {
    Pair { x0: cost_of_0(x), x1: cost_of_1(x), y0: cost_of_0(y), y1: cost_of_1(y) }
}

fn forward(n: usize, heard: &[u8], words: &mut [u64]) -> u32 {
    let xs = masks_of(X_TAPS);
    let ys = masks_of(Y_TAPS);
    let mut costs = started();
    let mut total = 0;
    for t in 0..n + 6 {
        let turn = decide(costs, &xs, &ys, pair_of(heard[2 * t], heard[2 * t + 1]));
        words[t] = word_of(&turn.chosen);
        costs = turn.costs;
        total = nearest(total, costs[0]);
    }
    total
}

fn follow(n: usize, train: &mut [u8], words: &mut [u64]) {
    let mut s = 0;
    for t in (0..n + 6).rev() {
        let d = (words[t] >> (8 * (s % 8) + s / 8)) % 2;
        words[t] = 0;
        if 6 <= t {
            train[t - 6] = d as u8;
        }
        s = (2 * s + d) % 64;
    }
}

pub fn search(n: usize, heard: &[u8], train: &mut [u8], words: &mut [u64]) -> u32 {
    let cost = forward(n, heard, words);
    follow(n, train, words);
    cost
}

fn heard_of(byte: u8) -> u16 {
    if byte == 0 {
        0
    } else {
        1
    }
}

fn agreeing_of(cost: u16, byte: u8, bit: u8, own: u8) -> u16 {
    if bit == own {
        2 * cost + heard_of(byte)
    } else {
        2 * cost
    }
}

fn own_pair(x: u8, y: u8, own_x: u8, own_y: u8) -> Pair {
    Pair {
        x0: agreeing_of(cost_of_0(x), x, 0, own_x),
        x1: agreeing_of(cost_of_1(x), x, 1, own_x),
        y0: agreeing_of(cost_of_0(y), y, 0, own_y),
        y1: agreeing_of(cost_of_1(y), y, 1, own_y),
    }
}

fn is_above(gap: u16, oldest: u32) -> bool {
    if oldest == 0 {
        0 < gap && gap < HALF
    } else {
        HALF <= gap
    }
}

pub fn mark(n: usize, heard: &[u8], train: &[u8]) -> bool {
    let xs = masks_of(X_TAPS);
    let ys = masks_of(Y_TAPS);
    let mut costs = started();
    let mut register = 0;
    for t in 0..n + 6 {
        let bit = if t < n { train[t] as u32 } else { 0 };
        register = register / 2 + 64 * bit;
        let pair = own_pair(heard[2 * t], heard[2 * t + 1], parity_of(register, X_TAPS), parity_of(register, Y_TAPS));
        let turn = compare(costs, &xs, &ys, pair);
        costs = turn.costs;
        if !is_above(turn.gaps[(register / 2) as usize], register % 2) {
            return false;
        }
    }
    true
}
