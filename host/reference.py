#!/usr/bin/env python3
"""The whole modem in plain Python: slow, obvious, and written from the documents alone.

It follows clauses 5.2 to 5.5 of ETSI TS 101 475 and, where that leaves something open, the project's own rules
(document 01, and the requests for lists of PDUs, for BCH and for the count of comparisons). It shares no code, table or
definition with the crates, so that an agreement of the two means something.

    python3 host/reference.py check FILE     encode the trains in FILE and count those that agree
    python3 host/reference.py decoded FILE   decode the soft bytes of each line of FILE and count those that agree
    python3 host/reference.py trains COUNT   print COUNT trains in FILE's form, over all modes, lengths, lists of PDUs and
                                             places of P1, and 16 of BCH, one for each counter
    python3 host/reference.py numbers        write crates/numbers/stdin and crates/numbers/stdout (host/number_calls.py)

A line of FILE: kind (data or bch), modes, counter, lengths, a, octets in hex, sent bits; modes and lengths have commas
between them. host/vectors/encode.txt is such a file: the customer's vectors, as they came. For `decoded`: kind, modes,
counter, lengths, a, the soft bytes, `=`, refusal, symbols, n, cost, mark, octets in hex, as in the customer's
decode.txt.
"""
import hashlib
import struct
import sys
from collections import namedtuple
from functools import cache
from itertools import product
from math import isqrt

# Table 1: bits per carrier, code rate, sent bits per symbol, information bits per symbol.
Mode = namedtuple("Mode", "carrier rate sent info")
MODES = {
    1: Mode(1, "1/2", 48, 24),
    2: Mode(1, "3/4", 48, 36),
    3: Mode(2, "1/2", 96, 48),
    4: Mode(2, "3/4", 96, 72),
    5: Mode(4, "9/16", 192, 108),
    6: Mode(4, "3/4", 192, 144),
    7: Mode(6, "3/4", 288, 216),
}
# The PDUs of a train as the calls take them: how many, and modes and lengths, of which those past the count are not read;
# and the train's kind, data or bch. Below, pdus are the mode and the length of each, as good ones have them.
List = namedtuple("List", "count modes lengths kind", defaults=["data"])
# What a BCH must be: its PDUs, and a.
BCH = [(1, 120)], 0
# Table 2, the rows X and Y. Table 3, the rows b0 and b1 of each rate.
P1_X, P1_Y = "1111110111111", "1111111111110"
P2 = {"1/2": ("1", "1"), "3/4": ("110", "101"), "9/16": ("111111110", "111101111")}
# Table 5: the levels of one axis, by the bits that choose them.
LEVELS = {
    1: {"0": -1, "1": 1},
    2: {"00": -3, "01": -1, "11": 1, "10": 3},
    3: {"000": -7, "001": -5, "011": -3, "010": -1, "110": 1, "111": 3, "101": 5, "100": 7},
}
# Table 4: K is 1 / sqrt(D), by the bits per carrier.
D = {1: 1, 2: 2, 4: 10, 6: 42}


# Lists of PDUs, and their counts.

def listed(*pdus, kind="data"):
    return List(len(pdus), [mode for mode, _ in pdus], [n for _, n in pdus], kind)


def pdus_of(train):
    """What a list says. Numbers that are not written are 0."""
    return [*zip(train.modes, train.lengths), *[(0, 0)] * 16][:train.count]


def length_of(pdus):
    return sum(n for _, n in pdus)


def symbols_of(pdus):
    return sum(n // MODES[mode].info for mode, n in pdus)


def sent_of(pdus):
    return sum(n // MODES[mode].info * MODES[mode].sent for mode, n in pdus)


def carriers_of(pdus):
    """The bits of each carrier."""
    return [MODES[mode].carrier for mode, n in pdus for _ in range(48 * (n // MODES[mode].info))]


# The way of a train, stage by stage. Bits are lists of 0 and 1.

def text(bits):
    return "".join(map(str, bits))


def bits_of(octets):
    """Each octet's most significant bit first."""
    return [octet >> (7 - k) & 1 for octet in octets for k in range(8)]


def octets_of(bits):
    return bytes(int(text(bits[at:at + 8]), 2) for at in range(0, len(bits), 8))


def scrambled(bits, counter):
    """Clause 5.2. stage[0] is stage 1; stages 7 to 1 start as 1 1 1 n4 n3 n2 n1."""
    stage = [counter >> k & 1 for k in range(4)] + [1, 1, 1]
    out = []
    for bit in bits:
        feedback = stage[6] ^ stage[3]
        out.append(bit ^ feedback)
        stage = [feedback] + stage[:6]
    return out


def inputs(kind, counter, bits):
    """The bits as they enter the encoder, or, of such bits, back: the first four of a BCH, its counter, are not scrambled,
    and the scrambler starts at the fifth."""
    clear = 4 if kind == "bch" else 0
    return bits[:clear] + scrambled(bits[clear:], counter)


def counter_of(bits):
    """What the first four bits of a BCH are: n4 first, the highest."""
    return int(text(bits[:4]), 2)


def coded(bits):
    """Clause 5.3.1.1: the outputs X and Y at each input, from the zero state."""
    past = [0] * 6 + bits
    at = range(6, len(past))
    x = [sum(past[t - lag] for lag in (0, 2, 3, 5, 6)) % 2 for t in at]
    y = [sum(past[t - lag] for lag in (0, 1, 2, 3, 6)) % 2 for t in at]
    return x, y


def kept(row, pattern):
    return [bit for k, bit in enumerate(row) if pattern[k % len(pattern)] == "1"]


def in_turn(x, y):
    """Parallel to serial: one of x, one of y, and so on."""
    return [bit for pair in zip(x, y) for bit in pair]


def p1(x, y, a):
    """Table 2 over the 78 pairs from a on; all other pairs as they are."""
    e = a + 78
    return in_turn(x[:a], y[:a]) + in_turn(kept(x[a:e], P1_X), kept(y[a:e], P1_Y)) + in_turn(x[e:], y[e:])


def p2(bits, rate):
    """Table 3: bit 2 d + e of the input is b_e,d; what is kept goes out in the order of the input."""
    row = P2[rate]
    return [bit for k, bit in enumerate(bits) if row[k % 2][k // 2 % len(row[0])] == "1"]


def place(k, mode):
    """Clause 5.4: where bit k of a symbol goes."""
    size, s = mode.sent, max(1, mode.carrier // 2)
    i = size // 16 * (k % 16) + k // 16
    return s * (i // s) + (i + size - 16 * i // size) % s


def interleaved(bits, mode):
    out = [None] * len(bits)
    for k, bit in enumerate(bits):
        first = k // mode.sent * mode.sent
        out[first + place(k - first, mode)] = bit
    return out


def coded_train(kind, counter, a, octets):
    """The whole train up to P1's output."""
    x, y = coded(inputs(kind, counter, bits_of(octets)) + [0] * 6)
    return p1(x, y, a)


def shared(pdus, bits):
    """P1's output in the order after the interleaver: of each PDU the next 2 N, with P2 begun anew."""
    out, at = [], 0
    for mode, n in pdus:
        out += interleaved(p2(bits[at:at + 2 * n], MODES[mode].rate), MODES[mode])
        at += 2 * n
    assert at == len(bits)
    return out


def sent_bits(train, counter, a, octets):
    return shared(pdus_of(train), coded_train(train.kind, counter, a, octets))


def levels(group):
    """Table 5: I and Q of one carrier, the group's earliest bit first. BPSK has no Q."""
    word, half = text(group), len(group) // 2
    if half == 0:
        return LEVELS[1][word], 0
    return LEVELS[half][word[:half]], LEVELS[half][word[half:]]


def f32_bits(x):
    """The bits of the f32 nearest to x, ties to even, as struct rounds."""
    return struct.unpack(">I", struct.pack(">f", x))[0]


def nearest_k(d):
    """The f32 nearest to 1 / sqrt(d), found in whole numbers: m / 2^e, where m has 24 binary digits."""
    if d == 1:
        return 1.0
    e = 23
    while isqrt(4 ** e // d) < 2 ** 23:
        e += 1
    m = (isqrt(4 ** (e + 1) // d) + 1) // 2
    assert (2 * m - 1) ** 2 * d < 4 ** (e + 1) < (2 * m + 1) ** 2 * d
    return m / 2 ** e


def point(carrier, group):
    """The bits of the two f32 parts. level x K has at most 27 digits, exact in a double, so it is rounded once."""
    k = nearest_k(D[carrier])
    return [f32_bits(level * k) for level in levels([group >> (carrier - 1 - j) & 1 for j in range(carrier)])]


# The far end: soft bytes of readings, and of all trains the one that is wanted.

def exact(width, j, reading):
    """S of bit j of an axis of `width` bits: a whole number."""
    r = max(-2048, min(2048, reading))
    least = {b: min((r - 256 * level) ** 2 for word, level in LEVELS[width].items() if word[j] == b) for b in "01"}
    s, rest = divmod(least["0"] - least["1"], 1024)
    assert rest == 0
    return s


def soft_byte(width, j, reading):
    """S / 64 to the nearest, halves away from zero."""
    s = exact(width, j, reading)
    return (abs(s) + 32) // 64 * (-1 if s < 0 else 1)


def softened(pdus, i, q):
    """The soft bytes of all carriers, I's before Q's. BPSK reads no Q."""
    return [byte for carrier, r, s in zip(carriers_of(pdus), i, q)
            for on_i, on_q in [(max(1, carrier // 2), carrier // 2)]
            for byte in [soft_byte(on_i, j, r) for j in range(on_i)] + [soft_byte(on_q, j, s) for j in range(on_q)]]


def origins(pdus, a):
    """Which coded bit each sent bit is, by sending the coded bits' own numbers: X of input t is 2 t, Y is 2 t + 1."""
    steps = range(length_of(pdus) + 6)
    return shared(pdus, p1([2 * t for t in steps], [2 * t + 1 for t in steps], a))


# What an input and the state before it, its last six inputs with the newest the highest, give: X, Y and the state after.
STEP = {(state, bit): (*(sum(past[lag] for lag in lags) % 2 for lags in ((0, 2, 3, 5, 6), (0, 1, 2, 3, 6))),
                       bit << 5 | state >> 1)
        for state in range(64) for bit in (0, 1)
        for past in [[bit] + [state >> (6 - lag) & 1 for lag in range(1, 7)]]}


def best_train(n, cost):
    """The least cost of a train of n bits, as they enter the encoder, and, of the trains of that cost, the one with 0 at the
    last place where two of them differ. cost[t] gives what each pair X, Y costs at input t. A train is kept as a number, its
    last bit the highest: of two of equal cost the smaller number is the one wanted, and what follows both changes nothing in
    that."""
    least = {0: (0, 0)}
    for t, pair in enumerate(cost):
        reached = {}
        for state, (spent, train) in least.items():
            for bit in (0, 1) if t < n else (0,):
                x, y, after = STEP[state, bit]
                found = (spent + pair[x, y], train | bit << t)
                if after not in reached or found < reached[after]:
                    reached[after] = found
        least = reached
    spent, train = least[0]
    return spent, [train >> t & 1 for t in range(n)]


@cache
def comparisons(n):
    """The pairs (step, state) into which partial trains with different oldest bits lead: of the states that partial trains of
    n bits have reached, step by step, the lowest bit is the oldest with the next input."""
    count, reached = 0, {0}
    for t in range(n + 6):
        oldest = {}
        for state in reached:
            for bit in (0, 1) if t < n else (0,):
                oldest.setdefault(STEP[state, bit][2], set()).add(state & 1)
        count += sum(len(bits) == 2 for bits in oldest.values())
        reached = oldest.keys()
    return count


def comparisons_by_trains(n):
    """The same by the request's own words: every beginning of every train of n bits with its six zeros."""
    oldest = {}
    for train in product((0, 1), repeat=n):
        past = (0,) * 6 + train + (0,) * 6
        for t in range(n + 6):
            oldest.setdefault((t, past[t + 1:t + 7]), set()).add(past[t])
    return sum(len(bits) == 2 for bits in oldest.values())


def least_rival(n, gain, train):
    """The least sum of gains over the trains of n bits but this one. gain[t] gives that of each pair X, Y at input t; a state
    is kept twice, for trains that have differed by then and for the one that has not."""
    least = {(0, False): 0}
    for t, pair in enumerate(gain):
        reached = {}
        for (state, differs), spent in least.items():
            for bit in (0, 1) if t < n else (0,):
                x, y, after = STEP[state, bit]
                key = after, differs or t < n and bit != train[t]
                reached[key] = min(reached.get(key, spent + pair[x, y]), spent + pair[x, y])
        least = reached
    return least[0, True]


def pairs(n, at, of_bit):
    """For each input what its pair X, Y comes to: the sum of of_bit over those of the two that were sent."""
    places = {m: q for q, m in enumerate(at)}
    return [{(x, y): sum(of_bit(places[m], bit) for m, bit in ((2 * t, x), (2 * t + 1, y)) if m in places)
             for x in (0, 1) for y in (0, 1)} for t in range(n + 6)]


def bit_cost(soft, bit):
    return max(0, -soft if bit else soft)


def decoded(kind, pdus, counter, a, soft):
    """The cost, the mark and the octets of the train that is returned. It is confirmed where every other train v has
    2 cost(v) - (bits in which v differs from it) above twice its own cost. A BCH tells its own counter."""
    n, at = length_of(pdus), origins(pdus, a)
    cost, train = best_train(n, pairs(n, at, lambda q, bit: bit_cost(soft[q], bit)))
    x, y = coded(train + [0] * 6)
    own = in_turn(x, y)
    sent = [own[m] for m in at]
    rival = least_rival(n, pairs(n, at, lambda q, bit: 2 * bit_cost(soft[q], bit) - (bit != sent[q])), train)
    told = counter_of(train) if kind == "bch" else counter
    return cost, "C" if rival > 2 * cost else "D", octets_of(inputs(kind, told, train))


# The calls, refusals in the order of the documents. A call without a parameter skips its test.

def length_refusal(mode, n):
    """What a PDU's own length is refused with."""
    if not 72 <= n <= 3456:
        return 3
    if n % 8:
        return 4
    return 5 if n % MODES[mode].info else 0


def refusal(train, counter=None, a=None):
    """What a description is refused with. A call without an a has no kind."""
    if not 1 <= train.count <= 16:
        return 11
    pdus = pdus_of(train)
    if any(mode not in MODES for mode, _ in pdus):
        return 1
    if counter is not None and counter > 15:
        return 2
    for no in (length_refusal(mode, n) for mode, n in pdus):
        if no:
            return no
    if length_of(pdus) > 3456:
        return 3
    if a is not None and a > length_of(pdus) - 72:
        return 6
    return 12 if a is not None and train.kind == "bch" and (pdus, a) != BCH else 0


def decode_refusal(train, counter, a):
    """The counter of a BCH is not read."""
    return refusal(train, None if train.kind == "bch" else counter, a)


def encode(train, counter, a, octets, room):
    """The refusal and what is written at the start of the lent bytes, of which there are `room`."""
    no, pdus = refusal(train, counter, a), pdus_of(train)
    if no == 0 and len(octets) != length_of(pdus) // 8:
        no = 7
    if no == 0 and room < sent_of(pdus):
        no = 8
    if no == 0 and train.kind == "bch" and counter_of(bits_of(octets)) != counter:
        no = 12
    return (no, []) if no else (0, sent_bits(train, counter, a, octets))


def ideal(train, sent, room_i, room_q):
    """The refusal, the readings of I and those of Q: 256 times each level."""
    no, pdus = refusal(train), pdus_of(train)
    if no == 0 and len(sent) != sent_of(pdus):
        no = 7
    if no == 0 and min(room_i, room_q) < 48 * symbols_of(pdus):
        no = 8
    if no == 0 and any(bit > 1 for bit in sent):
        no = 9
    if no:
        return no, [], []
    bits = iter(sent)
    found = [levels([next(bits) for _ in range(carrier)]) for carrier in carriers_of(pdus)]
    return 0, [256 * i for i, _ in found], [256 * q for _, q in found]


def mapped(mode, group):
    """The refusal and the bits of the point's two parts, +0 where it is refused."""
    if mode not in MODES:
        return 1, [0, 0]
    if group >= 2 ** MODES[mode].carrier:
        return 9, [0, 0]
    return 0, point(MODES[mode].carrier, group)


def readings_refusal(no, train, i, q):
    """Refusal 7 of a call that reads I and Q, unless the description has another."""
    if no == 0 and {len(i), len(q)} != {48 * symbols_of(pdus_of(train))}:
        no = 7
    return no


def soften(train, i, q, room):
    """The refusal and the soft bytes at the start of the lent ones."""
    no, pdus = readings_refusal(refusal(train), train, i, q), pdus_of(train)
    if no == 0 and room < sent_of(pdus):
        no = 8
    return (no, []) if no else (0, softened(pdus, i, q))


# What a decode answers.
Answer = namedtuple("Answer", "refusal symbols n cost mark octets comparisons", defaults=[0, 0, 0, "-", b"", 0])


def is_short(pdus, room_octets, room_words):
    return room_octets < length_of(pdus) // 8 or room_words < length_of(pdus) + 6


def answer(train, counter, a, soft):
    pdus = pdus_of(train)
    found = decoded(train.kind, pdus, counter, a, soft)
    return Answer(0, symbols_of(pdus), len(soft), *found, comparisons(length_of(pdus)))


def decode_soft(train, counter, a, soft, room_octets, room_words):
    """The refusal, symbols, n, the rounded cost, the mark (C confirmed, D done, - refused), the octets and the
    comparisons."""
    no, pdus = decode_refusal(train, counter, a), pdus_of(train)
    if no == 0 and len(soft) != sent_of(pdus):
        no = 7
    if no == 0 and is_short(pdus, room_octets, room_words):
        no = 8
    if no == 0 and any(not -80 <= byte <= 80 for byte in soft):
        no = 9
    return Answer(no) if no else answer(train, counter, a, soft)


def decode_readings(train, counter, a, i, q, room_octets, room_words):
    """The same of the readings' soft bytes."""
    no, pdus = readings_refusal(decode_refusal(train, counter, a), train, i, q), pdus_of(train)
    if no == 0 and is_short(pdus, room_octets, room_words):
        no = 8
    return Answer(no) if no else answer(train, counter, a, softened(pdus, i, q))


# Document 01, "Numbers to hold against": bits on the axis, bit, reading, soft byte.
SOFT = [
    (1, 0, 32, 1), (1, 0, -32, -1), (1, 0, 2049, 32),
    (1, 0, 31, 0), (1, 0, 95, 1), (1, 0, 96, 2), (1, 0, 2048, 32), (1, 0, -32768, -32),
    (2, 0, 768, 16), (2, 1, 0, 8), (2, 1, 2048, -24), (3, 0, 2048, 80), (3, 2, 1024, 8),
]


# The standard's own example of the scrambler, worked by hand: counter 0100, so stages 7 to 1 start as 111 0100. The output
# is stage 7 xor stage 4, and comes in at stage 1:
#
#     1110100 1   1101001 0   1010010 1   0100101 0   1001010 0   0010100 0
#     0101000 1   1010001 1   0100011 0   1000110 1   0001101 1
#
# Data is scrambled from its first bit:                     1001 1101 000  xor 1010 0011 011 is 0011 1110 011.
# A BCH has the counter in front, which goes as it is:  0100 1001 1101      xor      1010 0011 is 0100 0011 1110.
# By kind: counter, octets (zeros behind the bits), the inputs of the encoder.
WORKED = {"bch": (4, "49d0", "010000111110"), "data": (4, "9d00", "00111110011")}


# The documents' own examples, held against the stages above before anything else is done.

def known():
    for kind, (counter, octets, found) in WORKED.items():
        assert text(inputs(kind, counter, bits_of(bytes.fromhex(octets)))).startswith(found)
    assert text(in_turn(*coded([1, 0, 0, 0, 0, 0, 0]))) == "11011111001011"
    for n in range(6, 11):
        assert comparisons_by_trains(n) == comparisons(n) == 64 * (n - 6) + 63
    for mode, k, j in ((1, 1, 3), (1, 17, 4), (5, 1, 13), (5, 2, 24), (7, 1, 20), (7, 17, 18)):
        assert place(k, MODES[mode]) == j
    for d, k in ((1, 0x3F800000), (2, 0x3F3504F3), (10, 0x3EA1E89B), (42, 0x3E1E01B3)):
        assert f32_bits(nearest_k(d)) == k
    for width, j, r, soft in SOFT:
        assert soft_byte(width, j, r) == soft


# Recorded and made-up trains.

def numbers_in(word):
    return [*map(int, word.split(","))]


def train_of(kind, modes, counter, lengths, a):
    """A description as a line writes it: list, counter, a."""
    return listed(*zip(numbers_in(modes), numbers_in(lengths)), kind=kind), int(counter), int(a)


def recorded(path):
    """The trains in a file: list, counter, a, octets, sent bits as text."""
    for line in open(path, encoding="ascii"):
        *described, octets, bits = line.split()
        yield *train_of(*described), bytes.fromhex(octets), bits


def recorded_decodes(path):
    """The decodes of soft bytes in a file: list, counter, a, soft bytes, and what the call answers."""
    for line in open(path, encoding="ascii"):
        call, _, told = line.partition(" = ")
        words = call.split()
        *counts, mark, octets = told.split()
        yield *train_of(*words[:5]), [*map(int, words[5:])], (*map(int, counts), mark, bytes.fromhex(octets))


def drawn(label, count):
    """`count` octets that look random and are the same on every run."""
    out = b""
    while len(out) < count:
        out += hashlib.sha256(f"{label} {len(out)}".encode()).digest()
    return out[:count]


def lengths_of(mode):
    return [n for n in range(72, 3457, 8) if n % MODES[mode].info == 0]


def made(k):
    """The k-th of a fixed sequence of data trains: one PDU and several in turn."""
    def pick(what, among):
        return among[int.from_bytes(drawn(f"{what} {k}", 8), "big") % len(among)]

    def pdu(j, most):
        mode = pick(f"mode {j}", range(1, 8))
        return mode, pick(f"length {j}", [n for n in lengths_of(mode)[:6] if n <= most])

    if k % 2:
        pdus = []
        for others in range(pick("count", range(1, 16)), -1, -1):
            pdus.append(pdu(others, 3456 - length_of(pdus) - 216 * others))
    else:
        mode = k // 2 % 7 + 1
        pdus = [(mode, pick("length", lengths_of(mode)))]
    last = length_of(pdus) - 72
    a = pick("place", [0, last, pick("within", range(last + 1)), min(last, pdus[0][1] - 36)])
    return listed(*pdus), pick("counter", range(16)), a, drawn(f"octets {k}", length_of(pdus) // 8)


def made_bch(counter):
    """A BCH of this counter: its first four bits, before others that look random."""
    pdus, a = BCH
    octets = octets_of(bits_of([counter << 4])[:4] + bits_of(drawn(f"bch {counter}", 15))[4:])
    return listed(*pdus, kind="bch"), counter, a, octets


def commas(values):
    return ",".join(map(str, values))


def main(words):
    known()
    if words[:1] == ["check"] and len(words) == 2:
        trains = list(recorded(words[1]))
        same = sum(text(sent_bits(*train)) == bits for *train, bits in trains)
        print(f"{same} of {len(trains)} trains agree")
        sys.exit(0 if trains and same == len(trains) else 1)
    elif words[:1] == ["decoded"] and len(words) == 2:
        calls = list(recorded_decodes(words[1]))
        same = sum(decode_soft(*call, n // 8, n + 6)[:-1] == told
                   for *call, told in calls for n in [length_of(pdus_of(call[0]))])
        print(f"{same} of {len(calls)} decodes agree")
        sys.exit(0 if calls and same == len(calls) else 1)
    elif words[:1] == ["trains"] and len(words) == 2:
        for train, counter, a, octets in [*map(made, range(int(words[1]))), *map(made_bch, range(16))]:
            bits = text(sent_bits(train, counter, a, octets))
            print(train.kind, commas(train.modes), counter, commas(train.lengths), a, octets.hex(), bits)
    elif words == ["numbers"]:
        from number_calls import write
        write()
    else:
        sys.exit(__doc__)


if __name__ == "__main__":
    main(sys.argv[1:])
