"""The calls that the program crates/numbers makes: a line of its input for each, and the line that it must print.

`python3 host/reference.py numbers` writes both files. The lines of `recorded_calls` are the customer's vectors, copied
in host/vectors/encode.txt: their sent bits come from there. Two lines of `inputs_calls` are worked by hand. All other
lines are worked out by host/reference.py, and none comes from the program. crates/numbers/src/main.rt says how a line is
written.
"""
import os

from reference import (BCH, MODES, SOFT, WORKED, List, bits_of, carriers_of, commas, counter_of, decode_readings,
                       decode_refusal, decode_soft, drawn, encode, ideal, inputs, length_of, lengths_of, listed, made_bch,
                       mapped, octets_of, origins, pdus_of, recorded, refusal, scrambled, sent_bits, sent_of, soften,
                       softened, text)

HERE = os.path.dirname(os.path.abspath(__file__))
VECTORS = os.path.join(HERE, "vectors", "encode.txt")
NUMBERS = os.path.join(HERE, "..", "crates", "numbers")

MOST = 2 ** 32 - 1
ROOM = 2 ** 18  # for all lines of the input; the program reads no more
MARK = 7  # what the program fills its buffers with before it lends them
MARK_SOFT = 100  # the same for soft bytes


def lent(values, room, mark=MARK):
    """All lent elements after a call: the mark where nothing was written, which is everywhere where it was refused."""
    return values + [mark] * (room - len(values))


def signed(values, digits):
    """Signed numbers in two's complement, so many hexadecimal digits for each."""
    return "".join(f"{v % 16 ** digits:0{digits}x}" for v in values) or "-"


def written(train):
    """A list: how many PDUs, modes, lengths."""
    return f"{train.count} {commas(train.modes)} {commas(train.lengths)}"


def encode_line(train, counter, a, octets, room):
    return f"encode {train.kind} {written(train)} {counter} {a} {octets.hex() or '-'} {room}"


def encode_call(train, counter, a, octets, room):
    no, bits = encode(train, counter, a, octets, room)
    return encode_line(train, counter, a, octets, room), f"{no} {text(lent(bits, room))}".rstrip()


def ideal_call(train, sent, room_i, room_q):
    no, i, q = ideal(train, sent, room_i, room_q)
    line = f"ideal {written(train)} {bytes(sent).hex() or '-'} {room_i} {room_q}"
    return line, " ".join(map(str, [no, "i", *lent(i, room_i), "q", *lent(q, room_q)]))


def mapped_call(mode, group):
    no, (i, q) = mapped(mode, group)
    return f"mapped {mode} {group}", f"{no} {i:08x} {q:08x}"


def soften_call(train, i, q, room):
    no, soft = soften(train, i, q, room)
    line = f"soften {written(train)} {signed(i, 4)} {signed(q, 4)} {room}"
    return line, " ".join(map(str, [no, *lent(soft, room, MARK_SOFT)]))


def answered(train, room_octets, room_words, answer):
    """The line of a decode: at the end how many words are zero, and where those end that are as they were."""
    left = bytes(lent([*answer.octets], room_octets))
    zero = 0 if answer.refusal else length_of(pdus_of(train)) + 6
    told = answer.refusal, answer.symbols, answer.n, answer.cost, answer.mark, answer.comparisons
    return " ".join(map(str, [*told, left.hex(), zero, room_words]))


def decode_soft_call(train, counter, a, soft, room_octets, room_words):
    line = f"decode_soft {train.kind} {written(train)} {counter} {a} {signed(soft, 2)} {room_octets} {room_words}"
    answer = decode_soft(train, counter, a, soft, room_octets, room_words)
    return line, answered(train, room_octets, room_words, answer)


def decode_readings_call(train, counter, a, i, q, room_octets, room_words):
    readings = f"{signed(i, 4)} {signed(q, 4)}"
    line = f"decode_readings {train.kind} {written(train)} {counter} {a} {readings} {room_octets} {room_words}"
    answer = decode_readings(train, counter, a, i, q, room_octets, room_words)
    return line, answered(train, room_octets, room_words, answer)


def recorded_calls(kind):
    """The customer's trains. Their sent bits are copied from the file and not worked out here."""
    for train, *others, bits in recorded(VECTORS):
        if train.kind == kind:
            yield encode_line(train, *others, len(bits)), f"0 {bits}"


# Trains of one PDU.

def train_calls():
    """Each mode: its shortest train; P1 at the start, the end and in the middle of a longer one; the longest train, in
    the modes in which no recorded one is. Most are lent more room than they need."""
    for mode in MODES:
        few, many = lengths_of(mode)[0], lengths_of(mode)[3]
        trains = [(few, 0), (many, 0), (many, many - 72), (many, (many - 72) // 2)]
        if mode in (1, 3, 4, 6):
            trains.append((3456, 2000 + mode))
        for k, (n, a) in enumerate(trains):
            room = n // MODES[mode].info * MODES[mode].sent + 5 * k
            yield encode_call(listed((mode, n)), (5 * mode + 3 * k) % 16, a, drawn(f"train {mode} {k}", n // 8), room)
    for octet in (0, 255):
        yield encode_call(listed((6, 144)), 15, 72, bytes([octet] * 18), 192)


def refused_calls():
    """Encode's refusals 1 to 8 and, at the end, calls that pass. The first of each kind has all later reasons too."""
    good = bytes(range(9))
    for mode, counter, n, *others in [
        (0, 16, 64, MOST, b"", 0), (8, 16, 64, MOST, b"", 0), (MOST, MOST, MOST, MOST, b"", 9),
        (1, 16, 64, MOST, b"", 0), (7, MOST, 0, 0, good, 200),
        (1, 15, 0, MOST, b"", 0), (1, 0, 71, 0, good, 200), (1, 0, 3457, MOST, b"", 0),
        (1, 0, MOST, 0, good, 200), (1, 0, MOST - 7, 0, good, 200),
        (1, 0, 73, MOST, b"", 0), (2, 0, 100, MOST, b"", 0), (5, 0, 108, 0, good, 200),
        (1, 0, 80, MOST, b"", 0), (7, 0, 3448, MOST, b"", 0),
        (1, 0, 72, MOST, b"", 0), (1, 0, 3456, 3385, b"", 0),
        (1, 0, 72, 0, b"", 0), (1, 0, 72, 0, good[:8], 200), (1, 0, 72, 0, good + b"\0", 200),
        (1, 0, 96, 24, good, 200),
        (1, 0, 72, 0, good, 0), (1, 0, 72, 0, good, 143), (7, 0, 216, 144, bytes(27), 287),
        (1, 0, 72, 0, good, 144), (1, 15, 72, 0, good, 145), (2, 0, 72, 0, good, 200),
    ]:
        yield encode_call(listed((mode, n)), counter, *others)


def stated_calls():
    """Document 01, "Numbers to hold against": mode, N, a, the refusal and, where it gives it, n."""
    for mode, n, a, no, n_sent in [
        (1, 64, 0, 3, 0), (1, 72, 0, 0, 144), (4, 72, 0, 0, 96), (3, 72, 0, 5, 0), (2, 108, 0, 4, 0),
        (7, 432, 0, 0, 576), (1, 3456, 0, 0, None), (1, 3464, 0, 3, 0), (1, 72, 1, 6, 0),
    ]:
        room = 7000 if n > 3000 else 600
        call = listed((mode, n)), 0, a, bytes(n // 8), room
        found, bits = encode(*call)
        assert found == no and n_sent in (None, len(bits))
        yield encode_call(*call)


def ideal_calls():
    """The shortest train of each mode and a longest one; then refusals 1, 3, 4, 5, 7, 8, 9, as above."""
    for mode, n in [*((mode, lengths_of(mode)[0]) for mode in MODES), (7, 3456)]:
        carriers, sent = n // MODES[mode].info * 48, sent_bits(listed((mode, n)), mode, 0, drawn(f"ideal {mode}", n // 8))
        yield ideal_call(listed((mode, n)), sent, carriers, carriers + mode)
    one = [k // 3 % 2 for k in range(96)]
    for mode, n, *others in [
        (0, 64, [2], 0, 0), (8, 64, [2], 0, 0), (MOST, MOST, [], 5, 5),
        (4, 0, [2], 0, 0), (4, 64, [2], 0, 0), (4, 3464, [2], 0, 0), (4, MOST, one, 48, 48),
        (4, 73, [2], 0, 0), (4, 108, one, 48, 48), (4, 80, [2], 0, 0), (3, 72, one, 48, 48),
        (4, 72, [], 0, 0), (4, 72, [2] + one[2:], 0, 0), (4, 72, one + [0], 48, 48),
        (4, 72, [2] + one[1:], 47, 48), (4, 72, one, 48, 47), (4, 72, one, 0, 100), (4, 72, one, 100, 0),
        (4, 72, [2] + one[1:], 48, 48), (4, 72, one[:95] + [2], 50, 60), (4, 72, one[:40] + [255] + one[41:], 48, 48),
        (4, 72, one, 48, 48), (2, 72, one, 100, 96),
    ]:
        yield ideal_call(listed((mode, n)), *others)


def mapped_calls():
    """Every group of every mode, too large ones and bad modes."""
    for mode in MODES:
        for group in [*range(2 ** MODES[mode].carrier + 1), MOST]:
            yield mapped_call(mode, group)
    for mode in (0, 8, MOST):
        for group in (0, MOST):
            yield mapped_call(mode, group)


def noise(label, count, most):
    """`count` whole numbers from -most to most, the same on every run."""
    return [int.from_bytes(drawn(f"{label} {k}", 4), "big") % (2 * most + 1) - most for k in range(count)]


def noisy(label, values, most, limit):
    """Values with noise added, held to -limit to limit."""
    return [max(-limit, min(limit, v + e)) for v, e in zip(values, noise(label, len(values), most))]


def ideal_readings(train, counter, a, octets):
    room = len(carriers_of(pdus_of(train)))
    return ideal(train, sent_bits(train, counter, a, octets), room, room)[1:]


def noisy_readings(label, train, counter, a, octets, most):
    return [noisy(f"{axis} {label}", r, most, 32767) for axis, r in zip("iq", ideal_readings(train, counter, a, octets))]


def soften_calls():
    """The soft numbers of document 01 on both axes, among readings of every size, the largest and the least; BPSK's Q is not
    read. Then refusals 1, 3, 4, 5, 7, 8, the first of each kind with all later reasons, and calls that pass."""
    for mode in MODES:
        n = lengths_of(mode)[0]
        carriers, width = n // MODES[mode].info * 48, max(1, MODES[mode].carrier // 2)
        stated = [r for w, _, r, _ in SOFT if w == width] + [32767, -32768, -2049, 0]
        i = stated + noise(f"soft i {mode}", carriers - len(stated), 2600)
        q = stated[::-1] + noise(f"soft q {mode}", carriers - len(stated), 2600)
        room = n // MODES[mode].info * MODES[mode].sent + mode % 3
        _, soft = soften(listed((mode, n)), i, q, room)
        for w, j, r, byte in SOFT:
            assert w != width or soft[MODES[mode].carrier * stated.index(r) + j] == byte
        yield soften_call(listed((mode, n)), i, q, room)
    one = [256, -32768, 32767] * 16
    for mode, n, *others in [
        (0, 64, [1], [], 0), (8, 64, [1], [], 0), (MOST, MOST, [], [], 3),
        (4, 64, [1], [], 0), (4, 0, one, one, 96), (4, 3464, [1], [], 0), (4, MOST, one, one, 96),
        (4, 73, [1], [], 0), (2, 108, one, one, 96), (4, 80, [1], [], 0), (3, 72, one, one, 96),
        (4, 72, [1], [], 0), (4, 72, one[1:], one, 96), (4, 72, one, one[1:], 96), (4, 72, one + [0], one, 96), (4, 72, one, one + [0], 96),
        (4, 72, one, one, 0), (4, 72, one, one, 95),
        (4, 72, one, one, 96), (4, 72, one, one, 99),
    ]:
        yield soften_call(listed((mode, n)), *others)


def decode_calls():
    """Each mode's shortest train: all soft bytes zero; ideal readings; noisy soft bytes; noisy readings, little and much. Then
    one of the longest trains. Most are lent more room than they need."""
    for mode in MODES:
        n, counter = lengths_of(mode)[0], (3 * mode + 5) % 16
        train, a, octets = listed((mode, n)), n - 72, drawn(f"decode {mode}", n // 8)
        zeros = [0] * sent_of(pdus_of(train))
        assert decode_soft(train, counter, a, zeros, n // 8, n + 6)[3:6] == (0, "D", octets_of(scrambled([0] * n, counter)))
        yield decode_soft_call(train, counter, a, zeros, n // 8, n + 6 + mode)
        i, q = ideal_readings(train, counter, a, octets)
        assert decode_readings(train, counter, a, i, q, n // 8, n + 6)[3:6] == (0, "C", octets)
        yield decode_readings_call(train, counter, a, i, q, n // 8 + mode % 4, n + 6)
        soft = softened(pdus_of(train), i, q)
        for k, most in enumerate((5, 20)):
            yield decode_soft_call(train, counter, a, noisy(f"soft {mode} {k}", soft, most, 80), n // 8 + k, n + 6 + 3 * k)
        for k, most in enumerate((300, 700)):
            heard = noisy_readings(f"{mode} {k}", train, counter, a, octets, most)
            yield decode_readings_call(train, counter, a, *heard, n // 8, n + 6)
    longest = listed((7, 3456)), 15, 1234
    i, q = (noisy(f"longest {k}", r, 330, 32767) for k, r in enumerate(ideal_readings(*longest, drawn("longest", 432))))
    yield decode_readings_call(*longest, i, q, 434, 3470)


def refused_decodes():
    """The two decodes' refusals 1 to 8, and 9 of soft bytes. The first of each kind has all later reasons too; at the end
    calls that pass, among them the lengths that document 01 names."""
    bad, good = [81], noise("good", 96, 80)
    for mode, counter, n, *others in [
        (0, 16, 64, MOST, bad, 0, 0), (8, 16, 64, MOST, bad, 9, 9), (MOST, MOST, MOST, MOST, [], 2, 0),
        (4, 16, 64, MOST, bad, 0, 0), (4, MOST, 72, 0, good, 9, 78),
        (4, 15, 64, MOST, bad, 0, 0), (4, 0, 3464, MOST, bad, 0, 0), (4, 0, MOST, 0, good, 9, 78),
        (4, 0, 73, MOST, bad, 0, 0), (2, 0, 108, 0, good, 20, 120),
        (4, 0, 80, MOST, bad, 0, 0), (3, 0, 72, 0, good, 9, 78),
        (4, 0, 72, MOST, bad, 0, 0), (4, 0, 72, 1, good, 9, 78),
        (4, 0, 72, 0, bad, 0, 0), (4, 0, 72, 0, good[1:], 9, 78), (4, 0, 72, 0, good + [0], 9, 78),
        (4, 0, 72, 0, bad + good[1:], 8, 78), (4, 0, 72, 0, good, 9, 77), (4, 0, 72, 0, good, 0, 100), (4, 0, 72, 0, good, 100, 0),
        (4, 0, 72, 0, bad + good[1:], 9, 78), (4, 0, 72, 0, good[:95] + [-81], 9, 80), (4, 0, 72, 0, good[:40] + [-128] + good[41:], 10, 78),
        (4, 0, 72, 0, good[:40] + [127] + good[41:], 9, 78),
        (4, 0, 72, 0, good, 9, 78), (4, 15, 72, 0, [80, -80] * 48, 12, 90),
    ]:
        yield decode_soft_call(listed((mode, n)), counter, *others)
    one = noise("one", 48, 1000)
    for mode, counter, n, *others in [
        (0, 16, 64, MOST, [1], [], 0, 0), (8, 16, 64, MOST, [1], [], 0, 0), (MOST, MOST, MOST, MOST, [], [], 2, 2),
        (4, 16, 64, MOST, [1], [], 0, 0), (4, 15, 64, MOST, [1], [], 0, 0), (4, 0, 3464, 0, one, one, 9, 78),
        (4, 0, 73, MOST, [1], [], 0, 0), (4, 0, 80, MOST, [1], [], 0, 0), (4, 0, 72, MOST, [1], [], 0, 0), (4, 0, 72, 1, one, one, 9, 78),
        (4, 0, 72, 0, [1], [], 0, 0), (4, 0, 72, 0, one[1:], one, 9, 78), (4, 0, 72, 0, one, one + [0], 9, 78),
        (4, 0, 72, 0, one, one, 8, 78), (4, 0, 72, 0, one, one, 9, 77), (4, 0, 72, 0, one, one, 0, 0),
        (4, 0, 72, 0, one, one, 9, 78),
    ]:
        yield decode_readings_call(listed((mode, n)), counter, *others)
    for mode, n, n_sent in (1, 72, 144), (4, 72, 96), (7, 432, 576):
        call = listed((mode, n)), 4, 0, noise(f"size {n}", n_sent, 9), n // 8, n + 6
        answer = decode_soft(*call)
        assert answer.refusal == 0 and answer.n == n_sent
        yield decode_soft_call(*call)


# Trains of several PDUs.

# What stands past the count would be refused, if it were read.
CONTROL = List(2, [1, 6, 0, 8, MOST], [72, 144, 0, 73, MOST])
SEVEN = listed((7, 216), (6, 144), (5, 216), (4, 72), (3, 96), (2, 72), (1, 72))
SAME = listed((4, 72), (4, 144), (4, 72))
SIXTEEN = listed(*[(1, 72), (4, 72), (2, 72), (3, 96)] * 4)
WIDEST = listed(*[(7, 216)] * 16)


def mixed_trains():
    """List, counter and a: P1 across a border, at one, up to one, and at both ends of the train."""
    return [
        (CONTROL, 4, 36), (CONTROL, 9, 72), (SEVEN, 3, 216 + 144 - 1), (SEVEN, 12, 816), (SAME, 6, 0), (SIXTEEN, 7, 72),
        (WIDEST, 11, 3384),
    ]


def is_small(train):
    return length_of(pdus_of(train)) < 1000


# Descriptions and what the documents refuse them with, most with all later reasons; what is lent with them never fits. The
# first ones go to every call, the others to encode alone.
LADDER = [
    (11, List(0, [1], [72]), 16, MOST), (1, listed((1, 64), (8, 73)), 16, MOST), (5, listed((1, 72), (3, 72), (1, 64)), 15, MOST),
    (3, listed((1, 3456), (1, 72)), 15, MOST), (6, listed((1, 72), (6, 144)), 15, 145),
]
FURTHER = [
    (11, List(17, SIXTEEN.modes, SIXTEEN.lengths), 0, 0), (11, List(MOST, SIXTEEN.modes, SIXTEEN.lengths), 0, 0),
    (1, List(3, [1, 2], [72, 72]), 16, MOST), (1, List(16, SIXTEEN.modes[:15] + [0], SIXTEEN.lengths), 0, 0),
    (2, listed((1, 64), (1, 73)), 16, MOST), (3, listed((1, 64), (1, 73)), 15, MOST), (4, listed((1, 73), (1, 64)), 15, MOST),
    (5, listed((3, 72), (2, 108)), 15, MOST), (3, listed((1, 72), (1, 71), (1, 73)), 15, MOST),
    (4, listed((1, 72), (2, 108), (3, 72)), 15, MOST), (4, listed((1, 3456), (1, 73)), 15, MOST),
    (3, listed((1, 3384), (1, 96)), 0, 0), (6, WIDEST, 0, 3385), (0, WIDEST, 15, 3384),
]


def list_ladder():
    """Every call's refusals of a list. A call without counter and a skips 2 and 6."""
    for no, train, counter, a in LADDER + FURTHER:
        assert refusal(train, counter, a) == no
        yield encode_call(train, counter, a, b"", 3)
    for _, train, counter, a in LADDER:
        yield ideal_call(train, [2], 2, 1)
        yield soften_call(train, [1], [], 2)
        yield decode_soft_call(train, counter, a, [81], 2, 3)
        yield decode_readings_call(train, counter, a, [1], [], 2, 3)


def mixed_sendings():
    """Sent bits of all of them; ideal readings of some."""
    for k, (train, counter, a) in enumerate(mixed_trains()):
        pdus, octets = pdus_of(train), drawn(f"mixed {k}", length_of(pdus_of(train)) // 8)
        yield encode_call(train, counter, a, octets, sent_of(pdus) + k % 3)
        if k % 2 == 0 and is_small(train):
            room = len(carriers_of(pdus))
            yield ideal_call(train, sent_bits(train, counter, a, octets), room, room + 2)


def mixed_decodes():
    """Soft bytes of any readings; ideal and noisy readings, and noisy soft bytes, decoded."""
    for k, (train, counter, a) in enumerate(mixed_trains()):
        if not is_small(train):
            continue
        pdus, n = pdus_of(train), length_of(pdus_of(train))
        octets, carriers = drawn(f"heard {k}", n // 8), len(carriers_of(pdus))
        i, q = ideal_readings(train, counter, a, octets)
        assert decode_readings(train, counter, a, i, q, n // 8, n + 6)[3:6] == (0, "C", octets)
        if k % 2 == 0:
            yield decode_readings_call(train, counter, a, i, q, n // 8 + 1, n + 7)
            yield soften_call(train, noise(f"any i {k}", carriers, 2600), noise(f"any q {k}", carriers, 2600), sent_of(pdus) + 1)
        yield decode_readings_call(train, counter, a, *noisy_readings(f"heard {k}", train, counter, a, octets, 400), n // 8, n + 6)
        if k % 2 == 1:
            yield decode_soft_call(train, counter, a, noisy(f"heard {k}", softened(pdus, i, q), 20, 80), n // 8, n + 6)


def refused_lists():
    """Refusals 7, 8 and 9 of a list: what it needs are sums. Each call is one element away from a good one."""
    octets, (sent, carriers) = bytes(range(27)), (144 + 192, 48 * 4)
    for given, room in (octets[1:], sent), (octets + b"0", sent), (octets, sent - 1):
        yield encode_call(CONTROL, 1, 100, given, room)
    bits = sent_bits(CONTROL, 1, 100, octets)
    for given, room in (bits[1:], carriers), (bits, carriers - 1), (bits[:-1] + [2], carriers):
        yield ideal_call(CONTROL, given, carriers, room)
    soft = [20 if bit else -20 for bit in bits]
    for given, room, words in (soft[1:], 27, 222), (soft, 26, 222), (soft, 27, 221), (soft[:-1] + [81], 27, 222):
        yield decode_soft_call(CONTROL, 1, 100, given, room, words)
    i, q = ideal_readings(CONTROL, 1, 100, octets)
    for on_i, on_q, room in (i[1:], q, sent), (i, q + [0], sent), (i, q, sent - 1):
        yield soften_call(CONTROL, on_i, on_q, room)


# BCH.

def bch(*pdus):
    return listed(*pdus, kind="bch")


def inputs_call(kind, counter, octets, many):
    """Past the bits of the octets come zeros."""
    found = inputs(kind, counter, bits_of(octets)) + [0] * many
    return f"inputs {kind} {counter} {octets.hex() or '-'} {many}", text(found[:many])


def inputs_calls():
    """The examples that are worked by hand, whose inputs are copied; a BCH of each counter, with its tail; octets that do
    not begin with the counter, which is not asked for here; fewer octets than inputs, and fewer inputs than octets."""
    for kind, (counter, octets, found) in WORKED.items():
        yield inputs_call(kind, counter, bytes.fromhex(octets), len(found))[0], found
    for counter in range(16):
        yield inputs_call("bch", counter, made_bch(counter)[-1], 126)
    for counter, octets, many in (11, "49d0", 16), (4, "49", 13), (15, "", 9), (4, "49d0", 5), (4, "49d0", 3):
        for kind in ("bch", "data"):
            yield inputs_call(kind, counter, bytes.fromhex(octets), many)


def bch_sendings():
    """A BCH of each counter; the same octets as data; numbers past the count. Then first bits that are not the counter:
    n1 first, a bit wrong, all wrong, and the counter in the octet's other half."""
    for counter in range(16):
        yield encode_call(*made_bch(counter), 240 + counter % 3)
    for counter in (0b0001, 0b1000, 0b0111):
        train, *others = made_bch(counter)
        yield encode_call(train._replace(kind="data"), *others, 240)
        yield encode_call(List(1, [1, 8, MOST], [120, 73, MOST], "bch"), *others, 240)
    for counter, first in [
        (0b0001, 0x80), (0b1000, 0x10), (0b0111, 0xE0), (0b1110, 0x70), (0b0100, 0x20),
        (0b0100, 0x50), (0b0100, 0xC0), (0, 0xF0), (15, 0x00), (0b0100, 0x04), (0b1001, 0x69),
    ]:
        yield encode_call(bch((1, 120)), counter, 0, bytes([first]) + bytes(range(14)), 240)


# What encoding and what decoding refuses, and descriptions, most with all later reasons; what is lent with them never fits.
# Decoding does not read the counter.
BCH_LADDER = [
    (11, 11, List(0, [8], [64], "bch"), 16, MOST), (11, 11, List(17, [1] * 16, [120] * 16, "bch"), 99, MOST),
    (1, 1, bch((8, 64)), 16, MOST), (1, 1, bch((1, 120), (0, 120)), MOST, MOST),
    (2, 3, bch((1, 64)), 16, MOST), (2, 4, bch((1, 124)), 99, MOST), (2, 5, bch((3, 120)), 16, MOST),
    (2, 3, bch((1, 3456), (1, 120)), MOST, MOST), (2, 6, bch((1, 120)), 16, 49), (2, 12, bch((1, 120)), 16, 48),
    (2, 12, bch((1, 96)), 99, 0), (2, 7, bch((1, 120)), 16, 0), (2, 7, bch((1, 120)), 99, 0), (2, 7, bch((1, 120)), MOST, 0),
    (3, 3, bch((1, 64), (1, 124)), 15, MOST), (4, 4, bch((1, 124), (1, 64)), 15, MOST), (5, 5, bch((2, 120)), 15, MOST),
    (5, 5, bch((1, 120), (3, 120)), 15, MOST), (3, 3, bch((1, 120), (1, 3384)), 15, MOST),
    (6, 6, bch((1, 120)), 15, 49), (6, 6, bch((1, 96)), 15, 25), (6, 6, bch((4, 72)), 15, 1),
    (6, 6, bch((1, 120), (1, 72)), 15, 121),
    (12, 12, bch((1, 120)), 15, 48), (12, 12, bch((1, 96)), 15, 24), (12, 12, bch((4, 72)), 15, 0),
    (12, 12, bch((1, 120), (1, 72)), 15, 120), (12, 12, SIXTEEN._replace(kind="bch"), 0, 0), (7, 7, bch((1, 120)), 15, 0),
]


def bch_ladder():
    for encodes, decodes, train, counter, a in BCH_LADDER:
        assert (refusal(train, counter, a) or 7, decode_refusal(train, counter, a) or 7) == (encodes, decodes)
        yield encode_call(train, counter, a, b"", 3)
        yield decode_soft_call(train, counter, a, [81], 2, 3)
        yield decode_readings_call(train, counter, a, [1], [], 2, 3)


def near_bchs():
    """Calls that only 12 refuses, for each of its causes: as data they pass."""
    for train, a in (
        (bch((1, 120), (1, 72)), 0), (bch((1, 96)), 0), (bch((1, 144)), 0), (bch((4, 72)), 0),
        (bch((1, 120)), 1), (bch((1, 120)), 48),
    ):
        n, counter = length_of(pdus_of(train)), 15
        octets = octets_of([1] * 4 + bits_of(drawn(f"near {n} {a}", n // 8))[4:])
        bits = sent_bits(train, counter, a, octets)
        assert encode(train, counter, a, octets, len(bits))[0] == 12
        yield encode_call(train, counter, a, octets, len(bits))
        yield encode_call(train._replace(kind="data"), counter, a, octets, len(bits))
        soft = [32 if bit else -32 for bit in bits]
        yield decode_soft_call(train, counter, a, soft, n // 8, n + 6)
        if n == 72 or a == 48:
            yield decode_readings_call(train, counter, a, *ideal_readings(train, counter, a, octets), n // 8, n + 6)


def refused_bchs():
    """2 where the lowest four bits are right; 7 before 8 before first bits that are not the counter; 7, 8 and 9 of decodes,
    which are given any counter. Each is one element away from a good call, or has the later reasons too."""
    train, counter, a, octets = made_bch(13)
    for above in (16, 2 ** 31):
        yield encode_call(train, above + counter, a, octets, 240)
    wrong = bytes([octets[0] ^ 0x80]) + octets[1:]
    for no, given, room in (
        (7, wrong[1:], 0), (7, octets[1:], 240), (7, wrong + b"0", 240), (8, wrong, 0), (8, wrong, 239), (8, octets, 239),
        (12, wrong, 240), (12, wrong, 300), (0, octets, 240),
    ):
        assert encode(train, counter, a, given, room)[0] == no
        yield encode_call(train, counter, a, given, room)
    i, q = ideal_readings(train, counter, a, octets)
    soft = softened(pdus_of(train), i, q)
    bad = [81] + soft[1:]
    for given, *rooms in (
        (bad[1:], 0, 0), (soft + [0], 15, 126), (bad, 14, 126), (bad, 15, 125), (bad, 15, 126), (soft[:-1] + [-128], 99, 200),
    ):
        yield decode_soft_call(train, 99, a, given, *rooms)
    for on_i, on_q, *rooms in (i[1:], q, 0, 0), (i, q + [0], 15, 126), (i, q, 14, 126), (i, q, 15, 125):
        yield decode_readings_call(train, 99, a, on_i, on_q, *rooms)


def without_counter(label, values, most):
    """What a BCH's sent bits are heard as, where noise takes the place of those that hang on the counter: inputs 0 to 3 are
    in X and Y of inputs 0 to 9."""
    return [other if m // 2 < 10 else v for v, other, m in zip(values, noise(label, len(values), most), origins(*BCH))]


def bch_decodes():
    """All soft bytes alike; the customer's trains and a BCH of each counter as they were sent, and some through noise. The
    counters that are given are not read. Where noise takes the counter another one may be found."""
    train, (_, a) = bch((1, 120)), BCH
    zeros = decode_soft(train, 99, a, [0] * 240, 15, 126)
    assert zeros[3:6] == (0, "D", octets_of(inputs("bch", 0, [0] * 120)))
    for byte in (0, 1, -1):
        yield decode_soft_call(train, 99, a, [byte] * 240, 15 + abs(byte), 130)
    clear = [(octets, [24 if bit == "1" else -24 for bit in bits])
             for recorded_train, _, _, octets, bits in recorded(VECTORS) if recorded_train.kind == "bch"]
    clear += [(octets, softened(BCH[0], *ideal_readings(*call, octets))) for *call, octets in map(made_bch, range(16))]
    for k, (octets, soft) in enumerate(clear):
        assert decode_soft(train, MOST, a, soft, 15, 126)[3:6] == (0, "C", octets)
        yield decode_soft_call(train, (0, 15, 16, 99, MOST)[k % 5], a, soft, 15 + k % 2, 126)
    yield from noisy_bchs(clear)


def noisy_bchs(clear):
    """Soft bytes with noise on all, and then on the counter's alone and on both; readings likewise."""
    train, (_, a) = bch((1, 120)), BCH
    found = []
    for k, (octets, soft) in enumerate(clear[:12]):
        heard = noisy(f"bch {k}", soft, 30, 80) if k % 3 != 1 else soft
        heard = without_counter(f"counter {k}", heard, 60) if k % 3 else heard
        found.append((counter_of(bits_of(octets)), counter_of(bits_of(decode_soft(train, 0, a, heard, 15, 126).octets))))
        yield decode_soft_call(train, 3 * k, a, heard, 15, 126)
    assert {sent == told for sent, told in found} == {True, False}
    for k in range(6):
        *call, octets = made_bch(5 * k % 16)
        i, q = noisy_readings(f"bch {k}", *call, octets, 300)
        i = without_counter(f"readings {k}", i, 900) if k % 2 else i
        yield decode_readings_call(train, 99 * k, a, i, q, 15, 126)


def write():
    calls = [
        *recorded_calls("data"), *train_calls(), *refused_calls(), *stated_calls(), *ideal_calls(), *mapped_calls(),
        *soften_calls(), *decode_calls(), *refused_decodes(),
        *list_ladder(), *mixed_sendings(), *mixed_decodes(), *refused_lists(),
        *inputs_calls(), *recorded_calls("bch"), *bch_sendings(), *bch_ladder(), *near_bchs(), *refused_bchs(),
        *bch_decodes(),
    ]
    assert sum(len(line) + 1 for line, _ in calls) < ROOM
    for name, side in ("stdin", 0), ("stdout", 1):
        with open(os.path.join(NUMBERS, name), "w", encoding="ascii") as file:
            file.writelines(call[side] + "\n" for call in calls)
    print(f"{len(calls)} calls written")
