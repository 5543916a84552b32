#!/usr/bin/env python3
"""The interleaver's sheet by the rule of ETSI TS 101 475, clause 5.4, which is `place` of host/reference.py.

    python3 host/sheet.py          what the program `sheet` is to print: crates/sheet/stdout
    python3 host/sheet.py table    the entries as crates/places/src/sheet.rt has them, sixteen to a line
"""
import sys

from reference import MODES, place

# The symbols of the sheet in its order, each with a mode that has them.
SYMBOLS = {"BPSK": MODES[1], "QPSK": MODES[3], "16QAM": MODES[5], "64QAM": MODES[7]}

HEAD = """\
The interleaver of ETSI TS 101 475, clause 5.4. Bit k of a symbol goes to the place below it, which is
the carrier's bit below that. All are counted from 0, but a carrier's bits are b1 to b6, b1 the earliest.
"""


def rows(mode):
    """A symbol's bits, sixteen to a row."""
    return [range(first, first + 16) for first in range(0, mode.sent, 16)]


def lines(mode, bits):
    places = [place(k, mode) for k in bits]
    yield "bit", bits
    yield "place", places
    yield "carrier", [j // mode.carrier for j in places]
    yield "its bit", [f"b{j % mode.carrier + 1}" for j in places]


def print_table():
    for mode in SYMBOLS.values():
        for bits in rows(mode):
            print("    " + " ".join(f"{place(k, mode):3}," for k in bits))


def print_sheet():
    print(HEAD)
    for name, mode in SYMBOLS.items():
        print(f"{name}: symbols of {mode.sent} bits, {mode.carrier} to a carrier\n")
        for bits in rows(mode):
            for title, values in lines(mode, bits):
                print(f"{title:7}" + "".join(f"{value:>5}" for value in values))
            print()


if sys.argv[1:] == ["table"]:
    print_table()
elif not sys.argv[1:]:
    print_sheet()
else:
    sys.exit(__doc__)
