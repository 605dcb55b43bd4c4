#!/usr/bin/env python3
"""Computes the tables of 16 bytes by which krb_aes enciphers, from the field of FIPS 197 alone, and
the lanes of a round of the inverse cipher, from ShiftRows.

    tests/vector_tables.py            prints them
    tests/vector_tables.py --check    compares them with those of the sources, says which differ,
                                      and ends with 1 if any does

The computation of the tables is tests/oracle/aes_tables.py. The lanes are those of
crates/krb_aes/proofs/InverseMixing.antt, for each of the four forms of a round: the places of its
shuffle, and for each lane the bytes of the state and of the round key that it takes.
"""
import re
import sys

import os
sys.path.insert(0, os.path.join(os.path.dirname(os.path.realpath(__file__)), "../tools"))
from lib import options
from lib.build import building
from oracle.aes_tables import G, T, tables, test

# The tables that the definitions name too, and their names there.
IN_SPECS = {
    "inverses": "INVERSES",
    "scaled_inverses": "SCALED_INVERSES",
    "nibbles_of_high": "NIBBLES_HIGH",
    "nibbles_of_low": "NIBBLES_LOW",
    "inv_linear_high": "INV_LINEAR_HIGH",
    "inv_linear_low": "INV_LINEAR_LOW",
}


def in_sources():
    """The tables that stand in the sources, as (file, name there, name here, bytes)."""
    def read(path):
        return building.text_of(f"crates/krb_aes/{path}")

    def numbers(text):
        return [int(number, 16) for number in re.findall(r"0x[0-9a-f]{2}", text)]

    for path in ("src/sbox.rt", "src/inverse_sbox.rt"):
        for name, text in re.findall(r"const (\w+): \[u8; 16\] = \[([^]]*)\]", read(path)):
            yield path, name, name, numbers(text)
    path = "specs/Nibbles.antt"
    for name, text in re.findall(r"(?m)^(\w+) =\n((?:    .*0x.*∷.*\n)+)", read(path)):
        yield path, name, IN_SPECS[name], numbers(text)


# ---- the lanes of a round of the inverse cipher

FORMS = (1, 2, 3, 0)


def shifted(turns, row, column):
    """The column that ShiftRows, done so many times, brings to this place of a row."""
    return (column + turns * row) % 4


def lane_of(form, lane):
    """The bytes of the state and of the round key, in the order in which their products are added."""
    row, column = lane % 4, lane // 4
    column = shifted(form, row, column)
    rows = [(row + d) % 4 for d in range(4)]
    return [r + 4 * shifted(-1, r, column) for r in rows] + [r + 4 * column for r in rows]


def lanes(form):
    """The places of the shuffle, and the bytes of each lane."""
    held = [lane % 4 + 4 * shifted(form - 1, lane % 4, lane // 4) for lane in range(16)]
    taken = [lane_of(form, lane) for lane in range(16)]
    assert [held[lane] for lane in range(16)] == [bytes_of[0] for bytes_of in taken]
    return [held.index(bytes_of[1]) for bytes_of in taken], taken


def lanes_in_proofs():
    """The same as it stands in the proofs, for each form that is found there."""
    text = building.text_of("crates/krb_aes/proofs/InverseMixing.antt")
    pattern = (r"(?m)^pub inv_mix_lanes-(\d) : .*\n    → inv_mix_lanes \(([^)]*)\)"
               r"(?:.*\n)*?.*= λ i\.\n((?:    lane .*\n)+)")
    for form, places, rows in re.findall(pattern, text):
        places = [int(place) for place in re.findall(r"\d+", places)]
        taken = [[int(place) for place in row.split()[5:-2]] for row in rows.splitlines()]
        yield int(form), (places, taken)


def check_lanes():
    seen = dict(lanes_in_proofs())
    wrong = 0
    for form in FORMS:
        if seen.get(form) != lanes(form):
            wrong += 1
            print(f"proofs/InverseMixing.antt: inv_mix_lanes-{form} isn't what ShiftRows gives")
    if wrong == 0:
        print(f"the lanes of {len(seen)} forms of a round stand in the proofs as they are computed here")
    return wrong == 0


def show_lanes():
    for form in FORMS:
        places, taken = lanes(form)
        print(f"inv_mix_lanes-{form}:")
        print("    " + " ∷ ".join(map(str, places)) + " ∷ []")
        for row in taken:
            print("    lane s k h g " + " ".join(map(str, row)) + " i ∷")


# ---- the tables

def check(found):
    seen, wrong = set(), 0
    for path, name, here, numbers in in_sources():
        seen.add((path, here))
        if found.get(here) != numbers:
            wrong += 1
            print(f"{path}: {name} isn't what the field gives")
    named = {here for _, here in seen}
    for name in sorted(set(found) - named):
        wrong += 1
        print(f"no source has the table {name}")
    for name in sorted(set(IN_SPECS.values()) - {here for path, here in seen if ".antt" in path}):
        wrong += 1
        print(f"no definition has the table {name}")
    if wrong == 0:
        print(f"{len(seen)} tables stand in the sources as they are computed here")
    return wrong == 0


def show(found):
    print(f"g = {G:#04x}, t = {T:#04x}")
    for name, table in found.items():
        print(f"{name}:")
        for line in (table[:8], table[8:]):
            print("    " + ", ".join(f"{b:#04x}" for b in line))
    show_lanes()


def main(words):
    form = options.Parser(__doc__, "--check").parse_args(words).form
    found = tables()
    test(found)
    if not form:
        show(found)
    elif not all([check(found), check_lanes()]):
        sys.exit(1)


main(sys.argv[1:])
