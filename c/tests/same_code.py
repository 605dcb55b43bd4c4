#!/usr/bin/env python3
"""Whether two objects for x86-64 have the same code and the same data: same_code.py ONE OTHER

Compared are, section by section in their order, all that a program loads but unwind tables: the bytes
of data, and the instructions of code; and each relocation, by the function or the place that it names.
Assemblers may differ in three things, which are taken as alike: no-operations between instructions,
whether a jump within its function is short or near, and two kinds of calls that linkers don't tell
apart. Needs objdump. Prints what was compared, or the first difference, and ends with 1 then.
"""
import bisect
import re
import struct
import subprocess
import sys

ALLOCATED, EXECUTED = 2, 4
SYMBOLS, RELOCATIONS, NO_BITS = 2, 4, 8
CALLS = {2: "call or near", 4: "call or near"}
TABLE = 4           # the bytes of an entry of a table of jumps
HEADING = "Disassembly of section "
LINE = re.compile(r"\s*([0-9a-f]+):\t((?:[0-9a-f]{2} )+)\s*\t?(.*)")
IDLE = re.compile(r"(?:data16 |cs )*(?:xchg +%ax,%ax|nop)")
JUMP = re.compile(r"(j[a-z]+) +([0-9a-f]+) <")


class Code:
    """The instructions of a section: where each begins, and what it is."""

    def __init__(self, lines):
        self.starts, self.ends, self.told = [], [], []
        for at, octets, text in lines:
            if not IDLE.match(text):
                self.starts.append(at)
                self.ends.append(at + len(octets) // 3)
                self.told.append((octets, JUMP.match(text)))
        self.instructions = [self.instruction(*it) for it in self.told]

    def instruction(self, octets, jump):
        """Its bytes, or of a jump within the section its kind, and the instruction that it goes to."""
        return (jump[1], self.number(int(jump[2], 16))) if jump else octets

    def number(self, at):
        """The instruction at an offset, or after the no-operations that stand there."""
        return bisect.bisect_left(self.starts, at)

    def place(self, at):
        """An offset as an instruction and the bytes from there to its end."""
        number = bisect.bisect_right(self.starts, at) - 1
        return number, self.ends[number] - at

    def begins(self, at):
        found = self.number(at)
        return found if found < len(self.starts) and self.starts[found] == at else None


class Object:
    """What is loaded of an object: each section's bytes or instructions, and its relocations."""

    def __init__(self, path):
        with open(path, "rb") as file:
            self.data = file.read()
        start, size, count, names = self.numbers("<Q", 40) + self.numbers("<HHH", 58)
        self.headers = [self.numbers("<IIQQQQIIQQ", start + at * size) for at in range(count)]
        self.names = names
        loaded = [it for it, header in enumerate(self.headers) if header[2] & ALLOCATED
                  and header[1] != NO_BITS and header[5] and self.name(it) != ".eh_frame"]
        self.places = {it: place for place, it in enumerate(loaded)}
        lines = lines_of(path)
        self.code = {place: Code(lines.get(self.name(it), [])) for it, place in self.places.items()
                     if self.headers[it][2] & EXECUTED}
        self.sections = [self.bytes_of(it) for it in loaded]
        self.relocations = sorted(self.all_relocations())

    def numbers(self, form, at):
        return struct.unpack_from(form, self.data, at)

    def text(self, table, at):
        begin = self.headers[table][4] + at
        return self.data[begin:self.data.index(b"\0", begin)].decode()

    def name(self, section):
        return self.text(self.names, self.headers[section][0])

    def bytes_of(self, section):
        _, _, _, _, begin, size = self.headers[section][:6]
        return self.data[begin:begin + size]

    def target(self, table, number, addend):
        """What a symbol names: a function elsewhere, or a place in a section."""
        name, _, _, section, value, _ = self.numbers("<IBBHQQ", self.headers[table][4] + 24 * number)
        if section in self.places:
            return self.places[section], "", value + addend
        return -1, self.text(self.headers[table][6], name), addend

    def all_relocations(self):
        """The section and the place of each, its kind, and its target."""
        for header in self.headers:
            if header[1] != RELOCATIONS or header[7] not in self.places:
                continue
            place = self.places[header[7]]
            for at in range(header[4], header[4] + header[5], 24):
                offset, info, addend = self.numbers("<QQq", at)
                kind = info & 0xFFFFFFFF
                there = self.code[place].place(offset) if place in self.code else (offset, 0)
                yield (place, there, CALLS.get(kind, str(kind)),
                       *self.target(header[6], info >> 32, addend))


def lines_of(path):
    """The disassembly of each section: offsets, bytes as written, and texts."""
    told = subprocess.run(["objdump", "-d", "-w", path], check=True, stdout=subprocess.PIPE,
                          text=True).stdout
    found, section = {}, []
    for line in told.splitlines():
        if line.startswith(HEADING):
            section = found.setdefault(line.removeprefix(HEADING).rstrip(":"), [])
        told = LINE.match(line)
        if told:
            section.append((int(told[1], 16), told[2], told[3]))
    return found


def is_same_section(place, one, other):
    if place in one.code and place in other.code:
        return one.code[place].instructions == other.code[place].instructions
    return place not in one.code and place not in other.code \
        and one.sections[place] == other.sections[place]


def is_same_target(one, other, first, second):
    """Whether two relocations name one place. In code this is the begin of an instruction, and the
    entries of a table of jumps have their own distance from the table's begin added. What a call
    names is 4 bytes before it."""
    section, name, value = first
    if (section, name) != second[:2] or section not in one.code:
        return first == second
    return any(begin is not None and begin == other.code[section].begins(second[2] - more)
               for more in range(-TABLE, max(value, 0) + TABLE, TABLE)
               for begin in [one.code[section].begins(value - more)])


def difference(one, other):
    if len(one.sections) != len(other.sections):
        return f"{len(one.sections)} and {len(other.sections)} sections"
    for place in range(len(one.sections)):
        if not is_same_section(place, one, other):
            return f"section {place} differs"
    for pair in zip(one.relocations, other.relocations):
        if pair[0][:3] != pair[1][:3] or not is_same_target(one, other, pair[0][3:], pair[1][3:]):
            return f"relocations differ: {pair[0]}, {pair[1]}"
    if len(one.relocations) != len(other.relocations):
        return f"{len(one.relocations)} and {len(other.relocations)} relocations"
    return None


def main(words):
    one, other = map(Object, words)
    found = difference(one, other)
    size = sum(map(len, one.sections))
    empty = not size or not all(it.instructions for it in one.code.values())
    print(found or f"code: {len(one.sections)} sections of {size} bytes and {len(one.relocations)}"
                   " relocations are those of the kit's object")
    return 1 if found or empty else 0


sys.exit(main(sys.argv[1:]))
