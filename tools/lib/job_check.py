"""The checks of a job, in the program's order, each with the place of what it refuses, what stands
there, and what may stand there. tables/job_keys.toml has the keys, and what their values are.

It shares nothing with the crates; tests/test_fuzz.py compares its answers with those of the program. Of a
key and of a seed it says how long they are, and not what they are.
"""
import dataclasses
import difflib
import re
import tomllib

from lib import toml_reader
from lib.build import building
from lib.picture import relayed

# tables/limits.toml: limits, by tools/tables
INPUT_LIMIT = 16_777_216
TEXTS_LIMIT = 1_000
TEXT_LIMIT = 1_000_000
BATCH_LIMIT = 1_000
ENTRIES_LIMIT = 2_000
RAW_LIMIT = 1_010_000
ADDRESS_LIMIT = 32
CAPACITY_LIMIT = 64
LANE_LIMIT = 8
SKEW_LIMIT = 86_400
LAST_NUMBER = 4_294_967_295
# end of limits
LAST_MOMENT = 253_402_300_799_999_999
KEY_SIZES = {17: 16, 18: 32}
MOST_SENDERS = {"seal": 1, "open": 1, "relay": LANE_LIMIT}
DECIMAL = r"(?:0|[1-9][0-9]*)"
ADDRESS = re.compile(rf"(-?{DECIMAL}):(.*)", re.S)
FLIP = re.compile(rf"flip ({DECIMAL}) ({DECIMAL}) ([0-9A-Fa-f]{{2}})")
FRAME = re.compile(DECIMAL)
NOT_HEX = re.compile(r"[^0-9A-Fa-f]")
EMISSION = ('a frame by its number, as "0", the same with a byte changed, as "flip 0 9 01", or'
            ' bytes, as "raw 74"')
TABLE = tomllib.loads(building.text_of("tables/job_keys.toml"))
TOP, KEYS = TABLE["job"], TABLE["sender"]


class Wrong(Exception):
    """A value that isn't allowed: its place, what stands there, and what may."""

    def __init__(self, at, found, wanted):
        super().__init__(found)
        self.at, self.found, self.wanted = at, found, wanted


@dataclasses.dataclass
class Problem:
    """The first check that a job fails: the program's words after `bad input: `, and the rest."""
    words: str
    line: int
    column: int
    found: str
    wanted: str


def counted(number, what):
    return f"{number:,} {what}{'' if number == 1 else 's'}"


def described(item):
    """A value in words; a string by its size alone."""
    if item.kind == "string":
        return f"a string of {counted(len(item.value), 'character')}"
    if item.kind == "list":
        return f"a list of {counted(len(item.value), 'item')}"
    if item.kind in ("table", "date"):
        return f"a {item.kind}"
    return str(item.value).lower()


# ---- values

def whole(item, low, high, wanted=None):
    if item.kind != "integer" or not low <= item.value <= high:
        raise Wrong(item.at, described(item), wanted or f"a whole number from {low} to {high}")
    return item.value


def text(item, wanted):
    if item.kind != "string":
        raise Wrong(item.at, described(item), wanted)
    return item.value


def place_in(item, index):
    """Where a character of a string stands, or where the string does."""
    return item.at if item.first is None else item.first + index


def hexadecimal(item, low, high, wanted, skipped=0):
    """The bytes of hexadecimal digits, after so many characters of a string."""
    digits = text(item, wanted)[skipped:]
    other = NOT_HEX.search(digits)
    if other:
        raise Wrong(place_in(item, skipped + other.start()), toml_reader.shown(other[0]),
                    "a hexadecimal digit")
    if len(digits) % 2:
        raise Wrong(item.at, counted(len(digits), "digit"), f"{wanted}, two digits for each byte")
    if not low <= len(digits) // 2 <= high:
        raise Wrong(item.at, counted(len(digits) // 2, "byte"), wanted)
    return bytes.fromhex(digits)


def etype(item):
    wanted = "17 or 18, the number of an encryption type (RFC 3962)"
    number = whole(item, -2**63, 2**63, wanted)
    if number not in KEY_SIZES:
        raise Wrong(item.at, described(item), wanted)
    return number


def key(item, size, others):
    """A key, which no earlier sender has."""
    found = hexadecimal(item, size, size, f"{size} bytes as hexadecimal digits")
    if found in others:
        raise Wrong(item.at, f"the key of sender {others.index(found)}", "a key of its own")
    return found


def mode(item):
    wanted = '"safe" or "priv"'
    if text(item, wanted) not in ("safe", "priv"):
        raise Wrong(item.at, toml_reader.shown(item.value), wanted)


def address(item):
    wanted = (f'an address as "2:0a000001": its type, {-2**31} to {2**31 - 1}, and up to'
              f" {ADDRESS_LIMIT} bytes as hexadecimal digits")
    found = ADDRESS.fullmatch(text(item, wanted))
    if not found or found[1] == "-0" or not -2**31 <= int(found[1]) < 2**31:
        raise Wrong(item.at, toml_reader.shown(item.value), wanted)
    hexadecimal(item, 0, ADDRESS_LIMIT, wanted, found.start(2))


def flag(item):
    if item.kind != "boolean":
        raise Wrong(item.at, described(item), "true or false")


def items_of(item, low, high, wanted):
    if item.kind != "list" or not low <= len(item.value) <= high:
        raise Wrong(item.at, described(item), wanted)
    return item.value


def moments(item):
    for it in items_of(item, 1, ENTRIES_LIMIT, f"a list of 1 to {ENTRIES_LIMIT} timestamps"):
        whole(it, 0, LAST_MOMENT, f"a timestamp in microseconds since 1970, 0 to {LAST_MOMENT}")


def byte_strings(item, most, size, what):
    for it in items_of(item, 0, most, f"a list of up to {most} {what}"):
        hexadecimal(it, 0, size, f"up to {size} bytes as hexadecimal digits")


def emission(item):
    words = text(item, EMISSION)
    if words.startswith("raw "):
        hexadecimal(item, 0, RAW_LIMIT, f"up to {RAW_LIMIT} bytes as hexadecimal digits", 4)
        return
    found = FLIP.fullmatch(words) or FRAME.fullmatch(words)
    if not found or any(len(it) > 9 for it in found.groups() or [words]):
        raise Wrong(item.at, toml_reader.shown(words), EMISSION)


def plan(item):
    for it in items_of(item, 0, ENTRIES_LIMIT, f"a list of up to {ENTRIES_LIMIT} emissions"):
        emission(it)


# ---- the keys

# How a value of each kind is checked, between its bounds if it has any. That of a key is also compared with
# others.
KINDS = {
    "etype": etype, "mode": mode, "address": address, "flag": flag, "moments": moments, "plan": plan, "whole": whole,
    "seconds": lambda it, low, high: whole(it, low, high, f"seconds, {low} to {high}"),
    "digits": lambda it, low, high: hexadecimal(it, low, high, f"{high} bytes as hexadecimal digits"),
    "texts": lambda it: byte_strings(it, TEXTS_LIMIT, TEXT_LIMIT, "texts"),
    "frames": lambda it: byte_strings(it, ENTRIES_LIMIT, RAW_LIMIT, "frames"),
}


def check_value(row, item):
    """A value of a key by its row of the table."""
    bounds = [globals().get(row[it], row[it]) for it in ("least", "most") if it in row]
    KINDS[row["kind"]](item, *bounds)


def unknown_key(entries, known, whose):
    """Refuses the first key of a table that is none of these."""
    for name, entry in sorted(entries.items(), key=lambda it: it[1].at):
        if name not in known:
            close = difflib.get_close_matches(name, known, 1)
            hint = f"{close[0]}, or another of {whose}" if close else whose
            raise Wrong(entry.at, f"the key {toml_reader.shown(name)}",
                        f"{hint}: {', '.join(known)}")


def check_key(name, sender, command, keys):
    """One key of a sender, after those before it."""
    row, entry = KEYS[name], sender.value.get(name)
    has_key = command in row.get("commands", MOST_SENDERS)
    if entry and not has_key:
        raise Wrong(entry.at, f"the key {name}", f"nothing: {command} has no such key")
    if not entry and has_key and "default" not in row:
        raise Wrong(sender.at, f"a sender without {name}", f"a sender with {name}")
    if not entry:
        return
    if row["kind"] == "key":
        keys.append(key(entry.item, KEY_SIZES[sender.value["etype"].item.value], keys))
    else:
        check_value(row, entry.item)


# ---- plans

def size_of(length):
    """The bytes of an element of DER with content of this length."""
    return 2 + length + (0 if length < 128 else (length.bit_length() + 7) // 8)


def field(length):
    """An element in the element of a field."""
    return size_of(size_of(length))


def integer_size(number):
    return (number + (number < 0)).bit_length() // 8 + 1


def address_size(pair):
    kind, _, digits = pair.partition(":")
    return size_of(field(integer_size(int(kind))) + field(len(digits) // 2))


def frame_size(sender, frame):
    """How many bytes a frame of a sender has (RFC 4120 sections 5.6.1 and 5.7.1)."""
    at = sender["at"][min(frame.place, len(sender["at"]) - 1)]
    record = 1 + sum(len(it) + (4 if len(frame.texts) > 1 else 0) for it in frame.texts)
    content = (field(record) + field(15) + field(integer_size(at % 1_000_000))
               + field(integer_size(frame.number)) + size_of(address_size(sender["from"])))
    if sender.get("write_to"):
        content += size_of(address_size(sender["to"]))
    body = size_of(content)
    if sender["mode"] == "safe":
        checksum = size_of(field(integer_size(sender["etype"] - 2)) + field(12))
        return size_of(size_of(2 * field(1) + size_of(body) + size_of(checksum)))
    cipher = field(16 + size_of(body) + 12)
    encrypted = size_of(field(integer_size(sender["etype"])) + cipher)
    return size_of(size_of(2 * field(1) + size_of(encrypted)))


def check_emission(item, sender, frames):
    """One emission, which has to name what there is."""
    kind, *numbers = item.value.split(" ")
    if kind == "raw":
        return
    place = int(numbers[0] if kind == "flip" else kind)
    if place >= len(frames):
        raise Wrong(item.at, f"frame {place}", f"a frame from 0 to {len(frames) - 1}")
    if kind != "flip":
        return
    size = frame_size(sender, frames[place])
    if int(numbers[1]) >= size:
        raise Wrong(item.at, f"byte {numbers[1]} of frame {place}", f"a byte from 0 to {size - 1}")
    if numbers[2] == "00":
        raise Wrong(item.at, "the mask 00", "a mask from 01 to ff")


def check_plan(sender):
    """The plan of a sender that passed all other checks."""
    if "plan" in sender.value:
        plain = sender.plain()
        frames = relayed.frames_of(plain)
        for item in sender.value["plan"].item.value:
            check_emission(item, plain, frames)


# ---- whole jobs

def problem(lines, words, wrong):
    return Problem(words, *lines.place(wrong.at), wrong.found, wrong.wanted)


def senders_of(table, command):
    """The tables of the senders, as many as the command takes."""
    most = MOST_SENDERS[command]
    wanted = "one [[sender]]" if most == 1 else f"1 to {most} of [[sender]]"
    entry = table.value.get("sender")
    if entry is None:
        raise Wrong(table.end, "no sender", wanted)
    if entry.item.kind != "list":
        raise Wrong(entry.at, described(entry.item), wanted)
    for item in entry.item.value:
        if item.kind != "table":
            raise Wrong(item.at, described(item), "the table of a sender")
    if not 1 <= len(entry.item.value) <= most:
        later = entry.item.value[most:]
        raise Wrong(later[0].at if later else entry.at,
                    counted(len(entry.item.value), "sender"), f"{wanted}, for {command}")
    return entry.item.value


def checks(table, command):
    """Each check in its order: what the program calls it, and a function that makes it."""
    for name in TOP:
        if name in table.value:
            yield name, lambda: check_value(TOP[name], table.value[name].item)
    yield "sender", lambda: senders_of(table, command)
    yield "unknown key", lambda: unknown_key(table.value, (*TOP, "sender"), "the top keys of a job")
    keys, senders = [], table.value["sender"].item.value
    for place, sender in enumerate(senders):
        for name in KEYS:
            yield f"sender {place}: {name}", lambda: check_key(name, sender, command, keys)
        yield (f"sender {place}: unknown key",
               lambda: unknown_key(sender.value, tuple(KEYS), "the keys of a sender"))
    for place, sender in enumerate(senders):
        yield f"sender {place}: plan", lambda: check_plan(sender)


def check(data, command):
    """The first problem of a job for a command, or None."""
    if len(data) > INPUT_LIMIT:
        return Problem("input", 1, 1, counted(len(data), "byte"), f"up to {INPUT_LIMIT:,} bytes")
    lines = toml_reader.Lines(toml_reader.shown_text(data))
    try:
        table = toml_reader.read(toml_reader.decoded(data))
    except toml_reader.Fault as fault:
        return problem(lines, "toml", fault)
    for words, made in checks(table, command):
        try:
            made()
        except Wrong as wrong:
            return problem(lines, words, wrong)
    return None


def command_of(data):
    """The command that a job is written for: `open` if it has frames, else `relay`."""
    try:
        sender = toml_reader.read(toml_reader.decoded(data)).plain().get("sender")
    except toml_reader.Fault:
        return "relay"
    tables = [it for it in sender if isinstance(it, dict)] if isinstance(sender, list) else []
    return "open" if any("frames" in it for it in tables) else "relay"
