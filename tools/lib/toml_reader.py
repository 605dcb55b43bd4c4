"""Reads TOML 1.1, and keeps where each key and each value stands.

What it refuses, and why, is a Fault with its place. It refuses what the reader of the program does:
also integers of more than 64 bits, floats that are too large, and over 80 brackets in one another.
"""
import bisect
import dataclasses
import datetime
import math
import re

DEPTH = 80                  # the most arrays and inline tables in one another, and parts of a key
NEWLINE = r"\r?\n"
COMMENT = r"#[^\x00-\x08\x0a-\x1f\x7f]*(?=\r?\n|\Z)"
WHITE = re.compile(r"[ \t]*")
BLANK = re.compile(rf"(?:[ \t]|{NEWLINE}|{COMMENT})*")
LINE_END = re.compile(rf"[ \t]*(?:{COMMENT})?(?:{NEWLINE}|\Z)")
BARE = re.compile(r"[A-Za-z0-9_-]+")
WORD = re.compile(r"[A-Za-z0-9_+.:-]+(?: [0-9][A-Za-z0-9_+.:-]*)?")
CONTROLS = r"\x00-\x08\x0a-\x1f\x7f"
PLAIN = {'"': re.compile(rf'[^"\\{CONTROLS}]+'), "'": re.compile(rf"[^'{CONTROLS}]+")}
FOLDED = re.compile(rf"[ \t]*{NEWLINE}(?:[ \t]|{NEWLINE})*")
FIRST_NEWLINE = re.compile(rf"(?:{NEWLINE})?")
ESCAPES = {"b": "\b", "e": "\x1b", "f": "\f", "n": "\n", "r": "\r", "t": "\t", '"': '"', "\\": "\\"}
HEX_ESCAPES = {"x": 2, "u": 4, "U": 8}
HEX = re.compile(r"[0-9A-Fa-f]+")
PREFIXED = [re.compile(r"0x[0-9A-Fa-f]+(?:_[0-9A-Fa-f]+)*"),
            re.compile(r"0o[0-7]+(?:_[0-7]+)*"), re.compile(r"0b[01]+(?:_[01]+)*")]
DIGITS = r"[0-9]+(?:_[0-9]+)*"
INTEGER = re.compile(r"[+-]?(?:0|[1-9](?:_?[0-9]+)*)")
FLOAT = re.compile(rf"[+-]?(?:0|[1-9](?:_?[0-9]+)*)(?:\.{DIGITS})?(?:[eE][+-]?{DIGITS})?")
SPECIAL = re.compile(r"[+-]?(?:inf|nan)")
TIME = r"(\d\d):(\d\d)(?::(\d\d)(?:\.\d+)?)?"
DAY, ZONE = r"(\d{4})-(\d\d)-(\d\d)", r"[Zz]|[+-](\d\d):(\d\d)"
DATE, CLOCK = re.compile(rf"{DAY}(?:[Tt ]{TIME}(?:{ZONE})?)?", re.A), re.compile(TIME, re.A)
VALUES = "a string, a number, true, false, a date, a list or a table"


class Fault(Exception):
    """A text that is no TOML: where, what stands there, and what may stand there."""

    def __init__(self, at, found, wanted):
        super().__init__(f"{found}, and not {wanted}")
        self.at, self.found, self.wanted = at, found, wanted


class NotRead(Exception):
    """A file that is no TOML."""


@dataclasses.dataclass
class Item:
    """A value, with its places in the text: the first one and the one after the last. Of a table
    and a list the value has items again. `first` is where the characters of a string begin, if each
    stands for itself."""
    kind: str
    value: object
    at: int
    end: int = 0
    first: int = None
    origin: str = "value"       # of a table: "implicit", "dotted" or "header" while it is open

    def plain(self):
        """The value without places."""
        if self.kind == "table":
            return {name: entry.item.plain() for name, entry in self.value.items()}
        if self.kind == "list":
            return [it.plain() for it in self.value]
        return self.value


@dataclasses.dataclass
class Entry:
    """A key of a table: where it stands, and what it has."""
    at: int
    item: Item


def shown(text):
    """A part of a text for a message."""
    return repr(text if len(text) <= 40 else text[:37] + "...")


def numbers_of(found):
    return [int(it or 0) for it in found.groups()]


def is_date(year, month, day, hour, minute, second, ahead, minutes):
    """Whether there is such a day, and such a time in such a zone."""
    try:
        datetime.date(year or 4, month, day)    # The year 0 is a leap year too.
    except ValueError:
        return False
    return is_time(hour, minute, second) and is_time(ahead, minutes)


def is_time(hour, minute, second=0):
    return hour < 24 and minute < 60 and second <= 60


class Lines:
    """The lines of a text."""

    def __init__(self, text):
        self.text = text
        self.starts = [0, *(found.end() for found in re.finditer("\n", text))]

    def place(self, at):
        """The line and the column of a place, each from 1 on."""
        line = bisect.bisect_right(self.starts, at)
        return line, at - self.starts[line - 1] + 1

    def line(self, at):
        """The whole line of a place."""
        start = self.starts[self.place(at)[0] - 1]
        end = self.text.find("\n", start)
        return self.text[start:len(self.text) if end < 0 else end].rstrip("\r")


def decoded(data):
    """The text of bytes that are UTF-8, without a byte order mark."""
    try:
        return data.decode("utf-8").removeprefix("\ufeff")
    except UnicodeDecodeError as fault:
        before = data[:fault.start].decode("utf-8")
        raise Fault(len(before), f"the byte {data[fault.start]:#04x}", "a byte of UTF-8") from None


def read(text):
    """The table of a document."""
    return Reader(text).document()


def shown_text(data):
    """The text of bytes, in which a place is that of `decoded`."""
    return data.decode("utf-8", "replace").removeprefix("\ufeff")


def load(path):
    """The document of a file, as a dict."""
    with open(path, "rb") as file:
        data = file.read()
    try:
        return read(decoded(data)).plain()
    except Fault as fault:
        line, column = Lines(shown_text(data)).place(fault.at)
        raise NotRead(f"{path}:{line}:{column}: {fault}") from None


class Reader:
    """A text, and how far it is read."""

    def __init__(self, text):
        self.text, self.at = text, 0

    # ---- tokens

    def take(self, pattern):
        found = pattern.match(self.text, self.at)
        self.at = found.end() if found else self.at
        return found

    def next(self):
        return self.text[self.at:self.at + 1]

    def has(self, word):
        if not self.text.startswith(word, self.at):
            return False
        self.at += len(word)
        return True

    def here(self):
        """What stands here, in words."""
        word = self.text[self.at:self.at + 20].splitlines()[:1]
        if self.at >= len(self.text):
            return "the document ends"
        return shown(word[0]) if word and word[0] else "the line ends"

    def stop(self, wanted, at=None):
        if at is not None:
            self.at = at
        raise Fault(self.at, self.here(), wanted)

    def want(self, word, wanted):
        if not self.has(word):
            self.stop(wanted)

    # ---- strings

    def string(self, many):
        """A string at its delimiter, and where its characters begin if each stands for itself."""
        delimiter = self.next()
        is_many = many and self.text.startswith(3 * delimiter, self.at)
        self.at += 3 if is_many else 1
        if is_many:
            self.take(FIRST_NEWLINE)
        first, parts = self.at, []
        while not self.at_end(delimiter, is_many, parts):
            parts.append(self.piece(delimiter, is_many))
        value = "".join(parts)
        return value, first if self.text.startswith(value, first) else None

    def at_end(self, delimiter, is_many, parts):
        """Whether the string ends here. Delimiters of a string of several lines that don't end it
        are a part of it."""
        if not is_many:
            return self.has(delimiter)
        count = len(re.compile(f"{delimiter}*").match(self.text, self.at)[0])
        if count > 5:
            self.stop(f"at most five {delimiter}")
        if count < 3:
            return False
        parts.append(delimiter * (count - 3))
        self.at += count
        return True

    def piece(self, delimiter, is_many):
        """Some characters of a string."""
        plain = self.take(PLAIN[delimiter])
        if plain:
            return plain[0]
        if self.next() == "\\":
            return self.escape(is_many)
        newline = self.take(re.compile(NEWLINE)) if is_many else None
        if newline:
            return newline[0]
        if is_many and self.has(delimiter):
            return delimiter
        return self.stop(f"{3 * delimiter if is_many else delimiter}, the end of the string")

    def escape(self, is_many):
        start = self.at
        self.at += 1
        if is_many and self.take(FOLDED):
            return ""
        letter = self.next()
        self.at += 1
        if letter in HEX_ESCAPES:
            return self.hex_escape(start, HEX_ESCAPES[letter])
        if letter and letter in ESCAPES:
            return ESCAPES[letter]
        return self.stop(r'an escape: \b, \e, \f, \n, \r, \t, \", \\, \xHH, \uHHHH or'
                         r' \UHHHHHHHH', start)

    def hex_escape(self, start, size):
        digits = self.text[self.at:self.at + size]
        if len(digits) < size or not HEX.fullmatch(digits):
            self.stop(f"an escape with {size} hexadecimal digits", start)
        number = int(digits, 16)
        if number > 0x10FFFF or 0xD800 <= number < 0xE000:
            self.stop("an escape with the number of a character", start)
        self.at += size
        return chr(number)

    # ---- keys

    def simple_key(self):
        start = self.at
        bare = self.take(BARE)
        if bare:
            return bare[0], start
        if self.next() in ("'", '"'):
            return self.string(False)[0], start
        return self.stop("a key: letters, digits, _ and -, or a string")

    def key(self):
        """The parts of a key, each with its place."""
        parts = [self.simple_key()]
        self.take(WHITE)
        while self.has("."):
            if len(parts) == DEPTH:
                self.stop(f"a key of at most {DEPTH} parts")
            self.take(WHITE)
            parts.append(self.simple_key())
            self.take(WHITE)
        return parts

    # ---- values

    def value(self, depth=DEPTH):
        start = self.at
        if self.next() in ("'", '"') and self.next():
            value, first = self.string(True)
            return Item("string", value, start, self.at, first)
        if self.next() in ("[", "{") and self.next():
            if depth == 0:
                self.stop(f"lists and tables at most {DEPTH} deep")
            return self.list(depth) if self.has("[") else self.inline_table(depth)
        word = self.take(WORD)
        if not word:
            self.stop(VALUES)
        kind, value = self.scalar(word[0], start)
        return Item(kind, value, start, self.at)

    def scalar(self, word, start):
        if word in ("true", "false"):
            return "boolean", word == "true"
        if re.match(r"[0-9]+[-:]", word):
            return "date", self.date(word, start)
        if any(it.fullmatch(word) for it in PREFIXED):
            return "integer", self.sized(int(word.replace("_", ""), 0), start)
        if INTEGER.fullmatch(word):
            return "integer", self.sized(int(word.replace("_", "")), start)
        if FLOAT.fullmatch(word) or SPECIAL.fullmatch(word):
            number = float(word.replace("_", ""))
            if math.isinf(number) and not SPECIAL.fullmatch(word):
                self.stop("a number of at most 1.8e308", start)
            return "float", number
        return self.stop(VALUES, start)

    def sized(self, number, start):
        if not -2**63 <= number < 2**63:
            self.stop("a whole number of at most 64 bits", start)
        return number

    def date(self, word, start):
        """A date, a time or both: its text, if there is such a day and such a time."""
        date, clock = DATE.fullmatch(word), CLOCK.fullmatch(word)
        if not (date and is_date(*numbers_of(date)) or clock and is_time(*numbers_of(clock))):
            self.stop("a date, as 1979-05-27T07:32:00Z", start)
        return word

    def list(self, depth):
        """After its first bracket."""
        start, found = self.at - 1, []
        self.take(BLANK)
        while not self.has("]"):
            found.append(self.value(depth - 1))
            self.after_element("]")
        return Item("list", found, start, self.at)

    def after_element(self, closing):
        self.take(BLANK)
        if not self.has(",") and self.next() != closing:
            self.stop(f", or {closing}")
        self.take(BLANK)

    def inline_table(self, depth):
        start, found = self.at, {}
        self.at += 1
        self.take(BLANK)
        while not self.has("}"):
            self.pair(found, depth - 1)
            self.after_element("}")
        return Item("table", found, start, self.at)

    def pair(self, table, depth=DEPTH):
        """A key with its value, put into a table."""
        parts = self.key()
        self.want("=", "=, after a key")
        self.take(WHITE)
        item = self.value(depth)
        for name, at in parts[:-1]:
            table = self.along_dot(table, name, at)
        name, at = parts[-1]
        if name in table:
            self.again(name, at)
        table[name] = Entry(at, item)

    # ---- the rules for tables

    def again(self, name, at):
        raise Fault(at, f"the key {shown(name)} once more", "a key that the table doesn't have yet")

    def along_dot(self, table, name, at):
        entry = table.get(name)
        if entry is None:
            table[name] = entry = Entry(at, Item("table", {}, at, origin="dotted"))
        elif entry.item.kind != "table" or entry.item.origin not in ("implicit", "dotted"):
            self.again(name, at)
        entry.item.origin = "dotted"
        return entry.item.value

    def along_header(self, table, name, at):
        entry = table.get(name)
        if entry is None:
            table[name] = entry = Entry(at, Item("table", {}, at, origin="implicit"))
        if entry.item.origin == "value":
            self.again(name, at)
        if entry.item.kind == "list":
            return entry.item.value[-1].value
        return entry.item.value

    def header(self, root):
        """After its first bracket: the table that it names."""
        is_list = self.has("[")
        self.take(WHITE)
        parts, closing = self.key(), "]]" if is_list else "]"
        self.want(closing, f"{closing}, after the name of a table")
        table = root
        for name, at in parts[:-1]:
            table = self.along_header(table, name, at)
        return (self.open_list if is_list else self.open_table)(table, *parts[-1])

    def open_table(self, table, name, at):
        entry = table.setdefault(name, Entry(at, Item("table", {}, at, origin="implicit")))
        if entry.item.kind != "table" or entry.item.origin != "implicit":
            self.again(name, at)
        entry.item.origin = "header"
        return entry.item.value

    def open_list(self, table, name, at):
        entry = table.setdefault(name, Entry(at, Item("list", [], at, origin="header")))
        if entry.item.kind != "list" or entry.item.origin == "value":
            self.again(name, at)
        entry.item.value.append(Item("table", {}, at, origin="header"))
        return entry.item.value[-1].value

    def document(self):
        root = table = {}
        self.take(BLANK)
        while self.at < len(self.text):
            if self.has("["):
                table = self.header(root)
            else:
                self.pair(table)
            if not self.take(LINE_END):
                self.take(WHITE)
                self.stop("the end of the line")
            self.take(BLANK)
        return Item("table", root, 0, self.at)
