"""What the lines of `krbrelay relay` and `krbrelay open` say, one dict a line.

docs/USE.md lists the fields.
"""
import re

LINES = [
    ("text", re.compile(r"lane (\d+) text ([0-9a-f]*)"), ("text",)),
    ("data", re.compile(r"lane (\d+) data ([0-9a-f]*)"), ("data",)),
    ("closed", re.compile(r"lane (\d+) closed"), ()),
    ("refused", re.compile(r"lane (\d+) refused (\d+) ([A-Z_]+)"), ("code", "name")),
    ("sent", re.compile(r"lane (\d+) sent (\d+) of (\d+) (DONE|LAST_NUMBER) (CLOSED|TRUNCATED)"),
     ("sealed", "texts", "ending", "state")),
    ("end", re.compile(r"lane (\d+) (CLOSED|TRUNCATED)"), ("state",)),
]
NUMBERS = ("code", "sealed", "texts")


class Fault(Exception):
    """A line that is none of these commands."""


def event(line):
    """What a line says."""
    for kind, pattern, names in LINES:
        found = pattern.fullmatch(line)
        if found:
            values = {name: int(value) if name in NUMBERS else value
                      for name, value in zip(names, found.groups()[1:])}
            return {"lane": int(found[1]), "event": kind, **values}
    raise Fault(f"no line of relay or open: {line[:80]}")
