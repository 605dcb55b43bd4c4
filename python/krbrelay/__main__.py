"""Shows messages, and says why one is refused: `python3 -m krbrelay show`, and `why`."""
from __future__ import annotations

import argparse
import datetime
import json
import sys
from typing import Iterator, List, Optional

from krbrelay import Address, LibraryError, Mode, __version__, library_version, spelt, why
from krbrelay.captures import NoCapture
from krbrelay.shown import Key, key_in, lines_of
from krbrelay.values import Moment

ABOUT = """Prints messages as `krbrelay show` does: their fields, and under a key what is inside, or
why it isn't opened. Neither the time nor the number is checked. The key is that of the session: the
subkey that the two ends agreed on, or else the session key of the ticket. The exit status is 0, or
2 where a message is refused or the arguments are wrong."""

ABOUT_WHY = f"""Makes the checks of a message in a receiver's order, and prints the first that
fails, what was wanted and what was found. A FILE has messages as {spelt.FORMS}; in a capture, and
among other bytes, messages are searched for. What isn't given isn't demanded. The checks are those
of the library's opener, which is proved. This tool, which finds the messages and words the answers,
is tested, not proved. The exit status is 0 if all were accepted, 1 if a message was refused or none
was found, and 2 if an argument is wrong or a file can't be read."""
TOLD = ("messages: {}, refused: {}. They were opened by libkrbrelay's proved opener; this tool "
        "beside it is tested")

NO_KEY = "the file holds neither 16 nor 32 bytes, as they are or as hexadecimal digits"
OTHER_TYPE = ("the file holds a key of another encryption type than --etype (17 has 16 bytes, "
              "18 has 32)")


class KeyFault(Exception):
    """Why there is no key."""


def read(path: str) -> bytes:
    """The bytes of a file, or of standard input for -."""
    if path == "-":
        return sys.stdin.buffer.read()
    with open(path, "rb") as file:
        return file.read()


def address(text: str) -> Address:
    """An address of IP, or a type and bytes as `show` prints them."""
    kind, colon, data = text.partition(":")
    try:
        return Address.ip(text)
    except ValueError:
        if not colon:
            raise
        return Address(int(kind), bytes.fromhex(data))


def moment(text: str) -> Moment:
    """Seconds since 1970, YYYYMMDDHHMMSSZ, or a time of ISO 8601, in UTC where it names no zone."""
    try:
        return float(text)
    except ValueError:
        found = (datetime.datetime.strptime(text, "%Y%m%d%H%M%SZ") if len(text) == 15 else
                 datetime.datetime.fromisoformat(text.replace("Z", "+00:00")))
        return found if found.tzinfo else found.replace(tzinfo=datetime.timezone.utc)


def whole(text: str) -> int:
    """A number of 32 bits."""
    found = int(text)
    if not 0 <= found < 2**32:
        raise ValueError
    return found


def versions() -> str:
    try:
        library = ".".join(map(str, library_version()))
    except LibraryError:
        return f"krbrelay {__version__}, and no libkrbrelay"
    return f"krbrelay {__version__}, libkrbrelay {library}"


def key_of(path: Optional[str], stated: Optional[int]) -> Optional[Key]:
    """The key of the file that is named, if one is. KeyFault."""
    if path is None:
        if stated is not None:
            raise KeyFault("--etype is given without --key")
        return None
    try:
        key = key_in(read(path))
    except OSError as fault:
        raise KeyFault("the file can't be read") from fault
    if key is None:
        raise KeyFault(NO_KEY)
    if stated not in (None, key.etype):
        raise KeyFault(OTHER_TYPE)
    return key


def add_why(commands: "argparse._SubParsersAction[argparse.ArgumentParser]") -> None:
    made = commands.add_parser("why", help="says why a message is refused", description=ABOUT_WHY)
    made.add_argument("files", metavar="FILE", nargs="*", default=["-"],
                      help="where messages are; by default, and for -, standard input")
    made.add_argument("--key", metavar="FILE", action="append", default=[],
                      help="a file with the session key, 16 bytes or 32, as they are or in digits; "
                           "more than once: any of them")
    made.add_argument("--mode", type=str.upper, choices=[it.name for it in Mode],
                      help="the kind that is expected, SAFE or PRIV; by default the message's")
    for name, what in (("from", "the sender's address"), ("to", "the receiver's address")):
        made.add_argument(f"--{name}", metavar="ADDRESS", type=address, dest=f"{name}_",
                          help=f"{what}, as 10.0.0.1, 2001:db8::1 or TYPE:DIGITS")
    made.add_argument("--number", metavar="N", type=whole,
                      help="the sequence number; an absent one is 0")
    made.add_argument("--at", metavar="TIME", type=moment,
                      help="when it was received: seconds since 1970, or as 2026-11-30T10:00:00Z; "
                           "by default when it was captured, or now")
    made.add_argument("--skew", metavar="SECONDS", type=whole,
                      help="how far its time may be off; 300 where only --at is given")
    made.add_argument("--find", action="store_true",
                      help="searches for messages also where the bytes begin with one's tag")
    made.add_argument("--json", action="store_true", help="prints an object of JSON a message")
    made.set_defaults(run=say_why)


def named_key(path: str) -> Key:
    """The key of a file, which a fault names. KeyFault, OSError."""
    key = key_in(read(path))
    if key is None:
        raise KeyFault(f"{path}: {NO_KEY}")
    return key


def asked_of(given: argparse.Namespace) -> why.Asked:
    """What is demanded. KeyFault, OSError."""
    keys = tuple(map(named_key, given.key))
    mode = None if given.mode is None else Mode[given.mode]
    return why.Asked(keys, mode, given.from_, given.to_, given.number, given.at, given.skew)


def places(given: argparse.Namespace) -> Iterator[why.Place]:
    """The messages of all files. OSError, NoCapture."""
    for file in given.files:
        name = "standard input" if file == "-" else file
        found = why.places_of(read(file), name, given.find)
        if found is None:
            raise NoCapture(f"{name}: it is none of {spelt.FORMS}")
        yield from found


def say_why(given: argparse.Namespace) -> int:
    asked, count, accepted = asked_of(given), 0, 0
    for place in places(given):
        asked_here = asked if asked.at or not place.packet else asked._replace(
            at=place.packet.micros if asked.skew is not None else None)
        found = why.judged(place.frame, asked_here)
        count, accepted = count + 1, accepted + (found.refused is None)
        print(json.dumps(why.object_of(place, found)) if given.json else
              "\n".join(why.lines_of(place, found)))
    if not given.json:
        print(TOLD.format(count, count - accepted))
    return 0 if count and accepted == count else 1


def parser() -> argparse.ArgumentParser:
    made = argparse.ArgumentParser("python3 -m krbrelay", description=__doc__)
    made.add_argument("--version", action="version", version=versions())
    commands = made.add_subparsers(metavar="COMMAND", required=True)
    show = commands.add_parser("show", help="prints messages", description=ABOUT)
    show.add_argument("message", metavar="MESSAGE", nargs="?", default="-",
                      help="a message in hexadecimal digits; by default, and for -, standard "
                           "input, with a message on each line")
    show.add_argument("--any", action="store_true",
                      help="reads digits with separators between them, and one message over "
                           "several lines")
    show.add_argument("--key", metavar="FILE",
                      help="a file with the key, 16 bytes or 32, in hexadecimal digits or as they "
                           "are; - for standard input")
    show.add_argument("--etype", metavar="N", type=int, choices=(17, 18),
                      help="the key's encryption type; by default that of its size")
    show.set_defaults(run=show_all)
    add_why(commands)
    return made


def show_all(given: argparse.Namespace) -> int:
    key, status = key_of(given.key, given.etype), 0
    text = read("-") if given.message == "-" else given.message.encode()
    for line in lines_of(text, key, given.any):
        print(line.text)
        status = status if line.is_accepted else 2
    return status


def main(words: Optional[List[str]] = None) -> int:
    given = parser().parse_args(words)
    try:
        return int(given.run(given))
    except LibraryError:
        raise
    except KeyFault as fault:
        told = f"key: {fault}"
    except (OSError, ValueError, NoCapture) as fault:
        told = str(fault)
    print(f"krbrelay: bad input: {told}", file=sys.stderr)
    return 2


if __name__ == "__main__":
    try:
        sys.exit(main())
    except LibraryError as fault:
        sys.exit(f"krbrelay: {fault}")
