"""The picture of both ends of a carrier: each part with its events and commands, and what lies between them.

The words are those of the tables of docs/ENGINE.md, which `differences` compares.
"""
import dataclasses
import re
from collections.abc import Iterator

from lib.picture import svg

WIDTH, EDGE, GAP = 940, 16, 16
PANEL = (WIDTH - 2 * EDGE - 3 * GAP) // 4       # the width of a part's panel
TOP, ROW = 78, 16
STORES, TALL = 296, 44                          # where the boxes below the panels begin, and their height


@dataclasses.dataclass(frozen=True)
class Part:
    """A part of an end, with the names of its events and commands as the tables have them."""
    name: str
    each: str                   # what there is one of it for
    section: str                # where its tables stand
    events: tuple[str, ...]
    commands: tuple[str, ...]


SENDER, SHARD, RECEIVER = ("A session's end at a sender", "A shard of a sender, and the queue",
                           "A session's end at a receiver, and its shard")
PARTS = (
    Part("Sending", "one for each session", SENDER,
         ("load", "sealed", "confirmed", "receipt", "listed", "reconnected", "serve"),
         ("publish", "probe", "wake", "idle")),
    Part("Queue, Flow", "one of each for each shard", SHARD,
         ("ready", "the shard has a list", "moved"), ("serve", "ask for the shard's list")),
    Part("Reading", "one for each shard", RECEIVER, ("frames",), ("commit",)),
    Part("Receiving", "one for each session", RECEIVER,
         ("load", "take", "stored", "dropped", "an opening, by judge"), ("receipt",)),
)


# ---- the tables

def first_columns(page: str, section: str) -> Iterator[str]:
    """The first column of each row of a section's tables, without the marks of code."""
    begin = page.index(f"\n## {section}\n")
    end = page.find("\n## ", begin + 1)
    for line in page[begin:end].splitlines():
        if line.startswith("| ") and not line.startswith(("| Event", "| Command")):
            yield line.split(" | ")[0][2:]


def named(cell: str) -> str | None:
    """The call that a row begins with, if it does."""
    found = re.match(r"`(\w+)`", cell)
    return found and found[1]


def differences(page: str) -> Iterator[str]:
    """What is in the picture and not in the tables, or the other way round."""
    for section in (SENDER, SHARD, RECEIVER):
        cells = list(first_columns(page, section))
        shown = [it for part in PARTS if part.section == section for it in (*part.events, *part.commands)]
        for it in shown:
            if not any(re.sub("`", "", cell).startswith(it) for cell in cells):
                yield f"'{it}' is in docs/engine.svg, and no row of '{section}' begins with it"
        for name in filter(None, map(named, cells)):
            if name not in shown:
                yield f"'{name}' is a row of '{section}', and not in docs/engine.svg"


# ---- the picture

def panel(picture: svg.Picture, place: int, part: Part) -> None:
    x = EDGE + place * (PANEL + GAP)
    picture.rect(x, TOP, PANEL, STORES - 36 - TOP, "panel", 6)
    picture.text(x + 10, TOP + 20, part.name, "head")
    picture.text(x + 10, TOP + 36, part.each, "small muted")
    half = x + 10 + (PANEL - 20) * 0.48
    for left, title, words in ((x + 10, "events", part.events), (half, "commands", part.commands)):
        picture.text(left, TOP + 58, title, "muted")
        for row, it in enumerate(line for each in words for line in lines(each)):
            picture.text(left, TOP + 74 + ROW * row, it, "small")


def lines(words: str) -> list[str]:
    """The words in lines of a column's width."""
    found = [""]
    for word in words.split():
        if found[-1] and svg.width_of(f"{found[-1]} {word}", "small") > PANEL * 0.46:
            found.append("")
        found[-1] = f"{found[-1]} {word}".strip()
    return found


def arrow(picture: svg.Picture, kind: str, begin: float, end: float, y: float, words: str) -> None:
    """An arrow along a line, with words over it."""
    back = -7 if end > begin else 7
    picture.path(kind, (begin, y), (end, y))
    picture.path("tip", (end, y), (end + back, y - 4), (end + back, y + 4), closed=True)
    picture.text((begin + end) / 2, y - 6, words, "small", "middle")


def stores(picture: svg.Picture) -> None:
    """What the caller keeps, below the parts that speak of it."""
    width = 132
    places = {"outbox": EDGE, "carrier": (WIDTH - width) / 2, "store": WIDTH - EDGE - width}
    for name, x in places.items():
        picture.rect(x, STORES, width, TALL, "again")
        picture.text(x + width / 2, STORES + TALL / 2 + 4, name, "strong", "middle")
    for one, other in (("outbox", "carrier"), ("carrier", "store")):
        arrow(picture, "wire", places[one] + width, places[other] - 2, STORES + 16, "frames")
        arrow(picture, "wire-again", places[other], places[one] + width + 2, STORES + 38, "receipts")
    for place, name in enumerate(("outbox", "carrier", "carrier", "store")):
        middle = EDGE + place * (PANEL + GAP) + PANEL / 2
        within = min(max(middle, places[name] + 10), places[name] + width - 10)
        picture.path("rule", (middle, STORES - 36), (within, STORES))


def draw() -> str:
    picture = svg.Picture(WIDTH, STORES + TALL + 58, "Both ends of a carrier: the events and commands of each part",
                          "The tables of docs/ENGINE.md say what each event does, and when each command comes.")
    picture.text(EDGE, 26, "Both ends of a carrier: the events and commands of each part", "title")
    for x, words in ((EDGE, "A sender"), (EDGE + 2 * (PANEL + GAP), "A receiver")):
        picture.text(x, 56, words, "head")
    for place, part in enumerate(PARTS):
        panel(picture, place, part)
    stores(picture)
    for row, words in enumerate(("The panels are parts of krb_engine; the caller keeps what is in dashed boxes.",
                                 "Only the sender repeats: what isn't confirmed, or what a receipt asks for. Only a"
                                 " receipt deletes.")):
        picture.text(EDGE, STORES + TALL + 28 + ROW * row, words, "muted")
    return picture.whole()
