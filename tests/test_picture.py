"""Tests what the pictures are made of: how the lines of a log are given to the frames of its job, and
that nothing in a picture overlaps. The logs are written out here, so no program runs."""
import json
import os
import re
import xml.etree.ElementTree as tree

import pytest

from lib import scripts, toml_reader
from lib.build import building
from lib.picture import engine, relayed, svg

SVG = "{http://www.w3.org/2000/svg}"
BOXES = {"box", "again", "raw", "good", "bad"}
LOG = """lane 0 text 6869
lane 1 text 736563726574
lane 2 text 6c617374
lane 0 refused 42 BADORDER
lane 1 closed
lane 0 refused 41 MODIFIED
lane 0 text 616761696e
lane 0 closed
lane 0 sent 2 of 2 DONE CLOSED
lane 1 sent 1 of 2 LAST_NUMBER CLOSED
lane 2 sent 1 of 1 DONE TRUNCATED
"""


# ---- the log

def example():
    return toml_reader.load(os.path.join(building.TOP, "examples", "relay.toml"))


def test_the_example():
    first, second, third = relayed.follow(example(), LOG)
    assert ([(it.kind, it.frame.place, it.was_sent, it.was_shown) for it in first.emissions] ==
            [("frame", 0, False, False), ("frame", 0, True, True), ("flip", 1, False, False),
             ("frame", 1, False, True), ("frame", 2, False, False)]), "what the wire carries"
    assert ([it.texts for it in first.emissions] == [(b"hi",), (), (), (b"again",), ()]
            and [it.refusal for it in first.emissions] == [None, (42, "BADORDER"), (41, "MODIFIED"), None, None]
            and [it.closed for it in first.emissions] == [False] * 4 + [True]), "its outcome"
    assert ([it.number for it in second.frames] == [4294967294, 4294967295] and second.frames[1].is_close()
            and second.ending == "LAST_NUMBER" and second.sealed == 1), "numbers"
    assert [it.place for it in third.unsent()] == [1] and not first.unsent() and third.state == "TRUNCATED", \
        "what isn't sent"


LINES = LOG.splitlines(keepends=True)
OTHER_LOGS = {"a line less": LINES[1:], "two turned": [LINES[1], LINES[0], *LINES[2:]],
              "another text": [LINES[0].replace("6869", "6868"), *LINES[1:]],
              "a line more": [LINES[0], *LINES], "no line": [],
              "a text for the close": [*LINES[:7], "lane 0 text 63\n", *LINES[8:]],
              "the close for a text": ["lane 0 closed\n", *LINES[1:]],
              "another lane": [LINES[0].replace("lane 0", "lane 3"), *LINES[1:]],
              "other last lines": [*LINES[:8], LINES[9], LINES[8], LINES[10]],
              "no log": ["hello\n", *LINES[1:]]}


@pytest.mark.parametrize("name", OTHER_LOGS)
def test_lines_that_are_not_those_of_the_job(name):
    with pytest.raises(relayed.Fault):
        relayed.follow(example(), "".join(OTHER_LOGS[name]))


def test_batches():
    texts = [b"a", b"b", b"c", b"d"]
    job = {"sender": [dict(first=5, texts=[it.hex() for it in texts], batch=3,
                           plan=["1", "0", "raw 00", "flip 1 0 01", "1", "2"])]}
    log = ("lane 0 refused 42 BADORDER\nlane 0 text 61\nlane 0 text 62\nlane 0 text 63\n"
           "lane 0 refused 901 MALFORMED\nlane 0 refused 901 MALFORMED\nlane 0 text 64\n"
           "lane 0 closed\nlane 0 sent 4 of 4 DONE CLOSED\n")
    lane, = relayed.follow(job, log)
    assert ([it.texts for it in lane.emissions] == [(), (b"a", b"b", b"c"), (), (), (b"d",), ()]
            and lane.emissions[2].raw == b"\0"), "texts of a batch"
    assert ([len(it) for it in relayed.groups(texts, 3)] == [3, 1]
            and len(relayed.groups([bytes(499_996), bytes(499_996)], 2)) == 1
            and len(relayed.groups([bytes(499_997), bytes(499_996)], 2)) == 2
            and relayed.groups([bytes(1_000_000)], 2) == [[bytes(1_000_000)]]), "how texts go together"
    # A changed or a raw frame that passes every check carries the record of its number.
    altered = {"sender": [dict(first=0, texts=["61", "62"], plan=["flip 0 0 01", "raw 00"])]}
    log = "lane 0 text 61\nlane 0 text 62\nlane 0 sent 2 of 2 DONE TRUNCATED\n"
    lane, = relayed.follow(altered, log)
    assert [it.texts for it in lane.emissions] == [(b"a",), (b"b",)], "an altered frame"


# ---- what is drawn

def boxes_of(root):
    for it in root.iter(SVG + "rect"):
        if it.get("class") in BOXES:
            x, y, width, height = (float(it.get(name)) for name in ("x", "y", "width", "height"))
            yield x, y, x + width, y + height


def words_of(root):
    """The room that each piece of words takes."""
    for it in root.iter(SVG + "text"):
        x, y, kind = float(it.get("x")), float(it.get("y")), it.get("class", "")
        width = svg.width_of(it.text, kind)
        x -= {"end": width, "middle": width / 2}.get(it.get("text-anchor"), 0)
        size = width / len(it.text) / svg.WIDTH
        yield x, y - 0.8 * size, x + width, y + 0.2 * size


def meet(a, b):
    return a[0] < b[2] and b[0] < a[2] and a[1] < b[3] and b[1] < a[3]


def holds(outer, inner):
    return (outer[0] <= inner[0] and outer[1] <= inner[1]
            and inner[2] <= outer[2] and inner[3] <= outer[3])


def is_tidy(text):
    """Whether no two boxes or words of a picture overlap, and no words cross the edge of a box."""
    root = tree.fromstring(text)
    page = 0, 0, float(root.get("width")), float(root.get("height"))
    boxes, words = list(boxes_of(root)), list(words_of(root))
    apart = all(not meet(a, b) for group in (boxes, words)
                for place, a in enumerate(group) for b in group[:place])
    inside = all(holds(page, it) for it in boxes + words)
    return apart and inside and all(holds(box, it) or not meet(box, it)
                                    for box in boxes for it in words)


def kinds_are_known(text):
    kinds = {kind for words in re.findall(r'class="([^"]*)"', text) for kind in words.split()}
    return kinds <= {it[1:] for it in (*svg.FILLED, *svg.SHAPES)}


@pytest.fixture(scope="module")
def picture():
    return scripts.load("picture")


@pytest.fixture(scope="module")
def text(picture):
    """The picture of the example."""
    job = example()
    return picture.draw(picture.Job("relay.toml", job, relayed.follow(job, LOG)))


def test_the_picture_of_the_documents(text):
    """`tools/picture examples/relay.toml > docs/relay.svg` makes it, where the program prints what docs/USE.md says."""
    assert building.text_of("docs/relay.svg") == text
    assert all(line in building.text_of("docs/USE.md") for line in LOG.splitlines())


def test_drawn(text):
    assert is_tidy(text) and kinds_are_known(text), "the example is tidy"
    words = [it.text for it in tree.fromstring(text).iter(SVG + "text")]
    assert (all(it in words for it in (
        "refused 42", "BADORDER", "refused 41", "MODIFIED", "again", "byte 98", "mask 01",
        "not sent: dropped", "#4294967295", "the close", '"secret"', "TRUNCATED")) and words.count("delivered") == 4
            and words.count("closed") == 2 and words.count("CLOSED") == 2), "it says all"
    assert "raw" not in words, "nothing that isn't in it"


@pytest.mark.parametrize("count", [1, 2, 8])
def test_the_longest_words_over_lanes(picture, count):
    address = "-2147483648:" + "00" * 32
    names = ["FIELD_TOOLONG", "BAD_INTEGRITY", "ETYPE_NOSUPP"]
    sender = {"mode": "priv", "etype": 18, "first": 4294967000, "from": address, "batch": 1000,
              "texts": ["3c3e26" * 300, "ff" * 300] * 500,
              "plan": ["0", "0", "raw " + "ab" * 3000, "flip 0 1004999 ff"]}
    log = [f"lane {lane} text {text}\n" for lane in range(count) for text in sender["texts"]]
    log += [f"lane {lane} refused 903 {name}\n" for name in names for lane in range(count)]
    log += [f"lane {lane} sent 1000 of 1000 LAST_NUMBER TRUNCATED\n" for lane in range(count)]
    job = {"capacity": 64, "sender": [sender] * count}
    text = picture.draw(picture.Job("long" * 40, job, relayed.follow(job, "".join(log))))
    assert is_tidy(text) and kinds_are_known(text)


def test_an_empty_wire(picture):
    none = {"sender": [dict(mode="safe", etype=17, first=0, texts=[], plan=[], **{"from": "2:"})]}
    lanes = relayed.follow(none, "lane 0 sent 0 of 0 DONE TRUNCATED\n")
    assert is_tidy(picture.draw(picture.Job("none", none, lanes)))


def test_overlaps_are_seen(picture, text):
    row = picture.Job.row(1)
    assert not is_tidy(text.replace(f'y="{row}"', f'y="{row - 20}"')), "a box over a box"
    assert not is_tidy(text.replace("BADORDER", "BADORDER" * 3)), "words over an edge"
    assert not is_tidy(text.replace(">again<", ">again again again<")), "words over words"
    assert not kinds_are_known(text.replace('"good"', '"other"')), "a kind without a style"


def test_figure():
    maker = scripts.load("figure")
    numbers = json.loads(building.text_of(maker.NUMBERS))
    text = maker.draw(numbers)
    assert is_tidy(text) and kinds_are_known(text), "the figure is tidy"
    other = json.loads(json.dumps(numbers).replace("1416430", "141643"))
    assert maker.draw(other) != text, "it draws the numbers"
    rows = zip(*(maker.table_rows(it["messages"]) for it in (numbers, other)))
    assert [a == b for a, b in rows] == [True, False] + [True] * 3, "the table's rows have them"


def test_ends_of_a_carrier():
    text, page = engine.draw(), building.text_of(scripts.load("figure").ENGINE)
    assert is_tidy(text) and kinds_are_known(text), "the picture of both ends is tidy"
    assert list(engine.differences(page)) == []
    other = page.replace("| `reconnected` |", "| `connected` |")
    assert other != page and list(engine.differences(other)) == [
        "'reconnected' is in docs/engine.svg, and no row of 'A session's end at a sender' begins with it",
        "'connected' is a row of 'A session's end at a sender', and not in docs/engine.svg"]
