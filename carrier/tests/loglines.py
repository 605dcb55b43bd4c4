"""The log of senders and receivers (carrier/base/log.h): what a line says, whether all lines have its form,
and whether no event comes more often than it may."""
import collections
import datetime
import re

BURST = 5               # lines of one event at once; then one a second
SLACK = 0.05            # seconds between a line's time and the clock of the limit
VALUE = r'[A-Za-z0-9._:/@%+-]+|"(?:[ !#-\[\]-~]|\\["\\]|\\x[0-9a-f]{2})*"'
FIELD = re.compile(rf" ([a-z_]+)=({VALUE})")
FORM = re.compile(r"time=(\d{4}-\d\d-\d\dT\d\d:\d\d:\d\d\.\d{3}Z)( level=(?:error|warning|info)"
                  rf" event=[a-z_]+(?: [a-z_]+=(?:{VALUE}))+)")
PACED = ("shard_progress",)     # each shard's comes once a second at most
ENDS = ("shard_ended", "lines_left_out")


def plain(value):
    """A value without its quotes and backslashes."""
    if not value.startswith('"'):
        return value
    return re.sub(r'\\(?:x([0-9a-f]{2})|(.))',
                  lambda it: chr(int(it[1], 16)) if it[1] else it[2], value[1:-1])


def read(text):
    """The lines as dictionaries, with the time in seconds. One that hasn't the form has only the key
    `malformed`."""
    lines = []
    for line in text.splitlines():
        found = FORM.fullmatch(line)
        if not found:
            lines.append({"malformed": line})
            continue
        moment = datetime.datetime.fromisoformat(found[1].replace("Z", "+00:00"))
        lines.append({key: plain(value) for key, value in FIELD.findall(found[2])}
                     | {"time": moment.timestamp()})
    return lines


def find(text, event, **fields):
    """The lines of an event that have these values."""
    return [line for line in read(text) if line.get("event") == event
            and all(line.get(key) == str(value) for key, value in fields.items())]


def has(text, event, words="", **fields):
    """Whether a line of the event has these values, and these words anywhere in its values."""
    return any(words in " ".join(map(str, line.values())) for line in find(text, event, **fields))


def is_flood(moments, burst=BURST):
    """Whether so many lines may not have come at these moments. Of one that is before the last the clock was set
    back: how much later it is isn't known."""
    may, last = burst, moments[0]
    for moment in moments:
        may = (min(burst, may + moment - last) if moment >= last else burst) - 1
        last = moment
        if may < -SLACK * len(moments) - SLACK:
            return True
    return False


def faults(text):
    """Lines that haven't the form, and events that come too often."""
    found, moments = [], collections.defaultdict(list)
    for line in read(text):
        if "malformed" in line:
            found.append(f"not a line of the log: {line['malformed'][:200]}")
        elif line["event"] not in ENDS:
            of = line["shard"] if line["event"] in PACED else ""
            moments[line["event"], of].append(line["time"])
    found += [f"{len(all_of)} lines of {event} {of}" for (event, of), all_of in moments.items()
              if is_flood(all_of, 1 if event in PACED else BURST)]
    return found
