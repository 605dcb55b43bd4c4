"""Runs of the program and the lines that they print: the rows of runs.toml."""
import os
import re

from lib import toml_reader

ROWS = os.path.join(os.path.dirname(os.path.abspath(__file__)), "runs.toml")
PLACES = (1, 64)            # of the lanes
MODES = ("'safe'", "'priv'")
TRAFFIC = ("seed", "at", "texts", "batch")      # what a job of `open` doesn't have


def rows():
    return toml_reader.load(ROWS)


def sender(keys):
    return "[[sender]]\n" + "".join(f"{key} = {value}\n" for key, value in keys.items() if value)


def kind_of(other):
    """The words for the changes of a kind."""
    return "".join(f"{other[it]}, " for it in ("etype", "mode") if it in other)


def flips(data):
    """The digits of the bytes with each of their bits flipped."""
    for at in range(8 * len(data)):
        place, bit = divmod(at, 8)
        yield (data[:place] + bytes([data[place] ^ 1 << bit]) + data[place + 1:]).hex()


def prefixes(data):
    """The digits of the bytes' proper prefixes."""
    return [data[:size].hex() for size in range(len(data))]


def inside(tag, content):
    """An element of less than 128 bytes."""
    return bytes([tag, len(content)]) + content


def forms(row, lines):
    """Both forms of a run of `show`: the words that ask for the form, the status and the lines."""
    status = row.get("status", 0)
    yield [], status, row[lines]
    if f"any_{lines}" in row:
        yield ["--any"], row.get("any_status", 0), row[f"any_{lines}"]
    else:
        yield ["--any"], status, row[lines]


class Runs:
    """Whole runs by their lines and their status."""

    def __init__(self):
        self.found, self.table = [], rows()

    def cases(self, *parts):
        """The runs whose lines are known: a command, its input, its status and what it writes."""
        for part in parts:
            part()
        return self.found

    def add(self, name, words, data, status, out, err=b""):
        self.found.append((name, words, data, status, out, err))

    def filled(self, text):
        """A text with each frame that it names."""
        return re.sub(r"\{(\w+)\}", lambda found: self.table["frames"][found[1]], text)

    def job(self, command, changes, other):
        """A job whose senders have these changes and the others."""
        left = dict.fromkeys(TRAFFIC, "") if command == "open" else {}
        return self.filled("".join(sender({**self.table["sender"], **left, **other, **it})
                                   for it in changes or [{}]))

    def others(self, row):
        """The changes of each encryption type and mode that a run is made under."""
        types = [{}, self.table["wide"]]
        if row.get("kinds"):
            return [{**it, "mode": mode} for it in types for mode in MODES]
        return types if row.get("types") else [self.table["wide"] if row.get("wide") else {}]

    def whole(self, command, row, option=()):
        """The run of a row, with few places in a lane and with many."""
        text = "".join(f"{self.filled(line)}\n" for line in row["lines"]).encode()
        for other in self.others(row):
            job = self.job(command, row.get("changes"), other)
            for places in PLACES:
                self.add(f"{command} of {row['name']}, {kind_of(other)}{places} places", [command, *option],
                         f"capacity = {places}\n{job}".encode(), row.get("status", 0), text)

    def refused(self, frame, changes, refusal):
        """The one frame of the wire is refused so."""
        plan = {"plan": f"['raw {frame}']"}
        self.whole("relay", {"name": f"a frame that is {refusal}", "changes": [changes | plan],
                             "status": 3, "lines": [f"lane 0 refused {refusal}",
                                                    "lane 0 sent 1 of 1 DONE TRUNCATED"]})

    def jobs(self):
        for command in ("seal", "open", "relay"):
            for row in self.table[command]:
                self.whole(command, row)
        for row in self.table["plain"]:
            self.whole("open", row, ["--plain"])
        for row in self.table["refused"]:
            self.refused(row["frame"], row.get("changes", {}), row["refusal"])

    def zeros(self):
        for row in self.table["zeros"]:
            self.refused("00" * row["size"], {}, row["refusal"])

    def bad_plans(self):
        """A plan that names what its frames don't have, of one sender, and of the second of two."""
        other = {"key": "'0f0e0d0c0b0a09080706050403020100'"}
        for row in self.table["bad_plans"]:
            for command in row["commands"]:
                for plan in row["plans"]:
                    self.bad_plan(command, [{"plan": plan}])
                    if command == "relay":
                        self.bad_plan(command, [{"texts": "['61', '62']"}, other | {"plan": plan}])

    def bad_plan(self, command, changes):
        self.add(f"{command} with {changes[-1]['plan']}", [command],
                 self.job(command, changes, {}).encode(), 2, b"",
                 f"krbrelay: bad input: sender {len(changes) - 1}: plan\n".encode())

    def shown(self):
        for row in self.table["show"]:
            for form, status, lines in forms(row, "lines"):
                self.add(" ".join(["show", *form, "of", row["name"]]), ["show", *form],
                         self.filled(row["input"]).encode(), status,
                         "".join(f"{line}\n" for line in lines).encode())

    def under_keys(self):
        """Runs of `show` under the key of a file: the name, the bytes of the file, the words that
        name the form, the other words after it, the input, the status, and what is printed after
        the fields of each message."""
        for row in self.table["show_key"]:
            key = bytes.fromhex(row["key_bytes"]) if "key_bytes" in row else row["key"].encode()
            words = ["--etype", row["etype"]] if "etype" in row else []
            for form, status, after in forms(row, "after"):
                yield (" ".join([row["name"], *form]), key, form, words,
                       self.filled(row["input"]).encode(), status, after)

    def no_keys(self):
        """Files that hold no key: the name, their bytes, the words after them, and what is told."""
        for row in self.table["no_key"]:
            for key in [*(it.encode() for it in row["keys"]), *map(bytes, row["bytes"])]:
                yield f"{row['name']}: {len(key)} bytes", key, row["words"], row["told"]

    def shown_zeros(self):
        for row in self.table["shown_zeros"]:
            self.add(f"show of {row['digits']} zeros", ["show"], b"0" * row["digits"], 2,
                     f"{row['line']}\n".encode())

    def sealed(self):
        """Texts that `seal` seals, and the changes of a job."""
        for row in self.table["back"]:
            for other in self.others(row):
                yield ["61", "", "ff00ff", "61"], {**row["changes"], **other}
        yield ["00"] * 1000, {"mode": "'priv'"}
        for mode in MODES:
            yield ["77" * 1_000_000], {"mode": mode}

    # ---- each bit and each prefix

    def single(self, row, frames):
        """The job by which `open` gets these frames, under the changes of a row."""
        other = {**(self.table["wide"] if row.get("wide") else {}), **row.get("changes", {})}
        return self.job("open", [{"frames": f"{list(frames)}"}], other).encode()

    def opened(self):
        """Each frame alone has its outcome, and the same refusal where the record is taken as it is."""
        for row in self.table["opened"]:
            plain = row["outcome"].replace("text 6869", "data 446869")
            for frame in row["frames"]:
                name, job = f"of {frame:.30}, {row.get('changes', '')}", self.single(row, [self.filled(frame)])
                self.add(f"open {name}", ["open"], job, 3, f"lane 0 {row['outcome']}\nlane 0 TRUNCATED\n".encode())
                self.add(f"open --plain {name}", ["open", "--plain"], job, 0 if plain[0] == "d" else 2,
                         f"lane 0 {plain}\n".encode())

    def cut(self):
        """Each prefix of a frame, and lengths that lie."""
        for row in self.table["flipped"]:
            frame = bytes.fromhex(self.filled(row["frame"]))
            cut = [*prefixes(frame), *self.table["lies"]["frames"], *self.cut_ciphers(frame)]
            lies = len(frame) + len(self.table["lies"]["frames"])
            lines = ["refused 901 MALFORMED"] * lies
            lines += ["refused 31 BAD_INTEGRITY"] * (len(cut) - lies)
            lines += ["text 6869", "TRUNCATED"]
            self.add(f"open of each prefix of {row['frame']}", ["open"],
                     self.single(row, [*cut, frame.hex()]), 3,
                     "".join(f"lane 0 {it}\n" for it in lines).encode())

    @staticmethod
    def cut_ciphers(frame):
        """A KRB-PRIV with each number of bytes of its cipher that is less than its own, and all
        lengths around it right."""
        if frame[0] != 0x75:
            return
        cipher = frame[27:]
        for size in range(len(cipher)):
            data = b"\xa0\x03\x02\x01\x11" + inside(0xa2, inside(4, cipher[:size]))
            fields = frame[4:14] + inside(0xa3, inside(0x30, data))
            yield inside(0x75, inside(0x30, fields)).hex()

    # ---- the limits

    def longest(self):
        """The longest text: the lengths of its frame take three octets after the first."""
        begin = b"74830f42ab30830f42a6a003020105a103020114a2830f427e30830f4279a0830f424604830f424144"
        text = "66" * 1_000_000
        job = self.job("seal", [{"texts": f"['{text}']"}], {})
        self.add("seal of the longest text", ["seal"], job.encode(), 0,
                 lambda out: out.startswith(begin) and out.index(b"\n") == 2 * 1_000_112)
        self.whole("relay", {"name": "the longest text", "changes": [{"texts": f"['{text}']"}],
                             "lines": [f"lane 0 text {text}", "lane 0 closed",
                                       "lane 0 sent 1 of 1 DONE CLOSED"]})

    def most(self):
        """Eight lanes of 64 places, of 2,000 emissions each: the frame of the text 1,999 times, and
        then the close."""
        plan = "[" + "'0', " * 1_999 + "'1']"
        changes = [{"key": f"'000102030405060708090a0b0c0d0e0{lane}'", "plan": plan}
                   for lane in range(8)]
        ends = ["text 6869"] + ["refused 42 BADORDER"] * 1_998 + ["closed",
                                                                  "sent 1 of 1 DONE CLOSED"]
        text = "".join(f"lane {lane} {end}\n" for end in ends for lane in range(8))
        job = "capacity = 64\n" + self.job("relay", changes, {})
        self.add("relay at the limits", ["relay"], job.encode(), 0, text.encode())

    def rounds(self):
        """Eight lanes, of which lane i has i texts: in each round every lane that goes on has one
        entry, by the lane's number."""
        texts = [f"{ord('a') + place:02x}" for place in range(8)]
        changes = [{"key": f"'{'0' * (31 if lane < 4 else 63)}{lane}'", "first": "7",
                    "etype": "17" if lane < 4 else "18", "mode": MODES[lane % 2],
                    "texts": f"{texts[:lane]}"} for lane in range(8)]
        lines = [f"lane {lane} " + ("closed" if lane == place else f"text {texts[place]}")
                 for place in range(8) for lane in range(place, 8)]
        lines += [f"lane {lane} sent {lane} of {lane} DONE CLOSED" for lane in range(8)]
        for places in (1, 3, 64):
            job = f"capacity = {places}\n" + self.job("relay", changes, {})
            self.add(f"relay in rounds, {places} places", ["relay"], job.encode(), 0,
                     "".join(f"{line}\n" for line in lines).encode())

    def vectors(self):
        text = "".join(f"{line}\n" for line in self.table["vectors"]["lines"]).encode()
        self.add("vectors", ["vectors"], b"", 0, text)
