"""Jobs of which one line is another, and what the commands say of them: the rows of keys.toml, in the order of
tables/job_keys.toml."""
import os

from lib import toml_reader

ROWS = os.path.join(os.path.dirname(os.path.abspath(__file__)), "keys.toml")
KEYS = os.path.join(os.path.dirname(ROWS), "../../tables/job_keys.toml")
COMMANDS = ("seal", "open", "relay")
UNKNOWN = "unknown key"


def rows():
    """The rows. Those of lines say which commands have their key, and those of a flag are made."""
    table, keys = toml_reader.load(ROWS), {**toml_reader.load(KEYS)["sender"], UNKNOWN: {}}
    lines, order = {row["key"]: row for row in table["lines"]}, table["order"]
    for name in (it for it in keys if keys[it].get("kind") == "flag"):
        lines[name] = {how: [it.replace("KEY", name) for it in table["flag"][how]] for how in ("bad", "good")}
        order[name] = [lines[name][how][0] for how in ("good", "bad")]
    table["lines"] = [{"commands": COMMANDS, **keys[it], **lines[it], "key": it} for it in keys]
    table["order"] = {it: order[it] for it in keys}
    return table


def sender(table, command, key=None, line="", more=""):
    """A sender for a command, with a line in place of that of a key, and further lines."""
    keys = {**table["common"], **table["opened" if command == "open" else "sent"]}
    keys.pop(key, None)
    return "".join(f"{it}\n" for it in ["[[sender]]", *(f"{k} = {v}" for k, v in keys.items()),
                                        line, more])


class Lines:
    """Tests of jobs by the first check that fails."""

    def __init__(self):
        self.found, self.table = [], rows()

    def cases(self, *parts):
        """Each bad job: the command, its input and the fault."""
        for part in parts:
            part()
        return self.found

    def faulty(self, command, job, fault, name):
        """The command finds the job bad, by this fault, and prints nothing."""
        data = job if isinstance(job, bytes) else job.encode()
        self.found.append((f"{command} with {name:.60}", command, data, fault))

    def bad(self, command, key, line):
        self.faulty(command, sender(self.table, command, key, line), f"sender 0: {key}", line)

    def good(self, command, key, line):
        """The line passes, and the first check that fails is that of a key after it."""
        job = sender(self.table, command, key, line, "other = 1")
        self.faulty(command, job, f"sender 0: {UNKNOWN}", f"a good {line}")

    def lines(self):
        for row in self.table["lines"]:
            for command in COMMANDS:
                if command in row["commands"]:
                    self.both(command, row)
                else:
                    for line in filter(None, row["bad"] + row["good"]):
                        self.bad(command, row["key"], line)

    def both(self, command, row):
        for line in row["bad"]:
            self.bad(command, row["key"], line)
        for line in row["good"]:
            self.good(command, row["key"], line)

    def limits(self):
        """Lists and items of the greatest size, and of one more."""
        for row in self.table["most"]:
            for count, told in ((row["count"], self.good), (row["count"] + 1, self.bad)):
                items = (row["item"] + ",") * count
                told(row["command"], row["key"], f"{row['key']} = [{items}]")
        for row in self.table["longest"]:
            for size, told in ((row["size"], self.good), (row["size"] + 1, self.bad)):
                told(row["command"], row["key"],
                     f"{row['key']} = {row['begin']}{'00' * size}{row['end']}")

    def wide_keys(self):
        for size, good in self.table["sizes_of_18"].items():
            for command in COMMANDS:
                line = f'etype = 18\nkey = "{"00" * int(size)}"'
                job = sender(self.table, command, "key", line, "other = 1")
                self.faulty(command, job.replace("etype = 17\n", ""),
                            f"sender 0: {UNKNOWN if good else 'key'}", f"a key of {size} bytes")

    def tops(self):
        opened = sender(self.table, "open")
        for row in self.table["capacity"]:
            for line in row["bad"]:
                self.faulty("open", f"{line}\n{opened}", "capacity", line)
            for line in row["good"]:
                self.faulty("open", f"{line}\n{opened}other = 1\n", f"sender 0: {UNKNOWN}", line)
        for text in self.table["documents"]["toml"]:
            self.faulty("seal", text, "toml", text)
        self.faulty("seal", b"\xff", "toml", "no text")
        for row in self.table["tops"]:
            for text in row["documents"]:
                for command in COMMANDS:
                    self.faulty(command, text, row["fault"], text)

    def order(self):
        """A sender whose first keys are good and the others bad."""
        keys = list(self.table["order"])
        for place, key in enumerate(keys):
            lines = [self.table["order"][it][at >= place] for at, it in enumerate(keys)]
            job = "\n".join(["[[sender]]", *filter(None, lines)])
            self.faulty("seal", job, f"sender 0: {key}", f"each key bad from {key} on")

    def senders(self):
        for row in self.table["counts"]:
            command = row["command"]
            for count in row["good"]:
                job = self.keyed(command, range(1, count + 1)) + "other = 1\n"
                self.faulty(command, job, f"sender {count - 1}: {UNKNOWN}", f"{count} senders")
            for count in row["bad"]:
                job = self.keyed(command, range(1, count + 1))
                self.faulty(command, job, "sender", f"{count} senders")
        for row in self.table["repeated"]:
            self.faulty("relay", self.keyed("relay", row["keys"]), f"sender {row['sender']}: key",
                        f"keys {row['keys']}")
        again = sender(self.table, "relay", "key", 'key = "000102030405060708090A0B0C0D0E0F"')
        self.faulty("relay", sender(self.table, "relay") + again, "sender 1: key",
                    "a key in digits of the other case")
        for row in self.table["two"]:
            job = sender(self.table, "relay", more=row["line"]) + "[[sender]]\nother = 1\n"
            self.faulty("relay", job, row["fault"], row["line"])

    def keyed(self, command, numbers):
        """A sender for each of these numbers, which is its key."""
        return "".join(sender(self.table, command, "key", f'key = "{it:032}"') for it in numbers)

