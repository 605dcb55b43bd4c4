"""Today's programs go on with what older ones left: each text takes effect once and in order, and no session stands.

The folder old has dumps of an outbox, a carrier's file and a store, which programs of an older commit left when they
were killed (2026-11-30, `sqlite3 FILE .dump`): 1.0.0 are those of 4b33908b, 0.1.0 those of 9c5e696a. The session tom,
whose line has a key of the way back, and eve, whose line has none, have texts in each state: with a receipt, published,
sealed, and waiting, with the close. A text of kim took effect, and its sender hasn't heard that. ann is closed, max has
a text that waits and was never sealed from, and sue had no line.

The file stream has rows of a stream more (2026-12-01, by the programs of the same commits), whose session began by a ticket,
with the keytabs under whose keys its key is wrapped: texts took effect, are published, and wait. No KDC is left."""
import contextlib
import os
import sqlite3
import subprocess

import pytest
from builds import HERE
from test_effects import Ends, await_so, end

# Of each session the key, that of the way back, how many texts were put in, how many of them waited, how many frames were kept, how
# many texts had taken effect, when the dumps were made, and whether it is closed.
SESSIONS = {
    "tom": ("22", "32", 6, 1, 2, 3, True), "ann": ("23", "33", 1, 0, 0, 1, True), "eve": ("24", "", 5, 0, 2, 3, True),
    "max": ("25", "35", 1, 1, 0, 0, False), "sue": ("26", "36", 1, 1, 0, 0, False), "kim": ("27", "37", 1, 0, 1, 1, False),
}
EVER = str(2**32 - 1)       # seconds: the frames are as old as the dumps
ORDERS = [(number, b"o%d" % number) for number in range(1, 6)]     # the stream
REALM = "[libdefaults]\ndefault_realm = KRBRELAY.TEST\n[realms]\nKRBRELAY.TEST = {\nkdc = 127.0.0.1:1\n}\n"
LEFT = "SELECT (SELECT count(*) FROM text) + (SELECT count(*) FROM sealed) + (SELECT count(*) FROM frame)"


class Old(Ends):
    """Both ends over files of an older version."""

    def __init__(self, programs, folder, version):
        self.programs, self.folder, self.batch, self.store = programs, str(folder), "1", f"sqlite:{folder}/store.db"
        self.both = ["--sessions", f"{folder}/sessions", "--carrier", f"sqlite:{folder}/carrier.db"]
        with open(f"{folder}/sessions", "w", encoding="ascii") as file:
            file.writelines(f"{name} {int(name == 'kim')} 18 priv {key * 32} 1 10.0.0.2 10.0.0.255 {back * 32}\n"
                            for name, (key, back, *_) in SESSIONS.items())
        for name in ("outbox", "carrier", "store"):
            with open(f"{HERE}/old/{version}/{name}.sql", encoding="ascii") as dump, \
                    contextlib.closing(sqlite3.connect(f"{folder}/{name}.db")) as file:
                file.executescript(dump.read())
        stream = f"{HERE}/old/{version}/stream"
        told = subprocess.run([f"{programs}/sender", "--help"], check=True, capture_output=True, text=True).stdout
        self.has_stream = "--keytab" in told
        if self.has_stream:
            self.add_stream(stream)

    def add_stream(self, path):
        for name, text in (("krb5.conf", REALM), ("allowed", "krbrelay-sender@KRBRELAY.TEST\n")):
            with open(f"{self.folder}/{name}", "w", encoding="ascii") as file:
                file.write(text)
        with open(path, encoding="ascii") as lines:
            for name, rest in (line.split(" ", 1) for line in lines):
                if not name.endswith(".keytab"):
                    self.run(name, rest)
                    continue
                with open(f"{self.folder}/{name}", "wb") as file:
                    file.write(bytes.fromhex(rest))

    def both_started(self):
        def of(name, *more):
            keys = "--keytab", f"{self.folder}/{name}.keytab", "--service", "krbrelay/receiver", "--ticket-shards", "3"
            return (*keys, *more) if self.has_stream else ()
        receiver = self.start("receiver", "--store", self.store, "--shards", "0-2", "--skew", EVER,
                              *of("receiver", "--allow", f"{self.folder}/allowed"))
        return receiver, self.sender(*of("sender", "--client", "krbrelay-sender", "--life", EVER))

    def effects(self):
        return {name: self.run("store", "SELECT number, text FROM effect WHERE session = ? ORDER BY id", (name,))
                for name in SESSIONS}

    def states(self):
        """Of each session how many texts wait, frames are kept, and texts took effect."""
        return {name: (*self.run("outbox", "SELECT (SELECT count(*) FROM text WHERE session = ?1 AND body IS NOT NULL),"
                                 " (SELECT count(*) FROM frame WHERE session = ?1)", (name,))[0], len(effects))
                for name, effects in self.effects().items()}


@pytest.mark.parametrize("version", sorted(os.listdir(f"{HERE}/old")))
def test_each_text_takes_effect_once(shipped, tmp_path, version, monkeypatch):
    monkeypatch.setenv("KRB5_CONFIG", f"{tmp_path}/krb5.conf")
    ends = Old(shipped, tmp_path, version)
    assert ends.states() == {name: it[3:6] for name, it in SESSIONS.items()}
    started = ends.both_started()
    await_so(lambda: not ends.run("outbox", LEFT)[0][0],
             lambda: (ends.run("outbox", "SELECT * FROM stopped"), ends.log()[-2000:]))
    end(*started)
    assert ends.effects() == {name: [(number + 1, b"%c%d" % (ord(name[0]), number + 1)) for number in range(it[2])]
                              for name, it in SESSIONS.items()}
    assert ends.run("store", "SELECT number, text FROM effect WHERE stream = 'orders' ORDER BY id") == (
        ORDERS if ends.has_stream else [])
    assert {name: closed for name, closed in ends.run("store", "SELECT name, closed FROM session") if name in SESSIONS} == {name: it[6] for name, it in SESSIONS.items()}
    assert ends.run("outbox", "SELECT * FROM stopped") == []
