"""Sessions that begin by tickets of a real KDC: openings that aren't right, each of which has to be refused by its name,
and cases."""
import dataclasses
import glob
import os
import random
import shutil
import signal
import subprocess
import time

import cases
import engines
import loglines
import pytest
import realms
import test_receipts
from cases import TOM, numbers, opened

DAY = 86400             # seconds
STREAMS = 5000
GOOD = 40               # texts of the session that nothing may hold up
FIRST = 100             # the offset before the good session's frames
NAME = "A" * 22         # of a session that nobody has
ETYPES = (17, 18)
CLIENT = f"{realms.SENDER}@{realms.REALM}"


@dataclasses.dataclass
class Case(cases.Case):
    etype: int = dataclasses.field(default=18, kw_only=True)    # of the keys


CASES, case = cases.table(Case, lines=())


class Place(cases.Place):
    """The files of one case, with a realm; and another one, and what openings that aren't right begin with."""

    def __init__(self, programs, folder, case, realm, other_realm=None, templates=None):
        super().__init__(programs, folder, case)
        self.realm, self.etype, self.other_realm, self.templates = realm, case.etype, other_realm, templates
        self.keytab, self.client = realm.path("sender.keytab"), realms.SENDER
        self.receiver_keytab, self.allowed = realm.path("receiver.keytab"), f"{folder}/allowed"
        self.allow(realms.SENDER)
        self.env, self.stores = realm.environment(), ("store",)

    def allow(self, *clients):
        self.write(self.allowed, [f"{it}@{realms.REALM}\n" for it in clients])

    def command(self, name, *more, **other):
        given = {"service": realms.SERVICE}
        if name == "sender":
            given |= {"keytab": self.keytab, "client": self.client, "etype": str(self.etype)}
        else:
            given |= {"keytab": self.receiver_keytab, "allow": self.allowed}
        words = super().command(name, *more, **given | other)
        at = words.index("--sessions")
        if not self.case.lines and name == "sender":    # no file of sessions, as units may say it
            words[at + 1] = ""
        elif not self.case.lines:
            del words[at:at + 2]
        return words

    def delivered(self):
        """What was delivered of each stream, and of each session of the file."""
        found = {name: [] for name in self.case.wanted}
        for name, text in self.ask_stores("SELECT CASE stream WHEN '' THEN session ELSE stream END,"
                                          " text FROM effect ORDER BY id"):
            found.setdefault(name, []).append(bytes(text).decode())
        return found

    def use_stores(self, count):
        """Each of so many shards has a store of its own."""
        self.store = f"sqlite:{self.folder}/store.%.db"
        self.stores = tuple(f"store.{shard}" for shard in range(count))

    def ask_stores(self, sql):
        return [row for store in self.stores for row in self.ask(store, sql)]

    def opened(self):
        return [name for name, in self.ask_stores("SELECT name FROM opened")]

    def has_refused(self, process, answer):
        return self.has_logged(process, "opening_refused", answer=answer)

    def expect_refused(self, process, answer):
        self.expect(lambda: self.has_refused(process, answer), lambda: f"not refused: {self.log(process)[-300:]}")

    def make(self, kind="good", *more, keytab=None, client=None, service=realms.SERVICE, etype=None,
             realm=None, stream="evil", shard="0"):
        """An opening that is made for the case: its name, and the frame. Without a shard, '-', it is of the
        version before."""
        keytab = keytab or self.keytab
        words = [f"{self.programs}/openings", kind, keytab, client or self.client, service, str(etype or self.etype),
                 stream, shard, *more]
        env = (realm or self.realm).environment() | {"KRB5_CLIENT_KTNAME": keytab,
                                                     "ASAN_OPTIONS": "detect_leaks=0"}      # it ends at once
        done = subprocess.run(words, check=True, timeout=cases.LIMIT, text=True, stdout=subprocess.PIPE, env=env)
        name, digits = done.stdout.split()
        return name, bytes.fromhex(digits)

    def insert(self, frames, first=1, shard=0):
        """Puts frames into a shard of the carrier, at these offsets."""
        self.change("carrier", "INSERT INTO carried (offset, shard, session, frame) VALUES (?, ?, ?, ?)",
                    [(first + at, shard, *it) for at, it in enumerate(frames)])

    def copy_frames(self, shard):
        """All frames and openings of shard 0 once more, in another shard."""
        self.change("carrier", "INSERT INTO carried (shard, session, frame) SELECT ?, session, frame FROM carried"
                               " WHERE shard = 0 ORDER BY offset", [(shard,)])

    def keys(self, *names):
        """The keys of sessions of the outbox."""
        done = subprocess.run([f"{self.programs}/keys", self.outbox, self.keytab, self.client, *names],
                              check=True, timeout=cases.LIMIT, text=True, env=self.env, stdout=subprocess.PIPE)
        return [bytes.fromhex(it) for it in done.stdout.split()]


# ---- openings that aren't right: each is made at a place, and gives a name and a frame

def made(*more, **given):
    return lambda place: place.make(*more, **given)


def changed(change, **given):
    """All of it is changed."""
    def make(place):
        name, frame = place.make(**given)
        return name, change(frame)
    return make


def flipped(at):
    """A bit of the AP-REQ."""
    return changed(lambda it: it[:at] + bytes([it[at] ^ 1]) + it[at + 1:])


def with_text(change, **given):
    """The text after the AP-REQ is changed."""
    def of_frame(frame):
        at = frame.rindex(b"krbrelay session")
        return frame[:at] + change(frame[at:])
    return changed(of_frame, **given)


def replaced(old, new, **given):
    return with_text(lambda it: it.replace(old, new), **given)


def with_words(*words):
    """Other words follow the one for the session before."""
    return with_text(lambda it: b" ".join([*it.split()[:6], *words]))


def renamed(name, is_inside=False):
    """Under another name, which may stand in the text, too."""
    def make(place):
        own, frame = place.make()
        return name, frame.replace(own.encode(), name.encode()) if is_inside else frame
    return make


def of_other_realm(place):
    return place.make(keytab=place.other_realm.path("sender.keytab"), realm=place.other_realm)


def of_stranger(place):
    return place.make(keytab=place.realm.path("stranger.keytab"), client="stranger")


TICKET, AUTHENTICATOR = 200, 600        # places in the ciphers of the AP-REQ
HISTORY = b"5a" * 20                    # of nothing
CHANGED, MALFORMED, OF_NAME, ELSEWHERE = (f"OPENING_{it}" for it in ("CHANGED", "MALFORMED", "NAME", "ELSEWHERE"))
HOSTILE = {
    "a bit of the ticket": (flipped(TICKET), CHANGED),
    "a bit of the authenticator": (flipped(AUTHENTICATOR), CHANGED),
    "a bit of its length": (flipped(2), MALFORMED),
    "a bit of the first byte": (flipped(0), None),
    "a bit of the stream's name": (replaced(b" evil ", b" ewil "), CHANGED),
    "another name in the text": (with_text(lambda it: it.replace(it.split()[3], NAME.encode())), OF_NAME),
    "another protocol's text": (replaced(b"session 3", b"session 4"), MALFORMED),
    "a session before it": (replaced(b" - ", b" before "), CHANGED),
    "another shard's": (made(shard="1"), ELSEWHERE),
    "another shard's, whose text has this one": (with_text(lambda it: it[:-1] + b"0", shard="1"), CHANGED),
    "the last shard's": (made(shard="4095"), ELSEWHERE),
    "a shard that there isn't": (with_words(b"4096"), MALFORMED),
    "a shard of thirty digits": (with_words(b"1" * 30), MALFORMED),
    "a zero before the shard": (with_words(b"00"), MALFORMED),
    "a shard below the first": (with_words(b"-1"), MALFORMED),
    "a shard that is no number": (with_words(b"a"), MALFORMED),
    "no shard in the third form": (with_words(), MALFORMED),
    "nothing in the shard's place": (with_words(b""), MALFORMED),
    "two shards": (with_words(b"0", b"0"), MALFORMED),
    "a space after the shard": (with_words(b"0", b""), MALFORMED),
    "a history of no session before": (with_words(b"0", HISTORY), MALFORMED),
    "the first form with a shard": (replaced(b"session 3", b"session 1"), MALFORMED),
    "the second form with a shard": (replaced(b"session 3", b"session 2"), MALFORMED),
    "the first form as the third": (replaced(b"session 1", b"session 3", shard="-"), MALFORMED),
    "the first form, to which its shard was added":
        (with_text(lambda it: it.replace(b"session 1", b"session 3") + b" 0", shard="-"), CHANGED),
    "the third form, of which its shard was cut off":
        (with_text(lambda it: it.replace(b"session 3", b"session 1")[:-2]), CHANGED),
    "two spaces in the text": (replaced(b" evil", b"  evil"), MALFORMED),
    "no text": (with_text(lambda it: b""), MALFORMED),
    "a word more": (with_text(lambda it: it + b" more"), MALFORMED),
    "bytes before the text": (with_text(lambda it: b"\0" + it), MALFORMED),
    "cut in its middle": (changed(lambda it: it[:len(it) // 2]), MALFORMED),
    "cut by its last byte": (changed(lambda it: it[:-1]), MALFORMED),
    "nothing but its first byte": (changed(lambda it: it[:1]), MALFORMED),
    "an AP-REQ of no bytes": (changed(lambda it: b"\x6e\0" + it[it.rindex(b"krbrelay session"):]), MALFORMED),
    "70,000 bytes": (changed(lambda it: it + bytes(70000)), MALFORMED),
    "under another name": (renamed(NAME), OF_NAME),
    "under another name, which the text has": (renamed(NAME, is_inside=True), CHANGED),
    "under a name that no session may have": (renamed("a b"), None),
    "a ticket for another service": (made(service="other/service"), "OPENING_NO_KEY"),
    "another realm's keys": (of_other_realm, CHANGED),
    "a client that isn't allowed": (of_stranger, "OPENING_CLIENT"),
    "no subkey": (made("no-subkey"), "OPENING_NO_SUBKEY"),
    "no checksum": (made("no-text"), CHANGED),
    "a checksum of another text": (made("other-text"), CHANGED),
    "a GSS token's AP-REQ": (made("gss"), CHANGED),
    "a name that isn't the key's": (made("other-name"), OF_NAME),
    "a key of type 20": (made(etype=20), "OPENING_ETYPE"),
    "a key of type 26": (made(etype=26), "OPENING_ETYPE"),
    "the stream's beginning once more": (made(stream="good"), "OPENING_FORKED"),
}


def refused(place, make, answer):
    """One opening that isn't right: it is refused by its name, and holds up nothing."""
    shutil.copy(place.templates[place.etype], place.path("carrier"))
    name, frame = make(place)
    late = place.case.done.startswith("the stream's")
    place.insert([(name, frame)] * 2, FIRST + 1000 if late else 1)
    receiver = place.receive()
    is_told = answer is None or place.wait(lambda: place.has_refused(receiver, answer), 2)
    assert len(place.opened()) == 1 and name not in place.opened(), f"opened: {place.opened()}"
    assert is_told, f"not refused as {answer}: {place.log(receiver)[:600]}"
    assert receiver.poll() is None, "the receiver has ended"
    place.end(receiver)
    assert receiver.returncode == 0, f"status {receiver.returncode}"


NOT_RIGHT = [Case(refused, what, {"good": GOOD}, 15, (), etype=etype, given=given, called=f"{what}, type {etype}")
             for etype in ETYPES for what, given in HOSTILE.items()]


@pytest.fixture(scope="module")
def templates(programs, realm):
    """What all openings that aren't right begin with, for each type: a carrier in which a session of 40 texts stands,
    from an offset above 100."""
    for name in ("stranger", "other/service"):
        realm.add(name)
    with engines.new_folder() as folder:
        for etype in ETYPES:
            case = Case(None, "", lines=(), etype=etype)
            with Place(programs, f"{folder}/{etype}", case, realm) as place:
                place.put(cases.texts("good", 0, GOOD))
                place.drain()
                place.change("carrier", "UPDATE carried SET offset = offset + ?", [(FIRST,)])
        yield {etype: f"{folder}/{etype}/carrier.db" for etype in ETYPES}


@pytest.fixture
def place(request, programs, folder, realm, other_realm, templates):
    case = request.param
    with Place(programs, f"{folder}/case", case, realm, other_realm, templates) as made:
        yield made


# ---- cases

def streams_of(place, count=None, first=0, streams=None):
    """Rows of an outbox for each stream that the case wants."""
    wanted = streams or place.case.wanted
    return [(name, f"{name} {it}".encode()) for it in range(first, count or max(wanted.values())) for name in wanted]


def require_unstopped(place):
    assert place.count("outbox", "stopped") == 0, "something is stopped still"


def sessions_of_orders(place):
    """How many sessions the stream of orders has begun."""
    return place.ask("store", "SELECT count(*) FROM opened WHERE stream = 'orders'")[0][0]


@case("two streams, both ends killed three times", {"orders": 400, "bills": 400}, 20)
def both(place):
    """Both ends are at work until all is delivered; then killed three times amid more texts."""
    place.put(streams_of(place, 100))
    for turn in range(3):
        running = place.start_both()
        place.put(streams_of(place, 100 * (turn + 2), 100 * (turn + 1)))
        time.sleep(0.15)
        place.kill(*running)
    place.relay()
    _, lines = place.status("--outbox", place.outbox, "--store", place.store)
    shown = "\n".join(map(" ".join, lines.values()))
    assert f"open, of orders by {CLIENT}" in shown, shown
    rows = place.ask("store", "SELECT DISTINCT client, stream FROM effect")
    assert sorted(rows) == sorted((CLIENT, it) for it in place.case.wanted), f"by whom: {rows}"
    keys = place.ask("store", "SELECT number, part, count(*) FROM effect GROUP BY stream, session,"
                              " number, part HAVING count(*) > 1")
    assert not keys, f"numbers that came twice: {keys[:3]}"


@case("streams beside a session of a file", {"orders": 50, "tom": 50}, 15, (TOM,))
def beside_a_file(place):
    """At the same ends."""
    place.put(streams_of(place))
    place.relay()


@case("the receiver's keytab comes later", {"orders": 20, "bills": 20}, 20)
def key_later(place):
    place.receiver_keytab = f"{place.folder}/receiver.keytab"
    place.put(streams_of(place))
    _, receiver = place.start_both()
    place.expect_refused(receiver, "OPENING_NO_KEY")
    shutil.copy(place.realm.path("receiver.keytab"), place.receiver_keytab)
    place.await_delivered()


@case("the service's new key isn't in the keytab yet", {"orders": 20}, 20)
def new_key_of_service(place):
    """It is changed in the KDC before the receiver's keytab has it."""
    name = "changed/receiver"
    place.receiver_keytab = place.realm.add(name)
    place.realm.kadmin(f"change_password -randkey -keepold {name}")
    place.put(streams_of(place), given={"service": name})
    _, receiver = place.start_both(service=name)
    place.expect_refused(receiver, "OPENING_NO_KEY")
    place.realm.kadmin(f"ktadd -q -norandkey -k {place.receiver_keytab} {name}")
    place.await_delivered()


@case("the client is allowed later", {"orders": 20}, 20)
def client_later(place):
    place.allow("somebody")
    place.put(streams_of(place))
    _, receiver = place.start_both()
    place.expect_refused(receiver, "OPENING_CLIENT")
    place.allow("somebody", realms.SENDER)
    place.await_delivered()


@case("a client of the same name in a realm that is trusted", {"orders": 20}, 20)
def trusted_realm(place):
    """It isn't the client that is allowed, though this realm takes tickets of that one."""
    place.put(streams_of(place))
    place.drain()
    other = realms.Realm(f"{place.folder}/elsewhere", name="ELSEWHERE.TEST")
    try:
        other.is_trusted_by(place.realm)
        opening = place.make("good", keytab=other.path("sender.keytab"), client=f"{realms.SENDER}@{other.name}",
                             service=f"{realms.SERVICE}@{place.realm.name}", realm=other)
    finally:
        other.stop()
    place.insert([opening], 1000)
    receiver = place.start("receiver")
    place.expect_refused(receiver, "OPENING_CLIENT")
    place.await_delivered()
    assert opening[0] not in place.opened(), f"opened: {place.opened()}"


def use_skew(place, seconds):
    """The realm's clockskew at both ends."""
    place.env = place.realm.environment(place.realm.config(f"{place.folder}/krb5.conf", seconds))


@case("the receiver's clock is an hour ahead at first", {"orders": 20}, 20)
def clocks_apart(place):
    """By a clockskew of five minutes."""
    use_skew(place, 300)
    place.put(streams_of(place))
    place.start("sender")
    receiver = place.start("receiver", clock=3600)
    place.expect_refused(receiver, "OPENING_SKEW")
    place.end(receiver)
    place.receive()


@case("the ticket has ended when its opening is read", {"tom": 1}, 15, (TOM,))
def ticket_ended(place):
    """By a clockskew of five minutes."""
    use_skew(place, 300)
    place.send(streams_of(place, streams={"old": 5}) + [("tom", b"tom 0")])
    receiver = place.start("receiver", clock=2 * DAY, skew=str(3 * DAY))
    place.expect_refused(receiver, "OPENING_EXPIRED")
    place.await_delivered()
    assert not place.opened(), f"opened: {place.opened()}"


@case("two clients have a stream of one name", {}, 20)
def two_clients(place):
    given = {"keytab": place.realm.add("second-sender"), "client": "second-sender"}
    place.allow(realms.SENDER, "second-sender")
    place.put([("orders", f"orders {it}".encode()) for it in range(50)])
    second = place.path("second")
    place.put([("orders", f"second {it}".encode()) for it in range(50)], second, given)
    place.start("sender")
    place.start("sender", outbox=second, **given)
    place.start("receiver")

    def found(client):
        return [bytes(it).decode() for it, in place.ask(
            "store", f"SELECT text FROM effect WHERE client = '{client}@{realms.REALM}'"
                     " AND stream = 'orders' ORDER BY id")]
    place.expect(lambda: found(realms.SENDER) == [f"orders {it}" for it in range(50)]
                 and found("second-sender") == [f"second {it}" for it in range(50)], "not delivered", 15)


@case("a sender begins the stream again with another outbox", {"orders": 20}, 15)
def other_outbox(place):
    """Elsewhere: its session of the stream is refused."""
    place.put(streams_of(place))
    _, receiver = place.relay()
    other = place.path("other")
    place.put([("orders", b"again")], other)
    place.run("sender", "--drain", outbox=other)
    place.expect_refused(receiver, "OPENING_FORKED")
    assert place.delivered()["orders"] == [f"orders {it}" for it in range(20)], "it counts"


@case("two receivers of one shard, one killed", {"orders": 400}, 20)
def two_receivers(place):
    place.put(streams_of(place, 100))
    _, first = place.start_both()
    place.start("receiver")
    place.put(streams_of(place, 300, 100))
    time.sleep(0.3)
    first.kill()
    place.pass_on(streams_of(place, 400, 300))


@case("receivers share four shards, and one is killed", {f"stream-{it}": 100 for it in range(8)}, 30, shards="auto")
def shared(place):
    given = {"ticket-shards": "4"}
    place.put(streams_of(place, 50), given=given)
    _, first = place.start_both(**given)
    place.start("receiver", **given)
    place.expect_delivered(dict.fromkeys(place.case.wanted, 50), seconds=10)
    first.kill()
    place.pass_on(streams_of(place, 100, 50))
    shards = place.ask("store", "SELECT DISTINCT shard FROM opened")
    assert len(shards) > 1, f"all in one shard: {shards}"


@case("10,000 texts of a stream over ten sessions, by SIGHUP", {"orders": 10000}, 60)
def many_sessions(place):
    """A new key each second of texts, or by SIGHUP."""
    sender, receiver = place.start("sender", batch="50"), place.start("receiver")
    place.wait(lambda: os.path.exists(place.outbox) and place.ask("outbox", "SELECT 1 FROM owner"), 5)
    for turn in range(1, 11):
        place.put(cases.texts("orders", 1000 * (turn - 1), 1000 * turn))
        place.expect(lambda: len(place.delivered()["orders"]) == 1000 * turn, f"turn {turn} isn't delivered", 10)
        if turn < 10:
            sender.send_signal(signal.SIGHUP)
            place.expect(lambda: len(loglines.find(place.log(sender), "streams_renewed")) == turn,
                         "SIGHUP isn't noted")
    place.await_delivered()
    closed = place.ask("store", "SELECT count(*) FROM session WHERE closed = 1")[0][0]
    assert (sessions_of_orders(place), closed) == (10, 9), \
        f"{sessions_of_orders(place)} sessions, {closed} of them closed"
    assert receiver.poll() is None, "the receiver has ended"


@case("5,000 streams, of a text each", {}, 40)
def many_streams(place):
    """More than a shard's window."""
    place.put([(f"stream-{it}", b"text") for it in range(STREAMS)])
    place.start_both()
    place.expect(lambda: place.ask("store", "SELECT count(*), count(DISTINCT stream) FROM effect")
                 == [(STREAMS, STREAMS)], lambda: f"delivered {place.count('store', 'effect')} of {STREAMS}",
                 place.case.seconds)
    place.await_no_frames(10)


@case("a session's frames stand before the close of the one before it", {"orders": 20}, 20)
def before_its_turn(place):
    """They are refused, and come again."""
    for low in (0, 10):
        place.send(streams_of(place, low + 10, low), life="1")
        time.sleep(1.1)
    with opened(place.path("carrier")) as file:
        first = file.execute("SELECT session FROM carried ORDER BY offset LIMIT 1").fetchone()[0]
        close = file.execute("SELECT max(offset) FROM carried WHERE session = ?", (first,)).fetchone()[0]
        # All of the first session after its opening comes last.
        file.execute("UPDATE carried SET offset = offset + 1000 WHERE session = ? AND offset > 1", (first,))
    assert close == 12, f"the close stands at {close}"
    receiver = place.start("receiver")
    place.start("sender", life="1")
    place.await_delivered()
    assert place.has_logged(receiver, "frame_early", before=first), "it isn't said"


# ---- openings and frames that somebody copies into another shard

def has_read(place, process, shard):
    """Whether a receiver of this shard alone has read all of it."""
    where = f"WHERE shard = {shard}"
    reached = place.ask_stores(f"SELECT offset FROM shard {where}")
    return process.poll() is None and reached == place.ask("carrier", f"SELECT max(offset) FROM carried {where}")


def send_copied(place, other, count):
    """The first so many texts of the stream are sent and copied into another shard, whose receiver reads them: none of
    the new ones takes effect there."""
    before = place.delivered()
    place.send(streams_of(place, count, count - 20))
    place.copy_frames(1)
    place.expect(lambda: has_read(place, other, 1), "the copies aren't read", 8)
    assert place.delivered() == before, f"in another shard: {place.delivered()}"


@case("a young opening and its frames are copied into another shard", {"orders": 80}, 25)
@case("the same, with a store for each shard", {"orders": 80}, 25, called="copied_to_other_store", given=(2,))
def copied_elsewhere(place, stores=0):
    """That shard's receiver reads them first; later frames are copied too, and all of it again while the stream goes
    on in its own shard."""
    if stores:
        place.use_stores(stores)
    place.put([])
    other = place.start("receiver", shards="1")
    send_copied(place, other, 20)
    assert place.has_refused(other, ELSEWHERE) and not place.opened(), "the copy isn't refused"
    receiver = place.start("receiver")
    place.expect_delivered({"orders": 20}, "it doesn't begin in its own", 5)
    place.end(receiver)
    send_copied(place, other, 40)
    place.start("receiver")
    place.start("sender", life="1")
    for turn in range(2, 4):
        place.put(streams_of(place, 20 * (turn + 1), 20 * turn))
        time.sleep(1.1)
        place.copy_frames(1)
    place.await_delivered()
    place.expect(lambda: has_read(place, other, 1), "the copies aren't read")
    place.await_no_frames()
    for table in ("opened", "session"):
        shards = place.ask_stores(f"SELECT DISTINCT shard FROM {table}")
        assert shards == [(0,)], f"{table}: sessions of shards {shards}"
    place.await_delivered()


@case("openings of the version before, and copies of them in another shard", {}, 15)
def older_openings(place):
    """They don't say their shard: each is taken where it comes first, and no more in another shard."""
    first, second = place.make(stream="first", shard="-"), place.make(stream="second", shard="-")
    after = place.make("good", first[0], HISTORY.decode(), stream="first", shard="-")
    assert b"krbrelay session 1 " in first[1] and b"krbrelay session 2 " in after[1], "other forms"
    place.put([])
    place.insert([first, after], 1)
    place.insert([second], 3, shard=1)
    receiver = place.start("receiver", shards="0,1")
    wanted = {first[0]: 0, after[0]: 0, second[0]: 1}

    def found():
        return dict(place.ask("store", "SELECT name, shard FROM opened"))
    place.expect(lambda: found() == wanted, lambda: f"opened: {found()}")
    place.insert([first, after], 4, shard=1)
    place.insert([second], 6)
    place.expect(lambda: len(loglines.find(place.log(receiver), "opening_refused", answer=ELSEWHERE)) == 3,
                 "copies are taken")
    assert found() == wanted, "they are moved"


@case("a session of the version before has begun in another shard", {"orders": 20}, 20)
def begun_elsewhere(place):
    """A sender of the version before began the stream, and somebody's copy was read first, by another shard. Its
    sender is upgraded: the session goes on in its own shard."""
    place.deliver(streams_of(place, 10), {"orders": 10})
    for table in ("opened", "session"):
        place.change("store", f"UPDATE {table} SET shard = 1")
    place.change("carrier", "DELETE FROM receipt")     # so that the first probe has the opening
    place.put(streams_of(place, 20, 10))
    receiver = place.start("receiver")
    place.start("sender")
    place.expect_logged(receiver, "session_unknown", "it is known")
    place.await_delivered()
    rows = [place.ask("store", f"SELECT shard FROM {table}") for table in ("opened", "session")]
    assert rows == [[(0,)], [(0,)]], f"shards: {rows}"


# ---- keys that can't be read for a while, and outboxes that are restored

def deliver_first(place):
    """The first text of each stream; a sender that doesn't know the streams yet, and a receiver run then."""
    place.put(streams_of(place, 1))
    sender, _ = place.start_both()
    place.expect_delivered(dict.fromkeys(place.case.wanted, 1))
    place.end(sender)


def take_away(path):
    os.rename(path, path + ".away")


def bring_back(path):
    os.rename(path + ".away", path)


@case("the sender's keytab is away for a second", {"orders": 4}, 25)
def keytab_moment(place):
    """As where it is written anew: no text is overtaken."""
    place.keytab = shutil.copy(place.keytab, f"{place.folder}/sender.keytab")
    deliver_first(place)
    place.start("sender")
    time.sleep(1)
    take_away(place.keytab)
    place.put(streams_of(place, 2, 1))
    time.sleep(1)
    bring_back(place.keytab)
    place.pass_on(streams_of(place, 4, 2))
    require_unstopped(place)


@case("the sender's keytab is away when sessions have to begin", {"orders": 3, "bills": 2, "tom": 2}, 30, (TOM,))
def keytab_away(place):
    """It is away when a stream's first text comes, and when a session is old: the stream waits, the session goes on,
    and texts of other sessions are sealed."""
    place.keytab = shutil.copy(place.keytab, f"{place.folder}/sender.keytab")
    place.put([("orders", b"orders 0"), ("tom", b"tom 0")])
    place.start("sender", life="1")
    place.start("receiver")
    place.expect_delivered({"orders": 1, "tom": 1})
    time.sleep(1.1)
    take_away(place.keytab)
    place.put([("bills", b"bills 0"), ("orders", b"orders 1"), ("tom", b"tom 1"), ("bills", b"bills 1")])
    place.expect_delivered({"orders": 2, "tom": 2}, "others wait for the keytab", 5)
    assert not place.delivered()["bills"] and place.ask("outbox", "SELECT session FROM stopped") == [("bills",)], \
        "the stream's first text isn't told to wait"
    bring_back(place.keytab)
    place.pass_on([("orders", b"orders 2")])
    require_unstopped(place)
    assert sessions_of_orders(place) == 2, f"sessions of orders: {sessions_of_orders(place)}"


@case("the sender's keytab lacks a key for a while", {"orders": 3}, 30)
def wrapping_key_later(place):
    """That under which the stream's key is wrapped."""
    name = f"rotated-sender-{place.etype}"
    place.keytab, place.client = place.realm.add(name), name
    place.allow(name)
    deliver_first(place)
    both_keys, new = shutil.copy(place.keytab, f"{place.folder}/both"), f"{place.folder}/new"
    place.realm.kadmin(f"ktadd -q -k {new} {name}")
    place.realm.kadmin(f"ktadd -q -norandkey -k {both_keys} {name}")
    shutil.copy(new, place.keytab)
    place.start("sender")
    place.put(streams_of(place, 2, 1))
    place.expect(lambda: place.ask("outbox", "SELECT 1 FROM stopped WHERE session = 'orders'"),
                 "the table `stopped` hasn't the stream", 10)
    os.replace(both_keys, place.keytab)
    place.pass_on(streams_of(place, 3, 2))
    require_unstopped(place)


@case("a restored outbox closes a session once more", {"orders": 10}, 40)
def closed_anew(place):
    """After other frames than those that took effect: the stream's next session isn't taken. The carrier has nothing
    of it any more."""
    deliver_first(place)
    place.backup()
    place.put(streams_of(place, 10, 1))
    time.sleep(1.1)
    place.run("sender", "--drain", life="1")            # closes the session, and begins the next
    place.await_delivered()
    place.restore()
    for name, sql in (("carrier", "DELETE FROM carried"), ("carrier", "DELETE FROM receipt"),
                      ("store", "DELETE FROM session WHERE name IN"
                                " (SELECT name FROM opened WHERE before != '')"),
                      ("store", "DELETE FROM opened WHERE before != ''")):
        place.change(name, sql)
    place.put([("orders", f"new {it}".encode()) for it in range(5)])
    place.start("sender", life="1")
    place.expect(lambda: any("session_forked" in place.log(it) for it in place.running),
                 "the receiver doesn't say that the session is forked", 10)
    place.expect(lambda: place.count("outbox", "stopped") > 0, "the sender doesn't stop", 10)
    place.await_delivered()


@case("an outbox of streams is restored while both ends run", {"orders": 0, "bills": 0}, 60)
def restored_streams(place):
    """From a copy of some seconds ago, and each stream begins a session every two seconds: nothing takes effect twice
    or is overtaken, and the sender stops the sessions."""
    rows = {name: 0 for name in place.case.wanted}

    def put(count):
        for _ in range(count):
            place.put([(name, f"{name} {it}".encode()) for name, it in rows.items()])
            rows.update({name: it + 1 for name, it in rows.items()})
            time.sleep(0.1)
    place.put([])
    sender = place.start("sender", life="2")
    place.start("receiver")
    put(40)
    place.backup()
    put(60)
    place.kill(sender)
    place.restore()
    before = dict(rows)
    place.start("sender", life="2")
    put(20)
    place.expect(lambda: place.count("outbox", "stopped") > 0
                 or any(place.has_refused(it, "OPENING_FORKED") for it in place.running), "nothing is told", 15)
    time.sleep(2)
    for name, texts in place.delivered().items():
        sent = [f"{name} {it}" for it in range(before[name])]
        assert texts == sent[:len(texts)] and len(texts) >= 40, f"{name}: {texts[-5:]} of {before}"


@case("--life 1, and both ends are killed", {"orders": 400}, 25)
def short_life(place):
    """Each second's first text begins a session."""
    for turn in range(4):
        place.put(streams_of(place, 100 * (turn + 1), 100 * turn))
        running = place.start("sender", life="1"), place.start("receiver")
        time.sleep(1.2)
        place.kill(*running)
    place.start("sender", life="1")
    place.receive()
    assert sessions_of_orders(place) == 4, f"{sessions_of_orders(place)} sessions"


@case("all clocks are set on by two days", {"orders": 20, "bills": 20}, 40)
def clocks_on(place):
    """As after a sleep, so that the ticket has ended: sessions that have begun go on, and a new one begins at once,
    since another ticket is asked for."""
    place.step_clocks(0)
    realm = realms.Realm(f"{place.folder}/realm", place.env)

    def expect_count(name, count, what, seconds=8):
        place.expect(lambda: len(place.delivered()[name]) == count, what, seconds)
    try:
        place.realm, place.env = realm, {**realm.environment(), **{name: place.env[name] for name in
                                                                   ("LD_PRELOAD", "CONDITIONS")}}
        place.keytab, place.receiver_keytab = realm.path("sender.keytab"), realm.path("receiver.keytab")
        place.put(streams_of(place, 10, streams=("orders",)))
        place.start("sender")
        place.start("receiver", skew=str(7 * DAY))
        expect_count("orders", 10, "nothing is delivered")
        place.step_clocks(2 * DAY)
        place.put(streams_of(place, 20, 10, streams=("orders",)))
        expect_count("orders", 20, "the session stands")
        place.put(streams_of(place, 20, streams=("bills",)))
        expect_count("bills", 20, "no new session begins", 12)
        place.await_delivered()
    finally:
        realm.stop()


@case("100 streams begin a session each second, and what has ended is forgotten",
      {f"stream-{it}": 26 for it in range(100)}, 90)
def sessions_end(place):
    """By --life 1. Those that have ended leave the outbox and the receipts, and both ends' memory once they are as
    many as the others."""
    streams = tuple(place.case.wanted)
    place.put([])
    running = place.start("sender", life="1"), place.start("receiver")
    for it in range(place.case.wanted[streams[0]]):
        place.put([(name, f"{name} {it}".encode()) for name in streams])
        time.sleep(1.05)
    place.await_delivered()
    place.await_no_frames()
    for name, process in zip(("sender", "receiver"), running):
        assert place.has_logged(process, "sessions_forgotten"), f"{name}: nothing is forgotten"
    sessions = place.count("store", "opened")
    assert sessions >= 20 * len(streams), f"{sessions} sessions"
    for of, table in (("outbox", "opened"), ("outbox", "session"), ("carrier", "receipt")):
        rows = place.count(of, table)
        assert rows <= 8 * len(streams), f"{of}: {rows} rows of {table} are left of {sessions} sessions"


# ---- keys at rest

def find_keys(place, keys):
    """The files of both databases, as they are on the disk, that have one of these keys."""
    found = []
    for path in sorted(glob.glob(f"{place.folder}/*.db*")):
        if os.path.basename(path).startswith(("outbox.db", "store.db", "carrier.db")):
            with open(path, "rb") as file:
                text = file.read()
            found += [os.path.basename(path) for key in keys if key in text or key.hex().encode() in text.lower()]
    return found


@case("keys at rest, and newer keys in the keytabs", {"orders": 100, "bills": 100}, 30)
def at_rest(place):
    """No database and no write-ahead log has a key in the clear; keys are wrapped anew when the
    keytabs get newer ones, and the old ones can go."""
    sender, receiver = "rest-sender", "rest/receiver"
    place.keytab, place.client = place.realm.add(sender), sender
    place.receiver_keytab = place.realm.add(receiver)
    place.allow(sender)
    given = {"service": receiver}
    keys = require_wrapped(place, given)

    def kvnos():
        return [place.ask(name, "SELECT DISTINCT kvno FROM opened") for name in ("outbox", "store")]
    before, keytabs = kvnos(), ((place.keytab, sender), (place.receiver_keytab, receiver))
    for keytab, name in keytabs:
        place.realm.kadmin(f"ktadd -q -k {keytab} {name}")
    running = place.start_both(**given)
    place.expect(lambda: kvnos() == [[(3,)], [(3,)]], f"not wrapped anew: {before}")
    place.end(*running)
    for keytab, name in keytabs:
        place.realm.kadmin(f"ktremove -q -k {keytab} {name} old")
    place.start_both(**given)
    place.pass_on(streams_of(place, 100, 50))
    assert len(place.opened()) == len(place.case.wanted), "a session was begun anew"
    assert not find_keys(place, keys), "keys in the clear at last"


def require_wrapped(place, given):
    """The keys of sessions that have begun, none of which is in the clear in a file, while programs run and after."""
    place.put(streams_of(place, 50), given=given)
    running = place.start_both(**given)
    place.expect_delivered(dict.fromkeys(place.case.wanted, 50))
    logs = [it for it in os.listdir(place.folder) if it.endswith("-wal")]
    assert {"outbox.db-wal", "store.db-wal"} <= {*logs}, f"no write-ahead log: {logs}"
    keys = place.keys(*place.opened())
    assert not find_keys(place, keys), "keys in the clear while both ends run"
    assert (len(set(keys)) == len(place.case.wanted)
            and all(len(it) == (16 if place.etype == 17 else 32) for it in keys)), f"{len(keys)} keys"
    place.kill(*running)      # so that the write-ahead logs stay
    assert not find_keys(place, keys), f"keys in the clear: {find_keys(place, keys)}"
    return keys


@case("wrapped keys of two rows are exchanged", {"one": 20, "two": 20}, 25)
def exchanged_rows(place):
    """In the store: neither serves the other's session."""
    place.deliver(streams_of(place, 10), {"one": 10, "two": 10})
    (one, key), (other, other_key) = place.ask("store", "SELECT name, key FROM opened ORDER BY name")
    place.change("store", "UPDATE opened SET key = ? WHERE name = ?", [(other_key, one), (key, other)])
    place.send(streams_of(place, 20, 10))
    receiver = place.start("receiver")
    place.expect_logged(receiver, "key_of_another_row", "it isn't noticed")
    place.start("sender")
    place.await_delivered()     # its openings wrap them as they were


@case("options that don't go together", {}, 5)
def words(place):
    for name, without in (("sender", "client"), ("sender", "service"), ("receiver", "allow")):
        command = place.command(name)
        at = command.index(f"--{without}")
        done = subprocess.run(command[:at] + command[at + 2:], check=False, timeout=cases.LIMIT,
                              stdout=subprocess.PIPE, stderr=subprocess.STDOUT, text=True)
        assert done.returncode == 2 and "name all" in done.stdout, \
            f"{name} without --{without}: {done.returncode} {done.stdout[:200]}"


@case("openings are too old when they are read, and made anew", {"orders": 40}, 25)
def opening_anew(place):
    """They are of five seconds ago, by a clockskew of three; the sender makes them anew."""
    use_skew(place, 3)
    place.send(streams_of(place, 20))
    time.sleep(5)
    receiver = place.start("receiver")
    place.expect_refused(receiver, "OPENING_SKEW")
    place.start("sender")
    place.pass_on(streams_of(place, 40, 20))
    assert len(place.opened()) == 1, f"{len(place.opened())} sessions"


# ---- a carrier that loses all, and servers that are away

@case("the carrier's file is deleted, three times", {"orders": 600, "bills": 600}, 30)
def carrier_lost(place):
    """Both ends are killed then, amid texts."""
    test_receipts.lose_carrier(place, lambda turn: streams_of(place, 200 * (turn + 1), 200 * turn), 0.3)
    place.relay()
    place.await_no_frames()


@case("all is lost before anything was read", {"orders": 100}, 15)
def receipts_lost_with_carrier(place):
    place.put(streams_of(place))
    place.drain()
    place.unlink("carrier")
    place.relay()


class Nodes:
    """Streams over three nodes to PostgreSQL. Sessions get a new key every two seconds."""

    GIVEN = {"replicas": "3", "ticket-shards": "2"}

    def __init__(self, place):
        self.place, self.dice, self.running = place, random.Random(7), {}
        os.mkdir(f"{place.folder}/postgres")
        for path in (place.folder, f"{place.folder}/postgres"):
            os.chmod(path, 0o755)       # so that another user's server gets there
        place.start_nats(nodes=3)
        self.postgres = engines.Postgres(f"{place.folder}/postgres")
        place.put([], given=self.GIVEN)
        for name in ("sender", "receiver 1", "receiver 2"):
            self.start(name)

    def start(self, name):
        more = {"life": "2"} if name == "sender" else {
            "store": self.postgres.where, "batch": "50", "shards": "0,1"}
        self.running[name] = self.place.start(name.split()[0], **self.GIVEN | more)

    def disturb(self):
        """Kills one of the programs, or a node, and starts it again."""
        name = self.dice.choice(("sender", "receiver 1", "receiver 2", "node"))
        if name == "node":
            node = self.dice.randrange(3)
            self.place.nats.kill(node)
            time.sleep(0.7)
            self.place.nats.start(node)
        else:
            self.place.kill(self.running[name])
            self.start(name)
        time.sleep(self.dice.uniform(0.2, 0.9))

    def delivered(self):
        """The texts of each stream in PostgreSQL."""
        rows = {name: [] for name in self.place.case.wanted}
        for name, text in self.postgres.ask("SELECT stream, convert_from(text, 'UTF8') FROM effect ORDER BY id"):
            rows[name].append(text)
        return rows

    def require_delivered(self):
        """All are there at last, in order, each once."""
        wanted = {name: [f"{name} {it}" for it in range(count)] for name, count in self.place.case.wanted.items()}
        count = sum(self.place.case.wanted.values())
        self.place.wait(lambda: sum(map(len, self.delivered().values())) >= count, 90)
        had = self.delivered()
        assert had == wanted, (
            "not once and in order: "
            f"{ {name: (len(texts), len(set(texts))) for name, texts in had.items()} }")

    def stop(self):
        self.place.kill(*self.running.values())
        self.postgres.stop()


@case("three nodes and PostgreSQL, whose nodes and both ends are killed",
      {"orders": 1500, "bills": 1500, "notes": 1500}, 120)
def nodes(place):
    """By turns."""
    it = Nodes(place)
    try:
        for turn in range(15):
            place.put(streams_of(place, 100 * (turn + 1), 100 * turn))
            it.disturb()
        it.require_delivered()
        count = int(it.postgres.ask("SELECT count(*) FROM opened")[0][0])
        assert count > len(place.case.wanted), f"{count} sessions"
        keys = it.postgres.ask("SELECT key FROM opened")
        assert all(len(key) > 100 for key, in keys), "a key that isn't wrapped"
        place.await_no_frames(20)
    finally:
        it.stop()


def expect_held(place, port, count):
    """The numbers say that so many sessions wait for a ticket."""
    name = "krbrelay_sender_held_sessions{}"
    place.expect(lambda: numbers(port).get(name) == str(count), lambda: f"held_sessions is {numbers(port).get(name)}")


@case("there is no KDC at first", {"orders": 1, "tom": 1}, 90, (TOM,))
def no_kdc(place):
    """Sessions of the file go on, and streams once it is there. Until then the numbers and carrier/status say that one
    session waits."""
    def held():
        return [it for it in place.status("--outbox", place.outbox, "--standing")[1].values()
                if it[8:10] == ["held", "since"] and it[-1] == "orders"]
    place.realm.stop()
    try:
        place.put([("tom", b"tom 0"), ("orders", b"orders 0")])
        port = engines.free_ports(1)[0]
        sender = place.start("sender", metrics=f"127.0.0.1:{port}")
        place.start("receiver")
        place.expect_delivered({"tom": 1}, "the file's session is held up", 5)
        place.expect_logged(sender, "ticket_missing", "nothing says that there is no ticket")
        assert not place.delivered()["orders"], "a stream without a ticket"
        expect_held(place, port, 1)
        place.expect(lambda: len(held()) == 1, lambda: f"status: {held()}", 20)
    finally:
        place.realm.start()
    place.await_delivered()
    expect_held(place, port, 0)


for at, it in enumerate(CASES):
    it.etype = ETYPES[at % 2]
test_case = cases.tested(NOT_RIGHT + CASES)
