"""Receipts (carrier/sessions/receipts.h): cases as those of test_repro.py, whose sessions have a key of the way back.
What a carrier confirmed and lost is published again; nothing is lost, and nothing doubled."""
import time

import cases
import test_repro
from cases import LAST, WITH_RECEIPTS, close, texts

TOM = cases.TOM.rstrip("\n") + f" {'55' * 32}\n"
CASES, case = cases.table(lines=(WITH_RECEIPTS,))
LOSSES = 3              # of the carrier, in one run
RECEIPT = "INSERT OR REPLACE INTO receipt VALUES ('ann', ?, ?)"


def done(place, name):
    return (place.ask("outbox", f"SELECT done FROM session WHERE name = '{name}'") or [(0,)])[0][0]


def require_each_once(place):
    """No effect came twice, whatever was published again."""
    twice = place.ask("store", "SELECT session, text, count(*) FROM effect GROUP BY session, text"
                               " HAVING count(*) > 1")
    assert not twice, f"doubled: {twice[:3]}"


def relay_once(place):
    """All is delivered, and no effect came twice."""
    place.relay()
    require_each_once(place)


def deliver_until_receipts(place, rows, count):
    """Texts are delivered. Whether so many receipts are left in the carrier then, of which the sender hasn't heard."""
    place.send(rows)
    receiver = place.receive()
    are_left = place.wait(lambda: place.count("carrier", "receipt") == count, 5)
    place.end(receiver)
    return are_left


def lose_carrier(place, rows_of, seconds):
    """Both ends are killed and the carrier's file is deleted, over and over, amid the rows of each turn."""
    place.put([])
    for turn in range(LOSSES):
        place.put(rows_of(turn))
        running = place.start("sender"), place.start("receiver", batch="16")
        time.sleep(seconds)
        place.kill(*running)
        place.unlink("carrier")


@case("an application learns which of its texts took effect", {"ann": 20}, 10)
def receipts_tell_texts(place):
    """A text is in `text`, then in `sealed` with its number and part, and then in neither."""
    place.send(texts("ann", 0, 20) + close("ann"))
    sealed = place.ask("outbox", "SELECT text, number, part FROM sealed ORDER BY text")
    assert [it[0] for it in sealed] == list(range(1, 22)), f"sealed: {sealed[:3]}"
    assert place.count("outbox", "text") == 0, "texts wait"
    place.receive()
    effects = place.ask("store", "SELECT text, number, part FROM effect WHERE session = 'ann'")
    found = {text: (number, part) for text, number, part in effects}
    wanted = {f"ann {it - 1}".encode(): (number, part) for it, number, part in sealed if it < 21}
    assert found == wanted and len(set(wanted.values())) == 20, f"effects: {effects[:3]}"
    place.start("sender")
    place.await_no_frames()
    assert place.count("outbox", "sealed") == 0, "a text isn't said to have taken effect"


@case("the carrier's file is deleted, three times", {"ann": 3000, "tom": 3000}, 30, (WITH_RECEIPTS, TOM))
def receipts_carrier_lost(place):
    """At any moment, with all that it has confirmed."""
    lose_carrier(place, lambda turn: [row for name in ("ann", "tom")
                                      for row in texts(name, 1000 * turn, 1000 * (turn + 1))], 0.25)
    relay_once(place)
    place.await_no_frames()


@case("the carrier's file is deleted before anything was read", {"ann": 300}, 10)
def receipts_before_reading(place):
    place.put(texts("ann", 0, 300))
    place.drain()
    place.unlink("carrier")
    relay_once(place)


@case("all frames are deleted below a sender, and its probe", {"ann": 100}, 40)
def receipts_frames_gone(place):
    place.put(texts("ann", 0, 100))
    sender = place.start("sender")
    place.expect(lambda: place.ask("outbox", "SELECT 1 FROM session WHERE carried = next AND next = 101"),
                 "not carried", 10)
    for _ in range(2):
        place.expect(lambda: place.count("carrier", "carried") >= 1, "no frames", 15)
        place.change("carrier", "DELETE FROM carried")
    place.receive()
    assert "receipts_missing" in place.log(sender), "it isn't said"
    require_each_once(place)
    place.await_no_frames()


@case("a receiver ends once all is closed, over NATS", {"ann": 3}, 15, nats="")
def last_receipt(place):
    """Within its first second: its last receipt leaves before."""
    place.put(texts("ann", 0, 3) + close("ann"))
    place.start("sender")
    place.expect(lambda: place.frames() == 4, lambda: f"the outbox has {place.frames()} frames", 10)
    receiver = place.start("receiver", "--until-closed")
    place.expect(lambda: receiver.poll() == 0, "the receiver has ended", 15)
    place.await_no_frames()


@case("receipts are lost", {"ann": 100}, 20)
def receipts_lost(place):
    """The sender is away: the receiver seals them again."""
    were_left = deliver_until_receipts(place, texts("ann", 0, 100), 1)
    place.change("carrier", "DELETE FROM receipt")
    place.start("receiver")
    place.start("sender")
    place.await_no_frames(8)
    require_each_once(place)
    assert were_left, "no receipts"


@case("receipts that aren't the session's", {"ann": 50, "tom": 50}, 20, (WITH_RECEIPTS, TOM))
def receipts_forged(place):
    """They delete nothing: junk, another session's, one under the session's own key, and one of an address that isn't
    the receiver's."""
    assert deliver_until_receipts(place, texts("ann", 0, 50) + texts("tom", 0, 50), 2), "no receipts"
    good = dict(place.ask("carrier", "SELECT session, receipt FROM receipt"))
    own = place.ask("carrier", "SELECT frame FROM carried WHERE session = 'ann' ORDER BY offset DESC LIMIT 1")[0][0]
    place.change("carrier", "DELETE FROM receipt")
    forged = [b"", b"junk", bytes(400), good["tom"], own, good["ann"][:-1],
              good["ann"][:-1] + bytes([good["ann"][-1] ^ 1])]
    sender = place.start("sender")
    for row in enumerate(forged, 1):
        place.change("carrier", RECEIPT, [row])
        time.sleep(0.1)
    assert done(place, "ann") == 1 and place.frames() == 100, \
        f"done below {done(place, 'ann')}, {place.frames()} frames are kept"
    place.change("carrier", RECEIPT, [(100, good["ann"])])
    place.expect(lambda: done(place, "ann") == 51, "the good one doesn't count")
    assert sender.poll() is None, "the sender has ended"


@case("an older outbox, of which a receipt is known", {"ann": 200}, 20)
def receipts_old_outbox(place):
    """That it was restored is noticed by a receipt alone."""
    test_repro.put_around_a_backup(place)
    sender, _ = place.relay()
    place.await_no_frames()
    place.end(sender)
    place.restore()
    place.change("carrier", "DELETE FROM carried")
    place.start("sender")
    place.expect(lambda: place.ask("outbox", "SELECT 1 FROM stopped WHERE reason LIKE '%older than what has left%'"),
                 "it isn't stopped")


@case("a session's close has the last number", {"ann": 2}, 15, (WITH_RECEIPTS.replace(" 1 10", f" {LAST - 2} 10"),))
def receipts_last_number(place):
    """That all took effect can be said too."""
    place.put(texts("ann", 0, 2) + close("ann"))
    _, receiver = place.relay()
    place.await_no_frames()
    assert done(place, "ann") == LAST + 1, f"done below {done(place, 'ann')}"
    assert "receipt_unsealed" not in place.log(receiver), "a receipt can't be sealed"


@case("keys of the way back that aren't their own", {}, 10)
def receipts_same_key(place):
    """One that is also another key is refused."""
    for lines in ([WITH_RECEIPTS.replace("33" * 16, "11" * 16)], [TOM.replace("55" * 32, "22" * 32)],
                  [WITH_RECEIPTS, cases.ANN.replace("ann", "abe").replace("11" * 16, "33" * 16)]):
        place.drain(status=1, event="session_repeated", sessions=place.other(lines))


@case("the stream is deleted below both ends, three times", {"ann": 1500}, 60, nats="")
def receipts_stream_deleted(place):
    """And once that of the receipts."""
    place.put([])
    place.start_both()
    for turn in range(LOSSES):
        place.put(texts("ann", 500 * turn, 500 * (turn + 1)))
        time.sleep(0.1)
        for name in ("KRB_0", "KRB_RECEIPTS")[:1 + (turn == 1)]:
            place.request(f"STREAM.DELETE.{name}")
    place.await_delivered()
    require_each_once(place)
    place.await_no_frames(20)


test_case = cases.tested(CASES)
