"""No text is lost or overtaken, whatever is restored, copied, or unreadable for a moment: cases as those of
test_repro.py, each a fault that a review found."""
import signal
import time

import cases
import engines
import jetstream
import test_repro
from cases import ANN, WITH_RECEIPTS, close, get, numbers, texts

CASES, case = cases.table(lines=(ANN,))
OTHERS = 65_536         # frames of others
FIRST_TEXTS, MANY_FIRST = 2_048, 20_000     # sessions with a text each
MANY = 40               # sessions that wait for a receipt
SOON = 0.1              # seconds
SHARDS, IN_EACH = 32, 1_000
LATER = 5_000           # frames after others, more than are read again at a shard's end
OLDER, BELOW_31 = "older than what has left", "all below 31 took effect"
AGAIN = "SELECT shard, session, frame FROM carried WHERE offset = "      # a frame, to be inserted once more


def new_texts(name, count):
    return [(name, f"new {it}".encode()) for it in range(count)]


def drain(place, rows=(), receiver=True):
    """Puts texts, sends what can be sent, and has it delivered: the sender's status."""
    if rows:
        place.put(rows)
    status, _ = place.run("sender", "--drain", seconds=8)
    if receiver:
        it = place.start("receiver")
        time.sleep(1 if place.nats is None else 3)
        place.end(it)
    return status


def require_unlost(place, status, reason):
    """The session is stopped with this reason, and its new texts wait."""
    waiting = place.count("outbox", "text")
    assert waiting == 100, f"{waiting} texts wait"
    assert status == 4, f"sender --drain: status {status}"
    place.require_stopped("ann", reason)
    place.await_delivered()


def carry(place, sql, rows=((),)):
    """Puts frames into the carrier, as the rest of a statement says."""
    place.change("carrier", f"INSERT INTO carried (shard, session, frame) {sql}", rows)


def send_until_receipts(place):
    """A sender runs until nothing of it waits for the carrier or a receipt."""
    sender = place.start("sender")
    place.expect(lambda: place.frames() == 0, "no receipt came", 8)
    time.sleep(0.2)
    place.end(sender)


# ---- an outbox that is restored

def deliver_after_a_backup(place):
    """30 texts, and a copy of the outbox after 10 of them."""
    drain(place, texts("ann", 0, 10))
    send_until_receipts(place)
    place.backup()
    drain(place, texts("ann", 10, 30))
    place.restore()
    place.put(new_texts("ann", 100))


@case("an outbox is restored, and the carrier has no frame any more", {"ann": 30}, 20, called="restored_and_purged",
      given=(None,))
@case("it is restored beside 70,000 later frames of others", {"ann": 30}, 20, called="restored_and_others",
      given=("VALUES (0, 'bob', ?)", [(b"x",)] * 70_000))
@case("it is restored, and the last frame of its session is junk", {"ann": 30}, 20, called="restored_and_junk",
      given=("VALUES (0, 'ann', x'00')",))
@case("it is restored, and the last frame is an old one", {"ann": 30}, 20, called="restored_and_repeated",
      given=(AGAIN + "1",))
def restored_and(place, sql, rows=((),)):
    """With other frames in the carrier, or with none."""
    deliver_after_a_backup(place)
    if sql:
        carry(place, sql, rows)
    else:
        place.change("carrier", "DELETE FROM carried")
    require_unlost(place, drain(place, receiver=len(rows) == 1), OLDER)


@case("it is restored, no receipt has come, and the last frame is junk", {"ann": 3}, 20, (WITH_RECEIPTS,),
      called="restored_unread_junk", given=("VALUES (0, 'ann', x'00')",))
@case("it is restored, no receipt has come, and the last frame is an old one", {"ann": 3}, 20, (WITH_RECEIPTS,),
      called="restored_unread_repeat", given=(AGAIN + "1",))
def restored_unread(place, sql):
    """What is put in afterwards isn't taken for delivered: the first receipt stops the session."""
    place.send(texts("ann", 0, 1))
    place.backup()
    place.send(texts("ann", 1, 3))
    place.restore()
    carry(place, sql)
    place.put(new_texts("ann", 2) + close("ann"))
    sender, _ = place.relay()
    place.expect(lambda: place.count("outbox", "stopped") == 1, "it isn't stopped", 8)
    place.require_stopped("ann", "took effect")
    place.end(sender)
    assert place.kept() == 4, f"of four texts and the close it keeps {place.kept()}"


def seal_only(place, count, outbox="outbox"):
    """A sender that seals so many texts, and whose frames are all lost."""
    place.env["CARRIER_FAULTS"] = "1000"
    sender = place.start("sender", outbox=place.path(outbox))
    del place.env["CARRIER_FAULTS"]
    place.expect(lambda: place.ask(outbox, "SELECT next FROM session")[:1] == [(count + 1,)], "nothing was sealed", 8)
    place.kill(sender)


@case("it is restored with frames, which leave again", {"ann": 30}, 25)
def restored_with_its_frames(place):
    """They aren't carried: they are published again, and are the last ones then."""
    place.put(texts("ann", 0, 10))
    seal_only(place, 10)
    place.backup()
    drain(place, texts("ann", 10, 30))
    place.restore()
    place.run("sender", "--drain")      # the frames leave again, and nothing else
    require_unlost(place, drain(place, new_texts("ann", 100)), OLDER)


@case("it is restored, and its last receipt is all that is left", {"ann": 30}, 20, (WITH_RECEIPTS,),
      called="restored_and_receipted", given=(True, BELOW_31))
@case("it is restored, its stream was purged; receipts", {"ann": 30}, 30, (WITH_RECEIPTS,), nats="",
      called="restored_and_purged_stream", given=(True, BELOW_31))
@case("the same of a line without a key of the way back", {"ann": 30}, 30, nats="", called="restored_without_a_key",
      given=(True, BELOW_31))
@case("it is restored over JetStream", {"ann": 30}, 30, nats="", called="restored_beside_frames",
      given=(False, OLDER))
def restored_beside(place, is_purged, reason):
    """The last receipt is there, and no frame; or all frames, of which the last is an old one."""
    deliver_after_a_backup(place)
    if is_purged and place.nats:
        place.request("STREAM.PURGE.KRB_0")
    elif is_purged:
        place.change("carrier", "DELETE FROM carried")
    require_unlost(place, drain(place), reason)


@case("it is restored, and no frame and no receipt is left", {}, 40, (WITH_RECEIPTS,), nats="")
def restored_and_all_purged(place):
    """The next receipt stops the session. Its texts stay in `sealed`, whether they took effect or not."""
    deliver_after_a_backup(place)
    for stream in ("KRB_0", "KRB_RECEIPTS"):
        place.request(f"STREAM.PURGE.{stream}")
    running = place.start("receiver"), place.start("sender")
    place.expect(lambda: place.count("outbox", "stopped") > 0, "it isn't stopped", 15)
    place.require_stopped("ann", "not all frames below number")
    place.end(*running)
    assert place.kept() == 100, f"of 100 texts it keeps {place.kept()}"


# ---- all of it is restored, from copies that were made in their order

IN_ORDER = ("store", "outbox", "carrier")


def copy_all(place, names):
    for it in names:
        place.backup(f"{it}.copy", it)


def restore_all(place):
    for it in IN_ORDER:
        place.restore(f"{it}.copy", it)


@case("store, outbox and carrier are restored, of one moment", {"ann": 30}, 30, (WITH_RECEIPTS,))
def copied_in_order(place):
    """No sender runs while they are copied: once all is restored, all goes on."""
    drain(place, texts("ann", 0, 10))
    place.put(texts("ann", 10, 20))
    copy_all(place, IN_ORDER)
    drain(place)
    restore_all(place)
    place.start_both()
    place.await_delivered({"ann": 20})
    place.pass_on(texts("ann", 20, 30))
    assert place.count("outbox", "stopped") == 0, "the session is stopped"


@case("they are restored; frames left between the copies", {"ann": 20}, 20, called="copied_amid_texts", given=(OLDER,))
@case("the same with receipts", {"ann": 20}, 20, (WITH_RECEIPTS,), called="copied_amid_texts_receipted",
      given=("all below 21 took effect",))
def copied_amid(place, reason):
    """Frames leave between the copies of the outbox and of the carrier: all that left takes effect, and the session is
    stopped. Receipts say so, where they had come; else the carrier's frames."""
    drain(place, texts("ann", 0, 10))
    if reason != OLDER:
        send_until_receipts(place)
    copy_all(place, IN_ORDER[:2])
    drain(place, texts("ann", 10, 20))
    copy_all(place, IN_ORDER[2:])
    if reason == OLDER:
        drain(place, texts("ann", 20, 30))
    restore_all(place)
    require_unlost(place, drain(place, new_texts("ann", 100)), reason)


# ---- an outbox that is copied

def copied_and_cut_off(place):
    """A copy seals while it is cut off from the carrier; the first outbox goes on. Each has sealed texts
    under the same numbers then."""
    drain(place, texts("ann", 0, 10))
    send_until_receipts(place)
    place.backup("copy")
    place.put(new_texts("ann", 5), outbox=place.path("copy"))
    seal_only(place, 15, "copy")
    drain(place, texts("ann", 10, 15))


@case("a copy of an outbox seals the same numbers; receipts", {"ann": 15}, 25, (WITH_RECEIPTS,))
def copied_with_receipts(place):
    copied_and_cut_off(place)
    sender = place.start("sender", outbox=place.path("copy"))
    place.wait(lambda: place.count("copy", "stopped"), 10)
    time.sleep(2)
    place.end(sender)
    kept = place.count("copy", "frame"), place.count("copy", "sealed")
    assert kept == (5, 5), f"the copy keeps {kept} frames and texts"
    place.require_stopped("ann", "are of this outbox", "copy")
    place.await_delivered()


@case("a copy of an outbox has sealed the same numbers, and gets texts", {"ann": 15}, 25)
def copied_and_sealed(place):
    """Before its sender begins: it hears the last receipt first."""
    copied_and_cut_off(place)
    place.put(new_texts("ann", 3), outbox=place.path("copy"))
    place.drain(status=4, outbox=place.path("copy"), seconds=8)
    place.require_stopped("ann", "are of this outbox", "copy")
    assert place.count("copy", "text") == 3, "texts left that were put in later"
    place.await_delivered()


@case("senders of two copies of an outbox run side by side", {}, 40, (WITH_RECEIPTS,))
def copied_and_both_run(place):
    """Both get texts: those of one take effect, and those of the other wait, with the reason."""
    place.put(texts("ann", 0, 10))
    receiver = place.start("receiver")
    send_until_receipts(place)
    place.backup("copy")
    copy = place.path("copy")
    senders = place.start("sender"), place.start("sender", outbox=copy)
    for it in range(50):
        place.put([("ann", f"one {it}".encode())])
        place.put([("ann", f"two {it}".encode())], outbox=copy)
        time.sleep(0.02)
    place.expect(lambda: place.count("outbox", "stopped") + place.count("copy", "stopped") > 0, "neither is stopped", 8)
    place.wait(lambda: place.count("store", "effect") >= 60, 5)
    place.end(*senders, receiver)
    effects = place.delivered()["ann"]
    for name, word in (("outbox", "one"), ("copy", "two")):
        took, kept = [it for it in effects if it.startswith(word)], place.kept(name)
        assert took == [f"{word} {it}" for it in range(50) if f"{word} {it}" in took], f"{name}: out of order: {took}"
        assert len(took) + kept >= 50, f"{name}: {len(took)} took effect, and it keeps {kept}"
        assert len(took) == 50 or place.count(name, "stopped") == 1, f"{name} isn't stopped"


# ---- a receiver without memory

@case("a refused frame can't be looked at, since there is no memory", {"ann": 3, "tom": LATER}, 30,
      (ANN, cases.TOM))
def no_memory_at_a_refusal(place):
    """Nothing is known of a frame that couldn't be looked at: it is read again. If it were taken for
    nobody's, the copy of it that comes later would move the place past the frame between them."""
    for it in range(3):
        place.send(texts("ann", it, it + 1))
    carry(place, AGAIN + "2")
    place.put(texts("tom", 0, LATER))       # so that the shard's end isn't all of it
    place.run("sender", "--drain", seconds=15)
    place.env |= {"TAKEN_AHEAD": "2", "OPENS_WITHOUT_MEMORY": "1"}
    place.receive()


# ---- what the outbox, the numbers and carrier/status say

@case("the line of a session with frames is taken out", {"ann": 3}, 25, (ANN, cases.TOM))
def line_gone(place):
    """They wait, with the reason."""
    place.put(texts("ann", 0, 3))
    seal_only(place, 3)
    place.replace(place.sessions, [cases.TOM])
    place.drain(status=4, seconds=8)
    place.require_stopped("ann", "no line among the sessions")
    code, lines = place.status("--outbox", place.outbox, "--standing")
    assert code == 1 and lines["ann"][8:10] == ["stopped", "since"], f"status: {code}: {lines}"
    place.replace(place.sessions, [ANN])
    place.drain(seconds=8, what="it isn't sent with its line")
    assert place.count("outbox", "stopped") == 0, "it is stopped though it has a line"
    place.receive()


@case("the outbox's file is replaced below a sender", {"ann": 6}, 15)
def outbox_replaced(place):
    """The sender ends, and the next one reads the new file."""
    sender, _ = test_repro.start_both(place, 5)
    place.backup()
    place.restore()
    place.put(texts("ann", 5, 6))
    place.expect(lambda: sender.poll() == 1, lambda: f"it ends with {sender.poll()}")
    assert "outbox_replaced" in place.log(sender), "it doesn't say why"
    place.start("sender")
    place.await_delivered()


def shown(port, name):
    """A number that a sender shows, or None."""
    number = numbers(port).get(f"krbrelay_sender_{name}{{}}")
    return number and float(number)


@case("texts of two names without a line, in turns", {}, 15)
def stopped_names(place):
    """Two sessions are stopped, however often that is looked at."""
    port = engines.free_ports(1)[0]
    place.put([(f"typo{it % 2}", b"x") for it in range(500)])
    place.start("sender", metrics=f"127.0.0.1:{port}")
    place.expect(lambda: place.count("outbox", "text") == 500 and place.count("outbox", "stopped") == 2,
                 "two aren't stopped", 8)
    time.sleep(1.2)
    stopped = shown(port, "stopped_sessions")
    assert stopped == 2, f"stopped_sessions is {stopped}"


@case("500 frames wait for receipts", {"ann": 500}, 25, (WITH_RECEIPTS,))
def waiting_shown(place):
    """They are carried: the numbers and carrier/status say so, until the receipt comes."""
    port, name = engines.free_ports(1)[0], "frames_without_receipt"
    place.put(texts("ann", 0, 500))
    for program, wanted, line in (("sender", 500, ["1", "500", "0"]), ("receiver", 0, ["501", "0", "0"])):
        place.start(program, **{"metrics": f"127.0.0.1:{port}"} if program == "sender" else {})
        place.expect(lambda: shown(port, name) == wanted, lambda: f"{name} is {shown(port, name)}", 8)
        _, lines = place.status("--outbox", place.outbox)
        assert lines["ann"][:7] == ["ann", "0", "501", "501", *line], f"status: {lines['ann']}"
    place.await_delivered()


# ---- questions that nobody answers, and what has to be looked at

def many_lines():
    return tuple(WITH_RECEIPTS.replace("ann 0", f"w{it} 1").replace("11" * 16, f"{0x40 + it:02x}" * 16)
                 .replace("33" * 16, f"{0x80 + it:02x}" * 16) for it in range(MANY))


@case("40 sessions wait for receipts, of a receiver that has no lines of them", {"ann": 20}, 20, (ANN, *many_lines()))
def receipts_unanswered(place):
    """Another session goes on."""
    place.put([row for it in range(MANY) for row in texts(f"w{it}", 0, 1)])
    place.start("sender")
    place.start("receiver", sessions=place.other([ANN]))
    time.sleep(3)
    for it in range(20):
        place.put(texts("ann", it, it + 1))
        time.sleep(0.1)
    place.await_delivered()


def short_lines(count, line=ANN):
    return tuple(line.replace("ann 0", f"s{it} 0").replace("11" * 16, f"{it:032x}")
                 .replace("33" * 16, f"{2**64 + it:032x}") for it in range(count))


def drain_first_texts(place, count, seconds, before=0):
    """A text of each of so many sessions is carried, beside so many frames that are there."""
    place.put([row for it in range(count) for row in texts(f"s{it}", 0, 1)])
    place.began = time.monotonic()
    place.drain(seconds=seconds)
    assert place.count("carrier", "carried") == before + count, "not all are carried"


@case("first texts of 2,048 sessions beside 65,536 frames", {}, 40, short_lines(FIRST_TEXTS))
def first_texts(place):
    """All are of one shard."""
    place.run("sender", "--drain")
    carry(place, "VALUES (0, 'others', ?)", ((b"x" * 100,) for _ in range(OTHERS)))
    drain_first_texts(place, FIRST_TEXTS, 25, OTHERS)


@case("first texts of 20,000 sessions with receipts", {}, 60, short_lines(MANY_FIRST, WITH_RECEIPTS))
def many_first_texts(place):
    """None waits for a look at all the others."""
    drain_first_texts(place, MANY_FIRST, 50)


# ---- a broker that is away

def shard_lines():
    return tuple(ANN.replace("ann 0", f"t{it} {it}").replace("11" * 16, f"{it + 1:032x}") for it in range(SHARDS))


def of_all_shards(low, high):
    return [row for it in range(SHARDS) for row in texts(f"t{it}", low, high)]


def published(place):
    """So many frames the streams of all shards have."""
    return sum(jetstream.stream(place.nats.ports[0], it)["state"]["messages"] for it in range(SHARDS))


@case("32 shards with a backlog of 1,000 texts each", {}, 60, shard_lines(), nats="")
def backlog_of_shards(place):
    """All of it is confirmed without a stall, and hardly anything twice."""
    place.put(of_all_shards(0, IN_EACH))
    place.began = time.monotonic()
    told = place.drain(seconds=25)
    assert published(place) < 1.5 * SHARDS * IN_EACH, f"{published(place)} frames: {told[-300:]}"


def is_carried(place):
    return not place.ask("outbox", "SELECT 1 FROM session WHERE carried < next")


@case("a node stands for 12 s, and 32 shards have texts", {}, 90, shard_lines(), nats="")
def node_stopped_with_backlogs(place):
    """The windows of the shards fill: then all is confirmed without a stall, and what waited leaves twice at most."""
    place.put(of_all_shards(0, 1))
    sender = place.start("sender")
    place.expect(lambda: place.count("outbox", "session") == SHARDS and is_carried(place),
                 "the first aren't carried", 20)
    place.nats.running[0].send_signal(signal.SIGSTOP)
    place.put(of_all_shards(1, IN_EACH))
    time.sleep(12)
    place.nats.running[0].send_signal(signal.SIGCONT)
    place.expect(lambda: place.count("outbox", "text") == 0 and is_carried(place),
                 "not all is carried 30 s after the node goes on", 30)
    place.end(sender)
    assert published(place) < 3 * SHARDS * IN_EACH, f"{published(place)} frames"


@case("the stream of receipts has one replica, whose node is away", {"ann": 181}, 90, (ANN, *many_lines()), "0,1")
def receipts_node_away(place):
    """The stream of receipts has as many replicas as its receiver said, which is one: a sender and a receiver
    that want three tell so. Its node is away, and 40 sessions wait for receipts: another session goes on, each of
    its texts at once."""
    place.start_nats(nodes=3)
    away, before = prepare_node_away(place)
    place.nats.kill(away)
    server = time_of_the_server(place, place.nats.ports[away - 1])
    place.put([row for it in range(MANY) for row in texts(f"w{it}", 2, 3)])
    place.start("receiver", sessions=place.other([ANN]))
    first = time_until_delivered(place, "ann", 61)
    took = [time_until_delivered(place, "ann", it) for it in range(62, 181)]
    place.expect_delivered(place.case.wanted, "another session stands", 5)
    print(f"the nodes by themselves {server:.1f} s, a receiver that begins then {first:.3f} s, each text after that"
          f" {sorted(took)[len(took) // 2]:.3f} s (median), {max(took):.3f} s at most, {before:.3f} s before")
    late = [it for it in took if it > max(SOON, 2 * before)]    # a busy machine is late by itself
    assert not late, f"late: {late}"


def prepare_node_away(place):
    """The node of the stream of receipts, and the longest time that a text takes while it is there."""
    wanted, waiting = {"replicas": "3"}, [f"w{it}" for it in range(MANY)]
    place.put(texts("w0", 0, 1) + texts("ann", 0, 1), given=wanted)
    receiver = place.start("receiver")
    place.run("sender", "--drain", seconds=20, **wanted)
    place.expect_delivered({"ann": 1, "w0": 1}, seconds=20)
    time.sleep(1)
    place.end(receiver)
    leader = place.request("STREAM.INFO.KRB_RECEIPTS")["cluster"]["leader"]
    place.put(texts("w0", 1, 2) + [row for name in waiting[1:] for row in texts(name, 0, 2)])
    running = place.start_both(**wanted)
    place.expect(lambda: all("receipts_unfit" in place.log(it) for it in running),
                 "not both say that the stream of receipts has one replica", 20)
    place.expect(lambda: place.is_delivered(dict.fromkeys(waiting, 2)) and place.frames() == 0, "no receipts came", 20)
    before = max(time_until_delivered(place, "ann", it) for it in range(1, 61))
    place.end(running[1])
    return int(leader.removeprefix("n")), before


def time_of_the_server(place, port):
    """How long it takes until the other nodes take a frame and make a consumer again, whoever asks: seconds."""
    began = time.monotonic()
    consumer = {"stream_name": "KRB_0", "config": {"deliver_subject": "nobody.here", "ack_policy": "none",
                                                   "num_replicas": 1, "mem_storage": True}}
    taken = place.wait(lambda: jetstream.is_taken(port, 0, patience=0.3), 20)
    made = place.wait(lambda: jetstream.answers(port, "CONSUMER.CREATE.KRB_0", 0.3, **consumer), 20)
    assert taken and made, "two nodes of three take no frame, or make no consumer"
    return time.monotonic() - began


def time_until_delivered(place, name, number):
    """Puts a text, and sees how long it takes until it has its effect: seconds."""
    place.put(texts(name, number, number + 1))
    began = time.monotonic()
    wanted = f"SELECT count(*) FROM effect WHERE session = '{name}'"
    while place.ask("store", wanted)[0][0] <= number and time.monotonic() - began < 5:
        time.sleep(0.002)
    return time.monotonic() - began


@case("a node refuses the password for some seconds", {"ann": 2}, 60,
      nats='authorization { user: "krb", password: "one" }\n')
def credentials_refused(place):
    """Both programs end with status 1, as a unit expects that starts them again, and go on then."""
    path = f"{place.folder}/nats/nats0.conf"
    with open(path, encoding="utf-8") as file:
        right = file.read()

    def start_with(config):
        place.nats.kill(0)
        place.replace(path, [config])
        place.nats.start(0)

    place.write(f"{place.folder}/credentials", ["krb one\n"])
    words = {"credentials": f"{place.folder}/credentials"}
    place.put(texts("ann", 0, 1), given=words)
    running = place.start_both(**words)
    place.expect_delivered({"ann": 1})
    start_with(right.replace('"one"', '"two"'))
    place.expect(lambda: [it.poll() for it in running] == [1, 1],
                 lambda: f"they go on, or end with another status than 1: {[it.poll() for it in running]}", 20)
    assert all("carrier_closed" in place.log(it) for it in running), "they don't say why"
    start_with(right)
    place.put(texts("ann", 1, 2))
    engines.await_port(place.nats.ports[0])
    place.start_both(**words)
    place.await_delivered()


@case("the broker is away for more than ten seconds", {"ann": 2}, 40, nats="")
def health_of_both(place):
    """/healthz says so at both ends, and then that it is there."""
    ports = engines.free_ports(2)
    place.put(texts("ann", 0, 1))
    place.start("sender", metrics=f"127.0.0.1:{ports[0]}")
    place.start("receiver", metrics=f"127.0.0.1:{ports[1]}")
    place.expect_delivered({"ann": 1})
    place.nats.kill(0)
    test_repro.expect_health(place, ports, 503, "/healthz doesn't say that the broker is away, where nothing waits", 20)
    place.put(texts("ann", 1, 2))
    time.sleep(2)
    assert [get(it, "/healthz")[0] for it in ports] == [503, 503], \
        "/healthz doesn't say that it is away, where a text waits"
    silent = shown(ports[0], "silent_seconds")
    assert silent and silent > 10, f"silent_seconds is {silent}"
    place.nats.start(0)
    place.await_delivered()
    test_repro.expect_health(place, ports, 200, "/healthz doesn't say that it is there")


test_case = cases.tested(CASES)
