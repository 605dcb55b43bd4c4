"""What an operator sees: the numbers that programs show, and carrier/status. Cases as those of test_repro.py."""
import os
import signal
import time

import builds
import cases
import engines
import pytest
from cases import ANN, TOM, close, get, numbers, texts

CASES, case = cases.table()
DAY = 86400             # seconds


def require_age(place, process, port, first):
    """Since when the oldest text waits, as far as that is known: here as a sender finds it that was stopped for a
    while. Texts of a session without a line, which waits for somebody, don't count."""
    place.put(texts("nobody", 0, 2))
    place.expect(lambda: place.count("outbox", "stopped"), "nobody is stopped")
    for number, (since, is_right) in enumerate((("since - 100", lambda age: age and 100 <= float(age) < 110),
                                                ("0", lambda age: age is None))):
        process.send_signal(signal.SIGSTOP)
        place.put(texts("ann", first + number, first + number + 1))
        place.change("outbox", f"UPDATE text SET since = {since} WHERE session = 'ann'")
        place.change("outbox", "UPDATE text SET since = 1000 WHERE session = 'nobody'")
        time.sleep(1.2)
        process.send_signal(signal.SIGCONT)
        place.expect(lambda: is_right(numbers(port).get("krbrelay_sender_oldest_text_seconds{}")),
                     f"the age, {since}", 1)
        time.sleep(2)
    assert float(numbers(port)["krbrelay_sender_oldest_text_seconds{}"]) == 0, "the age, of none"


def require_delays(place, port, wanted):
    """How many texts took so many seconds at most, from their insertion to their receipt; those of which it isn't known
    when they were put in don't count. They add up to what the buckets allow."""
    name = "krbrelay_sender_delay_seconds"

    def shown():
        told = numbers(port)
        return {bound: int(told[f'{name}_bucket{{le="{bound}"}}']) for bound in wanted}, int(told[f"{name}_count{{}}"])

    place.expect(lambda: shown() == (wanted, wanted["+Inf"]), lambda: f"texts by their delay: {shown()}", 4)
    buckets = [int(count) for key, count in numbers(port).items() if key.startswith(f"{name}_bucket")]
    assert len(buckets) == 14 and buckets == sorted(buckets), f"buckets: {buckets}"
    slow = wanted["300"] - wanted["100"]
    seconds = float(numbers(port)[f"{name}_sum{{}}"])
    assert 100 * slow < seconds < 300 * slow + 100 * wanted["100"], f"seconds of all: {seconds}"


def require_build(place, port, program):
    """Its version is that of this repository."""
    with open(os.path.join(builds.SOURCES, "../VERSION"), encoding="utf-8") as file:
        version = file.read().strip()
    named = f'krbrelay_{program}_build_info{{version="{version}",library="{version}",with="sqlite'
    found = [number for key, number in numbers(port).items() if key.startswith(named)]
    assert found == ["1"], f"{named}: {found}"


def require_no_work(place, port):
    """An idle sender waits: that is no time for the carrier."""
    name = "krbrelay_sender_carrier_seconds_total{}"
    before = float(numbers(port)[name])
    time.sleep(2)
    rose = float(numbers(port)[name]) - before
    assert rose < 0.5, f"{name} rose by {rose} s in 2 s of an idle sender"


def wrong_key(place):
    """A file of sessions in which tom has another key."""
    return place.other([ANN, TOM.replace("22" * 32, "33" * 32)])


@case("the numbers that programs show", {"ann": 300}, 60, is_quick=True)
def metrics(place):
    """The numbers are those that the files have; a session with a wrong key stands, by name."""
    if not builds.has_library("libmicrohttpd"):     # with --all the programs aren't built without it
        pytest.skip("metrics, without libmicrohttpd-dev")
    sender, receiver = engines.free_ports(2)
    place.put(texts("ann", 0, 300) + texts("tom", 0, 7))
    place.start("sender", metrics=f"127.0.0.1:{sender}")
    place.receive(metrics=f"127.0.0.1:{receiver}", sessions=wrong_key(place))
    wanted = {(sender, 'krbrelay_sender_sealed_frames_total{}'): "307",
              (sender, 'krbrelay_sender_waiting_frames{shard="0"}'): "0",
              (receiver, 'krbrelay_receiver_texts_total{shard="0"}'): "300",
              (receiver, 'krbrelay_receiver_refused_frames_total{shard="0",reason="BAD_INTEGRITY"}'): "7",
              (receiver, 'krbrelay_receiver_refused_frames_total{shard="0",reason="NO_LINE"}'): "0",
              (sender, 'krbrelay_sender_oldest_text_seconds{}'): "0",
              (receiver, 'krbrelay_receiver_offset{shard="0"}'): "307",
              (receiver, 'krbrelay_receiver_lag_frames{shard="0"}'): "0",
              (receiver, 'krbrelay_receiver_session_stands{shard="0",session="tom"}'): "1"}
    for (port, name), number in wanted.items():
        fine = place.wait(lambda: numbers(port).get(name) == number, 60)
        assert fine, f"{name} isn't {number}: {numbers(port).get(name)}"
    require_delays(place, sender, {"100": 300, "300": 300, "+Inf": 300})
    for port, program in ((sender, "sender"), (receiver, "receiver")):
        require_build(place, port, program)
        assert get(port, "/healthz")[0] == 200, f"/healthz: {get(port, '/healthz')}"
        assert get(port, "/other")[0] == 404, "/other is there"
    place.require_run("receiver", status=1, event="metrics_unopened", what="a port that is taken", seconds=2,
                      metrics=f"127.0.0.1:{sender}")


@case("how long the oldest text waits, and what an idle sender does", {"ann": 1}, 15)
def ages(place):
    port, = engines.free_ports(1)
    place.put(texts("ann", 0, 1))
    process = place.start("sender", metrics=f"127.0.0.1:{port}")
    place.receive()
    require_no_work(place, port)
    require_delays(place, port, {"100": 1, "300": 1, "+Inf": 1})
    require_age(place, process, port, 1)
    require_delays(place, port, {"100": 1, "300": 2, "+Inf": 2})


@case("carrier/status, of a session that stands and one that is stopped", {"ann": 5}, 60, is_quick=True)
def status(place):
    """Of a session that is closed, one that stands since a key is wrong, and one without a line."""
    place.put(texts("ann", 0, 5) + close("ann") + texts("tom", 0, 5) + texts("nobody", 0, 2))
    place.start("sender")
    receiver = place.receive(sessions=wrong_key(place))
    where = ("--outbox", place.outbox, "--store", place.store, "--carrier", place.carrier)
    place.expect(lambda: "no receipt came" in " ".join(place.status(*where)[1]["tom"]),
                 "it isn't said that tom has no receipt", 25)
    code, lines = place.status(*where)
    told = {name: line[1:9] for name, line in lines.items()}
    assert code == 0 and lines["ann"][8:] == ["closed"], f"{code}: {lines}"
    assert told["ann"] == ["0", "7", "7", "7", "0", "0", "7", "closed"], f"ann: {told['ann']}"
    assert told["tom"] == ["0", "6", "6", "1", "5", "0", "-", "stands"], f"tom: {told['tom']}"
    assert told["nobody"][5:] == ["2", "-", "stopped"], f"nobody: {told['nobody']}"
    read, end, lag = lines["0"][1:]
    assert read == end and int(end) >= 11 and lag == "0", f"shard 0: {lines['0']}"
    code, lines = place.status(*where, "--standing")
    assert code == 1 and {"tom", "nobody"} == set(lines) - {"NAME", "SHARD", "0"}, f"--standing: {code}: {lines}"
    place.end(receiver)
    place.start("receiver")
    place.await_delivered({"tom": 5})
    place.expect(lambda: "tom" not in place.status(*where, "--standing")[1],
                 lambda: f"afterwards: {place.status(*where, '--standing')}")


@case("carrier/status, of a session whose frames are refused", {"ann": 5}, 40)
def status_of_refused(place):
    """Its receiver's clock is wrong: so its store and its outbox say."""
    place.put(texts("ann", 0, 5))
    place.start("sender")
    receiver = place.start("receiver", clock=2 * DAY)
    outbox, store = ("--outbox", place.outbox), ("--store", place.store)
    for words, wanted in ((outbox, "receivers refuse frame 1"), (store, "the time is off")):
        assert place.wait(lambda: wanted in " ".join(place.status(*words)[1].get("ann", [])), 10), \
            f"{wanted}: {place.status(*words)}"
    place.end(receiver)
    place.receive()
    for words in (outbox, store):
        assert place.wait(lambda: place.status(*words, "--standing")[0] == 0, 5), f"afterwards: {place.status(*words)}"


test_case = cases.tested(CASES)
