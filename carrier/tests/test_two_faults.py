"""Two faults at once, done to the machines of machines.py: cases as those of test_machines.py, most of them
of sessions with receipts. What a carrier lost is published again there, so nothing may be lost for good.

Where something is restored, copied or can't be sent, not all takes effect. Then what does is in order and
once, each session that stands or is stopped is named by carrier/status, and its sender keeps what it doesn't
know to have taken effect.
"""
import signal
import time

import cases
import machines
import test_machines
from machines import DATABASE, FIRST, NODES, RECEIVERS, SENDERS
from test_machines import (  # noqa: F401
    Case, fill_for, lose_power, others, place, require_prefixes, start_again, stop_for, template)

HOUR, DAY, YEAR = 3600, 86400, 365 * 86400
COPIED = 30             # texts of each session that a copied outbox gets
REPEATS = 20
TOO_LONG = 1_000_001    # bytes of a text
BAD = "s007"            # the session of which one text is refused
NO_EFFECT = """
CREATE FUNCTION no_effect() RETURNS trigger LANGUAGE plpgsql AS $$ BEGIN
 IF encode(NEW.text, 'escape') LIKE '{} 20 %' THEN RAISE EXCEPTION 'no such effect'; END IF;
 RETURN NEW; END $$;
CREATE TRIGGER no_effect BEFORE INSERT ON effect FOR EACH ROW EXECUTE FUNCTION no_effect()"""
AN_EFFECT = """CREATE OR REPLACE FUNCTION no_effect() RETURNS trigger LANGUAGE plpgsql
 AS 'BEGIN RETURN NEW; END'"""

CASES, case = cases.table(Case, seconds=75)
R = {"has_receipts": True}
R_18 = R | {"seconds": 18}
SHARED = R | {"is_shared": True}
DISKS = {"n0": "24m", "n1": "24m", "n2": "24m", "s0": "40m"}
MANY = R | {"sessions": 300, "rate": 900, "size": 60}
# Why a shard of JetStream 2.9.10 may stay down.
STUCK = "nodes whose disks were full may leave a group that confirms nothing any more"


def ask_any(world, what, *more):
    """What the first node that answers says."""
    return next((it for it in (world.ask_node(node, what, *more) for node in NODES) if it is not None), None)


def purge(world, *shards):
    for shard in shards:
        assert ask_any(world, "purge", shard) is not None, f"shard {shard} isn't purged"


# ---- what has to hold where not all takes effect

QUIET, SETTLED = 12, 75     # seconds without an effect, and at most until then
LATE = 2                    # seconds for which what is sent may stay in a machine whose answers are late


def open_sessions(world):
    return sorted(set(world.names) - world.closed())


def require_told(world, names, word, faults):
    """carrier/status names each of these sessions, with a word of what it says."""
    told = world.status()
    faults += [f"{name} isn't told: {told.get(name)}" for name in names if word not in told.get(name, "")]


def settled(world, faults):
    """The effects once nothing takes effect any more, and the sessions that are open: carrier/status says that those of
    s0 are stopped."""
    world.await_quiet(SETTLED, QUIET)
    found, stopped = world.effects(), open_sessions(world)
    if stopped != world.names_of("s0"):
        faults.append(f"open: {stopped}")
    require_told(world, stopped, "stopped since", faults)
    return found, stopped


def require_true_receipts(world, names, found, faults):
    """What a sender takes for delivered took effect."""
    for name in names:
        delivered = world.sending(name).kept - FIRST
        if found[name][:delivered] != world.sent[name][:delivered]:
            faults.append(f"{name}: its sender takes {delivered} texts for delivered")


def judge_restored_outbox(world, _, faults):
    """The sessions of s0 are stopped; what was put in since is kept, whether it was sealed or not. What was put in
    before went with the outbox's file where it hadn't left yet: some of a second, while answers are late."""
    found, stopped = settled(world, faults)
    require_prefixes(world, found, faults)
    require_true_receipts(world, stopped, found, faults)
    for name in stopped:
        missing, it = len(world.sent[name]) - len(found[name]), world.sending(name)
        since = len(world.sent[name]) - world.put_before_restore[name]
        if min(missing, since) > it.texts + it.sealed - it.kept:
            faults.append(f"{name}: {missing} texts are missing, {since} were put in since, and its outbox has {it}")
        if missing - since > LATE * world.options.rate / world.options.sessions:
            faults.append(f"{name}: {missing - since} texts hadn't left before")
    return f"{len(stopped)} sessions are stopped"


def judge_restored_store(world, _, faults):
    """What the store and the carrier have both lost is missing: its session stands."""
    world.await_quiet(SETTLED, QUIET)
    standing = open_sessions(world)
    if not standing:
        faults.append("no session stands")
    require_told(world, standing, "stands since", faults)
    require_prefixes(world, world.effects(), faults)
    return f"{len(standing)} sessions stand"


def judge_copied_outbox(world, _, faults):
    """The sessions of s0 are stopped, and no text of s0 is lost: what of its own didn't take effect waits.
    Until the first receipt frames of both may take effect in turn, so some may be missing between others."""
    found, stopped = settled(world, faults)
    own = {name: [it for it in found[name] if not it.startswith(b"copy ")] for name in world.names}
    for name, texts in world.sent.items():
        if own[name] != [it for it in texts if it in set(own[name])]:
            faults.append(f"{name}: doubled, changed or out of order")
    for name in world.names_of("s0"):
        missing, it = len(world.sent[name]) - len(own[name]), world.sending(name)
        if missing > it.texts + it.sealed - it.kept:
            faults.append(f"{name}: {missing} texts are missing, of which its outbox has {it}")
    require_true_receipts(world, world.names_of("s0"), found, faults)
    copies = sum(map(len, found.values())) - sum(map(len, own.values()))
    if not copies:
        faults.append("no text of the copy took effect")
    return f"{len(stopped)} sessions are stopped, {copies} texts of the copy took effect"


def judge_poisoned(world, case, faults):
    """That session only is stopped; its later texts wait."""
    cases.Place.wait(lambda: open_sessions(world) == [BAD], case.seconds)
    stopped, found = open_sessions(world), world.effects()
    if stopped != [BAD]:
        faults.append(f"open: {stopped}")
    require_told(world, [BAD], f"{TOO_LONG} bytes", faults)
    require_prefixes(world, found, faults)
    faults += [f"{name}: closed after {len(found[name])} of {len(texts)} texts"
               for name, texts in world.sent.items() if name != BAD and found[name] != texts]
    it = world.sending(BAD)
    if it.sealed - FIRST + it.texts != len(world.sent[BAD]) + 1:
        faults.append(f"{BAD}: its outbox doesn't account for {len(world.sent[BAD])} texts: {it}")
    shown = (world.shown("s1") or (None, ""))[1]
    if "krbrelay_sender_stopped_sessions{} 1\n" not in shown:
        faults.append("stopped_sessions isn't 1")
    return "one session is stopped"


# ---- a leader, the store and disks

@case("a leader is cut off, and the store is killed for 4 s", gap=25, made=R)
@case("the same without receipts", gap=25, called="partition_and_store_without_receipts")
def partition_and_store(world):
    world.network.isolate(world.leader())
    world.kill_database(4)
    time.sleep(4)


@case("outboxes' disks are slow by 0.3 and 0.1 s a sync, both senders' clocks step on by an hour", made=R)
def slow_disk_clock_on(world):
    world.set_conditions("s0", HOUR, 300)
    world.set_conditions("s1", HOUR, 100)
    time.sleep(8)
    for sender in SENDERS:
        world.set_conditions(sender, HOUR)


@case("an outbox's disk is slow, its sender's clock back by 1 h, a receiver's on by 2 h, for 8 s")
def slow_disk_clock_back(world):
    world.set_conditions("s0", -HOUR, 300)
    world.set_conditions("r0", 2 * HOUR)
    time.sleep(8)
    for name in ("s0", "r0"):
        world.set_conditions(name)


@case("an outbox's disk is slow by 0.4 s a sync, its sender is killed three times", made=R)
def slow_disk_sender_killed(world):
    world.set_conditions("s0", 0, 400)
    for _ in range(3):
        time.sleep(2)
        world.restart("s0")
    world.set_conditions("s0")


# ---- what the carrier loses

@case("each stream is purged in mid-run", made=R)
def purged(world):
    for shard in range(world.options.shards):
        purge(world, shard)
        time.sleep(2)


@case("two streams and that of receipts are deleted while one receiver is cut off and the other away", gap=25, made=R)
def deleted_and_receiver_away(world):
    world.network.isolate("r0")
    world.stop("r1")
    for stream in (0, 1, "RECEIPTS"):
        assert ask_any(world, "unmake", stream) is not None, f"stream {stream} isn't deleted"
        time.sleep(1)
    time.sleep(3)
    world.start_receiver("r1")
    time.sleep(2)


# ---- what is restored or copied

@case("an outbox is restored from a copy of 10 s ago while receipts are on the way", seconds=60,
      judged=judge_restored_outbox, made=R)
def outbox_restored(world):
    path = f"{world.folder}/backup.db"
    world.copy_outbox("s0", path)
    time.sleep(10)
    world.network.set_way(NODES, ["s0"], 0, 500)
    time.sleep(0.5)
    world.restore_outbox("s0", path)
    time.sleep(3)


@case("the receivers' store is restored from a copy of 8 s ago", gap=25, made=R)
@case("the same without receipts", gap=25, called="store_restored_without_receipts")
def store_restored(world):
    world.copy_store()
    time.sleep(8)
    world.restore_store()
    time.sleep(2)


@case("the store is restored from a copy of 8 s ago, and the streams are purged", seconds=60, gap=25,
      judged=judge_restored_store, made=R)
def store_restored_and_purged(world):
    world.copy_store()
    time.sleep(8)
    world.stop(*RECEIVERS)
    purge(world, *range(world.options.shards))
    world.restore_store()
    world.start_receivers()
    time.sleep(2)


@case("a copy of an outbox is used by a sender on another machine for 11 s", seconds=60, judged=judge_copied_outbox,
      made=R)
def two_senders_one_outbox(world):
    """The outbox of s0 is copied to s1's machine, where a sender of it runs in the place of s1's."""
    path = f"{world.folder}/copy.db"
    world.stop("s1")
    world.network.cut(["s0"], NODES)
    time.sleep(0.3)
    world.copy_outbox("s0", path)
    world.start_sender("s1", outbox=path, sessions_of="s0")
    rows = [(name, f"copy {name} {it}".encode()) for it in range(COPIED) for name in world.names_of("s0")]
    with cases.opened(path) as file:
        file.executemany("INSERT INTO text (session, body) VALUES (?, ?)", rows)
    time.sleep(5)
    world.network.heal()
    time.sleep(6)
    world.stop("s1")
    world.start_sender("s1")


# ---- nodes

@case("a node is stopped for 60 s", made=R | {"seconds": 70})
def node_stopped_60(world):
    stop_for(world, ["n0"], 60)
    time.sleep(2)


@case("a leader is stopped for 60 s, a receiver is killed each 9 s", made={"seconds": 70})
def leader_stopped_60_receiver_killed(world):
    leader = world.leader()
    world.signal([leader], signal.SIGSTOP)
    for _ in range(6):
        time.sleep(9)
        world.restart("r0")
    time.sleep(6)
    world.signal([leader], signal.SIGCONT)
    time.sleep(2)


@case("all nodes' disks and an outbox's are full for 9 s", gap=60, stays_down=STUCK,
      made=R | test_machines.FAST | {"disks": DISKS})
def disks_and_outbox_full(world):
    fill_for(world, (*NODES, "s0"), 9)
    world.stop(*NODES)
    start_again(world, NODES, 3)


def has_effects(world):
    """Whether texts of each shard took effect."""
    return bool(world.count()) and all(world.of_shards(world.effects()))


@case("each frame of the streams is published 20 times more", 240, 40, made=R | {"seconds": 25})
def frames_repeated(world):
    cases.Place.wait(lambda: has_effects(world), machines.PATIENCE)
    for shard in range(world.options.shards):
        assert ask_any(world, "repeat", shard, REPEATS) is not None, f"{shard} isn't repeated"


# ---- texts that are refused

@case("300 sessions; the store refuses the effect of one text for 12 s", made=MANY | {"seconds": 20})
def poison_effect(world):
    """Its shard stands, and the others don't."""
    time.sleep(1)
    world.ask(NO_EFFECT.format(BAD))
    bad = world.shard_of(BAD)
    test_machines.require_all_rise(world, 12, [it for it in range(world.options.shards) if it != bad])
    world.ask(AN_EFFECT)


@case("300 sessions; one has a text of 1,000,001 bytes", judged=judge_poisoned, made=MANY | {"seconds": 16})
def poison_text(world):
    time.sleep(2)
    with world.feeding, cases.opened(world.outbox("s1")) as file:
        file.execute("DROP TRIGGER too_long")
        file.execute("INSERT INTO text (session, body) VALUES (?, ?)", (BAD, b"x" * TOO_LONG))
    time.sleep(10)


# ---- clocks

@case("a sender's clock is back by a year for 5 s; then --skew is two years", made=R_18)
def sender_year_back(world):
    world.set_conditions("s0", -YEAR)
    time.sleep(5)
    world.set_conditions("s0")
    time.sleep(4)
    world.options.skew = 2 * YEAR
    for receiver in RECEIVERS:
        world.stop(receiver)
        world.start_receiver(receiver)


@case("both receivers' clocks are on by a year for 8 s", gap=25)
def receiver_year_on(world):
    for receiver in RECEIVERS:
        world.set_conditions(receiver, YEAR)
    time.sleep(8)
    for receiver in RECEIVERS:
        world.set_conditions(receiver)


# ---- much at once

@case("a leader is cut from its peers, the store stopped for 12 s, receivers and a sender killed", gap=30,
      made=R | {"seconds": 20})
def everything_at_once(world):
    leader = world.leader()
    world.network.cut([leader], others(leader))
    world.signal_database(signal.SIGSTOP)
    world.restart(*RECEIVERS, "s0")
    time.sleep(12)
    world.signal_database(signal.SIGCONT)


@case("a fifth of all packets is lost, and the store is killed three times", gap=25, made=R_18)
def loss_and_store_killed(world):
    world.network.set_way("*", "*", 0.2, 20, 80)
    for _ in range(3):
        world.kill_database(0.7)
        time.sleep(2)


# ---- what an operator does

@case("each program is ended by SIGTERM and started again", made=SHARED | {"seconds": 24})
@case("the same without receipts, receivers serve all shards", called="rolling_upgrade_without_receipts",
      made={"seconds": 24})
def rolling_upgrade(world):
    """As a unit does it."""
    for name in (*RECEIVERS, *SENDERS):
        assert world.ended(name) == []
        time.sleep(3.5)


@case("shards are moved between receivers by --shards, four times",
      made=R | {"shards_of": {"r0": "0-1", "r1": "2-3"}, "seconds": 24})
def move_a_shard(world):
    for first, second in (("0-2", "3"), ("0", "1-3"), ("1-3", "0"), ("0-1", "2-3")):
        for name, shards in (("r0", first), ("r1", second)):
            world.shards_of[name] = shards
            world.processes[name].is_tended = False
            assert world.ended(name) == []
            world.start_receiver(name)
            time.sleep(1.5)


# ---- machines that are cut off or far

@case("receivers share shards; one is cut off from the nodes alone for 28 s", gap=40, made=SHARED | {"seconds": 30})
def shared_half_cut(world):
    """It isn't cut off from the store."""
    world.network.cut(["r0"], NODES)
    time.sleep(28)


@case("a sender with a slow disk is cut off node by node, and killed twice", made=R_18)
def senders_cut_slow_killed(world):
    world.set_conditions("s0", 0, 200)
    for node in NODES[:2]:
        world.network.cut(["s0"], [node])
        time.sleep(2)
    world.restart("s0")
    world.network.cut(["s0"], NODES[2:])
    time.sleep(4)
    world.restart("s0")
    world.set_conditions("s0")


@case("the stream of receipts has one replica, its node is away for 27 s, receivers for 12 s", gap=25,
      made=R | {"receipt_replicas": 1, "seconds": 30})
def receipts_node_killed(world):
    info = test_machines.stream_of(world, "RECEIPTS")
    assert info["config"]["num_replicas"] == 1, "the stream of receipts has more than one replica"
    node = info["cluster"]["leader"]
    world.stop(*RECEIVERS, node)
    time.sleep(12)
    world.start_receiver("r0")
    time.sleep(15)
    world.start_node(node)
    world.start_receiver("r1")
    time.sleep(2)


@case("two nodes are away for 19 s, a sender and a receiver are killed twice", gap=40, made=R | {"seconds": 24})
def two_nodes_down(world):
    world.stop(*NODES[:2])
    for _ in range(2):
        time.sleep(7)
        world.restart("s0", "r1")
    time.sleep(5)
    start_again(world, NODES[:2], 3)


@case("the store is 0.4 s away each way, and a receiver that shares is killed", gap=25, made=SHARED | {"seconds": 20})
def store_slow_and_sharing(world):
    world.network.set_both_ways([DATABASE], RECEIVERS, 0, 400)
    time.sleep(6)
    world.stop("r0")
    time.sleep(6)
    world.start_receiver("r0")


# ---- lines that are away, and what comes beside other faults

@case("half of a sender's lines are away for 5 s while a leader is cut off", made=R_18)
def sessions_replaced_amid_faults(world):
    mine = world.names_of("s0")
    world.write_lines(world.sessions_of("s0"), mine[::2])
    world.network.isolate(world.leader())
    time.sleep(5)
    world.network.heal()
    world.write_lines(world.sessions_of("s0"), mine)
    time.sleep(3)


@case("half of the receivers' lines are away for 7 s, and the store is killed", made=R_18)
def receivers_lines_gone(world):
    path = f"{world.folder}/sessions"
    world.write_lines(path, world.names[::2])
    time.sleep(6)
    world.kill_database(1)
    world.write_lines(path, world.names)
    time.sleep(3)


@case("two streams are purged, a receiver's clock is on by 3 days, a sender and a receiver are killed", made=R_18)
def purge_kill_clock(world):
    purge(world, 0)
    world.set_conditions("r0", 3 * DAY)
    world.restart("s1")
    time.sleep(6)
    world.set_conditions("r0")
    purge(world, 1)
    world.restart("r1")


@case("a node loses power, a sender is cut off, and the store is killed", gap=25,
      made=R_18 | {"disks": {"n0": "image"}})
def power_and_partition(world):
    world.network.isolate("s1")
    lose_power(world, ["n0"])
    world.kill_database(1)
    time.sleep(3)


test_case = cases.tested(CASES)
