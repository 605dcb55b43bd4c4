"""What is done to the machines of machines.py: cases as those of cases.py. A case's function does it, and returns when
it is over; then the network is whole again, each session is closed, and what took effect is looked at."""
import dataclasses
import json
import random
import signal
import time
import typing

import cases
import engines
import evidence
import machines
import pytest
from machines import DATABASE, NODES, RECEIVERS, SENDERS

BEFORE = 3              # seconds before anything is done
DAY = 86400
THIN = 1000             # kbit a second
STATES = ("SELECT count(*) FROM pg_stat_activity WHERE client_addr = '{}'"
          " AND state LIKE '%transaction%'")


@dataclasses.dataclass
class Case(cases.Named):
    """How the machines are made. All texts have to take effect within so many seconds after what is done, and no longer
    gap may be between two effects.

    `loses` says why the carrier may lose what it confirmed, and `stays_down` why a shard may take no
    frame any more; if it is empty, that may not be. A session may stand for these reasons alone, and
    only if evidence.py shows of it that it does. Where not all can take effect, `judged` says what has
    to hold in its place."""
    seconds: float = 60
    gap: float = 20
    loses: str = ""
    stays_down: str = ""
    stand: int = None       # so many sessions have to stand
    judged: typing.Callable = None
    made: dict = dataclasses.field(default_factory=dict)

    def do(self, world):
        since = time.monotonic()
        super().do(world)
        world.network.heal()
        world.await_fed()
        world.close_all()
        faults, seen = judge(world, self, since)
        print(seen)
        assert not faults, (seen, faults)


@pytest.fixture(scope="module")
def template():
    """A database that is new."""
    assert machines.missing() == []
    with engines.new_folder() as folder:
        machines.make_template(f"{folder}/database")
        yield f"{folder}/database"


@pytest.fixture
def place(request, programs, folder, template):
    """The machines of a case, which have begun."""
    network = machines.Network()
    world = machines.World(folder, programs, network, request.param)
    try:
        world.start(template)
        time.sleep(BEFORE)
        yield world
    finally:
        world.end()
        network.stop()


CASES, case = cases.table(Case)
IMAGES = dict.fromkeys(NODES, "image")
SYNCED = dict.fromkeys(NODES, "image,sync")
SMALL = dict.fromkeys(NODES, "24m")
FAST = {"rate": 600, "size": 1000}
SHARED = {"is_shared": True}

# Why JetStream 2.9.10 may lose what it confirmed, or a shard of it stays down.
ONE_WAY = ("a leader whose messages to its peers are lost gives offsets that others give again"
           " after the next election")
STOPPED = "nodes that wake all at once each go on with what they had before the others' election"
KILLED = "a node writes what it confirmed a moment later, and all are killed at once"
FULL = "a node whose disk is full drops what it confirmed"
UNSYNCED = "a node that loses power has what it had synced, up to two minutes before"
BROKEN = "a node that loses power may leave files from which the group of all streams doesn't start"
DRAWN_FAULTS = "nodes are killed, stopped and cut off one way, one after the other"


def others(node):
    return [it for it in NODES if it != node]


def start_again(world, nodes, seconds):
    """Starts these nodes, and gives them so many seconds."""
    for node in nodes:
        world.start_node(node)
    time.sleep(seconds)


def stop_for(world, names, seconds):
    """Has these processes stand for so many seconds."""
    world.signal(names, signal.SIGSTOP)
    time.sleep(seconds)
    world.signal(names, signal.SIGCONT)


@case("nothing", 20, 5)
def nothing(world):
    time.sleep(6)


# ---- the network

@case("a leader is cut from its peers for 7 s", called="leader_cut_from_peers",
      given=(lambda net, leader, peers: net.cut(leader, peers),))
@case("a leader is cut off for 7 s", called="leader_isolated", given=(lambda net, leader, _: net.cut(leader, "*"),))
@case("what a leader sends to its peers is lost for 7 s", loses=ONE_WAY, called="leader_one_way_out",
      given=(lambda net, leader, peers: net.set_way(leader, peers, 1),))
@case("what its peers send to a leader is lost for 7 s", called="leader_one_way_in",
      given=(lambda net, leader, peers: net.set_way(peers, leader, 1),))
def leader_cut(world, cut):
    leader = world.leader()
    cut(world.network, [leader], others(leader))
    time.sleep(7)


@case("all nodes are cut from each other for 7 s", gap=25, called="nodes_apart",
      given=(lambda net: [net.cut([it], others(it)) for it in NODES],))
@case("two of three nodes are cut from each other for 7 s", called="half_ring",
      given=(lambda net: net.cut(["n0"], ["n2"]),))
@case("a fifth of all is lost and the rest late by 20 to 100 ms, for 8 s", called="loss",
      given=(lambda net: net.set_way("*", "*", 0.2, 20, 80), 8))
@case("half of what nodes send to senders is lost for 7 s", called="confirmations_lost",
      given=(lambda net: net.set_way(NODES, SENDERS, 0.5),))
@case("senders are 1.3 s from the nodes for 14 s", gap=25, made={"seconds": 20}, called="far_senders",
      given=(lambda net: net.set_both_ways(SENDERS, NODES, 0, 1300), 14))
def network_hurt(world, hurt, seconds=7):
    hurt(world.network)
    time.sleep(seconds)


@case("senders have 1 Mbit/s for 30 s, with a backlog of 1,440 texts of 1,000 bytes",
      made={"rate": 100, "size": 1000})
def thin_senders(world):
    for sender in SENDERS:
        world.network.set_line(sender, THIN)
    world.put_texts(dict.fromkeys(world.names, 120))
    time.sleep(30)


# ---- nodes

@case("all nodes are killed and started again", loses=KILLED)
def all_nodes_killed(world):
    world.stop(*NODES)
    time.sleep(1.5)
    start_again(world, NODES, 2)


def require_all_rise(world, seconds, shards=None):
    """In each of these shards something takes effect meanwhile, unless all has that was sent."""
    before = world.of_shards(world.effects())
    time.sleep(seconds)
    after, sent = (world.of_shards(it) for it in (world.effects(), world.sent))
    assert all(after[it] > before[it] or after[it] == sent[it] for it in shards or range(len(after))), \
        f"a shard of {shards or 'all'} stood: {before}, {after} of {sent}"


@case("one receiver alone; a node is away for 24 s", gap=10, made={"seconds": 30})
def node_gone(world):
    world.stop("r1", "n2")
    require_all_rise(world, 24)
    start_again(world, ["n2"], 3)


@case("one receiver alone; each node is killed in turn", gap=20)
def nodes_in_turn(world):
    world.stop("r1")
    for node in NODES:
        world.stop(node)
        time.sleep(2.5)
        start_again(world, [node], 2)


@case("a leader is stopped for 6 s")
def leader_stopped(world):
    stop_for(world, [world.leader()], 6)


@case("one receiver alone; a leader is cut from its peers for 7 s")
def alone_cut_from_peers(world):
    """The receiver may stay connected to the leader."""
    world.stop("r1")
    leader_cut(world, machines.Network.cut)


@case("one receiver alone; a leader is stopped for 6 s")
def alone_leader_stopped(world):
    world.stop("r1")
    leader_stopped(world)


@case("all nodes are stopped for 6 s", loses=STOPPED)
def all_nodes_stopped(world):
    stop_for(world, NODES, 6)


@case("one replica; a node is away for 25 s, senders are started again", gap=40,
      made={"replicas": 1, "rate": 240, "seconds": 32})
def one_replica(world):
    """The shards of that node wait; the other shards don't."""
    leader = world.leader()
    free = [shard for shard in range(world.options.shards) if world.leader(shard) != leader]
    world.stop(leader)
    time.sleep(1)
    world.restart(*SENDERS)
    require_all_rise(world, 24, free)
    start_again(world, [leader], 2)


# ---- senders and receivers

@case("a sender, then one receiver and then the other are stopped for 3 s")
def ends_stopped(world):
    world.signal(["s0", "r0"], signal.SIGSTOP)
    time.sleep(3)
    world.signal(["r1"], signal.SIGSTOP)
    world.signal(["r0"], signal.SIGCONT)
    time.sleep(3)
    world.signal(["s0", "r1"], signal.SIGCONT)


def stream_of(world, shard):
    """What the stream of a shard is, or that of RECEIPTS."""
    return json.loads(world.ask_node(world.leader(), "info", shard))


@case("a frame that wasn't read is deleted from its stream", 30)
def frame_deleted(world):
    """One that was confirmed: its sender sends it again."""
    world.stop(*RECEIVERS)
    time.sleep(2)
    end = stream_of(world, 0)["state"]["last_seq"]
    time.sleep(2)
    assert world.ask_node(world.leader(), "delete", 0, end) is not None, f"frame {end} isn't deleted"
    world.start_receivers()


@case("SIGTERM to a sender and a receiver while nodes, then the database, are cut off", gap=25, made={"seconds": 18})
def told_to_end(world):
    """They wait for what is cut off."""
    for away in (NODES, [DATABASE]):
        for name in away:
            world.network.isolate(name)
        time.sleep(2)
        assert world.ended("s0", "r0") == []
        world.network.heal()
        time.sleep(4)


@case("a receiver's machine is lost in a transaction; another one is started", gap=20,
      made={"rate": 1200, "seconds": 24})
def receiver_lost(world):
    """r0 alone, 10 ms from the database, is lost; then r1 is started."""
    world.stop("r1")
    is_within = False
    while not is_within:
        world.network.heal()
        world.network.set_both_ways(["r0"], [DATABASE], 0, 10)
        time.sleep(random.uniform(0.3, 0.6))
        world.network.isolate("r0")
        time.sleep(0.25)
        is_within = world.ask(STATES.format(machines.ADDRESS["r0"])) != [["0"]]
    world.stop("r0")
    world.start_receiver("r1")
    time.sleep(25)


@case("receivers share shards; one is killed, and is away for 15 s", made=SHARED | {"seconds": 28})
def shared_killed(world):
    world.stop("r0")
    time.sleep(5)
    require_all_rise(world, 10)
    world.start_receiver("r0")
    time.sleep(3)
    require_all_rise(world, 6)


@case("receivers share shards; the machine of one is cut off for 28 s", made=SHARED | {"seconds": 34},
      called="shared_lost", given=(lambda world: world.network.isolate("r0"),))
@case("receivers share shards; one is stopped for 28 s", made=SHARED | {"seconds": 34}, called="shared_stopped",
      given=(lambda world: world.signal(["r0"], signal.SIGSTOP),))
def shared_silent(world, silence):
    """Its locks end with its connection, which the database gives up, or since it says nothing. When it wakes, it
    serves its part again."""
    silence(world)
    time.sleep(20)
    require_all_rise(world, 8)
    world.signal(["r0"], signal.SIGCONT)


@case("one of two receivers has a clock that is two days ahead", made={"clocks": {"r0": 2 * DAY}})
def receivers_clock(world):
    time.sleep(7)
    world.clocks = {}
    world.restart("r0")


# ---- the database

@case("the database is killed three times")
def database_killed(world):
    for _ in range(3):
        world.kill_database(0.7)
        time.sleep(1.5)


@case("the database is stopped for 6 s", gap=25)
def database_stopped(world):
    world.signal_database(signal.SIGSTOP)
    time.sleep(6)
    world.signal_database(signal.SIGCONT)


@case("the database is cut off for 7 s", gap=25)
def database_cut_off(world):
    world.network.isolate(DATABASE)
    time.sleep(7)


# ---- disks

def fill_for(world, names, seconds):
    """Disks are full for so many seconds."""
    for name in names:
        world.disks[name].fill()
    time.sleep(seconds)
    for name in names:
        world.disks[name].make_room()


@case("a node's disk is full for 7 s", loses=FULL, made=FAST | {"disks": {"n0": "24m"}})
def node_disk_full(world):
    fill_for(world, ["n0"], 7)
    world.restart("n0")
    time.sleep(2)


@case("all nodes' disks are full for 7 s", gap=25, loses=FULL, made=FAST | {"disks": SMALL})
def all_disks_full(world):
    fill_for(world, NODES, 7)
    world.stop(*NODES)
    start_again(world, NODES, 2)


@case("an outbox's disk is full for 7 s, and its sender is cut off", made={"disks": {"s0": "8m"}, "size": 1000})
def outbox_disk_full(world):
    """So that texts and frames pile up."""
    world.network.isolate("s0")
    fill_for(world, ["s0"], 7)
    assert world.counts["insertions that failed"], "the disk wasn't full"


def lose_power(world, nodes):
    """All at once. What their disks had at that moment is what they have when they start again."""
    world.signal(nodes, signal.SIGSTOP)
    for node in nodes:
        world.disks[node].note()
    for node in nodes:
        world.stop(node)
        world.disks[node].lose()
    time.sleep(0.5)
    start_again(world, nodes, 3)


def sync(world, nodes):
    """The disks are synced, and written to for six seconds after it."""
    for node in nodes:
        world.disks[node].sync()
    time.sleep(6)


@case("a node loses power 6 s after its disk was synced", made={"disks": {"n0": "image"}, "rate": 600},
      called="power_of_one", given=(NODES[:1], NODES[:1]))
@case("two nodes lose power 6 s after their disks were synced", 120, 25, UNSYNCED, BROKEN,
      made={"disks": IMAGES, "rate": 600}, called="power_of_two", given=(NODES, NODES[:2]))
def power_of_some(world, synced, nodes):
    sync(world, synced)
    lose_power(world, nodes)


@case("all nodes lose power, over file systems that are mounted sync", 120, 60, KILLED, BROKEN,
      made={"disks": SYNCED, "rate": 600})
def power_of_all(world):
    lose_power(world, NODES)
    time.sleep(6)
    world.restart(*SENDERS, *RECEIVERS)


@case("all nodes lose power 6 s after their disks were synced", 120, 60, UNSYNCED, BROKEN,
      made={"disks": IMAGES, "rate": 600})
def power_of_all_unsynced(world):
    sync(world, NODES)
    power_of_all(world)


@case("a sender's machine loses power three times", made={"disks": {"s0": "image"}, "rate": 600})
def power_of_sender(world):
    """An application's texts are on the disk when its transaction has ended."""
    for _ in range(3):
        time.sleep(1.5)
        with world.feeding:
            world.signal(["s0"], signal.SIGSTOP)
            world.disks["s0"].note()
            world.network.isolate("s0")
            world.stop("s0")
            world.disks["s0"].lose()
            world.network.heal()
            world.start_sender("s0")


# ---- drawn faults

def drawn_faults(world, seed):
    dice, until = random.Random(seed), time.monotonic() + 22
    while time.monotonic() < until:
        dice.choice(DRAWN)(world, dice)
        world.network.heal()
        time.sleep(dice.uniform(0.2, 1.2))


for _seed in (101, 102, 103):
    case(f"drawn faults for 22 s, seed {_seed}", gap=30, loses=DRAWN_FAULTS, made={"seconds": 26}, given=(_seed,),
         called=f"drawn_faults_{_seed}")(drawn_faults)


def cut_one(world, dice):
    world.network.isolate(dice.choice(NODES))
    time.sleep(dice.uniform(1, 4))


def cut_one_way(world, dice):
    source, target = dice.sample(machines.MACHINES, 2)
    world.network.set_way([source], [target], 1)
    time.sleep(dice.uniform(1, 4))


def lose_some(world, dice):
    world.network.set_way("*", "*", dice.uniform(0, 0.15), dice.uniform(2, 200), dice.uniform(0, 100))
    time.sleep(dice.uniform(1, 3))


def kill_node(world, dice):
    node = dice.choice(NODES)
    world.stop(node)
    time.sleep(dice.uniform(0.3, 3))
    world.start_node(node)


def kill_end(world, dice):
    world.restart(dice.choice(SENDERS + RECEIVERS))


def stop_one(world, dice):
    stop_for(world, [dice.choice(NODES + SENDERS + RECEIVERS)], dice.uniform(1, 4))


def kill_database(world, dice):
    world.kill_database(dice.uniform(0.2, 1))


DRAWN = (cut_one, cut_one_way, lose_some, kill_node, kill_end, stop_one, kill_database)


# ---- what has to hold

def judge_standing(world, case, faults):
    """Which sessions stand; what isn't shown to be what the case allows is a fault."""
    allowed = {evidence.LOST: case.loses, evidence.DOWN: case.stays_down, evidence.FAULT: ""}
    found = evidence.standing(world, machines.FIRST)
    faults += [f"{reason}: {line}" for reason, line in found if not allowed[reason]]
    shown = [line for reason, line in found if allowed[reason]]
    if case.stand is not None and len(shown) != case.stand:
        faults.append(f"of {case.stand} sessions it has to be shown why they stand: {shown}")
    return (f"sessions that stand: {len(found)}, of which it is shown why: {len(shown)}"
            + "".join(f"; {line}" for line in shown[:1]))


def judge_texts(world, found, faults):
    """What took effect is what was sent, in order; all of it, if the session is closed; and what
    wasn't sealed yet waits."""
    closed = world.closed()
    require_prefixes(world, found, faults)
    for name, texts in world.sent.items():
        if name in closed and len(found[name]) < len(texts):
            faults.append(f"{name}: closed after {len(found[name])} of {len(texts)} texts")
        sending = world.sending(name)
        if not sending.accounts_for(len(texts)):
            faults.append(f"{name}: its outbox doesn't account for {len(texts)} texts: {sending}")


def require_prefixes(world, found, faults):
    """What took effect of each session are its first texts."""
    faults += [f"{name}: doubled, changed or out of order" for name, texts in world.sent.items()
               if found[name] != texts[:len(found[name])]]


def judge_whole(world, case, faults):
    """All takes effect, or what doesn't is what the case allows."""
    took = world.await_whole(case.seconds)
    whole = f"whole after {took or 0:.1f} s"
    if took is None:
        whole = judge_standing(world, case, faults)
    elif case.stand:
        faults.append("no session stands")
    judge_texts(world, world.effects(), faults)
    return whole


def judge(world, case, since):
    """What went wrong, and the line of what was seen."""
    faults = []
    whole = (case.judged or judge_whole)(world, case, faults)
    found, gap = world.effects(), world.longest_gap(since)
    doubled = sum(len(texts) - len(set(texts)) for texts in found.values())
    lost = sum(len(set(texts) - set(found[name])) for name, texts in world.sent.items())
    sent, delivered = (sum(map(len, it.values())) for it in (world.sent, found))
    if doubled:
        faults.append(f"{doubled} effects came twice")
    if gap > case.gap:
        faults.append(f"nothing took effect for {gap:.1f} s")
    faults += world.ended(*(it for it in (*SENDERS, *RECEIVERS) if world.processes[it].is_tended))
    faults += [f"{what}: {count}" for what, count in world.counts.items()] if faults else []
    return faults, (f"{sent} texts sent, {delivered} delivered, {lost} lost, {doubled} doubled;"
                    f" longest gap {gap:.1f} s; {whole}")


test_case = cases.tested(CASES)
