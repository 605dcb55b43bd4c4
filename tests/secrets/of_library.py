"""The calls of libkrbrelay, watched by memcheck with their keys, confounders and user data marked as
undefined. The program is linked to the archive, and where the processor has x86-64-v3 also to the shared
object for it. Each run tells where that one was loaded: a place in it is the distance from there, and so
the same in each run."""
import dataclasses
import os
import subprocess

from lib import report
from lib.build import building, c_tools

import memcheck

KINDS = [(name, etype, mode) for etype in (17, 18) for name, mode in (("safe", 20), ("priv", 21))]
CONTROL = 3             # the places of the part `control`: one of each secret
# Those of `refuse`, of each mode: the branch on the outcome of the comparison. Of KRB-SAFE one where a
# call demands nothing first and one where it demands the body; and the use of the outcome in each of the
# seven calls, whose answer it is.
OUTCOMES = {"safe": 9, "priv": 1}
# Those of `refuse_together`, where the code that a frame ought to have was computed before. The compiler may have
# the branch once for both parts, or twice.
TOGETHER = {"safe": 3, "priv": 1}
# What holds decrypted bytes before their code is compared, and the calls of the library.
HOLDERS = ("krb_seal.opening.", "krbrelay_")
# What uses the outcome, and then reads the record in a text whose code was right.
RECEIVERS = ("krb_structs.lane_receiver.",)
# What may read a text whose code was right.
READERS = ("krb_der.", "krb_tlv.", "krb_time.", "krb_seal.checks.check_body",
           "krb_structs.opening.open_telling", "core.cmp.", "std_alloc.vec.", "malloc", "memmove")


V3 = os.path.join("lib", "glibc-hwcaps", "x86-64-v3")
LOADER = "/lib64/ld-linux-x86-64.so.2"
TO_ASK = 60             # seconds


def has_v3():
    """Whether the loader takes objects for x86-64-v3 here."""
    told = subprocess.run([LOADER, "--help"], check=False, stdout=subprocess.PIPE, text=True,
                          timeout=TO_ASK).stdout
    return "x86-64-v3 (supported" in told


def archive_of(prefix):
    """The words that link the archive."""
    return [os.path.join(prefix, "lib", "libkrbrelay.a")]


def object_of_v3(prefix):
    """The words that link the shared object for x86-64-v3."""
    folder = os.path.join(prefix, V3)
    return [os.path.join(folder, "libkrbrelay.so.1"), f"-Wl,-rpath,{folder}"]


def build(folder, prefix, linked, name="library"):
    program = os.path.join(folder, name)
    words = [*c_tools.c_compiler(), "-std=gnu11", "-O1", "-Wall", "-Wextra", "-Werror", "-no-pie",
             "-I" + os.path.join(prefix, "include"),
             os.path.join(building.TOP, "tests", "secrets", "c", "library.c"),
             *linked, "-o", program]
    if subprocess.run(words, check=False).returncode:
        raise c_tools.NotBuilt("the C compiler failed")
    return program


def base_of(said):
    """Where a run says that the shared object was loaded: 0 of the archive."""
    return int(said, 16)


def within(at, base):
    """A place in the shared object, or in what is loaded above it; the program lies below it."""
    return at - base if at >= base else at


class Calls:
    """The program's parts in one mode and type."""

    def __init__(self, folder, program, count, kind):
        self.folder, self.program, self.count = folder, program, count
        self.name, etype, mode = kind
        self.words = [str(etype), str(mode)]
        self.what = f"{self.name} {etype}"

    def places(self, part):
        places, done = memcheck.reported(self.folder, [self.program, part, *self.words])
        self.count.right(done.returncode == 0,
                         f"FAILED {part}, {self.what}: a call answered otherwise")
        base = base_of(done.stdout)
        return {memcheck.Place(within(it.at, base), it.function) for it in places}

    def reached(self, part):
        """The instructions that a part gets to."""
        places, said = memcheck.reached([self.program, part, *self.words])
        base = base_of(said)
        return {within(it, base) for it in places}

    def has(self, part, wanted):
        """A part has so many places, each in what may have some. Returns them."""
        places = self.places(part)
        self.count.told(len(places) == wanted and (part == "control" or all(
            it.is_of(HOLDERS + RECEIVERS) for it in places)),
            f"{part}, {self.what}: {len(places)} places depend on a secret, and {wanted} have to",
            memcheck.by_function(places))
        return places

    def opening(self, outcomes):
        """A text whose code was right is read by those that may, and after the comparison alone."""
        places = self.places("open")
        reached = self.reached("refuse") | self.reached("refuse_together")
        before = {it for it in places if it.is_of(HOLDERS) and it.at in reached}
        wrong = before - outcomes | {it for it in places - before
                                     if not it.is_of(HOLDERS + RECEIVERS + READERS)}
        self.count.check(f"refuse, {self.what}: its places are instructions of its run",
                         {it.at for it in outcomes} <= reached)
        self.count.told(before and not wrong,
                        f"open, {self.what}: {len(before)} places are outcomes of the comparison,"
                        f" {len(wrong)} depend on a secret elsewhere, and {len(places - before)} read"
                        " a text whose code was right", memcheck.by_function(wrong))

    def watch(self):
        self.has("control", CONTROL)
        self.has("seal", 0)
        self.opening(self.has("refuse", OUTCOMES[self.name]) | self.has("refuse_together", TOGETHER[self.name]))


@dataclasses.dataclass(frozen=True)
class Plant:
    """A branch on a key in a C file around two calls, which a part has to show."""
    file: str
    made: str           # the call that is given the key
    call: str           # the call that branches on it
    part: str
    what: str


PLANTS = (
    Plant("large.c", "krbrelay_receiver_new", "krbrelay_receiver_take", "refuse", "frames of over 512 bytes"),
    Plant("take_many.c", "krbrelay_receiver_new", "krbrelay_receiver_take_many", "refuse_together",
          "many frames in one call"),
    Plant("many.c", "krbrelay_sealer_new", "krbrelay_sealer_seal_many", "seal", "many messages in one call"),
    Plant("many_by_peer.c", "krbrelay_peer_resume", "krbrelay_peer_seal_many", "seal",
          "many messages of a peer in one call"),
)


def planted(folder, linked, plant, count):
    """A branch on a key that is planted around one call is reported."""
    source = os.path.join(building.TOP, "tests", "secrets", "c", plant.file)
    words = [source, *(f"-Wl,--wrap={it}" for it in (plant.made, plant.call))]
    program = build(folder, linked.prefix, [*words, *linked.words], f"planted_{plant.call}")
    calls = Calls(folder, program, count, KINDS[-1])
    found = {it for it in calls.places(plant.part) if it.function == f"__wrap_{plant.call}"}
    count.told(len(found) == 1, f"planted for {plant.what}, {calls.what}: {len(found)} of 1 places is reported")


@dataclasses.dataclass(frozen=True)
class Linked:
    """How a program is linked to an object of the library at a prefix."""
    prefix: str
    words: list[str]


def watch(folder, prefix):
    count = report.Count()
    watch_one(folder, Linked(prefix, archive_of(prefix)), count)
    if has_v3():
        print("for x86-64-v3:")
        watch_one(folder, Linked(prefix, object_of_v3(prefix)), count)
    else:
        print("skipped: the object for x86-64-v3, which this processor or its loader doesn't have")
    return count


def watch_one(folder, linked, count):
    program = build(folder, linked.prefix, linked.words)
    for kind in KINDS:
        Calls(folder, program, count, kind).watch()
    for plant in PLANTS:
        planted(folder, linked, plant, count)
