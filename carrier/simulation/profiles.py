"""Which faults the shipped programs meet: profiles that the gate runs, and mutants with the seed that finds each.

A profile is the names of kinds of faults (kinds.h), joined by '+': what belongs together is drawn together."""
import typing

# Kinds that a seed draws besides, none to two of them.
MANY = ("lost,carrier,killed,deleted,cut,purged,slow,memory,store_unknown,taken_over,added,moved,later,"
        "refused_a_while,stopped,uncommitted,copied")
FEW = "lost,killed,slow,memory"


class Row(typing.NamedTuple):
    """So many seeds, with kinds besides."""
    profile: str
    seeds: int
    besides: str = ""
    first: int = 1


# What the gate runs, each seed of it without a fault.
PASSES = [
    Row("lost", 25, MANY),
    Row("carrier+killed", 20, MANY),
    Row("deleted+killed+purged", 10, MANY),
    Row("cut", 4, FEW),
    Row("moved", 4, FEW),
    Row("restored", 8, "lost,slow,memory,deleted"),
    Row("restored+killed", 5, "lost,slow,memory"),
    Row("forked", 3, FEW),
    Row("forked+killed", 2, "slow,memory"),
    Row("bursts+carrier", 2, "lost,killed,slow"),
    Row("unreadable+killed", 10, "carrier,deleted,slow"),
    Row("slow_effects", 5, "lost,killed,slow"),
    Row("many+carrier", 2),
    Row("statement", 7),
    Row("refused_a_while+killed", 5, "lost,carrier,slow"),
    Row("tickets", 20, MANY),
    Row("tickets+keys+kdc", 10, "killed,memory"),
    # By these, faults of the programs were found that are mended now.
    Row("bursts+carrier+statement", 5),         # a failed read of a session's waiting texts: later ones were sealed first
    Row("restored+added", 4),                   # a stopped session went on when the file of sessions changed,
    Row("restored+purged+killed", 4),           # or after a start without kept receipts
    Row("restored+moved", 6),                   # the receipt of the shard before hid the other one
    Row("restored+carrier", 5),                 # the sender began to seal though no receipts could be read
    Row("row_gone+deleted", 3),                 # a frame that isn't in the outbox: those before it left again at once
    Row("row_spoilt", 3),                       # frames of a session that stands counted as a carrier that is away
    Row("carrier+refused", 4),                  # a refused text had the effects before it run again, and was named by nobody
    Row("refused+killed+aside", 3),             # only a constraint's refusals were put aside
    Row("refused_many+aside", 2),               # after each refusal the shard waited as for a store that is away
    Row("database+killed", 10),                 # a failed read of the owner counted as another sender's outbox
    Row("bounded", 3),                          # what is sealed wasn't among the texts that wait
    Row("clock", 3),                            # a session that is refused counted as a carrier that is away
    Row("forked+killed+unreadable", 12),        # a failed read when a receipt came: a copy's frames counted as the own
    Row("restored+tickets", 3),                 # a stream's session that is refused counted as a carrier that is away
    Row("lost+slow+tickets+keys+kdc", 5),       # so did sessions that wait for the one before them
    Row("outbox_unknown", 4),                   # a commit that happened and said no left sessions standing, untold
    Row("cut+purged+clock", 1, "", 33),         # what a shard took that was cut below a session's place counted as
    Row("cut+stopped+refused+calm", 1, "", 20010),     # unanswered: frames that don't count there
    Row("forked+tickets+keys", 1, "", 4),             # where a key was tried again, stopped sessions weren't named any more
    # Bounds of time and growth.
    Row("calm", 6),
    Row("calm+bursts", 3),
    Row("calm+tickets", 6),
    Row("silent", 4),
    Row("silent+bursts", 2),
    Row("silent+many", 1),
    Row("skewed", 5),
    Row("skewed+tickets", 3),
    Row("uncommitted", 5, MANY),
    Row("moved+stopped", 5, FEW),
    Row("copied+tickets", 5, FEW),
    Row("taken_over", 3, FEW),
]

# Kinds that are drawn together where any are drawn.
GROUPS = [
    "lost", "carrier", "deleted", "cut", "purged", "killed", "database", "statement", "store_unknown", "outbox_unknown",
    "slow", "memory", "uncommitted", "stopped", "restored", "restored+purged+killed", "restored+carrier", "forked",
    "forked+killed", "taken_over", "moved", "moved+stopped", "added", "later", "unreadable+killed", "row_gone",
    "row_spoilt", "refused_a_while", "refused", "refused+aside", "refused_many+aside", "slow_effects", "clock",
    "bounded", "tickets", "tickets+keys", "tickets+kdc", "tickets+keys+kdc+killed", "many+carrier", "bursts+carrier", "bursts",
    "calm", "silent", "skewed", "copied+tickets",
]
# Of these a run has one: a second sender; wrong clocks, or frames that are gone; many texts, or slow effects; rows that are
# changed; refused texts.
CONFLICTS = [("restored", "forked", "taken_over"), ("clock", "skewed", "cut"), ("many", "bursts", "slow_effects"),
             ("row_gone", "row_spoilt"), ("refused", "refused_many", "refused_a_while")]


def without_conflicts(kinds: typing.Set[str]) -> typing.Set[str]:
    """These kinds, of each conflict one."""
    for conflict in CONFLICTS:
        kinds = kinds - set([it for it in conflict if it in kinds][1:])
    return kinds


# Each mutant of carrier/tests/mutants.py that is none of NATS's calls or of real openings (opening.c): what finds it.
MUTANTS = {
    "no compare-and-set": ("lost+carrier+killed", 1, "DOUBLED"),
    "receipts ask for nothing": ("cut", 1, "STANDS"),
    "what is asked for doesn't leave": ("cut", 1, "STANDS"),
    "nothing is probed": ("later", 1, "STANDS"),
    "frames go once they are carried": ("deleted+killed", 4, "LOST"),
    "receipts of other frames count": ("forked+killed", 1, "LOST"),
    "receipts from before aren't read": ("restored", 14, "LEFT_OUT"),
    "later texts are taken first": ("bursts+carrier", 4, "OVERTAKEN"),
    "receipts aren't sealed again": ("lost+killed", 1, "STANDS"),
    "a stream goes on without its key": ("keys+tickets", 2, "OVERTAKEN"),
    "no session waits for the one before": ("cut+killed+slow+tickets", 7, "OVERTAKEN"),
    "each shard goes on with a session": ("copied+tickets", 1, "ELSEWHERE"),
}
