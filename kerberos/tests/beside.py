"""The preloaded calls beside MIT's code in one process (flags.c): what differs has to be what is
known to differ, row by row, and MIT's code beside itself has to differ in nothing."""
import dataclasses
import re
import subprocess

DO_TIME, RET_TIME, DO_SEQUENCE, RET_SEQUENCE = "DO_TIME", "RET_TIME", "DO_SEQUENCE", "RET_SEQUENCE"
FLAGS = [DO_TIME, RET_TIME, DO_SEQUENCE, RET_SEQUENCE]
COMBINATIONS = [frozenset(flag for i, flag in enumerate(FLAGS) if number >> i & 1)
                for number in range(16)]
MAKING, READING = ("mk_safe", "mk_priv"), ("rd_safe", "rd_priv")
ASN1_PARSE_ERROR = 1859794441
LIMIT = 120


def is_read(flags):
    """The library reads it: where MIT keeps a replay cache, MIT's code does."""
    return DO_TIME not in flags


def is_timeless(flags):
    """MIT's code writes no time, and its reader with the same flags reports the time."""
    return RET_SEQUENCE in flags and not flags & {DO_TIME, RET_TIME}


@dataclasses.dataclass(frozen=True)
class Known:
    """What differs: these situations of flags.c in these calls, where `holds` for the flags. Both
    messages of the situation then have the library's `errors`, less the table's base."""
    why: str
    calls: tuple
    situations: tuple
    holds: object
    errors: tuple


KNOWN = [
    Known("each message of the library carries a time, which MIT's reader then reports", MAKING,
          ("good", "number 0", "number 127", "number 2^31 - 1", "number 2^32 - 1", "no user data",
           "no remote address", "chained cipher state"), is_timeless, (0, 0)),
    Known("the same, where a message comes back to its maker", READING, ("own message",),
          is_timeless, (0, 0)),
    Known("MIT's code doesn't look at msg-type", READING, ("msg-type altered",), is_read,
          (40, 40)),
    Known("MIT's code doesn't look at what comes after the message", READING, ("a byte added",),
          is_read, (ASN1_PARSE_ERROR, ASN1_PARSE_ERROR)),
    Known("ASN1_PARSE_ERROR for each malformed message, where MIT answers one of several errors",
          READING, ("last byte missing",), is_read, (ASN1_PARSE_ERROR, ASN1_PARSE_ERROR)),
    Known("MIT's code takes numbers of encoders that write them with a sign", READING,
          ("number 2^32 - 128 for 128",), lambda flags: is_read(flags) and DO_SEQUENCE in flags,
          (42, 42)),
    Known("the checksum of another encryption type is 50, where MIT answers 41 or 188",
          ("rd_safe",), ("another encryption type",), is_read, (50, 50)),
]

# MIT's code answers 41 or 188 to one and the same message, so it may differ from itself.
UNSTEADY = ("rd_safe", "another encryption type")


def known_rows():
    return {(call, situation, flags, etype, known.errors) for known in KNOWN for call in known.calls
            for situation in known.situations for flags in COMBINATIONS if known.holds(flags)
            for etype in (17, 18)}


def differing_rows(output):
    """Each row that differs, with the errors that the calls here answered."""
    pattern = re.compile(r"differs: (\w+), (.*), flags ((?:\w+ )*)type (\d+)\n.*\n    here: (.*)")
    return {(it[1], it[2], frozenset(it[3].split()), int(it[4]),
             tuple(int(error) for error in re.findall(r"\|\| error (-?\d+)", it[5])))
            for it in pattern.finditer(output)}


def counts(output):
    """What ran, how many runs there were, and how many were alike."""
    found = re.search(r"^(.*): (\d+) runs, (\d+) alike$", output, re.MULTILINE)
    return (found[1], int(found[2]), int(found[3])) if found else ("nothing", 0, 0)


def run(program, library, log):
    env = {"KRB5_CONFIG": "/dev/null", "LC_ALL": "C"}
    if library:
        env.update(LD_PRELOAD=library, KRBRELAY_LOG=log)
    done = subprocess.run([program], check=False, stdout=subprocess.PIPE, stderr=subprocess.STDOUT,
                          text=True, timeout=LIMIT, env=env)
    return done.returncode, done.stdout


def tell_call(count, call, rows, known):
    """A line for a call, and one for each row that differs and isn't known, or the other way."""
    differ = {row for row in rows if row[0] == call and (row[:2] != UNSTEADY or is_read(row[2]))}
    wanted = {row for row in known if row[0] == call}
    for row in sorted(differ ^ wanted, key=str):
        print(f"    {'differs' if row in differ else 'is alike'}: {row[1]}, "
              f"{' '.join(sorted(row[2]))}, type {row[3]}, errors {row[4]}")
    count.told(differ == wanted, f"{call} beside MIT's code: {len(differ)} rows differ, "
                                 f"{len(wanted)} are known to")


def run_all(program, library, log, count):
    status, output = run(program, None, None)
    name, runs, alike = counts(output)
    rows = differing_rows(output)
    steady = [row for row in rows if row[:2] != UNSTEADY]
    count.told(status == 0 and name == "MIT's code alone" and runs == alike + len(rows) > 0
               and not steady, f"MIT's code beside itself: {alike} of {runs} rows alike")
    status, output = run(program, library, log)
    name, again, alike = counts(output)
    rows, known = differing_rows(output), known_rows()
    count.told(status == 0 and name == "preloaded" and again == runs == alike + len(rows),
               f"the library beside MIT's code: {alike} of {again} rows alike")
    for call in (*MAKING, *READING):
        tell_call(count, call, rows, known)
    for it in KNOWN:
        print(f"    {', '.join(it.calls)}: {it.why}")
