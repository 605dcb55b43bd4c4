#!/usr/bin/env python3
"""Messages a second of the Python package on one thread, beside those through C.

    python/tests/bench.py [SECONDS]    each row takes 0.3 seconds, or those that are named

The library is what make in c/ has built, or what the variable KRBRELAY_LIBRARY names. The rows
through C are there if `make -C c bench` has built its program.
"""
import os
import subprocess
import sys
import time

import support
from krbrelay import LibraryError, library_version
from lib import options
from lib.build import building

C_BENCH = os.path.join(building.C_LIBRARY, "bench-cc")
SIZES = (64, 1024, 60_000)      # those of c/tests/bench.c
BATCH = 32


def best(work, seconds):
    """The messages a second of the best batch, by the thread's processor time."""
    least, end = float("inf"), time.monotonic() + seconds
    while time.monotonic() < end:
        begun = time.thread_time()
        work()
        least = min(least, time.thread_time() - begun)
    return BATCH / least


def measured(key, mode, size, seconds):
    """How many messages are sealed and unsealed a second."""
    text, frames = b"\x5a" * size, []
    with support.sealer_of(key, mode, 0) as sealer, support.opener_of(key, mode) as opener:
        made = best(lambda: [sealer.seal(text) for _ in range(BATCH)], seconds / 2)
        first = sealer.next
        frames = [sealer.seal(text) for _ in range(BATCH)]

        def read():
            for number, frame in enumerate(frames, first):
                opener.unseal(frame, number)

        return made, best(read, seconds / 2)


def through_c(seconds):
    """Messages a second through C, made and read, by mode, encryption type and size."""
    if not os.path.exists(C_BENCH):
        return {}
    ran = subprocess.run([C_BENCH, str(seconds)], check=True, stdout=subprocess.PIPE, text=True)
    rows = [line.split() for line in ran.stdout.splitlines()[2:]]
    return {(row[0], int(row[1]), int(row[2])): row[3:5] for row in rows}


def bench(seconds):
    rows = through_c(seconds)
    print("Messages a second of one thread.")
    print("mode ty  bytes       made      read     C made    C read")
    for mode in support.Mode:
        for key in support.KEYS:
            for size in SIZES:
                name, etype = mode.name.lower(), support.etype_of(key)
                made, read = measured(key, mode, size, seconds)
                c_made, c_read = rows.get((name, etype, size), ("-", "-"))
                print(f"{name} {etype} {size:6}  {made:9.0f} {read:9.0f}  {c_made:>9} {c_read:>9}",
                      flush=True)


def main(words):
    parser = options.Parser(__doc__).takes("seconds", nargs="?", type=float, default=0.3)
    asked = parser.parse_args(words)
    try:
        library_version()
    except LibraryError as fault:
        sys.exit(f"bench: {fault}")
    bench(asked.seconds)


if __name__ == "__main__":
    main(sys.argv[1:])
