#!/usr/bin/env python3
"""Proves and builds a program or the C library's crate, with the crates that it stands on. Crates
that don't stand on each other are proved side by side, on all cores, as memory allows.

    tools/proving.py CRATE      krbrelay, krb_bench, example_relay or krb_c, unless it is built from
                                these sources

Of krb_c, the libraries that `rt ci` has built from these sources are proved no second time. A line
on standard error for each crate has the minutes gone, and an estimate of those left. The prover's
output is in out/proving/, a file a crate. It ends with 1 if a crate isn't proved.
Needed: rt.
"""
import signal
import sys

from lib import options
from lib.build import proving


def main(words):
    asked = options.Parser(__doc__).takes("crate", choices=["krbrelay", "krb_bench", "example_relay", "krb_c"]).parse_args(words)
    signal.signal(signal.SIGTERM, lambda number, _: sys.exit(128 + number))
    try:
        return proving.ensure(asked.crate)
    except OSError as fault:
        proving.say(f"tools/proving.py: {fault}")
        return 1
    except KeyboardInterrupt:
        return 130


sys.exit(main(sys.argv[1:]))
