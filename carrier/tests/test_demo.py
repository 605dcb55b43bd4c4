"""carrier/demo, and carrier/demo --kerberos."""
import os
import re

import pytest
import realms
from builds import SOURCES
from test_units import ran

DELIVERED = ": 20000 texts, closed, in order, each once"
DELIVERED_BY = (r"orders by krbrelay-sender@KRBRELAY\.TEST: 20000 texts of ([2-9]|[1-9]\d+) sessions, in order,"
                r" each once")
SAID_BY_TICKETS = re.compile(r"carrier/demo --kerberos: .*|killed both .*|orders by .*|nothing was delivered yet"
                             r"|the carrier's file is deleted|after the last start; .*")


def test_demo(prefix, folder):
    """At a prefix with a space in its name, and where there is no library."""
    os.symlink(prefix, f"{folder}/a prefix")
    status, lines = ran(f"{SOURCES}/demo", f"{folder}/a prefix")
    assert status == 0 and sum(line.endswith(DELIVERED) for line in lines[-2:]) == 2, lines
    status, lines = ran(f"{SOURCES}/demo", folder)
    assert status == 1 and len(lines) == 1 and "there is no libkrbrelay at" in lines[0], lines


@pytest.mark.slow
def test_demo_by_tickets(prefix):
    assert realms.missing() == []
    status, lines = ran(f"{SOURCES}/demo", "--kerberos", prefix)
    assert status == 0 and re.fullmatch(DELIVERED_BY, lines[-1]) and all(map(SAID_BY_TICKETS.fullmatch, lines)), lines
