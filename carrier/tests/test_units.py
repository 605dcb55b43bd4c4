"""The units of carrier/, programs in C of their own, over files."""
import subprocess

import pytest

TO_RUN = 3000           # seconds: for what hangs, ten times what a quiet machine needs
# What each is given, of a folder.
UNITS = {"log_test": "", "answers_test": "", "waiting_test": "{}", "outbox_test": "{}", "power_test": "{}",
         "files_test": "{}", "shard_test": "{}", "carrier_test": "sqlite:{}/carrier.db", "store_test": "sqlite:{}/store.db"}


def ran(*words):
    """The status and the lines of a command, of which there is one at least."""
    done = subprocess.run(words, check=False, timeout=TO_RUN, stdout=subprocess.PIPE, stderr=subprocess.STDOUT, text=True)
    return done.returncode, done.stdout.splitlines() or ["nothing"]


def assert_unit(programs, name, *words):
    status, lines = ran(f"{programs}/{name}", *words)
    assert status == 0 and lines[-1].endswith(" checks held, 0 failed"), "\n".join(lines[-20:])


@pytest.mark.parametrize("name", UNITS)
def test_unit(programs, folder, name):
    assert_unit(programs, name, *UNITS[name].format(folder).split())
