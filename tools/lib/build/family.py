"""A command that ends with all that it started, also what it put into sessions of its own."""
import contextlib
import ctypes
import os
import signal
import subprocess
import time

TO_END = 5              # seconds for the command to end what it started
ADOPT = 36              # of prctl: what a process below leaves behind becomes a child of this one
TOLD = (signal.SIGINT, signal.SIGTERM, signal.SIGHUP)


def below(process):
    """The processes that this one started, and those that they started."""
    parents = {}
    for name in filter(str.isdigit, os.listdir("/proc")):
        with contextlib.suppress(OSError), open(f"/proc/{name}/stat", encoding="utf-8",
                                                errors="replace") as file:
            parents[int(name)] = int(file.read().rpartition(")")[2].split()[1])
    found, wanted = [], [process]
    while wanted:
        wanted = [it for it, parent in parents.items() if parent in wanted]
        found += wanted
    return found


def end_others(before):
    """Ends each process below this one that wasn't there before."""
    while True:
        left = [it for it in below(os.getpid()) if it not in before]
        for number in left:
            with contextlib.suppress(OSError):
                os.kill(number, signal.SIGKILL)
        for number in left:
            with contextlib.suppress(OSError):      # It is no child of this process.
                os.waitpid(number, 0)
        if not left:
            return


@contextlib.contextmanager
def started(words, **how):
    """Starts a command, in a session of its own: so a terminal interrupts this process alone. At the
    end of the block the command gets one signal to end, if it hasn't ended, and what it leaves
    running is killed. Meanwhile no signal of these ends this process."""
    before = below(os.getpid())
    ctypes.CDLL(None).prctl(ADOPT, 1, 0, 0, 0)
    process = subprocess.Popen(words, start_new_session=True, **how)
    try:
        yield process
    finally:
        kept = {number: signal.signal(number, signal.SIG_IGN) for number in TOLD}
        process.terminate()
        with contextlib.suppress(subprocess.TimeoutExpired):
            process.wait(TO_END)
        process.kill()
        process.wait()
        end_others(before)
        for number, handler in kept.items():
            signal.signal(number, handler)
