"""What krbrelay prints of an input, and its lines without the number of their lane."""
import subprocess

from lib.build import building

USED = [building.KRBRELAY]      # the program that is run where none is named


def use(program):
    """Has this program run where none is named."""
    USED[0] = program


def run(command, text, program=None, limit=60, words=(), **how):
    """The finished run of a command, and words after it, over a text, by default within a minute."""
    return subprocess.run([program or USED[0], command, *words], input=text, stdout=subprocess.PIPE,
                          text=True, check=False, timeout=limit, **how)


def run_over_bytes(command, given, program=None, limit=60, words=()):
    """The same over bytes; what it writes are bytes too."""
    return subprocess.run([program or USED[0], command, *words], input=given, stdout=subprocess.PIPE,
                          stderr=subprocess.PIPE, check=False, timeout=limit)


def lines(command, text, program=None, limit=60):
    return run(command, text, program, limit).stdout.splitlines()


def without_lane(line, lane=0):
    return line.removeprefix(f"lane {lane} ")


def of_lane(lane, all_lines):
    """The lines of a lane, without its number."""
    return [without_lane(line, lane) for line in all_lines if line.startswith(f"lane {lane} ")]
