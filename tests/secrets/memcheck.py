"""What valgrind sees of a run: the places that branch on an undefined value, or take one as an
address, and the instructions that it gets to."""
import collections
import dataclasses
import os
import re
import subprocess

TO_RUN = 600            # seconds
REPORTED = re.compile(r"at 0x([0-9A-F]+): (.*?)(?: \(|$)")


@dataclasses.dataclass(frozen=True)
class Place:
    """An instruction that memcheck reports, and its function."""
    at: int
    function: str

    def is_of(self, names):
        return self.function.startswith(names)


def reported(folder, words, **given):
    """Runs the words under memcheck. Returns the places that it reports, and the run."""
    log = os.path.join(folder, "report")
    done = subprocess.run(["valgrind", "--quiet", "--num-callers=1", "--error-limit=no",
                           f"--log-file={log}", *words], check=False, timeout=TO_RUN,
                          stdout=subprocess.PIPE, **given)
    with open(log, encoding="utf-8", errors="replace") as file:
        return [Place(int(at, 16), name) for at, name in REPORTED.findall(file.read())], done


def reached(words):
    """The addresses of all instructions of a run, and what was written, which is little."""
    found = set()
    with subprocess.Popen(["valgrind", "--tool=lackey", "--trace-mem=yes", *words],
                          stdout=subprocess.PIPE, stderr=subprocess.PIPE) as process:
        for line in process.stderr:
            if line.startswith(b"I "):
                found.add(line[3:].split(b",")[0])
        return {int(it, 16) for it in found}, process.stdout.read()


def by_function(places):
    """The functions of these places, each with their number, for a line below a part's."""
    counts = collections.Counter(it.function for it in places)
    return [f"{times} in {name}" for name, times in sorted(counts.items())]
