"""What valgrind's callgrind tells of the instructions of one object, as a program or a library.

Of each function the file has lines of its own cost, and after a line 'calls=' one with the cost of what
was called. Only the object's own lines are added, and not what its calls took elsewhere: so a figure
doesn't depend on the C library, which has other code for other processors.
"""
import os
import re

OBJECT = re.compile(r"(c?)ob=\((\d+)\)(?: (.*))?")
COST = re.compile(r"[+*\-\d]")
TRIGGER = re.compile(r"desc: Trigger: Client Request: (.*)")


def of_object(path: str, wanted: str) -> tuple[str, int]:
    """The name under which a file was dumped, or '', and the instructions of an object in it."""
    label, total, names, is_own, is_call = "", 0, {}, False, False
    wanted = os.path.realpath(wanted)
    with open(path, encoding="utf-8", errors="replace") as file:
        for line in file:
            found = OBJECT.match(line)
            if found:
                if found[3]:
                    names[found[2]] = os.path.realpath(found[3].strip())
                is_own = is_own if found[1] else names[found[2]] == wanted
            elif line.startswith("calls="):
                is_call = True
            elif COST.match(line):
                total += 0 if is_call or not is_own else int(line.split()[1])
                is_call = False
            elif line.startswith("desc: Trigger"):
                label = (TRIGGER.match(line) or ["", ""])[1].strip()
    return label, total
