"""The lines of documents that a user types: a command after $, and what it prints below it.

In a block that is indented by four spaces, a line with $ is a command, which goes on in the next line
after a backslash, and the lines up to the next command are what it prints. There `..` at the end of a line stands for the rest of the line, and a line
of `..` alone for any number of lines.
"""
import dataclasses
import re
import shlex

from lib.build import building

INDENT = "    "
GOES_ON = 60        # seconds after which a command is ended that goes on while others are typed


@dataclasses.dataclass
class Typed:
    """A command: the number of its line, its words, and the lines that it prints."""
    number: int
    command: str
    printed: list


def lines_of(path):
    """The typed lines of a document."""
    found, inside = [], False
    for number, line in enumerate(building.text_of(path).split("\n"), 1):
        if not line.startswith(INDENT):
            inside = False
        elif line.startswith(INDENT + "$ "):
            inside = True
            found.append(Typed(number, line.removeprefix(INDENT + "$ "), []))
        elif inside and found[-1].command.endswith("\\"):
            found[-1].command = found[-1].command[:-1] + line.strip()
        elif inside:
            found[-1].printed.append(line.removeprefix(INDENT))
    return found


def pattern(lines):
    """The lines as an expression."""
    parts = []
    for line in lines:
        if line.strip() == "..":
            parts.append(r"(?:.*\n)*?")
        else:
            start, left_out = (line[:-2], ".*") if line.endswith("..") else (line, "")
            words = (re.escape(part) for part in start.split(".. "))     # each with digits left out after it
            parts.append(r"\S* ".join(words) + left_out + r"\n")
    return "".join(parts)


def are_printed(wanted, got):
    """Whether a command printed what a document says, but for spaces at the ends of lines, and
    nothing else."""
    return re.fullmatch(pattern(wanted), "".join(f"{line.rstrip()}\n" for line in got)) is not None


def words(command):
    """The words that run a command as a shell does, whose output goes to a terminal: in lines. One with & at its end
    goes on for a while, and what it prints is left out, so that nobody waits for its end."""
    if command.endswith("&"):
        command = f"timeout {GOES_ON} sh -c {shlex.quote(command[:-1].strip())} > /dev/null 2>&1 &"
    return ["stdbuf", "-oL", "sh", "-c", command]
