"""The page krbrelay(1) of the manual, from what the program says of itself (`--help`), and what a
help says: its commands and its options."""
import os
import re
import subprocess
import textwrap

from lib.build import building

PAGE = os.path.join("docs", "krbrelay.1")
HEAD = '''\
.TH KRBRELAY 1 {date} "krbrelay {version}" "krbrelay"
.nh
.SH NAME
krbrelay \\- {about}
.SH SYNOPSIS
{synopsis}
.SH DESCRIPTION
The messages are those of RFC 4120, under the encryption types 17 and 18 (RFC 3962). Each command
reads standard input and prints lines, so messages and a job are given by
.BR < .
The one file that a command reads is that of a key, by
.B show \\-\\-key.
'''
WIDTH = 73      # of a line that isn't filled, after a margin of seven
TAIL = '''\
.SH FILES
.TP
.I /usr/share/doc/krbrelay/examples
a job for each command, and a message with its key, of the Debian package
.SH EXAMPLES
.nf
krbrelay show \\-\\-any \\-\\-key key.hex < captured.hex
krbrelay relay < relay.toml
krbrelay seal < seal.toml
krbrelay\\-check\\-job relay.toml && krbrelay relay < relay.toml
.fi
.SH SEE ALSO
.BR krbrelay\\-check\\-job (1),
which says where a job is at fault,
.BR krbrelay (3),
.BR krbrelay (7)
'''


def said(program, *words):
    """What the program prints for words that ask for help."""
    return subprocess.run([program, *words], check=True, stdin=subprocess.DEVNULL,
                          stdout=subprocess.PIPE, text=True).stdout


def commands(text):
    """The commands of the program's help, each with what it does."""
    listed = re.search(r"^Commands:\n((?:  .*\n)+)", text, re.M)[1]
    return dict(re.findall(r"^  (\S+) +(.*)$", listed, re.M))


def options(text):
    """The options of a help, the short ones and the long ones, each with what it does."""
    listed = re.search(r"^Options:\n((?:  .*\n)+)", text, re.M)[1]
    found = re.findall(r"^  (?:(-\w), |    )(--\w+)(?: <\w+>)? +(.*)$", listed, re.M)
    return {name: about for short, long, about in found for name in (short, long) if name}


def own_options(text):
    """The lines of the options that a command has of its own: those without a short name."""
    listed = re.search(r"^Options:\n((?:  .*\n)+)", text, re.M)[1]
    found = re.findall(r"^ {6}(--\w+)(?: <(\w+)>)? +(.*)$", listed, re.M)
    words = [(f"{name} {value}".strip(), about) for name, value, about in found]
    width = max((len(it) for it, _ in words), default=0)
    return [f"{it:<{width}}  {about}" for it, about in words]


def usage(text):
    return re.search(r"^Usage: (.*)$", text, re.M)[1]


def after_options(text):
    """What follows the options of a help."""
    return re.split(r"^Options:\n(?:  .*\n)+", text, maxsplit=1, flags=re.M)[1].strip("\n")


def escaped(line):
    line = line.replace("\\", "\\e").replace("-", "\\-")
    return "\\&" + line if line.startswith((".", "'")) else line


def folded(line):
    """A line of the help in lines that aren't too long. What stands in a second column goes on there."""
    if len(line) <= WIDTH:
        return [line]
    first, gap, rest = re.fullmatch(r"( *(?:\S+ )*?\S+)( {2,})(\S.*)|.*", line).groups()
    if gap is None and line.lstrip().startswith("$"):
        return [" \\\n".join(textwrap.wrap(line, WIDTH - 2, subsequent_indent="      ", drop_whitespace=True))]
    if gap is None:
        indent = line[:len(line) - len(line.lstrip())]
        return textwrap.wrap(line, WIDTH, subsequent_indent=indent if len(indent) > 8 else indent + "    ")
    column = " " * len(first + gap)
    return textwrap.wrap(rest, WIDTH, initial_indent=first + gap, subsequent_indent=column)


def joined(lines):
    """Lines of a help, of which each that goes on in the second column is one."""
    found, column = [], 0
    for line in lines:
        indent = len(line) - len(line.lstrip())
        if found and column and abs(indent - column) < 2:
            found[-1] += " " + line.strip()
            continue
        begins = re.match(r" *(?:\S+ )*?\S+ {2,}(?=\S)", line)
        column = begins.end() if begins else 0
        found.append(line)
    return found


def block_of(lines):
    """A paragraph of a help, which is filled, or lines that are indented there, as they are."""
    if not lines[0].startswith(" "):
        return [*map(escaped, lines)]
    kept = "\n".join(it for line in joined(lines) for it in folded(line))
    return [".nf", *map(escaped, kept.splitlines()), ".fi"]


def described(text):
    """The text of a help as the page has it."""
    parts, found = re.split(r"\n\s*\n", text.strip("\n")), []
    for part in parts:
        lines = part.splitlines()
        head = next((at for at, line in enumerate(lines) if line.startswith(" ")), len(lines))
        found += [".PP", *(block_of(lines[:head]) if head else []), *(block_of(lines[head:]) if lines[head:] else [])]
    return "\n".join([*found[1:], ""])


def version():
    return building.text_of("VERSION").strip()


def page(program, date):
    """The page, of the date that it says."""
    whole = said(program, "--help")
    helps = {name: said(program, name, "--help") for name in commands(whole)}
    about = whole.splitlines()[0]
    synopsis = "\n.br\n".join(f".B {usage(text)}" for text in helps.values())
    parts = [HEAD.format(date=date, version=version(), about=about[0].lower() + about[1:],
                         synopsis=synopsis.replace("-", "\\-"))]
    for name, text in helps.items():
        parts.append(f".SS {name}\n{commands(whole)[name]}.\n.PP\n{described(after_options(text))}")
    own = [f"  {line}" for text in helps.values() for line in own_options(text)]
    general = [f"  {', '.join(names)}  {about}" for names, about in grouped(options(whole)).items()]
    parts.append(".SH OPTIONS\nThose of\n.BR show ,\nand of the program:\n" + described("\n".join(own + general)))
    status = re.search(r"^Exit status:\n((?:  .*\n?)+)", whole, re.M)[1]
    parts.append(f".SH EXIT STATUS\n{described(status)}")
    return "".join(parts) + TAIL


def grouped(found):
    """The names of the options that do the same, by what they do."""
    names = {}
    for name, about in found.items():
        names.setdefault(about, []).append(name)
    return {tuple(it): about for about, it in names.items()}
