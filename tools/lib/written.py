"""How a part that tools/tables writes has a text: as literals of C, and in a page of the manual."""
from collections.abc import Iterable, Iterator

WIDTH = 118     # of a line of C


def of_roff(text: str) -> str:
    """A text of a page of the manual."""
    return text.replace("\\", "\\e").replace("-", "\\-").replace("'", "\\(aq")


def one_line(text: str) -> str:
    return " ".join(text.split())


def of_c(text: str) -> list[str]:
    """The literals of a text, one for each of its lines."""
    whole = text.replace("\\", r"\\").replace('"', r'\"')
    return [f'"{it}"'.replace("\n", r"\n") for it in whole.splitlines(keepends=True)]


def aligned(begin: str, lines: list[str], end: str) -> Iterator[str]:
    """Lines below one another, after a begin, and an end after the last."""
    for at, line in enumerate(lines):
        yield (" " * len(begin) if at else begin) + line + (end if at == len(lines) - 1 else "")


def packed(words: Iterable[str], begin: str) -> list[str]:
    """Words with commas between them, as many in a line as go there; each line but the first has two spaces more."""
    lines = [begin]
    for word in words:
        if len(lines[-1] + word) > WIDTH:
            lines.append(" " * (len(begin) - len(begin.lstrip()) + 2))
        lines[-1] += f"{word}, "
    return [it.rstrip() for it in lines]
