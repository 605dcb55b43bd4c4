"""Writes pages of the reference as Markdown that a forge shows: those that are committed. A link to what a crate has
leads to its source.

A forge doesn't link inside of source text, so the words of a text that link stand on a line after
it. Lines are not wrapped: each paragraph is one.
"""
from __future__ import annotations

import re
from typing import Callable, Dict, Iterable, Iterator, List

from lib.reference import pages
from lib.reference.pages import (
    ClauseBlock, Heading, Inline, Listing, Page, Paragraph, Source, Table, Target)

FOLDER = "docs/reference"
TO_TOP = "../../"
WIDTH = 90          # characters of a clause that stands in a line with its name
NUMBERS = ("Lines", "Public items")     # columns of numbers
COMMITTED = ("README", pages.HEADLINE, pages.PROMISES)


def escaped(text: str) -> str:
    return re.sub(r"([\\*_<>\[\]|])", r"\\\1", text)


def fenced(source: Source, indent: str = "") -> Iterator[str]:
    yield f"{indent}```{source.language}"
    for it in source.text.split("\n"):
        yield (indent + it).rstrip()
    yield f"{indent}```"


def anchor_of(text: str) -> str:
    """The anchor that a forge gives a heading."""
    return re.sub(r"[^\w\- ]", "", text.strip().lower()).replace(" ", "-")


def heading(block: Heading) -> Iterator[str]:
    """With its anchor, unless the forge gives it that one."""
    if block.anchor and block.anchor != anchor_of(block.text):
        yield f'<a id="{block.anchor}"></a>'
        yield ""
    yield "#" * block.level + " " + (f"`{block.text}`" if block.is_code else escaped(block.text))


def follows(before: pages.Block, block: pages.Block) -> bool:
    """Whether no empty line stands between the two: they are clauses of one list, or a list under its heading."""
    return (isinstance(before, ClauseBlock) and isinstance(block, ClauseBlock)
            or isinstance(before, Heading) and isinstance(block, Listing))


class Markdown:
    """Writes pages; `source_of` gives the file that has what a page of a crate would show."""

    def __init__(self, source_of: Callable[[Target], str]):
        self.source_of = source_of

    def address(self, target: Target) -> str:
        if not target.page:
            return TO_TOP + target.file
        if target.page not in COMMITTED:
            return TO_TOP + self.source_of(target)
        return f"{target.page}.md" + (f"#{target.anchor}" if target.anchor else "")

    def inline(self, part: Inline) -> str:
        text = f"`{part.text}`" if part.is_code else escaped(part.text)
        return f"[{text}]({self.address(part.target)})" if part.target else text

    def line(self, parts: Iterable[Inline]) -> str:
        return "".join(map(self.inline, parts)).strip()

    def cited(self, links: Dict[str, Target]) -> str:
        """The places that a source text links to, each once: under its own name, if the text has
        it."""
        words: Dict[Target, str] = {}
        for word, target in links.items():
            if target not in words or word == target.anchor.split(".")[-1]:
                words[target] = word
        return ", ".join(f"[`{word}`]({self.address(it)})" for it, word in words.items())

    def source_block(self, source: Source) -> Iterator[str]:
        yield from fenced(source)
        if source.links:
            yield ""
            yield f"{source.label} {self.cited(source.links)}."

    def clause(self, block: ClauseBlock) -> Iterator[str]:
        """An entry of a list: the clause, what it cites, and the comment that stands over it."""
        anchor = f'<a id="{block.anchor}"></a>' if block.anchor else ""
        head = f"- {anchor}**{block.kind}**" + (f" **`{block.name}`**" if block.name else "") + ":"
        after = [self.line(block.comment)] if block.comment else []
        if block.source.links:
            after.append(f"cites {self.cited(block.source.links)}")
        if "\n" in block.source.text or len(block.source.text) > WIDTH:
            yield head
            yield from fenced(block.source, "  ")
            if after:
                yield "  " + "<br>".join(after)
        else:
            yield "<br>".join([f"{head} `{block.source.text}`", *after])

    def table(self, block: Table) -> Iterator[str]:
        yield "| " + " | ".join(block.head) + " |"
        yield "|" + "|".join("--:" if it in NUMBERS else "---" for it in block.head) + "|"
        for row in block.rows:
            yield "| " + " | ".join(map(self.line, row)) + " |"

    def block_lines(self, block: pages.Block) -> List[str]:
        if isinstance(block, Heading):
            return list(heading(block))
        if isinstance(block, Paragraph):
            return [self.line(block.parts)]
        if isinstance(block, Listing):
            return [f"- {self.line(entry)}" for entry in block.entries]
        if isinstance(block, Source):
            return list(self.source_block(block))
        if isinstance(block, ClauseBlock):
            return list(self.clause(block))
        return list(self.table(block))

    def written(self, page: Page) -> str:
        lines: List[str] = []
        for before, block in zip([None, *page.blocks], page.blocks):
            if before and not follows(before, block):
                lines.append("")
            lines += self.block_lines(block)
        return "\n".join(lines) + "\n"


def file_of(page: Page) -> str:
    return f"{page.name}.md"
