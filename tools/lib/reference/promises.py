"""The page of what is proved, crate by crate: of each public type and function with a clause its
doc comment, and the clauses by name. It is made of the pages of the crates."""
from __future__ import annotations

from typing import Dict, Iterator, List, Tuple

from lib.reference import pages
from lib.reference.pages import (
    Block, ClauseBlock, Heading, Inline, Listing, Page, Paragraph, Target, code, plain)
from lib.reference.sources import Project

TITLE = "What is proved, crate by crate"
STATED = ("ensures", "ghost", "invariant")      # what a clause has to be to promise something
INTRODUCTION = (
    "Every function of every crate is proved to be memory safe, not to overflow, and to return,"
    " unless it waits for another thread. Beyond that, these are the public types, each with its"
    " methods, and functions, with what is proved of them. Each name leads to the line of its item or clause.")


def parts_of(page: Page) -> Iterator[Tuple[Heading, List[Block]]]:
    """The headings of a crate's items, each with what stands below it up to the next one."""
    found = [place for place, it in enumerate(page.blocks) if isinstance(it, Heading)]
    for place, end in zip(found, [*found[1:], len(page.blocks)]):
        heading = page.blocks[place]
        if heading.is_code and heading.anchor and not heading.anchor.startswith("specs."):
            yield heading, page.blocks[place + 1:end]


def said(blocks: List[Block]) -> List[Inline]:
    """The first paragraph, if it is the doc comment of the item."""
    first = blocks[0] if blocks else None
    return first.parts if isinstance(first, Paragraph) else []


def stated(blocks: List[Block]) -> List[ClauseBlock]:
    return [it for it in blocks if isinstance(it, ClauseBlock) and it.kind in STATED]


def clauses(page: Page, owner: str, found: List[ClauseBlock]) -> List[Inline]:
    """Those with names, each as a link."""
    made: List[Inline] = []
    for it in found:
        if it.anchor:
            name = code(it.anchor.removeprefix(owner + "."), Target(page.name, it.anchor))
            made += [*plain(", " if made else " "), *name]
    return made + plain(".") if made else []


def entries_of(page: Page, heading: Heading, blocks: List[Block]) -> Iterator[List[Inline]]:
    """An item with its clauses, and then the type of an impl that follows, with its clauses."""
    found = stated(blocks)
    own = [it for it in found if not it.anchor or it.anchor.startswith(heading.anchor + ".")]
    if own:
        name = code(heading.text, Target(page.name, heading.anchor))
        yield [*name, *plain(": "), *said(blocks), *clauses(page, heading.anchor, own)]
    others = [it for it in found if it not in own]
    if others:
        owner = others[0].anchor.split(".")[0]
        yield [*code(owner, Target(page.name, owner)), *plain(":"), *clauses(page, owner, others)]


def together(anchor: str) -> str:
    """What stands in one entry: a type with its methods, the exports of one handle or struct, a function."""
    name = anchor.split(".")[0]
    return "_".join(name.split("_")[:2]) if name.startswith("krbrelay_") else name


def page_of(crates: List[Page]) -> Page:
    blocks: List[Block] = [Heading(1, TITLE, ""), Paragraph(plain(INTRODUCTION))]
    for page in crates:
        entries: Dict[str, List[Inline]] = {}
        for heading, below in parts_of(page):
            for it in entries_of(page, heading, below):
                before = entries.setdefault(together(heading.anchor), [])
                before += [*(plain(" ") if before else []), *it]
        if entries:
            blocks += [Heading(2, page.title, page.name), Listing(list(entries.values()))]
    return Page(pages.PROMISES, TITLE, blocks)


def all_pages(project: Project) -> List[Page]:
    """Each page of the reference, the index first."""
    index, headline, *crates = pages.pages_of(project)
    return [index, headline, page_of(crates), *crates]
