"""The file of all claims: a line for each clause and each signature of a public item, with the digest of its text and
that of all definitions which it reaches, and a line for each of these definitions. So a clause that says less than before
has another line, also where its own text stays."""
from __future__ import annotations

import functools
import hashlib
from typing import Dict, Iterable, Iterator, List, Tuple

from lib.reference.pages import ClauseBlock, Graph, Heading, Page, Source
from lib.reference.sources import KIT, Project, Ref

FILE = "claims.txt"
HEAD = """\
# What is claimed, by the first 128 bits of SHA-256. tools/reference writes it, and its --check says which claim changed.
# claim CRATE ITEM KIND NAME: its text, with single spaces; then all that it reaches, as their lines stand below, sorted
# definition CRATE NAME: its text, likewise; of a type what contracts see of it
"""
Row = Tuple[str, ...]       # a claim's or a definition's words
Rows = Dict[Row, Row]       # with its digests


def digest(text: str) -> str:
    return hashlib.sha256(" ".join(text.split()).encode()).hexdigest()[:32]


def seen(graph: Graph, ref: Ref) -> str:
    """The text of a definition, or what contracts see of a type; '' of the kit's."""
    definition, item = graph.project.definition(ref), graph.project.item(ref)
    if definition is not None:
        return definition.text
    if item is None:
        return ""
    view = item.seen_as()
    clauses = [*item.clauses, *(clause for it in item.functions for clause in it.clauses)]
    return "\n".join([view.text if view else item.whole if item.kind != "trait" else item.declaration,
                      *(it.text for it in clauses)])


def name_of(ref: Ref) -> str:
    return f"{ref.module}.{ref.word}" if ref.module else ref.word


def claims_of(graph: Graph, page: Page) -> Iterator[Tuple[Row, str, Iterable[Ref]]]:
    """Each clause and signature of a crate's page, with its text and what that cites."""
    item = ""
    for block in page.blocks:
        if isinstance(block, Heading):
            item = block.anchor
        elif isinstance(block, ClauseBlock):
            yield ("claim", page.name, block.owner, block.kind, block.name or "-"), block.source.text, block.cites
        elif isinstance(block, Source) and block.label == "Types:":
            types = graph.of_text(page.name, block.text).values()
            yield ("claim", page.name, item, "signature", "-"), block.text, types


def key_of(claim: Row) -> str:
    """A claim's name in its crate, which is the anchor of a clause in the reference."""
    _, _, item, kind, name = claim
    if kind == "signature":
        return item
    return f"{item}.{kind}" if name == "-" else f"{item}.requires.{name}" if kind == "requires" else f"{item}.{name}"


def rows(project: Project, every: List[Page]) -> Rows:
    """The claims, and then the definitions."""
    graph, claims = Graph(project), {}
    definitions: Rows = {}

    @functools.lru_cache(maxsize=None)
    def line(ref: Ref) -> str:
        row, made = ("definition", ref.crate, name_of(ref)), digest(seen(graph, ref))
        definitions[row] = (made,)
        return " ".join([*row, made])

    for page in every:
        for key, text, cites in claims_of(graph, page):
            reached = [it for it in graph.reached(cites) if it.crate != KIT and seen(graph, it)]
            claims[key] = (*claims.get(key, ()), digest(text), digest("\n".join(sorted(map(line, reached)))))
    return {**claims, **dict(sorted(definitions.items()))}


def written(found: Rows) -> str:
    return HEAD + "".join(" ".join([*row, *digests]) + "\n" for row, digests in found.items())


def read(text: str) -> Rows:
    words = [line.split() for line in text.splitlines() if not line.startswith("#")]
    return {tuple(it[:5 if it[0] == "claim" else 3]): tuple(it[5 if it[0] == "claim" else 3:]) for it in words if it}


def changes(before: Rows, after: Rows) -> Iterator[str]:
    """A line for each claim and definition that is gone, is new, or says something else."""
    for row in dict.fromkeys([*before, *after]):
        old, new = before.get(row), after.get(row)
        if old is None or new is None:
            yield f"{' '.join(row)} is {'new' if old is None else 'gone'}"
        elif old != new:
            is_text = old[::2] != new[::2]
            yield f"{' '.join(row)}: {'its text' if is_text else 'a definition that it reaches'} is another one"
