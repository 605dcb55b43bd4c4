"""What is on each page of the reference: headings, prose, source text with links, and tables.

`pages_of` makes the pages of a project. pages_markdown.py writes those that are committed; those of the crates say
which anchors and clauses there are. A page is a list of blocks, and a block's words are a list of inline parts, so that
the writer knows nothing of crates.
"""
from __future__ import annotations

import dataclasses
import re
from typing import Dict, Iterable, Iterator, List, Optional, Set, Tuple, Union

from lib.reference import sources
from lib.reference.sources import (
    KIT, Clause, Definition, Function, Item, Project, Ref, Scope)

INDEX, HEADLINE, PROMISES = "README", "headline", "promises"
LAW = Ref("krb_peers", "", "frames_laws")       # its contract is the headline
TAKER, TAKE = Ref("krb_peers", "", "Receiver"), "take"      # the call whose verdicts it is about
OWN = "this project"                    # the source of a definition that cites no standard

GUIDE = [
    "`requires` is what a caller has to prove; `ensures` is what it gets. A clause has a name where"
    " there are several.",
    "`x.old` and `x.new` are the values of a mutable borrow before and after the call; `x.now` is"
    " the value of a shared one, and `xs.items` the list of a vector.",
    "`IfOk result (λ x. P x)`: if the result is an Ok, P holds of its value; `IfErr` likewise."
    " `OnOk result P`: if the result is an Ok, P holds.",
    "`(x : A) → P x` is \"for all x\", `(x : A) × P x` is \"there is an x\", `P × Q` is \"and\","
    " `P ⊎ Q` is \"or\", `P ↔ Q` is \"if and only if\", `¬ P` is \"not\", `⊥` is never true, `≡` is"
    " equality.",
    "A `record` of propositions holds if all of its fields do; its arguments are what it speaks"
    " of.",
    "Words that don't link are the kit's: lists, numbers, options and results with their usual"
    " meaning.",
]


# ---- blocks

@dataclasses.dataclass(frozen=True)
class Target:
    """A place of a page, or a file of the repository where `page` is ''."""
    page: str
    anchor: str = ""
    file: str = ""


@dataclasses.dataclass(frozen=True)
class Inline:
    """A part of a line: plain or code, and a link where it has a target."""
    text: str
    is_code: bool = False
    target: Optional[Target] = None


@dataclasses.dataclass
class Heading:
    level: int
    text: str
    anchor: str
    is_code: bool = False


@dataclasses.dataclass
class Paragraph:
    parts: List[Inline]


@dataclasses.dataclass
class Listing:
    entries: List[List[Inline]]


@dataclasses.dataclass
class Source:
    """Source text, with the words that link."""
    text: str
    language: str
    links: Dict[str, Target]
    label: str = "Cites"    # of the line with the links, where the text itself can't link


@dataclasses.dataclass
class ClauseBlock:
    kind: str
    name: str
    anchor: str
    source: Source
    comment: List[Inline]
    owner: str = ""                 # the item whose clause it is
    cites: Tuple[Ref, ...] = ()     # what its words stand for


@dataclasses.dataclass
class Table:
    head: List[str]
    rows: List[List[List[Inline]]]


Block = Union[Heading, Paragraph, Listing, Source, ClauseBlock, Table]


@dataclasses.dataclass
class Page:
    name: str
    title: str
    blocks: List[Block]

    def anchors(self) -> Iterator[str]:
        for block in self.blocks:
            if isinstance(block, (Heading, ClauseBlock)) and block.anchor:
                yield block.anchor


def plain(text: str) -> List[Inline]:
    return [Inline(text)]


def code(text: str, target: Optional[Target] = None) -> List[Inline]:
    return [Inline(text, True, target)]


# ---- what cites what

class Graph:
    """What the clauses, the types and the definitions of a project cite."""

    def __init__(self, project: Project):
        self.project = project
        self.kept: Dict[Ref, List[Ref]] = {}    # what each definition cites

    def of_clause(self, crate: str, scope: Scope, clause: Clause) -> Dict[str, Ref]:
        """What the words of a clause stand for: what its file imports, or a type of Rust."""
        masked = sources.blanked(clause.text, sources.RUST_ASIDE)
        found = {}
        for word in sorted(sources.free_words(masked, set())):
            head = word.split(".")[0]
            ref = self.project.meaning(scope, word)
            if ref is None and head[0].isupper():
                ref = self.project.type_named(crate, head)
            if ref is not None:
                found[word] = ref
        return found

    def of_text(self, crate: str, text: str) -> Dict[str, Ref]:
        """The types that a piece of Rust names."""
        words = re.findall(r"\b[A-Z]\w*", sources.blanked(text, sources.RUST_ASIDE))
        found = {word: self.project.type_named(crate, word) for word in sorted(set(words))}
        return {word: ref for word, ref in found.items() if ref is not None}

    def of_definition(self, definition: Definition) -> Dict[str, Ref]:
        ref = definition.ref
        module = self.project.module_of(ref.crate, ref.module)
        assert module is not None
        own = {it.ref.word: it.ref for it in module.definitions}
        own.update({maker: own[data] for maker, data in module.makers.items()})
        found = {}
        for word in sorted(definition.words):
            meant = self.project.meaning(module.scope, word)
            meant = meant or own.get(word.split(".")[0])
            if meant is not None and meant != ref:
                found[word] = meant
        return found

    def of_function(self, crate: str, made: Function) -> List[Ref]:
        found = list(self.of_text(crate, made.signature).values())
        for clause in made.clauses:
            found += self.of_clause(crate, made.scope, clause).values()
        return found

    def of_item(self, crate: str, item: Item) -> List[Ref]:
        """What contracts see of a type: its view, or its fields; of a trait, its contracts."""
        seen = item.seen_as()
        if seen is not None:
            scope = next(it.scope for it in item.implementations if it.trait == "Model")
            return list(self.of_clause(crate, scope, seen).values())
        found = list(self.of_text(crate, fields_of(item)).values())
        for clause in item.clauses:
            found += self.of_clause(crate, item.scope, clause).values()
        if item.kind == "trait":
            for made in item.functions:
                found += self.of_function(crate, made)
        return [it for it in found if it != Ref(crate, "", item.name)]

    def cited(self, ref: Ref) -> List[Ref]:
        if ref.crate == KIT:
            return []
        item = self.project.item(ref)
        if item is not None:
            return self.of_item(ref.crate, item)
        definition = self.project.definition(ref)
        return list(self.of_definition(definition).values()) if definition else []

    def reached(self, roots: Iterable[Ref]) -> List[Ref]:
        """The roots and all that they cite, the nearest first."""
        found: List[Ref] = []
        seen: Set[Ref] = set()
        near = list(roots)
        while near:
            far: List[Ref] = []
            for ref in near:
                if ref not in seen:
                    seen.add(ref)
                    found.append(ref)
                    if ref not in self.kept:
                        self.kept[ref] = self.cited(ref)
                    far += self.kept[ref]
            near = far
        return found

    def public_roots(self) -> Iterator[Ref]:
        """What the public items of all crates cite."""
        for crate in self.project.crates.values():
            for name in crate.public:
                if name in crate.functions:
                    yield from self.of_function(crate.name, crate.functions[name])
                    continue
                item = crate.items[name]
                yield Ref(crate.name, "", name)
                for made in item.functions:
                    yield from self.of_function(crate.name, made)
                for part in item.implementations:
                    for made in part.functions:
                        if made.is_public:
                            yield from self.of_function(crate.name, made)
                    for clause in shown_ghosts(part):
                        yield from self.of_clause(crate.name, part.scope, clause).values()


def methods_of(crate: sources.Crate, name: str) -> Set[str]:
    """The public methods of an item."""
    if name not in crate.items:
        return set()
    item = crate.items[name]
    own = [made for part in item.implementations if not part.trait for made in part.functions]
    return {made.name for made in item.functions + own if made.is_public}


def fields_of(item: Item) -> str:
    """The text of a type that names the types of its fields: not the names of its variants."""
    if item.kind == "enum":
        return re.sub(r"^    [A-Z]\w*", "", item.whole, flags=re.M)
    return "" if item.kind == "trait" else item.whole


def shown_ghosts(made: sources.Implementation) -> List[Clause]:
    """What an implementation says to callers: not a type's private view and invariant."""
    hidden = ("view", "invariant") if made.trait == "Model" else ()
    return [it for it in made.clauses if it.name not in hidden]


# ---- docs

TYPES, TRAITS = ("struct", "enum", "type"), ("trait",)
PART = re.compile(r"\[`([^`\]]+)`\](?:\(([^)]*)\))?|`([^`]+)`|\[([^\]]+)\]\(([^)]+)\)")


class Writer:
    """Makes the pages."""

    def __init__(self, project: Project):
        self.project, self.graph = project, Graph(project)
        self.shown = set(self.graph.reached(self.graph.public_roots()))
        self.headline = self.graph.reached(self.headline_roots())
        self.shown.update(self.headline)

    def headline_calls(self) -> List[Tuple[str, str, Function]]:
        """The law and the call: each with its crate and its name."""
        law = self.project.crates[LAW.crate].functions[LAW.word]
        taker = self.project.crates[TAKER.crate].items[TAKER.word]
        own = [made for part in taker.implementations if not part.trait for made in part.functions]
        take = next(made for made in own if made.name == TAKE)
        return [(LAW.crate, LAW.word, law), (TAKER.crate, f"{TAKER.word}.{TAKE}", take)]

    def headline_roots(self) -> List[Ref]:
        return [ref for crate, _, made in self.headline_calls()
                for ref in self.graph.of_function(crate, made)]

    # ---- links

    def target(self, ref: Ref) -> Optional[Target]:
        if ref.crate == KIT:
            return None
        if not ref.is_type():
            place = Target(ref.crate, f"specs.{ref.module}.{ref.word}")
            return place if ref in self.shown else None
        crate = self.project.crates[ref.crate]
        is_there = ref.word in crate.public or ref in self.shown
        return Target(ref.crate, ref.word) if is_there else None

    def links(self, meanings: Dict[str, Ref]) -> Dict[str, Target]:
        found = {word: self.target(ref) for word, ref in meanings.items()}
        return {word: target for word, target in found.items() if target is not None}

    def named(self, crate: str, name: str) -> Optional[Target]:
        """Where a doc comment's name leads: an item of the crate, or of one that it stands on; a
        method, or the type of a variant or a field."""
        name = name.replace("crate::", "").replace("::", ".").split("(")[0]
        first, _, rest = name.partition(".")
        if first in self.project.crates and rest:
            return self.named(first, rest)
        for place in [crate, *self.project.crates[crate].below]:
            found = self.project.crates[place]
            if first in found.public:
                return Target(place, name if rest in methods_of(found, first) else first)
        return Target(first) if first in self.project.crates else None

    # ---- prose

    def inlines(self, crate: str, text: str) -> List[Inline]:
        found, at = [], 0
        for match in PART.finditer(text):
            if match.start() > at:
                found.append(Inline(text[at:match.start()]))
            at = match.end()
            if match[1]:
                found.append(Inline(match[1], True, self.named(crate, match[2] or match[1])))
            elif match[3]:
                found.append(Inline(match[3], True))
            else:
                found.append(Inline(match[4], False, self.named(crate, match[5])))
        return found + ([Inline(text[at:])] if at < len(text) else [])

    def said(self, crate: str, doc: str) -> Iterator[Block]:
        """The first paragraph of a doc comment."""
        if doc:
            yield Paragraph(self.inlines(crate, " ".join(doc.split("\n\n")[0].split())))

    # ---- items

    def clause(self, crate: str, owner: str, scope: Scope, clause: Clause) -> ClauseBlock:
        cited = self.graph.of_clause(crate, scope, clause)
        anchor = f"{owner}.{clause.name}" if clause.name else ""
        if clause.kind == "requires" and anchor:
            anchor = f"{owner}.requires.{clause.name}"
        return ClauseBlock(clause.kind, clause.name, anchor, Source(clause.text, "", self.links(cited)),
                           self.inlines(crate, clause.comment), owner, tuple(cited.values()))

    def function(self, crate: str, made: Function, owner: str, level: int) -> Iterator[Block]:
        name = f"{owner}.{made.name}" if owner else made.name
        yield Heading(level, name.replace(".", "::"), name, True)
        yield from self.said(crate, made.doc)
        links = self.links(self.graph.of_text(crate, made.signature))
        yield Source(made.signature, "rust", links, "Types:")
        for clause in made.clauses:
            yield self.clause(crate, name, made.scope, clause)

    def item(self, crate: str, item: Item, level: int) -> Iterator[Block]:
        yield Heading(level, item.name, item.name, True)
        yield from self.said(crate, item.doc)
        named = item.declaration if item.kind == "trait" else fields_of(item)
        links = self.links(self.graph.of_text(crate, named))
        links.pop(item.name, None)
        yield Source(item.declaration, "rust", links, "Types:")
        if item.kind == "trait":
            for clause in item.clauses:
                yield self.clause(crate, item.name, item.scope, clause)
        for made in item.functions:
            yield from self.function(crate, made, item.name, level + 1)
        for part in item.implementations:
            if not part.trait:
                for made in part.functions:
                    if made.is_public:
                        yield from self.function(crate, made, item.name, level + 1)
        yield from self.implemented(crate, item)

    def implemented(self, crate: str, item: Item) -> Iterator[Block]:
        """What contracts know of the traits of an item."""
        for part in item.implementations:
            if part.trait and part.trait != "Model":
                for clause in shown_ghosts(part):
                    yield self.clause(crate, f"{item.name}.{part.label()}", part.scope, clause)

    # ---- pages

    def crate(self, name: str) -> Page:
        """The public items of a crate and the types that definitions speak of, with their clauses."""
        crate = self.project.crates[name]
        items = [crate.items[it] for it in crate.public if it in crate.items]
        hidden = sorted((it for it in crate.items.values() if it.name not in crate.public
                         and Ref(name, "", it.name) in self.shown), key=lambda it: it.name)
        blocks: List[Block] = []
        for kinds in TYPES, TRAITS:
            blocks += [block for it in items if it.kind in kinds for block in self.item(name, it, 3)]
        for made in [crate.functions[it] for it in crate.public if it in crate.functions]:
            blocks += self.function(name, made, "", 3)
        constants = [it for it in items if it.kind not in (*TYPES, *TRAITS)]
        blocks += [block for it in [*constants, *hidden] for block in self.item(name, it, 3)]
        return Page(name, name, blocks)

    def index(self) -> Page:
        blocks: List[Block] = [
            Heading(1, "Reference", ""),
            Paragraph(self.inlines("krb_base", "Each public type and function of the crates, with"
                                   " its contract, and each definition that a contract cites."
                                   " A name leads to its source. The prover has checked each function against its"
                                   " contract.")),
            Paragraph([Inline("Start with "),
                       Inline("what the headline rests on", False, Target(HEADLINE)),
                       Inline(": the contract of "), *code(LAW.word, Target(LAW.crate, LAW.word)),
                       Inline(", and each definition that it reaches. Then "),
                       Inline("what is proved, crate by crate", False, Target(PROMISES)),
                       Inline(": each promise in a line.")]),
            Heading(2, "How to read a contract", "contracts"), *self.guide(),
            Heading(2, "Crates", "crates")]
        rows = []
        for crate in self.project.crates.values():
            if crate.public:
                rows.append([code(crate.name, Target(crate.name)),
                             self.inlines(crate.name, first_sentence(crate.doc)),
                             plain(str(len(crate.public)))])
        blocks.append(Table(["Crate", "What it is for", "Public items"], rows))
        return Page(INDEX, "Reference", blocks)

    def guide(self) -> Iterator[Block]:
        yield Listing([self.inlines("krb_base", it) for it in GUIDE])

    # ---- the headline

    def headline_page(self) -> Page:
        definitions = [it for it in map(self.project.definition, self.headline) if it is not None]
        lines = sum(it.lines() for it in definitions)
        about = (f"These are {len(definitions)} definitions, of {lines} lines without comments."
                 " The contracts reach them by their clauses, by what contracts see of the types in"
                 " the signatures, and by the contracts of the traits there.")
        blocks: List[Block] = [
            Heading(1, "What the headline rests on", ""),
            Paragraph([Inline("The promise is the contract of "),
                       *code(LAW.word, Target(LAW.crate, LAW.word)),
                       Inline(", a law about the verdicts of "),
                       *code(f"{TAKER.word}::{TAKE}", Target(TAKER.crate, f"{TAKER.word}.{TAKE}")),
                       Inline(" on whatever frames come. The prover has checked both. A reader has to"
                              " check that they say what is wanted, so has to believe the"
                              " definitions that they speak of. " + about)]),
            Paragraph([Inline("The promise holds of every lane of "), *code("relay", Target("krb_relay", "relay")),
                       Inline(": the definitions with which its contract says so are in the reference of its"
                              " crates.")])]
        for crate, name, made in self.headline_calls():
            blocks += [Heading(2, f"The contract of {name.replace('.', '::')}", name.lower()),
                       Source(made.signature, "rust",
                              self.links(self.graph.of_text(crate, made.signature)), "Types:")]
            for clause in made.clauses:
                block = self.clause(crate, "", made.scope, clause)
                block.anchor = ""
                blocks.append(block)
        blocks += [Heading(2, "The definitions", "definitions"),
                   Paragraph(plain("Each module is a row, with its definitions below it, or one definition's; those"
                                   " that the contracts reach in fewer steps come first. The source is the"
                                   " standard that the definition, or the head of its file, cites;"
                                   " the other definitions are this project's.")),
                   Table(["Definition", "What it says", "Source", "Lines"],
                         [row for (crate, module), found in self.by_module(definitions).items()
                          for row in self.module_rows(crate, module, found)])]
        blocks += self.headline_types()
        blocks += self.headline_words()
        return Page(HEADLINE, "What the headline rests on", blocks)

    def by_module(self, definitions: List[Definition]) -> Dict[Tuple[str, str], List[Definition]]:
        found: Dict[Tuple[str, str], List[Definition]] = {}
        for definition in definitions:
            found.setdefault((definition.ref.crate, definition.ref.module), []).append(definition)
        return found

    def module_rows(self, crate: str, name: str, found: List[Definition]) -> Iterator[List[List[Inline]]]:
        """The row of a module, and those of its definitions; one row if there is only one definition."""
        module = self.project.module_of(crate, name)
        assert module is not None
        place = Inline(f"{crate}: {name}", False, Target("", "", module.file))
        about = [*self.inlines(crate, sentence(module.comment)), *plain(" ")] if module.comment else []
        alone = len(found) == 1
        if not alone:
            yield [[place], [*about, *plain(counted(len(found), "definition") + ":")], plain(""),
                   plain(str(sum(it.lines() for it in found)))]
        order = {it.ref: at for at, it in enumerate(module.definitions)}
        for it in sorted(found, key=lambda it: order[it.ref]):
            word, says = code(it.ref.word, self.target(it.ref)), self.inlines(crate, sentence(it.comment))
            yield [[*word, *plain(" of "), place] if alone else word, [*about, *says] if alone else says,
                   plain(source_in(it.comment, module.comment)), plain(str(it.lines()))]

    def headline_types(self) -> Iterator[Block]:
        refs = sorted({it for it in self.headline if it.is_type()},
                      key=lambda it: (it.crate, it.word))
        yield Heading(2, "The types", "types")
        yield Paragraph(plain("These types of the crates stand in the contracts or in those"
                              " definitions."))
        crates: Dict[str, List[Inline]] = {}
        for ref in refs:
            crates.setdefault(ref.crate, []).append(Inline(ref.word, True, self.target(ref)))
        yield Listing([[Inline(crate, True, Target(crate)), Inline(": "), *joined(words)]
                       for crate, words in crates.items()])

    def headline_words(self) -> Iterator[Block]:
        words: Dict[str, Set[str]] = {}
        for ref in self.headline:
            if ref.crate == KIT:
                words.setdefault(ref.module, set()).add(ref.word)
        yield Heading(2, "Words of the kit", "kit")
        yield Paragraph(plain("These words are defined by the kit, most of them in its standard"
                              " library. Operators, as of lists and numbers, are not listed."))
        yield Listing([[Inline(module[len("Rattle."):], True), Inline(": "),
                        *joined(Inline(it, True) for it in sorted(words[module]))]
                       for module in sorted(words)])


def joined(parts: Iterable[Inline]) -> List[Inline]:
    return [it for part in parts for it in (part, Inline(", "))][:-1]


def counted(count: int, what: str) -> str:
    return f"{count:,} {what}{'' if count == 1 else 's'}"


def sentence(comment: str) -> str:
    """A comment as a sentence of its own."""
    text = " ".join(comment.split())
    if not text:
        return ""
    return text[0].upper() + text[1:] + ("" if text[-1] in ".:" else ".")


def first_sentence(doc: str) -> str:
    text = " ".join(doc.split("\n\n")[0].split())
    return re.split(r"(?<=[.!?])\s+(?=[A-Z`\[])", text)[0]


SECTION = r"[\dA-Z]+(?:\.\d+)*(?:(?:, | and )\d+(?:\.\d+)*)*"
STANDARD = re.compile(r"(?:RFC \d+|FIPS \d+(?:-\d)?|X\.690|X\.680|ISO 8601)"
                      rf"(?:,? (?:sections?|appendix) {SECTION})?")


ONLY_SECTION = re.compile(r"\((?:section )?(\d+(?:\.\d+)+)\)")


def source_of(comment: str) -> str:
    """The standards that a comment cites, with their sections."""
    cited = STANDARD.findall(" ".join(comment.split()))
    return "; ".join(dict.fromkeys(it.replace(",", "", 1) for it in cited))


def source_in(comment: str, head: str) -> str:
    """The same of a definition whose file has this head: a section alone is one of the head's only
    standard."""
    section = ONLY_SECTION.search(comment)
    standards = set(re.findall(r"RFC \d+|FIPS \d+(?:-\d)?|X\.\d+", head))
    if not STANDARD.search(comment) and section and len(standards) == 1:
        return f"{standards.pop()} section {section[1]}"
    return source_of(comment) or source_of(head) or OWN


def place_in(file: str, line: int, clauses: List[Clause], rest: List[str]) -> str:
    """The place of a clause, by the end of its anchor, of what stands at a line; of the whole where it is none."""
    names = {f"requires.{it.name}" if it.kind == "requires" else it.name: it.line for it in clauses if it.name}
    return f"{file}#L{names.get('.'.join(rest), line)}"


def place_in_item(item: Item, rest: List[str]) -> str:
    """The same of a type or a trait: of its own clauses, a function's, or those of a trait that it implements."""
    own = [it for part in item.implementations if not part.trait for it in part.functions if it.is_public]
    for made in [*item.functions, *own]:
        if rest and made.name == rest[0]:
            return place_in(made.file, made.line, made.clauses, rest[1:])
    for part in item.implementations:
        if rest and part.trait and part.clauses and part.label() == rest[0]:
            return place_in(part.file, item.line, part.clauses, rest[1:])
    return place_in(item.file, item.line, item.clauses, rest)


def source_place(project: Project, target: Target) -> str:
    """The file in which the item, the clause or the definition of a target stands, with its line; of a crate its root."""
    crate = project.crates.get(target.page)
    first, *rest = target.anchor.split(".")
    if first == "specs":
        module, name = project.module_of(target.page, ".".join(rest[:-1])), rest[-1]
        if module is None:
            module, name = project.module_of(target.page, ".".join(rest)), ""
        assert module is not None
        return next((f"{it.file}#L{it.line}" for it in module.definitions if it.ref.word == name), module.file)
    assert crate is not None
    if first in crate.functions:
        made = crate.functions[first]
        return place_in(made.file, made.line, made.clauses, rest)
    return place_in_item(crate.items[first], rest) if first in crate.items else f"crates/{target.page}/src/lib.rt"


def lines_of(project: Project, crates: List[Page]) -> Dict[Tuple[str, str], str]:
    """The lines of what the pages of crates show, and of all definitions, by the file and the name."""
    found: Dict[Tuple[str, str], str] = {}
    for page in crates:
        for anchor in page.anchors():
            file, _, line = source_place(project, Target(page.name, anchor)).partition("#L")
            found[file, anchor] = line
    for crate in project.crates.values():
        for module in crate.modules.values():
            for it in module.definitions:
                found[it.file, it.ref.word] = found[it.file, f"specs.{it.ref.module}.{it.ref.word}"] = str(it.line)
    return found


def pages_of(project: Project) -> List[Page]:
    writer = Writer(project)
    pages = [writer.index(), writer.headline_page()]
    return pages + [writer.crate(it.name) for it in project.crates.values() if it.public]
