"""Tests what the reference is made of: how sources are read, what their words stand for, and how a
page is written. The sources are written out here, and no program runs."""

from lib import scripts
from lib.reference import claims, pages, pages_markdown, promises, sources
from lib.reference.sources import Ref

RUST = '''//! What the crate is for.
//!
//! More of it.

ghost use Rattle.std.specs.Prelude.{◌≡◌, length};
ghost use Rattle.low.specs.Rule.{Keeps, limit as the_limit};

use crate::other::Other;

/// A box of bytes: `}` and "quotes" count for nothing.
///
/// It holds {text}.
#[derive(Clone, Drop)]
pub struct Crate {
    /// How many.
    pub count: u32,
    hidden: Vec<u8>,
    pub ghost fits: { count ≤ the_limit },
}

impl Model for Crate {
    ghost use Rattle.low.specs.Rule.{Seen};

    ghost Value = { Seen };

    ghost view = { λ c. seen c.count };
}

impl<'a> Crate {
    /// Fills it.
    pub fn fill<F: Fn(u32) -> u32>(
        &mut self,
        text: &'a [u8],
    ) -> Result<(), Fault>
        requires few { length text.now ≤ the_limit }
        // Where it fails nothing changes.
        ensures kept { OnErr result
            (self.new ≡ self.old) }
        ensures { Keeps self.new }
    {
        let brace = '{';
        let words = "ensures lost { x }";
        if text.is_empty() {
            return Ok(());
        }
        Ok(())
    }

    fn private(&self) {}
}

impl From<AllocError> for Crate {
    ghost from_gives = { λ _ c. Keeps c };

    fn from(_error: AllocError) -> Crate {
        todo()
    }
}

/// One of two.
#[derive(Clone)]
pub enum Kind {
    /// The first.
    One,
    Two(Crate),
}

pub trait Gate: Drop {
    ghost state: { Self → Seen };

    /// Enters.
    fn enter(&self, lane: u32)
        ensures { lane ≤ the_limit };
}

pub(crate) fn inside() -> u32 {
    3
}

#[test]
fn tested() {
    assert!(true);
}
'''

RULE = '''-- The rules (RFC 4120 section 5.2.4,
-- UInt32).
use Rattle.std.specs.Prelude.{◌≡◌, ℕ, length}
use Rattle.low.specs.declared.crates.Kind.TheVariants as kinds
use Rattle.low.specs.More as more

-- the bound
abbrev pub limit : ℕ
limit = 1000

-- what contracts see
pub record Seen : Type 0 where
  pub limit : ℕ
  pub size : ℕ

-- ---- a section

abbrev pub double : ℕ → ℕ
double limit = limit + limit

abbrev pub Keeps : Seen → Type 0
Keeps s = (size : ℕ) → s.size ≡ size → more.IsBig (double limit) × IsOne kinds.One

abbrev pub seen : ℕ → Seen
seen limit = record { limit = limit; size = 0 }

pub data Item (F : Type 0) : Type 0 where
  Frame : F → Item F
  End : Item F

module _ {F : Type 0} where
  -- the frames
  abbrev pub frames : Item F → F
  frames (Frame f) = f
  frames End = the_end
'''


# ---- reading

def test_rust():
    file = sources.rust_file(RUST, "crates/low/src/crates.rt")
    assert file.doc == "What the crate is for.\n\nMore of it.", "the doc of a file"
    assert [(it.kind, it.name) for it in file.items] == [("struct", "Crate"), ("enum", "Kind"), ("trait", "Gate")], \
        "its items"
    assert [it.name for it in file.functions] == ["inside"] and not file.functions[0].is_public, \
        "its functions, but tests"
    made = file.items[0]
    assert made.doc.startswith("A box of bytes: `}`") and made.doc.endswith("It holds {text}."), \
        "a doc with signs of its own"
    assert ("hidden" not in made.declaration and "count" in made.declaration and "fits" in made.declaration
            and "// private fields" in made.declaration
            and made.declaration.startswith("#[derive(Clone, Drop)]\npub struct")), "public fields alone"
    assert "hidden" in made.whole and "Two(Crate)" in file.items[1].declaration, "the fields of all"
    assert ([(name, it.trait) for name, it in file.implementations] == [
        ("Crate", "Model"), ("Crate", ""), ("Crate", "From")]), "implementations"
    assert ([(it.name, it.text) for it in file.implementations[0][1].clauses] == [
        ("Value", "Seen"), ("view", "λ c. seen c.count")] and file.items[2].clauses[0].text == "Self → Seen"), \
        "ghost members"
    assert (file.implementations[0][1].scope.words["Seen"] == ("Rattle.low.specs.Rule", "Seen")
            and "Seen" not in file.implementations[1][1].scope.words), "imports of an implementation"


def test_contracts():
    file = sources.rust_file(RUST, "crates/low/src/crates.rt")
    fill, private = file.implementations[1][1].functions
    assert (fill.signature.endswith("Fault>") and fill.signature.startswith("pub fn fill<F: Fn(u32) -> u32>(")
            and fill.is_public), "a signature ends where its contract begins"
    assert ([(it.kind, it.name) for it in fill.clauses] == [
        ("requires", "few"), ("ensures", "kept"), ("ensures", "")]), "its clauses"
    assert fill.clauses[1].text == "OnErr result\n    (self.new ≡ self.old)", "a clause of two lines"
    assert not fill.clauses[0].comment and fill.clauses[1].comment == "Where it fails nothing changes.", \
        "a comment before a clause"
    assert private.clauses == [] and private.signature == "fn private(&self)" and not private.is_public, "no contract"
    enter = file.items[2].functions[0]
    assert enter.is_public and enter.doc == "Enters." and [it.text for it in enter.clauses] == ["lane ≤ the_limit"], \
        "a function of a trait"


def test_definitions():
    module = sources.antt_module(RULE, "low", "Rule", "crates/low/specs/Rule.antt")
    found = {it.ref.word: it for it in module.definitions}
    assert list(found) == ["limit", "Seen", "double", "Keeps", "seen", "Item", "frames"], "all definitions"
    assert (module.comment == "The rules (RFC 4120 section 5.2.4,\nUInt32)." and found["limit"].comment == "the bound"
            and found["double"].comment == "" and found["frames"].comment == "the frames"), "comments"
    assert (pages.source_of(module.comment) == "RFC 4120 section 5.2.4"
            and pages.source_of("RFC 3961 sections 5.1 and 5.3; FIPS 197, section 4.2") ==
            "RFC 3961 sections 5.1 and 5.3; FIPS 197 section 4.2" and pages.source_of("x") == ""), "sources"
    assert (pages.source_in("mixed (5.1.3)", "The cipher of FIPS 197, section 5.") == "FIPS 197 section 5.1.3"
            and pages.source_in("(5.1)", "RFC 1, RFC 2") == "RFC 1; RFC 2" and pages.source_in("x", "y") == pages.OWN), \
        "a section of the file's standard"
    assert found["limit"].lines() == 2 and found["Seen"].lines() == 3 and found["frames"].lines() == 3, "lines"
    assert ("limit" not in found["double"].words and "limit" not in found["seen"].words
            and "limit" not in found["Seen"].words and "size" not in found["Keeps"].words), \
        "what is bound isn't cited"
    assert ({"double", "limit", "more.IsBig", "kinds.One", "Seen"} <= found["Keeps"].words
            and "the_end" in found["frames"].words), "what is cited"
    assert module.makers == {"Frame": "Item", "End": "Item"}, "constructors"
    assert found["frames"].text.startswith("abbrev pub frames : Item F → F\nframes ("), "text"


# ---- what words stand for

def project():
    """A project of one crate with these sources."""
    file = sources.rust_file(RUST, "crates/low/src/crates.rt")
    rule = sources.antt_module(RULE, "low", "Rule", "crates/low/specs/Rule.antt")
    more = sources.antt_module("abbrev pub IsBig : ℕ → Type 0\nIsBig n = 1000 ≤ n\n", "low",
                               "More", "crates/low/specs/More.antt")
    items = {it.name: it for it in file.items}
    for name, made in file.implementations:
        items[name].implementations.append(made)
    crate = sources.Crate("low", file.doc, items, {}, list(items), {},
                          {"Rule": rule, "More": more}, {"Again": Ref("low", "Rule", "")}, [], [])
    return sources.Project({"low": crate})


def test_meanings():
    made = project()
    scope = made.crates["low"].modules["Rule"].scope
    assert made.meaning(scope, "more.IsBig") == Ref("low", "More", "IsBig"), "a word of another module"
    assert made.meaning(scope, "kinds.One") == Ref("low", "", "Kind"), "a variant is its type"
    assert made.meaning(scope, "length") == Ref(sources.KIT, "Rattle.std.specs.Prelude", "length"), \
        "a word of the kit"
    assert made.at("Rattle.low.specs.Again", "limit") == Ref("low", "Rule", "limit"), "a module that is passed on"
    assert made.at("Rattle.low.specs.Rule", "Frame") == Ref("low", "Rule", "Item"), "a constructor is its data"
    assert made.at("Rattle.low.specs.Rule", "lost") is None and made.at("Rattle.low.specs.Lost", "limit") is None, \
        "what isn't there"


def test_reached():
    made = project()
    graph = pages.Graph(made)
    found = graph.reached([Ref("low", "Rule", "Keeps")])
    words = [it.word for it in found if it.crate != sources.KIT]
    assert (words[0] == "Keeps" and {"double", "limit", "Seen", "IsBig", "Kind", "Crate"} <= set(words)
            and not {"frames", "Item"} & set(words) and len(words) == len(set(words))), "what a definition reaches"
    assert graph.of_item("low", made.crates["low"].items["Crate"]) == [Ref("low", "Rule", "Seen")], \
        "a type is seen by its view"


# ---- pages

def test_written():
    links = {"Keeps": pages.Target("low", "specs.Rule.Keeps")}
    page = pages.Page("low", "low", [
        pages.Heading(2, "a_b", "ab"),
        pages.Paragraph([pages.Inline("x < y_z "), *pages.code("a|b")]),
        pages.ClauseBlock("ensures", "kept", "f.kept", pages.Source("Keeps a", "", links), []),
        pages.ClauseBlock("ensures", "", "", pages.Source("b <\n c", "", {}), [])])
    markdown = pages_markdown.Markdown(lambda target: f"crates/{target.page}/specs/Rule.antt")
    text = markdown.written(page)
    assert ('<a id="ab"></a>\n\n## a\\_b\n' in text and "x \\< y\\_z `a|b`" in text
            and '- <a id="f.kept"></a>**ensures** **`kept`**: `Keeps a`' in text
            and "[`Keeps`](../../crates/low/specs/Rule.antt)" in text and "  ```\n  b <\n   c\n  ```" in text), \
        "Markdown"
    kind = pages.Target("low", "Kind")
    assert (markdown.cited({"A": kind, "Kind": kind, "Two": kind}) == "[`Kind`](../../crates/low/specs/Rule.antt)"
            and markdown.cited({"A": kind, "B": kind}) == "[`A`](../../crates/low/specs/Rule.antt)"), \
        "a place is cited once"
    assert markdown.address(pages.Target(pages.PROMISES, "low")) == "promises.md#low", "a page that is committed"


def test_whole():
    """The pages of this repository."""
    project = sources.read_project()
    every = promises.all_pages(project)
    again = promises.all_pages(sources.read_project())
    assert every == again, "the same pages each time"

    def stands(page, anchor, file, line):
        """Whether a link leads to the line that begins so, which is the only one of its file."""
        place, _, number = pages.source_place(project, pages.Target(page, anchor)).partition("#L")
        found = [at for at, it in enumerate(sources.read(file).split("\n"), 1) if it.strip().startswith(line)]
        return place == file and [int(number)] == found

    assert (stands("krb_relay", "relay", "crates/krb_relay/src/running.rt", "pub fn relay<")
            and stands("krb_seal", "Opener", "crates/krb_seal/src/opener.rt", "pub struct Opener {")
            and stands("krb_peers", "frames_laws.headline", "crates/krb_peers/src/frames.rt",
                       "ensures headline { FramesHaveHeadline }")
            and stands("krb_record", "BatchError.Display.output", "crates/krb_record/src/batch.rt", "ghost output")
            and stands("krb_peers", "specs.Planned.IsPaired", "crates/krb_peers/specs/Planned.antt", "pub record IsPaired")
            and pages.source_place(project, pages.Target("krb_lane", "")) == "crates/krb_lane/src/lib.rt"), "where an item stands"
    lines, file = pages.lines_of(project, every[3:]), "crates/krb_peers/specs/Planned.antt"
    assert lines[file, "IsPaired"].isdigit() and lines[file, "specs.Planned.IsPaired"] == lines[file, "IsPaired"]
    anchors = {it.name: set(it.anchors()) for it in every}
    assert all(len(list(it.anchors())) == len(anchors[it.name]) for it in every), "no anchor twice"
    assert {"relay", "relay.whole", "relay.stopped"} <= anchors["krb_relay"], "clauses of relay"
    modules = {row[0][0].text for block in every[1].blocks if isinstance(block, pages.Table) for row in block.rows}
    assert ({"krb_peers: Claims", "krb_peers: Attempt", "krb_aes: Cipher"} <= modules
            and "krb_peers: Planned" not in modules), "what the headline reaches"


def test_promised():
    """The page of promises has each clause of each crate that promises something, once."""
    every = promises.all_pages(sources.read_project())
    page = next(it for it in every if it.name == pages.PROMISES)
    linked = [target for block in page.blocks if isinstance(block, pages.Listing)
              for entry in block.entries for target in [it.target for it in entry] if target]
    wanted = {pages.Target(it.name, block.anchor) for it in every[3:] for block in it.blocks
              if isinstance(block, pages.ClauseBlock) and block.anchor
              and block.kind in promises.STATED}
    assert len(wanted) > 500 and wanted <= set(linked) and all(linked.count(it) == 1 for it in list(wanted)[:50]), \
        "each clause is a promise"
    kinds = {block.kind for it in every[3:] for block in it.blocks
             if isinstance(block, pages.ClauseBlock)}
    assert kinds <= {*promises.STATED, "requires"}, "the kinds of clauses"
    law = [entry for block in page.blocks if isinstance(block, pages.Listing)
           for entry in block.entries if entry[0].text == "frames_laws"]
    assert (len(law) == 1 and law[0][0].target.anchor == "frames_laws" and "The headline" in law[0][2].text
            and law[0][-2].text == "headline"), "a promise in a line"


def test_claims():
    """Each clause has a line; a changed text and a changed definition below it are told, each by the claim's name."""
    project = sources.read_project()
    every = promises.all_pages(project)[3:]
    found = claims.rows(project, every)
    clauses = [block for page in every for block in page.blocks if isinstance(block, pages.ClauseBlock)]
    of_clauses = [it for row, it in found.items() if row[0] == "claim" and row[3] != "signature"]
    assert sum(len(it) // 2 for it in of_clauses) == len(clauses) > 1000
    assert claims.read(claims.written(found)) == found
    headline = ("claim", "krb_peers", "frames_laws", "ensures", "headline")
    module = project.crates["krb_seal"].modules["Opens"]
    changed = next(it for it in module.definitions if it.ref.word == "Opens")
    changed.text += " × ⊤"
    told = list(claims.changes(found, claims.rows(project, every)))
    assert "definition krb_seal Opens.Opens: its text is another one" in told
    assert f"{' '.join(headline)}: a definition that it reaches is another one" in told
    assert not any(it.startswith("claim krb_der ") or "its text" in it and it.startswith("claim") for it in told)
    less = {row: it for row, it in found.items() if row != headline}
    assert list(claims.changes(found, less)) == [f"{' '.join(headline)} is gone"]
    assert list(claims.changes(less, less | {headline: ("0", "1")})) == [f"{' '.join(headline)} is new"]
    other = found | {headline: ("0", found[headline][1])}
    assert list(claims.changes(found, other)) == [f"{' '.join(headline)}: its text is another one"]


def test_checks():
    """What `tools/reference --check` says of links."""
    made = scripts.load("reference")
    source, page = "crates/krb_peers/specs/Planned.antt", "docs/reference/headline.md"
    texts = {"docs/PROVED.md": "", page: '<a id="relay.whole"></a>\n\n## The `end` of it\n'}
    fault = lambda text, link: made.fault_of(text, link, "docs/PROVED.md", texts)
    assert (fault("`whole`", "reference/headline.md#relay.whole") is None
            and fault("the end", "reference/headline.md#the-end-of-it") is None), "an anchor that is there"
    assert fault("`lost`", "reference/headline.md#relay.lost") is not None, "one that isn't"
    assert fault("`IsPaired`", f"../{source}") is None and fault("`specs.Planned.IsPaired`", f"../{source}") is None, \
        "a name that the source has"
    assert fault("`IsPared`", f"../{source}") is not None and fault("`IsPaired.lost`", f"../{source}") is not None, \
        "one that it doesn't have"
    assert (fault(f"`{source}`", f"../{source}") is None and fault("`krb_peers`", f"../{source}") is None
            and fault("`krb_window`", f"../{source}") is not None
            and fault("`specs/Plan.antt`", f"../{source}") is not None), "the source itself"
    at = next(number for number, line in enumerate(sources.read(source).split("\n"), 1) if "IsPaired" in line)
    assert (fault("`IsPaired`", f"../{source}#L{at}") is None and fault("`IsPaired`", f"../{source}#L{at + 1}") is not None
            and fault("`IsPaired`", f"../{source}#L99999") is not None), "a line that has the name, and others"
    link, lines = f"[`specs.Planned.IsPaired`](../{source}#L1) [it](../{source})", {(source, "specs.Planned.IsPaired"): "12"}
    assert made.lined("docs/PROVED.md", link, lines) == link.replace("L1", "L12"), "a line that moved is written"
    assert len(list(made.other_lines("docs/PROVED.md", link, lines))) == 1, "and told"
    assert fault("it", "reference/krb_lost.md") is not None, "a page that isn't there"
    texts["docs/PROVED.md"] = "```\n[x](lost.md)\n```\n[y](lost.md)"
    assert len(list(made.dead_links("docs/PROVED.md", texts))) == 1, "code isn't read"
