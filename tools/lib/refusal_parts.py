"""What tools/tables writes of the refusals of a message. Into the crates that have each of them: the variants, their
numbers, names and texts, the same as definitions, and the cases of two proofs, which judge what was written. And their usual
causes."""
import os
import sys
import textwrap
import tomllib
from collections.abc import Iterable, Iterator

from lib.build import building
from lib.written import of_roff

sys.path.append(os.path.join(building.TOP, "conformance"))
from vectors.model import ERRORS  # noqa: E402

ANSWERS = tomllib.loads(building.text_of("tables/answers.toml"))
# In the order of the checks; those of a record and memory come last.
REFUSALS = sorted((it for it in ANSWERS if "doc" in ANSWERS[it]), key=lambda it: (ANSWERS[it].get("checked", 99), ANSWERS[it]["number"]))
# Names of two words that the table writes as one.
WORDS = {"NOSUPP": "NoSupp", "BADADDR": "BadAddr", "BADVERSION": "BadVersion", "BADORDER": "BadOrder",
         "TOOLONG": "TooLong"}
VARIANTS = "use Rattle.krb_seal.specs.declared.refusal.Refusal.TheVariants."
WIDTH = 100     # of a line of Rattle
OF_CAUSE, OF_PAGE = 86, 118     # of a line of Python without its indent, and of a page
LAST_OF_OPENER = 901            # what follows is of receivers


def variant(name: str) -> str:
    """The name of an answer as Rust and Go write it: BadOrder."""
    return "".join(WORDS.get(word, word.title()) for word in name.split("_"))


def each(form: str) -> Iterator[str]:
    """A line for each refusal, in which @variant, @number, @name, @text and @doc stand for its own."""
    for name in REFUSALS:
        row = ANSWERS[name]
        line = form.replace("@variant", variant(name)).replace("@number", str(row["number"])).replace("@name", name)
        yield line.replace("@text", row["text"]).replace("@doc", row["doc"])


def variants() -> Iterator[str]:
    return each("    /// @number: @doc.\n    @variant,")


def codes() -> Iterator[str]:
    return each("            Refusal::@variant => @number,")


def names() -> Iterator[str]:
    return each('            Refusal::@variant => "@name",')


def uses() -> Iterator[str]:
    """The variants that the definitions name, as many in a line as go there."""
    lines = textwrap.wrap(", ".join(map(variant, REFUSALS)), WIDTH - len(VARIANTS) - 1, break_long_words=False)
    return (f"{VARIANTS}{{{it.rstrip(',')}}}" for it in lines)


def code_definition() -> Iterator[str]:
    return each("code_of @variant = @number")


def name_definition() -> Iterator[str]:
    return each('name_of @variant = codes "@name"')


def texts() -> Iterator[str]:
    return each('        Refusal::@variant => "@text",')


def of_numbers() -> Iterator[str]:
    return each("        @number => Refusal::@variant,")


def text_definition() -> Iterator[str]:
    return each('refusal_text refusals.@variant = codes "@text"')


def use_of_all() -> list[str]:
    return [f"{VARIANTS}{{{', '.join(map(variant, REFUSALS))}}}"]


def is_order() -> Iterator[str]:
    return (f"is_order {variant(it)} e = {'refl' if it == 'BADORDER' else 'absurd (omega arith)'}" for it in REFUSALS)


def some_code() -> Iterator[str]:
    return each("some_code refusals.@variant e = omega (arith, e)")


# ---- causes

def with_cause() -> list[tuple[str, dict]]:
    return [(name, row) for name, row in ANSWERS.items() if "cause" in row]


def causes() -> Iterator[str]:
    for name, row in with_cause():
        if row["number"] <= LAST_OF_OPENER:
            words = textwrap.wrap(row["cause"], OF_CAUSE - len(name))
            begin = f"    Code.{name}: "
            yield from (f"{' ' * len(begin) if at else begin}\"{it}{' ' if at < len(words) - 1 else ''}\"" + ("," if at == len(words) - 1 else "")
                        for at, it in enumerate(words))


def rows() -> Iterator[str]:
    return (f"| `{row['number']} {name}` | {row['cause']} | {row['compare']} |" for name, row in with_cause())


def of_operator() -> Iterator[str]:
    return (f".TP\n.B {row['number']} {name}\n{of_roff(row['operator'])}" for name, row in ANSWERS.items() if "operator" in row)


def of_peer() -> Iterator[str]:
    """The refusals of a peer, which opens no record."""
    *names, last = (f"`{it}`" for it in REFUSALS if "checked" in ANSWERS[it])
    text = f"{', '.join(names)} and {last}: those of RFC 4120 section 7.5.9 with its numbers, and `MALFORMED`."
    return iter(textwrap.wrap(text, OF_PAGE))


# ---- the schema of the conformance suite

def of_schema(what: str, errors: Iterable[str]) -> Iterator[str]:
    lines = textwrap.wrap(", ".join(f'"{it}"' for it in errors) + "]},", OF_PAGE)
    return ((f'  "{what}": {{"enum": [' if not at else "   ") + it for at, it in enumerate(lines))


def checks_of_schema() -> Iterator[str]:
    return of_schema("check", ERRORS)


def errors_of_schema() -> Iterator[str]:
    return of_schema("error", dict.fromkeys(ERRORS.values()))


PARTS = [
    ("crates/krb_seal/src/refusal.rt", variants, "variants of refusals"), ("crates/krb_seal/src/refusal.rt", codes, "codes of refusals"),
    ("crates/krb_seal/src/refusal.rt", names, "names of refusals"),
    ("crates/krb_seal/specs/Refusal.antt", uses, "variants that are named"),
    ("crates/krb_seal/specs/Refusal.antt", code_definition, "definition of codes"),
    ("crates/krb_seal/specs/Refusal.antt", name_definition, "definition of names"),
    ("crates/krb_structs/src/answers.rt", texts, "texts of refusals"), ("crates/krb_structs/src/answers.rt", of_numbers, "refusals of numbers"),
    ("crates/krb_structs/specs/Answers.antt", text_definition, "definition of texts"),
    ("crates/krb_structs/proofs/Refusals.antt", use_of_all, "all variants"), ("crates/krb_structs/proofs/Refusals.antt", is_order, "cases of the order"),
    ("crates/krb_laws/proofs/InCLemmas.antt", some_code, "cases of a number"),
    ("python/krbrelay/why.py", causes, "causes"), ("docs/REFUSED.md", rows, "refusals"), ("docs/C.md", of_peer, "refusals of a peer"),
    ("carrier/man/krbrelay-receiver.8", of_operator, "refusals of frames"),
    ("conformance/vectors.schema.json", checks_of_schema, "checks of the suite"),
    ("conformance/vectors.schema.json", errors_of_schema, "errors of the suite"),
]
PLACES = {
    "variants of refusals": ("pub enum Refusal {\n", "}"),
    "codes of refusals": ("        ensures { result ≡ code_of self.now }\n    {\n        match self {\n", "        }"),
    "names of refusals": ("        ensures { result.now ≡ name_of self.now }\n    {\n        match self {\n", "        }"),
    "variants that are named": ("use Rattle.krb_seal.specs.declared.refusal.Refusal.{Refusal}\n", "\nabbrev pub code_of"),
    "definition of codes": ("abbrev pub code_of : Refusal → ℕ\n", "\nabbrev pub name_of"),
    "definition of names": ("abbrev pub name_of : Refusal → List ℕ\n", ""),
    "texts of refusals": ("    match refusal {\n", "    }"),
    "refusals of numbers": ("    let refusal = match code {\n", "        _ =>"),
    "definition of texts": ("abbrev pub refusal_text : Refusal → List ℕ\n", "\nabbrev pub text_of"),
    "all variants": ("use Rattle.krb_seal.specs.declared.refusal.Refusal.{Refusal}\n", "use Rattle.krb_seal.specs.Refusal"),
    "cases of the order": ("pub is_order : (r : Refusal) → code_of r ≡ 42 → r ≡ BadOrder\n", ""),
    "causes": ("CAUSES = {\n", "}"),
    "refusals": ("|---|---|---|\n", "\nA receiver of krbrelay"),
    "refusals of a peer": ("A peer is never `WIPED`. Malformed input, and input after the end of a session, never cause `MEMORY`."
                           " Refusals are\n", "\n## Room"),
    "refusals of frames": ("`frame_refused` has an answer of libkrbrelay. Usual causes:\n", ".SS Openings that are refused"),
    "checks of the suite": ('  "result": {"enum": ["valid", "invalid", "acceptable"]},\n', '  "checks": '),
    "errors of the suite": ('  "checks": {"type": "array", "minItems": 1, "items": {"$ref": "#/definitions/check"}},\n', '  "note": '),
    "cases of a number": ("some_code : (r : Refusal) → ¬ (code_of r ≡ 0)\n", "\nmodule"),
}
