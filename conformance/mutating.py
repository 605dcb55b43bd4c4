"""How much of an opener the suite notices: changes the opener of tests/oracle in one place at a time, and
names the changes that no case notices.

A change is noticed if one case gets another class or another name than known.toml allows. A change that isn't
noticed has to stand in unnoticed.toml, with its reason, and one that stands there mustn't be noticed. Each
comparison, operator, number, truth value and call whose result isn't used is changed, but for functions that
seal or print.
"""
from __future__ import annotations

import ast
import collections.abc
import copy
import dataclasses
import os
import sys
import types

import asked as lines
import own_opener as reading
from lib import options, report
from vectors import build, judging, readers
from vectors.model import Case, Group

ORACLE = build.ROOM.parent / "tests" / "oracle"
MODULES = ("frames", "reader", "opener")
# What sealing and printing need, and opening doesn't. Of `integer` opening spells 5, 20 and 0 only.
LEFT_OUT = {
    "opener": {"Sender", "stream", "emitted", "seal_lines", "open_lines", "relay_lines", "first_bad_plan", "BadPlan"},
    "reader": set(),
    "frames": {"cts", "body", "address", "seal_safe", "seal_priv", "seal_part", "checksum_of", "groups", "batch",
               "record", "strings_of", "etype_of", "integer"}}
PRINTS = {"take"}       # of Receiver
FLIPS = {ast.Eq: ast.NotEq, ast.NotEq: ast.Eq, ast.Lt: ast.LtE, ast.LtE: ast.Lt, ast.Gt: ast.GtE, ast.GtE: ast.Gt,
         ast.And: ast.Or, ast.Or: ast.And, ast.Add: ast.Sub, ast.Sub: ast.Add, ast.Mult: ast.FloorDiv,
         ast.FloorDiv: ast.Mult, ast.Mod: ast.Mult, ast.Pow: ast.Mult, ast.LShift: ast.RShift}
FIRST = 37              # each 37th case comes first: most changes are noticed by the first few
LONGEST = 60

Asked = tuple[Group, Case, lines.Asked]


@dataclasses.dataclass(frozen=True)
class Change:
    """A changed module: what was changed, and its whole source."""
    module: str
    line: str
    source: str


# ---- changes

def changed(node: ast.AST) -> list[collections.abc.Callable[[ast.AST], None]]:
    """The changes of one node."""
    if isinstance(node, ast.Compare) and type(node.ops[0]) in FLIPS:
        return [lambda it: it.ops.__setitem__(0, FLIPS[type(it.ops[0])]())]
    if isinstance(node, (ast.BoolOp, ast.BinOp)) and type(node.op) in FLIPS:
        return [lambda it: setattr(it, "op", FLIPS[type(it.op)]())]
    if isinstance(node, ast.Constant) and type(node.value) is int:
        return [lambda it: setattr(it, "value", it.value + 1), lambda it: setattr(it, "value", it.value - 1)]
    if isinstance(node, ast.Constant) and type(node.value) is bool:
        return [lambda it: setattr(it, "value", not it.value)]
    if isinstance(node, ast.Expr) and isinstance(node.value, ast.Call):
        return [lambda it: setattr(it, "value", ast.Constant(None))]
    return []


def nodes_of(tree: ast.Module, left_out: set[str]) -> list[ast.AST]:
    """The nodes of functions and classes that an opener uses."""
    tops = [it for it in tree.body if isinstance(it, (ast.FunctionDef, ast.ClassDef)) and it.name not in left_out]
    dropped = {id(node) for top in tops for it in ast.walk(top) if isinstance(it, ast.FunctionDef) and it.name in PRINTS
               for node in ast.walk(it)}
    return [node for top in tops for node in ast.walk(top) if id(node) not in dropped]


def changes_of(module: str) -> collections.abc.Iterator[Change]:
    tree = ast.parse((ORACLE / f"{module}.py").read_text(encoding="utf-8"))
    nodes = nodes_of(tree, LEFT_OUT[module])
    for place, node in enumerate(nodes):
        for way in range(len(changed(node))):
            other, others = copy.deepcopy((tree, nodes))
            before = ast.unparse(others[place])
            changed(node)[way](others[place])
            after = ast.unparse(others[place])
            yield Change(module, f"{module}.py: {function_of(tree, node)}: {before[:LONGEST]} -> {after[:LONGEST]}",
                         ast.unparse(other))


def function_of(tree: ast.Module, node: ast.AST) -> str:
    """The function or class at the top of the module that a node is in."""
    return next(top.name for top in tree.body if hasattr(top, "name") and any(it is node for it in ast.walk(top)))


def numbered(found: collections.abc.Iterable[Change]) -> list[Change]:
    """Those whose line came before get a number: a line names one change."""
    seen: dict[str, int] = {}
    result = []
    for it in found:
        seen[it.line] = seen.get(it.line, 0) + 1
        again = f" ({seen[it.line]})" if seen[it.line] > 1 else ""
        result.append(dataclasses.replace(it, line=it.line + again))
    return result


# ---- openers

def loaded(change: Change | None) -> types.ModuleType:
    """The opener of these sources, as modules of their own."""
    package = types.ModuleType("oracle")
    package.__path__ = [str(ORACLE)]
    sys.modules["oracle"] = package
    for name in MODULES:
        module = types.ModuleType(f"oracle.{name}")
        sys.modules[module.__name__] = module
        setattr(package, name, module)
        is_changed = change is not None and change.module == name
        source = change.source if is_changed else (ORACLE / f"{name}.py").read_text(encoding="utf-8")
        exec(compile(source, f"{name}.py", "exec"), module.__dict__)
    return sys.modules["oracle.opener"]


def verdicts_of(opener: types.ModuleType, asked: lines.Asked) -> list[str]:
    """As the runner's, where an exception other than a refusal is a crash."""
    reading.opener = opener
    reader = reading.Reader(asked, reading.session_of(asked))
    try:
        return [reader.verdict(message) for message in asked.messages]
    except Exception as fault:      # noqa: BLE001  (a changed opener may raise anything)
        return [f"crash:{fault}"] * len(asked.messages)


def notices(opener: types.ModuleType, of: readers.Implementation, all_asked: list[Asked]) -> bool:
    return any(not judging.is_allowed(of, group, case, verdicts_of(opener, asked)) for group, case, asked in all_asked)


def is_noticed(change: Change, of: readers.Implementation, all_asked: list[Asked]) -> bool:
    try:
        opener = loaded(change)
    except Exception:               # noqa: BLE001  (it doesn't even load)
        return True
    return notices(opener, of, all_asked)


def main(words: list[str]) -> int:
    parser = options.Parser(__doc__).takes("--part", type=int, default=0).takes("--of", type=int, default=1)
    asked = parser.takes("--only", default="").parse_args(words)
    os.environ.pop("OPENER", None)
    count, known, of = report.Count(), build.table("unnoticed")["unnoticed"], readers.implementations()["oracle"]
    found = [(*it, lines.asked_of(readers.line_of(*it))) for it in judging.asked_of(of, build.built())]
    all_asked = found[::FIRST] + found
    count.told(not notices(loaded(None), of, all_asked), "the opener as it is passes")
    changes = numbered(it for name in MODULES for it in changes_of(name))
    for it in [it for it in changes[asked.part::asked.of] if asked.only in it.line]:
        noticed = is_noticed(it, of, all_asked)
        count.right(noticed != (it.line in known), f"{'noticed' if noticed else 'NOT NOTICED'}: {it.line}")
    gone = sorted(set(known) - {it.line for it in changes})
    count.told(not gone, f"{len(known)} of {len(changes)} changes are known not to be noticed", gone)
    return count.end()
