"""Compares what readers make of the suite with what is known of them."""
from __future__ import annotations

import collections
import pathlib
import tempfile

from vectors import build, judging, readers
from vectors.build import cases
from vectors.model import Group
from vectors.readers import Implementation, Library, Verdicts
from vectors.tables import Table, example

SHOWN = 5


def compared(name: str, library: Library, sanitized: bool = False) -> tuple[int, list[str]]:
    """As `faults`, of a reader of implementations.toml over the whole suite. NotThere where it can't be built."""
    of, groups = readers.implementations()[name], build.built()
    with tempfile.TemporaryDirectory() as folder:
        runner = readers.built(of, library, pathlib.Path(folder), sanitized=sanitized)
        return faults(of, groups, readers.verdicts_of(runner, judging.asked_of(of, groups)))


def faults(of: Implementation, groups: list[Group], verdicts: Verdicts) -> tuple[int, list[str]]:
    """How many cases were asked and are as known, and a line for each that isn't, or for each class and
    flag whose count isn't the one that was measured."""
    if of.known:
        return faults_of_known(of, groups, verdicts)
    table = Table(groups)
    table.add(of, verdicts)
    return faults_of_counted(of, table)


def faults_of_known(of: Implementation, groups: list[Group], verdicts: Verdicts) -> tuple[int, list[str]]:
    known, passed, found = judging.known_of(of), 0, []
    for group, case in cases(groups):
        if not judging.is_asked(of, group, case):
            continue
        class_ = judging.class_of(of, group, case, verdicts[case.number])
        right = known.allows(case, class_, verdicts[case.number])
        passed += right
        if not right:
            line = example((group, case, class_, verdicts[case.number]))
            found.append(f"{of.name}: {class_.value}, not {known.expected(case).value}: {' '.join(case.flags)}: {line}")
    return passed, found


def faults_of_counted(of: Implementation, table: Table) -> tuple[int, list[str]]:
    known, found = judging.counted_of(of), table.classes_by_flag(of.name)
    if known is None:
        return 0, [f"{of.name}: known.toml has no counts of it"]
    wrong = [f"{of.name}: {' '.join(key)}: {found[key]} cases, not {known.get(key, 0)}"
             for key in sorted(set(known) | set(found)) if found[key] != known.get(key, 0)]
    counted = collections.Counter(class_ for _, _, class_, _ in table.found[of.name])
    return counted.total() - counted[judging.Class.NOT_ASKED], wrong
