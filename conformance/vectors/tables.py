"""The table of readers by groups, and what each of them does otherwise than the suite says."""
from __future__ import annotations

import collections

from vectors.build import cases
from vectors.judging import Class, class_of, is_asked
from vectors.model import Case, Group
from vectors.readers import Implementation, Verdicts

JUDGED = (Class.PASS, Class.REFUSED, Class.ACCEPTED, Class.OTHER_DATA, Class.CRASH, Class.OTHER_NAME)
SHOWN, LONGEST = 3, 60      # examples of a row, and letters of a verdict

Found = tuple[Group, Case, Class, list[str]]


class Table:
    """What readers made of the groups."""

    def __init__(self, groups: list[Group]) -> None:
        self.groups = groups
        self.found: dict[str, list[Found]] = {}

    def add(self, of: Implementation, verdicts: Verdicts) -> None:
        self.found[of.name] = [(group, case, self.class_of(of, group, case, verdicts), verdicts.get(case.number, []))
                               for group, case in cases(self.groups)]

    @staticmethod
    def class_of(of: Implementation, group: Group, case: Case, verdicts: Verdicts) -> Class:
        if not is_asked(of, group, case):
            return Class.NOT_ASKED
        return class_of(of, group, case, verdicts[case.number])

    def classes_by_flag(self, name: str) -> collections.Counter[tuple[str, str]]:
        """How many cases there are of each class but `pass` and `not asked`, by their first flag."""
        return collections.Counter((found.value, case.flags[0]) for _, case, found, _ in self.found[name]
                                   if found not in (Class.PASS, Class.NOT_ASKED))

    def line_of(self, name: str) -> str:
        count = collections.Counter(found for _, _, found, _ in self.found[name])
        told = ", ".join(f"{count[it]} {it.value}" for it in Class if count[it])
        return f"{name}: {told}"

    # ---- the file

    def text(self) -> str:
        names = list(self.found)
        lines = ["A cell: cases passed of those judged, + acceptable ones taken of those that are acceptable.", "",
                 "| Group | Cases | " + " | ".join(names) + " |", "|---|--:|" + "---|" * len(names)]
        sizes = collections.Counter(group.name for group, _ in cases(self.groups))
        lines += [f"| {group} | {size} | " + " | ".join(self.cell(name, group) for name in names) + " |"
                  for group, size in [*sizes.items(), ("all", sum(sizes.values()))]]
        for name in names:
            lines += ["", f"## {name}", "", "| What | Flag | Cases | Examples |", "|---|---|--:|---|", *self.rows(name)]
        return "\n".join(lines) + "\n"

    def cell(self, name: str, group: str) -> str:
        count = collections.Counter(found for of, _, found, _ in self.found[name] if group in (of.name, "all"))
        judged, open_ = sum(count[it] for it in JUDGED), count[Class.TAKES] + count[Class.REFUSES]
        text = f"{count[Class.PASS]}/{judged}" if judged else "-"
        return text + (f" +{count[Class.TAKES]}/{open_}" if open_ else "")

    def rows(self, name: str) -> list[str]:
        kinds: dict[tuple[str, str], list[Found]] = collections.defaultdict(list)
        for it in self.found[name]:
            if it[2] not in (Class.PASS, Class.NOT_ASKED):
                kinds[it[2].value, it[1].flags[0]].append(it)
        return [f"| {what} | {flag} | {len(found)} | {'; '.join(map(example, found[:SHOWN]))} |"
                for (what, flag), found in sorted(kinds.items())]


def example(it: Found) -> str:
    group, case, _, verdicts = it
    return f"{case.number} {group.mode} {case.comment} [{','.join(verdicts)[:LONGEST]}]".replace("|", "/")
