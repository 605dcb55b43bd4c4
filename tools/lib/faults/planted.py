"""The planted faults of the tables in tests/."""
import dataclasses
import os
import tomllib
from collections.abc import Callable

from lib.build import building

TABLES = ("tests/faults.toml", "tests/wrapped_faults.toml", "tests/package_faults.toml",
          "tests/carrier_faults.toml", "tests/tool_faults.toml", "tests/two_fault_faults.toml",
          "tests/beside_faults.toml", "tests/class_faults.toml")


class NoPlant(Exception):
    """Why an edit can't be made."""


@dataclasses.dataclass(frozen=True)
class Plant:
    name: str
    harm: str           # what a user suffers
    checks: tuple       # those that have to see it, by their names in checks.py
    edits: tuple        # of each a file, what stands in it once, and what stands there then
    wraps: tuple = ()   # a call of the library, and what a function around it does before and after it
    says: str = ""      # what the check has to say, where it may also fail for another reason: a regular expression

    def files(self) -> set[str]:
        return {edit[0] for edit in self.edits}


def around(row: dict) -> tuple:
    return (row["around"], row.get("before", ""), row.get("after", "")) if "around" in row else ()


def all_plants() -> dict[str, Plant]:
    rows = {}
    for table in TABLES:
        with open(os.path.join(building.TOP, table), "rb") as file:
            rows |= tomllib.load(file)
    plants = {name: Plant(name, row["harm"], tuple(row["by"]), tuple(map(tuple, row.get("edits", ()))), around(row),
                           row.get("says", ""))
              for name, row in rows.items()}
    idle = [it.name for it in plants.values() if not (it.edits or it.wraps) or not it.checks]
    if idle:
        raise NoPlant(f"without an edit or a check: {', '.join(idle)}")
    return plants


def edited(text: str, old: str, new: str, where: str) -> str:
    if text.count(old) != 1:
        raise NoPlant(f"{where}: the old text stands there {text.count(old)} times")
    return text.replace(old, new)


def applied(plant: Plant, text_of: Callable[[str], str]) -> dict[str, str | None]:
    """The files that a plant changes, as they are then; None of one that is removed."""
    texts = {}
    for path, *change in plant.edits:
        text = texts.get(path) or text_of(path)
        texts[path] = edited(text, *change, path) if change else None
    return texts


def make(edit: tuple, top: str) -> None:
    """Makes one edit in the repository at `top`."""
    path = os.path.join(top, edit[0])
    if len(edit) == 1:
        os.remove(path)
        return
    with open(path, encoding="utf-8") as file:
        text = edited(file.read(), edit[1], edit[2], edit[0])
    with open(path, "w", encoding="utf-8") as file:
        file.write(text)
