"""What is compared: the repository's files, the proved module, and the shared object."""
import dataclasses
import functools
import os
from typing import Dict, List

from lib.build import assembly, building

CRATE = assembly.LIBRARY
HEADER, PROVED, MAP = "c/krbrelay.h", "c/unproved/proved.h", "c/krbrelay.map"
RELEASED, PYTHON = "c/released_names", "python/krbrelay/library.py"
MODULE = "the module"       # stands for a path


kept = functools.lru_cache(maxsize=None)(building.text_of)


@functools.lru_cache(maxsize=None)
def paths() -> List[str]:
    """The sources of the crates that the library stands on, and its own."""
    found = building.sources(building.in_order(CRATE))
    return [os.path.relpath(path, building.TOP) for path in found if path.endswith(".rt")]


@dataclasses.dataclass(frozen=True)
class Given:
    """`texts` has the module's text, and what is read in place of a file of the repository. `library` is "" if it
    is for another machine."""
    texts: Dict[str, str]
    library: str

    def text_of(self, path: str) -> str:
        return self.texts[path] if path in self.texts else kept(path)

    def changed(self, path: str, text: str) -> "Given":
        """The same, with another text at this path."""
        return dataclasses.replace(self, texts={**self.texts, path: text})

    def sources(self) -> List[str]:
        """The texts of the crates that the library stands on, and of its own."""
        return list(map(self.text_of, paths()))

    def unproved(self) -> List[str]:
        """The C beside the proved code."""
        names = sorted(os.listdir(os.path.join(building.TOP, "c", "unproved")))
        return [self.text_of(f"c/unproved/{it}") for it in names if it.endswith(".c")]
