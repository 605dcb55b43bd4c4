"""Where a source of carrier/ stands: each name is there once, in one of its folders."""
import glob
import os

CARRIER = os.path.dirname(os.path.dirname(os.path.abspath(__file__)))
BESIDE = "tests", "simulation", "out"


def all_of(folder: str = CARRIER) -> list[str]:
    """The sources of a folder and those below it, in the order of their names."""
    found = glob.glob(f"{folder}/*.[ch]") + [it for it in glob.glob(f"{folder}/*/*.[ch]")
                                             if it.split("/")[-2] not in BESIDE]
    return sorted(found, key=os.path.basename)


def place_of(name: str, folder: str = CARRIER) -> str:
    """The one of this name; a file that is no source stands in the folder itself."""
    found = [it for it in all_of(folder) if os.path.basename(it) == name]
    assert len(found) < 2, found
    return found[0] if found else os.path.join(folder, name)
