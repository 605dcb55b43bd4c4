"""A page of the repository as an artefact has it: its links lead to what is inside, and what only the repository has
isn't spoken of."""
import os
import re

LINK = re.compile(r"\[([^\]]*)\]\((?!\w+:)([^)#\s]+)(#[^)\s]*)?\)")
OF_REPOSITORY = re.compile(r"\n## In the repository\n.*?(?=\n## |\Z)", re.S)
BY_KIT = re.compile(r"^    make -C c install PREFIX=(\S+).*$", re.M)
BY_MAKE = r"    make check install PREFIX=\1     # in the folder of the library's tarball; it needs no kit"


def place_of(path, moved):
    """Where the artefact has a file or a folder, or None. `moved` says it of each file."""
    for it, place in moved.items():
        below = it[len(path):]
        if it.startswith(path) and below[:1] in ("", "/") and place.endswith(below):
            return place.removesuffix(below)
    return None


def page(text, path, moved):
    """The text of a page, which stands at this path of the repository."""
    def led(link):
        place = place_of(os.path.normpath(os.path.join(os.path.dirname(path), link[2])), moved)
        if place is None:
            return link[1]
        return f"[{link[1]}]({os.path.relpath(place, os.path.dirname(moved[path]) or '.')}{link[3] or ''})"
    return LINK.sub(led, BY_KIT.sub(BY_MAKE, OF_REPOSITORY.sub("", text)))


def pages(moved, text_of):
    """The bytes of each page of an artefact, by its place."""
    return {place: page(text_of(path), path, moved).encode() for path, place in moved.items() if path.endswith(".md")}


def dead(files):
    """The links of an artefact's pages that lead nowhere: the page and what it names. `files` are bytes by place."""
    for place, data in files.items():
        for link in LINK.finditer(data.decode()) if place.endswith(".md") else ():
            to = os.path.normpath(os.path.join(os.path.dirname(place), link[2]))
            if not any(it == to or it.startswith(to + "/") for it in files):
                yield f"{place}: {link[2]}"
