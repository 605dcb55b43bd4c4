"""The scripts of tools/ and those that test a room: what their own first lines say of them, and one
of them as a module. The name of one outside tools/ begins with its room."""
import ast
import importlib.machinery
import importlib.util
import os
import re

from lib.build import building


OF_ROOMS = ("c/dist", "c/costs", "rust/test", "go/test", "carrier/bench",
            "kerberos/test", "kerberos/interop", "conformance/run")


def names():
    """All scripts: the files of tools/ and tests/ themselves, and those of the rooms."""
    return sorted([*files_of("tools", ""), *files_of("tests", "tests/"), *OF_ROOMS])


def files_of(room, before):
    folder = os.path.join(building.TOP, room)
    return [before + it for it in os.listdir(folder) if os.path.isfile(os.path.join(folder, it))
            and not it.endswith((".md", ".toml", ".tsv")) and (room == "tools" or not it.startswith("test_"))]


def path_of(name):
    return name if "/" in name else f"tools/{name}"


def head_of(name):
    """What a script says of itself: its docstring, or the comment at its head."""
    text = building.text_of(path_of(name))
    if text.startswith("#!/usr/bin/env python3"):
        return ast.get_docstring(ast.parse(text)) or ""
    comment = re.match(r"#!.*\n((?:#.*\n)*)", text)
    return re.sub(r"(?m)^# ?", "", comment[1]) if comment else ""


def sentence(text, begin=""):
    """The first sentence that begins so, without its beginning and on one line, or ''."""
    found = re.search(rf"{begin}(.*?)\.(?:\s|$)", text, re.S)
    return " ".join(found[1].split()) if found else ""


def purpose(name):
    return sentence(head_of(name))


def needs(name):
    return sentence(head_of(name), "Needed: ")


def load(name):
    """A script as a module, also one that has no .py in its name."""
    loader = importlib.machinery.SourceFileLoader(os.path.basename(name) + "_tool",
                                                  os.path.join(building.TOP, path_of(name)))
    made = importlib.util.module_from_spec(importlib.util.spec_from_loader(loader.name, loader))
    loader.exec_module(made)
    return made
