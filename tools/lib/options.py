"""What a tool is called with: its docstring is what `--help` prints, and it ends with 2 and a line that says
what is wrong, if its words are others than those that it takes."""
import argparse
import os
import sys

from lib.build import building


class Parser(argparse.ArgumentParser):
    """The parser of a tool with this docstring, which takes these words, or one of them alone (`form`)."""

    def __init__(self, doc, *forms, needs_one=False):
        name = os.path.relpath(sys.argv[0], building.TOP)
        super().__init__(prog=os.path.basename(name) if name.startswith("..") else name, allow_abbrev=False)
        self.doc = doc
        group = self.add_mutually_exclusive_group(required=needs_one)
        for form in forms:
            group.add_argument(form, dest="form", action="store_const", const=form)

    def format_help(self):
        return f"{self.doc.strip()}\n"

    def error(self, message):
        self.exit(2, f"{self.prog}: {message}\n")

    def takes(self, *names, **how):
        """Adds an argument. Returns the parser."""
        self.add_argument(*names, **how)
        return self


def count(word):
    """A whole number, 0 or more."""
    if not word.isdigit():
        raise argparse.ArgumentTypeError(f"{word!r} isn't a whole number")
    return int(word)


def one_of(names):
    """One of these words (argparse compares `choices` with a list of none, too)."""
    def known(word):
        if word not in names:
            raise argparse.ArgumentTypeError(f"there is no {word!r}")
        return word
    return known
