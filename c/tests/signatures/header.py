"""What the kit's clang makes of krbrelay.h and unproved/proved.h: functions, structs and enums."""
import dataclasses
import json
import os
import re
import subprocess
import tempfile
from typing import Any, Dict, List, NamedTuple, Sequence, Tuple

from lib.build import kit_compiler
from signatures.given import HEADER, MODULE, PROVED, Given

PREFIX = "krbrelay_"
# The kit's clang has no headers of its own: it knows these types by other names.
STANDARD = {
    "stddef.h": "typedef __SIZE_TYPE__ size_t;\n",
    "stdint.h": "".join(f"typedef __{sign.upper()}INT{size}_TYPE__ {sign}int{size}_t;\n"
                        for sign in ("", "u") for size in (8, 16, 32, 64)),
}
# What a type of LLVM's may be, and what is said of it that a caller has to know.
LOWERED = re.compile(r"\{[^}]*\}|\[[^\]]*\]|<[^>]*>|\.\.\."
                     r"|\b(?:ptr|void|i\d+|float|double|zeroext|signext|byval|sret|inreg)\b")
ATTRIBUTE = re.compile(r"\b(\w+)\((?:[^()]|\([^()]*\))*\)")     # as range(i32 0, 9), initializes((0, 16))


class NotRead(Exception):
    """The kit's clang doesn't take the header."""


class Named(NamedTuple):
    type: str
    name: str


class Function(NamedTuple):
    result: str
    takes: List[Named]


class Field(NamedTuple):
    type: str
    name: str
    offset: int
    size: int


class Layout(NamedTuple):
    fields: List[Field]
    size: int
    alignment: int


@dataclasses.dataclass
class Header:
    functions: Dict[str, Function]
    structs: Dict[str, List[Named]]
    enums: Dict[str, Dict[str, int]]
    layouts: Dict[str, Layout]
    lowered: Dict[str, List[str]]   # the types that LLVM has of each function


# ---- asking clang

def asked(given: Given, code: str, *words: str) -> str:
    """What the kit's clang prints of code that stands after both headers."""
    files = {**STANDARD, "krbrelay.h": given.text_of(HEADER),
             "unproved/proved.h": given.text_of(PROVED),
             "asked.c": f'#include "unproved/proved.h"\n{code}'}
    with tempfile.TemporaryDirectory() as folder:
        os.mkdir(os.path.join(folder, "unproved"))
        for name, text in files.items():
            with open(os.path.join(folder, name), "w", encoding="utf-8") as file:
                file.write(text)
        command = [kit_compiler.clang(), f"--target={target(given)}", "-w", "-ffreestanding",
                   f"-I{folder}", *words, "asked.c", "-o", "-"]
        done = subprocess.run(command, cwd=folder, check=False, capture_output=True, text=True)
    if done.returncode:
        raise NotRead(done.stderr)
    return done.stdout


def target(given: Given) -> str:
    """The machine that the module is for."""
    return re.search(r'target triple = "([^"]+)"', given.text_of(MODULE))[1]


def lowered(line: str) -> Tuple[str, List[str]]:
    """A function's name, and its types as LLVM has them, what it returns first, each with its
    extension. What passes found out of a value (noundef, range and others) is left out."""
    while ATTRIBUTE.search(line.partition("@")[0]):
        line = ATTRIBUTE.sub(r"\1", line, count=1)
    result, name, takes = re.match(r"([^@]*)@(\w+)\((.*)", line).groups()
    while ATTRIBUTE.search(takes):
        takes = ATTRIBUTE.sub(r"\1", takes)
    parts = [LOWERED.findall(it) for it in (result, *takes.partition(")")[0].split(","))]
    return name, [" ".join(sorted(part)) for part in parts if part]


def compiled(given: Given, names: Sequence[str],
             expressions: Sequence[str]) -> Tuple[Dict[str, List[str]], List[int]]:
    """What clang declares of these functions, and the values of constant expressions."""
    code = f"void *all[] = {{ {', '.join(names)} }};\n" + "".join(
        f"const unsigned long c{at} = {it};\n" for at, it in enumerate(expressions))
    text = asked(given, code, "-S", "-emit-llvm")
    values = dict(re.findall(r"@c(\d+) = [^\n]*? i64 (\d+)", text))
    return (dict(lowered(it) for it in text.splitlines() if it.startswith("declare")),
            [int(values[str(at)]) for at in range(len(expressions))])


# ---- what the header declares

def function_of(node: Dict[str, Any]) -> Function:
    takes = [it for it in node.get("inner", []) if it["kind"] == "ParmVarDecl"]
    return Function(node["type"]["qualType"].split("(")[0].strip(),
                    [Named(it["type"]["qualType"], it.get("name", "")) for it in takes])


def fields_of(node: Dict[str, Any]) -> List[Named]:
    return [Named(it["type"]["qualType"], it["name"]) for it in node["inner"]
            if it["kind"] == "FieldDecl"]


Declared = Tuple[Dict[str, Function], Dict[str, List[Named]], Dict[str, List[str]]]


def declared(given: Given) -> Declared:
    """The functions, the fields of the structs, and the names of each enum."""
    tree = json.loads(asked(given, "", "-Xclang", "-ast-dump=json", "-fsyntax-only"))
    functions, structs, enums = {}, {}, {}
    for node in tree["inner"]:
        kind, name = node["kind"], node.get("name", "")
        if not name.startswith(PREFIX):
            continue
        if kind == "FunctionDecl" and node.get("storageClass") != "static":
            functions[name] = function_of(node)
        if kind == "RecordDecl" and node.get("completeDefinition"):
            structs[name] = fields_of(node)
        if kind == "EnumDecl":
            enums[name] = [it["name"] for it in node["inner"] if it["kind"] == "EnumConstantDecl"]
    return functions, structs, enums


def layout_words(name: str, fields: Sequence[Named]) -> List[str]:
    """The expressions whose values are the layout of a struct."""
    words = [f"sizeof(struct {name})", f"_Alignof(struct {name})"]
    for it in fields:
        words += [f"__builtin_offsetof(struct {name}, {it.name})",
                  f"sizeof(((struct {name} *)0)->{it.name})"]
    return words


def layout_of(fields: Sequence[Named], values: List[int]) -> Layout:
    size, alignment, *rest = values
    listed = [Field(*it, *rest[2 * at:2 * at + 2]) for at, it in enumerate(fields)]
    return Layout(listed, size, alignment)


def read(given: Given) -> Header:
    """The header, as clang has it."""
    functions, structs, enums = declared(given)
    words = {name: layout_words(name, fields) for name, fields in structs.items()} | enums
    lower, values = compiled(given, sorted(functions), sum(words.values(), []))
    found = {}
    for name, listed in words.items():
        found[name], values = values[:len(listed)], values[len(listed):]
    return Header(functions, structs,
                  {name: dict(zip(listed, found[name])) for name, listed in enums.items()},
                  {name: layout_of(fields, found[name]) for name, fields in structs.items()}, lower)
