"""Faults that stand in a function of C around a call of the library: what it does before it calls the
proved one, and after it. So the library isn't compiled anew for each."""
import os
import re
import subprocess

PROTOTYPE = r"^((?:enum |const )?\w+ \*?)krbrelay_{}\(([^;]*?)\)\s*(?:KRBRELAY_|;)"
# What faults are made of: blocks that are freed with bytes in them, and costs. The compiler leaves none out.
BEGIN = """#include <krbrelay.h>
#include <stdlib.h>
#include <string.h>
static void leave(const void *bytes, size_t len)
{
    char *block = malloc(len + 32);
    if (block != NULL) {
        memset(block, 0, len + 32);
        memcpy(block + 16, bytes, len);
    }
    free(block);
}
static void leave_by_realloc(const void *bytes, size_t len)
{
    char *block = malloc(len), *moved;
    if (block == NULL)
        return;
    memcpy(block, bytes, len);
    moved = realloc(block, 4 * len + 4096);
    if (moved != NULL)
        memset(moved, 0, len);
    free(moved != NULL ? moved : block);
}
static void spin(size_t times)
{
    for (volatile size_t i = 0; i < times; i++) { }
}
static void ask(size_t bytes)
{
    free(malloc(bytes));
}
#define NARROW(pointer, kind, field, narrow) \\
    kind pointer##_read = *pointer; pointer##_read.field = (narrow)pointer##_read.field; pointer = &pointer##_read
"""


class NoCall(ValueError):
    """Why a function can't be written around a call."""


def source(header: str, call: str, before: str, after: str) -> str:
    """The function around a call of the header, whose proved one is `planted_` and the call."""
    found = re.search(PROTOTYPE.format(re.escape(call)), header, re.M | re.S)
    if found is None:
        raise NoCall(f"the header has no krbrelay_{call}")
    kind, parameters = found[1].strip(), " ".join(found[2].split())
    names = [] if parameters == "void" else [re.sub(r"\[.*", "", it).split()[-1].lstrip("*")
                                             for it in parameters.split(",")]
    called = f"planted_{call}({', '.join(names)})"
    body = f"{called};\n    {after}" if kind == "void" else f"{kind} answer = {called};\n    {after}\n    return answer;"
    return (f"{BEGIN}{kind} planted_{call}({parameters});\n"
            f"{kind} krbrelay_{call}({parameters})\n{{\n    {before}\n    {body}\n}}\n")


def wrap(code: str, top: str, of: tuple[str, str, str], made: str) -> None:
    """An object of the code, an object or assembly, with a function around a call of it."""
    call, *around = of
    folder = os.path.dirname(made)
    inner, outer, path = (os.path.join(folder, it) for it in ("inner.o", "outer.o", "outer.c"))
    with open(f"{top}/c/krbrelay.h", encoding="utf-8") as file:
        text = source(file.read(), call, *around)
    with open(path, "w", encoding="utf-8") as file:
        file.write(text)
    for words in (["cc", "-c", code, "-o", inner] if code.endswith(".s") else ["cp", code, inner],
                  ["objcopy", f"--redefine-sym=krbrelay_{call}=planted_{call}", inner],
                  ["cc", "-std=gnu11", "-O1", "-fno-builtin", "-fPIC", "-w", "-c", path,
                   f"-I{top}/c", "-o", outer],
                  ["ld", "-r", inner, outer, "-o", made]):
        subprocess.run(words, check=True)
