"""What the crates' sources say that C sees: exported functions, and structs of `repr(C)`."""
import re
from typing import Dict, List, NamedTuple, Optional, Sequence, Tuple

from signatures.header import Field, Layout

# C's names of Rust's numbers, and their bytes.
NUMBERS = {"u8": "uint8_t", "u32": "uint32_t", "u64": "uint64_t", "i32": "int32_t",
           "usize": "size_t"}
SIZES = {"uint8_t": 1, "uint32_t": 4, "uint64_t": 8, "int32_t": 4, "size_t": 8}
EXPORT = re.compile(r'#\[unsafe\(no_mangle\)\]\s*pub extern "C" fn (krbrelay_\w+)\(([^)]*)\)'
                    r"(?:\s*->\s*(\w+))?")
STRUCT = re.compile(r"#\[repr\(C\)\]\s*(?:#\[[^\]]*\]\s*)*pub struct (\w+)(?:<'\w+>)? \{\n(.*?)\n\}", re.S)
FIELD = re.compile(r"^    (?:pub(?:\([^)]*\))? )?(?!ghost)(\w+): ([^,{]+),", re.M)
LENT = re.compile(r"&'\w+ \[(\w+)\]$")       # a field that lends bytes: a pointer, and how many
COUNT = re.compile(r"pub const (\w+): usize = (\d+);")


class Parameter(NamedTuple):
    """A parameter of C's: `part` is 1 for the length of what Rust has as one."""
    type: str
    name: str
    rust: str
    part: int


class Export(NamedTuple):
    result: Optional[str]
    takes: List[Parameter]


def struct_name(rust: str) -> str:
    return "krbrelay_" + rust.removeprefix("Krb").lower()


def in_c(rust: str) -> List[str]:
    """The types that C gives for a parameter of this type."""
    if rust == "Global":
        return []
    if rust in NUMBERS:
        return [NUMBERS[rust]]
    const = "" if rust.startswith("&mut ") else "const "
    inner = re.sub(r"^&(mut )?", "", rust)
    array = re.match(r"\[(\w+)(?:<'_>)?(?:; (\w+))?\]$", inner)
    if array:
        pointer = f"{const}{NUMBERS.get(array[1]) or 'struct ' + struct_name(array[1])} *"
        return [pointer] if array[2] else [pointer, "size_t"]
    return [f"{const}{NUMBERS.get(inner) or 'struct ' + struct_name(inner)} *"]


def parameters(text: str) -> List[Parameter]:
    """Those between the brackets of a function."""
    pairs = [it.split(": ", 1) for it in re.split(r",\s*", text.strip().rstrip(",")) if it]
    return [Parameter(c, name, rust, part) for name, rust in pairs
            for part, c in enumerate(in_c(rust))]


def exports(texts: Sequence[str]) -> Dict[str, Export]:
    """The exported functions of all sources."""
    return {it[1]: Export(it[3], parameters(it[2]))
            for text in texts for it in EXPORT.finditer(text)}


class Structs:
    """The structs of `repr(C)`, by C's names."""

    def __init__(self, texts: Sequence[str]):
        self.counts = dict(pair for text in texts for pair in COUNT.findall(text))
        self.fields = {struct_name(it[1]): FIELD.findall(it[2])
                       for text in texts for it in STRUCT.finditer(text)}

    def of_type(self, rust: str) -> Tuple[str, int, int]:
        """C's name of a field's type, its size and its alignment."""
        array = re.match(r"\[(\w+); (\w+)\]", rust)
        if array:
            count = int(self.counts.get(array[2], array[2]))
            name, size, alignment = self.of_type(array[1])
            return f"{name}[{count}]", size * count, alignment
        if rust.startswith("*mut"):
            return "void *", 8, 8
        if rust.startswith("*const "):
            return f"const {NUMBERS[rust[7:]]} *", 8, 8
        if rust in NUMBERS:
            name = NUMBERS[rust]
            return name, SIZES[name], SIZES[name]
        inner = self.layout(struct_name(rust))
        return "struct " + struct_name(rust), inner.size, inner.alignment

    def parts(self, name: str) -> List[Tuple[str, str]]:
        """The fields as C has them."""
        found = []
        for field, rust in self.fields[name]:
            lent = LENT.match(rust)
            found += [(field, f"*const {lent[1]}"), (field + "_len", "usize")] if lent else [(field, rust)]
        return found

    def layout(self, name: str) -> Layout:
        """Where C's rules put the fields."""
        fields, end, most = [], 0, 1
        for field, rust in self.parts(name):
            c, size, alignment = self.of_type(rust)
            offset = -(-end // alignment) * alignment
            fields.append(Field(c, field, offset, size))
            end, most = offset + size, max(most, alignment)
        return Layout(fields, -(-end // most) * most, most)
