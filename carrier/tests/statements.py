"""The SQL texts of carrier/ beside the statements of krb_laws' model: what each compares, sets and
inserts, and whether its count is looked at. statements.toml has the statements."""
import dataclasses
import os
import re
import tomllib
import typing

from lib.build import building

import sources

SOURCES = os.path.join(building.TOP, "carrier")
SPECS = os.path.join(building.TOP, "crates", "krb_laws", "specs")
TABLE = os.path.join(os.path.dirname(os.path.abspath(__file__)), "statements.toml")
NO_STATEMENTS = ("triggers", "outside")

LITERAL = r'"(?:[^"\\\n]|\\.)*"'
TEXT = re.compile(rf"{LITERAL}(?:\s*{LITERAL})*")
COMMENT = re.compile(rf"{LITERAL}|/\*.*?\*/", re.S)
CAST = re.compile(r"::\w+(?:\[\])?")
TOKEN = re.compile(r"'[^']*'|\?\d*|\$\d+|:?[A-Za-z_]\w*(?:\.\w+)?|\d+|<>|!=|<=|>=|\S")
FIRST = {"INSERT", "UPDATE", "DELETE"}
PARTS = FIRST | {"VALUES", "SELECT", "WHERE", "ON", "DO", "SET"}
WRITES = re.compile(r"(?:^|;)\s*(?:INSERT(?: OR \w+)? INTO|UPDATE|DELETE FROM)\s+(\w+)")
TRIGGER = r"CREATE TRIGGER IF NOT EXISTS {} (?:BEFORE|AFTER) INSERT ON text\s+WHEN (.*?) BEGIN (.*?); END;"
# What looks at a count: in the outbox, beside its statement; in a store, where store.c asks for it as the call's last word.
OUTBOX_LOOK = "sqlite3_changes(o->db) == 1"
STORE_LOOKS = {"sqlite_store.c": "s->is_fenced |= sqlite3_changes(s->db) != 1;",
               "postgresql_store.c": 'expected == ONE_ROW && strcmp(PQcmdTuples((PGresult *)result), "1") != 0'}
ASKS = "ONE_ROW)"


class Text(typing.TypedDict, total=False):
    """Where a text stands."""
    file: str
    name: str
    called: dict[str, str]


class Model(typing.TypedDict, total=False):
    """What stands of a statement in the definitions of krb_laws."""
    file: str
    compares: str
    row: str
    sets: str
    says: str


class Row(typing.TypedDict, total=False):
    """A statement, as the head of statements.toml explains it."""
    model: Model
    texts: list[Text]
    values: list[str]
    does: str
    key: list[str]
    begins: list[str]
    compares: list[str]
    sets: list[str]
    beside: list[str]
    is_counted: bool


@dataclasses.dataclass(frozen=True)
class Statement:
    """What a text says, its places by the names of their values."""
    does: str
    inserts: frozenset[str] = frozenset()       # what it gives the columns of a new row
    begins: frozenset[str] = frozenset()        # the alternatives under which it inserts one
    conflict: str = ""                          # what it does where there is a row
    sets: frozenset[str] = frozenset()
    where: frozenset[str] = frozenset()


def rows() -> dict[str, typing.Any]:
    with open(TABLE, "rb") as file:
        return tomllib.load(file)


def statements() -> dict[str, Row]:
    """The values of a store's statement are those of the table of which its texts are written."""
    written = tomllib.loads(building.text_of("tables/statements.toml"))["statement"]
    return {name: {"values": written.get(name.upper(), {}).get("values", []), **row}
            for name, row in rows().items() if name not in NO_STATEMENTS}


def triggers() -> dict[str, dict[str, str]]:
    return rows()["triggers"]


def outside() -> list[str]:
    """The tables that the model doesn't have."""
    return rows()["outside"]["tables"]


def source_of(folder: str, file: str) -> str:
    """A source with its comments blank, of this folder if it is there."""
    path = sources.place_of(file, folder)
    with open(path if os.path.exists(path) else sources.place_of(file), encoding="utf-8") as it:
        return COMMENT.sub(lambda one: one[0] if one[0][0] == '"' else " " * len(one[0]), it.read())


def sql_of(literals: str) -> str:
    return CAST.sub("", "".join(it[1:-1] for it in re.findall(LITERAL, literals)))


def text_of(source: str, name: str) -> re.Match[str]:
    """Where the text of this name stands."""
    at = re.search(rf'\[{name}\] = \(?|\b{name}\(\w+, (?=")', source)
    found = TEXT.match(source, at.end()) if at else None
    assert found, f"there is no text {name}"
    return found


# ---- what a text says

def outer(tokens: list[str]) -> list[int]:
    """How deep each token stands in brackets."""
    depths, depth = [], 0
    for it in tokens:
        depth -= it == ")"
        depths.append(depth)
        depth += it == "("
    return depths


def split(tokens: list[str], at: set[str]) -> list[list[str]]:
    """The tokens between those, outside brackets."""
    pieces: list[list[str]] = [[]]
    for it, depth in zip(tokens, outer(tokens)):
        if depth == 0 and it in at:
            pieces.append([])
        else:
            pieces[-1].append(it)
    return pieces


def bare(tokens: list[str]) -> list[str]:
    """Without the brackets around it."""
    while tokens[:1] == ["("] and min(outer(tokens)[1:-1], default=0) > 0:
        tokens = tokens[1:-1]
    return tokens


def condition(tokens: list[str]) -> str:
    """One comparison."""
    return " ".join(bare(tokens)).replace("<>", "!=")


def alternatives(tokens: list[str]) -> frozenset[str]:
    return frozenset(" AND ".join(sorted(condition(it) for it in split(bare(one), {"AND"})))
                     for one in split(tokens, {"OR"}))


def comparisons(tokens: list[str]) -> frozenset[str]:
    whole = alternatives(tokens)
    return whole if len(whole) > 1 else frozenset(condition(it) for it in split(tokens, {"AND"}))


def placed(sql: str, values: list[str], called: dict[str, str]) -> list[str]:
    """The tokens, with the values' names in their places, and columns by their names in the model."""
    tokens, next_place = [], 0
    table = WRITES.search(sql)
    for it in TOKEN.findall(sql):
        if it[0] in "?$":
            next_place = int(it[1:]) if it[1:] else next_place + 1
            it = f":{values[next_place - 1]}"
        elif table and it.startswith(f"{table[1]}."):
            it = it.removeprefix(f"{table[1]}.")
        tokens.append(called.get(it, it))
    return tokens


def pairs(columns: list[str], given: list[str]) -> frozenset[str]:
    values = [" ".join(bare(it)) for it in split(bare(given), {","})]
    assert len(columns) == len(values), (columns, values)
    return frozenset(f"{column} = {value}" for column, value in zip(columns, values))


def parts_of(tokens: list[str]) -> list[tuple[str, list[str]]]:
    """Its parts, each with the word that it begins with."""
    parts: list[tuple[str, list[str]]] = []
    for it, depth in zip(tokens, outer(tokens)):
        if depth == 0 and it in PARTS:
            parts.append((it, []))
        else:
            parts[-1][1].append(it)
    return parts


def read(tokens: list[str], columns: list[str]) -> Statement:
    """What they say; the columns are those of the table, in their order."""
    parts = parts_of(tokens)
    verb, named = parts[0]
    words = [it for it in named if it in ("INTO", "FROM")]
    said = Statement(" ".join([verb, *words, next(it for it in named if it not in words)]))
    if "(" in named:
        columns = [it for it in named[named.index("("):] if it not in "(),"]
    is_new = verb == "INSERT"
    for word, it in parts[1:]:
        if word in ("VALUES", "SELECT"):
            said = dataclasses.replace(said, inserts=pairs(columns, it))
        elif word == "ON":
            said = dataclasses.replace(said, conflict=" ".join(["ON", *it]))
            is_new = False
        elif word == "DO" and it:
            said = dataclasses.replace(said, conflict=f"{said.conflict} DO NOTHING")
        elif word == "SET":
            said = dataclasses.replace(said, sets=frozenset(" ".join(one) for one in split(it, {","})))
        elif word == "WHERE" and is_new:
            said = dataclasses.replace(said, begins=alternatives(it))
        elif word == "WHERE":
            said = dataclasses.replace(said, where=comparisons(it))
    return said


def columns_of(folder: str, file: str, table: str) -> tuple[list[str], list[str]]:
    """The columns of a table that is made in a file, and those of its key."""
    texts = " ".join(sql_of(it[0]) for it in TEXT.finditer(source_of(folder, file)))
    found = re.search(rf"CREATE TABLE IF NOT EXISTS {table} \((.*?)\)(?: WITHOUT ROWID)?;", texts)
    assert found, f"{file} doesn't make the table {table}"
    pieces = [" ".join(it) for it in split(TOKEN.findall(found[1]), {","})]
    whole = [it for it in pieces if it.startswith("PRIMARY KEY")]
    columns = [it.split()[0] for it in pieces if it not in whole]
    key = re.findall(r"\w+", whole[0])[2:] if whole else [it.split()[0] for it in pieces if "PRIMARY KEY" in it]
    return columns, key


# ---- what it has to say

def wanted(row: Row) -> Statement:
    """What a text of this statement has to say."""
    key, compares = row.get("key", []), row.get("compares", [])
    if not row["does"].startswith("INSERT"):
        return Statement(row["does"], sets=frozenset(row.get("sets", [])), where=frozenset(key + compares))
    begins = frozenset([" AND ".join(sorted(row["begins"])), exists(row)] if "begins" in row else [])
    conflict = f"ON CONFLICT ( {key[0].split()[0]} )" if compares else ""
    return Statement(row["does"], frozenset(key + row["sets"]), begins, conflict,
                     frozenset(row["sets"] if compares else []), frozenset(compares))


def exists(row: Row) -> str:
    return f"EXISTS ( SELECT 1 FROM {row['does'].split()[-1]} WHERE {row['key'][0]} )"


def without(given: frozenset[str], columns: list[str]) -> frozenset[str]:
    return frozenset(it for it in given if it.split()[0] not in columns)


def said_by(folder: str, row: Row, text: Text) -> Statement:
    """What a text says, of the columns that the model has."""
    source = source_of(folder, text["file"])
    tokens = placed(sql_of(text_of(source, text["name"])[0]), row["values"], text.get("called", {}))
    is_whole = tokens[0] == "INSERT" and tokens[3] != "("
    it, beside = read(tokens, made(folder, row, text)[0] if is_whole else []), row.get("beside", [])
    conflict = "" if it.conflict == "ON CONFLICT DO NOTHING" else it.conflict
    return dataclasses.replace(it, inserts=without(it.inserts, beside), sets=without(it.sets, beside),
                               conflict=conflict)


def made(folder: str, row: Row, text: Text) -> tuple[list[str], list[str]]:
    """The columns of the table that a text is about, and those of its key."""
    return columns_of(folder, text["file"], row["does"].split()[-1])


def faults(folder: str, name: str, row: Row, text: Text) -> list[str]:
    """What a text says otherwise than its statement, or leaves out."""
    said, to_say = said_by(folder, row, text), wanted(row)
    where = f"{text['file']} {text['name']}"
    told = []
    for field in dataclasses.fields(Statement):
        has, wants = getattr(said, field.name), getattr(to_say, field.name)
        if has != wants:
            told.append(f"{where}: {name} {field.name} {shown(has)}, not {shown(wants)}")
    key = [it.split()[0] for it in row.get("key", [])]
    if row["does"].startswith("INSERT") and key and made(folder, row, text)[1] != key:
        told.append(f"{where}: the key of its table is {made(folder, row, text)[1]}, not {key}")
    if is_counted(folder, text) != row["is_counted"]:
        told.append(f"{where}: its count is {'not looked at' if row['is_counted'] else 'looked at'}")
    return told


def shown(value: typing.Union[str, frozenset[str]]) -> str:
    return value if isinstance(value, str) else str(sorted(value))


def is_counted(folder: str, text: Text) -> bool:
    """Whether the function that runs the text looks at its count."""
    source, name = source_of(folder, text["file"]), text["name"]
    if text["file"] in STORE_LOOKS:
        asks = rf"sql\[[^;]*\b{name}\b[^;]*{re.escape(ASKS)}"
        return STORE_LOOKS[text["file"]] in source and re.search(asks, source_of(folder, "store.c")) is not None
    bodies = [it[0] for it in re.finditer(r"^\{\n.*?^\}\n", source, re.S | re.M)]
    return any(OUTBOX_LOOK in it for it in bodies if re.search(rf"statements\[[^\]]*\b{name}\b", it))


# ---- texts that change something

def writes_in(folder: str) -> list[tuple[str, int, str]]:
    """Each text that changes a table: its file, where it stands, and the table."""
    found = []
    for file in map(os.path.basename, sources.all_of(folder)):
        for text in TEXT.finditer(source_of(folder, file)):
            found += [(file, text.start(), it) for it in WRITES.findall(sql_of(text[0]))]
    return found


def unknown(folder: str) -> list[str]:
    """Texts that change a table of the model, and are none of its statements."""
    known = {(text["file"], text_of(source_of(folder, text["file"]), text["name"]).start())
             for row in statements().values() for text in row["texts"]}
    others = outside()
    return [f"{file}: a text that changes {table}" for file, at, table in writes_in(folder)
            if table not in others and (file, at) not in known]


def trigger(folder: str, name: str) -> tuple[str, str]:
    """When a trigger of the outbox acts, and what it does."""
    texts = " ".join(sql_of(it[0]) for it in TEXT.finditer(source_of(folder, "outbox.c")))
    found = re.search(TRIGGER.format(name), texts)
    assert found, f"there is no trigger {name}"
    when, does = (" ".join(TOKEN.findall(it)) for it in found.groups())
    return when, does


# ---- the model

def definition(specs: str, file: str, name: str) -> str:
    """A definition, on one line."""
    with open(os.path.join(specs, file), encoding="utf-8") as it:
        text = it.read()
    found = re.search(rf"^(?:abbrev )?pub (?:record )?{name}\b.*?(?=^\S*(?:abbrev|pub|record|data|--)\b|^--|\Z)",
                      text, re.S | re.M)
    assert found, f"{file} has no definition {name}"
    return " ".join(found[0].split())


def model_columns(specs: str, model: Model) -> frozenset[str]:
    """What the model's definition compares, each column with its sign."""
    if "compares" not in model:
        return frozenset()
    text = definition(specs, model["file"], model["compares"])
    compared = [(a, "=", b) for a, b in re.findall(r"([\w.]+) == ([\w.]+)", text)]
    compared += [(a, "<=", b) for a, b in re.findall(r"nat_le ([\w.]+) ([\w.]+)", text)]
    compared += [(a, "<", b) for a, b in re.findall(r"nat_lt ([\w.]+) ([\w.]+)", text)]
    turned = {"=": "=", "<=": ">=", "<": ">"}
    signed = [(a, sign) if is_column(a, b) else (b, turned[sign]) for a, sign, b in compared
              if is_column(a, b) or is_column(b, a)]
    return frozenset(f"{column.removeprefix('row.')} {sign}" for column, sign in signed)


def is_column(word: str, other: str) -> bool:
    """Whether a word of a comparison is a column of the row: the other one is what it is compared with."""
    return word.startswith("row.") or "." not in word and not other.startswith("row.")


def model_sets(specs: str, model: Model) -> frozenset[str]:
    """The columns that the model's definition gives values."""
    if "row" in model:
        text = definition(specs, model["file"], model["row"])
        return frozenset(re.findall(r"pub (\w+) :", text.split("where", 1)[1]))
    if "sets" not in model:
        return frozenset()
    changed = re.search(r"record row \{ (.*?) \}", definition(specs, model["file"], model["sets"]))
    return frozenset(re.findall(r"(\w+) =", changed[1] if changed else ""))


def model_faults(specs: str, name: str, row: Row) -> list[str]:
    """What the model's definition says otherwise than the statement."""
    model = row["model"]
    compared = frozenset(" ".join(it.split()[:2]) for it in row.get("compares", []))
    told = [] if model_columns(specs, model) == compared else [
        f"{name}: the model compares {sorted(model_columns(specs, model))}, not {sorted(compared)}"]
    is_keyed = model.get("row") == "FrameRow"
    columns = frozenset(it.split()[0] for it in row.get("sets", []) + (row["key"] if is_keyed else []))
    if ("row" in model or "sets" in model) and model_sets(specs, model) != columns:
        told.append(f"{name}: the model sets {sorted(model_sets(specs, model))}, not {sorted(columns)}")
    if not says(specs, model["file"], model.get("says", "")):
        told.append(f"{name}: the model doesn't say {model['says']}")
    return told


def says(specs: str, file: str, words: str) -> bool:
    """Whether a file of the model has these words, on however many lines."""
    with open(os.path.join(specs, file), encoding="utf-8") as it:
        return words in " ".join(it.read().split())
