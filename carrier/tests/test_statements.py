"""Each text of SQL in carrier/ that changes a table of krb_laws' model is one of its statements
(statements.toml): it compares, sets and inserts the same columns, and its count is looked at where the
model gives up. Each comparison is lost once in a copy, and that is seen."""
import os
import re
import shutil
import sqlite3
import typing

import pytest

import sources
import statements

ROWS = statements.statements()
TEXTS = [(name, row, text) for name, row in ROWS.items() for text in row["texts"]]
MODELS = [name for name, row in ROWS.items() if "model" in row]
TRIGGERS = statements.triggers()
# What looks at a count, by the source of a statement: where that is, and what stands there.
LOOKS = {"outbox.c": [("outbox.c", statements.OUTBOX_LOOK)]} | {
    file: [(file, look), ("store.c", statements.ASKS)] for file, look in statements.STORE_LOOKS.items()}


def named(text: statements.Text) -> str:
    return f"{text['file']} {text['name']}"


# ---- plants

def pieces(tokens: list[str], first: int, last: int) -> typing.Iterator[tuple[int, int]]:
    """Where each comparison between two tokens stands, also those in brackets."""
    at = first
    depths = statements.outer(tokens[first:last])
    cuts = [first + i for i, it in enumerate(tokens[first:last]) if depths[i] == 0 and it in ("AND", "OR")]
    for cut in [*cuts, last]:
        if tokens[at] == "(" and "SELECT" not in tokens[at:cut]:
            yield from pieces(tokens, at + 1, cut - 1)
        elif at < cut:
            yield at, cut
        at = cut + 1


def end_of(tokens: list[str], where: int) -> int:
    """Where a WHERE ends."""
    depths = statements.outer(tokens)
    for i in range(where + 1, len(tokens)):
        if depths[i] < depths[where] or depths[i] == depths[where] and tokens[i] in statements.PARTS | {";"}:
            return i
    return len(tokens)


def lost(tokens: list[str]) -> typing.Iterator[tuple[str, list[str]]]:
    """Each comparison of each WHERE, and each WHERE, with what is left without it."""
    for where in (i for i, it in enumerate(tokens) if it == "WHERE"):
        end = end_of(tokens, where)
        yield " ".join(tokens[where:end]), tokens[:where] + tokens[end:]
        for at, to in pieces(tokens, where + 1, end):
            left, right = (at - 1, to) if tokens[at - 1] in ("AND", "OR") else (at, to + 1)
            if to == end and tokens[at - 1] == "WHERE":
                left, right = at - 1, to
            yield " ".join(tokens[at:to]), tokens[:left] + tokens[right:]


def planted(folder: str, text: statements.Text, sql: str) -> None:
    """A copy of a source in a folder, in which a text is another one."""
    source = statements.source_of(statements.SOURCES, text["file"])
    stands = statements.text_of(source, text["name"])
    with open(os.path.join(folder, text["file"]), "w", encoding="utf-8") as file:
        file.write(f'{source[:stands.start()]}"{sql}"{source[stands.end():]}')


def tokens_of(text: statements.Text) -> list[str]:
    source = statements.source_of(statements.SOURCES, text["file"])
    return statements.TOKEN.findall(statements.sql_of(statements.text_of(source, text["name"])[0]))


LOST = [(name, text, what, left) for name, _, text in TEXTS for what, left in lost(tokens_of(text))]


# ---- tests

@pytest.mark.parametrize(("name", "row", "text"), TEXTS, ids=[f"{it[0]} {named(it[2])}" for it in TEXTS])
def test_text(name, row, text):
    assert statements.faults(statements.SOURCES, name, row, text) == []


@pytest.mark.parametrize("name", MODELS)
def test_model(name):
    assert statements.model_faults(statements.SPECS, name, ROWS[name]) == []


def test_no_other_text():
    assert statements.unknown(statements.SOURCES) == []


@pytest.mark.parametrize("name", TRIGGERS)
def test_trigger(name):
    when, does = statements.trigger(statements.SOURCES, name)
    assert when == TRIGGERS[name]["when"] and does.startswith(TRIGGERS[name]["does"])
    assert statements.says(statements.SPECS, "OutboxTables.antt", TRIGGERS[name]["says"])


@pytest.mark.parametrize(("name", "text", "what", "left"), LOST,
                         ids=[f"{named(text)} without {what}" for _, text, what, _ in LOST])
def test_lost_comparison(name, text, what, left, tmp_path):
    planted(tmp_path, text, " ".join(left))
    told = statements.faults(tmp_path, name, ROWS[name], text)
    assert any(it.startswith(f"{named(text)}: {name} ") for it in told), told


@pytest.mark.parametrize(("name", "row", "text"), TEXTS, ids=[f"{it[0]} {named(it[2])}" for it in TEXTS])
def test_all_are_lost(name, row, text):
    """Each comparison that a statement names is lost in some copy."""
    sql = " ".join(tokens_of(text))
    losses = [it for it, _ in lost(statements.placed(sql, row["values"], text.get("called", {})))]
    in_where = row.get("key", []) if row["does"].startswith("UPDATE") else []
    assert [it for it in row.get("compares", []) + row.get("begins", []) + in_where if it not in losses] == []


def test_compared_with_what_it_sets(tmp_path):
    """A WHERE that compares each column with what it becomes compares nothing that was read."""
    row, text = ROWS["move_session"], ROWS["move_session"]["texts"][0]
    sql = " ".join(tokens_of(text))
    for old, new in (("next = ?7", "next = ?2"), ("closed = ?8", "closed = ?3"), ("at = ?10", "at = ?5")):
        assert sql.count(old) == 1
        planted(tmp_path, text, sql.replace(old, new))
        assert statements.faults(tmp_path, "move_session", row, text) != []


@pytest.mark.parametrize(("name", "row", "text"), [it for it in TEXTS if it[1]["is_counted"]],
                         ids=[f"{it[0]} {named(it[2])}" for it in TEXTS if it[1]["is_counted"]])
def test_lost_count(name, row, text, tmp_path):
    for file, look in LOOKS[text["file"]]:
        source = statements.source_of(statements.SOURCES, file)
        assert look in source
        (tmp_path / file).write_text(source.replace(look, "0"), encoding="utf-8")
        assert statements.faults(tmp_path, name, row, text) == [f"{named(text)}: its count is not looked at"]
        (tmp_path / file).unlink()


@pytest.mark.parametrize("name", [it for it in MODELS if "compares" in ROWS[it]["model"]])
def test_model_lost_comparison(name, tmp_path):
    model = ROWS[name]["model"]
    with open(os.path.join(statements.SPECS, model["file"]), encoding="utf-8") as file:
        whole = file.read()
    text = statements.definition(statements.SPECS, model["file"], model["compares"])
    found = re.findall(r"[\w.]+ == [\w.]+|nat_l[et] [\w.]+ [\w.]+", text)
    stands = re.compile(r"\s+".join(map(re.escape, text.split())))
    assert found and len(stands.findall(whole)) == 1
    for comparison in found:
        changed = text.replace(comparison, "true", 1)
        (tmp_path / model["file"]).write_text(stands.sub(lambda _: f"{changed}\n", whole), encoding="utf-8")
        assert statements.model_faults(tmp_path, name, ROWS[name]) != [], comparison


def test_a_new_text(tmp_path):
    for file in {text["file"] for _, _, text in TEXTS}:
        shutil.copy(sources.place_of(file), tmp_path)
    with open(tmp_path / "outbox.c", "a", encoding="utf-8") as file:
        file.write('static const char again[] = "UPDATE session SET"\n    " next = 0";\n')
    assert statements.unknown(tmp_path) == ["outbox.c: a text that changes session"]


# What stands in the row of a session whose first number is 1, the number from which a sender moves it
# to 9, the statement's count, and what stands there then.
NEXTS = [(None, 1, 1, [9]), (None, 5, 0, []), (5, 5, 1, [9]), (6, 5, 0, [6]), (6, 1, 0, [6])]


@pytest.mark.parametrize(("stands", "start", "count", "after"), NEXTS)
def test_next_is_compared(stands, start, count, after):
    """Also where a session has no row: it stands at its first number."""
    file = sqlite3.connect(":memory:")
    file.execute("CREATE TABLE session (name TEXT PRIMARY KEY, next INTEGER, carried INTEGER, at INTEGER,"
                 " shard INTEGER, done INTEGER)")
    if stands is not None:
        file.execute("INSERT INTO session VALUES ('ann', ?, 0, 0, 0, 0)", (stands,))
    values = {"to": 9, "session": "ann", "from": start, "shard": 0, "opening": 1, "first": 1}
    done = file.execute(" ".join(tokens_of(ROWS["set_next"]["texts"][0])),
                        [values[it] for it in ROWS["set_next"]["values"]])
    assert done.rowcount == count
    assert [it[0] for it in file.execute("SELECT next FROM session")] == after
