"""What a package of the carrier has beside its programs says what they say: the completions their options, the manual
their events, the rules and the dashboard of Prometheus their metrics, and the units how little they may do."""
import json
import os
import pathlib
import re
import shutil
import subprocess
import sys
import tomllib

import pytest
import sources as places
import systemd_units

HERE = os.path.dirname(os.path.abspath(__file__))
SOURCES = os.path.dirname(HERE)
METRIC = re.compile(r"\bkrbrelay_(?:sender|receiver)_\w+")


def table(name):
    return tomllib.loads(pathlib.Path(SOURCES, f"../tables/{name}.toml").read_text(encoding="utf-8"))


def text_of(name):
    with open(places.place_of(name), encoding="utf-8") as file:
        return file.read()


@pytest.mark.parametrize("name", ["all", "cluster", "demo", "demo_kerberos", "realm"])
def test_a_script_says_what_its_head_says(name, tmp_path):
    """And does nothing else."""
    head = re.match(r"#!.*\n((?:#.*\n)+)", text_of(name))[1]
    done = subprocess.run([os.path.join(SOURCES, name), "--help"], cwd=tmp_path, check=True, capture_output=True, text=True)
    assert (done.stdout, done.stderr) == (re.sub(r"(?m)^# ?", "", head), "") and not os.listdir(tmp_path)


def test_a_purge_keeps_what_has_texts_or_keys(tmp_path):
    """And removes the folders that have nothing."""
    with open(os.path.join(SOURCES, "../packaging/debian/krbrelay-carrier.postrm"), encoding="ascii") as file:
        script = file.read()
    kept = {"etc/krbrelay/sessions": b"a key", "var/lib/krbrelay/outbox.db": b"texts", "var/lib/krbrelay/store.db": b"effects"}
    for left in (kept, {}):
        place = tmp_path / str(len(left))
        moved = re.sub(r"(?<=[ \n])/(?=etc|var)", f"{place}/", script)
        assert moved != script
        for folder in ("etc/krbrelay", "var/lib/krbrelay"):
            (place / folder).mkdir(parents=True)
        for name, content in left.items():
            (place / name).write_bytes(content)
        subprocess.run(["sh", "-c", moved, "postrm", "purge"], check=True)
        assert {name: (place / name).read_bytes() for name in left} == left
        assert os.path.isdir(place / "etc/krbrelay") == os.path.isdir(place / "var/lib/krbrelay") == bool(left)


# The calls by which an event is logged, and its name, or two.
LOGS = re.compile(r'\b(?:log_fact|log_system|log_report|log_numbers|report_answer|kerberos_report|shard_report|print)'
                  r'\((?:&?\w+(?:->\w+)*, )?(?:[^"();]*\? )?"([a-z_]+)"(?: : "([a-z_]+)")?')
OWN = {"sender": ("sender",), "receiver": ("receiver", "effects", "stores")}


def test_the_manual_has_each_event():
    """Each event of the sources is on a page, and one of a program's own folders on its page; no other is. So is each
    reason of a refused opening."""
    by_folder, said = {}, {}
    for path in places.all_of():
        events = {it for pair in LOGS.findall(text_of(os.path.basename(path))) for it in pair if it}
        by_folder.setdefault(os.path.basename(os.path.dirname(path)), set()).update(events)
    for program, folders in OWN.items():
        page = text_of(f"man/krbrelay-{program}.8").partition(".SH DIAGNOSTICS")[2]
        said[program] = set(re.findall(r"^\.B ([a-z_]+)$", page, re.M))
        own = set().union(*(by_folder[it] for it in folders))
        assert len(own) > 10 and own <= said[program], own - said[program]
    assert set().union(*by_folder.values()) == set().union(*said.values())
    reasons = set(re.findall(r"^    X\((\w+)\) /\*", text_of("opening.h"), re.M))
    assert set(re.findall(r"^\.B OPENING_(\w+)$", text_of("man/krbrelay-receiver.8"), re.M)) == reasons and len(reasons) > 10


ASK_BASH = """. "$1"; complete -p "$0" > complete || exit 1; COMP_WORDS=("$0" -); COMP_CWORD=1
_krbrelay_carrier "$0"; echo "${COMPREPLY[@]}"
"""
SHELLS = {"bash": (["bash", "-c", ASK_BASH, "{}"], "carrier.bash"),
          "fish": (["fish", "--no-config", "-c", 'source $argv[1]; complete -C "{} -"'], "carrier.fish")}


@pytest.mark.parametrize("shell", SHELLS)
@pytest.mark.parametrize("name", ["status", "put", "get"])
def test_completions_have_each_option(shell, name, tmp_path):
    if shutil.which(shell) is None:
        pytest.skip(f"{shell} isn't installed")
    program, (words, file) = tmp_path / f"krbrelay-{name}", SHELLS[shell]
    script = f"{SOURCES}/status" if name == "status" else f"{SOURCES}/../python/krbrelay/carrier.py {name}"
    program.write_text(f'#!/bin/sh\nexec {sys.executable} {script} "$@"\n')
    program.chmod(0o755)
    given = {"PATH": f"{tmp_path}:{os.environ['PATH']}", "HOME": str(tmp_path)}
    words = [*(it.replace("{}", program.name) for it in words), os.path.join(SOURCES, "completions", file)]
    said = subprocess.run(words, check=True, stdout=subprocess.PIPE, text=True, env=given, cwd=tmp_path).stdout
    assert set(said.split()) - {"--help"} == {f"--{it['word']}" for it in table("options")["option"] if name in it.get("of", [])}


def metrics():
    """The names that the programs, a rule or a question may have: those of tables/metrics.toml."""
    for group, rows in table("metrics").items():
        for program in ("sender", "receiver") if group == "both" else (group,):
            yield from (f"krbrelay_{program}_{name}{part}" for name, row in rows.items()
                        for part in (("", "_bucket", "_sum", "_count") if row["type"] == "histogram" else ("",)))


@pytest.mark.parametrize("name", ["monitoring/alerts.yml", "monitoring/alerts_test.yml", "monitoring/dashboard.json", "OPERATION.md"])
def test_metrics_that_are_named_are_there(name):
    named = set(METRIC.findall(text_of(name)))
    assert len(named) > 8 and named <= {*metrics()}, named - {*metrics()}


def test_each_rule_is_tried():
    rules = set(re.findall(r"- alert: (\w+)", text_of("monitoring/alerts.yml")))
    assert rules == set(re.findall(r'alertname="(\w+)"', text_of("monitoring/alerts_test.yml"))) and len(rules) > 10


def test_the_dashboard_is_one():
    board = json.loads(text_of("monitoring/dashboard.json"))
    ids = [it["id"] for it in board["panels"]]
    assert len(set(ids)) == len(ids) > 8 and all(it["targets"] for it in board["panels"])


# ---- the page of the tables

def tables():
    """Each table that the programs make, with the columns that the page has to name."""
    for source in ("outbox.c", "sqlite_store.c", "store.c", "effect.c", "sqlite_carrier.c"):
        text = re.sub(r'"\n\s*"', "", text_of(source))
        for name, columns in re.findall(r"CREATE TABLE IF NOT EXISTS (\w+) \((.*?)\)[; ]", text):
            yield source, name, columns


def test_the_page_names_each_table():
    page = text_of("SCHEMA.md")
    found = {name for _, name, _ in tables()}
    assert len(found) > 12 and [it for it in found if not re.search(rf"`{it}[` ]", page)] == []


@pytest.mark.parametrize("name", ["text", "sealed", "stopped", "bound", "effect"])
def test_the_page_has_an_applications_columns(name):
    listed = re.search(rf"`{name} \((.*?)\)`", text_of("SCHEMA.md"))[1].split(", ")
    sources = re.sub(r'"\n\s*"', "", text_of("outbox.c") + text_of("effect.c"))
    made = re.search(rf"CREATE TABLE IF NOT EXISTS {name} \((.*?)\)(?:;| WITHOUT)", sources)[1]
    assert listed == [it for it in re.findall(r"(?:^|, )(\w+) [A-Z]", made)]


@pytest.mark.parametrize("said", re.findall(r"RAISE\(ABORT, '([^']*)'\)", text_of("outbox.c")))
def test_the_page_has_each_error(said):
    assert said in " ".join(text_of("SCHEMA.md").split())


# ---- units

HARDENED = ("CapabilityBoundingSet", "NoNewPrivileges", "ProtectSystem", "ProtectHome", "PrivateTmp", "PrivateDevices",
            "ProtectKernelTunables", "ProtectProc", "RestrictAddressFamilies", "RestrictNamespaces",
            "MemoryDenyWriteExecute", "SystemCallFilter", "SystemCallArchitectures", "UMask")


@pytest.mark.parametrize("unit", ["sender", "receiver"])
def test_units_may_do_little(unit):
    says = systemd_units.read(os.path.join(SOURCES, "systemd", f"krbrelay-{unit}@.service"))
    assert [it for it in HARDENED if it not in says] == []
    assert says["ExecStart"].startswith(f"/usr/local/bin/krbrelay-{unit} ") and says["CapabilityBoundingSet"] == ""


@pytest.mark.parametrize("unit", ["sender", "receiver"])
def test_the_example_sets_what_the_unit_takes(unit):
    says = systemd_units.read(os.path.join(SOURCES, "systemd", f"krbrelay-{unit}@.service"))
    given = dict(line.split("=", 1) for line in text_of(f"systemd/example.{unit}").splitlines() if line[0] != "#")
    words = systemd_units.Unit.expand(says["ExecStart"].split(), given)
    assert "--carrier" in words and not any("$" in it for it in words)
    assert set(re.findall(r"\$\{?([A-Z]+)", says["ExecStart"])) == set(given)
