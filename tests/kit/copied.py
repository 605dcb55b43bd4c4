"""A copy of the repository for the tests of tools, in which scripts take the place of the kit and
of its prover: they prove nothing, and make scripts as programs, which note that they were run."""
import os
import shutil
import signal
import subprocess
import time

from lib import scripts
from lib.build import building

LIMIT = 300     # seconds for one command, also beside much other work
TO_END = 10     # seconds for all to end
# What takes the place of the kit: the words that it was called with are noted in $NOTES, as what
# its programs are called with. A crate whose sources are those of the copy is proved, and of another
# one it prints $SAYS. `rt ci` goes on until $CI_AWAITS parts have ended beside it, and then for some
# seconds. If $HANGS is set, `rt try` goes on for a minute beside a process in a session of its own, as
# the kit's does. At a signal it ends that process, after a second, and then itself; at a second signal
# meanwhile it ends at once.
KIT = r'''#!/bin/sh
name=$(basename "$PWD")
note() { echo "$*" >> "$NOTES"; }
program() {
    printf '#!/bin/sh\n[ "$1" = --version ] && echo krbrelay 1.1.0 && exit\n' > "$1"
    printf 'echo %s "$*" >> "$NOTES"\necho %s\nexit 3\n' "$2" "$2" >> "$1"
    chmod 755 "$1"
}
case $1 in
version) echo kit-of-the-test ;;
try)
    note try; shift 2
    if [ -n "$HANGS" ]; then
        setsid sleep 60 & started=$!
        trap 'trap "exit 130" INT TERM HUP; sleep 1; kill $started; exit 130' INT TERM HUP
        note "started $started"
        wait
    fi
    if [ "$KEEPS" = no ]; then [ "$1" = show ] || { echo tried; exit 3; }; exit 0; fi
    folder=$(mktemp -d); program "$folder/program" unproved; sleep 0.5; rm -r "$folder" ;;
lib | run)
    note "begin $name"
    for it in ../*; do [ ! -e "$it/locked" ] || note "waits $name"; : > "$it/locked"; done
    sleep 0.1
    [ "$name" != "$FAILS" ] || { echo goal left; exit 1; }
    mkdir -p out
    if [ "$1" = run ]; then program "out/$name" proved; fi
    if [ "$name" = krb_c ]; then echo of rt > out/libkrb_c.a; fi
    rm -f ../*/locked
    note "end $name" ;;
check)
    note "check $name"
    if diff -r src "$ORIGINAL/crates/$name/src" > /dev/null; then echo "logic=proved"; exit; fi
    cat "$SAYS"; [ -z "$CHANGES" ] || echo "mod more;" >> "$CHANGES"
    exit 1 ;;
ci)
    note "begin ci"
    cat "$SAYS"; [ -z "$CHANGES" ] || echo "mod more;" >> "$CHANGES"
    if [ -n "$CI_AWAITS" ]; then
        for turn in $(seq 600); do
            [ "$(sed '1,/^begin ci$/d' "$NOTES" | grep -c '^end ')" -lt "$CI_AWAITS" ] || break
            sleep 0.5
        done
        sleep 5
    fi
    note "end ci"
    exit "${CI_STATUS:-0}" ;;
esac
'''
# Likewise for the prover: it formats every text, and what it builds follows its word -o, after it has
# given a module to the compiler among its tools.
PROVER = r'''#!/bin/sh
[ "$1" = build ] || exit 0
echo "build $*" >> "$NOTES"
[ "$FAILS" != krb_c ] || { echo goal left; exit 1; }
while [ $# -gt 1 ]; do
    case "$1" in --toolchain) tools=$2 ;; -o) made=$2 ;; --cpu) cpu=$2 ;; esac
    shift
done
[ -z "$cpu" ] || echo "logic=proved cpu=${SAYS_CPU:-$cpu}"
echo a module > "$made.bc"
"$tools/bin/clang" -c "$made.bc" -o "$made.o" && echo of the prover > "$made"
'''
# And for the linker: the program that it makes notes that it is that of a level.
LINKER = r'''#!/bin/sh
while [ "$1" != -o ]; do shift; done
printf '#!/bin/sh\necho levelled "$*" >> "$NOTES"\necho levelled\nexit 3\n' > "$2"
chmod 755 "$2"
'''
# The loader of a machine without AVX2 knows of no x86-64-v3.
WITHOUT_LEVEL = {"GLIBC_TUNABLES": "glibc.cpu.hwcaps=-AVX2_Usable,-AVX2"}
COMPILER = "#!/bin/sh\nexit 0\n"


def write_script(path, text):
    with open(path, "w", encoding="utf-8") as file:
        file.write(text)
    os.chmod(path, 0o755)


def lives(process):
    """Whether there is a process of this number that hasn't ended, of those that scripts of a copy
    start: another one may have the number since."""
    try:
        with open(f"/proc/{process}/stat", encoding="utf-8", errors="replace") as file:
            name, _, rest = file.read().partition("(")[2].rpartition(")")
    except OSError:
        return False
    return name in ("sleep", "setsid", "sh") and rest.split()[0] not in "ZX"


def started(notes):
    """The processes that are noted as started."""
    return [it.removeprefix("started ") for it in notes if it.startswith("started ")]


def are_left(notes):
    """Whether a process lives that is noted as started, also after some seconds."""
    end = time.monotonic() + TO_END
    while time.monotonic() < end:
        if not any(map(lives, started(notes))):
            return False
        time.sleep(0.1)
    return True


def stand_alone():
    """Makes a process the first of a group, and has interrupts end it."""
    os.setpgid(0, 0)
    signal.signal(signal.SIGINT, signal.SIG_DFL)


class Copy:
    """The repository's sources and tools in a folder, and what takes the place of the kit."""

    def __init__(self, folder):
        self.top, self.notes = os.path.join(folder, "copy"), os.path.join(folder, "notes")
        ignored = shutil.ignore_patterns("out", "__pycache__", ".git", "must-fail*",
                                         "mutants.toml")
        shutil.copytree(building.TOP, self.top, ignore=ignored)
        programs = os.path.join(folder, "bin")
        tools = os.path.join(folder, "toolchain")
        os.mkdir(programs)
        os.makedirs(os.path.join(tools, "bin"))
        os.mkdir(os.path.join(tools, "lib"))
        write_script(os.path.join(tools, "bin", "clang"), COMPILER)
        write_script(os.path.join(programs, "rt"), KIT)
        write_script(os.path.join(programs, "rattle"), PROVER)
        write_script(os.path.join(programs, "rattle-link"), LINKER)
        self.given = {**os.environ, **WITHOUT_LEVEL, "NOTES": self.notes, "ORIGINAL": self.top,
                      "PATH": programs + ":" + os.environ["PATH"]}

    def begin(self, words, **given):
        """Begins a tool, with nothing noted, as the first of a process group. An interrupt ends it,
        also where the test ignores interrupts, as what a shell starts in the background does."""
        open(self.notes, "w", encoding="utf-8").close()
        tool, *rest = words.split()
        return subprocess.Popen([self.path(scripts.path_of(tool)), *rest], stdin=subprocess.DEVNULL,
                                stdout=subprocess.PIPE, stderr=subprocess.PIPE, text=True,
                                env={**self.given, **given}, preexec_fn=stand_alone)

    def run(self, words, **given):
        """Runs a tool. Returns its status, output and standard error, and what was noted."""
        with self.begin(words, **given) as ran:
            try:
                out, err = ran.communicate(timeout=LIMIT)
            finally:
                ran.kill()
        return ran.returncode, out, err, self.noted()

    def noted(self):
        """What the tool has called until now, a line each."""
        with open(self.notes, encoding="utf-8", errors="replace") as file:
            return file.read().splitlines()

    def path(self, *parts):
        return os.path.join(self.top, *parts)

    def append(self, text, *parts):
        with open(self.path(*parts), "a", encoding="utf-8") as file:
            file.write(text)
