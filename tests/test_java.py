"""The example in Java runs over an installed library, and its structs are the header's in size."""
import os
import re
import subprocess

import pytest

from lib.build import building, c_tools

EXAMPLE = os.path.join(building.TOP, "c", "examples", "TwoEnds.java")
JNA = "/usr/share/java/jna.jar"
SAID = ["message 7: hello", "open: 42: the sequence number isn't the expected one"]
SIZES = """
public class Sizes {
    public static void main(String[] words) {
        System.out.println(new TwoEnds.Session().size() + " " + new TwoEnds.Expect().size() + " "
                           + new TwoEnds.Moment().size() + " " + new TwoEnds.Handle().size());
    }
}
"""
IN_C = """
#include <krbrelay.h>
#include <stdio.h>
int main(void)
{
    printf("%zu %zu %zu %zu\\n", sizeof(struct krbrelay_session), sizeof(struct krbrelay_expect),
           sizeof(struct krbrelay_moment), sizeof(struct krbrelay_sealer));
    return 0;
}
"""


@pytest.fixture(scope="module")
def classes(tmp_path_factory):
    folder = tmp_path_factory.mktemp("classes")
    (folder / "Sizes.java").write_text(SIZES, encoding="ascii")
    subprocess.run(["javac", "-Xlint:all,-serial", "-Werror", "-cp", JNA, "-d", str(folder), EXAMPLE, str(folder / "Sizes.java")],
                   check=True)
    return folder


def run(classes, prefix, name):
    words = ["java", f"-Djna.library.path={prefix}/lib", "-cp", f"{JNA}:{classes}", name]
    return subprocess.run(words, check=False, capture_output=True, text=True)


def test_the_example_runs(classes, prefix):
    done = run(classes, prefix, "TwoEnds")
    assert (done.returncode, done.stdout.splitlines()) == (0, SAID), done.stderr


def test_structs_have_the_headers_sizes(classes, prefix, tmp_path):
    (tmp_path / "sizes.c").write_text(IN_C, encoding="ascii")
    subprocess.run([*c_tools.c_compiler(), f"-I{prefix}/include", str(tmp_path / "sizes.c"), "-o", str(tmp_path / "sizes")],
                   check=True)
    in_c = subprocess.run([str(tmp_path / "sizes")], check=True, capture_output=True, text=True).stdout
    assert run(classes, prefix, "Sizes").stdout == in_c


def test_fields_are_the_headers():
    """Each struct's fields stand in the header's order."""
    header, text = building.text_of("c/krbrelay.h"), building.text_of("c/examples/TwoEnds.java")
    for fields, name in re.findall(r"FieldOrder\(\{(.*?)\}\)\s+public static class (\w+)", text):
        struct = {"Handle": "sealer"}.get(name, name.lower())
        body = re.sub(r"/\*.*?\*/", "", re.search(rf"struct krbrelay_{struct} \{{(.*?)\}};", header, re.S)[1], flags=re.S)
        assert re.findall(r'"(\w+)"', fields) == re.findall(r"(\w+)(?:\[\d*\w*\])?;", body), name
