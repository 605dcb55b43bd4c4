"""The package's sources: for Python 3.9, typed, with docstrings, and with no need but the interpreter."""
import ast
import glob
import importlib.metadata
import os
import py_compile
import shutil
import subprocess
import sys
import tarfile
import tempfile
import unittest

from support import PYTHON, TOP

import krbrelay
from krbrelay import library

PACKAGE = os.path.join(PYTHON, "krbrelay")
SOURCES = sorted(os.path.join(folder, name) for part in ("krbrelay", "backend", "examples")
                 for folder, _, names in os.walk(os.path.join(PYTHON, part))
                 for name in names if name.endswith(".py"))


def text_of(path):
    with open(path, encoding="utf-8") as file:
        return file.read()


class Sources(unittest.TestCase):
    def test_they_compile(self):
        with tempfile.TemporaryDirectory() as folder:
            for path in SOURCES:
                py_compile.compile(path, os.path.join(folder, "it.pyc"), doraise=True)

    def test_they_are_of_python_3_9(self):
        for path in SOURCES:
            ast.parse(text_of(path), path, feature_version=(3, 9))

    def test_they_need_the_interpreter_alone(self):
        """What is imported is the package's own, or there in an interpreter with no packages; of one
        example, which says so, Debian's python3-gssapi."""
        names = set()
        for path in SOURCES:
            for node in ast.walk(ast.parse(text_of(path))):
                if isinstance(node, ast.Import):
                    names.update(it.name for it in node.names)
                elif isinstance(node, ast.ImportFrom):
                    names.add(node.module)
        others = sorted(it for it in names if it.split(".")[0] not in ("krbrelay", "gssapi"))
        ran = subprocess.run([sys.executable, "-I", "-S", "-c", "import " + ", ".join(others)],
                             capture_output=True, text=True)
        self.assertEqual((ran.returncode, ran.stderr), (0, ""))

    def test_lines(self):
        for path in [*SOURCES, os.path.join(PYTHON, "tests", "bench.py")]:
            for line in text_of(path).split("\n"):
                self.assertLessEqual(len(line), 100, path)

    def test_what_is_public_has_a_docstring(self):
        for name in krbrelay.__all__:
            it = getattr(krbrelay, name)
            if isinstance(it, type):
                self.assertTrue(it.__doc__, name)
                for member, value in vars(it).items():
                    if callable(value) and not member.startswith("_"):
                        self.assertTrue(value.__doc__, f"{name}.{member}")
            elif callable(it) and it.__module__.startswith("krbrelay"):
                self.assertTrue(it.__doc__, name)

    @unittest.skipUnless(shutil.which("mypy"), "there is no mypy here")
    def test_types(self):
        with tempfile.TemporaryDirectory() as folder:
            ran = subprocess.run(["mypy", "--strict", "--cache-dir", folder, PACKAGE],
                                 capture_output=True, text=True)
        self.assertEqual(ran.returncode, 0, ran.stdout)

    def test_it_is_typed(self):
        self.assertTrue(os.path.exists(os.path.join(PACKAGE, "py.typed")))


class Documents(unittest.TestCase):
    def test_each_field_of_a_value_is_documented(self):
        text = text_of(os.path.join(TOP, "docs", "PYTHON.md"))
        for name in krbrelay.__all__:
            it = getattr(krbrelay, name)
            fields = getattr(it, "_fields", None) or getattr(it, "__dataclass_fields__", ())
            for field in fields:
                row = [line for line in text.split("\n")
                       if line.startswith("  | ") and f"`{name}`" in line]
                self.assertEqual(len(row), 1, name)
                self.assertIn(f"`{field}`", row[0], name)


def has_pip():
    return subprocess.run([sys.executable, "-m", "pip", "--version"], capture_output=True,
                          stdin=subprocess.DEVNULL).returncode == 0


def copy_to(folder):
    """A copy of the project in a folder, with the licence above it."""
    copied = os.path.join(folder, "python")
    shutil.copytree(PYTHON, copied, ignore=shutil.ignore_patterns("__pycache__", "tests"))
    for path in glob.glob(os.path.join(TOP, "LICENSE*")):
        shutil.copy(path, folder)
    return copied


def built(copied, kind, settings=None):
    """What the project's backend makes: its path."""
    place = os.path.join(copied, "backend")
    code = f"import wheel_backend as it; print(it.{kind}('.', {settings!r}))"
    ran = subprocess.run([sys.executable, "-c", code], cwd=place, capture_output=True, text=True,
                         check=True)
    return os.path.join(place, ran.stdout.strip())


class Building(unittest.TestCase):
    def test_the_version_is_one(self):
        self.assertIn(f'version = "{krbrelay.__version__}"\n',
                      text_of(os.path.join(PYTHON, "pyproject.toml")))

    def test_the_source_archive_describes_itself(self):
        with tempfile.TemporaryDirectory() as folder:
            with tarfile.open(built(copy_to(folder), "build_sdist")) as archive:
                stem = f"krbrelay-{krbrelay.__version__}"
                names = {name.partition("/")[2] for name in archive.getnames()}
                described = archive.extractfile(f"{stem}/PKG-INFO").read().decode()
        self.assertLessEqual({"LICENSE", "LICENSE-APACHE", "LICENSE-KIT", "LICENSE-MIT",
                              "PKG-INFO", "README.md", "backend/wheel_backend.py",
                              "krbrelay/__init__.py", "krbrelay/py.typed", "pyproject.toml"}, names)
        self.assertIn(f"\nVersion: {krbrelay.__version__}\n", described)

    def test_the_same_files_give_the_same_bytes(self):
        made = []
        for moment in (1_000_000_000, 1_700_000_000):
            with tempfile.TemporaryDirectory() as folder:
                copied = copy_to(folder)
                for path in glob.glob(os.path.join(folder, "**"), recursive=True):
                    os.utime(path, (moment, moment))
                for kind in ("build_sdist", "build_wheel"):
                    with open(built(copied, kind), "rb") as file:
                        made.append(file.read())
        self.assertEqual(made[:2], made[2:])

    def test_no_wheel_is_built_without_the_licence(self):
        with tempfile.TemporaryDirectory() as folder:
            copied = copy_to(folder)
            os.remove(os.path.join(folder, "LICENSE-MIT"))
            self.assertRaises(subprocess.CalledProcessError, built, copied, "build_wheel")
            self.assertEqual(glob.glob(os.path.join(folder, "**", "*.whl"), recursive=True), [])


@unittest.skipUnless(has_pip(), "there is no pip here")
class Installing(unittest.TestCase):
    def install(self, *words):
        ran = subprocess.run([sys.executable, "-m", "pip", "install", "--no-index", "--quiet",
                              "--disable-pip-version-check", *words],
                             stdin=subprocess.DEVNULL, capture_output=True, text=True)
        self.assertEqual(ran.returncode, 0, ran.stderr)

    def test_what_is_installed_describes_itself(self):
        with tempfile.TemporaryDirectory() as folder:
            target = os.path.join(folder, "installed")
            self.install("--target", target, built(copy_to(folder), "build_sdist"))
            found, = importlib.metadata.distributions(path=[target])
            described = found.metadata
            self.assertEqual(found.version, krbrelay.__version__)
            self.assertEqual(described["License"], "Apache-2.0 OR MIT")
            self.assertEqual(described["Author"], "The authors of krbrelay")
            self.assertIn("Typing :: Typed", described.get_all("Classifier"))
            self.assertIn("# krbrelay\n", described.get_payload() or described["Description"])
            self.assertIn("SPDX-License-Identifier", found.read_text("LICENSE"))
            self.assertIn("Version 2.0, January 2004", found.read_text("LICENSE-APACHE"))

    def test_an_editable_install_is_the_folder(self):
        with tempfile.TemporaryDirectory() as folder:
            copied, prefix = copy_to(folder), os.path.join(folder, "prefix")
            self.install("--prefix", prefix, "--editable", copied)
            place, = glob.glob(os.path.join(prefix, "**", "krbrelay.pth"), recursive=True)
            code = (f"import site; site.addsitedir({os.path.dirname(place)!r})\n"
                    "import krbrelay; print(krbrelay.__file__)")
            ran = subprocess.run([sys.executable, "-I", "-c", code], cwd=folder,
                                 capture_output=True, text=True)
            init = os.path.join(os.path.realpath(copied), "krbrelay", "__init__.py")
            self.assertEqual(ran.stdout, f"{init}\n", ran.stderr)

    def test_a_wheel_with_the_library_is_enough(self):
        """It is installed by its name alone, and finds its own library, that of x86-64-v3 too."""
        with tempfile.TemporaryDirectory() as folder:
            libraries, target = os.path.join(folder, "lib"), os.path.join(folder, "installed")
            names = [f"glibc-hwcaps/x86-64-v3/{library.NAME}", library.NAME]
            for name in names:
                os.makedirs(os.path.dirname(os.path.join(libraries, name)), exist_ok=True)
                shutil.copy(library.library()._name, os.path.join(libraries, name))
            platform = f"manylinux_2_25_{os.uname().machine}"
            settings = {"library": libraries, "platform": platform}
            wheel = built(copy_to(folder), "build_wheel", settings)
            self.assertTrue(wheel.endswith(f"-py3-none-{platform}.whl"), wheel)
            self.install("--target", target, wheel)
            ran = subprocess.run([sys.executable, "-c", "import krbrelay.library as it; "
                                  "print(it.find(), it.library_version()[0])"], cwd=folder,
                                 env={"PYTHONPATH": target}, capture_output=True, text=True)
            places = [f"{os.path.join(target, 'krbrelay', name)} 1\n" for name in names]
            self.assertIn(ran.stdout, places, ran.stderr)

    def test_pip_installs_it(self):
        with tempfile.TemporaryDirectory() as folder:
            copied, target = copy_to(folder), os.path.join(folder, "installed")
            self.install("--target", target, copied)
            installed = os.path.join(target, "krbrelay")
            names = {it for it in os.listdir(PACKAGE) if it != "__pycache__"}
            self.assertEqual(names, set(os.listdir(installed)) - {"__pycache__"})
            self.assertIn("krbrelay-1.1.0.dist-info", os.listdir(target))
            given = {**os.environ, "PYTHONPATH": target,
                     "KRBRELAY_LIBRARY": library.library()._name}
            ran = subprocess.run([sys.executable, "-c", "import krbrelay; "
                                  "print(krbrelay.__file__, krbrelay.library_version()[0])"],
                                 cwd=folder, env=given, capture_output=True, text=True)
            self.assertEqual(ran.stdout, f"{os.path.join(installed, '__init__.py')} 1\n",
                             ran.stderr)
