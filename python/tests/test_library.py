"""Where the package looks for libkrbrelay, and in which order."""
import ctypes
import os
import re
import shutil
import subprocess
import sys
import tempfile
import unittest
from unittest import mock

from support import PYTHON, TOP

import krbrelay
from krbrelay import library

SAYS_ITS_PLACE = ("import krbrelay.library as it; print(it.find(), it.library_version())")


class Places(unittest.TestCase):
    """The library is found in each place, in the order of the places."""

    def setUp(self):
        self.folder = tempfile.TemporaryDirectory()
        self.addCleanup(self.folder.cleanup)
        self.top = self.folder.name
        shutil.copytree(os.path.join(PYTHON, "krbrelay"), self.path("site/lib/krbrelay"),
                        ignore=shutil.ignore_patterns("__pycache__"))

    def path(self, name):
        return os.path.join(self.top, name)

    def copy_to(self, name):
        """A copy of the library under this name."""
        os.makedirs(os.path.dirname(self.path(name)), exist_ok=True)
        shutil.copy(library.library()._name, self.path(name))
        return self.path(name)

    def says(self, **environment):
        """What a program says that uses the copied package."""
        given = {name: value for name, value in os.environ.items()
                 if name not in ("KRBRELAY_LIBRARY", "PKG_CONFIG_PATH", "LD_LIBRARY_PATH")}
        given.update(environment, PYTHONPATH=self.path("site/lib"), PYTHONDONTWRITEBYTECODE="1")
        ran = subprocess.run([sys.executable, "-c", SAYS_ITS_PLACE], cwd=self.top, env=given,
                             stdout=subprocess.PIPE, stderr=subprocess.STDOUT, text=True,
                             stdin=subprocess.DEVNULL)
        return ran.stdout.strip()

    def test_the_variable_comes_first(self):
        place = self.copy_to("named/of-another-name.so")
        self.copy_to(f"site/lib/krbrelay/{library.NAME}")
        self.assertEqual(self.says(KRBRELAY_LIBRARY=place), f"{place} (1, 1, 0)")

    def test_beside_the_package(self):
        place = self.copy_to(f"site/lib/krbrelay/{library.NAME}")
        self.assertEqual(self.says(), f"{place} (1, 1, 0)")

    def test_of_the_loaders_level(self):
        plain = self.copy_to(f"site/lib/krbrelay/{library.NAME}")
        folder = "site/lib/krbrelay/glibc-hwcaps"
        self.copy_to(f"{folder}/x86-64-v9/{library.NAME}")
        self.assertEqual(self.says(), f"{plain} (1, 1, 0)")
        for level in reversed(library.levels()):
            place = self.copy_to(f"{folder}/{level}/{library.NAME}")
            self.assertEqual(self.says(), f"{place} (1, 1, 0)")

    @unittest.skipUnless(library.levels(), "the system's loader has no levels of a processor")
    def test_of_no_level_that_the_loader_leaves_out(self):
        place = self.copy_to(f"site/lib/krbrelay/{library.NAME}")
        self.copy_to(f"site/lib/krbrelay/glibc-hwcaps/x86-64-v3/{library.NAME}")
        self.assertEqual(self.says(GLIBC_TUNABLES="glibc.cpu.hwcaps=-AVX2_Usable,-AVX2"),
                         f"{place} (1, 1, 0)")

    def test_where_the_repository_builds_it(self):
        place = self.copy_to(f"site/out/c_library/{library.NAME}")
        self.assertEqual(self.says(), f"{place} (1, 1, 0)")
        self.assertIn(os.path.join(TOP, "out", "c_library", library.NAME), library.places())

    @unittest.skipUnless(shutil.which("pkg-config"), "there is no pkg-config here")
    def test_by_pkg_config(self):
        place = self.copy_to(f"prefix/lib/{library.NAME}")
        self.by_pkg_config(place)
        for level in library.levels()[:1]:
            self.by_pkg_config(self.copy_to(f"prefix/lib/glibc-hwcaps/{level}/{library.NAME}"))

    def by_pkg_config(self, place):
        """What is found at a prefix is this place."""
        os.makedirs(self.path("prefix/lib/pkgconfig"), exist_ok=True)
        with open(self.path("prefix/lib/pkgconfig/krbrelay.pc"), "w", encoding="utf-8") as file:
            file.write(f"prefix={self.path('prefix')}\nlibdir=${{prefix}}/lib\n\nName: krbrelay\n"
                       "Description: a test\nVersion: 1.1.0\n")
        self.assertEqual(self.says(PKG_CONFIG_PATH=self.path("prefix/lib/pkgconfig")),
                         f"{place} (1, 1, 0)")

    def test_by_the_loader(self):
        self.copy_to(f"other/{library.NAME}")
        self.assertEqual(self.says(LD_LIBRARY_PATH=self.path("other")),
                         f"{library.NAME} (1, 1, 0)")

    def test_nowhere(self):
        said = self.says()
        if library.NAME in said and "(1, 1, 0)" in said:
            self.skipTest("the system's loader finds an installed library")
        self.assertRegex(said, r"LibraryError: libkrbrelay can't be loaded: .*make -C c "
                               r"install PREFIX=PREFIX.*KRBRELAY_LIBRARY=")

    def test_the_variable_names_none(self):
        self.copy_to(f"site/lib/krbrelay/{library.NAME}")
        self.assertIn("LibraryError", self.says(KRBRELAY_LIBRARY=self.path("absent.so")))
        self.assertIn("LibraryError", self.says(KRBRELAY_LIBRARY=self.top))


class Loading(unittest.TestCase):
    def test_another_major_version(self):
        for number, found in ((0x000900, "0.9.0"), (0x020103, "2.1.3")):
            fake = mock.Mock(spec=list(library.CALLS))
            fake.krbrelay_version = mock.Mock(return_value=number)
            with mock.patch.object(ctypes, "CDLL", return_value=fake):
                self.assertRaisesRegex(krbrelay.LibraryError, f"libkrbrelay {found}", library.load, "a.so")

    def test_another_library(self):
        self.assertRaisesRegex(krbrelay.LibraryError, "has no call krbrelay_", library.load, "libc.so.6")

    def test_it_is_an_os_error(self):
        self.assertTrue(issubclass(krbrelay.LibraryError, OSError))


class TheHeader(unittest.TestCase):
    """The calls, structs and numbers are those of krbrelay.h."""

    @classmethod
    def setUpClass(cls):
        with open(os.path.join(TOP, "c", "krbrelay.h"), encoding="utf-8") as file:
            cls.text = re.sub(r"/\*.*?\*/", "", file.read(), flags=re.S)

    # What Python has itself, or has no use for.
    UNUSED = {f"krbrelay_{name}" for name in (
        "opener_unseal_in_place", "now", "sealer_seal_now", "sealer_seal_record_now",
        "peer_seal_now", "sealer_seal_many_now", "peer_seal_many_now", "receiver_take", "address_from", "is_refusal", "is_supported",
        "clear_stack", "progress_new", "progress_store", "progress_publish", "progress_confirm",
        "progress_rewind", "strerror")}

    def test_calls(self):
        declared = set(re.findall(r"^(?:enum \w+ |\w+ |const char \*)(krbrelay_\w+)\(", self.text, re.M))
        self.assertEqual(declared - set(library.CALLS), self.UNUSED)
        self.assertEqual(set(library.CALLS) - declared, set())

    def test_answers(self):
        numbers = dict(re.findall(r"^    KRBRELAY_(\w+) = (\d+)", self.text, re.M))
        for code in krbrelay.Code:
            self.assertEqual(numbers[code.name], str(code.value))
        for mode in krbrelay.Mode:
            self.assertEqual(numbers[mode.name], str(mode.value))
        for how in krbrelay.How:
            self.assertEqual(numbers[how.name], str(how.value))

    def test_limits(self):
        limits = dict(re.findall(r"^#define KRBRELAY_(\w+) (\d+)\b", self.text, re.M))
        for name in ("USER_DATA_LIMIT", "FRAME_LIMIT", "ADDRESS_LIMIT"):
            self.assertEqual(str(getattr(krbrelay, name)), limits[name])
        for name in ("TEXT_SIZE", "PEER_STATE_SIZE", "HISTORY_SIZE"):
            self.assertEqual(str(getattr(library, name)), limits[name])
        self.assertEqual(str(library.MAJOR), limits["VERSION_MAJOR"])

    @unittest.skipUnless(shutil.which("cc") or shutil.which("gcc"), "there is no C compiler here")
    def test_layouts(self):
        """Each struct has the size and the places of fields that a C compiler gives it."""
        structs = {"moment": library.MomentStruct, "address": library.AddressStruct,
                   "session": library.SessionStruct, "expect": library.ExpectStruct,
                   "demand": library.DemandStruct, "carried": library.CarriedStruct,
                   "header": library.HeaderStruct, "sealer": library.HandleStruct,
                   "opener": library.HandleStruct, "receiver": library.HandleStruct,
                   "peer": library.HandleStruct}
        told = [(f"sizeof(struct krbrelay_{name})", ctypes.sizeof(struct))
                for name, struct in structs.items()]
        told += [(f"offsetof(struct krbrelay_{name}, {field})", getattr(struct, field).offset)
                 for name, struct in structs.items() for field, *_ in struct._fields_]
        with tempfile.TemporaryDirectory() as folder:
            source = os.path.join(folder, "layout.c")
            with open(source, "w", encoding="utf-8") as file:
                file.write('#include "krbrelay.h"\n' + "".join(
                    f'_Static_assert({what} == {number}, "{what}");\n' for what, number in told))
            compiler = shutil.which("cc") or shutil.which("gcc")
            ran = subprocess.run([compiler, "-std=c11", "-fsyntax-only",
                                  "-I" + os.path.join(TOP, "c"), source],
                                 capture_output=True, text=True)
        self.assertEqual((ran.returncode, ran.stderr), (0, ""))
