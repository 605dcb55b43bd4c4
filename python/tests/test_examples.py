"""The examples of python/examples, and `python3 -m krbrelay show`."""
import os
import re
import subprocess
import sys
import unittest

from support import KEYS, KINDS, PYTHON, RECEIVER, TOP, fixtures, frame_of, frames, reader

EXAMPLES = os.path.join(PYTHON, "examples")


def ran(name, *words):
    given = {**os.environ, "PYTHONPATH": PYTHON, "PYTHONDONTWRITEBYTECODE": "1"}
    done = subprocess.run([sys.executable, os.path.join(EXAMPLES, name), *words], env=given,
                          stdin=subprocess.DEVNULL, capture_output=True, text=True)
    return done.returncode, done.stdout, done.stderr


def shown(*words, given=""):
    """What `python3 -m krbrelay show` does with these words."""
    environment = {**os.environ, "PYTHONPATH": PYTHON, "PYTHONDONTWRITEBYTECODE": "1"}
    done = subprocess.run([sys.executable, "-m", "krbrelay", "show", *words], env=environment,
                          input=given, capture_output=True, text=True)
    return done.returncode, done.stdout, done.stderr


def cipher_of(frame):
    """The cipher of a KRB-PRIV, by the independent reader."""
    return reader.private(frame)[2][2]


class Show(unittest.TestCase):
    BODY = "data=446869 time=20231114221320Z usec=5 seq=7 from=2:0a000001"

    def under_key(self, frame, key, *words):
        return shown(frame.hex(), "--key", "-", *words, given=key.hex())

    def test_lines(self):
        for key, mode in KINDS:
            for receiver, to in ((None, "-"), (RECEIVER, "2:0a0000ff")):
                frame = frame_of(key, mode, b"Dhi", receiver=receiver)
                etype, body = 17 if key is KEYS[0] else 18, f"{self.BODY} to={to}"
                fields = (f"PRIV 5 21 etype={etype} kvno=- cipher={cipher_of(frame).hex()}"
                          if mode.name == "PRIV" else
                          f"SAFE 5 20 {body} cksum={etype - 2}:{frame[-12:].hex()}")
                self.assertEqual(shown(frame.hex()), (0, f"{fields}\n", ""))
                for words in ((), ("--etype", str(etype))):
                    self.assertEqual(self.under_key(frame, key, *words),
                                     (0, f"{fields} opened {body}\n", ""))

    def test_what_a_message_leaves_out(self):
        body = frames.body(b"", fixtures.MICROS, 7, fixtures.SENDER, left_out=(0xA1, 0xA2, 0xA3))
        frame = frames.seal_priv(KEYS[1], body, bytes(16))
        status, line, told = self.under_key(frame, KEYS[1])
        self.assertEqual((status, told), (0, ""))
        self.assertTrue(line.endswith(
            " opened data= time=- usec=- seq=- from=2:0a000001 to=-\n"), line)

    def test_refusals(self):
        frame = frame_of(*KINDS[1], b"Dhi")
        self.assertEqual(shown(frame[:-1].hex()), (2, "refused 901 MALFORMED\n", ""))
        status, line, told = self.under_key(frame, bytes(16))
        self.assertEqual((status, told), (2, ""))
        self.assertTrue(line.endswith(" refused 31 BAD_INTEGRITY\n"), line)

    def test_loose_input(self):
        frame = frame_of(*KINDS[1], b"Dhi")
        whole, cut = shown(frame.hex()), f"{frame[:8].hex()}\n{frame[8:].hex()}\n"
        self.assertEqual(whole[0], 0)
        self.assertEqual(shown(given=cut), (2, "refused 901 MALFORMED\n" * 2, ""))
        self.assertEqual(shown("--any", given=cut), whole)
        for text in (frame.hex() + "\r\n", frame.hex(" "), frame.hex(":")):
            self.assertEqual(shown(given=text), (2, "not hexadecimal\n", ""))
            self.assertEqual(shown("--any", given=text), whole)

    def test_what_is_no_message_or_no_key(self):
        """A line says what is wrong, and not where the program met it."""
        frame, key = frame_of(*KINDS[1], b"Dhi").hex(), KEYS[0].hex()
        self.assertEqual(shown("xy"), (2, "not hexadecimal\n", ""))
        for given in ("xy", key[:-1], key[:-2], ""):
            status, written, told = shown(frame, "--key", "-", given=given)
            self.assertEqual((status, written, told.count("\n")), (2, "", 1), told)
        for words, told in ((("--key", os.path.join(PYTHON, "none")), "the file can't be read"),
                            (("--etype", "17"), "--etype is given without --key")):
            self.assertEqual(shown(frame, *words),
                             (2, "", f"krbrelay: bad input: key: {told}\n"))

    def test_words(self):
        """Help and the versions need no library."""
        self.assertEqual(shown("--etype", "19")[0], 2)
        self.assertEqual(shown("--help")[0], 0)
        for word in ("--help", "--version"):
            given = {**os.environ, "PYTHONPATH": PYTHON, "KRBRELAY_LIBRARY": "/none"}
            done = subprocess.run([sys.executable, "-m", "krbrelay", word], env=given,
                                  capture_output=True, text=True, check=False)
            self.assertEqual((done.returncode, done.stderr), (0, ""))
            self.assertIn("krbrelay", done.stdout)


# A sender that ends after four bytes of a frame.
CUT = """
async def send(port):
    _, writer = await asyncio.open_connection("127.0.0.1", port)
    writer.write(({length}).to_bytes(4, "big") + b"half")
    await writer.drain()
    writer.close()
"""


class TwoEnds(unittest.TestCase):
    PRINTED = "message 7: hello\nopen: 42 BADORDER\n"
    BY_ASYNCIO = "hello\nrefused: BADORDER\nagain\nclosed\n"

    def test_it_runs(self):
        self.assertEqual(ran("two_ends.py"), (0, self.PRINTED, ""))

    def test_the_page_quotes_it(self):
        with open(os.path.join(TOP, "docs", "PYTHON.md"), encoding="utf-8") as file:
            page = file.read()
        with open(os.path.join(EXAMPLES, "two_ends.py"), encoding="utf-8") as file:
            self.assertEqual(re.findall(r"^```python\n(.*?)^```", page, re.M | re.S)[0],
                             file.read())
        self.assertIn("".join(f"    {line}\n" for line in self.PRINTED.splitlines()), page)

    def test_the_block_of_the_readme(self):
        """It runs as it is pasted, and prints what stands below it."""
        with open(os.path.join(TOP, "README.md"), encoding="utf-8") as file:
            block, printed = re.search(r"^```python\n((?:.*\n)*?)```\n\n((?:    .*\n)+)", file.read(), re.M).groups()
        done = subprocess.run([sys.executable, "-c", block], capture_output=True, text=True,
                              env={**os.environ, "PYTHONPATH": PYTHON}, stdin=subprocess.DEVNULL)
        self.assertEqual((done.returncode, done.stderr), (0, ""))
        self.assertEqual(done.stdout, re.sub("(?m)^    ", "", printed))

    def test_over_asyncio(self):
        self.assertEqual(ran("two_ends_asyncio.py"), (0, self.BY_ASYNCIO, ""))
        with open(os.path.join(TOP, "docs", "PYTHON.md"), encoding="utf-8") as file:
            self.assertIn("".join(f"    {line}\n" for line in self.BY_ASYNCIO.splitlines()),
                          file.read())

    def test_over_asyncio_a_sender_is_cut_off(self):
        """The example ends and says why: in a frame, and at a length that can't be one."""
        with open(os.path.join(EXAMPLES, "two_ends_asyncio.py"), encoding="utf-8") as file:
            example = file.read()
        for length, fault in ((500, "IncompleteReadError"), (1_005_001, "ConnectionError")):
            cut = CUT.format(length=length)
            self.assertEqual(example.count("\nasyncio.run(main())\n"), 1)
            program = example.replace("\nasyncio.run(main())\n", f"\n{cut}\nasyncio.run(main())\n")
            done = subprocess.run([sys.executable, "-c", program], capture_output=True, text=True,
                                  timeout=30, env={**os.environ, "PYTHONPATH": PYTHON},
                                  stdin=subprocess.DEVNULL)
            self.assertEqual((done.returncode, done.stdout), (1, ""))
            self.assertIn(fault, done.stderr.splitlines()[-1])

    def test_the_page_names_each_call(self):
        import krbrelay
        with open(os.path.join(TOP, "docs", "PYTHON.md"), encoding="utf-8") as file:
            page = file.read()
        for name in krbrelay.__all__:
            self.assertRegex(page, rf"`[^`]*\b{name}\b[^`]*`")
