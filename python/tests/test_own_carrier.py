"""python/examples/own_carrier.py: each text once and in order, though both ends are killed, and though
another receiver, a repeated frame and junk come."""
import os
import random
import shutil
import subprocess
import sys
import tempfile
import time
import unittest

from support import PYTHON

PROGRAM = os.path.join(PYTHON, "examples", "own_carrier.py")
GIVEN = {**os.environ, "PYTHONPATH": PYTHON, "PYTHONDONTWRITEBYTECODE": "1"}
WAIT = 60           # seconds until a sender has to be through, also where it has to probe


class OwnCarrier(unittest.TestCase):
    def setUp(self):
        self.top = tempfile.TemporaryDirectory()
        self.addCleanup(self.top.cleanup)
        self.folder, self.running = os.path.join(self.top.name, "carrier"), []
        self.addCleanup(self.end_all)

    def begin(self, command, *words):
        process = subprocess.Popen([sys.executable, PROGRAM, command, self.folder, *words], env=GIVEN,
                                   stdin=subprocess.DEVNULL, stdout=subprocess.PIPE,
                                   stderr=subprocess.PIPE, text=True)
        self.running.append(process)
        return process

    def end_all(self):
        for process in self.running:
            process.kill()
            process.communicate()

    def ran(self, command, *words):
        process = self.begin(command, *words)
        written, said = process.communicate(timeout=WAIT)
        self.assertEqual((process.returncode, said), (0, ""))
        return written

    def kill_soon(self, generator, command):
        """Begins an end, and kills it after some hundredths of a second. Whether it was killed."""
        process = self.begin(command)
        time.sleep(generator.uniform(0.1, 0.3))
        process.kill()
        self.assertEqual(process.communicate()[1], "")
        return process.returncode == -9

    def shown(self):
        return self.ran("show").splitlines()

    def test_both_ends_are_killed(self):
        generator, kills = random.Random(7), 0
        texts = [f"text {number}" for number in range(400)]
        for start in range(0, 400, 40):
            self.ran("put", *texts[start:start + 40])
            kills += self.kill_soon(generator, "send") + self.kill_soon(generator, "receive")
            self.assertEqual(self.shown(), texts[:len(self.shown())])
        receiver = self.begin("receive")
        self.ran("send")
        self.assertEqual(self.shown(), texts)
        self.assertGreater(kills, 10)
        self.assertIsNone(receiver.poll())

    def test_two_receivers_repeats_and_junk(self):
        self.ran("put", "one", "two", "three")
        self.begin("receive")
        self.ran("send")
        for name, content in ("000000004", b"junk"), ("000000005", b""):
            with open(os.path.join(self.folder, name), "wb") as file:
                file.write(content)
        shutil.copy(os.path.join(self.folder, "000000001"), os.path.join(self.folder, "000000006"))
        self.begin("receive")
        self.ran("put", "four", "five")
        self.ran("send")
        self.assertEqual(self.shown(), ["one", "two", "three", "four", "five"])

    def test_an_older_copy_of_the_outbox_is_stopped(self):
        self.ran("put", "one")
        self.begin("receive")
        self.ran("send")
        shutil.copy(os.path.join(self.folder, "outbox.db"), self.top.name)
        self.ran("put", "two")
        self.ran("send")
        shutil.copy(os.path.join(self.top.name, "outbox.db"), self.folder)
        self.ran("put", "another two")
        process = self.begin("send")
        self.assertIn("stopped: ", process.communicate(timeout=WAIT)[1])
        self.assertEqual((process.returncode, self.shown()), (1, ["one", "two"]))


if __name__ == "__main__":
    unittest.main()
