"""The runner of tests and `tools/setup`: how they end, what they count, and that nothing is left running."""
import os
import shutil
import signal
import subprocess
import time
from unittest import mock

from support import ROOT, Case, is_alive, module_of, run

GROUPS = '''
import os, pathlib, subprocess, unittest
class Good(unittest.TestCase):
    def test_table(self):
        for row in range(3):
            with self.subTest(row): pass
    def test_one(self):
        print("skipped: a part, no tool")
    @unittest.skip("no program")
    def test_other(self): pass
class Bad(unittest.TestCase):
    def test_table(self):
        for row in range(3):
            with self.subTest(row): self.assertNotEqual(row, 1)
    def test_wrong(self):
        raise ValueError("wrong")
class Dies(unittest.TestCase):
    def test_dies(self):
        os._exit(5)
class Sleeps(unittest.TestCase):
    seconds = SECONDS
    def test_sleeps(self):
        child = subprocess.Popen(["sleep", "600"])
        pathlib.Path("sleeper").write_text(str(child.pid))
        child.wait()
'''
# Groups, how their run ends, and what it says.
RUNS = [(["all.Good"], 0, "4 passed, 0 failed, 2 skipped",
         ["skipped all.Good: a part, no tool\n", "skipped test_all.Good.test_other: no program\n"]),
        (["all.Good.test_one", "all.Bad"], 1, "3 passed, 2 failed, 1 skipped",
         ["failed test_all.Bad.test_table [1]\n", "ValueError: wrong\n"]),
        (["all.Dies"], 1, "0 passed, 1 failed, 0 skipped", ["status 5\n"]),
        (["all.Sleeps"], 1, "0 passed, 1 failed, 0 skipped", ["it took more than 2.0 s\n"])]


class Runner(Case):
    seconds = 10

    def setUp(self):
        self.tests = self.room() / "tests"
        self.sleeper = self.tests.parent / "sleeper"
        self.tests.mkdir()
        shutil.copy(ROOT / "tests/run", self.tests)
        self.write(-5.8)

    def write(self, seconds):
        (self.tests / "test_all.py").write_text(GROUPS.replace("SECONDS", str(seconds)))

    def sleeper_runs(self):
        """Whether the process that a group started runs."""
        return is_alive(self.sleeper.read_text())

    def test_counts(self):
        for words, status, last, lines in RUNS:
            with self.subTest(words):
                done = run([self.tests / "run", *words])
                self.assertEqual((done.returncode, done.stdout.splitlines()[-1]), (status, last))
                self.assertEqual([line for line in lines if line not in done.stdout], [])
        self.assertFalse(self.sleeper_runs())

    def test_names_and_the_program(self):
        self.assertEqual(run([self.tests / "run", "nothing"]).returncode, 2)
        done = run([self.tests / "run"], env={**os.environ, "OCP_PROGRAM": "/nowhere/ocp"})
        self.assertEqual((done.returncode, done.stderr[:36]), (3, "test: the program is not built: /now"))

    def test_an_interruption_ends_all(self):
        self.write(5)
        for number in (signal.SIGINT, signal.SIGTERM):
            with self.subTest(number):
                self.sleeper.write_text("")
                words = [self.tests / "run", "all.Sleeps"]
                with subprocess.Popen(words, stdout=subprocess.PIPE, stderr=subprocess.PIPE, text=True) as child:
                    while not self.sleeper.read_text():
                        time.sleep(0.05)
                    child.send_signal(number)
                    _, said = child.communicate(timeout=20)
                self.assertEqual((child.returncode, said), (128 + number, f"test: interrupted by {signal.Signals(number).name}\n"))
                self.assertFalse(self.sleeper_runs())


class Setup(Case):
    def setUp(self):
        self.tool, self.bin = module_of(ROOT / "tools/setup"), self.room()
        packages = {"nothing": ("no-such-program", "a test"), "shell": ("sh", "a test")}
        changes: list = [mock.patch.dict(self.tool.PACKAGES, packages, clear=True), mock.patch("os.geteuid", return_value=0),
                         mock.patch.dict(os.environ, PATH=f"{self.bin}:{os.environ['PATH']}")]
        for change in changes:
            change.start()
            self.addCleanup(change.stop)

    def test_without_apt(self):
        self.assertEqual(self.tool.missing(), ["nothing"])
        with mock.patch.dict(os.environ, PATH=str(self.bin)):
            self.assertEqual(self.tool.install(["nothing"]), "there is no apt-get")

    def test_a_mirror_that_hangs(self):
        for name, text in (("apt-get", "sleep 600"), ("apt-cache", "exit 0")):
            (self.bin / name).write_text(f"#!/bin/sh\n{text}\n")
            (self.bin / name).chmod(0o755)
        with mock.patch.object(self.tool, "SECONDS", 1):
            self.assertEqual(self.tool.install(["nothing"]), "apt-get took too long")

    def test_a_list_of_all(self):
        done = run([ROOT / "tools/setup", "--list"])
        self.assertEqual((done.returncode, "\nvalgrind " in done.stdout), (0, True))
        self.assertEqual(run([ROOT / "tools/setup", "--other"]).returncode, 2)
