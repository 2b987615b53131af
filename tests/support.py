"""What tests share: where things are, processes with bounds, and what a machine has."""
from __future__ import annotations

import importlib.machinery
import importlib.util
import os
import resource
import shutil
import subprocess
import sys
import tempfile
import unittest
from pathlib import Path
from types import ModuleType
from typing import Any, ClassVar, Sequence, Union

sys.dont_write_bytecode = True
ROOT = Path(__file__).resolve().parent.parent
sys.path[:0] = [str(ROOT / "tools"), str(ROOT / "ground")]
PROGRAM = Path(os.environ.get("OCP_PROGRAM", ROOT / "crates/ocp/out/ocp")).resolve()
# The programs of library calls, and of the calls of seats. `rt ci` leaves them here, and so does `rt run` in their folders.
LIBRARY = Path(os.environ.get("OCP_LIBRARY", ROOT / "crates/lib_driver/out/lib_driver")).resolve()
LOCK = Path(os.environ.get("OCP_LOCK", ROOT / "crates/lock_driver/out/lock_driver")).resolve()
SECONDS = 60  # that a process may take, if its caller says nothing
Word = Union[str, int, Path]


def run(words: Sequence[Word], given: Any = "", seconds: float = SECONDS, **more: Any) -> subprocess.CompletedProcess[Any]:
    """Runs a program with a text or octets as its standard input, and keeps what it writes in the same form. A program that takes
    longer than `seconds` fails the test."""
    return subprocess.run([str(word) for word in words], input=given, capture_output=True, text=isinstance(given, str),
                          timeout=seconds, check=False, **more)


def ocp(words: Sequence[Word], given: Any = "", **more: Any) -> subprocess.CompletedProcess[Any]:
    """Runs the built console."""
    if not PROGRAM.is_file():
        raise AssertionError(f"the program is not built: {PROGRAM}. ./ocp build proves and builds it.")
    return run([PROGRAM, *words], given, **more)


def module_of(path: Path) -> ModuleType:
    """A script without ending, as a module."""
    loader = importlib.machinery.SourceFileLoader(path.name, str(path))
    spec = importlib.util.spec_from_loader(path.name, loader)
    assert spec is not None
    module = importlib.util.module_from_spec(spec)
    loader.exec_module(module)
    return module


def small_files(octets: int = 4096) -> None:
    """As on a full disk: no file takes more than these octets. A process begins with this."""
    resource.setrlimit(resource.RLIMIT_FSIZE, (octets, octets))


def is_alive(number: int | str) -> bool:
    """Whether a process runs; one that ended and that nobody waited for does not."""
    status = Path(f"/proc/{number}/stat")
    return status.exists() and ") Z " not in status.read_text()


def needs(*programs: str) -> Any:
    """Skips a test, or a class, without one of these programs, and names it with its Debian package, which `tools/setup` installs."""
    packages = {sign: package for package, (sign, _) in module_of(ROOT / "tools/setup").PACKAGES.items()}
    missing = [f"{name} (Debian: {packages[name]})" if name in packages else name for name in programs if not shutil.which(name)]
    return unittest.skipIf(missing, f"no {' and no '.join(missing)}")


def needs_built(program: Path) -> Any:
    """Skips a test, or a class, if a driver of calls is not built: ./ocp build leaves them out."""
    return unittest.skipUnless(program.is_file(), f"{program.name} is not built: tools/prove crates/{program.name}, or rt ci")


class Case(unittest.TestCase):
    """A group of tests that run one after another; groups run side by side."""

    seconds: ClassVar[int] = 5  # that the group takes on an idle machine: the longest begin first
    maxDiff = 2000

    def room(self) -> Path:
        """A folder of the test's own, which is removed after it."""
        folder = tempfile.TemporaryDirectory()
        self.addCleanup(folder.cleanup)
        return Path(folder.name)

    def passes(self, words: Sequence[Word], seconds: float = SECONDS, **more: Any) -> str:
        """Runs a program that tests by itself, and fails with what it wrote if its status is not 0."""
        done = run(words, seconds=seconds, **more)
        if done.returncode != 0:
            self.fail(f"{words[0]}: status {done.returncode}\n{done.stdout[-4000:]}{done.stderr[-4000:]}")
        for line in (done.stdout + done.stderr).splitlines():
            if "skipped" in line and ", 0 skipped" not in line:
                print(f"skipped: {line}")
        return str(done.stdout)

    def writes(self, wanted: bytes, words: Sequence[Word], given: bytes) -> None:
        """Runs a program that has to write these octets. No memory is refused, so it may not answer Memory."""
        done = run(words, given)
        self.assertEqual(done.stdout.decode("latin-1"), wanted.decode("latin-1"), done.stderr.decode("latin-1"))
        self.assertNotRegex(wanted.decode("latin-1"), r"\bMemory\b")

    def follows(self, folder: Path, program: Path = PROGRAM) -> None:
        """Runs the cases of a folder: NAME is what the program reads, NAME.args has its words, one a line, NAME.stdout what it writes."""
        cases = [path.with_name(path.name[:-len(".stdout")]) for path in sorted(folder.glob("*.stdout"))]
        self.assertTrue(cases, f"{folder} has no cases")
        for case in cases:
            words = Path(f"{case}.args")
            with self.subTest(case.name):
                self.writes(Path(f"{case}.stdout").read_bytes(), [program, *(words.read_text().splitlines() if words.exists() else [])],
                            case.read_bytes())
