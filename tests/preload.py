"""Programs with tests/preload.c in front of the C library: it refuses growths of memory, and counts them and the threads made."""
from __future__ import annotations

import os
import shutil
import struct
import subprocess
from pathlib import Path
from typing import Any, Sequence

from support import ROOT, Word, run

COMPILER = shutil.which(os.environ.get("CC", "cc"))


class Ran:
    """A run that ended, the growths that it asked for, how many of them found no memory, and the threads that it made."""

    def __init__(self, done: subprocess.CompletedProcess[Any], counts: bytes) -> None:
        self.status, self.output, self.errors = done.returncode, done.stdout, done.stderr
        self.growths, self.refused, self.threads = struct.unpack("=3Q", counts)


class Preload:
    """A folder with the library, in which programs run one at a time. Without a C compiler they run alone, and nothing is counted."""

    def __init__(self, room: Path) -> None:
        self.library, self.counts = room / "preload.so", room / "counts"
        self.counts.write_bytes(bytes(24))
        if COMPILER:
            subprocess.run([COMPILER, "-O2", "-shared", "-fPIC", "-o", self.library, ROOT / "tests/preload.c"], check=True)

    def run(self, words: Sequence[Word], given: Any = "", refuse: int = 0, length: int = 1) -> Ran:
        """Runs a program with the growth of this number refused, or `length` growths from it on; 0 is none."""
        names = {"LD_PRELOAD": self.library, "COUNTS": self.counts, "REFUSE": refuse, "LENGTH": length} if COMPILER else {}
        done = run(words, given, env={**os.environ, **{name: str(value) for name, value in names.items()}})
        return Ran(done, self.counts.read_bytes())
