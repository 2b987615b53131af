"""`./ocp install` and `./ocp uninstall`: what they write and take back, also where a disk is full, a PREFIX is bad, or they are killed."""
from __future__ import annotations

import os
import shutil
import signal
import subprocess
import time
from pathlib import Path
from typing import ClassVar

from clones import built, stamp
from support import ROOT, Case, needs, run, small_files

FILES = ["bin/ocp", "include/ocp.h", "include/ocp_engine.h", "include/ocp_heap.h", "include/ocp_journal.h", "include/ocp_octets.h",
         "lib/aarch64-unknown-linux-gnu/libocp_c.a", "lib/libocp_c.a", "lib/pkgconfig/ocp_c.pc", "share/bash-completion/completions/ocp",
         "share/man/man1/ocp.1", "share/ocp/heap.c", "share/ocp/installed"]
LIBRARY = ROOT / "crates/ocp_c/out/libocp_c.a"


def files_below(folder: Path) -> list[str]:
    return sorted(str(it.relative_to(folder)) for it in folder.rglob("*") if it.is_file())


@needs("rt")
class Install(Case):
    seconds = 30
    here: ClassVar[Path]

    def setUp(self) -> None:
        self.folder = self.room()
        self.clone = built(self.folder / "clone")
        self.prefix = self.folder / "a prefix"

    def ocp(self, *words: str | Path, status: int = 0, said: str = "", **more: object) -> str:
        """Runs ./ocp in the clone: this status, and in standard error one line with this text, or nothing."""
        done = run([self.clone / "ocp", *words], **more)
        self.assertEqual(done.returncode, status, done.stderr)
        self.assertIn(said, done.stderr)
        self.assertLessEqual(done.stderr.count("\n"), 1 if said else 0, done.stderr)
        return str(done.stdout)

    def test_what_is_written_is_taken_back(self) -> None:
        printed = self.ocp("install", self.prefix)
        self.assertEqual(sorted(printed.splitlines()), [str(self.prefix / it) for it in FILES])
        self.assertEqual(files_below(self.prefix), FILES)
        self.passes(["sha256sum", "--quiet", "-c", "share/ocp/installed"], cwd=self.prefix)
        self.assertEqual(self.passes([self.prefix / "bin/ocp"]), "ocp 0.1.0\n")
        self.assertEqual(printed, self.ocp("install", self.prefix))
        printed = self.ocp("uninstall", self.prefix)
        self.assertEqual(sorted(printed.splitlines()), [str(self.prefix / it) for it in FILES])
        self.assertFalse(self.prefix.exists())
        self.ocp("uninstall", self.prefix, status=1, said="nothing is installed below")

    def test_other_files_and_folders_stay(self) -> None:
        (self.prefix / "lib").mkdir(parents=True)
        self.ocp("install", self.prefix)
        (self.prefix / "bin/other").write_text("other")
        (self.prefix / "include/ocp.h").write_text("changed")
        self.ocp("uninstall", self.prefix, said="include/ocp.h was changed since: it stays")
        self.assertEqual(files_below(self.prefix), ["bin/other", "include/ocp.h"])
        self.assertTrue((self.prefix / "lib").is_dir())
        self.ocp("install", self.prefix, status=1, said="include/ocp.h is not as an install wrote it")
        self.assertEqual(files_below(self.prefix), ["bin/other", "include/ocp.h"])

    def test_below_destdir(self) -> None:
        self.ocp("install", "/usr", env={**os.environ, "DESTDIR": str(self.prefix)})
        self.assertEqual(files_below(self.prefix / "usr"), FILES)
        self.ocp("uninstall", "/usr", env={**os.environ, "DESTDIR": str(self.prefix)})
        self.assertEqual(files_below(self.prefix), [])

    def test_bad_prefix(self) -> None:
        (self.folder / "file").write_text("")
        self.ocp("install", self.folder / "file", status=1, said="is a file")
        self.ocp("install", self.folder / "file/below", status=1, said="Not a directory")
        self.ocp("install", "/proc/ocp", status=1, said="nothing is changed")
        self.ocp("install", "", status=2, said="PREFIX is empty")
        self.ocp("uninstall", self.folder / "file", status=1, said="nothing is installed below")

    def test_full_disk(self) -> None:
        self.ocp("install", self.prefix, status=1, said="File too large; nothing is changed", preexec_fn=small_files)
        self.assertFalse(self.prefix.exists())
        self.ocp("install", self.prefix)
        shutil.copy(self.prefix / "share/ocp/installed", self.folder)
        self.ocp("install", self.prefix, status=1, said="nothing is changed", preexec_fn=small_files)
        self.assertEqual(files_below(self.prefix), FILES)
        self.assertEqual((self.folder / "installed").read_text(), (self.prefix / "share/ocp/installed").read_text())

    def test_killed_at_any_moment(self) -> None:
        began = time.monotonic()
        self.ocp("install", self.prefix)
        whole = time.monotonic() - began
        for part in range(6):
            with subprocess.Popen([self.clone / "ocp", "install", self.prefix], stdout=subprocess.DEVNULL) as one:
                time.sleep(whole * (0.75 + part / 20))
                one.send_signal(signal.SIGKILL)
        self.ocp("install", self.prefix)
        self.assertEqual(files_below(self.prefix), FILES)
        self.ocp("uninstall", self.prefix)
        self.assertFalse(self.prefix.exists())

    def test_what_is_not_proved_is_not_taken(self) -> None:
        library = self.clone / "crates/ocp_c/out/libocp_c.a"
        octets = library.read_bytes()
        library.write_bytes(octets + b"more")
        self.ocp("install", self.prefix, said="without the library for C")
        self.assertNotIn("lib/libocp_c.a", files_below(self.prefix))
        library.write_bytes(octets + b"ocp_c_is_not_proved")
        stamp(self.clone)
        self.ocp("install", self.prefix, status=3, said="without any proof")
        (self.clone / "crates/ocp/out/proved").write_text("other sources")
        self.ocp("install", self.prefix, status=3, said="./ocp build")


@needs("rt", "pkg-config", "cc")
class PkgConfig(Case):
    seconds = 6

    def test_least_program(self) -> None:
        if not LIBRARY.exists():
            self.skipTest("no crates/ocp_c/out/libocp_c.a: ./ocp library")
        folder = self.room()
        clone = built(folder / "clone")
        shutil.copy(LIBRARY, clone / "crates/ocp_c/out/libocp_c.a")
        stamp(clone)
        self.passes([clone / "ocp", "install", folder / "a prefix"])
        found = {**os.environ, "PKG_CONFIG_PATH": str(folder / "a prefix/lib/pkgconfig")}
        made = 'eval "cc -std=c11 \\"$1\\" $(pkg-config --cflags --libs ocp_c) $(pkg-config --variable=heap ocp_c) -o least" && ./least'
        said = self.passes(["sh", "-c", made, "", ROOT / "examples/embed/least.c"], env=found, cwd=folder)
        self.assertEqual(said.splitlines()[-1], "3 instructions, r0 = 7")
