"""`./ocp dist`: one archive of a proved program, the same octets from two clones, with sums, verdicts and an SPDX list that are right."""
from __future__ import annotations

import hashlib
import os
import re
import tarfile
from pathlib import Path
from typing import ClassVar

from clones import built
from support import Case, needs, run, small_files

NAME = "ocp-0.1.0-x86_64-linux"
SECONDS = "1700000000"


@needs("rt", "sha256sum")
class Dist(Case):
    seconds = 20
    folder: ClassVar[Path]

    def setUp(self) -> None:
        self.folder = self.room()
        self.clone = built(self.folder / "one")

    def dist(self, clone: Path, *words: str | Path, status: int = 0, said: str = "", **more: object) -> Path:
        """Runs ./ocp dist in a clone: this status, and one line of standard error with this text, or nothing."""
        done = run([clone / "ocp", "dist", *words], env={**os.environ, "SOURCE_DATE_EPOCH": SECONDS}, **more)
        self.assertEqual(done.returncode, status, done.stderr)
        self.assertIn(said, done.stderr)
        self.assertEqual(done.stderr.count("\n"), 1 if said else 0, done.stderr)
        return clone / f"out/{NAME}.tar.gz"

    def test_two_clones_give_the_same_octets(self) -> None:
        other = built(self.folder / "another clone")
        os.utime(other / "README.md", (1, 1))
        self.assertEqual(self.dist(self.clone).read_bytes(), self.dist(other).read_bytes())
        self.assertEqual(self.dist(self.clone).read_bytes(), self.dist(other).read_bytes())

    def test_what_is_in_it(self) -> None:
        with tarfile.open(self.dist(self.clone)) as archive:
            members = archive.getmembers()
            archive.extractall(self.folder / "to")
        names = [it.name.removeprefix(f"{NAME}/") for it in members]
        self.assertEqual(names, sorted(names))
        self.assertEqual({(it.mtime, it.uid, it.gid, it.uname) for it in members}, {(int(SECONDS), 0, 0, "")})
        self.assertEqual({it.mode for it in members}, {0o755, 0o644})
        for name in ("bin/ocp", "include/ocp_engine.h", "lib/libocp_c.a", "lib/aarch64-unknown-linux-gnu/libocp_c.a",
                     "lib/pkgconfig/ocp_c.pc", "share/ocp/heap.c",
                     "README.md", "docs/MANUAL.md", "examples/embed/least.c", "VERDICTS", "ocp.spdx", "SHA256SUMS"):
            self.assertIn(name, names)
        top = self.folder / "to" / NAME
        self.passes(["sha256sum", "--quiet", "--strict", "-c", "SHA256SUMS"], cwd=top)
        self.assertEqual(len((top / "SHA256SUMS").read_text().splitlines()), len(names) - 1)
        self.spdx(top, set(names) - {"ocp.spdx", "SHA256SUMS"})
        verdicts = re.findall(r"^(\S+): logic=proved ", (top / "VERDICTS").read_text(), re.M)
        self.assertEqual(len(verdicts), len(set(verdicts)))
        self.assertLessEqual({"ocp", "ocp_core", "ocp_flight", "ocp_c", "ocp_c-aarch64"}, set(verdicts))

    def spdx(self, top: Path, names: set[str]) -> None:
        """The SPDX list has each file with its sums, and the code of all."""
        text = (top / "ocp.spdx").read_text()
        entries = re.findall(r"^FileName: \./(.*)\nSPDXID: \S+\nFileChecksum: SHA1: (\w+)\nFileChecksum: SHA256: (\w+)$", text, re.M)
        self.assertEqual({name for name, _, _ in entries}, names)
        for name, one, other in entries:
            octets = (top / name).read_bytes()
            self.assertEqual((one, other), (hashlib.sha1(octets).hexdigest(), hashlib.sha256(octets).hexdigest()), name)
        code = hashlib.sha1("".join(sorted(one for _, one, _ in entries)).encode()).hexdigest()
        self.assertIn(f"\nPackageVerificationCode: {code}\n", text)
        self.assertEqual(len(re.findall(r"^SPDXID: (.*)$", text, re.M)), len(set(re.findall(r"^SPDXID: (.*)$", text, re.M))))

    def test_without_the_library(self) -> None:
        for place in ("out/libocp_c.a", "out/aarch64-unknown-linux-gnu/libocp_c.a"):
            (self.clone / "crates/ocp_c" / place).unlink()
        with tarfile.open(self.dist(self.clone, said="without the library for C")) as archive:
            self.assertFalse([name for name in archive.getnames() if "/lib/" in name])

    def test_bad_input(self) -> None:
        (self.folder / "file").write_text("")
        self.dist(self.clone, "--to", self.folder / "file", status=1, said="nothing is written")
        self.dist(self.clone, "--to", "/proc/ocp", status=1, said="nothing is written")
        self.dist(self.clone, status=1, said="File too large; nothing is written", preexec_fn=small_files)
        self.assertEqual(list((self.clone / "out").iterdir()), [])
        (self.clone / "crates/ocp_core/out/verdict").unlink()
        self.dist(self.clone, status=3, said="the verdict of ocp_core is not kept")
        (self.clone / "crates/ocp/out/ocp").unlink()
        self.dist(self.clone, status=3, said="./ocp build")
