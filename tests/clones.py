"""A small clone for tests of ./ocp install, dist, library and build: sources are links, what is built is a stub or that of this clone."""
from __future__ import annotations

import shutil
import sys
from pathlib import Path

from support import ROOT, run

PROGRAM = "#!/bin/sh\necho ocp 0.1.0\n"
LIBRARIES = {"x86_64-unknown-linux-gnu": "out", "aarch64-unknown-linux-gnu": "out/aarch64-unknown-linux-gnu"}
# Gives each crate the stamp of its sources, and a verdict.
STAMPING = """
import hashlib, os, sys
sys.path.insert(0, sys.argv[1] + "/tools")
from building import ROOT, STATIC, crates_of
from kit import AARCH64, NATIVE
for it in {**crates_of(ROOT, STATIC, (NATIVE, AARCH64)), **crates_of(ROOT)}.values():
    os.makedirs(it.kept(), exist_ok=True)
    lines = ["logic=proved functions=1"]
    if it.is_program or it.is_static:
        with open(it.made(), "rb") as file:
            lines.append(f"sha256={hashlib.sha256(file.read()).hexdigest()} {os.path.basename(it.made())}")
    else:
        os.makedirs(it.made(), exist_ok=True)
    for name, text in (("proved", it.stamp), ("verdict", "".join(f"{line}\\n" for line in lines))):
        with open(f"{it.kept()}/{name}", "w") as file:
            file.write(text)
"""


def clone(folder: Path) -> Path:
    """The tools and pages of this clone, with links to the sources of its crates, and nothing built."""
    folder.mkdir(parents=True)
    for name in ("tools", "include", "docs", "examples"):
        shutil.copytree(ROOT / name, folder / name, ignore=shutil.ignore_patterns("__pycache__", "out"))
    for name in ("ocp", "README.md", "crates.txt", "HANDLES", "embed/heap.c"):
        (folder / name).parent.mkdir(exist_ok=True)
        shutil.copy(ROOT / name, folder / name)
    for source in ROOT.glob("crates/*/*"):
        if source.name in ("src", "specs", "proofs"):
            (folder / "crates" / source.parent.name).mkdir(parents=True, exist_ok=True)
            (folder / "crates" / source.parent.name / source.name).symlink_to(source)
    return folder


def stamp(folder: Path) -> None:
    """Has what is there count as proved from the clone's sources."""
    done = run([sys.executable, "-B", "-c", STAMPING, folder])
    assert done.returncode == 0, done.stderr


def built(folder: Path) -> Path:
    """A clone in which everything counts as proved: stubs."""
    clone(folder)
    (folder / "crates/ocp/out").mkdir()
    (folder / "crates/ocp/out/ocp").write_text(PROGRAM)
    (folder / "crates/ocp/out/ocp").chmod(0o755)
    for target, place in LIBRARIES.items():
        (folder / "crates/ocp_c" / place).mkdir(parents=True, exist_ok=True)
        (folder / "crates/ocp_c" / place / "libocp_c.a").write_text(f"!<arch>\n{target}\n")
    stamp(folder)
    return folder
