"""The compiler of procedures in C, as tools/c_build finds it."""
import os
import re
import shutil
import unittest
from pathlib import Path

from support import ROOT, run

TOOLS = ["clang", "llvm-objcopy", "llvm-readelf"]


def newest(tool):
    """The program of the highest version under this name, with or without a version after it."""
    names = {path.name for folder in os.get_exec_path() for path in Path(folder).glob(f"{tool}*")}
    versions = [int(name.removeprefix(f"{tool}-")) for name in names if re.fullmatch(rf"{tool}-\d+", name)]
    return shutil.which(f"{tool}-{max(versions)}") if versions else shutil.which(tool)


def needs_clang(*more):
    """Skips a test, or a class, without clang for BPF and its tools."""
    missing = [tool for tool in (*TOOLS, *more) if not newest(tool)]
    return unittest.skipIf(missing, f"no {' and no '.join(missing)}")


def build(*words, **more):
    return run([ROOT / "tools/c_build", *words], **more)
