"""What tools share of the toolchain: its own module of crates, its targets, and its verdicts."""
import importlib.machinery
import importlib.util
import os
import re
import shutil
import subprocess
import sys

NATIVE = "x86_64-unknown-linux-gnu"
AARCH64 = "aarch64-unknown-linux-gnu"
LIBRARY = "out/libocp_c.a"


def program():
    """The command of the toolchain."""
    found = shutil.which("rt")
    if found is None:
        sys.exit(f"{os.path.basename(sys.argv[0])}: there is no rt here, the command of the toolchain")
    return os.path.realpath(found)


def folder():
    """The toolchain's folder."""
    return os.path.dirname(os.path.dirname(program()))


def version():
    """What tells this toolchain from another."""
    return subprocess.run([program(), "version"], stdin=subprocess.DEVNULL, capture_output=True, text=True, check=True).stdout


def toolchain():
    """The toolchain's own module of crates and of the words that its compiler is called with, and its folder."""
    kit = folder()
    loader = importlib.machinery.SourceFileLoader("rtlib", f"{kit}/bin/rtlib.py")
    module = importlib.util.module_from_spec(importlib.util.spec_from_loader("rtlib", loader))
    sys.modules["rtlib"] = module
    loader.exec_module(module)
    return module, kit


def targets_of(text):
    """The Linux targets that the compiler's help names under --target."""
    said = re.search(r"--target <TRIPLE>\s+(.*)", text)
    return re.findall(r"`([\w-]+-linux-gnu)`", said[1]) if said else []


def compiler_targets():
    """Those of the toolchain that is here."""
    words = [f"{folder()}/bin/rattle", "help", "build"]
    return targets_of(subprocess.run(words, capture_output=True, text=True, check=False).stdout)


def library_for(target):
    """Where the library of a target lies, below crates/ocp_c."""
    return LIBRARY if target == NATIVE else f"out/{target}/libocp_c.a"


class Said:
    """What a run prints, which is passed on and kept."""

    def __init__(self):
        self.text = ""

    def write(self, text):
        self.text += text
        sys.stdout.write(text)

    def flush(self):
        sys.stdout.flush()


def verdicts_of(said):
    """The verdicts in what a check printed: the lines that begin with `logic=`."""
    return re.findall(r"^logic=.*$", said, re.M)


def is_proved_for(target, said):
    """Whether the only verdict is of this target."""
    verdicts = verdicts_of(said)
    proved = len(verdicts) == 1 and verdicts[0].startswith("logic=proved ") and f"target={target}" in verdicts[0].split()
    if not proved:
        name = os.path.basename(sys.argv[0])
        print(f"{name}: no verdict of {target}: {' / '.join(verdicts) or 'none at all'}", file=sys.stderr)
    return proved


def is_kept_for(target, said, library):
    """Whether the verdict is of this target. If it is not, the library goes."""
    proved = is_proved_for(target, said)
    if not proved and os.path.exists(library):
        os.remove(library)
    return proved


def build_for(target, toolchain_of, crate, jobs, library):
    """Proves the library for C over the libraries below it, and builds it for a target. Answers whether it did."""
    module, kit = toolchain_of
    crate.out = Said()
    os.makedirs(os.path.dirname(library), exist_ok=True)
    words = [*crate.words(["--jobs", str(jobs)], keeps=False), "--toolchain", f"{kit}/toolchain", "--target", target]
    status = crate.call(module.RATTLE, "build", *words, "--backend", "llvm", "-o", library)
    return status == 0 and is_kept_for(target, crate.out.text, library)
