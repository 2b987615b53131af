"""What is given to people: the files that `./ocp install` writes and `./ocp dist` packs, by where they lie below a prefix."""
import hashlib
import os
import re

from building import PROGRAM, ROOT, STATIC, crates_of, read
from kit import AARCH64, NATIVE

MARK = b"ocp_c_is_not_proved"  # a symbol of each unproved library
# With the folder of the file in place of a prefix, what is installed can be moved.
DESCRIPTION = """prefix=${{pcfiledir}}/../..
includedir=${{prefix}}/include
libdir=${{prefix}}/lib
heap=${{prefix}}/share/ocp/heap.c

Name: ocp_c
Description: an engine for on-board control procedures, for flight software in C
Version: {version}
Cflags: -I${{includedir}}
Libs: -L${{libdir}} -locp_c
"""


class Missing(Exception):
    """What has to be built first, and by which command."""


def octets_of(path):
    with open(path, "rb") as file:
        return file.read()


def sum_in(crate):
    """The SHA-256 sum of what was built, as the verdict has it; none if none is kept."""
    try:
        found = re.search(r"^sha256=(\w+) ", read(f"{crate.kept()}/verdict"), re.M)
    except OSError:
        return None
    return found[1] if found else None


def is_newer(crate, crates):
    """Whether what was built is newer than all sources that it is made from."""
    sources = [path for it in (crate, *(crates[name] for name in crate.below)) for path in it.files()]
    return os.path.getmtime(crate.made()) > max(map(os.path.getmtime, sources))


def is_current(crate, crates):
    """Whether what was built is there, and was proved from the present sources: by its stamp, or, after `rt ci`, which keeps none, by
    the times of the files."""
    if not os.path.isfile(crate.made()):
        return False
    if os.path.exists(f"{crate.kept()}/proved"):
        return crate.is_proved() and sum_in(crate) in (None, hashlib.sha256(octets_of(crate.made())).hexdigest())
    return is_newer(crate, crates)


def interface():
    """The version of the interface that the library's header has."""
    major, minor = re.search(r"^#define OCP_VERSION .*0x(\w{4})(\w{4})", read(f"{ROOT}/include/ocp_engine.h"), re.M).groups()
    return f"{int(major, 16)}.{int(minor, 16)}"


def program():
    """The proved program, below a prefix."""
    crates = crates_of(ROOT)
    if not is_current(crates[PROGRAM], crates):
        raise Missing("the program is not built from these sources: ./ocp build")
    return {"bin/ocp": octets_of(crates[PROGRAM].made())}


def libraries():
    """The proved libraries for C, by where they lie below a prefix; with the first, what a C program needs of it."""
    crates, files = crates_of(ROOT, STATIC, (NATIVE, AARCH64)), {}
    for crate in crates.values():
        if crate.is_static and is_current(crate, crates):
            octets = octets_of(crate.made())
            if MARK in octets:
                raise Missing(f"{crate.made()} is a library without any proof: ./ocp library")
            files[f"lib/{'' if crate.target == NATIVE else crate.target + '/'}libocp_c.a"] = octets
    if files:
        files["share/ocp/heap.c"] = octets_of(f"{ROOT}/embed/heap.c")
    if "lib/libocp_c.a" in files:
        files["lib/pkgconfig/ocp_c.pc"] = DESCRIPTION.format(version=interface()).encode()
    return files


def files():
    """All files below a prefix, each with its octets."""
    found = {**program(), **libraries()}
    for name in sorted(os.listdir(f"{ROOT}/include")):
        if name.endswith(".h"):
            found[f"include/{name}"] = octets_of(f"{ROOT}/include/{name}")
    found["share/man/man1/ocp.1"] = octets_of(f"{ROOT}/docs/ocp.1")
    found["share/bash-completion/completions/ocp"] = octets_of(f"{ROOT}/docs/ocp.bash")
    return found


def mode_of(path, octets):
    return 0o755 if path.startswith("bin/") or octets.startswith(b"#!") else 0o644
