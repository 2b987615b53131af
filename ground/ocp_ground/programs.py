"""Images, and the texts that they were made of: which line made which slot."""
from __future__ import annotations

import os
import re
import subprocess
import tempfile
from pathlib import Path
from typing import Any, NamedTuple, Optional, Sequence

CALLS = {1: "pool_get", 2: "pool_set", 3: "pool_add", 4: "next_param", 5: "step_end", 6: "pool_compare_set"}
ASSEMBLY = re.compile(r"[ \t]*(?:[A-Za-z_]\w*[ \t]*:)?[ \t]*([^;\r]*)")
WIDE, CALL, JUMPS = 0x18, 0x85, (5, 6)  # lddw, calls, the classes of jumps
NO_CONDITION = (0x05, 0x06, 0x85, 0x8d, 0x95)  # ja, call, callx, exit


class SourceFault(Exception):
    """Why a text can't be used."""


class Image:
    """The octets of a procedure: where its instructions begin, its engine calls, and where its conditional jumps lead."""

    def __init__(self, octets: bytes) -> None:
        self.octets, self.slots = octets, len(octets) // 8
        self.starts: list[int] = []
        self.calls: dict[int, int] = {}
        self.jumps: dict[int, int] = {}
        slot = 0
        while slot < self.slots:
            opcode, registers = octets[8 * slot], octets[8 * slot + 1]
            offset, number = (int.from_bytes(octets[8 * slot + a:8 * slot + b], "little", signed=True) for a, b in ((2, 4), (4, 8)))
            self.starts.append(slot)
            if opcode == CALL and registers >> 4 == 0:
                self.calls[slot] = number
            elif opcode & 7 in JUMPS and opcode not in NO_CONDITION:
                self.jumps[slot] = slot + 1 + offset
            slot += 2 if opcode == WIDE else 1

    def __eq__(self, other: object) -> bool:
        return isinstance(other, Image) and self.octets == other.octets

    def __hash__(self) -> int:
        return hash(self.octets)


class Line(NamedTuple):
    file: str
    number: int
    text: str

    def __str__(self) -> str:
        return f"{os.path.basename(self.file)}:{self.number}: {self.text}"


class Text:
    """A text, its image, and the line of each slot that has one; another slot belongs to the line before it."""

    def __init__(self, path: Path, octets: bytes, numbers: dict[int, int]) -> None:
        self.path, self.image, self.numbers = path, Image(octets), numbers
        rows = path.read_text(errors="replace").split("\n")
        self.lines: dict[int, Line] = {}
        number = None
        for slot in self.image.starts:
            number = numbers.get(slot, number)
            if number:
                self.lines[slot] = Line(os.fspath(path), number, rows[number - 1].strip() if number <= len(rows) else "")


def output(words: Sequence[Any], given: Optional[bytes] = None) -> bytes:
    try:
        done = subprocess.run([os.fspath(word) for word in words], input=given, capture_output=True, timeout=60, check=False)
    except (OSError, subprocess.TimeoutExpired) as fault:
        raise SourceFault(f"{words[0]}: {fault}") from None
    if done.returncode:
        said = (done.stderr or done.stdout).decode(errors="replace").strip().splitlines()
        raise SourceFault(f"{words[0]}: {said[0] if said else 'failed'}")
    return done.stdout


def text_of_c(path: Path, include: Path) -> Text:
    """As tools/c_build makes it. Lines of headers count for the line of the text before them."""
    clang, objcopy, objdump = (os.environ.get(name.upper().replace("-", "_")) or name for name in ("clang", "llvm-objcopy", "llvm-objdump"))
    with tempfile.TemporaryDirectory() as folder:
        made, image = Path(folder, "made.o"), Path(folder, "image")
        output([clang, "-target", "bpf", f"-mcpu={os.environ.get('OCP_CPU', 'v3')}", "-O2", "-g", "-ffreestanding", "-I", include,
                "-c", path, "-o", made])
        output([objcopy, "-O", "binary", "--only-section=.text", made, image])
        numbers: dict[int, int] = {}
        number = 0
        for row in output([objdump, "--disassemble", "--line-numbers", "--no-show-raw-insn", made]).decode().splitlines():
            if found := re.match(r"; (.+):(\d+)(?: \(discriminator \d+\))?$", row):
                number = int(found[2]) if Path(found[1]).resolve() == path else number
            elif (found := re.match(r"\s*(\d+):\s", row)) and number:
                numbers[int(found[1])] = number
        return Text(path, image.read_bytes(), numbers)


def text_of_assembly(path: Path, program: str, profile: int) -> Text:
    octets = path.read_bytes()
    image = bytes.fromhex(output([program, "asm", "--profile", str(profile)], octets).decode())
    numbers, slot = {}, 0
    for number, row in enumerate(octets.decode("ascii", "replace").split("\n"), 1):
        found = ASSEMBLY.match(row)
        words = found[1].split() if found else []
        if words:
            numbers[slot] = number
            slot += 2 if words[0] == "lddw" else 1
    return Text(path, image, numbers)


def text_of(name: str, program: str, include: Optional[str], profile: int) -> Text:
    """The text of a file in C or in assembly."""
    path = Path(name).resolve()
    if not path.is_file():
        raise SourceFault(f"{name}: no such file")
    if path.suffix == ".c":
        return text_of_c(path, Path(include) if include else path.parent)
    return text_of_assembly(path, program, profile)
