"""What a text gives: its image, listing and verdict by the program, its faults at their lines, and which line made which slot."""
import os
import re
import shutil
import sys
from pathlib import Path

import bounds
import shield
from bounds import OCTETS, Refused, run, sentence

TOOLS = Path(__file__).resolve().parents[2] / "tools"
BUILD, LINES = TOOLS / "c_build", TOOLS / "lines"
FAULTS, SAID = 200, 20_000  # of one text: how many are answered, and characters of the compiler's words
CLANG = {"CLANG": "clang", "LLVM_OBJCOPY": "llvm-objcopy", "LLVM_READELF": "llvm-readelf", "LLVM_OBJDUMP": "llvm-objdump"}
SAYS = {"Syntax": "this is no instruction of the assembly: docs/CARD.md has them all",
        "Range": "a number is outside of its range, a width does not exist, or a label is too far away",
        "DuplicateLabel": "an earlier line has given this name", "UnknownLabel": "no line gives this name",
        "TooLong": "a text has at most 1,048,576 octets"}


def newest(name):
    """The program under this name, the newest of those with a version after it; None if there is none."""
    versions = {}
    for folder in os.get_exec_path():
        try:
            names = os.listdir(folder)
        except OSError:
            continue
        for each in names:
            if found := re.fullmatch(rf"{name}(?:-([0-9]+))?", each):
                versions.setdefault(int(found[1] or 0), os.path.join(folder, each))
    return versions[max(versions)] if versions else None


def programs():
    """The programs of the compiler by their variables, None if one is missing."""
    return {name: shutil.which(given) if (given := os.environ.get(name)) else newest(program) for name, program in CLANG.items()}


def has_clang():
    return BUILD.exists() and all(programs().values())


def is_done(words):
    """Whether a command ends with status 0."""
    try:
        return run(words, "", 16_000)[2] == 0
    except (Refused, OSError):
        return False


def is_shielded():
    """Whether a build reads the compiler and the text alone."""
    return shield.way_of(is_done) is not None


def listing_of(program, image):
    """The slots of an image with their instructions, as `ocp list` writes them."""
    output, _, status = run([program, "list"], image)
    slot = 0
    rows = []
    for line in output.splitlines() if status == 0 else []:
        rows.append([slot, line])
        slot += 2 if line.startswith("lddw ") else 1
    return rows


def verdict_of(program, image, options):
    """The verdict of `ocp check` on an image: the slots that may fault, each with the reason, and the other lines."""
    words = [f"--{name}={options[name]}" for name in ("profile", "pool")]
    output, _, status = run([program, "check", *words], image) if image else ("", "", 0)
    slots, lines = {}, []
    for line in output.splitlines() if status in (0, 1) else []:
        found = re.match(r"slot (\d+)   .*   (may be \w+: .*)", line)
        if found:
            slots[int(found[1])] = found[2]
        else:
            lines.append(line)
    return {"slots": slots, "lines": lines}


def places_of_assembly(text, listing):
    """Slot to line: the n-th instruction of the listing is in the n-th line that has one."""
    lines = [number for number, line in enumerate(text.split("\n"), 1)
             if re.sub(r"^\s*[A-Za-z_]\w*\s*:", "", line.split(";")[0]).strip()]
    return {slot: line for (slot, _), line in zip(listing, lines)} if len(lines) == len(listing) else {}


class Build:
    """A text in C in a folder of its own, and the commands over it, which have one time for all."""

    def __init__(self, text, room):
        found, way = programs(), shield.way_of(is_done)
        self.file, self.allowance = room / "text.c", bounds.Allowance()
        self.file.write_text(text)
        self.words = way(room, found.values()) if way else []
        kept = {name: value for name, value in os.environ.items() if name in ("PATH", "LANG", "LC_ALL", "OCP_CPU")}
        self.surroundings = {**kept, **found, "HOME": os.fspath(room), "TMPDIR": os.fspath(room)}

    def run(self, *words):
        return run([*self.words, *words, self.file], "", 16_000, self.file.parent, self.surroundings, self.allowance)

    def places(self):
        """Slot to line by tools/lines; what is in a header belongs to the line that includes it."""
        try:
            table, _, status = self.run(os.path.realpath(sys.executable), "-I", "-B", LINES)
        except Refused:
            return {}
        places, line = {}, None
        for row in table.split("\n") if status == 0 else []:
            if not (found := re.match(r"([0-9]+) (?:text\.c:([0-9]{1,9})(?= |$))?", row)):
                continue
            line = int(found[2]) if found[2] else line
            if line:
                places[int(found[1])] = line
        return places


def faults_of_c(said):
    """Line and words of what the compiler says."""
    return [[int(found[1]), found[2]] for line in said.split("\n")
            if (found := re.match(r"[^:]*:([0-9]{1,9}):(?:[0-9]+:)? *(?:fatal )?((?:error|warning): .*)", line))]


def built(program, text):
    """Image, listing, places, faults and words of a text in C."""
    if not has_clang():
        raise Refused("there is no clang for BPF on this machine: a text in C can be kept, and not built")
    with bounds.folder() as folder:
        build = Build(text, shield.room_in(folder))
        output, said, status = build.run(BUILD)
        said = said.replace(os.fspath(build.file), "text").replace(os.fspath(build.file.parent), "")
        image = output.strip() if status == 0 else ""
        places = build.places() if image else {}
    faults = faults_of_c(said)
    if len(faults) > FAULTS:
        faults[FAULTS:] = [[0, "and more"]]
        said = said[:SAID]
    if status and not faults:
        faults.append([0, said.strip() or "it was not built"])
    return image, listing_of(program, image) if image else [], places, faults, said


def fault_of(output, said, names):
    """The line of a refused text, and why: the program's own sentence, else its word in other words."""
    found = re.match(r"error ([0-9]+) ([A-Za-z]+)(?: ([0-9]+))?", output)
    if not found:
        return [0, said.strip() or "it was not assembled"]
    why = names.get(f"load {found[3]}") if found[2] == "Load" else SAYS.get(found[2])
    return [int(found[1]), f"{found[2]}{f' {found[3]}' if found[3] else ''}: {sentence(said) or why or ''}".rstrip(": ")]


def assembled(program, language, text, options, names):
    if len(text.encode()) > OCTETS:
        raise Refused(f"the text has over {OCTETS:,} octets")
    if language == "c":
        image, listing, places, faults, said = built(program, text)
    else:
        output, said, status = run([program, "asm", f"--profile={options['profile']}"], text)
        image = output.strip() if status == 0 else ""
        faults = [fault_of(output, said, names)] if status else []
        listing = listing_of(program, image) if image else []
        places = places_of_assembly(text, listing)
    verdict = verdict_of(program, image, options)
    return {"image": image, "listing": listing, "verdict": verdict, "places": places, "faults": faults, "said": said}
