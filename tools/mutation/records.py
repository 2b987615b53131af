"""The records of tried mutants: a file crates/NAME/mutants.record, written by `.ci/mutants --record` alone.

A line is a mutant that the prover refused: its name, a checksum of all that its check read (tools/mutation/sums.py), and the goals
that the prover could not prove, at most three. The checksum is over the goals too, so a line that was edited is found.
"""
import contextlib
import fcntl
import os
import re
import tempfile

from mutation.sums import digest

LINE = re.compile(r"([A-Za-z0-9_][A-Za-z0-9_.-]*) ([0-9a-f]{40})((?: \S+){1,3})")
MOST_GOALS = 3
NO_RECORD = "no record"


def sealed(total, goals):
    """The checksum in a record, of the sum of what the check read and of the goals."""
    return digest(total, *goals)[:40]


def record_of(name, total, goals):
    """The line of a mutant that was refused."""
    told = [re.sub(r"\s+", "_", goal) for goal in dict.fromkeys(goals)][:MOST_GOALS]
    return f"{name} {sealed(total, told)} {' '.join(told)}"


def path_of(crate):
    return crate / "mutants.record"


def read_records(crate):
    """The lines of a crate's records by their mutants, and what is wrong with the file."""
    try:
        text = path_of(crate).read_text(encoding="utf-8")
    except FileNotFoundError:
        return {}, []
    except UnicodeDecodeError:
        return {}, ["it is not text"]
    lines = text.split("\n")
    faults = [] if lines.pop() == "" else ["its last line is cut off"]
    found = {line.split(" ")[0]: line for line in lines if LINE.fullmatch(line)}
    faults += [f"a line is no record: {line[:60]}" for line in lines if not LINE.fullmatch(line)]
    if not faults and lines != [found[name] for name in sorted(found)]:
        faults.append("its lines are not in order, each mutant once")
    return found, faults


def write_records(crate, lines):
    """Replaces the file of records as a whole: after an interruption it is the old one or the new one."""
    target = path_of(crate)
    if not lines:
        with contextlib.suppress(FileNotFoundError):
            target.unlink()
        return
    # git ignores out/, so that what an interruption leaves there is not committed.
    (crate / "out").mkdir(exist_ok=True)
    place, name = tempfile.mkstemp(dir=crate / "out", prefix="record-")
    try:
        with os.fdopen(place, "w", encoding="utf-8") as file:
            file.writelines(f"{lines[name]}\n" for name in sorted(lines))
            file.flush()
            os.fsync(file.fileno())
        os.chmod(name, 0o644)
        os.replace(name, target)
    except BaseException:
        os.unlink(name)
        raise


def keep(crate, known, changes):
    """Writes the records of mutants, removes those that have no line, and those of mutants that are not known. Other runs may
    write to the same file: it is read again, and one run at a time replaces it."""
    (crate / "out").mkdir(exist_ok=True)
    with open(crate / "out/record.lock", "w", encoding="utf-8") as lock:
        fcntl.flock(lock, fcntl.LOCK_EX)
        found, faults = read_records(crate)
        lines = {name: line for name, line in (found | changes).items() if line and name in known}
        if faults or lines != found:
            write_records(crate, lines)


def fault_of(mutant, line, sums):
    """What is wrong with the record of a mutant, or nothing."""
    if mutant.fault:
        return mutant.fault
    if not line:
        return NO_RECORD
    _, found, *goals = line.split(" ")
    return "" if found == sealed(sums.of(mutant), goals) else "changed since it was tried, or its record was edited"


def faults_of(crate, mutants, sums):
    """Each mutant of a crate that has no sound record, with what is wrong."""
    lines, faults = read_records(crate)
    names = [mutant.name for mutant in mutants]
    yield from (("mutants.record", fault) for fault in faults)
    yield from ((name, "two mutants have this name") for name in sorted({name for name in names if names.count(name) > 1}))
    yield from ((name, "a record, but no mutant") for name in sorted(lines.keys() - set(names)))
    for mutant in mutants:
        fault = fault_of(mutant, lines.get(mutant.name), sums)
        if fault:
            yield mutant.name, fault
