"""Tries mutants over libraries that are proved.

The crate without mutants is proved already, so only the functions that have a mutant are proved here, in a copy of the crate in
which the proof of each other function is a hole: the prover takes such a function by its contract. A check tries several mutants,
at most one in a function, and names the goals that are open. A mutant in no function, as in a table from which a macro writes
several, is tried in all functions of its file, and if these are proved in the whole crate.
"""
import os
import re
import shutil
import subprocess
import tempfile
import threading
from collections import namedtuple
from pathlib import Path

from mutation.edits import PARTS
from mutation.parts import method_at
from source import Source

HOLE = """-- Taken as stated.
use Rattle.{crate}.proofs.{path}.Statement.{{statement}}

pub {name}_spec : {{M : Type 1}} → statement M
{name}_spec = ?
"""
NOTE = re.compile(r"^note: (src/\S+\.rt):(\d+):\d+: .*? \(`([^`]+)`\)(.*)", re.MULTILINE)
UNPROVED = re.compile(r"^fn (\S+): ((?:not proved|no proof|could not tell).*)", re.MULTILINE)
# An answer of a function's proof, or a lemma, that is refused.
ERROR = re.compile(r"^(?:\./)?proofs/(\S+)\.antt:\d+:\d+: error: (?:`([^`]+)`: )?(.*)", re.MULTILINE)
# What the edit took away has a name that the answer needs: that says nothing of the contract.
MISSING = re.compile(r"has no field|is not in scope|is no name|has no `|was not admitted")
FALSE = "the facts known there allow values at which this goal is false"
COMPILING = re.compile(r"^\S+:\d+:\d+: error.*", re.MULTILINE)
REFUSED, PROVED, NO_VERDICT = "refused", "proved", "not-tried"
# How a mutant ended: one of these words, and the goals that are open or why there is no verdict.
Outcome = namedtuple("Outcome", "verdict goals why")


def refused(goals):
    return Outcome(REFUSED, list(dict.fromkeys(goals)), "")


def not_tried(why):
    return Outcome(NO_VERDICT, [], why)


def functions_of(crate):
    """The paths of a library's functions, those that are not public too: it has a link for each. What a trait declares has no
    body, and a closure is a part of its function. A program has no links, nor has a library for C."""
    index = Path(crate.rlib) / "toolchain/checked.json"
    links = index.read_text() if index.is_file() else ""
    links = re.findall(rf'"part/Rattle-{crate.name}-proofs\.TheLinks\.{crate.name}-([\w+-]+)"', links)
    texts = [file.read_text() for file in Path(crate.folder, "src").rglob("*.rt")]
    traits = {name for text in texts for name in re.findall(r"\btrait (\w+)", text)}
    paths = [tuple(link.split("-")) for link in links]
    return {path for path in paths if "fn" not in path and not traits & set(path[:-1])}


class Checks:
    """Runs the toolchain's checks, each with all that it starts in the group of processes that ends with this one."""

    def __init__(self, toolchain):
        self.rattle, self.guard, self.lock = toolchain.RATTLE, toolchain.guarded(), threading.Lock()
        self.running, self.is_over = set(), False

    def run(self, words, folder):
        """The status of a check, and what it says."""
        how = {"stdin": subprocess.DEVNULL, "stdout": subprocess.PIPE, "stderr": subprocess.STDOUT}
        with self.lock:
            if self.is_over:
                raise InterruptedError
            ran = subprocess.Popen([*self.guard, self.rattle, "check", *words], cwd=folder, text=True, errors="replace", **how)
            self.running.add(ran)
        said, _ = ran.communicate()
        with self.lock:
            self.running.discard(ran)
            if self.is_over:
                raise InterruptedError
        return ran.returncode, said

    def end(self):
        """Ends what runs, and lets nothing begin."""
        with self.lock:
            self.is_over = True
            for ran in self.running:
                ran.kill()


class Said:
    """What a check says: of each function that is not proved, of each refused answer, and of each goal that is open."""

    def __init__(self, status, text, room):
        self.failed, self.errors, self.notes, self.is_proved = {}, [], [], status == 0
        last = text.rstrip("\n").split("\n")[-1]
        self.fault = "" if last.startswith(("only=", "logic=")) else why_no_verdict(status, text)
        for path, verdict in UNPROVED.findall(text):
            self.failed[tuple(path.split("::")[1:])] = verdict
        for path, goal, why in ERROR.findall(text):
            self.errors.append((tuple(path.split("/")[:-1]), goal, why))
        for file, line, goal, more in NOTE.findall(text):
            source = Source(room / file, (room / file).read_text(encoding="utf-8"))
            place = sum(map(len, source.text.splitlines(keepends=True)[: int(line) - 1]))
            place += len(source.text[place:]) - len(source.text[place:].lstrip())
            self.notes.append(((room / file, *method_at(source, place)), goal, more))

    def named(self, path):
        """The goals that the line of a function names."""
        verdict, inner = self.failed.get(path, ""), ".".join(path)
        goals = re.findall(rf"proofs\.{re.escape(inner)}\.\w+\.([^`]+)`", verdict)
        for part in verdict.split("; "):
            if "did not prove" in part:
                goals += re.findall(r"`([^`]+)`", part.split("did not prove")[1])
        return goals

    def outcome(self, paths, place):
        """How a mutant in these functions ended; None if they are not proved, and another function may be the reason. With no
        place, lemmas count too. A goal counts whose answer was read and refused, or that no answer was written for; if names are
        missing that answers need, only one that is false."""
        ours = [(path, goal, why) for path, goal, why in self.errors if place is None or any(path[: len(it)] == it for it in paths)]
        errors = [(goal, why) for _, goal, why in ours]
        missing = [why for _, why in errors if MISSING.search(why)]
        open_goals = [(goal, more) for where, goal, more in self.notes if place is None or where == place]
        sound = [goal for goal, why in errors if goal and not MISSING.search(why)]
        sound += [goal for goal, more in open_goals if not missing or FALSE in more]
        if not missing:
            sound += [goal for path in sorted(paths) for goal in self.named(path)]
        if sound:
            return refused(sound)
        if missing:
            first = missing[0].replace("Rattle.", "")
            return not_tried(f"its proof names what the edit took away: {first[:160]}")
        return None if paths & set(self.failed) else Outcome(PROVED, [], "")


def is_newer(library):
    """Whether a library was put in its place after the last change of its sources. A copy of it that keeps its times is not."""
    folders = [Path(it.folder, part) for it in [*library.below(), library] for part in PARTS]
    times = [file.lstat().st_ctime for folder in folders if folder.is_dir() for file in (folder, *folder.rglob("*"))]
    return max(times, default=0) < os.stat(library.rlib).st_mtime


def unusable(crate, text_of, is_recording):
    """The libraries below a crate that are not built, or not from the sources that are there now. `rt ci` leaves libraries without
    a stamp, of which only the times tell."""
    found = []
    for it in crate.below():
        stamp = text_of(f"{os.path.dirname(it.rlib)}/stamp")
        if not os.path.isdir(it.rlib) or (stamp != it.stamp() if stamp else is_recording and not is_newer(it)):
            found.append(it.name)
    if crate.makes_rlib() and not os.path.isdir(crate.rlib):
        found.append(crate.name)
    return found


def why_no_verdict(status, text):
    """Why a check gave no verdict."""
    if status < 0:
        return f"its check was ended by signal {-status}, most likely for memory"
    found = COMPILING.search(text)
    return f"it does not compile: {found[0][:200]}" if found else f"no verdict: {text.rstrip().split(chr(10))[-1][:200]}"


def together(mutants):
    """The first mutant of each function."""
    chosen = {}
    for mutant in mutants:
        chosen.setdefault(frozenset(mutant.paths), mutant)
    return list(chosen.values())


def flags_of(paths):
    """What has a check prove these functions alone, past holes."""
    return [word for path in sorted(paths) for word in ("--only", "::".join(path))] + ["--allow-holes"]


class Room:
    """A copy of a crate, in which the functions that have no mutant are taken as stated."""

    def __init__(self, crate, checks, place):
        self.name, self.words, self.checks = crate.name, crate.words(["--jobs", "1"], keeps=False), checks
        self.folder, self.inner, self.kept = Path(crate.folder), Path(place) / crate.name, Path(place) / "kept"
        self.kept.mkdir()
        for part in PARTS:
            self.copy(part)
        self.functions = functions_of(crate)

    def copy(self, part):
        shutil.rmtree(self.inner / part, ignore_errors=True)
        if (self.folder / part).is_dir():
            shutil.copytree(self.folder / part, self.inner / part)

    def paths_of(self, mutant):
        """The function that a mutant changes: more than one if a trait with arguments has several impls for one type."""
        if not mutant.function:
            return set()
        if mutant.owner:
            return {path for path in self.functions if path[-1] == mutant.function and re.fullmatch(mutant.owner, path[-2])}
        here = (*mutant.module, mutant.function)
        return {here} if here in self.functions or not self.functions else set()

    def make_holes(self, kept):
        """Takes the other functions as stated, but those that are of one argument of a type alone, or drop a value."""
        self.copy("proofs")
        for path in self.functions - kept:
            if any("+" in part for part in path):
                continue
            proof = self.inner.joinpath("proofs", *path)
            for file in proof.glob("*.antt"):
                file.unlink()
            proof.mkdir(parents=True, exist_ok=True)
            text = HOLE.format(crate=self.name, path=".".join(path), name=path[-1])
            (proof / "Proof.antt").write_text(text)

    def check(self, *more):
        status, text = self.checks.run([*self.words, "--incremental", str(self.kept), *more], self.inner)
        return Said(status, text, self.inner)

    def check_with(self, mutants, *more):
        """What a check says of the crate with these mutants. Their texts are looked for in the unchanged file: that of one may be
        what another writes."""
        changes = {}
        for mutant in mutants:
            places = [(mutant.source.text.index(old), old, new) for old, new in mutant.pairs]
            changes.setdefault(mutant.place, (mutant.source.text, []))[1].extend(places)
        for file, (text, places) in changes.items():
            for place, old, new in sorted(places, reverse=True):
                text = text[:place] + new + text[place + len(old) :]
            (self.inner / file).write_text(text)
        try:
            return self.check(*more)
        finally:
            for file, (source, _) in changes.items():
                (self.inner / file).write_text(source)

    def place_of(self, mutant):
        return (self.inner / mutant.place, *mutant.method)

    def compiles(self, mutants):
        """Whether the crate compiles with mutants. A check of the sources alone takes a few seconds."""
        return not self.check_with(mutants, "--only", "").fault

    def batches(self, mutants):
        """Mutants in batches with which the crate compiles, as few as halving finds; one with which it does not is in none."""
        if self.compiles(mutants):
            return [mutants]
        if len(mutants) == 1:
            return []
        half = len(mutants) // 2
        found, more = self.batches(mutants[:half]), self.batches(mutants[half:])
        if found and more and self.compiles(found[0] + more[0]):
            found[0] += more.pop(0)
        return found + more

    def parted(self, mutants):
        """Mutants whose check together gave no verdict, in smaller batches."""
        batches = self.batches(mutants)
        found = sum(batches, [])
        alone = [[mutant] for mutant in mutants if mutant not in found]
        return batches + alone if len(batches) != 1 or alone else [[mutant] for mutant in mutants]

    def try_at_once(self, mutants):
        """How each mutant ended in one check of their functions, or in several if that does not tell."""
        kept = set().union(*(mutant.paths for mutant in mutants))
        self.make_holes(kept)
        said = self.check_with(mutants, *flags_of(kept))
        if said.fault and len(mutants) > 1:
            for batch in self.parted(mutants):
                yield from self.try_at_once(batch)
            return
        for mutant in mutants:
            found = not_tried(said.fault) if said.fault else said.outcome(mutant.paths, self.place_of(mutant))
            if found is None and len(mutants) > 1:
                _, found = next(self.try_at_once([mutant]))
            yield mutant, found or not_tried("its function is not proved, and no goal of it is named")

    def is_proved(self, paths):
        """Whether functions are proved without a mutant."""
        self.make_holes(paths)
        said = self.check(*flags_of(paths))
        return not said.fault and not paths & set(said.failed)

    def try_together(self, mutants, has_control):
        """How each mutant ended, with all functions but theirs taken as stated. With control, a mutant is not tried whose
        function is not proved without it."""
        left = list(mutants)
        while left:
            tried = together(left)
            left = [mutant for mutant in left if mutant not in tried]
            for mutant, found in self.try_at_once(tried):
                fails = has_control and not self.is_proved(mutant.paths)
                yield mutant, not_tried("its function is not proved without it") if fails else found

    def try_alone(self, mutant):
        """How a mutant ended, tried in all functions of its module, and if these are proved in the whole crate."""
        here = {path for path in self.functions if mutant.module and path[: len(mutant.module)] == mutant.module}
        if mutant.module and not self.functions:
            here = {mutant.module}
        self.make_holes(here)
        found = self.try_everywhere(mutant, flags_of(here)) if here else None
        if found is None or found.verdict == PROVED:
            self.copy("proofs")
            found = self.try_everywhere(mutant, [])
        return found

    def try_everywhere(self, mutant, flags):
        """How a mutant ended in all functions that are proved."""
        said = self.check_with([mutant], *flags)
        if said.fault:
            return not_tried(said.fault)
        found = said.outcome(set(said.failed), None)
        is_told = found and (found.verdict != PROVED or flags or said.is_proved)
        return found if is_told else not_tried("the crate is not proved, and no goal is named")


def try_share(crate, checks, mutants, has_control):
    """Tries mutants of a crate one after another, and gives each with how it ended. Those that can't be applied come first."""
    with tempfile.TemporaryDirectory(prefix="mutants-") as place:
        room = Room(crate, checks, place)
        for mutant in mutants:
            mutant.paths = room.paths_of(mutant)
            if mutant.fault:
                yield mutant, not_tried(mutant.fault)
        of_functions = [mutant for mutant in mutants if mutant.paths and not mutant.fault]
        if of_functions:
            yield from room.try_together(of_functions, has_control)
        for mutant in mutants:
            if not mutant.paths and not mutant.fault:
                yield mutant, room.try_alone(mutant)
