"""Asks a flown journal. Several files are one journal in parts, in their order; each question answers in text, or with --json in JSON.

Status: 0 done; 1 the journals differ, too little was executed, or a line says what can't be done; 2 wrong words; 3 no journal, no
engine for it, or no library; 4 the journal is not whole: lines say what is missing or damaged, and the answer is of what is before.
"""
from __future__ import annotations

import argparse
import json
import os
import re
import sys
import time
from itertools import zip_longest
from pathlib import Path
from typing import Any, Iterable, Iterator, Optional

from . import chart, cover
from . import export as tables
from .engine import CAUSES, STATUSES, LibraryFault, Refused
from .journal import Journal
from .programs import CALLS, SourceFault, text_of
from .replay import Differs, Hit, Replay

FAULTS = {1: "AccessOutside", 2: "WriteToArguments", 3: "CallDepth", 4: "BadPoolIndex", 5: "BudgetSpent"}
FAILED, NO_ENGINE, NOT_WHOLE = 1, 3, 4
SHOWN = 20  # octets of a packet
PATIENCE = 1.0  # seconds until progress is shown


class Stop(Exception):
    """Why there is no answer, and the status."""

    def __init__(self, why: str, status: int = FAILED) -> None:
        super().__init__(why)
        self.status = status


class Progress:
    """A line on a terminal, once something has taken a second."""

    def __init__(self) -> None:
        self.next, self.is_shown = time.monotonic() + PATIENCE, False

    def __call__(self, done: int, total: int) -> None:
        if time.monotonic() >= self.next and sys.stderr.isatty():
            self.next, self.is_shown = time.monotonic() + 0.2, True
            said = f"{100 * done // total} %" if total else f"{done:,} events"
            print(f"\r\033[Kocp-flight: {said}", end="", file=sys.stderr, flush=True)

    def __enter__(self) -> Progress:
        return self

    def __exit__(self, *_: object) -> None:
        if self.is_shown:
            print("\r\033[K", end="", file=sys.stderr, flush=True)


def tell(text: object) -> None:
    print(f"ocp-flight: {text}", file=sys.stderr)


class Words:
    """The names and units of pool words: a file with a line `WORD NAME [UNIT]` for each."""

    def __init__(self, name: Optional[str]) -> None:
        self.names: dict[int, str] = {}
        self.units: dict[int, str] = {}
        rows = Path(name).read_text(errors="replace").split("\n") if name else []
        for number, row in enumerate(rows, 1):
            words = row.partition("#")[0].split(None, 2)
            if words and not (len(words) > 1 and re.fullmatch(r"\d{1,3}", words[0], re.ASCII)):
                raise Stop(f"{name}: line {number} is not `WORD NAME [UNIT]`")
            if words:
                self.names[int(words[0])], self.units[int(words[0])] = words[1], words[2].strip() if len(words) > 2 else ""

    def index(self, said: str, pool: int) -> int:
        found = [index for index, name in self.names.items() if name == said]
        index = int(said) if re.fullmatch(r"\d{1,9}", said, re.ASCII) else found[0] if found else None
        if index is None or index >= pool:
            raise Stop(f"{said} is no word of the pool, which has {pool}", 2)
        return index

    def name(self, index: int) -> str:
        return f"word {index}" + (f" {self.names[index]}" if index in self.names else "")

    def value(self, index: int, value: int) -> str:
        return f"{value} {self.units.get(index, '')}".rstrip()


class Flight:
    """A journal with what was said of it: its replay, its texts, its words."""

    def __init__(self, options: argparse.Namespace, names: list[str]) -> None:
        self.options, self.journal = options, opened(names)
        self.words = Words(options.names)
        assert self.journal.engine is not None
        profile, _, self.pool = self.journal.engine[:3]
        texts = [text_of(name, options.ocp, options.include, profile) for name in options.source]
        try:
            with Progress() as progress:
                self.replay = Replay(self.journal, texts, told=progress)
        except Refused as fault:
            raise Stop(f"no engine opens with the parameters of the journal: {fault.name}", NO_ENGINE) from None
        self.cycle_word = self.words.index(options.cycle, self.pool) if options.cycle else None
        known = {image for epoch in self.replay.epochs for image in epoch.images.values()}
        for text in texts:
            if text.image not in known:
                tell(f"{text.path.name}: no procedure of the journal has its image: slots alone")

    def event(self) -> int:
        """That of --before."""
        events = self.replay.events
        before: Optional[int] = self.options.before
        if before is not None and not 0 <= before <= events:
            raise Stop(f"the journal has {events} events", 2)
        return events if before is None else before

    def place(self, event: int, procedure: Optional[int], slot: int) -> dict[str, Any]:
        if procedure is None:
            return {"procedure": None}
        line = self.replay.line(event, procedure, slot)
        return {"procedure": procedure, "slot": slot, "line": line._asdict() if line else None}

    def moment(self) -> dict[str, Any]:
        """Event, time and cycle where the replay is."""
        cycle = None if self.cycle_word is None else self.replay.engine.pool_word(self.cycle_word)
        return {"event": self.replay.now, "time": self.replay.time, "cycle": cycle}


def opened(names: list[str]) -> Journal:
    with Progress() as progress:
        journal = Journal.read(*names, told=progress)
    for fault in journal.unreadable:
        tell(f"{fault.filename}: {fault.strerror}")
    for finding in journal.findings:
        tell(finding)
    if journal.engine is None:
        raise Stop("no journal is in the files", FAILED if journal.unreadable else NO_ENGINE)
    return journal


def said_of_place(place: dict[str, Any]) -> str:
    if place["procedure"] is None:
        return "flight software"
    line = place["line"]
    return f"procedure {place['procedure']}, slot {place['slot']}" + (
        f", {os.path.basename(line['file'])}:{line['number']}: {line['text']}" if line else "")


def said_of_moment(at: dict[str, Any]) -> str:
    return f"event {at['event']}, time {at['time']}" + ("" if at["cycle"] is None else f", cycle {at['cycle']}")


# ---- show

def show(flight: Flight, options: argparse.Namespace) -> tuple[Any, Iterator[str]]:
    replay = flight.replay.goto(flight.event())
    views = {procedure: replay.engine.view(procedure) for procedure in sorted(replay.epoch.images)}
    answer = {**flight.moment(), "events": replay.events,
              "procedures": [{"id": one, **view._asdict(), **flight.place(replay.now, one, view.place)} for one, view in views.items()],
              "pool": [{"word": index, "name": flight.words.names.get(index), "unit": flight.words.units.get(index), "value": value}
                       for index, value in enumerate(replay.engine.pool())]}

    def text() -> Iterator[str]:
        """The lines of the console."""
        yield f"journal {replay.now}"
        for one, view in views.items():
            cause = view.cause + (str(view.fault) if view.cause == "fault" else "")
            pending = view.pending + (f" {view.pending_step}" if view.pending != "none" else "")
            line = replay.line(replay.now, one, view.place)
            comment = f"    ; {line}" if line else ""
            yield f"view {one} {view.status} {cause} place {view.place} depth {view.depth} pending {pending}{comment}"
            yield from (f"r{at} {value:016x}" for at, value in enumerate(view.registers))
        for index, value in enumerate(replay.engine.pool()):
            name = flight.words.names.get(index)
            yield f"pool {index} {value:016x}" + (f"    ; {name} {flight.words.value(index, value)}" if name else "")
    return answer, text()


# ---- why

def cause_of(flight: Flight, hit: Hit) -> dict[str, Any]:
    """A write of a word: the replay is at its event."""
    replay = flight.replay
    registers, inputs = None, []
    at = flight.moment()
    if hit.procedure is not None:
        registers = replay.engine.view(hit.procedure).registers
        for one in replay.inputs(hit.event, hit.procedure):
            if one.event != hit.event or CALLS[one.kind] != "pool_set":  # which reads the word that it writes
                value = one.before if one.reason == "read" else one.after if one.before else None
                inputs.append({"event": one.event, "slot": one.slot, "call": CALLS[one.kind],
                               "word": one.word if one.reason == "read" else None, "value": value})
    return {**at, **flight.place(hit.event, hit.procedure, hit.slot), "before": hit.before, "after": hit.after, "registers": registers,
            "inputs": inputs}


def why(flight: Flight, options: argparse.Namespace) -> tuple[Any, Iterator[str]]:
    word, before = flight.words.index(options.word, flight.pool), flight.event()
    answer: dict[str, Any] = {"word": word, "name": flight.words.names.get(word), "unit": flight.words.units.get(word), "before": before}
    for name, changes in (("last_write", False), ("last_change", True)):
        with Progress() as progress:
            hit = flight.replay.why(word, before, changes, progress)
        answer[name] = cause_of(flight, hit) if hit else None

    def text() -> Iterator[str]:
        yield f"{flight.words.name(word)}, before event {before}"
        is_same = answer["last_write"] == answer["last_change"]
        for name in ("last_write",) if is_same else ("last_write", "last_change"):
            it, label = answer[name], "last write and change" if is_same else name.replace("_", " ")
            yield f"{label}: " + (f"{said_of_moment(it)}: {flight.words.value(word, it['before'])} -> "
                                  f"{flight.words.value(word, it['after'])}" if it else "none: it is 0 since the engine was opened")
            if it:
                yield f"  {said_of_place(it)}"
            if it and it["registers"]:
                yield "  registers: " + ", ".join(f"r{number} {value}" for number, value in enumerate(it["registers"]))
                yield "  read in this step:" + ("" if it["inputs"] else " nothing")
                for one in it["inputs"]:
                    what = "mailbox" if one["word"] is None else flight.words.name(one["word"])
                    value = "empty" if one["value"] is None else one["value"]
                    yield f"    event {one['event']}, slot {one['slot']}, {one['call']}: {what} {value}"
    return answer, text()


# ---- history

class Past:
    """What the words and the procedures did, each with its cycle, or its event if no word has the cycle."""

    def __init__(self, flight: Flight, words: list[int]) -> None:
        replay = flight.replay.goto(0)
        self.points: dict[int, list[tuple[int, int]]] = {word: [(0, 0)] for word in words}
        self.writes, self.changes = dict.fromkeys(words, 0), []
        self.statuses: dict[int, list[dict[str, Any]]] = {}
        loads = [(epoch.event - 1, set(epoch.images)) for epoch in replay.epochs[1:]]
        watched, cycle, loaded = [*words, *([] if flight.cycle_word is None else [flight.cycle_word])], 0, set[int]()

        def note(procedure: int, event: int, status: str, cause: str, fault: int) -> None:
            self.statuses.setdefault(procedure, []).append(
                {"event": event, "at": event if flight.cycle_word is None else cycle, "status": status, "cause": cause, "fault": fault})

        def note_loads(until: int) -> None:
            nonlocal loaded
            while loads and loads[0][0] <= until:
                event, images = loads.pop(0)
                for procedure in images ^ loaded:
                    note(procedure, event, "inactive" if procedure in images else "not loaded", "none", 0)
                loaded = images
        with Progress() as progress:
            for hit in replay.run(replay.look(watched, statuses=1), told=progress):
                note_loads(hit.event)
                if hit.reason == "status":
                    note(hit.procedure or 0, hit.event, STATUSES[hit.after], CAUSES[hit.kind], hit.word)
                    continue
                if hit.word == flight.cycle_word:
                    cycle = hit.after
                if hit.word in self.points:
                    self.writes[hit.word] += 1
                    if hit.before != hit.after:
                        self.points[hit.word].append((hit.event if flight.cycle_word is None else cycle, hit.after))
                        self.changes.append((hit, None if flight.cycle_word is None else cycle))
        note_loads(replay.events)
        self.end = replay.events if flight.cycle_word is None else cycle


def fault_of(row: dict[str, Any]) -> str:
    return f"fault {row['fault']} {FAULTS.get(row['fault'], '')}"


def history(flight: Flight, options: argparse.Namespace) -> tuple[Any, Iterator[str]]:
    words = list(dict.fromkeys(flight.words.index(one, flight.pool) for one in options.words.split(",")))
    past = Past(flight, words)
    changes = [{"event": hit.event, "cycle": cycle, "word": hit.word, "before": hit.before, "after": hit.after,
                **flight.place(hit.event, hit.procedure, hit.slot)} for hit, cycle in past.changes]
    if options.svg:
        series = [chart.Series(flight.words.name(word) + (f", {flight.words.units[word]}" if flight.words.units.get(word) else ""),
                               past.points[word]) for word in words]
        lanes = [chart.Lane(f"procedure {one}", [(row["at"], row["status"]) for row in rows],
                            [(row["at"], fault_of(row)) for row in rows if row["cause"] == "fault"])
                 for one, rows in sorted(past.statuses.items())]
        written(options.svg, chart.draw(series, lanes, (0, past.end), "event" if flight.cycle_word is None else "cycle"))
    answer = {"writes": past.writes, "changes": changes, "statuses": past.statuses}

    def text() -> Iterator[str]:
        for word in words:
            yield f"{flight.words.name(word)}: {past.writes[word]} writes, {len(past.points[word]) - 1} changes"
        shown = changes[-options.last:] if options.last else changes
        if shown:
            yield f"{'event':>10} {'cycle':>8}  {'change':<36} by"
        for one in shown:
            change = f"{flight.words.name(one['word'])}: {one['before']} -> {flight.words.value(one['word'], one['after'])}"
            yield f"{one['event']:>10} {'' if one['cycle'] is None else one['cycle']:>8}  {change:<36} {said_of_place(one)}"
        if len(shown) < len(changes):
            yield f"the last {len(shown)} of {len(changes)} changes; --last 0 shows all"
        for procedure, rows in sorted(past.statuses.items()):
            for row in rows:
                cause = f", {fault_of(row) if row['cause'] == 'fault' else row['cause']}" if row["cause"] != "none" else ""
                yield f"{row['event']:>10} procedure {procedure} {row['status']}{cause}"
    return answer, text()


def written(name: str, text: str) -> None:
    with open(name, "w", encoding="utf-8") as file:
        file.write(text)


# ---- compare

def runs_of(journal: Journal) -> Iterator[tuple[int, int, Any]]:
    """The events in a row: the first one, how many, and what they are; steps of a procedure that follow one another are one run."""
    begin, count, what = 0, 0, None
    for entry in journal.entries():
        now = ("steps", entry.fields[0]) if entry.kind == "steps" and entry.fields else (entry.kind, entry.fields or entry.octets)
        if now == what and now[0] == "steps":
            count += entry.events
            continue
        if count:
            yield begin, count, what
        begin, count, what = begin + count, entry.events, now
    if count:
        yield begin, count, what


def said_of_event(what: Any) -> Optional[str]:
    if what is None:
        return None
    kind, fields = what
    if kind == "steps":
        return f"an instruction of procedure {fields}"
    said = (octets_of(one) if isinstance(one, bytes) else str(one) for one in (fields if isinstance(fields, tuple) else (fields,)))
    return f"{kind} {' '.join(said)}"


def octets_of(octets: bytes) -> str:
    return octets.hex() if len(octets) <= SHOWN else f"{octets[:SHOWN].hex()}.. ({len(octets)} octets)"


def first_difference(one: Journal, other: Journal, told: Progress) -> tuple[int, Any, Any]:
    """The first event in which they differ, and what it is in each: None if that journal has ended; in both if they are the same."""
    event = 0
    for mine, its in zip_longest(runs_of(one), runs_of(other)):
        if mine is None or its is None or mine[2] != its[2]:
            return event, mine and mine[2], its and its[2]
        event += min(mine[1], its[1])
        told(event, 0)
        if mine[1] != its[1]:
            return event, what_at(one, event), what_at(other, event)
    return event, None, None


def what_at(journal: Journal, event: int) -> Any:
    return next((what for begin, count, what in runs_of(journal) if begin <= event < begin + count), None)


def compare(options: argparse.Namespace) -> tuple[Any, Iterable[str], int]:
    one, other = opened(options.journal), opened(options.others)
    engines = [journal.engine[:3] for journal in (one, other) if journal.engine]
    if engines[0] != engines[1]:
        said = ["profile {}, APID {}, {} pool words".format(*engine) for engine in engines]
        return {"engines": said}, [f"the engines differ: {said[0]}; {said[1]}"], FAILED
    with Progress() as progress:
        event, mine, its = first_difference(one, other, progress)
    is_unknown = mine is None and not one.is_whole or its is None and not other.is_whole
    if is_unknown or mine is its is None:
        text = f"the same {event} events" + ("; those after them are missing" if is_unknown else "")
        return {"event": None, "events": event, "first": None, "second": None}, [text], NOT_WHOLE if is_unknown else 0
    answer = {"event": event, "first": said_of_event(mine), "second": said_of_event(its)}
    return answer, [f"event {event} is the first that differs", *(f"  {name}: {said or 'the journal has ended'}" for name, said in (
        ("first", answer["first"]), ("second", answer["second"])))], FAILED


# ---- export, cover

def export(flight: Flight, options: argparse.Namespace) -> tuple[Any, Iterator[str]]:
    if options.sqlite is options.csv is None:
        raise Stop("export wants --sqlite FILE or --csv FOLDER", 2)
    for write, to in ((tables.to_sqlite, options.sqlite), (tables.to_csv, options.csv)):
        if to:
            with Progress() as progress:
                write(flight.replay, flight.words.names, to, progress)
    made = [to for to in (options.sqlite, options.csv) if to]
    return {"written": made}, iter(made)


def covered(options: argparse.Namespace) -> tuple[Any, Iterable[str], int]:
    found: dict[Any, cover.Covered] = {}
    status = 0
    for names in [options.journal, *(options.others or [])]:
        flight = Flight(options, names)
        status = status or (0 if flight.journal.is_whole else NOT_WHOLE)
        with Progress() as progress:
            cover.count(flight.replay, found, progress)
        flight.replay.close()
    if options.lcov:
        written(options.lcov, "".join(one.lcov() for one in found.values()))
    if options.at_least is not None and any(one.percent() < options.at_least for one in found.values()):
        status = FAILED

    def text() -> Iterator[str]:
        for one in found.values():
            yield f"{one.name}: " + ", ".join(f"{hit} of {all_of} {name}" for name, (all_of, hit) in one.numbers().items() if all_of)
            for slot, what in one.gaps():
                line = one.text.lines.get(slot) if one.text else None
                yield f"  slot {slot}: {what}" + (f", {line}" if line else "")
    return [one.answer() for one in found.values()], text(), status


# ---- the words of the command

def count(said: str) -> int:
    if not re.fullmatch(r"\d{1,18}", said, re.ASCII):
        raise argparse.ArgumentTypeError(f"{said} is no number from 0")
    return int(said)


def parser() -> argparse.ArgumentParser:
    made = argparse.ArgumentParser(prog="ocp-flight", description=__doc__, formatter_class=argparse.RawDescriptionHelpFormatter)
    commands = made.add_subparsers(dest="command", required=True, metavar="COMMAND")

    def command(name: str, about: str, *words: tuple[str, str], replays: bool = True) -> argparse.ArgumentParser:
        one = commands.add_parser(name, help=about, description=f"{about[0].upper()}{about[1:]}.")
        for word, what in words:
            one.add_argument(word.lower(), metavar=word, help=what)
        one.add_argument("journal", metavar="JOURNAL", nargs="+", help="a file of the journal")
        one.add_argument("--json", action="store_true", help="answer in JSON")
        if replays:
            one.add_argument("--source", metavar="FILE", action="append", default=[], help="a procedure's text, in C or assembly")
            one.add_argument("--include", metavar="FOLDER", help="where ocp.h is, for a text in C; else the folder of the text")
            one.add_argument("--ocp", metavar="PROGRAM", default="ocp", help="the program that assembles; else `ocp` on the path")
            one.add_argument("--names", metavar="FILE", help="names of pool words: lines `WORD NAME [UNIT]`")
            one.add_argument("--cycle", metavar="WORD", help="the pool word into which flight software puts the cycle")
        return one
    before: dict[str, Any] = {"metavar": "EVENT", "type": count, "help": "before this event; else at the end"}
    command("show", "the state, in the lines of the console").add_argument("--before", **before)
    word = ("WORD", "the number of a pool word, or its name")
    command("why", "who wrote a pool word last, from where, and what it knew", word).add_argument("--before", **before)
    past = command("history", "the changes of pool words, and the statuses of procedures",
                   ("WORDS", "numbers or names of pool words, with commas between"))
    past.add_argument("--svg", metavar="FILE", help="draw them")
    past.add_argument("--last", metavar="N", type=count, default=20, help="how many changes the table has; 0: all; else 20")
    other = command("compare", "the first event in which two journals differ", replays=False)
    other.add_argument("--with", dest="others", metavar="JOURNAL", nargs="+", required=True, help="a file of the other journal")
    out = command("export", "the journal as tables: entries, writes of pool words, statuses, reports")
    out.add_argument("--sqlite", metavar="FILE", help="as a base of SQLite; a number above 2^63 - 1 is its digits")
    out.add_argument("--csv", metavar="FOLDER", help="as a file of each table")
    ran = command("cover", "which instructions, branches and lines of procedures were executed")
    ran.add_argument("--with", dest="others", metavar="JOURNAL", nargs="+", action="append", help="a file of one more journal")
    ran.add_argument("--lcov", metavar="FILE", help="write the lines and branches of the sources for lcov and genhtml")
    ran.add_argument("--at-least", metavar="N", type=float, help="status 1 if an image has fewer percent of instructions or branches")
    return made


COMMANDS = {"show": show, "why": why, "history": history, "export": export}


def answered(options: argparse.Namespace) -> int:
    if options.command == "compare":
        answer, lines, status = compare(options)
    elif options.command == "cover":
        answer, lines, status = covered(options)
    else:
        flight = Flight(options, options.journal)
        answer, lines = COMMANDS[options.command](flight, options)
        status = 0 if flight.journal.is_whole else NOT_WHOLE
    if options.json:
        json.dump(answer, sys.stdout)
        print()
    else:
        for line in lines:
            print(line)
    sys.stdout.flush()
    return status


def main(words: Optional[list[str]] = None) -> int:
    options = parser().parse_args(words)
    try:
        return answered(options)
    except Stop as stop:
        tell(stop)
        return stop.status
    except LibraryFault as fault:
        tell(fault)
        return NO_ENGINE
    except (Differs, SourceFault) as why_not:
        tell(why_not)
        return FAILED
    except KeyboardInterrupt:
        return 130
    except BrokenPipeError:
        os.dup2(os.open(os.devnull, os.O_WRONLY), 1)
        return FAILED
    except OSError as fault:
        tell(f"{fault.filename or 'output'}: {fault.strerror}")
        return FAILED
