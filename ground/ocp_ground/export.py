"""A journal as tables: entries, writes of pool words, statuses, reports."""
from __future__ import annotations

import csv
import os
import sqlite3
from pathlib import Path
from typing import Any, Iterator, Union

from .engine import CAUSES, STATUSES
from .journal import Told
from .replay import Replay

TABLES = {"entries": "entry, event, events, kind, time, procedure, word, value, octets",
          "words": "event, word, name, before, after, procedure, slot, file, line",
          "statuses": "event, procedure, before, after, cause, fault",
          "reports": "event, time, service, subtype, octets"}


def number(value: int) -> Union[int, str]:
    """As SQLite keeps it: it has no integers above 2^63 - 1, so those are their digits."""
    return value if value < 1 << 63 else str(value)


def entries(replay: Replay, names: dict[int, str]) -> Iterator[tuple[Any, ...]]:
    for one in replay.journal.entries():
        fields, kind = one.fields or (), one.kind
        has_time, is_put = kind in ("request", "drain"), kind == "put word"
        yield (one.index, one.event, one.events, kind, fields[0] if has_time else None,
               None if has_time or is_put else fields[0], fields[0] if is_put else None, number(fields[1]) if is_put else None,
               one.octets.hex())


def words(replay: Replay, names: dict[int, str]) -> Iterator[tuple[Any, ...]]:
    for hit in replay.goto(0).run(replay.look(range(replay.engine.pool_words))):
        line = None if hit.procedure is None else replay.line(hit.event, hit.procedure, hit.slot)
        yield (hit.event, hit.word, names.get(hit.word), number(hit.before), number(hit.after), hit.procedure,
               None if hit.procedure is None else hit.slot, line and line.file, line and line.number)


def statuses(replay: Replay, names: dict[int, str]) -> Iterator[tuple[Any, ...]]:
    """Changes of the status of a procedure that stays loaded."""
    for hit in replay.goto(0).run(replay.look(statuses=1)):
        yield hit.event, hit.procedure, STATUSES[hit.before], STATUSES[hit.after], CAUSES[hit.kind], hit.word


def reports(replay: Replay, names: dict[int, str]) -> Iterator[tuple[Any, ...]]:
    for event, time, octets in replay.reports():
        while octets:
            length = int.from_bytes(octets[4:6], "big") + 7
            yield event, time, octets[7], octets[8], octets[:length].hex()
            octets = octets[length:]


ROWS = {"entries": entries, "words": words, "statuses": statuses, "reports": reports}


def rows_of(table: str, replay: Replay, names: dict[int, str], told: Told) -> Iterator[tuple[Any, ...]]:
    for row in ROWS[table](replay, names):
        yield row
        if told:
            told(min(row[1 if table == "entries" else 0], replay.events), replay.events)


def to_csv(replay: Replay, names: dict[int, str], folder: str, told: Told = None) -> None:
    """A file of each table, in a folder that is made if it is not there."""
    Path(folder).mkdir(exist_ok=True)
    for table, columns in TABLES.items():
        with open(Path(folder, f"{table}.csv"), "w", newline="") as file:
            writer = csv.writer(file)
            writer.writerow(columns.split(", "))
            writer.writerows(rows_of(table, replay, names, told))


def to_sqlite(replay: Replay, names: dict[int, str], name: str, told: Told = None) -> None:
    """A file that takes the place of an older one once it is whole."""
    part = f"{name}.part"
    Path(part).unlink(missing_ok=True)
    try:
        with sqlite3.connect(part) as base:
            for table, columns in TABLES.items():
                base.execute(f"CREATE TABLE {table} ({columns})")
                places = ", ".join("?" * len(columns.split(", ")))
                base.executemany(f"INSERT INTO {table} VALUES ({places})", rows_of(table, replay, names, told))
        base.close()
        os.replace(part, name)
    except sqlite3.Error as fault:
        raise OSError(0, str(fault), name) from None
