"""Which instructions, branches and lines of procedures journals have executed."""
from __future__ import annotations

from typing import Any, Iterator, Optional

from .journal import Told
from .programs import Image, Text
from .replay import Replay


class Covered:
    """How often each instruction of an image was executed, and how often each conditional jump went each way: on, and to its target.
    A jump to the next slot has no ways."""

    def __init__(self, image: Image, text: Optional[Text]) -> None:
        self.image, self.text = image, text
        self.ran = dict.fromkeys(image.starts, 0)
        self.taken = {slot: 0 for slot, target in image.jumps.items() if target != slot + 1}

    @property
    def name(self) -> str:
        return self.text.path.name if self.text else f"image of {self.image.slots} slots, without its text"

    @property
    def ways(self) -> dict[int, tuple[int, int]]:
        return {slot: (self.ran[slot] - taken, taken) for slot, taken in self.taken.items()}

    @property
    def lines(self) -> dict[int, int]:
        """Of each line how often its most executed instruction was."""
        found: dict[int, int] = {}
        for slot, line in (self.text.lines if self.text else {}).items():
            found[line.number] = max(found.get(line.number, 0), self.ran[slot])
        return found

    def numbers(self) -> dict[str, tuple[int, int]]:
        """How many there are and how many were executed."""
        ways = [way for both in self.ways.values() for way in both]
        counts = {"instructions": list(self.ran.values()), "branches": ways, "lines": list(self.lines.values())}
        return {name: (len(found), sum(map(bool, found))) for name, found in counts.items()}

    def percent(self) -> float:
        """The least of instructions and branches."""
        return min(100 * hit / found for found, hit in list(self.numbers().values())[:2] if found) if self.ran else 100

    def gaps(self) -> Iterator[tuple[int, str]]:
        for slot, count in self.ran.items():
            if not count:
                yield slot, "never executed"
            elif slot in self.taken and self.taken[slot] in (0, count):
                yield slot, "always taken" if self.taken[slot] else "never taken"

    def lcov(self) -> str:
        """A record for lcov and genhtml."""
        if self.text is None:
            return ""
        lines, ways, slots = self.lines, self.ways, self.text.lines
        rows = ["TN:", f"SF:{self.text.path}"]
        for number, (slot, both) in enumerate(ways.items()):
            counts = both if self.ran[slot] else ("-", "-")
            rows += [f"BRDA:{slots[slot].number},{number},{way},{count}" for way, count in enumerate(counts) if slot in slots]
        rows += [f"BRF:{2 * len(ways)}", f"BRH:{sum(bool(way) for both in ways.values() for way in both)}"]
        rows += [f"DA:{line},{count}" for line, count in sorted(lines.items())]
        return "\n".join([*rows, f"LF:{len(lines)}", f"LH:{sum(map(bool, lines.values()))}", "end_of_record", ""])

    def answer(self) -> dict[str, Any]:
        return {"name": self.name, "numbers": self.numbers(), "ran": self.ran, "ways": self.ways, "lines": self.lines}


def count(replay: Replay, found: dict[Image, Covered], told: Told = None) -> None:
    """Adds what a journal has executed."""
    for epoch in replay.epochs:
        for table in epoch.tables:
            table.ran[:] = table.taken[:] = [0] * len(table.ran)
    for _ in replay.goto(0).run(replay.look(counts=1), told=told):
        pass
    for epoch in replay.epochs:
        for table, image in zip(epoch.tables, epoch.images.values()):
            one = found.setdefault(image, Covered(image, replay.texts.get(image)))
            for slot in image.starts:
                one.ran[slot] += table.ran[slot]
                if slot in one.taken:
                    one.taken[slot] += table.taken[slot]
