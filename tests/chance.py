"""What random tests share: their seed, how many runs they make, and numbers from a whole range with its corners.

OCP_SEED is another seed than 1, and OCP_RUNS how many times as many runs are made, as 10 or 0.1. What fails names both its seed and
its number among the runs: the same two give the same run again.
"""
from __future__ import annotations

import bisect
import os
import random
import re
import sys
from typing import Any, Callable

from support import ROOT, Case

SEED = os.environ.get("OCP_SEED", "1")
RUNS = float(os.environ.get("OCP_RUNS", "1"))


def scaled(count: int) -> int:
    """The runs, or seconds, that OCP_RUNS asks for in place of these."""
    return max(1, round(count * RUNS))


def chance(*words: Any) -> random.Random:
    """The chance of one run: the same for the same seed and words."""
    return random.Random(" ".join(map(str, (SEED, *words))))


class Parts(Case):
    """A group that makes one part of its runs."""

    part, parts = 0, 1


def in_parts(count: int) -> Callable[[type[Parts]], type[Parts]]:
    """Makes several groups of a class of tests: `part` is 0 to `count - 1`."""
    def divided(tests: type[Parts]) -> type[Parts]:
        tests.parts = count
        for part in range(1, count):
            name = f"{tests.__name__}{part + 1}"
            setattr(sys.modules[tests.__module__], name, type(name, (tests,), {"part": part, "__module__": tests.__module__}))
        return tests
    return divided


def constants(*crates: str) -> set[int]:
    """The numbers in the sources of crates."""
    texts = [path.read_text() for crate in crates for path in sorted((ROOT / "crates" / crate / "src").rglob("*.rt"))]
    found = re.findall(r"\b(?:0x([0-9a-fA-F_]+)|(\d[\d_]*))", "\n".join(texts))
    return {int(digits.replace("_", ""), 16) if digits else int(decimal.replace("_", "")) for digits, decimal in found}


class Numbers:
    """Draws numbers below a limit. A third are corners: 0, the last one, powers of two, constants of the sources, and what is next to
    them. A third have any number of bits, and a third are any number."""

    def __init__(self, draw: random.Random, known: set[int]) -> None:
        self.draw = draw
        self.corners = corners_of(known)

    def below(self, limit: int) -> int:
        kind = self.draw.randrange(3)
        if kind == 0:
            corner = self.draw.randrange(bisect.bisect_left(self.corners, limit) + 1)
            return min(self.corners[corner], limit - 1)
        most = limit if kind == 1 else min(limit, 1 << self.draw.randrange((limit - 1).bit_length() + 1))
        return self.draw.randrange(most)

    def to(self, most: int) -> int:
        """A number from 1 to this one."""
        return 1 + self.below(most)


def corners_of(known: set[int]) -> list[int]:
    """The corners in order, of numbers of 64 bits and one above them."""
    middles = {0, *known, *(1 << bit for bit in range(65))}
    return sorted({it + by for it in middles for by in (-1, 0, 1) if 0 <= it + by <= 2**64})
