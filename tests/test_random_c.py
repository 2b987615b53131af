"""The verdict of `ocp check` on 300 random procedures in C, and runs of them.

`tools/c_procedures.py` writes the texts: each is right, and meets no fault with a pool of 16 words. `tools/c_build` makes the images.
They run with random arguments, pool words and words in the mailbox, and with as few pool words as their verdict asks for. None may
meet a fault or exceed its bound, and as many as docs/AUTHOR.md states have to be accepted. That number is of clang 14, and is not
compared with another clang's. What is not shown is listed by its reason if there are fewer: the last instruction before it in the
image that writes the register.
"""
import os
import random
import re
from collections import Counter
from concurrent.futures import ThreadPoolExecutor

from c_tools import TOOLS, build, needs_clang, newest
from chance import SEED, RUNS, chance, scaled
from support import ROOT, Case, ocp, run
from verdicts import Flown, verdict_of

from c_procedures import Writer

PROCEDURES, CLANG, POOL_WORDS = 300, 14, 16
STATED = r"Of 300 correct random procedures in C it accepts (\d+) for faults, (\d+) of them with a bound"


class Procedure:
    """A text, its image, and what the checker shows of it."""

    def __init__(self, folder, number):
        path = folder / f"{number:03}.c"
        text = Writer(chance(number)).procedure()
        path.write_text(text)
        built = build(path)
        self.image, self.name = built.stdout.strip(), f"OCP_SEED={SEED}, procedure {number}:\n{text}"
        if built.returncode or built.stderr:
            raise AssertionError(f"tools/c_build does not take {self.name}{built.stderr}")
        self.verdict = verdict_of(1, self.image)
        self.is_accepted = self.verdict.is_safe and self.verdict.words is not None
        self.is_bounded = self.is_accepted and self.verdict.bound is not None
        # All are right: one that is not accepted may not fault either, with the whole pool.
        self.verdict.words = self.verdict.words if self.is_accepted else POOL_WORDS
        self.verdict.is_safe = True

    def reasons(self):
        """The kinds of what is not shown."""
        listing = ocp(["list"], self.image).stdout
        for at, instruction, fault, register in re.findall(r"^slot (\d+)   (\w+) .*?   may be (\w+): (r\d+) is", self.verdict.said, re.M):
            yield f"{fault} at {instruction}, after {writer(listing, int(at), register)}"
        if re.search("^round   not bounded: slots", self.verdict.said, re.M):
            yield "a loop without a step end that is not counted"


def writer(listing, slot, register):
    """The last instruction before a slot that writes a register."""
    at, found = 0, "no other"
    for line in listing.splitlines():
        if at < slot and re.match(rf"(?!st|j)\w+ {register}\b", line):
            found = f"{line.split()[0]} from the stack" if "[r10" in line else line.split()[0]
        at += 2 if line.startswith("lddw") else 1
    return found


@needs_clang()
class Procedures(Case):
    seconds = scaled(20)

    def made(self):
        """All procedures, which several processes of clang make at a time."""
        clang = newest("clang")
        if not re.search(r"^ +bpf +", run([clang, "--print-targets"]).stdout, re.M):
            self.skipTest("no clang for BPF")
        os.environ.update({tool.upper().replace("-", "_"): newest(tool) for tool in TOOLS})
        folder = self.room()
        with ThreadPoolExecutor(len(os.sched_getaffinity(0))) as pool:
            return list(pool.map(lambda number: Procedure(folder, number), range(scaled(PROCEDURES))))

    def check_share(self, procedures):
        """As many are accepted as docs/AUTHOR.md states, and as many with a bound."""
        stated = re.search(STATED, " ".join((ROOT / "docs/AUTHOR.md").read_text().split()))
        self.assertIsNotNone(stated, "docs/AUTHOR.md does not state how many are accepted")
        if int(re.search(r"version (\d+)", run([newest("clang"), "--version"]).stdout)[1]) == CLANG:
            found = sum(one.is_accepted for one in procedures), sum(one.is_bounded for one in procedures)
            reasons = Counter(reason for one in procedures for reason in set(one.reasons()))
            self.assertGreaterEqual(found[0], int(stated[1]), reasons.most_common(12))
            self.assertGreaterEqual(found[1], int(stated[2]), reasons.most_common(12))

    def test_none_meets_a_fault_or_exceeds_its_bound(self):
        procedures, flown = self.made(), Flown()
        flown.fly(random.Random(SEED), 1, [(one.image, one.verdict) for one in procedures])
        names = {one.image: one.name for one in procedures}
        self.assertEqual([names[it.split()[-1]] + it for it in flown.violations], [])
        if (SEED, RUNS) == ("1", 1):
            self.check_share(procedures)
