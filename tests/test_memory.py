"""The program with each growth of memory that it asks for refused in turn, also in its workers.

Each such run ends in one of two ways. Either it gives the whole transcript: then a worker's turn found no memory and was spent, or
what was refused would have kept the input for a hint. Or it gives a prefix of it, with `fault Memory` on standard error and status 3.
"""
import itertools

from preload import COMPILER, Preload
from support import PROGRAM, Case, needs

# Two procedures: a loop of 20 rounds that takes a word and ends a step, and one without calls.
LOOP = "b70100001400000017010000010000005501feff00000000850000000400000085000000050000009500000000000000"
SHORT = "b70000000500000007000000020000009500000000000000"
BEGIN = f"""send 9 load 1 {LOOP}
send 9 load 2 {SHORT}
send 1 activate 1 0a0b
send 1 activate 2
send 9 communicate 1 7 8
send 9 stop 1 0
"""
END = "view 1\nview 2\ndrain\nsend 9 status\ntrace 1 on\nbreak 2 1\ntrace\njournal\n"
STEPS = f"{BEGIN}step 1 100\nstep 2 100\n{END}send 0 unload 2\n"
ASSEMBLY = "again: sub64 r1, 1\njne64 r1, 0, again\ncall 3\nexit\n"
# Procedures without an end: all turns of the first are off the lock, and one in two of the second.
SPIN = "0700000001000000"
ENDLESS = f"{SPIN}0500feff00000000", f"{SPIN}b70100000100000085000000030000000500fcff00000000"


class Refusing(Case):
    def setUp(self):
        self.preload = Preload(self.room())

    def spent(self, words, given):
        """Refuses each growth in turn; how many of these runs gave the whole transcript."""
        whole = self.preload.run([PROGRAM, *words], given)
        self.assertEqual((whole.status, whole.refused), (0, 0), whole.errors)
        spent = 0
        for number in itertools.count(1):
            ran = self.preload.run([PROGRAM, *words], given, refuse=number)
            if not ran.refused:
                self.assertGreater(number, 1, "no growth was refused")
                return spent
            with self.subTest(words=words, growth=number, last=given.splitlines()[-1]):
                if ran.status == 0:
                    self.assertEqual((ran.output, ran.errors), (whole.output, ""))
                    spent += 1
                else:
                    self.assertEqual((ran.status, ran.errors), (3, "fault Memory\n"))
                    self.assertEqual(ran.output, whole.output[:len(ran.output)])


@needs(COMPILER or "cc")
class Lines(Refusing):
    seconds = 3

    def test_lines(self):
        for words, given in ((["run"], STEPS), (["asm"], ASSEMBLY), (["list"], LOOP)):
            self.spent(words, given)


@needs(COMPILER or "cc")
class Workers(Refusing):
    seconds = 8

    def test_workers(self):
        hints = self.spent(["run"], STEPS)
        for workers in (1, 2, 16):
            with self.subTest(workers=workers):
                spent = self.spent(["run"], f"{BEGIN}work {workers} 2 100\n{END}")
                self.assertGreater(spent, hints, "no growth of a worker was refused")


@needs(COMPILER or "cc")
class Asked(Case):
    """However many turns a work line has, it asks for as many growths: of two procedures, and one worker."""

    seconds = 2

    def growths(self, profile, image, turns):
        budget = " 4000000" if profile == 2 else ""
        lines = [f"send 9 load {id} {image}\nsend 1 activate {id}{budget}\n" for id in (5, 65535)]
        words = [PROGRAM, "run", "--profile", profile, "--journal", "1010"]
        ran = Preload(self.room()).run(words, "".join(lines) + f"work 1 7 {turns}\n")
        self.assertEqual((ran.status, ran.refused), (0, 0), ran.errors)
        return ran.growths

    def test_turns_ask_for_no_memory(self):
        for profile, image in itertools.product((1, 2), ENDLESS):
            with self.subTest(profile=profile, image=image):
                few = self.growths(profile, image, 2)
                self.assertEqual([self.growths(profile, image, turns) for turns in (3, 50, 1000)], [few] * 3)
