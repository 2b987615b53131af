"""Cases of library calls with each growth of memory refused in turn.

The cases are those of crates/lib_driver/cases that state what their calls ask for. Above a call, `# growths: 6` states that it is
answered `Memory` in six of these runs, and `# growths: 3+` in three or more. An answer other than `Memory` alone follows the number, as
that of a writer with the octets of its vector. A call with no such line needs no memory.

Each of these runs ends in one of two ways. If the program was refused memory for a line of its own, what it printed is a part of the
transcript, whole lines, with its fault on standard error and status 3. Else one call is answered `Memory`, and all others answer as in
the script without that call and with no growth refused; of a list of events those before the refused one keep their effect.

A call that is refused memory asks for no more of it. If the next growth is refused too, that is the program's own, for that call's
answer or for the next line. So the last call of a case has to be one that asks for none or writes. What the program asks for to read
its script is not refused.
"""
import itertools
import re
from collections import Counter

from chance import Parts, in_parts
from preload import COMPILER, Preload
from support import LIBRARY, ROOT, needs, needs_built

CASES = sorted((ROOT / "crates/lib_driver/cases").glob("*/*.stdout"))
GROWTHS = re.compile(r"# growths: (\d+)(\+?)(?: (.+))?")
# The answer of a list of events that ended at a refusal: how many it answered before, and their answers.
EVENTS = re.compile(r"Memory (\d+): (.+)")
# How the program ends that was itself refused memory.
OWN = (3, "fault out of memory\n")


def short(call):
    """A call as a failure says it."""
    return call if len(call) <= 60 else f"{call[:60]}.."


def read_case(text):
    """The calls of a script, and how often each is answered that memory was refused: by its index and that answer."""
    calls, growths, said = [], {}, []
    for line in text.splitlines():
        if found := GROWTHS.fullmatch(line):
            said.append(found)
        elif line and not line.startswith("#"):
            growths.update({(len(calls), one[3] or "Memory"): (int(one[1]), bool(one[2])) for one in said})
            calls.append(line)
            said = []
    if said:
        raise ValueError("a line of growths is above no call")
    return calls, growths


class Trial:
    """The runs of a script."""

    def __init__(self, test, preload, calls, growths):
        self.test, self.preload, self.calls, self.growths = test, preload, calls, growths
        self.others, self.counts = {}, Counter()
        self.whole = self.run(calls)

    def run(self, calls, number=0, length=1):
        ran = self.preload.run([LIBRARY], "".join(f"{call}\n" for call in calls), number, length)
        ran.answers, ran.how = ran.output.splitlines(), (ran.status, ran.errors)
        return ran

    def first_growth(self):
        """The number of the first growth after those that the program asks for to read as long a script."""
        return self.run([" " * len(call) for call in self.calls]).growths + 1

    def with_call(self, index, call):
        """The run with another call in place of the one with this index, or with none there."""
        if (index, call) not in self.others:
            self.others[index, call] = self.run([*self.calls[:index], call, *self.calls[index + 1:]])
        return self.others[index, call]

    def wanted(self, index, answer):
        """The run to compare with the one in which a call is refused and so answered, and all answers that this one is to have."""
        events = EVENTS.fullmatch(answer)
        if not events or events[1] == "0":
            other = self.with_call(index, "")
            return other, [*other.answers[:index], answer, *other.answers[index:]]
        name, _, asked = self.calls[index].partition(" ")
        other = self.with_call(index, f"{name} " + " , ".join(asked.split(" , ")[:int(events[1])]))
        self.test.assertEqual(other.answers[index:index + 1], [f"Ok: {events[2]}"], short(self.calls[index]))
        return other, [*other.answers[:index], answer, *other.answers[index + 1:]]

    def check_program(self, ran):
        """The program itself was refused memory: what it printed is a part of the transcript, whole lines."""
        self.test.assertEqual(ran.how, OWN)
        self.test.assertTrue(ran.output == "" or ran.output.endswith("\n"), "its last line is cut")
        self.test.assertEqual(ran.output, self.whole.output[:len(ran.output)])
        self.test.assertNotEqual(ran.output, self.whole.output)

    def check_call(self, ran, number):
        """A call was refused memory: it answers as it has to, and all other calls as before."""
        pairs = enumerate(itertools.zip_longest(ran.answers, self.whole.answers))
        index, answer = next(((at, one) for at, (one, other) in pairs if one != other), (None, None))
        self.test.assertIsNotNone(index, "no line tells it")
        self.test.assertIn((index, answer), self.growths, short(self.calls[index]))
        other, wanted = self.wanted(index, answer)
        self.test.assertEqual((ran.answers, ran.how), (wanted, other.how), f"{short(self.calls[index])} is refused")
        both = self.run(self.calls, number, 2)
        self.test.assertEqual(both.how, OWN, f"{short(self.calls[index])} is refused, and asks for more memory")
        self.test.assertIn(both.answers, (wanted[:index], wanted[:index + 1]))
        self.counts[index, answer] += 1

    def check(self):
        first = self.first_growth()
        for number in itertools.count(first):
            ran = self.run(self.calls, number)
            if not ran.refused:
                break
            with self.test.subTest(growth=number - first + 1):
                if ran.status == OWN[0]:
                    self.check_program(ran)
                else:
                    self.check_call(ran, number)
        for (index, answer), (count, is_least) in self.growths.items():
            found = self.counts[index, answer]
            is_right = found == count or is_least and found > count
            self.test.assertTrue(is_right, f"{short(self.calls[index])} answers {answer} in {found} runs, not in {count}")


@needs_built(LIBRARY)
@needs(COMPILER or "cc")
@in_parts(3)
class Refusals(Parts):
    seconds = 8

    def test_each_growth_of_each_case(self):
        preload, told = Preload(self.room()), 0
        for path in CASES[self.part::self.parts]:
            calls, growths = read_case(path.with_suffix("").read_text())
            if growths:
                with self.subTest(f"{path.parent.name}/{path.stem}"):
                    trial = Trial(self, preload, calls, growths)
                    self.assertEqual(trial.whole.output, path.read_text())
                    trial.check()
                    told += trial.counts.total()
        self.assertGreater(told, 0, "no growth was a call's")
