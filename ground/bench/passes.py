"""What the built program prints for a pass: its lines, its events, and the state at a moment.

Nothing here knows what an instruction does. A moment is (done, count): `done` whole lines, and then `count` instructions of
the next line, which is a `step` line. Its state is what the program prints for just these lines. What was read of lines that
two scripts have in common is read once.
"""
import hashlib
import re
import secrets
from collections import OrderedDict

from bounds import OCTETS, Refused, run, sentence
from console import decimal, step_of, words_of

LINES = 20_000              # of a script
REGIONS = (("stack", 0x10000000, 4096), ("arguments", 0x20000000, 256))
WORK = {1: 1024, 2: 4096}
ROOM = 16                   # words of a mailbox
FAILED = re.compile(r"tm 1 [24] |refused |discarded ")


def mark_of():
    """A line that no script has, and what it prints."""
    line = f"pool 9{secrets.randbelow(10**15):015}"
    return line, f"{line} BadPoolIndex"


def touched(line):
    """The identifier that a line names, to look at it afterwards; and the image that it would load."""
    words = words_of(line)
    if not words:
        return None, None
    if words[0] == "up" and len(words) == 2 and re.fullmatch("([0-9a-fA-F]{2}){15,}", words[1]):
        octets = words[1].lower()
        return int(octets[22:26], 16), octets[30:-4] if octets[14:18] == "1201" else None
    at = 3 if words[0] == "send" else 1
    if words[0] in ("send", "step", "round", "break", "unbreak", "trace", "view", "mem") and len(words) > at:
        number = decimal(words[at], 65_535)
        if number is not None:
            loads = words[0] == "send" and words[2] == "load" and len(words) == 5
            return number, words[4].lower() if loads else None
    return None, None


def words_put(line):
    """The words that a line would put into a mailbox."""
    words = words_of(line)
    if words[:1] == ["send"] and words[2:3] == ["communicate"]:
        return [number for word in words[4:] if (number := decimal(word)) is not None]
    if words[:1] == ["up"] and len(words) == 2 and words[1][14:18] == "1207":
        octets = words[1][28:-4]
        return [int(octets[at:at + 16], 16) for at in range(0, len(octets), 16)]
    return []


class Pass:
    """A script with the options of its run; `kept` are passes whose lines may be read already."""

    def __init__(self, program, options, script, kept=(), states=None):
        if len(script.encode()) > OCTETS:
            raise Refused(f"the script has over {OCTETS:,} octets")
        self.program = program
        self.options = options
        self.profile = options["profile"]
        self.pool = options["pool"]
        self.words = [word for name, value in options.items() for word in (f"--{name}", str(value))]
        self.lines = script.split("\n")
        if self.lines[-1] == "":
            self.lines.pop()
        if len(self.lines) > LINES:
            raise Refused(f"the script has {len(self.lines):,} lines, and the bench takes {LINES:,}")
        self.states = OrderedDict() if states is None else states
        self.name_lines()
        self.read(*self.longest_prefix(kept))

    def name_lines(self):
        """A name for each prefix of the lines under these options."""
        digest = hashlib.sha256(repr(self.options).encode())
        self.names = [digest.digest()]
        for line in self.lines:
            digest.update(line.encode("utf-8", "replace") + b"\n")
            self.names.append(digest.copy().digest())
        self.key = self.names[-1].hex()

    def longest_prefix(self, kept):
        """How many lines a kept pass has read already, and that pass."""
        best = (0, None)
        for other in kept:
            low, high = 0, min(len(other.names), len(self.names)) - 1
            while low < high:
                middle = (low + high + 1) // 2
                low, high = (middle, high) if other.names[middle] == self.names[middle] else (low, middle - 1)
            sound = low if not other.rows or not other.rows[-1].get("fault") else min(low, len(other.rows) - 1)
            if sound > best[0]:
                best = (sound, other)
        return best

    def ask(self, lines):
        return run([self.program, "run", *self.words], "".join(line + "\n" for line in lines))

    def read(self, begin, other):
        """Runs the script once as it is, and once with a look after each line that is not read already."""
        plain, self.said, self.status = self.ask(self.lines)
        self.rows = other.rows[:begin] if other else []
        self.shared = (other.key if other else None, begin)
        line, mark = mark_of()
        loaded = dict(self.loaded(begin)) if begin else {}
        looks = []
        named = set(loaded)
        asked = [*self.lines[:begin], line, "journal"]
        for text in self.lines[begin:]:
            number, image = touched(text)
            if image is not None:
                named.add(number)
            looks.append(sorted(named) if words_of(text)[:1] == ["work"] else [] if number is None else [number])
            asked += [text, line, "journal", *(f"view {each}" for each in looks[-1])]
        if len(asked) > 99_000:
            raise Refused("the pass is too long for the bench: work lines with many procedures")
        output = iter(self.ask(asked)[0].splitlines())
        for shown in output:
            if shown == mark:
                break
        events = int(next(output, "journal 0").split()[1])
        for text, numbers in zip(self.lines[begin:], looks):
            row, events = self.row(text, numbers, output, mark, events, loaded)
            if row.get("fault") and self.status:
                row["printed"] = row["printed"][:-1] + plain.splitlines()[-1:]
            self.rows.append(row)
            if row.get("fault"):
                break
        joined = [shown for row in self.rows for shown in row["printed"]]
        self.same = joined == plain.splitlines()

    @staticmethod
    def row(text, numbers, output, mark, events, loaded):
        """What one line printed, its events, and what became of the procedures that it names."""
        printed = []
        for shown in output:
            if shown == mark:
                break
            printed.append(shown)
        else:
            return {"printed": printed, "events": 0, "fault": True, "status": {}}, events
        count = int(next(output).split()[1])
        row = {"printed": printed, "events": count - events, "status": {}}
        for number in numbers:
            first = next(output).split()
            is_loaded = first[2] != "NotLoaded"
            if is_loaded:
                for _ in range(11):
                    next(output)
            image = touched(text)[1]
            if is_loaded and loaded.get(number) is None and image is not None:
                row["image"] = [number, image]
            loaded[number] = [first[2], first[3]] if is_loaded else None
            row["status"][number] = loaded[number]
        if words_of(text)[:1] == ["work"]:
            row["free"] = True
        words = words_put(text)
        if words and not any(FAILED.match(shown) for shown in printed):
            row["put"] = [touched(text)[0], words]
        return row, count

    def loaded(self, done):
        """The procedures that are loaded after a number of lines, each with its status and cause."""
        found = {}
        for row in self.rows[:done]:
            found.update(row["status"])
        return {number: said for number, said in found.items() if said is not None}

    def hint(self):
        """Why the last line is refused, in the program's own sentence."""
        if self.status != 1 or not self.rows or not self.rows[-1].get("fault"):
            return None
        return sentence(self.said) or None

    def answer(self, has=None):
        """The rows, from the first that a page with the pass `has` does not have."""
        other, begin = self.shared
        begin = begin if has is not None and has == other else 0
        rows = [dict(row, printed=row["printed"][:40], more=max(0, len(row["printed"]) - 40)) for row in self.rows[begin:]]
        return {"key": self.key, "from": begin, "rows": rows, "said": self.said, "status": self.status, "same": self.same,
                "hint": self.hint()}

    def check(self, done, count):
        step = step_of(self.lines[done]) if 0 <= done < len(self.rows) else None
        if not 0 <= done <= len(self.rows) or count < 0 or count and (not step or count > step[1]):
            raise Refused("there is no such moment in this pass")

    def prefix(self, done, count):
        """The lines of a moment."""
        self.check(done, count)
        last = [f"step {step_of(self.lines[done])[0]} {count}"] if count else []
        return self.lines[:done] + last

    def state(self, done, count, number):
        """What the program prints for the lines of a moment: `view`, `pool`, `mem`, and what a drain would send."""
        self.check(done, count)
        key = (self.names[done], (step_of(self.lines[done])[0], count) if count else None, number)
        if found := self.states.get(key):
            return found
        line, mark = mark_of()
        regions = (*REGIONS, ("work", 0x30000000, WORK[self.profile]))
        known = sorted(self.loaded(done))
        words = [f"pool {index}" for index in range(self.pool)]
        memory = [f"mem {number} 0x{address:x} 256" for _, start, size in regions
                  for address in range(start, start + size, 256)] if number in known else []
        room = [f"send 8 communicate {number}{' 0' * size}" for size in (8, 8, 4, 2, 1)] if number in known else []
        output, _, status = self.ask([*self.prefix(done, count), line, "journal", *(f"view {each}" for each in known), *words,
                                      *memory, line, "drain", line, *room])
        parts = output.split(f"{mark}\n")
        if len(parts) != 4:
            raise Refused(f"the program did not answer (status {status}): {output[-200:]}")
        shown = iter(parts[1].splitlines())
        state = {"journal": int(next(shown).split()[1]), "views": {}, "pool": [], "memory": {},
                 "drain": parts[2].splitlines(), "mailbox": self.mailbox(done, number, parts[3].splitlines())}
        for each in known:
            state["views"][each] = [next(shown) for _ in range(12)]
        state["pool"] = [next(shown).split()[2] for _ in words]
        rest = [line.split()[-1] for line in shown]
        for name, start, size in regions if number in known else ():
            state["memory"][name] = [start, "".join(rest[:size // 256])]
            rest = rest[size // 256:]
        self.states[key] = state
        while len(self.states) > 500:
            self.states.popitem(last=False)
        return state

    def mailbox(self, done, number, answers):
        """The words that wait: their count by what still finds room, and the last ones that were put; None if it is not known."""
        sizes = (8, 8, 4, 2, 1)
        fits = [re.match(r"tm 1 7 ", shown) is not None for shown in answers]
        if len(answers) != len(sizes) or not all(fit or shown.endswith("0019") for fit, shown in zip(fits, answers)):
            return None
        count = ROOM - sum(size for size, fit in zip(sizes, fits) if fit)
        words = [word for row in self.rows[:done] if row.get("put", [None])[0] == number for word in row["put"][1]]
        return words[len(words) - count:]
