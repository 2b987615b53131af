"""Random calls of seats, answered through the lock of a shared engine and by its book: by one thread both have to print the same.

A script makes an engine and shares it several times, with 1 to 64 seats; in every fifth one the journal may be full. In 2,000 scripts
each identifier is that of a procedure that runs while a ticket is taken of each one that runs, and is an argument of each call for a
procedure; each place is asked for a breakpoint. Times, budgets, lengths of requests, indices, values and counts are drawn from their
whole ranges (tests/chance.py), also near the constants of the crates below. A turn's gate prints the calls that it gets, and takes a
ticket each time it is called, so a program that holds the lock then never ends. No memory is refused, so the word Memory fails a
script. Each of ANSWERS has to come.

Other classes compute their answers: `Numbered` has many more numbers, and each length of a request, `Budgets` the largest budget,
and `Turns` many turns and a full journal.
`python3 tests/test_lock.py NUMBER` prints a script.
"""
import itertools
import struct
import subprocess
import sys
import tempfile

from chance import RUNS, SEED, Numbers, Parts, chance, constants, in_parts, scaled
from profile_model.packets import ground_packet
from slots import EXIT, SPIN, call, move, slot
from support import LOCK, Case, needs_built

SCRIPTS, BATCH = 2000, 50
MOST_SEATS, MOST_LOADED, NUMBERS, MOST_ENTRIES = 64, 16, 65536, 1_000_000
LONGEST = 65542  # octets of a packet
TIMES, VALUES = 2**32, 2**64
WORK, WORK_OCTETS = 0x30000000, {1: 1024, 2: 4096}
LOAD, UNLOAD, ACTIVATE, STOP, SUSPEND, RESUME, COMMUNICATE, STATUS, ABORT = 1, 2, 3, 4, 5, 6, 7, 8, 12
ENDED = "status 0 "
KNOWN = constants("ocp_slices", "ocp_seats", "ocp_core")
# Each has to be an answer of some script, as the beginning of a line.
ANSWERS = """Ok Committed( Empty Stale JournalFull None NoneRunning SeatsFull MissingSeat NothingDue Discarded( NotLoaded
NotRunning Idle Full Stepped(Ran Stepped(Called Stepped(Broke Stepped(Ended Stepped(Faulted Ran Called Broke Ended Faulted(
NotAnInstruction AlreadySet BreaksFull NotSet BadPoolIndex""".split()


class Writer:
    """The lines of a script."""

    def __init__(self, draw, ids, places, is_full):
        self.draw, self.ids, self.places, self.is_full = draw, ids, places, is_full
        self.any = Numbers(draw, KNOWN).below
        self.lines, self.count = [], 0
        self.profile, self.apid, self.words = draw.choice((1, 2)), self.any(2047), 1 + self.any(256)

    def add(self, *words):
        self.lines.append(" ".join(map(str, words)))

    def seat(self):
        return self.draw.randrange(1, self.seats + 1)

    def rounds(self):
        """Of a loop: few, but once in a while."""
        return 1 + (self.any(2**16) if self.draw.random() < 0.02 else self.draw.randrange(200))

    def image(self):
        """A procedure that ends: some pieces, each with a loop."""
        draw, code = self.draw, b""
        for _ in range(draw.randrange(1, 4)):
            address = WORK + draw.randrange(WORK_OCTETS[self.profile] - 7)
            code += move(1, address) + slot(0x7A, 1, immediate=draw.randrange(2**31))
            code += draw.choice((
                move(1, draw.randrange(4)) + call(5), move(1, draw.randrange(8)) + move(2, 1) + call(3), call(4), b"", b"",
                slot(0x79, 3, 1, draw.choice((0, 0, 0, 32760)))))  # a read outside memory, once in a while
            code += move(6, self.rounds()) + slot(0x17, 6, immediate=1) + slot(0x55, 6, offset=-2)
        return code + EXIT

    def request(self, octets):
        self.add("request", self.seat(), self.any(TIMES), octets.hex() or "-")

    def ask(self, subtype, data, is_sound=False):
        """A request of some seat, with some error once in a while, unless it is sound."""
        draw = self.draw
        self.count = (self.count + 1) % 16384
        packet = bytearray(ground_packet(self.apid, self.count, draw.randrange(16), subtype, data))
        if not is_sound and draw.random() < 0.02:
            packet[draw.randrange(len(packet))] ^= 1 << draw.randrange(8)
        self.request(packet)

    def load(self, id):
        image = self.image()
        self.ask(LOAD, struct.pack(">HH", id, len(image)) + image, True)

    def ask_at_length(self):
        """A request of any length: a load of another identifier if it can be one, which is then unloaded."""
        length, id = self.any(LONGEST + 1), self.any(NUMBERS)
        if length < 17:
            return self.request(self.draw.randbytes(length))
        image = (EXIT * (length // 8))[:length - 17]
        self.ask(LOAD, struct.pack(">HH", id, len(image)) + image)
        if id not in self.ids:
            self.ask(UNLOAD, struct.pack(">H", id), True)

    def activate(self, id):
        budget = struct.pack(">I", self.draw.choice((0, 0, 1, 2, self.any(2**32)))) if self.profile == 2 else b""
        self.ask(ACTIVATE, struct.pack(">H", id) + budget + b"\0\0", True)

    def event(self, kind, id):
        """One of the calls for a procedure."""
        draw, any = self.draw, self.any
        near = draw.choice((draw.randrange(12), draw.randrange(12), any(NUMBERS)))
        if kind == ACTIVATE:
            self.activate(id)
        elif kind in (STOP, SUSPEND):
            self.ask(kind, struct.pack(">HH", id, draw.choice((draw.randrange(4), any(NUMBERS)))))
        elif kind == COMMUNICATE:
            words = [any(VALUES) for _ in range(draw.randrange(1, 4))]
            self.ask(kind, struct.pack(f">HB{len(words)}Q", id, len(words), *words))
        elif isinstance(kind, int):
            self.ask(kind, struct.pack(">H", id))
        else:
            more = {"step": [], "slice": [1 + any(2**32 - 1)], "trace": [draw.choice(("true", "false", "false"))]}
            self.add(kind, self.seat(), id, *more.get(kind, [near]))

    def other(self):
        """One of the calls for no procedure."""
        draw, any, seat, kind = self.draw, self.any, self.seat(), self.draw.randrange(12)
        if kind < 2:
            self.add("take")
        elif kind < 4:
            self.add("run", draw.randrange(9), any(2**32))
        elif kind < 6:
            self.add("commit", seat, draw.randrange(9))
        elif kind < 8:
            self.add("turn", seat, any(2**32))
        elif kind == 8:
            self.add("turns", seat, any(2**32), any(2**12) if draw.random() < 0.01 else draw.randrange(4))
            self.add("heard", seat)
        elif kind < 11:
            self.add("drain", seat, any(TIMES))
        else:
            self.add("put_word", seat, draw.choice((self.words - 1, self.words, any(self.words), any(VALUES))), any(VALUES))
        if draw.random() < 0.02:
            self.ask(STATUS, b"")

    def take_turns(self):
        """Each that runs is taken, and the first one again. What comes between is no turn of another one."""
        for _ in range(len(self.ids) + 1):
            self.add(*self.draw.choice((["take"], ["turn", self.seat(), 1])))
        for _ in range(3):
            self.ask_at_length()
            self.add("drain", self.seat(), self.any(TIMES))
            self.add("turn", self.seat(), 1)
            self.add("heard", self.seat())

    def events(self, ids, places):
        draw = self.draw
        events = [(kind, id) for kind in ("step", "slice", "trace", "set_break", "clear_break") for id in ids]
        events += [(draw.choice((STOP, SUSPEND, RESUME, COMMUNICATE, ABORT, UNLOAD, ACTIVATE)), id) for id in ids for _ in range(2)]
        draw.shuffle(events)
        for kind, id in events:
            self.event(kind, id)
            if draw.random() < 0.8:
                self.other()
        self.load(ids[0])
        for place in (*places, *range(9), 0):
            self.add("set_break", self.seat(), ids[0], place)
        for _ in range(draw.randrange(4)):
            self.event(draw.choice(("step", "slice", "set_break", "trace", RESUME)), draw.randrange(NUMBERS))

    def share(self, seats, ids, places):
        """Calls of a number of seats, in which these identifiers run and these places are asked for."""
        draw = self.draw
        late = draw.randrange(seats) if draw.random() < 0.5 else 0
        self.seats, self.ids = seats - late, ids
        for _ in range(self.seats):
            self.add("seat")
        for id in ids:
            self.load(id)
            self.activate(id)
        self.take_turns()
        for _ in range(late):
            self.add("seat")
        self.seats = seats
        if seats == MOST_SEATS:
            self.add("seat")
        self.events(ids, places)
        # What runs is unloaded, so that the next sharing has room.
        for id in ids:
            self.ask(ABORT, struct.pack(">H", id), True)
            self.ask(UNLOAD, struct.pack(">H", id), True)
        for number in range(1, seats + 1):
            self.add("heard", number)
        if draw.random() < 0.5:
            self.add("close", self.seat())
        self.add("close")

    def script(self, seats, sharings):
        few = 3000
        capacity = 1 + self.draw.randrange(200) if self.is_full else few + self.any(MOST_ENTRIES // seats - few + 1)
        self.add("new", self.profile, self.apid, self.words, capacity)
        ids, size = self.ids, -(-len(self.ids) // sharings)
        for first in range(0, len(ids), size):
            if first:
                self.add("share")
            self.share(seats, ids[first:first + size], self.places[first:first + size])
        self.add("entries")
        return self.lines


def shuffled(name):
    """All numbers of 16 bits, in an order of chance, and then some of them again."""
    numbers = list(range(NUMBERS))
    chance(name).shuffle(numbers)
    return numbers + numbers[:MOST_LOADED]


IDS, PLACES = shuffled("ids"), shuffled("places")


def script_of(number):
    """The script of this number. Those of 2,000 scripts in which the journal is not full have all identifiers and places."""
    size, first, draw = -(-NUMBERS // 1600), number // 5 * 4 + number % 5, chance(number)
    mine = slice(first * size % NUMBERS, first * size % NUMBERS + size)
    ids = IDS[mine]
    writer = Writer(draw, ids, PLACES[mine], number % 5 == 4)
    return writer.script(1 + number % MOST_SEATS, -(-len(ids) // draw.randrange(11, MOST_LOADED + 1)))


def run(way, lines, seconds=60):
    """What the program prints of lines, and how it ends. Through pipes so much would take twice as long."""
    with tempfile.TemporaryFile("w+") as given, tempfile.TemporaryFile("w+") as taken:
        given.writelines(f"{line}\n" for line in lines)
        given.seek(0)
        try:
            done = subprocess.run([LOCK, way], stdin=given, stdout=taken, stderr=subprocess.PIPE, text=True, timeout=seconds, check=False)
            how = f"status {done.returncode} {done.stderr}"
        except subprocess.TimeoutExpired:
            how = f"no end after {seconds} seconds"
        taken.seek(0)
        return taken.read(), how


@needs_built(LOCK)
@in_parts(4)
class Scripts(Parts):
    seconds = scaled(8)

    def fail_first(self, number, scripts, book, lock):
        """Names the first line whose answers are not as they have to be."""
        places = [(at, number + which, line) for which, script in enumerate(scripts) for at, line in enumerate(script, 1)]
        nothing = itertools.repeat("no answer")
        for (at, which, line), one, other in zip(places, itertools.chain(book, nothing), itertools.chain(lock, nothing)):
            if one != other or "Memory" in one or one.startswith(("error", "no answer")):
                self.fail(f"OCP_SEED={SEED}, script {which}, line {at}, {line[:80]}:\n"
                          f"{one[:200]} by the book,\n{other[:200]} through the lock")
        self.fail(f"OCP_SEED={SEED}, scripts {number} to {number + BATCH - 1}: {book[-1]} by the book, {lock[-1]} through the lock")

    def compare(self, number):
        """The answers of some scripts, from this number on."""
        scripts = [script_of(number + which) for which in range(BATCH)]
        lines = [line for script in scripts for line in script]
        (book, how), (lock, also) = run("book", lines), run("lock", lines)
        if book != lock or "Memory" in book or "error" in book or book.count("\n") != len(lines):
            self.fail_first(number, scripts, [*book.splitlines(), how], [*lock.splitlines(), also])
        self.assertEqual((how, also), (ENDED, ENDED))
        return {answer for answer in ANSWERS if f"\n{answer}" in lock}

    def test_the_lock_answers_as_the_book(self):
        count, seen = scaled(SCRIPTS // self.parts // BATCH), set()
        for batch in range(count * self.part, count * (self.part + 1)):
            seen |= self.compare(BATCH * batch)
        if RUNS >= 1:
            self.assertEqual([answer for answer in ANSWERS if answer not in seen], [], "no script is answered these")


class Spinning(Case):
    """Through the lock, with an engine of one seat, in which procedures run that never end."""

    def answers(self, lines, ids, capacity=MOST_ENTRIES):
        """The answers of lines after those that make the engine."""
        begin = [f"new 1 5 1 {capacity}", "seat"]
        for id in ids:
            load = struct.pack(">HH", id, len(SPIN)) + SPIN
            begin += [f"request 1 0 {ground_packet(5, 0, 0, *it).hex()}" for it in ((LOAD, load), (ACTIVATE, struct.pack(">HH", id, 0)))]
        lines = [*begin, *lines]
        output, how = run("lock", lines)
        answers = output.splitlines()
        missing = "".join(lines[len(answers):][:1])
        self.assertEqual((how, missing), (ENDED, ""), "the end, and the first line with no answer")
        return answers[len(begin):]


def heard(calls, id, counts, committed):
    """What a gate heard of works, of which the first ones were committed and for the others the journal was full."""
    each, full = counts // calls, calls - committed
    return (f"before {calls} {calls * id} {counts} committed {committed} {committed * id} {committed * each}"
            f" empty 0 0 0 stale 0 0 0 full {full} {full * id} 0")


@needs_built(LOCK)
class Numbered(Spinning):
    """A call with any number is answered, and is nobody's turn: two procedures are taken one after the other."""

    seconds = scaled(7)
    turn = ["take", "run 0 1", "commit 1 0"]

    def test_numbers_of_the_whole_range(self):
        for number in range(scaled(8)):
            draw = chance("numbers", number)
            any, lines, wanted = Numbers(draw, KNOWN).below, [], []
            for id in (1, 2) * 25_000:
                index, budget = draw.choice((0, any(VALUES))), 1 + any(2**32 - 1)
                lines += [f"put_word 1 {index} {any(VALUES)}", f"slice 1 9 {budget}", f"drain 1 {any(TIMES)}", f"request 1 {any(TIMES)} -"]
                wanted += ["BadPoolIndex" if index else "Ok", "0 NotLoaded", "NothingDue", "Discarded(Short)"]
                lines += self.turn
                wanted += [str(id), f"{id} 1", "Committed(1)"]
            found = ((line, answer, other) for line, answer, other in zip(lines, self.answers(lines, (1, 2)), wanted) if answer != other)
            self.assertIsNone(next(found, None), f"OCP_SEED={SEED}, run {number}: the first line with another answer")

    def test_each_length(self):
        lines = []
        for length in range(LONGEST + 1):
            pieces = [f"{'00' * 64}*{length // 64}"] * (length >= 64) + ["00" * (length % 64)] * (length % 64 > 0)
            lines += [f"request 1 0 {'|'.join(pieces) or '-'}", *self.turn]
        answers = self.answers(lines, (1, 2))
        self.assertEqual([length for length, it in enumerate(answers[::4]) if not it.startswith("Discarded(")], [])
        self.assertEqual([length for length, it in enumerate(answers[1::4]) if it != str(1 + length % 2)][:1], [])


@needs_built(LOCK)
class Budgets(Spinning):
    """With the largest budget, as many instructions: no part of any budget is missing."""

    seconds = 20
    most = 2**32 - 1

    def test_the_largest(self):
        heard_once = heard(1, 7, self.most, 1)
        for lines, wanted in (
            ([f"turn 1 {self.most}", "heard 1"], [f"Committed({self.most})", heard_once]),
            ([f"slice 1 7 {self.most}"], [f"{self.most} Ran"]),
            (["close", f"work 1 {self.most} 1", "heard 1"], ["Ok", "Ok", heard_once]),
        ):
            with self.subTest(lines):
                self.assertEqual(self.answers(lines, [7]), wanted)


@needs_built(LOCK)
class Turns(Spinning):
    """As many turns as were asked for, and as many entries as a journal has room for."""

    seconds = 17
    turns = 10_000_000

    def test_turns(self):
        for lines in ([f"turns 1 1 {self.turns}", "heard 1"], ["close", f"work 1 1 {self.turns}", "heard 1"]):
            with self.subTest(lines):
                self.assertEqual(self.answers(lines, [7], 1000)[-1], heard(self.turns, 7, self.turns, 998))

    def test_sharing_at_any_length_of_the_journal(self):
        entries = 2  # those of the load and the activation
        below = Numbers(chance("sharings"), KNOWN).below
        lengths = sorted({entries, MOST_ENTRIES, *(entries + below(MOST_ENTRIES - 1) for _ in range(scaled(100)))})
        lines = []
        for length, following in zip(lengths, lengths[1:]):
            lines += [f"turns 1 1 {following - length}", "take", "close", "share", "seat", "seat"]
        lines += ["close", "entries"]
        answers = self.answers(lines, [7])
        wanted = ["Ok", "7", "Ok", "Ok", "1", "2"] * (len(lengths) - 1) + ["Ok"]
        self.assertEqual([f"{line}: {it}" for line, it, other in zip(lines, answers, wanted) if it != other], [])
        self.assertEqual(answers[-1].count(", Steps 1 7 1 Ran"), MOST_ENTRIES - entries)


if __name__ == "__main__":
    print("\n".join(script_of(int(sys.argv[1]))))
