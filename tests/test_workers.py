"""What workers do under load on shared words, compared with the counts that they have to reach.

Random sets of up to 16 procedures count in words of the pool, each by pool_add or, under the second profile, by pool_get and
pool_compare_set until the word is its own. For any workers, budgets and turns, each word has to be the number of counts in the end.
The answers that the procedures saw of a word have to be 1 to that number, each once: their sum and the sum of their squares are
compared (modulo 2^64, as registers have it). The sets have each number of workers, 1 to 16; `work` lines of 17 and of 64 are refused.

Through the library there are 1 to 64 workers, and a gate counts the calls of each seat. These counts have to add up to the seat's
entries in the journal, and the words to the counts of the procedures. If all procedures run without an end, each turn of each seat
does its whole budget.

Each number of workers has a thread for each, of which one is the caller's (tests/preload.c counts them, if there is a C compiler).
"""
import re
import struct
from collections import namedtuple

from chance import SEED, Numbers, Parts, chance, constants, in_parts, scaled
from preload import COMPILER, Preload
from profile_model.packets import ground_packet
from slots import EXIT, SPIN, call, move, slot
from support import LOCK, PROGRAM, needs_built, ocp

MOST_WORKERS, MOST_SEATS, MOST_TURNS, MOST_BUDGET = 16, 64, 2**14, 1_000_000
APID, LOAD, ACTIVATE = 0x123, 1, 3
POOL_GET, POOL_ADD, COMPARE_SET = 1, 3, 6
POOL_WORDS, MOST_COUNTS = 4, 300
INSTRUCTIONS = 3_000_000  # of workers that spin
MODULUS = 2**64
KNOWN = constants("ocp_slices", "ocp_seats", "ocp_core")
Counter = namedtuple("Counter", "id word counts")
# What a gate heard: of how many calls, and the sums of their identifiers and of their counts.
Sums = namedtuple("Sums", "calls ids counts")


def copy(dst, src):
    return slot(0xBF, dst, src)


def back_to(start, code, opcode, dst, src=0):
    """A conditional jump at the end of the code to a place in it."""
    return slot(opcode, dst, src, (start - len(code)) // 8 - 1)


def image_of(counter, by_compare):
    """Counts so often: r6 is the sum of the answers, r7 that of their squares, r8 how many counts are left, r9 the answer."""
    code = move(6, 0) + move(7, 0) + move(8, counter.counts)
    start = len(code)
    if by_compare:
        code += move(1, counter.word) + call(POOL_GET) + copy(9, 0)
        code += move(1, counter.word) + copy(2, 9) + copy(3, 9) + slot(0x07, 3, immediate=1) + call(COMPARE_SET)
        code += back_to(start, code, 0x5D, 0, 9)
        code += slot(0x07, 9, immediate=1)
    else:
        code += move(1, counter.word) + move(2, 1) + call(POOL_ADD) + copy(9, 0)
    code += slot(0x0F, 6, 9) + copy(1, 9) + slot(0x2F, 1, 1) + slot(0x0F, 7, 1) + slot(0x17, 8, immediate=1)
    return code + back_to(start, code, 0x55, 8) + EXIT


def counters_of(draw, ids):
    return [Counter(id, draw.randrange(POOL_WORDS), draw.randrange(1, MOST_COUNTS)) for id in ids]


def counts_of(counters, word):
    """How often the procedures count in a word."""
    return sum(it.counts for it in counters if it.word == word)


class Working(Parts):
    def setUp(self):
        self.preload = Preload(self.room())
        if not COMPILER:
            print("skipped: no C compiler, so threads are not counted")

    def worked(self, words, given, workers):
        """Runs a program that makes one thread less than it has workers."""
        ran = self.preload.run(words, given)
        self.assertEqual((ran.status, ran.errors), (0, ""))
        if COMPILER:
            self.assertEqual(ran.threads, workers - 1, "threads beside the caller's")
        return ran.output


class Console(Working):
    seconds = scaled(3)

    def script(self, draw, counters, profile, by_compare, workers):
        to, lines = Numbers(draw, KNOWN).to, []
        for it in counters:
            lines += [f"send 0 load {it.id} {image_of(it, by_compare).hex()}", f"send 0 activate {it.id}" + (" 0" if profile == 2 else "")]
        for crew in (workers, *(draw.randrange(1, MOST_WORKERS + 1) for _ in range(draw.randrange(3)))):
            lines.append(f"work {crew} {to(draw.choice((8, 400, MOST_BUDGET)))} {to(draw.choice((60, MOST_TURNS)))}")
        # What the workers left is done one by one.
        lines += [f"step {it.id} 1000000" for it in counters]
        lines += [f"view {it.id}" for it in counters] + [f"pool {word}" for word in range(POOL_WORDS)]
        return "\n".join(lines) + "\n"

    def check(self, output, counters):
        registers = {}
        for id, state, lines in re.findall(r"^view (\d+) (.*)\n((?:r\d+ \w+\n)+)", output, re.M):
            registers[int(id)] = [int(value, 16) for value in re.findall(r" (\w+)", lines)]
            self.assertTrue(state.startswith("inactive exited"), f"procedure {id} is {state}")
        pool = [int(value, 16) for value in re.findall(r"^pool \d+ (\w+)$", output, re.M)]
        self.assertEqual((len(registers), len(pool)), (len(counters), POOL_WORDS), output[-300:])
        for word in range(POOL_WORDS):
            answers, squares = (sum(registers[it.id][at] for it in counters if it.word == word) % MODULUS for at in (6, 7))
            total = counts_of(counters, word)
            wanted = (total, total * (total + 1) // 2 % MODULUS, total * (total + 1) * (2 * total + 1) // 6 % MODULUS)
            self.assertEqual((pool[word], answers, squares), wanted, f"value, answers and squares of word {word}")

    def test_words_have_their_counts(self):
        for number in range(scaled(200)):
            draw, profile = chance(number), 1 + number % 2
            by_compare = profile == 2 and draw.random() < 0.7
            counters = counters_of(draw, range(draw.randrange(1, 17)))
            script = self.script(draw, counters, profile, by_compare, 1 + number // 2 % MOST_WORKERS)
            with self.subTest(seed=SEED, set=number, script=script):
                done = ocp(["run", "--profile", profile, "--journal", 1000000], script)
                self.assertEqual((done.returncode, done.stderr), (0, ""), done.stdout[-200:])
                self.check(done.stdout, counters)

    def test_more_workers_are_refused(self):
        for workers in (0, MOST_WORKERS + 1, 64):
            with self.subTest(workers=workers):
                done = ocp(["run"], f"work {workers} 1 1\n")
                self.assertEqual((done.returncode, done.stdout), (1, "error 1 Syntax\n"))

    def test_threads(self):
        for workers in range(1, MOST_WORKERS + 1):
            with self.subTest(workers=workers):
                self.worked([PROGRAM], f"work {workers} 1 1\n", workers)


@needs_built(LOCK)
@in_parts(2)
class Seats(Working):
    """Through the library, for each number of workers."""

    seconds = 5

    def answers(self, images, budget, workers, turns, after):
        """Of the workers' seats, and of lines that one seat then asks: what the gate heard, the entries, and the answers."""
        lines = [f"new 2 {APID} {POOL_WORDS} 70000", "seat"]
        for id, image in images:
            requests = (LOAD, struct.pack(">HH", id, len(image)) + image), (ACTIVATE, struct.pack(">HIH", id, 0, 0))
            lines += [f"request 1 0 {ground_packet(APID, 0, 0, *request).hex()}" for request in requests]
        lines += ["close", f"work {workers} {budget} {turns}", *(f"heard {seat}" for seat in range(1, workers + 1)), "entries", *after]
        answers = self.worked([LOCK, "lock"], "".join(f"{line}\n" for line in lines), workers).splitlines()
        self.assertEqual(len(answers), len(lines), answers[-1][:300])
        heard = [list(map(int, re.findall(r"\d+", it))) for it in answers if it.startswith("before")]
        entries = [it.split() for it in next(it for it in answers if it.startswith("Request")).split(", ")]
        self.assertEqual(len(heard), workers)
        counts = {seat: [int(it[3]) for it in entries if it[:2] == ["Steps", str(seat)]] for seat in range(1, workers + 1)}
        return [[Sums(*it[at:at + 3]) for at in range(0, len(it), 3)] for it in heard], counts, answers[len(lines) - len(after):]

    def check_seat(self, turns, sums, counts):
        """The calls of a seat's gate, and the counts of its entries."""
        before, committed, empty, stale, full = sums
        outcomes = (committed, empty, stale, full)
        # After a commit of nothing one instruction is done under the lock, if the procedure still runs. A stale work is dropped.
        stepped, dropped = len(counts) - committed.calls, before.counts - committed.counts
        self.assertEqual((before.calls, before.ids), (sum(it.calls for it in outcomes), sum(it.ids for it in outcomes)))
        self.assertLessEqual(before.calls, turns)
        self.assertTrue(dropped >= 0 if stale.calls else dropped == 0, "a work is dropped")
        self.assertEqual((sum(counts), full.calls), (committed.counts + stepped, 0))
        self.assertTrue(0 <= stepped <= empty.calls, "single instructions")

    def test_words_have_their_counts(self):
        for workers in range(1 + self.part, MOST_SEATS + 1, self.parts):
            draw = chance("library", workers)
            to, counters, by_compare = Numbers(draw, KNOWN).to, counters_of(draw, range(1, 17)), draw.random() < 0.5
            budget, turns = to(draw.choice((8, 400, 2**32 - 1))), to(draw.choice((30, 30, 1000)))
            after = ["share", "seat", *(f"slice 1 {it.id} 1000000" for it in counters), "close"]
            after += [f"pool_word {word}" for word in range(POOL_WORDS)]
            with self.subTest(seed=SEED, workers=workers, budget=budget, turns=turns):
                images = [(it.id, image_of(it, by_compare)) for it in counters]
                heard, counts, answers = self.answers(images, budget, workers, turns, after)
                for seat, sums in enumerate(heard, 1):
                    with self.subTest(seat=seat, heard=sums, counts=counts[seat]):
                        self.check_seat(turns, sums, counts[seat])
                self.assertEqual(answers[-POOL_WORDS:], [str(counts_of(counters, word)) for word in range(POOL_WORDS)])

    def test_each_turn_does_its_whole_budget(self):
        for workers in range(1 + self.part, MOST_SEATS + 1, self.parts):
            to = Numbers(chance("spinning", workers), KNOWN).to
            budget = to(INSTRUCTIONS // workers)
            turns = to(min(400, INSTRUCTIONS // workers // budget))
            with self.subTest(seed=SEED, workers=workers, budget=budget, turns=turns):
                heard, counts, _ = self.answers([(id, SPIN) for id in range(1, 17)], budget, workers, turns, [])
                for seat, (before, committed, empty, stale, full) in enumerate(heard, 1):
                    with self.subTest(seat=seat):
                        self.assertEqual((before.calls, before.counts), (turns, turns * budget))
                        self.assertEqual((empty.calls, committed.calls + stale.calls + full.calls), (0, turns))
                        self.assertEqual(counts[seat], [budget] * committed.calls)
