"""Random images, of which none may do what `ocp check` says that it never does.

An image is a loop of pieces near the edge of what can be shown: accesses to each region whose last octet is the region's last
one, or the one after it; indexes of the pool that are its last word, or the next; local calls seven deep, or eight; tests and
operations of 32 and 64 bits before them. Most images are accepted for faults. Each of these is activated three times, with random
arguments, pool words and words in its mailbox, which change between its rounds, and with as few pool words as the checker needs.
It may not meet a fault that never comes, and a round of it may not be longer than its bound. The images that are not accepted are
run too: if none of them met a fault, the images would be far from the edge, and the test would show nothing.
"""
import struct
from collections import Counter

from chance import SEED, Parts, chance, in_parts, scaled
from slots import EXIT, call, slot
from verdicts import Flown, verdict_of

IMAGES, PART = 20_000, 250
STACK, ARGUMENTS, WORK = (0x10000000, 4096), (0x20000000, 256), (0x30000000, 1024)
REGIONS = [STACK, ARGUMENTS, WORK, WORK]
ADD, SUB, MUL, DIV, OR, AND, LSH, RSH, MOD, XOR, MOV, ARSH = 0, 1, 2, 3, 4, 5, 6, 7, 9, 10, 11, 12
JEQ, JGT, JGE, JSET, JNE, JSGT, JSGE, JLT, JLE, JSLT, JSLE = 1, 2, 3, 4, 5, 6, 7, 10, 11, 12, 13
# A width in octets, with the bits of its size in an opcode.
WIDTHS = {1: 0x10, 2: 0x08, 4: 0x00, 8: 0x18}
POOL_CALLS = {1: [1, 2, 3], 2: [1, 2, 3, 6]}


def alu(operation, dst, immediate, width=64):
    return slot(operation << 4 | (7 if width == 64 else 4), dst, immediate=immediate)


def alu_by(operation, dst, src, width=64):
    return slot(operation << 4 | 8 | (7 if width == 64 else 4), dst, src)


class Writer:
    """Writes the pieces of an image. A function is a list of slots; a local call names the function that it calls."""

    def __init__(self, draw, profile):
        self.draw, self.choice, self.profile = draw, draw.choice, profile

    def unknown(self, dst):
        """Some number that the checker knows nothing of, in a register from 0 to 5."""
        kind = self.draw.randrange(4)
        if kind == 0:
            return [alu(MOV, 3, ARGUMENTS[0]), slot(0x61 | WIDTHS[8], dst, 3, 8 * self.draw.randrange(32))]
        if kind == 1:
            return [call(4), alu_by(MOV, dst, self.choice([0, 1]))]
        if kind == 2:
            return [alu(MOV, 1, 0), call(1), alu_by(MOV, dst, 0)]
        return [alu_by(MOV, dst, self.draw.randrange(6, 10))]

    def bounded(self, dst, limit):
        """A number below the limit, or a little more: the slots, and after how many of them a jump skips those that follow."""
        limit += self.choice([1, -1, *[0] * 18]) if limit > 1 else 0
        kind = self.choice([*[0, 1, 2, 2, 3] * 4, 4])
        if kind == 0 and limit & (limit - 1) == 0:
            return [alu(AND, dst, limit - 1, self.choice([32, 64]))], None
        if kind == 1:
            return [alu(MOD, dst, limit)], None
        if kind == 2:
            test, most = self.choice([(JGT, limit - 1), (JGE, limit)])
            return [slot(test << 4 | 5, dst, immediate=most)], 0
        if kind == 3:
            return [alu(MOV, 4, limit), slot(JGE << 4 | 8 | 5, dst, 4)], 1
        return [alu(RSH, dst, 64 - max(1, limit.bit_length() - 1))], None

    def access(self):
        """An access whose index has a bound."""
        start, size = self.choice(REGIONS)
        width, scale = self.choice(list(WIDTHS)), self.choice([0, 0, 1, 2, 3])
        count = self.choice([1, 2, 3, 8, 16, 17, 64, 100, 256])
        while (count << scale) + width > size:
            count //= 2
        offset = self.choice([0, 0, size - ((count - 1) << scale) - width])
        offset += 1 if self.draw.random() < 0.03 else 0
        tests, jump = self.bounded(2, max(1, count))
        rest = [alu(LSH, 2, scale)] if scale else []
        if start == STACK[0] and self.draw.random() < 0.5:
            rest += [alu_by(MOV, 3, 10), self.choice([alu(SUB, 3, size), alu(ADD, 3, -size)])]
        else:
            rest += [slot(0x18, 3, immediate=start), slot(0)] if self.draw.random() < 0.3 else [alu(MOV, 3, start)]
        is_store = start != ARGUMENTS[0] and self.draw.random() < 0.5 or self.draw.random() < 0.01
        return self.unknown(2) + skipping(tests, jump, [*rest, alu_by(ADD, 3, 2), self.memory(is_store, width, offset)])

    def memory(self, is_store, width, offset):
        """A load, or a store of either operand, at the address in r3."""
        if not is_store:
            return slot(0x61 | WIDTHS[width], 5, 3, offset)
        if self.draw.random() < 0.5:
            return slot(0x63 | WIDTHS[width], 3, 5, offset)
        return slot(0x62 | WIDTHS[width], 3, 0, offset, self.draw.randrange(2**31))

    def pool(self):
        """An engine call whose index has a bound."""
        tests, jump = self.bounded(1, self.choice([1, 2, 3, 8, 15, 16]))
        rest = [alu(MOV, 2, self.draw.randrange(2**31)), call(self.choice(POOL_CALLS[self.profile]))]
        return self.unknown(1) + skipping(tests, jump, rest)

    def arithmetic(self):
        dst, src, width = self.draw.randrange(6, 10), self.draw.randrange(10), self.choice([32, 64])
        operation = self.choice([ADD, SUB, MUL, DIV, OR, AND, LSH, RSH, MOD, XOR, MOV, ARSH])
        if self.draw.random() < 0.5:
            return [alu_by(operation, dst, src, width)]
        return [alu(operation, dst, self.draw.randrange(width if operation in (LSH, RSH, ARSH) else 2**31), width)]

    def branch(self):
        """A piece that a test of any kind passes over."""
        test = self.choice([JEQ, JGT, JGE, JSET, JNE, JSGT, JSGE, JLT, JLE, JSLT, JSLE])
        width, rest = self.choice([5, 6]), self.piece()
        return [slot(test << 4 | width, self.draw.randrange(6, 10), 0, len(rest), self.choice([0, 1, 7, 255, 2**31 - 1])), *rest]

    def loop(self):
        """A piece that repeats while a register counts to a limit, or past it."""
        counter, rest = self.choice([8, 9]), self.piece()
        step, turns, width = self.choice([1, 1, 2, 3]), self.choice([1, 2, 3, 8, 17]), self.choice([5, 5, 5, 6])
        limit = step * turns + self.choice([0, 0, 0, 1])
        if self.draw.random() < 0.5:
            first, change = 0, alu(ADD, counter, self.choice([step, step, step, -step]))
            test, number = self.choice([(JLT, limit), (JLE, limit), (JNE, limit), (JSLT, limit), (JSLE, limit)])
        else:
            first, change = limit, self.choice([alu(SUB, counter, step), alu(ADD, counter, -step)])
            test, number = self.choice([(JNE, 0), (JGT, 0), (JGE, 1), (JGE, step), (JSGT, 0), (JSGE, 0)])
        return [alu(MOV, counter, first), *rest, change, slot(test << 4 | width, counter, 0, -len(rest) - 2, number)]

    def piece(self):
        kinds = [*[self.access, self.access, self.pool, self.arithmetic, self.arithmetic, self.branch] * 2, self.loop]
        return self.choice(kinds)()

    def function(self, pieces):
        return [one for _ in range(pieces) for one in self.piece()]

    def image(self):
        body = [alu_by(MOV, 6, 2), *self.function(self.draw.randrange(1, 6))]
        depth, functions = self.choice([0, 0, 0, 0, 0, 1, 2, 3, 7, 7, 7, 8]), []
        for number in range(depth):
            caller = functions[-1] if functions else body
            caller.insert(len(caller) - bool(functions), ("call", number))
            functions.append([*self.function(self.draw.randrange(2)), EXIT])
        if self.draw.random() < 0.8:  # it ends steps
            body += [alu(MOV, 1, self.draw.randrange(2**16)), call(5)]
        body += self.function(self.draw.randrange(2))
        body += [slot(0x05, offset=-len(body) - 1)] if self.draw.random() < 0.7 else [EXIT]
        return linked([body, *functions])


def skipping(tests, jump, rest):
    """The slots of a test and those after it, which the jump at a place of the test passes over."""
    if jump is None:
        return tests + rest
    opcode, registers, _, immediate = struct.unpack("<BBhI", tests[jump])
    return tests[:jump] + [struct.pack("<BBhI", opcode, registers, len(rest), immediate)] + rest


def linked(functions):
    """One image of all functions, the first one first."""
    starts = [sum(map(len, functions[:number])) for number in range(len(functions))]
    slots = [one for function in functions for one in function]
    return b"".join(slot(0x85, 0, 1, 0, starts[it[1] + 1] - at - 1) if isinstance(it, tuple) else it for at, it in enumerate(slots)).hex()


@in_parts(4)
class Images(Parts):
    seconds = scaled(15)

    def test_none_does_what_never_comes(self):
        count, counts, flown = scaled(IMAGES // self.parts // PART), Counter(), Flown()
        for number in range(count * self.part, count * (self.part + 1)):
            draw, profile = chance(number), 2 if number % 4 == 3 else 1
            images = [Writer(draw, profile).image() for _ in range(PART)]
            judged = [(image, verdict_of(profile, image)) for image in images]
            flown.fly(draw, profile, judged)
            counts.update(images=PART, safe=sum(verdict.is_safe for _, verdict in judged))
            self.assertEqual(flown.violations, [], f"OCP_SEED={SEED}, images {number * PART} to {(number + 1) * PART - 1}")
        if counts["images"] >= 1000:
            self.assertGreaterEqual(2 * counts["safe"], counts["images"], "fewer than half of the images are accepted")
            self.assertGreater(flown.faulted, 0, "no image that is not accepted met a fault")
