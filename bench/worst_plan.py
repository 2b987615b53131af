"""Plans of worst.c: the calls that it makes, and the instructions of the procedures in them."""
import functools
import struct
import sys
from pathlib import Path
from typing import NamedTuple

sys.path.append(str(Path(__file__).resolve().parent.parent / "ground"))
import ground  # noqa: E402
from images import slot  # noqa: E402

CALLS = ("END", "OPEN", "CLOSE", "REQUEST", "DRAIN", "SLICE", "STEP", "NEXT", "SET_BREAK", "CLEAR_BREAK", "TRACE", "MEMORY", "VIEW",
         "POOL_WORD", "EVENTS", "ROOM", "ENTRY", "NOTHING", "PUT_WORD", "ROUND", "FIRST_ENTRY", "RELEASE", "TRACE_RECORD", "VERSION",
         "SIZE", "MAKE_ROOM")
(END, OPEN, CLOSE, REQUEST, DRAIN, SLICE, STEP, NEXT, SET_BREAK, CLEAR_BREAK, TRACE, MEMORY, VIEW, POOL_WORD, EVENTS, ROOM, ENTRY,
 NOTHING, PUT_WORD, ROUND, FIRST_ENTRY, RELEASE, TRACE_RECORD, VERSION, SIZE, MAKE_ROOM) = range(len(CALLS))
STEP_FORM = "<BBB5xQQQQQQ"  # a step of worst.c
DONE, NOTHING_DUE, NOT_LOADED, NONE_RUNNING, NOT_AN_INSTRUCTION, NOT_SET, ANY = 0, 15, 16, 18, 20, 23, 255
OCTETS = 16_000_000  # of a journal in which a plan finds room
APID, POOL_WORDS, PROCEDURES, SLOTS, BREAKPOINTS, OUTBOX = 291, 256, 16, 2048, 8, 64
TARGET = 16  # the procedure that is measured: the last one of a full table
ABSENT = 999  # an identifier that none of them has: it is compared with all
# The octets of an entry of the journal; a request's has the packet after them.
ENTRIES = {REQUEST: 7, SLICE: 9, ROUND: 9, STEP: 9, SET_BREAK: 7, CLEAR_BREAK: 7, TRACE: 7, DRAIN: 7, PUT_WORD: 13}
FILLER = 20  # octets of an entry with a packet without data


class Row(NamedTuple):
    """What a measured call took."""
    status: int
    instructions: int
    stack: int
    copied: int
    calls: int
    heap_calls: int
    number: int


class Plan:
    """The calls that worst.c makes, and the names of those that it measures. With a split, the store is in use, and the entry
    of each measured call wraps round its end, with the given number of its octets before the end."""

    def __init__(self, profile, split=None):
        self.profile, self.split, self.octets, self.names, self.count = profile, split, bytearray(), [], 0
        self.calls, self.steps = [], []  # the calls of the names, and all steps for a message
        # Of the store: its size in octets and entries, the lengths of those that are held and their sum, where the next one begins.
        self.capacity, self.entries, self.held, self.used, self.end_at = 0, 0, [], 0, 0
        for number, name in enumerate(("nothing", "copies nothing")):  # what counting itself takes
            self.make(NOTHING, number, name=(name,))

    def make(self, call, *numbers, octets=b"", name=None, status=DONE):
        length = ENTRIES[call] + len(octets) if call in ENTRIES and status == DONE else 0
        if name is not None and self.split is not None and self.split < length:
            self.fill_up_to(-self.split)
        if length:
            self.enter(length)
        numbers = [*numbers, 0, 0, 0, 0, 0][:5]
        self.octets += struct.pack(STEP_FORM, call, name is not None, status, *numbers, len(octets))
        self.octets += octets + bytes(-len(octets) % 8)
        self.steps.append((call, numbers, octets[:60], name, status))
        if name is not None:
            self.names.append(name)
            self.calls.append(call)

    def step(self, number):
        """What a step is."""
        call, numbers, octets, name, status = self.steps[number]
        return f"{CALLS[call]} {numbers} {octets.hex()} {name}, wanted status {status}"

    def enter(self, length):
        """Notes an entry, and releases all others before if there is no room for it."""
        if len(self.held) == self.entries or self.used + length > self.capacity:
            self.release(len(self.held))
        self.held.append(length)
        self.used, self.end_at = self.used + length, (self.end_at + length) % self.capacity

    def release(self, count):
        self.used -= sum(self.held[:count])
        del self.held[:count]
        self.make(RELEASE, count)

    def fill_up_to(self, place):
        """Makes entries of rejected packets until the next one begins at this place of the store. The last of them is held."""
        before = (place - FILLER - self.end_at) % self.capacity
        for length in ([before] if before >= FILLER else [FILLER, before + self.capacity - FILLER] if before else []) + [FILLER]:
            self.request(ground.Request("none", 99, bytes(length - FILLER)))
        self.release(len(self.held) - 1)

    def open(self, entries=10000, words=POOL_WORDS, octets=OCTETS, name=None):
        self.make(OPEN, self.profile, APID, words, entries, octets, name=name)
        self.count, self.capacity, self.entries, self.held, self.used, self.end_at = 0, octets, entries, [], 0, 0

    def close(self, name=None):
        self.make(CLOSE, name=name)

    def request(self, request, name=None, flags=0, status=DONE, spoil=False):
        packet = bytearray(request.packet(self.count, flags, 9, APID))
        if spoil:
            packet[-1] ^= 1
        self.count = (self.count + 1) & 0x3FFF
        self.make(REQUEST, 5, octets=bytes(packet), name=name, status=status)

    def debug(self, call, procedure, number):
        self.make(call, procedure, number)

    def activate(self, procedure=TARGET, arguments=b"", budget=0, name=None, flags=0):
        self.request(ground.activate(procedure, arguments, budget if self.profile == 2 else None), name, flags)

    def end(self):
        return bytes(self.octets) + struct.pack(STEP_FORM, END, *[0] * 8)


# ---- instructions

EXIT, STEP_END = slot(0x95), slot(0x85, immediate=5)
LOOP = slot(0x05, offset=-1)


def wide(dst, value):
    return slot(0x18, dst, immediate=value & 0x7FFFFFFF) + slot(0, immediate=value >> 32)


class Kind(NamedTuple):
    """A kind of instruction: its class, its name, its image, and the instructions that set its registers."""
    of: str
    name: str
    image: bytes
    before: bytes = b""


ARITHMETIC = {"add": 0, "sub": 1, "mul": 2, "or": 4, "and": 5, "lsh": 6, "rsh": 7, "xor": 10, "mov": 11, "arsh": 12}
DIVISION = {"div": (3, 0), "sdiv": (3, 1), "mod": (9, 0), "smod": (9, 1)}
JUMPS = {"jeq": 1, "jgt": 2, "jge": 3, "jset": 4, "jne": 5, "jsgt": 6, "jsge": 7, "jlt": 10, "jle": 11, "jslt": 12, "jsle": 13}
LOADS = {"ldxw": 0x61, "ldxh": 0x69, "ldxb": 0x71, "ldxdw": 0x79, "ldxsw": 0x81, "ldxsh": 0x89, "ldxsb": 0x91}
STORES = {"stxw": 0x63, "stxh": 0x6B, "stxb": 0x73, "stxdw": 0x7B}
STORES_IMMEDIATE = {"stw": 0x62, "sth": 0x6A, "stb": 0x72, "stdw": 0x7A}
# R6, R7 and R8 are the addresses of the regions: stack, arguments, work.
REGIONS = {"stack": (6, 0x10000000), "arguments": (7, 0x20000000), "work": (8, 0x30000000)}
ADDRESSES = b"".join(slot(0xB7, dst, immediate=address) for dst, address in REGIONS.values())


def arithmetic_kinds():
    for width, base in ((64, 0x07), (32, 0x04)):
        for name, number in ARITHMETIC.items():
            yield Kind("arithmetic", f"{name}{width} by a number", slot(number << 4 | base, 2, immediate=3))
            yield Kind("arithmetic", f"{name}{width} by a register", slot(number << 4 | base | 8, 2, 3))
        yield Kind("arithmetic", f"neg{width}", slot(0x80 | base, 2))
        for bits in (8, 16, 32)[: 3 if width == 64 else 2]:
            yield Kind("arithmetic", f"movsx{width} of {bits} bits", slot(0xB8 | base, 2, 3, bits))
        for name, (number, offset) in DIVISION.items():
            opcode = number << 4 | base
            for divisor in (0, 1, -1, 7):
                before = slot(0xB7, 2, immediate=-77777) + slot(0xB7, 3, immediate=divisor)
                yield Kind("division", f"{name}{width} by a register", slot(opcode | 8, 2, 3, offset), before)
                yield Kind("division", f"{name}{width} by a number", slot(opcode, 2, 0, offset, divisor), before)
    for bits in (16, 32, 64):
        for name, opcode in (("le", 0xD4), ("be", 0xDC), ("swap", 0xD7)):
            yield Kind("arithmetic", f"{name} of {bits} bits", slot(opcode, 2, immediate=bits))
    yield Kind("wide load", "lddw", wide(2, 1 << 40))


# The instructions that fault, each with those before it. R3 and R9 are 0, which is outside of memory.
FAULTS = {**{f"{name} outside of memory": (b"", slot(opcode, 2, 9)) for name, opcode in LOADS.items()},
          **{f"{name} outside of memory": (b"", slot(opcode, 9, 3)) for name, opcode in STORES.items()},
          **{f"{name} outside of memory": (b"", slot(opcode, 9)) for name, opcode in STORES_IMMEDIATE.items()},
          "a store into the arguments": (slot(0xB7, 3, immediate=0x20000000), slot(0x7B, 3, 2)),
          "a bad pool index": (slot(0xB7, 1, immediate=-1), slot(0x85, immediate=2)),
          "a local call too deep": (slot(0x85, src=1, immediate=-1) * 7, slot(0x85, src=1, immediate=-1))}


def memory_kinds():
    for region, (register, _) in REGIONS.items():
        for offset in (0, 3):
            for name, opcode in LOADS.items():
                yield Kind("load", f"{name} of the {region}", slot(opcode, 2, register, offset), ADDRESSES)
            if region != "arguments":
                for name, opcode in STORES.items():
                    yield Kind("store", f"{name} to the {region}", slot(opcode, register, 3, offset), ADDRESSES)
                for name, opcode in STORES_IMMEDIATE.items():
                    yield Kind("store", f"{name} to the {region}", slot(opcode, register, 0, offset, 9), ADDRESSES)


def jump_kinds():
    yield Kind("jump", "ja", slot(0x05))
    yield Kind("jump", "ja32", slot(0x06))
    for width, base in ((64, 0x05), (32, 0x06)):
        for name, number in JUMPS.items():
            for value in (-5, 0, 5):
                before = slot(0xB7, 2, immediate=value)
                yield Kind("jump", f"{name}{width} with a number", slot(number << 4 | base, 2, immediate=1), before)
                yield Kind("jump", f"{name}{width} with a register", slot(number << 4 | base | 8, 2, 3), before)


def call_kinds(profile):
    index = slot(0xB7, 1, immediate=POOL_WORDS - 1)
    for number, name in enumerate(("pool_get", "pool_set", "pool_add", "next_param", "step_end", "pool_compare_set"), 1):
        if number < 6 or profile == 2:
            yield Kind(f"call {number}", name, slot(0x85, immediate=number), b"" if number == 4 else index)


def local_calls(count):
    """Calls of a function that only exits; each is two instructions."""
    calls = b"".join(slot(0x85, src=1, immediate=count - at) for at in range(count))
    return calls + EXIT + EXIT


@functools.lru_cache(maxsize=None)
def kinds(profile):
    return [*arithmetic_kinds(), *memory_kinds(), *jump_kinds(), *call_kinds(profile)]


# ---- the parts of a shape

COUNTS = (5, 20)
COPIES = 3 * (2 * sum(COUNTS) + 1) + 1  # of a kind, for three ways
WAYS = {"plain": (0, False), "breakpoints": (BREAKPOINTS, False), "trace": (BREAKPOINTS, True)}
# The instructions whose loads take the most: on x86-64, on aarch64, and of two slots.
DEAREST_LOADS = ("jsgt64 with a register", "jsgt32 with a number", "lddw")
UNREACHED = LOOP + STEP_END * BREAKPOINTS + EXIT  # after the code that runs, for breakpoints


def full_table(plan):
    """Fifteen procedures that run, each with a suspend that waits."""
    for procedure in range(1, TARGET):
        plan.request(ground.load(procedure, LOOP))
        plan.activate(procedure)
        plan.request(ground.suspend(procedure, 9))


def load_target(plan, image, budget=1000000):
    """Loads and starts the procedure that is measured, with eight instructions that it never reaches."""
    plan.request(ground.load(TARGET, image + UNREACHED))
    plan.activate(budget=budget)


def begin_way(plan, image, way, procedure=TARGET):
    """Sets breakpoints at the instructions that are not reached, and the trace."""
    breakpoints, traced = WAYS[way]
    for at in range(breakpoints):
        plan.debug(SET_BREAK, procedure, (len(image) + len(LOOP)) // 8 + at)
    if traced:
        plan.debug(TRACE, procedure, 1)


def end_way(plan, image, way, procedure=TARGET):
    breakpoints, traced = WAYS[way]
    for at in range(breakpoints):
        plan.debug(CLEAR_BREAK, procedure, (len(image) + len(LOOP)) // 8 + at)
    if traced:
        plan.debug(TRACE, procedure, 0)


def storing(profile):
    """The image of a procedure that stores to stack and work: both are cleared before another one uses them."""
    end_of_work = 0x30000000 + (1024 if profile == 1 else 4096) - 8
    return slot(0x7B, 10, 2, -8) + slot(0xB7, 2, immediate=end_of_work) + slot(0x7B, 2, 2) + LOOP


def drop(plan):
    plan.request(ground.abort(TARGET))
    plan.request(ground.unload(TARGET))


def send_words(plan, count):
    while count > 0:
        plan.request(ground.communicate(TARGET, [7] * min(count, 8)))
        count -= min(count, 8)


# Calls that share a row.
CONTROLS = "stop, suspend, resume, abort"
DEBUGGERS = "`ocp_set_break`, `ocp_clear_break`, `ocp_trace`"
READERS = "`ocp_view`, `ocp_put_word`"
SHORTEST = ("`ocp_trace_record`", "`ocp_pool_word`", "`ocp_events`", "`ocp_version`", "`ocp_size`", "`ocp_room`", "`ocp_first_entry`")
