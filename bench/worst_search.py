"""Random flights over small stores, which look for calls that take more than their rows in docs/EMBED.md: a part of `worst`."""
import random
from collections import Counter
from typing import NamedTuple

import ground
import worst_plan as plans
from worst_plan import ANY, EXIT, LOOP, STEP_END, Plan, Row, slot

# A flight measures each row this often, by different calls.
EACH = 10
IDENTIFIERS = range(1, 19)
WHOLE = 1 << 20  # octets that no small store has: to make room for them empties it
LIMIT = 400  # octets of the longest packet of most flights
EMPTY_PACKET = 13  # octets of a telecommand without data
BAD_CODE = slot(0x05, offset=500)


class Sample(NamedTuple):
    """A call of a flight that was measured: the head of its row, its number, the flight's seed, and what the call took."""
    head: str
    number: object
    seed: int
    row: Row

    def count(self):
        """The number n of its row."""
        if self.number is None:
            return self.row.number
        return 0 if self.head.startswith("`ocp_release`") and self.row.status != plans.DONE else self.number

    def fixed(self, field, each):
        """What it took without the part of the row that is taken n times."""
        return getattr(self.row, field) - each * self.count()


class Flight(Plan):
    """Calls in random order of an engine with a small store. It knows which procedures are loaded, so each load and unload gets
    the room that it needs."""

    def __init__(self):
        super().__init__(1)

    # -- the store

    def begin(self, seed):
        """The engine with its first procedures."""
        self.seed, self.chance, self.profile = seed, random.Random(seed), 1 + seed % 2
        self.room = self.chance.choice([LIMIT + 20, LIMIT + 60, 600, 1000, 3000, 17000])
        self.room += self.chance.randrange(64)
        self.open(self.chance.choice([12, 40, 1000]), self.chance.choice([1, 40, 256]), self.room)
        self.loaded = set()
        for procedure in self.chance.sample(IDENTIFIERS, plans.PROCEDURES):
            self.load(procedure)
            if self.chance.random() < 0.9:
                self.start(procedure)
        for procedure in self.chance.sample(sorted(self.loaded), self.chance.choice([0, 0, 0, 0, 5, 13, 15, 16])):
            self.forget(procedure)
        if self.chance.random() < 0.5:
            self.reject(self.chance.randrange(64))

    def make_room(self):
        """Releases entries until there is room for one more, or more of them."""
        wanted = self.chance.choice([LIMIT, LIMIT, self.room, WHOLE])
        self.make(plans.MAKE_ROOM, min(wanted, self.room))

    def enter(self, length):
        """The store of a flight is not followed."""

    def measured(self, head, number=0):
        return "flight", head, number, self.seed

    def send(self, request, name=None, flags=None, spoil=False, room=True):
        """A request, with room for its entry unless it may be refused."""
        if room:
            self.make(plans.MAKE_ROOM, min(self.room, max(LIMIT, len(request.data) + 20)))
        if flags is None:
            flags = self.chance.choice([11, 11, 11, 11, 15, 9, 3, 0, 8])
        self.request(request, name, flags, ANY, spoil)

    def debug(self, call, procedure, number):
        self.make(plans.MAKE_ROOM, LIMIT)
        self.make(call, procedure, number, status=ANY)

    # -- what others need before

    def body(self):
        """The image of a procedure that is loaded without refusal."""
        kinds = plans.kinds(self.profile)
        few = [self.chance.choice(kinds).image for _ in range(self.chance.choice([0, 0, 1, 2, 5, 12]))]
        steps = STEP_END * self.chance.choice([0, 1, 5])
        return steps + b"".join(few) + STEP_END * 2 + self.chance.choice([LOOP, LOOP, LOOP, EXIT])

    def load(self, procedure, image=None):
        """Loads it if there is a place for it."""
        if procedure in self.loaded or len(self.loaded) < plans.PROCEDURES:
            self.send(ground.load(procedure, image or self.body()), flags=0)
            self.loaded.add(procedure)

    def forget(self, procedure):
        """Unloads it in whatever state it is: an abort is refused only if no completion more can wait."""
        self.make(plans.MAKE_ROOM, LIMIT)
        self.make(plans.DRAIN, 5, status=ANY)
        self.send(ground.abort(procedure), flags=self.chance.choice([0, 8]))
        self.send(ground.unload(procedure), flags=0)
        self.loaded.discard(procedure)

    def start(self, procedure):
        budget = self.chance.choice([0, 1000000]) if self.profile == 2 else None
        self.send(ground.activate(procedure, bytes(self.chance.choice([0, 0, 8])), budget), flags=0)
        if self.chance.random() < 0.5:
            self.send(ground.suspend(procedure, 9), flags=self.chance.choice([0, 8]))

    def any_loaded(self):
        """Often the last of them; 1 if there is none."""
        loaded = sorted(self.loaded) or [1]
        return self.chance.choice([loaded[-1], self.chance.choice(loaded)])

    def any_procedure(self):
        """Mostly one that is loaded."""
        if self.loaded and self.chance.random() < 0.9:
            return self.any_loaded()
        return self.chance.choice([*IDENTIFIERS, plans.ABSENT])

    def stir(self):
        """What happens between the calls that are measured."""
        procedure, draw = self.any_procedure(), self.chance.random()
        if draw < 0.3:
            self.make(plans.MAKE_ROOM, LIMIT)
            self.make(plans.SLICE, procedure, self.chance.randint(1, 30), status=ANY)
        elif draw < 0.5:
            call, number = self.chance.choice([(plans.SET_BREAK, 9), (plans.CLEAR_BREAK, 9), (plans.TRACE, 1)])
            self.debug(call, procedure, self.chance.randint(0, number))
        elif draw < 0.8:
            self.send(self.control(procedure), flags=self.chance.choice([0, 8, 11]))
        elif draw < 0.9:
            self.start(procedure)
        elif procedure in self.loaded:
            self.forget(procedure)
            self.load(self.chance.choice(IDENTIFIERS))
        if self.chance.random() < 0.3:
            self.make(plans.DRAIN, 5, status=ANY)

    def control(self, procedure):
        step = self.chance.choice([0, 0, 1, 9])
        return self.chance.choice([ground.stop(procedure, step), ground.suspend(procedure, step), ground.resume(procedure),
                                   ground.abort(procedure)])

    # -- the calls that are measured, each with the head of its row

    def soil(self, procedure):
        """Lets a procedure use all its memory, which the next one needs cleared."""
        self.load(procedure, plans.storing(self.profile))
        self.send(ground.activate(procedure, bytes(256), 0 if self.profile == 2 else None), flags=0)
        self.make(plans.MAKE_ROOM, LIMIT)
        self.make(plans.SLICE, procedure, 3, status=ANY)

    def any_image(self):
        """An image that is mostly taken: some instructions of a dear kind, or others."""
        kinds = plans.kinds(self.profile)
        if self.chance.random() < 0.3:
            name = self.chance.choice(plans.DEAREST_LOADS)
            return next(kind.image for kind in kinds if kind.name == name) * self.chance.randint(1, 6) + EXIT * 2
        if self.room > 17000 and self.chance.random() < 0.3:
            return self.chance.choice(kinds).image * self.chance.choice([100, 500, 1000]) + self.body()
        return self.body() + (BAD_CODE if self.chance.random() < 0.1 else b"")

    def measure_load(self, head):
        procedure = self.any_procedure()
        if procedure not in self.loaded and len(self.loaded) == plans.PROCEDURES and self.chance.random() < 0.8:
            self.forget(max(self.loaded))
        elif self.chance.random() < 0.8:
            self.forget(procedure)
            if self.chance.random() < 0.5:
                self.soil(procedure)
                self.forget(procedure)
        image = self.any_image()
        if BAD_CODE not in image and procedure not in self.loaded and len(self.loaded) < plans.PROCEDURES:
            self.loaded.add(procedure)
        self.send(ground.load(procedure, image), self.measured(head, len(image) // 8))

    def measure_unload(self, head):
        procedure = self.any_procedure()
        if self.chance.random() < 0.7:
            self.send(ground.abort(procedure), flags=self.chance.choice([0, 8]))
        self.send(ground.unload(procedure), self.measured(head))
        self.forget(procedure)
        if self.chance.random() < 0.9:
            self.load(procedure)
            self.start(procedure)

    def measure_activate(self, head):
        procedure, octets = self.any_procedure(), self.chance.choice([0, 1, 7, 8, 256, self.chance.randrange(257)])
        if self.chance.random() < 0.8:
            self.send(ground.abort(procedure), flags=self.chance.choice([0, 8]))
        budget = self.chance.choice([0, 50]) if self.profile == 2 else None
        self.send(ground.activate(procedure, self.chance.randbytes(octets), budget), self.measured(head, octets))

    def measure_control(self, head):
        procedure = self.any_procedure()
        if self.chance.random() < 0.6:
            self.start(procedure)
        if self.chance.random() < 0.5:
            self.send(ground.suspend(procedure, 0), flags=self.chance.choice([8, 11]))
            self.make(plans.MAKE_ROOM, LIMIT)
            self.make(plans.SLICE, procedure, self.chance.choice([1, 5]), status=ANY)
        self.send(self.control(procedure), self.measured(head), room=self.chance.random() < 0.95)

    def measure_communicate(self, head):
        procedure, words = self.any_procedure(), self.chance.randint(1, 8)
        if self.chance.random() < 0.7:
            self.send(ground.abort(procedure), flags=0)
            self.start(procedure)
        for _ in range(self.chance.choice([0, 0, 0, 1, 3])):
            self.send(ground.communicate(procedure, [7] * self.chance.randint(1, 8)), flags=0)
        self.send(ground.communicate(procedure, [self.chance.getrandbits(64) for _ in range(words)]), self.measured(head, words))

    def measure_status(self, head):
        self.send(ground.status(), self.measured(head, len(self.loaded)))

    def reject(self, octets, head=None):
        """A packet with a wrong subtype or layout, or with wrong error control."""
        data = self.chance.randbytes(octets)
        request = self.chance.choice([ground.Request("none", 99, data), ground.Request("load", 1, bytes([255] * 4) + data),
                                      ground.Request("unload", 2, bytes(3) + data), ground.Request("status", 8, bytes(1) + data)])
        name = self.measured(head, EMPTY_PACKET + len(request.data)) if head else None
        self.send(request, name, spoil=self.chance.random() < 0.5)

    def discard(self, octets, head):
        """A packet with a changed bit of its first header, or one that is cut."""
        packet = bytearray(ground.status().packet(0) + bytes(octets))
        packet[self.chance.randrange(6)] ^= 1 << self.chance.randrange(8)
        packet = bytes(packet[: self.chance.choice([4, EMPTY_PACKET, len(packet)])])
        self.make(plans.MAKE_ROOM, LIMIT)
        self.make(plans.REQUEST, 5, octets=packet, status=ANY, name=self.measured(head, len(packet)))

    def measure_reject(self, head):
        octets = self.chance.choice([0, 1, 4, 30, self.chance.randrange(self.room - 60), self.chance.randrange(100)])
        if self.chance.random() < 0.2:
            self.discard(octets, head)
        else:
            self.reject(octets, head)

    def measure_drain(self, head):
        procedure = self.any_loaded()
        for _ in range(self.chance.choice([0, 1, 1, 2, 4, 20, 70])):
            if self.chance.random() < 0.3:
                procedure = self.any_loaded()
                self.send(ground.abort(procedure), flags=8)
                self.start(procedure)
            self.send(ground.suspend(procedure, self.chance.choice([0, 0, 9])), flags=8)
        self.make_room()
        self.make(plans.DRAIN, 5, name=self.measured(head, None), status=ANY)

    def fault(self):
        """An instruction that faults without others before it, and its name."""
        return self.chance.choice([(name, image) for name, (before, image) in plans.FAULTS.items() if not before])

    def prepare(self, image, setup):
        """Loads and starts a procedure, sets breakpoints and the trace as a way has them, and executes the first instructions."""
        procedure = self.any_loaded()
        self.forget(procedure)
        self.load(procedure, image + plans.UNREACHED)
        self.start(procedure)
        way = self.chance.choice(list(plans.WAYS))
        plans.begin_way(self, image, way, procedure)
        self.make(plans.MAKE_ROOM, LIMIT)
        self.make(plans.SLICE, procedure, setup, status=ANY)
        return procedure, way

    def measure_step(self, head):
        kinds = [kind.image for kind in plans.kinds(self.profile)]
        body = self.chance.choice([STEP_END, STEP_END, EXIT, self.fault()[1], self.chance.choice(kinds)])
        procedure, _ = self.prepare(slot(0xB7, 1, immediate=3) + body, 1)
        if self.chance.random() < 0.7:
            self.send(self.chance.choice([ground.stop, ground.suspend])(procedure, self.chance.choice([0, 9])), flags=8)
        self.make_room()
        self.make(plans.STEP, procedure, name=self.measured(head), status=ANY)

    def measure_debugger(self, head):
        procedure = self.any_procedure()
        if self.chance.random() < 0.5:
            procedure, _ = self.prepare(STEP_END * 9, 1)
            self.debug(plans.CLEAR_BREAK, procedure, self.chance.randint(10, 17))
        call, numbers = self.chance.choice([(plans.SET_BREAK, 20), (plans.SET_BREAK, 20), (plans.CLEAR_BREAK, 20), (plans.TRACE, 1)])
        self.make_room()
        self.make(call, procedure, self.chance.randint(0, numbers), name=self.measured(head), status=ANY)

    def measure_reader(self, head):
        self.make(plans.MAKE_ROOM, LIMIT)
        numbers = self.chance.choice([(plans.VIEW, self.any_procedure()), (plans.PUT_WORD, self.chance.randrange(300), 7)])
        self.make(*numbers, name=self.measured(head), status=ANY)

    def measure_release(self, head):
        for _ in range(self.chance.choice([0, 2, 9])):
            self.make(plans.PUT_WORD, 0, 1, status=ANY)
        count = self.chance.choice([0, 1, 2, 5, 20])
        self.make(plans.RELEASE, count, name=self.measured(head, count), status=ANY)

    def measure_next(self, head):
        before = self.chance.choice([0, 1, 8, 15, 16, 65536])
        self.make(plans.NEXT, before, name=self.measured(head, len(self.loaded)), status=ANY)

    def measure_entry(self, head):
        """One of those that are held, mostly; worst.c counts them from the oldest."""
        self.make(plans.ENTRY, self.chance.choice([0, 1, 2, 5, 30]), 1, name=self.measured(head, None), status=ANY)

    def measure_memory(self, head):
        address = self.chance.choice([0x10000000, 0x20000000, 0x30000000]) + self.chance.choice([0, 1, 100])
        octets = self.chance.choice([0, 1, 100, 200])
        self.make(plans.MEMORY, self.any_procedure(), address, octets, name=self.measured(head, octets), status=ANY)

    def measure_other(self, head):
        self.make(*self.chance.choice([(plans.TRACE_RECORD, self.chance.randrange(300)), (plans.POOL_WORD, self.chance.randrange(300)),
                                       (plans.EVENTS,), (plans.VERSION,), (plans.ROOM,), (plans.FIRST_ENTRY,),
                                       (plans.SIZE, self.profile, self.chance.randrange(300), self.chance.getrandbits(20),
                                        self.chance.getrandbits(31))]), name=self.measured(head), status=ANY)

    def measure_slice(self, head):
        """A body without branches from its first instruction on, and how it ends: the classes of its instructions are known."""
        kinds = [kind for kind in plans.kinds(self.profile) if kind.of != "call 4"]
        body = [self.chance.choice(kinds) for _ in range(self.chance.choice([1, 1, 5, 20]))]
        before = plans.ADDRESSES + slot(0xB7, 1, immediate=3)
        ending, end = self.chance.choice([(None, b""), ("the last exit", EXIT), self.fault()])
        procedure, way = self.prepare(before + b"".join(kind.image for kind in body) + end, len(before) // 8)
        self.make_room()
        classes = Counter(kind.of for kind in body)
        call = plans.SLICE if "call 5" in classes else self.chance.choice([plans.SLICE, plans.ROUND])
        self.make(call, procedure, len(body) + len(end) // 8, status=ANY,
                  name=("flight", head, (way, tuple(sorted(classes.items())), ending), self.seed))

    def reopen(self, close, open_):
        self.close(name=self.measured(close))
        self.open(self.chance.randint(1, 3000), self.chance.randint(1, 256), self.chance.randint(1, 30000), name=self.measured(open_))


SLICES = "slices"
MEASURES = {
    "load of n slots": Flight.measure_load, "unload": Flight.measure_unload,
    "activate, n octets of arguments": Flight.measure_activate, plans.CONTROLS: Flight.measure_control,
    "communicate, n words": Flight.measure_communicate, "status, n procedures": Flight.measure_status,
    "packet of n octets, rejected or discarded": Flight.measure_reject, "`ocp_drain`, n completions": Flight.measure_drain,
    "`ocp_step`": Flight.measure_step, plans.DEBUGGERS: Flight.measure_debugger, plans.READERS: Flight.measure_reader,
    "`ocp_release`, n entries": Flight.measure_release, "`ocp_next_running`, n procedures": Flight.measure_next,
    "`ocp_entry`, of n octets": Flight.measure_entry, "`ocp_memory`, n octets": Flight.measure_memory,
    "any other call": Flight.measure_other, SLICES: Flight.measure_slice}


def flight(plan, seed):
    """All calls of a flight."""
    plan.begin(seed)
    order = [head for head in MEASURES for _ in range(EACH)]
    plan.chance.shuffle(order)
    for head in order:
        plan.make_room()
        for _ in range(plan.chance.choice([0, 1, 2])):
            plan.stir()
        MEASURES[head](plan, head)
    for _ in range(EACH):
        plan.reopen("`ocp_close`", "`ocp_open`")
    plan.close()


# ---- what was seen

def greatest(samples, head, field, each):
    """The sample that took the most, apart from the part of its row that is taken n times."""
    return max((one for one in samples if one.head == head), key=lambda one: one.fixed(field, each), default=None)


def exceeding(target, samples, head, field, fixed, each):
    """The sample that exceeds a row the most, by name, if one does."""
    one = greatest(samples, head, field, each)
    if one and one.fixed(field, each) > fixed:
        yield (f"{target}: {head}, n = {one.count()}: {getattr(one.row, field):,} {field}, and the row is {fixed:,} + {each:,} n: "
               f"flight {one.seed}, status {one.row.status}")


def slice_bound(number, fixed, costs):
    _, classes, ending = number
    return fixed + sum(count * costs[of] for of, count in classes) + (costs[ending] if ending else 0)


def dearest_slice(samples, way, fixed, costs):
    """The slice that came nearest to the sum of its rows, and that share."""
    shares = [(one.row.instructions / slice_bound(one.number, fixed, costs), one) for one in samples
              if one.head == SLICES and one.number[0] == way]
    return max(shares, key=lambda pair: pair[0], default=(0, None))
