"""The engine: procedures, what requests and instructions do to them, the journal, and the debugger."""
from profile_model.instructions import MASK
from profile_model.loading import LoadFault, loaded
from profile_model.machine import BAD_POOL_INDEX, BUDGET_SPENT, Fault, Machine, instruction
from profile_model.packets import (
    ACCEPTANCE, ALREADY_LOADED, BAD_CODE, COMPLETION, COUNTS, MAILBOX_FULL, NOT_ACTIVE, NOT_HELD, NOT_INACTIVE, NOT_LOADED, NOT_RUNNING,
    OUTBOX_FULL, OVERTAKEN, START, STOP_PENDING, TABLE_FULL, Discarded, Failed, telecommand)
from profile_model.requests import STATUS_REPORT, request_of

MAILBOX, PROCEDURES, OUTBOX, BREAKS, RECORDS = 16, 16, 64, 8, 256


class Refused(Exception):
    """A command of the debugger, some steps or a drain that are refused, by name."""


class Pending:
    """A stop or a suspend that waits for the end of a step, and the request that it came with."""

    def __init__(self, name, step, origin):
        self.name, self.step, self.origin = name, step, origin


class Procedure:
    """A loaded procedure. What a start alone gives, and a started one alone has, is set by `start`."""

    def __init__(self, code, profile):
        self.code, self.machine = code, Machine(profile)
        self.status, self.cause, self.pending = "inactive", "none", None
        self.breaks, self.traced = set(), False

    def start(self, machine, budget):
        """What remains is None if the budget is 0, or none is given."""
        self.machine, self.mailbox, self.passes, self.remaining = machine, [], False, budget or None
        self.status, self.cause = "running", "none"

    def is_spent(self):
        return self.remaining == 0

    def spend(self):
        if self.remaining is not None:
            self.remaining -= 1


class Engine:
    """The engine: procedures, pool, outbox, journal and trace."""

    def __init__(self, profile, apid, pool, capacity):
        self.profile, self.apid, self.capacity = profile, apid, capacity
        self.pool = [0] * pool
        self.procedures, self.outbox, self.records = {}, [], []
        self.events, self.entries, self.sent = 0, 0, 0

    # -- reports

    def report(self, service, subtype, destination, data):
        line = f"tm {service} {subtype} seq {self.sent % COUNTS} dest {destination} data {data.hex()}"
        self.sent += 1
        return line

    def enter(self, events=1):
        self.entries += 1
        self.events += events

    def has_room(self):
        return self.entries < self.capacity

    # -- requests

    def take(self, packet):
        """The lines of a packet from outside."""
        try:
            flags, source, service, subtype, payload = telecommand(packet, self.apid)
            rejected = None
        except Discarded as cause:
            return [f"discarded {cause}"]
        except Failed as failed:
            rejected = failed
        if not self.has_room():
            return ["refused JournalFull"]
        asked = packet[:4]
        try:
            if rejected:
                source = 0
                raise rejected
            request = request_of(self.profile, service, subtype, payload)
        except Failed as failed:
            self.enter()
            return [self.report(1, 2, source, asked + failed.code.to_bytes(2, "big") + failed.data)]
        lines = [self.report(1, 1, source, asked)] if flags & ACCEPTANCE else []
        origin = (asked, source, flags)
        try:
            waits = self.do(request, origin)
        except Failed as failed:
            self.enter()
            return [*lines, self.report(1, 4, source, asked + failed.code.to_bytes(2, "big") + failed.data)]
        self.enter()
        lines += [self.report(1, 3, source, asked)] if flags & START else []
        lines += [self.report(18, STATUS_REPORT, source, self.statuses())] if request[0] == "status" else []
        lines += [self.report(1, 7, source, asked)] if flags & COMPLETION and not waits else []
        return lines

    def statuses(self):
        found = bytes([len(self.procedures)])
        for name in sorted(self.procedures):
            found += name.to_bytes(2, "big") + bytes([{"inactive": 0, "running": 1, "held": 2}[self.procedures[name].status]])
        return found

    def do(self, request, origin):
        """Does a request; whether its completion waits."""
        kind, name, *rest = request
        if kind == "status":
            return False
        if kind == "load":
            return self.load(name, *rest)
        if name not in self.procedures:
            raise Failed(NOT_LOADED)
        return getattr(self, kind)(name, self.procedures[name], *rest, *([origin] if kind in ("stop", "suspend") else []))

    def load(self, name, image):
        if name in self.procedures:
            raise Failed(ALREADY_LOADED)
        if len(self.procedures) == PROCEDURES:
            raise Failed(TABLE_FULL)
        try:
            code = loaded(image, self.profile)
        except LoadFault as fault:
            raise Failed(BAD_CODE, bytes([fault.fault]) + fault.slot.to_bytes(2, "big")) from None
        self.procedures[name] = Procedure(code, self.profile)
        return False

    def unload(self, name, it):
        if it.status != "inactive":
            raise Failed(NOT_INACTIVE)
        del self.procedures[name]
        return False

    def activate(self, name, it, budget, arguments):
        if it.status != "inactive":
            raise Failed(NOT_INACTIVE)
        it.start(Machine(self.profile, arguments), budget)
        return False

    def places(self):
        return len(self.outbox) + sum(it.pending is not None for it in self.procedures.values())

    def become_pending(self, it, kind, step, origin):
        if self.places() == OUTBOX:
            raise Failed(OUTBOX_FULL)
        self.overtake(it)
        it.pending = Pending(kind, step, origin)
        return True

    def stop(self, name, it, step, origin):
        if it.status == "inactive":
            raise Failed(NOT_ACTIVE)
        if it.status == "held":
            self.end(it, "stopped")
            return False
        return self.become_pending(it, "stop", step, origin)

    def suspend(self, name, it, step, origin):
        if it.status != "running":
            raise Failed(NOT_RUNNING)
        if it.pending and it.pending.name == "stop":
            raise Failed(STOP_PENDING)
        return self.become_pending(it, "suspend", step, origin)

    def resume(self, name, it):
        if it.status != "held":
            raise Failed(NOT_HELD)
        it.status, it.passes = "running", True
        return False

    def abort(self, name, it):
        if it.status == "inactive":
            raise Failed(NOT_ACTIVE)
        self.end(it, "aborted")
        return False

    def communicate(self, name, it, words):
        if it.status == "inactive":
            raise Failed(NOT_ACTIVE)
        if len(it.mailbox) + len(words) > MAILBOX:
            raise Failed(MAILBOX_FULL)
        it.mailbox += words
        return False

    def overtake(self, it):
        """A pending entry that goes without its match."""
        if it.pending:
            self.outbox.append((it.pending.origin, OVERTAKEN))
        it.pending = None

    def end(self, it, cause):
        self.overtake(it)
        it.status, it.cause = "inactive", cause

    def drain(self):
        if not self.outbox:
            raise Refused("NothingDue")
        if not self.has_room():
            raise Refused("JournalFull")
        self.enter()
        lines = []
        for (asked, source, _), code in self.outbox:
            data = asked if code is None else asked + code.to_bytes(2, "big")
            lines.append(self.report(1, 7 if code is None else 8, source, data))
        self.outbox = []
        return lines

    # -- instructions

    def engine_call(self, it):
        """Does the call; the step that it ends, or None."""
        r, which = it.machine.registers, it.code[it.machine.place].number
        step = None
        if which == 4:
            if it.mailbox:
                r[0], r[1] = 1, it.mailbox.pop(0)
            else:
                r[0] = 0
        elif which == 5:
            r[0], step = 0, r[1] & 65535
            self.step_end(it, step)
        else:
            if r[1] >= len(self.pool):
                raise Fault(BAD_POOL_INDEX)
            old = self.pool[r[1]]
            if which == 1:
                r[0] = old
            elif which == 2:
                self.pool[r[1]], r[0] = r[2], old
            elif which == 3:
                r[0] = self.pool[r[1]] = old + r[2] & MASK
            else:
                self.pool[r[1]], r[0] = (r[3] if old == r[2] else old), old
        it.machine.place += 1
        return step

    def step_end(self, it, step):
        if it.pending is None or it.pending.step not in (0, step):
            return
        pending, it.pending = it.pending, None
        if pending.origin[2] & COMPLETION:
            self.outbox.append((pending.origin, None))
        if pending.name == "stop":
            self.end(it, "stopped")
        else:
            it.status = "held"

    def event(self, name, it):
        """An instruction event of a running procedure: its outcome, and the step that it ends, or None."""
        place, step = it.machine.place, None
        if place in it.breaks and not it.passes:
            it.status = "held"
            return "Broke", step
        found = it.code[place]
        try:
            if it.is_spent():
                raise Fault(BUDGET_SPENT)
            if found.kind == "call":
                step = self.engine_call(it)
                outcome = "Called"
            elif instruction(it.machine, it.code):
                outcome = "Ran"
            else:
                outcome = "Ended"
                self.end(it, "exited")
            it.spend()
        except Fault as fault:
            outcome = f"Faulted {fault}"
            self.end(it, f"fault{fault}")
        it.passes = False
        if it.traced:
            registers = " ".join(f"{value:016x}" for value in it.machine.registers)
            self.records.append(f"trace {name} {place} {outcome} {registers} {found.text}")
            del self.records[:-RECORDS]
        return outcome, step

    def steps(self, name, most, is_round):
        """Instructions up to a number of them; a round also ends with a step, and says which."""
        if name not in self.procedures:
            raise Refused("NotLoaded")
        it = self.procedures[name]
        if it.status != "running":
            raise Refused("NotRunning")
        if not self.has_room():
            raise Refused("JournalFull")
        done = 0
        while done < most and it.status == "running":
            outcome, step = self.event(name, it)
            done += 1
            if is_round and step is not None:
                outcome += f" step {step}"
                break
        self.enter(done)
        return f"{done} {outcome}"

    # -- words from outside

    def put_word(self, index, value):
        if index >= len(self.pool):
            raise Refused("BadPoolIndex")
        if not self.has_room():
            raise Refused("JournalFull")
        self.pool[index] = value
        self.enter()

    # -- turns of workers

    def by_itself(self, it, most):
        """Instructions that a worker does away from the engine: those that need nothing of it; how many."""
        done = 0
        while done < most and not it.traced and not it.is_spent():
            if it.machine.place in it.breaks and not it.passes:
                break
            found = it.code[it.machine.place]
            try:
                if found.kind == "call" or not instruction(it.machine, it.code):
                    break
            except Fault:
                break
            it.spend()
            it.passes = False
            done += 1
        return done

    def turn(self, last, most):
        """One turn of a worker, after that of the procedure `last`; the procedure that it was of, or None if none runs."""
        running = sorted(name for name, it in self.procedures.items() if it.status == "running")
        if not running:
            return None
        name = next((it for it in running if last is not None and it > last), running[0])
        if self.has_room():
            it = self.procedures[name]
            done = self.by_itself(it, most)
            if not done:
                self.event(name, it)
            self.enter(done or 1)
        return name

    # -- the debugger

    def found(self, name):
        if name not in self.procedures:
            raise Refused("NotLoaded")
        return self.procedures[name]

    def set_break(self, name, place):
        it = self.found(name)
        if place not in it.code:
            raise Refused("NotAnInstruction")
        if place in it.breaks:
            raise Refused("AlreadySet")
        if len(it.breaks) == BREAKS:
            raise Refused("BreaksFull")
        if not self.has_room():
            raise Refused("JournalFull")
        it.breaks.add(place)
        self.enter()

    def clear_break(self, name, place):
        it = self.found(name)
        if place not in it.breaks:
            raise Refused("NotSet")
        if not self.has_room():
            raise Refused("JournalFull")
        it.breaks.remove(place)
        self.enter()

    def set_trace(self, name, on):
        it = self.found(name)
        if not self.has_room():
            raise Refused("JournalFull")
        it.traced = on
        self.enter()

    def view(self, name):
        it = self.found(name)
        pending = f"{it.pending.name} {it.pending.step}" if it.pending else "none"
        machine = it.machine
        lines = [f"view {name} {it.status} {it.cause} place {machine.place} depth {len(machine.frames)} pending {pending}"]
        return lines + [f"r{at} {value:016x}" for at, value in enumerate(machine.registers)]
