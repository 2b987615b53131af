"""Flights of `task.c` for tests: its cycles, its stack, and its packets by a reader that knows the mission database alone."""
import collections
import itertools
import os
import random
import re
import signal
import subprocess
import time

import ground
import xtce_reader

PERIOD = 2  # milliseconds
STOPPED, LEAST_MISSED = 0.06, 20  # seconds without a processor, in which 30 cycles are due
MOST_STACK, MOST_REQUESTS = 8192, 16  # octets; of a cycle
SET_POINT, OLD_BAND, NEW_BAND = 200, 20, 5  # of heater_old and heater_new, in tenths of a degree
WARMER, COLDER = 2, -1  # the room, from a cycle to the next
# Writes 70,000 into word 4, of 16 bits, ends step 1, and then reads word 6, which the pool does not have: a fault in slot 6.
FAULTY = bytes.fromhex("b701000004000000" "b702000070110100" "8500000002000000" "b701000001000000" "8500000005000000"
                       "b701000006000000" "8500000001000000" "9500000000000000")
LINES = re.compile(r"task: memory is (locked|not locked: .+)\ntask: scheduling is (SCHED_FIFO|the usual one: .+)\n"
                   r"task: (\d+) cycles, (\d+) missed, (\d+) event reports, (\d+) packets discarded\n"
                   r"task: of the stack's 16384 octets the task used (\d+), the C library (\d+)\n")


def parts(octets):
    """Packets that follow one another, by their lengths."""
    while octets:
        size = int.from_bytes(octets[4:6], "big") + 7
        yield octets[:size]
        octets = octets[size:]


class Flight:
    """A flight that ended: its last lines, and what the reader says of each packet."""

    def __init__(self, tally, name, database, status, octets, said):
        found = LINES.fullmatch(said.decode())
        tally.check(f"{name}: status {status}, {said.decode()}", status == 0 and found)
        self.locked, self.scheduled, *numbers = found.groups() if found else ("", "", *"0000", MOST_STACK + 1, 0)
        self.cycles, self.missed, self.events, self.discarded, self.stack, others = map(int, numbers)
        self.packets = []
        for octets in parts(octets):
            try:
                self.packets.append(database.decode(octets))
            except xtce_reader.Refused as fault:
                tally.check(f"{name}: {octets.hex()}: {fault}", False)
            tally.check(f"{name}: the error control of {octets.hex()}", ground.error_control(octets) == 0)
        tally.check(f"{name}: {self.stack} octets of stack", 0 < self.stack <= MOST_STACK and self.stack + others < 16384)
        own = [values for container, values in self.packets if container in ("pool_housekeeping", "fault_of_procedure")]
        tally.check(f"{name}: the counts of flight software's packets",
                    [values["sequence_count"] for values in own] == [count % 16384 for count in range(len(own))])
        self.housekeeping = [values for container, values in self.packets if container == "pool_housekeeping"]

    def has_all_cycles(self):
        """Each cycle that ran has its housekeeping: its number is that of those that ran with that of those that were missed."""
        at = [(one["pool_cycle"], one["time"], one["pool_missed"] + number) for number, one in enumerate(self.housekeeping, 1)]
        return all(len(set(one)) == 1 for one in at) and self.cycles == len(at) + self.missed == at[-1][0]


def flown(tally, name, database, words, octets=b"", **more):
    done = subprocess.run(list(map(str, words)), input=octets, capture_output=True, timeout=60, check=False, **more)
    return Flight(tally, name, database, done.returncode, done.stdout, done.stderr)


def sent(words, *acts):
    """A flight with these acts: requests that are sent in one piece, or a time to stop it. Each has 0.2 seconds of flight after it.
    Gives status, packets and last lines."""
    count = itertools.count()
    with subprocess.Popen(list(map(str, words)), stdin=subprocess.PIPE, stdout=subprocess.PIPE, stderr=subprocess.PIPE, bufsize=0) as task:
        for act in acts:
            if isinstance(act, float):
                task.send_signal(signal.SIGSTOP)
                time.sleep(act)
                task.send_signal(signal.SIGCONT)
            else:
                task.stdin.write(b"".join(request.packet(next(count)) for request in act))
            time.sleep(0.2)
        octets, said = task.communicate(timeout=60)
        return task.returncode, octets, said


def heater_is_right(before, one, band):
    """Whether the heater is what a thermostat makes of the temperature."""
    warm, was = one["pool_temperature"], before["pool_heater"]
    return one["pool_heater"] == (warm < SET_POINT or warm < SET_POINT + band and was)


def is_controlled(tally, name, housekeeping, band_at):
    """From the first cycle of a thermostat on, in each cycle: the room follows the heater, the heater the room by the band of that
    time, and each round with the heater on is counted once."""
    loaded = next((at for at, one in enumerate(housekeeping) if one["pool_set_point"]), len(housekeeping))
    pairs = list(zip(housekeeping[loaded:], housekeeping[loaded + 1:]))
    changes = [one["pool_temperature"] - before["pool_temperature"] for before, one in pairs]
    tally.check(f"{name}: the room", changes == [WARMER if before["pool_heater"] else COLDER for before, _ in pairs])
    tally.check(f"{name}: the heater", all(heater_is_right(before, one, band_at(one["time"])) for before, one in pairs))
    tally.check(f"{name}: the heater is on, and off", {one["pool_heater"] for _, one in pairs} == {False, True})
    tally.check(f"{name}: the rounds with the heater on", [one["pool_heated"] - before["pool_heated"] for before, one in pairs] ==
                [int(one["pool_heater"]) for _, one in pairs])


def update(tally, name, database, words, old, new):
    """A new version takes over: no cycle is left out or counted twice, and the set point stays."""
    begin = [ground.load(2, old), ground.activate(2, bytes([SET_POINT]))]
    acts = [begin, [ground.load(3, new)], [ground.abort(2), ground.activate(3)], [ground.unload(2)]]
    flight = Flight(tally, name, database, *sent(words, *acts))
    times = {values["request_id"] & 0x3FFF: values["time"] for one, values in flight.packets if one == "successful_completion"}
    tally.check(f"{name}: all requests are done, two in one cycle {times}", sorted(times) == list(range(6)) and times[3] == times[4])
    is_controlled(tally, name, flight.housekeeping, lambda time: NEW_BAND if time >= times.get(4, 0) else OLD_BAND)
    tally.check(f"{name}: the set point", {one["pool_set_point"] for one in flight.housekeeping} <= {0, SET_POINT})
    tally.check(f"{name}: {flight.missed} of {flight.cycles} cycles missed", flight.has_all_cycles())


def thermostat(tally, name, database, words, heater):
    """Cycles are counted, also those in which the system stops the flight; then a word does not fit, and a procedure faults."""
    begin = [ground.load(2, heater), ground.activate(2, bytes([SET_POINT]))]
    flight = Flight(tally, name, database, *sent(words, begin, STOPPED, [ground.load(5, FAULTY), ground.activate(5)]))
    tally.check(f"{name}: {flight.missed} of {flight.cycles} cycles missed", flight.has_all_cycles() and flight.missed >= LEAST_MISSED)
    is_controlled(tally, name, flight.housekeeping, lambda _: OLD_BAND)
    odd = [(one, after) for one, after in zip(flight.housekeeping, flight.housekeeping[1:]) if one["misfits"]]
    tally.check(f"{name}: a word that does not fit", [(one["misfits"], one["pool_set_point"]) for one, _ in odd] == [(1, 65535)])
    faults = [values for container, values in flight.packets if container == "fault_of_procedure"]
    tally.check(f"{name}: the event report {faults}", flight.events == 1 and [
        (one["procedure"], one["fault"], one["slot"], one["time"]) for one in faults] == [
            (5, "BadPoolIndex", 6, after["time"]) for _, after in odd])
    reports = [values["request_id"] for container, values in flight.packets if container.startswith("successful")]
    tally.check(f"{name}: the engine's reports", reports == [0x1923C000 + at // 3 for at in range(12)])


def random_requests(tally, name, database, words, telecommands):
    """Streams of random telecommands: the stack stays within its bound, and each packet is one of the database. The procedures
    write any words."""
    for number in range(3):
        octets = b"".join(telecommands(random.Random(number), 1500))
        flight = flown(tally, f"{name} {number}", database, words, octets)
        times = [one["time"] for one in flight.housekeeping]
        tally.check(f"{name} {number}: cycles", times == sorted(set(times)) and flight.cycles == len(times) + flight.missed == times[-1])
        answered = collections.Counter(values["time"] for one, values in flight.packets if one.endswith("_acceptance"))
        tally.check(f"{name} {number}: each telecommand is answered, {max(answered.values())} a cycle",
                    answered.total() == 1500 and max(answered.values()) == MOST_REQUESTS and flight.discarded == 0)


def quiet_second(tally, name, database, words):
    """The header of a long packet holds a whole packet back for a second, and no longer."""
    with subprocess.Popen(list(map(str, words)), stdin=subprocess.PIPE, stdout=subprocess.PIPE, stderr=subprocess.PIPE, bufsize=0) as task:
        task.stdin.write(bytes.fromhex("1923c0003fff") + ground.status().packet(0))
        time.sleep(1.5)
        octets, said = task.communicate(timeout=60)
    flight = Flight(tally, name, database, task.returncode, octets, said)
    times = [values["time"] for one, values in flight.packets if one == "status_report"]
    tally.check(f"{name}: answered in cycle {times} of {flight.cycles}",
                len(times) == 1 and 1000 // PERIOD <= times[0] <= flight.cycles - 100 // PERIOD)


def long_loads(tally, name, database, words):
    """Sixteen images of 2,048 slots, more than the journal holds at once: all are loaded."""
    image = FAULTY[:8] * 2047 + FAULTY[-8:]
    flight = flown(tally, name, database, words, b"".join(ground.load(number, image).packet(number) for number in range(16)))
    loaded = [values["request_id"] for one, values in flight.packets if one == "successful_completion"]
    tally.check(f"{name}: {len(loaded)} are loaded", loaded == [0x1923C000 + number for number in range(16)])


def flights(tally, builder, flags, telecommands):
    """All flights of one compiler."""
    mission = builder.room / f"mission-{builder.compiler}.xml"
    table = ground.word_table
    root = os.path.dirname(os.path.dirname(os.path.realpath(table.__file__)))
    words = [f"{root}/ground/xtce", "--words", f"{root}/examples/flight/words.toml"]
    mission.write_bytes(subprocess.run(words, capture_output=True, timeout=60, check=True).stdout)
    database = xtce_reader.Database(mission)
    flags, others = [*flags, "-Wconversion", "-pthread", "-Wl,-z,now"], [builder.library, builder.heaps["fixed"]]
    program = builder.build("task", [*flags, "-DHOUSEKEEPING=1"], others, "each-cycle")
    usual = builder.build("task", flags, others, "usual")
    if not program or not usual:
        return
    name, old, new = f"task by {builder.compiler}", *(ground.image_of(f"{root}/examples/flight/heater_{one}.hex") for one in ("old", "new"))
    thermostat(tally, name, database, [program, PERIOD], old)
    update(tally, f"{name}, update", database, [program, PERIOD], old, new)
    random_requests(tally, f"{name}, stream", database, [program, 1], telecommands)
    long_loads(tally, f"{name}, long loads", database, [program, 1])
    quiet_second(tally, f"{name}, a quiet second", database, [program, PERIOD])
    flight = flown(tally, f"{name}, 50 cycles", database, [program, 1, 50])
    tally.check(f"{name}: a number of cycles", flight.has_all_cycles() and flight.cycles >= 50)
    flight = flown(tally, f"{name}, usual housekeeping", database, [usual, 1, 50])
    tens = [one["time"] // 10 for one in flight.housekeeping]
    tally.check(f"{name}: housekeeping every ten cycles {tens}", tens == sorted(set(tens)) and tens[-1] == flight.cycles // 10 and
                (flight.missed or [one["time"] for one in flight.housekeeping] == [10, 20, 30, 40, 50]))
    builder.room.chmod(0o755)
    other = {"user": 65534, "group": 65534, "extra_groups": []} if os.geteuid() == 0 else {}
    flight = flown(tally, f"{name} without rights", database, ["prlimit", "--memlock=0", "--rtprio=0", program, 1, 20], **other)
    tally.check(f"{name} without rights: {flight.locked}, {flight.scheduled}",
                flight.locked.startswith("not locked: ") and flight.scheduled.startswith("the usual one: ") and flight.has_all_cycles())
    for wrong in (["0"], ["x"], ["1", "-1"], ["1", "2", "3"]):
        tally.check(f"{name} {wrong}", subprocess.run([program, *wrong], input=b"", capture_output=True, timeout=60).returncode == 2)
    with open("/dev/full", "wb") as full:
        done = subprocess.run([program, "1"], stdin=subprocess.PIPE, stdout=full, stderr=subprocess.PIPE, timeout=60)
    tally.check(f"{name}: no output\n{done.stderr.decode()}", done.returncode == 3 and b"nobody reads the packets" in done.stderr)
