"""The console: what each line of a script prints."""
import re

from profile_model.engine import Engine, Refused
from profile_model.instructions import MASK
from profile_model.machine import Fault
from profile_model.packets import COUNTS, ground_packet
from profile_model.words import Syntax, address, decimal, exactly, octets, payload_of, positive, short, text_of

MAX_LINES, MAX_LINE = 100000, 40000


class Console:
    """The console: an engine, and the count of the ground's telecommands."""

    def __init__(self, profile, apid, pool, capacity):
        self.profile, self.engine = profile, Engine(profile, apid, pool, capacity)
        self.apid, self.count = apid, 0

    def line(self, text):
        """The lines that a line prints."""
        words = [word for word in text.split(b" ") if word]
        if not words or text.startswith(b"#"):
            return []
        verb, words = text_of(words[0]), words[1:]
        if not re.fullmatch("send|up|time|step|round|view|mem|break|unbreak|trace|pool|put|journal|drain|work", verb):
            raise Syntax
        return getattr(self, verb)(words)

    def send(self, words):
        if len(words) < 2:
            raise Syntax
        flags = decimal(words[0], 15)
        subtype, payload = payload_of(self.profile, words[1:])
        packet = ground_packet(self.apid, self.count, flags, subtype, payload)
        self.count = (self.count + 1) % COUNTS
        return self.engine.take(packet)

    def up(self, words):
        exactly(words, 0, 1)
        return self.engine.take(octets(b"".join(words)))

    def time(self, words):
        (seconds,) = exactly(words, 1)
        decimal(seconds, 2**32 - 1)
        return []

    def instructions(self, verb, words):
        name, most = exactly(words, 2)
        name, most = short(name), positive(most, 1000000)
        try:
            return [f"{verb} {name} {self.engine.steps(name, most, verb == 'round')}"]
        except Refused as refused:
            return [f"{verb} {name} 0 {refused}"]

    def step(self, words):
        return self.instructions("step", words)

    def round(self, words):
        return self.instructions("round", words)

    def view(self, words):
        (name,) = exactly(words, 1)
        name = short(name)
        try:
            return self.engine.view(name)
        except Refused as refused:
            return [f"view {name} {refused}"]

    def mem(self, words):
        name, first, count = exactly(words, 3)
        name, first, count = short(name), address(first), positive(count, 256)
        try:
            found = self.engine.found(name).machine.read(first, count)
            return [f"mem {name} 0x{first:016x} {found.hex()}"]
        except Refused as refused:
            return [f"mem {name} {refused}"]
        except Fault:
            return [f"mem {name} OutsideMemory"]

    def by_place(self, verb, done, words, command):
        name, place = map(short, exactly(words, 2))
        try:
            command(name, place)
            return [f"{verb} {name} {place} {done}"]
        except Refused as refused:
            return [f"{verb} {name} {place} {refused}"]

    def unbreak(self, words):
        return self.by_place("unbreak", "cleared", words, self.engine.clear_break)

    def trace(self, words):
        if not words:
            return list(self.engine.records)
        name, switch = exactly(words, 2)
        name, switch = short(name), text_of(switch)
        if switch not in ("on", "off"):
            raise Syntax
        try:
            self.engine.set_trace(name, switch == "on")
            return [f"trace {name} {switch}"]
        except Refused as refused:
            return [f"trace {name} {refused}"]

    def pool(self, words):
        (index,) = exactly(words, 1)
        index = decimal(index, MASK)
        if index >= len(self.engine.pool):
            return [f"pool {index} BadPoolIndex"]
        return [f"pool {index} {self.engine.pool[index]:016x}"]

    def put(self, words):
        index, value = exactly(words, 2)
        index, value = decimal(index, MASK), decimal(value, MASK)
        try:
            self.engine.put_word(index, value)
            return [f"put {index} {value} set"]
        except Refused as refused:
            return [f"put {index} {value} {refused}"]

    def journal(self, words):
        exactly(words, 0)
        return [f"journal {self.engine.events}"]

    def drain(self, words):
        exactly(words, 0)
        try:
            return self.engine.drain()
        except Refused as refused:
            return [f"refused {refused}"]

    def work(self, words):
        """Each worker's turns, one after another: what a case prints is the same in any order of the workers."""
        workers, most, turns = exactly(words, 3)
        workers, most, turns = positive(workers, 16), positive(most, 1000000), positive(turns, 1000000)
        last = None
        for _ in range(workers * turns):
            last = self.engine.turn(last, most)
            if last is None:
                break
        return [f"work {workers} closed"]


setattr(Console, "break", lambda self, words: self.by_place("break", "set", words, self.engine.set_break))


def run(script, profile=1, apid=291, pool=16, journal=100000):
    """The transcript of a script."""
    console, printed = Console(profile, apid, pool, journal), []
    lines = script.split(b"\n")
    lines, open_line = [it + b"\n" for it in lines[:-1]], lines[-1]
    for at, line in enumerate([*lines, *([open_line] if open_line else [])], 1):
        text = line.removesuffix(b"\n")
        if at > MAX_LINES:
            return "\n".join([*printed, f"error {at} TooManyLines", ""])
        if len(text) > MAX_LINE:
            return "\n".join([*printed, f"error {at} LineTooLong", ""])
        try:
            printed += console.line(text.removesuffix(b"\r") if text != line else text)
        except Syntax:
            return "\n".join([*printed, f"error {at} Syntax", ""])
    return "\n".join([*printed, ""]) if printed else ""
