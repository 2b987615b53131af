"""The packets of a line, octet by octet: the request that it sends, and the reports that it prints.

The console prints of a packet what is not fixed by the profile; the octets are put together by ground, and the
tests give them back to the program, as an `up` line in the place of the `send` line.
"""
import re
import sys
from pathlib import Path

from console import decimal, words_of

sys.path.insert(0, str(Path(__file__).resolve().parent.parent))
import ground  # noqa: E402

TM = re.compile(r"tm (\d+) (\d+) seq (\d+) dest (\d+) data ([0-9a-f]*)$")
REQUESTS = {1: "load", 2: "unload", 3: "activate", 4: "stop", 5: "suspend", 6: "resume", 7: "communicate", 8: "report status",
            12: "abort"}
STAGES = {1: "accepted", 2: "acceptance failed", 3: "started", 4: "start failed", 7: "completed", 8: "completion failed"}
FLAGS = ((1, "acceptance"), (2, "start"), (4, "progress"), (8, "completion"))


def number(octets):
    return int.from_bytes(octets, "big")


class Fields:
    """The fields of a packet: first octet, octet after the last one, bits, name, value."""

    def __init__(self, octets):
        self.octets = octets
        self.rows = []
        self.at = 0

    def bits(self, size, *parts):
        """Several fields in a number of octets, the highest bits first."""
        if self.at + size > len(self.octets):
            return self.rest("cut")
        value, left = number(self.octets[self.at:self.at + size]), 8 * size
        for width, name, says in parts:
            left -= width
            mine = value >> left & (1 << width) - 1
            self.rows.append([self.at, self.at + size, width, name, says(mine) if says else str(mine)])
        self.at += size

    def one(self, size, name, says=None):
        self.bits(size, (8 * size, name, says))

    def rest(self, name, end=0, says=None):
        """All octets but a number of them at the end."""
        last = len(self.octets) - end
        if self.at < last:
            part = self.octets[self.at:last]
            value = says(part) if says else part.hex() if len(part) <= 32 else f"{len(part):,} octets"
            self.rows.append([self.at, last, 0, name, value])
            self.at = last


def flags_of(value):
    return f"{value}: {', '.join(name for flag, name in FLAGS if value & flag) or 'none'}"


def is_of(named):
    return lambda value: f"{value}: {named.get(value, 'none of the profile')}"


def dissected(octets, profile, names):
    """The fields of a packet of either kind, up to its end."""
    fields = Fields(octets)
    fields.bits(2, (3, "packet version", None), (1, "type", is_of({0: "telemetry", 1: "telecommand"})),
                (1, "secondary header", is_of({0: "none", 1: "there"})), (11, "APID", None))
    fields.bits(2, (2, "sequence flags", is_of({3: "unsegmented", 1: "first", 0: "continuation", 2: "last"})),
                (14, "sequence count", None))
    fields.one(2, "data length", lambda value: f"{value}: {value + 1} octets follow")
    is_telecommand = len(octets) > 0 and octets[0] & 0x10
    if len(octets) < (13 if is_telecommand else 19):
        fields.rest("data field")
    elif is_telecommand:
        request_fields(fields, profile)
    else:
        report_fields(fields, names)
    if len(octets) >= 13:
        right = ground.error_control(octets[:-2])
        fields.one(2, "error control", lambda value: f"{value:04x}: {'right' if value == right else f'{right:04x} is right'}")
    return fields.rows


def request_fields(fields, profile):
    fields.bits(1, (4, "PUS version", None), (4, "acknowledgement flags", flags_of))
    fields.one(1, "service", is_of({18: "procedures"}))
    subtype = fields.octets[8]
    is_ours = fields.octets[7] == 18
    fields.one(1, "subtype", is_of(REQUESTS) if is_ours else None)
    fields.one(2, "source")
    forms = {1: [(2, "length")], 3: [(4, "budget")] * (profile == 2) + [(2, "number of arguments")], 4: [(2, "step")],
             5: [(2, "step")], 7: [(1, "number of words")]}
    if is_ours and subtype in REQUESTS and subtype != 8:
        for size, name in [(2, "procedure"), *forms.get(subtype, [])]:
            if fields.at + size <= len(fields.octets) - 2:
                fields.one(size, name)
        while subtype == 7 and fields.at + 8 <= len(fields.octets) - 2:
            fields.one(8, "word")
    fields.rest({1: "image", 3: "arguments"}.get(subtype, "data"), 2)


def report_fields(fields, names):
    fields.bits(1, (4, "PUS version", None), (4, "time reference status", None))
    service, subtype = fields.octets[7:9]
    fields.one(1, "service", is_of({1: "verification", 18: "procedures"}))
    fields.one(1, "subtype", is_of(STAGES) if service == 1 else is_of({9: "status"}))
    fields.one(2, "message counter")
    fields.one(2, "destination")
    fields.one(4, "time", lambda value: f"{value} s")
    if service == 1 and subtype in STAGES:
        fields.bits(2, (3, "request: version", None), (1, "request: type", None), (1, "request: secondary header", None),
                    (11, "request: APID", None))
        fields.bits(2, (2, "request: sequence flags", None), (14, "request: sequence count", None))
        if subtype % 2 == 0:
            named = {int(key[5:]): name for key, name in names.items() if key.startswith("code ")}
            fields.one(2, "code", is_of(named))
            if len(fields.octets) - fields.at == 5:
                fields.one(1, "load fault", is_of({int(key[5:]): name for key, name in names.items() if key.startswith("load ")}))
                fields.one(2, "slot")
    elif (service, subtype) == (18, 9):
        fields.one(1, "number of procedures")
        while fields.at + 3 <= len(fields.octets) - 2:
            fields.one(2, "procedure")
            fields.one(1, "status", is_of(ground.STATUSES))
    fields.rest("data", 2)


def telecommand(line, count, apid, profile):
    """The octets that a `send` or an `up` line gives to the engine; None if it gives none."""
    words = words_of(line)
    if words[:1] == ["up"]:
        return bytes.fromhex("".join(words[1:])) if re.fullmatch("([0-9a-fA-F]{2})*", "".join(words[1:])) else None
    if words[:1] != ["send"] or len(words) < 3:
        return None
    verb, given = words[2], words[3:]
    numbers = [-1 if (number := decimal(word)) is None else number for word in given]
    makers = {"load": lambda: ground.load(numbers[0], bytes.fromhex("".join(given[1:]))),
              "unload": lambda: ground.unload(numbers[0]),
              "activate": lambda: ground.activate(numbers[0], bytes.fromhex("".join(given[profile:])),
                                                  numbers[1] if profile == 2 else None),
              "stop": lambda: ground.stop(*numbers), "suspend": lambda: ground.suspend(*numbers),
              "resume": lambda: ground.resume(numbers[0]), "abort": lambda: ground.abort(numbers[0]),
              "communicate": lambda: ground.communicate(numbers[0], numbers[1:]),
              "status": ground.status}
    try:
        return makers[verb]().packet(count, decimal(words[1], 15), 0, apid)
    except (KeyError, ValueError, IndexError, TypeError, ArithmeticError):
        return None


def telemetry(shown, time, apid):
    """The octets of a report, of which the console prints the rest."""
    found = TM.match(shown)
    if not found:
        return None
    service, subtype, count, destination = (int(part) for part in found.groups()[:4])
    field = (bytes([0x20, service, subtype, 0, 0]) + destination.to_bytes(2, "big") + time.to_bytes(4, "big")
             + bytes.fromhex(found[5]))
    primary = (0x0800 | apid, 0xC000 | count, len(field) + 1)
    return ground.with_error_control(b"".join(word.to_bytes(2, "big") for word in primary) + field)


def packets_of(found, index, names):
    """The packets of one line of a pass, each with its octets and fields."""
    if not 0 <= index < len(found.rows):
        raise ValueError
    apid = found.options["apid"]
    before = [words_of(line) for line in found.lines[:index + 1]]
    count = sum(words[:1] == ["send"] for words in before[:-1]) % 0x4000
    times = [time for words in before if words[:1] == ["time"] and len(words) == 2
             and (time := decimal(words[1], 2**32 - 1)) is not None]
    packets = [("request", telecommand(found.lines[index], count, apid, found.profile))]
    packets += [(shown, telemetry(shown, times[-1] if times else 0, apid)) for shown in found.rows[index]["printed"][:80]]
    return [{"name": name, "octets": octets.hex(), "fields": dissected(octets, found.profile, names)}
            for name, octets in packets if octets is not None]
