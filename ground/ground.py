#!/usr/bin/env python3
"""Makes requests as packets, reads report packets, and drives an engine over pipes or a loopback socket.

As a module: `Request` and its functions (`load`, `activate`, ..) make telecommands; `Stream` parts octets into reports
(`Verification`, `Status`) and named faults; `Ground` keeps each request until its last report has come, and counts the
reports that are missing. As a command:

    ground.py --tcp 10018 load 7 procedure.hex      one request, or several with `then` between them
    ground.py --pipe 'ground/engine' load 7 procedure.hex then activate 7 0414 then status
    ground.py --print status                        the packet in hexadecimal digits, without an engine

The formats are those of docs/PROFILE.md: CCSDS 133.0-B space packets, ECSS-E-ST-70-41C services 1 and 18.
Status: 0 done, 1 a request failed or a bad packet came, 2 a command line that is refused, 3 no engine or no answer.
"""
import argparse
import math
import os
import re
import select
import shlex
import signal
import socket
import struct
import subprocess
import sys
import time
from collections import deque
from pathlib import Path
from typing import NamedTuple, Optional, Tuple, Union

if __name__ == "__main__":
    sys.dont_write_bytecode = True
import word_table  # noqa: E402
from parting import PRIMARY, REPORTS, Parting, error_control  # noqa: E402

ACCEPTANCE, START, PROGRESS, COMPLETION = 1, 2, 4, 8
ALL_FLAGS = ACCEPTANCE | START | COMPLETION
STATUSES = {0: "inactive", 1: "running", 2: "held"}
STAGES = {1: ("accepted", True), 2: ("acceptance", False), 3: ("started", True), 4: ("start", False),
          7: ("completed", True), 8: ("completion", False)}
CODES = {1: "Segmented", 2: "NoSecondary", 3: "NoRoom", 4: "Pec", 5: "PusVersion", 6: "Service", 7: "Subtype",
         8: "Layout", 16: "AlreadyLoaded", 17: "TableFull", 18: "BadCode", 19: "NotLoaded", 20: "NotInactive",
         21: "NotActive", 22: "NotRunning", 23: "NotHeld", 24: "StopPending", 25: "MailboxFull", 26: "Overtaken",
         27: "OutboxFull"}
UNTRUSTED = range(1, 6)  # failures of acceptance that go to destination 0, because no source can be trusted
LOAD_FAULTS = {1: "EmptyCode", 2: "RaggedCode", 3: "TooLong", 4: "CutWide", 5: "UnknownOpcode", 6: "BadRegister",
               7: "ReservedField", 8: "WritesFramePointer", 9: "BadCall", 10: "BadTarget", 11: "FallsOffEnd"}
ERROR_CONTROL = 2
BLOCK = 65536
COUNTS = 16384
# seconds without an octet after which an unfinished packet holds no whole one back
QUIET = 0.5
# reports that `ask` keeps for its caller
KEPT = 10000
# characters of a file with an image: twice the digits of the longest load, for ends of lines
LONGEST_FILE = 4 * 65536
# seconds that an engine has to take a telecommand, and to end when its input has ended
PATIENCE = 3.0
LONGEST_WAIT = 86400
OCP = os.fspath(Path(__file__).resolve().parent.parent / "ocp")


class PacketFault(Exception):
    """A packet that can't be read; its name is one of Cut, Header, Pec, PusVersion, Kind, Layout."""

    def __init__(self, name, detail, octets=b""):
        super().__init__(f"{name}: {detail}")
        self.name = name
        self.octets = octets


class LinkFault(Exception):
    """An engine that is not there, does not answer, or has closed."""


class Unanswered(LinkFault):
    """A request whose last report did not come: `reports` are those that came, `stages` those of the request."""

    def __init__(self, text, reports, asked, may_repeat):
        super().__init__(text)
        self.reports, self.request, self.stages, self.may_repeat = reports, asked.request, asked.stages, may_repeat


def with_error_control(octets):
    return octets + error_control(octets).to_bytes(2, "big")


# ---- requests

class Request(NamedTuple):
    """A request of service 18: its name, subtype and data."""
    name: str
    subtype: int
    data: bytes

    def packet(self, count, flags=ALL_FLAGS, source=0, apid=291):
        """The telecommand, with its error control."""
        _number("APID", apid, 0, 2046)
        _number("count", count, 0, 0x3FFF)
        _number("flags", flags, 0, 15)
        head = bytes([0x20 | flags, 18, self.subtype]) + _number("source", source, 0, 0xFFFF).to_bytes(2, "big")
        field = len(head) + len(self.data) + ERROR_CONTROL
        primary = (0x1800 | apid, 0xC000 | count, field - 1)
        return with_error_control(b"".join(word.to_bytes(2, "big") for word in primary) + head + self.data)


def _number(name, value, least, most):
    if not least <= value <= most:
        raise ValueError(f"{name} {value} is not in {least} to {most}")
    return value


def _id(procedure):
    return _number("identifier", procedure, 0, 0xFFFF).to_bytes(2, "big")


def load(procedure, image):
    length = _number("octets of the image", len(image), 0, 0xFFFF - 10)
    return Request("load", 1, _id(procedure) + length.to_bytes(2, "big") + image)


def unload(procedure):
    return Request("unload", 2, _id(procedure))


def activate(procedure, arguments=b"", budget=None):
    """With a budget it is the request of profile 2, without one that of profile 1."""
    count = _number("octets of arguments", len(arguments), 0, 256).to_bytes(2, "big")
    limit = b"" if budget is None else _number("budget", budget, 0, 0xFFFFFFFF).to_bytes(4, "big")
    return Request("activate", 3, _id(procedure) + limit + count + arguments)


def stop(procedure, step):
    return Request("stop", 4, _id(procedure) + _number("step", step, 0, 0xFFFF).to_bytes(2, "big"))


def suspend(procedure, step):
    return Request("suspend", 5, _id(procedure) + _number("step", step, 0, 0xFFFF).to_bytes(2, "big"))


def resume(procedure):
    return Request("resume", 6, _id(procedure))


def communicate(procedure, words):
    _number("words", len(words), 1, 8)
    sent = b"".join(_number("word", word, 0, 2**64 - 1).to_bytes(8, "big") for word in words)
    return Request("communicate", 7, _id(procedure) + bytes([len(words)]) + sent)


def status():
    return Request("status", 8, b"")


def abort(procedure):
    return Request("abort", 12, _id(procedure))


# ---- reports

class Verification(NamedTuple):
    """A report of service 1. `stage` is accepted, started or completed; after a failure acceptance, start or completion."""
    apid: int
    count: int
    destination: int
    time: int
    stage: str
    succeeded: bool
    request: bytes
    code: Optional[int]
    load_fault: Optional[int]
    slot: Optional[int]

    def __str__(self):
        name = f"request {self.request.hex()}"
        if self.succeeded:
            return f"{name} {self.stage}"
        fault = "" if self.load_fault is None else f" ({LOAD_FAULTS[self.load_fault]} at slot {self.slot})"
        return f"{name} {self.stage} failed: {self.code} {CODES[self.code]}{fault}"


class Status(NamedTuple):
    """The status report: each loaded procedure with its status, by rising identifier."""
    apid: int
    count: int
    destination: int
    time: int
    procedures: Tuple[Tuple[int, str], ...]

    def __str__(self):
        return "status " + (", ".join(f"{one} {name}" for one, name in self.procedures) or "nothing loaded")


class Gap(NamedTuple):
    """What the sequence count of a report tells about those before it."""
    missing: int
    before: int
    count: int

    def __str__(self):
        if self.missing < COUNTS // 2:
            return f"{self.missing} report{'s' * (self.missing != 1)} missing before count {self.count}"
        return f"count {self.count} comes after count {self.before}: out of order, repeated, or of another engine"


Report = Union[Verification, Status, word_table.Housekeeping, word_table.EventReport]


def _code(subtype, data, packet):
    """The failure code of a report, and the load fault and slot of code 18."""
    code = int.from_bytes(data[4:6], "big")
    allowed = {2: range(1, 9), 4: [*range(16, 26), 27], 8: [26]}[subtype]
    if code not in allowed:
        raise PacketFault("Layout", f"code {code} is none of report [1,{subtype}]", packet)
    if len(data) != (9 if code == 18 else 6):
        raise PacketFault("Layout", f"{len(data)} octets of data with code {code}", packet)
    if code != 18:
        return code, None, None
    if data[6] not in LOAD_FAULTS:
        raise PacketFault("Layout", f"there is no load fault {data[6]}", packet)
    return code, data[6], int.from_bytes(data[7:9], "big")


def read(packet, table=None):
    """The report of one whole telemetry packet, or PacketFault. With the table of a mission's words, also that of its flight software."""
    if len(packet) < PRIMARY or len(packet) != int.from_bytes(packet[4:6], "big") + 7:
        raise PacketFault("Cut", f"{len(packet)} octets are not the packet's length", packet)
    if packet[0] >> 3 != 1 or packet[2] >> 6 != 3 or len(packet) < REPORTS.least:
        raise PacketFault("Header", f"{packet[:6].hex()} is not the header of a report", packet)
    said, right = int.from_bytes(packet[-2:], "big"), error_control(packet[:-2])
    if said != right:
        raise PacketFault("Pec", f"error control {said:04x}, and the octets give {right:04x}", packet)
    if packet[6] != 0x20:
        raise PacketFault("PusVersion", f"secondary header begins with {packet[6]:02x}, not 20", packet)
    common = (int.from_bytes(packet[:2], "big") & 0x7FF, int.from_bytes(packet[2:4], "big") & 0x3FFF,
              int.from_bytes(packet[11:13], "big"), int.from_bytes(packet[13:17], "big"))
    service, subtype, data = packet[7], packet[8], packet[17:-2]
    if table and common[0] == table.apid:
        try:
            return table.report(common, (service, subtype), data)
        except ValueError as fault:
            raise PacketFault("Layout", str(fault), packet) from None
    if service == 1 and subtype in STAGES:
        stage, succeeded = STAGES[subtype]
        if len(data) < 4 or (succeeded and len(data) != 4):
            raise PacketFault("Layout", f"{len(data)} octets of data in report [1,{subtype}]", packet)
        failure = (None, None, None) if succeeded else _code(subtype, data, packet)
        return Verification(*common, stage, succeeded, data[:4], *failure)
    if (service, subtype) != (18, 9):
        raise PacketFault("Kind", f"there is no report [{service},{subtype}]", packet)
    rows = [data[at:at + 3] for at in range(1, len(data), 3)]
    if data[0] > 16 or len(data) != 1 + 3 * data[0] or any(row[2] not in STATUSES for row in rows):
        raise PacketFault("Layout", f"data {data.hex()} are no status report", packet)
    return Status(*common, tuple((int.from_bytes(row[:2], "big"), STATUSES[row[2]]) for row in rows))


class Stream:
    """Octets in, in any pieces; reports and faults out. What comes after a bad packet is found again."""

    def __init__(self, apid=None, table=None):
        self.table = table
        kind = REPORTS._replace(most=max(REPORTS.most, PRIMARY + 11 + table.octets + ERROR_CONTROL)) if table else REPORTS
        self.parting = Parting(kind, [apid, table.apid] if table and apid is not None else apid)

    def feed(self, octets):
        """The reports and faults that these octets complete."""
        return [self._report(piece) for piece in self.parting.feed(octets)]

    def quiet(self):
        """The reports that an unfinished one holds back, if no more octets come for now."""
        return [self._report(piece) for piece in self.parting.quiet()]

    def close(self):
        """What the end of the stream leaves: a cut packet is a fault."""
        return [self._report(piece) for piece in self.parting.close()]

    def _report(self, piece):
        """The report of a packet, or the fault of it and of octets that are none."""
        if piece.fault:
            said = f"{len(piece.octets)} octets are no whole report and are passed over"
            return PacketFault(piece.fault, said, piece.octets[:REPORTS.most])
        try:
            return read(piece.octets, self.table)
        except PacketFault as fault:
            return fault


# ---- an engine, and what was asked of it

class Asked:
    """A request that was sent, with the stages of it that were reported."""

    def __init__(self, request, flags):
        self.request, self.flags, self.stages = request, flags & ALL_FLAGS, []

    def __repr__(self):
        return f"{self.request.name}: {self}"

    def __str__(self):
        wanted = [name for flag, name in ((ACCEPTANCE, "accepted"), (START, "started"), (COMPLETION, "completed")) if self.flags & flag]
        missing = [name for name in wanted if name not in self.stages]
        came = f"{_listed(self.stages)} came" if self.stages else "nothing came"
        return f"{came}, {_listed(missing)} {'is' if len(missing) == 1 else 'are'} open" if missing else came

    def is_pending(self):
        """Whether it may well wait for the end of a step: a stop or a suspend that was taken, and is not completed."""
        taken = "started" if self.flags & START else "accepted"
        return self.request.name in ("stop", "suspend") and taken in self.stages and "completed" not in self.stages

    def why(self):
        if self.is_pending():
            return f"the {self.request.name} waits for its step, or the report was lost"
        if self.stages:
            return "the telecommand has arrived, a report was lost"
        return "the telecommand or its reports were lost, or the engine has another APID"

    def take(self, report):
        """Whether that report of it is its last one."""
        if report.succeeded:
            self.stages.append(report.stage)
        last = {"accepted": self.flags < START, "started": self.flags < COMPLETION, "completed": True}
        return last.get(report.stage, True)


def _listed(names):
    return " and ".join(", ".join(names).rsplit(", ", 1))


class Ground:
    """One side of a link: counts requests, and keeps those whose last report has not come. If the engine is `shared` with other
    clients, the reports that are missing in the count may be theirs, and there are no gaps. With the table of a mission's words
    it also reads the packets of flight software."""

    def __init__(self, link, source=0, apid=291, count=0, shared=False, table=None):
        self.link, self.source, self.apid, self.count, self.shared = link, source, apid, count, shared
        self.stream = Stream(apid, table)
        self.waiting = deque()
        self.open = {}
        self.last = {}  # the sequence count of the last report of each application process
        self.heard = time.monotonic()

    def name(self):
        """The request ID of the next request: the first four octets of its packet."""
        return status().packet(self.count, 0, self.source, self.apid)[:4]

    def send(self, request, flags=ALL_FLAGS):
        """Sends it; gives its request ID, by which the reports name it."""
        packet = request.packet(self.count, flags, self.source, self.apid)
        self.count = (self.count + 1) % COUNTS
        if flags & ALL_FLAGS:
            self.open[packet[:4]] = Asked(request, flags)
        self.link.send(packet)
        return packet[:4]

    def next(self, seconds):
        """The next report, gap or fault, or None if none came in that time."""
        ends = time.monotonic() + seconds
        while not self.waiting:
            octets = self.link.receive(min(QUIET, max(0.0, ends - time.monotonic())))
            if octets:
                self.heard = time.monotonic()
                self._keep(self.stream.feed(octets))
            elif octets is not None:
                self._keep(self.stream.close())
                if not self.waiting:
                    raise LinkFault("the engine has closed the link")
            elif time.monotonic() - self.heard >= QUIET:
                self._keep(self.stream.quiet())
            if time.monotonic() >= ends:
                if seconds > 0:
                    self._keep(self.stream.quiet())
                break
        return self._take(self.waiting.popleft()) if self.waiting else None

    def rest(self):
        """What has come and was not given yet."""
        while self.waiting:
            yield self._take(self.waiting.popleft())

    def _keep(self, reports):
        """Adds them to those that wait, each after the gap before it."""
        for report in reports:
            if not isinstance(report, PacketFault):
                last = self.last.get(report.apid)
                missing = 0 if last is None else (report.count - last - 1) % COUNTS
                if missing and not self.shared:
                    self.waiting.append(Gap(missing, last, report.count))
                self.last[report.apid] = report.count
            self.waiting.append(report)

    def _take(self, report):
        """Notes to which request it belongs. Another client's may have the same request ID, so the destination counts too."""
        if isinstance(report, Verification) and (report.destination == self.source or report.code in UNTRUSTED):
            asked = self.open.get(report.request)
            if asked and asked.take(report):
                del self.open[report.request]
        return report

    def ask(self, request, flags=ALL_FLAGS, seconds=10.0, each=None):
        """Sends it and gives all that came until its last report, each also to `each` as it comes. If that did not come in
        time, Unanswered carries the reports."""
        name = self.send(request, flags)
        asked, came, title = self.open.get(name), [], f"{request.name} (request {name.hex()})"
        ends = time.monotonic() + seconds
        try:
            while name in self.open and len(came) < KEPT and (self.waiting or time.monotonic() < ends):
                report = self.next(max(0.0, ends - time.monotonic()))
                if report is not None:
                    came.append(report)
                    if each:
                        each(report)
        except LinkFault as fault:
            raise Unanswered(f"{fault}: {title}: {asked}", came, asked, False) from None
        if name in self.open:
            limit = f"within {seconds:g} seconds" if len(came) < KEPT else f"among {KEPT} reports"
            raise Unanswered(f"no last report of {title} {limit}: {asked}: {asked.why()}", came, asked, not asked.is_pending())
        return came


class Pipes:
    """An engine that this program starts, and speaks to by its standard input and output."""

    def __init__(self, words):
        try:
            self.process = subprocess.Popen(words, stdin=subprocess.PIPE, stdout=subprocess.PIPE, bufsize=0, start_new_session=True)
        except OSError as fault:
            raise LinkFault(f"{words[0]}: {fault.strerror}") from None
        os.set_blocking(self.process.stdin.fileno(), False)

    def send(self, packet):
        ends = time.monotonic() + PATIENCE
        try:
            while packet and select.select([], [self.process.stdin], [], max(0.0, ends - time.monotonic()))[1]:
                packet = packet[os.write(self.process.stdin.fileno(), packet):]
        except OSError:
            raise LinkFault("the engine has closed the link") from None
        if packet:
            raise LinkFault(f"the engine has not taken the telecommand in {PATIENCE:g} seconds")

    def receive(self, seconds):
        ready = select.select([self.process.stdout], [], [], seconds)[0]
        return self.process.stdout.read(BLOCK) if ready else None

    def close(self):
        """Ends its input; an engine that still runs is ended with all that it has started."""
        self.process.stdin.close()
        self.process.stdout.close()
        for signal_number in (signal.SIGTERM, signal.SIGKILL):
            try:
                self.process.wait(PATIENCE)
                return
            except subprocess.TimeoutExpired:
                os.killpg(self.process.pid, signal_number)
        self.process.wait()


class Socket:
    """An engine at a port of the loopback, "tcp" or "udp"; `own` is the UDP port that its reports come to. A datagram without
    octets is none; only TCP has an end."""

    def __init__(self, kind, port, own=0):
        self.kind = kind
        self.socket = socket.socket(socket.AF_INET, socket.SOCK_STREAM if kind == "tcp" else socket.SOCK_DGRAM)
        try:
            if kind == "udp":
                self.socket.bind(("127.0.0.1", own))
            self.socket.connect(("127.0.0.1", port))
        except OSError as fault:
            self.socket.close()
            raise LinkFault(f"{kind} port {port}: {fault.strerror}") from None
        self.socket.settimeout(PATIENCE)

    def send(self, packet):
        try:
            self.socket.sendall(packet)
        except socket.timeout:
            raise LinkFault(f"the engine has not taken the telecommand in {PATIENCE:g} seconds") from None
        except OSError:
            raise LinkFault("the engine has closed the link") from None

    def receive(self, seconds):
        try:
            ready = select.select([self.socket], [], [], seconds)[0]
            octets = self.socket.recv(BLOCK) if ready else None
        except OSError:
            raise LinkFault("the engine has closed the link") from None
        return None if self.kind == "udp" and not octets else octets

    def close(self):
        self.socket.close()


class Capture:
    """A link whose packets, both ways, are also kept in a file that Wireshark reads (pcap, link type USER15)."""

    def __init__(self, link, file):
        self.link, self.file = link, file
        file.write(struct.pack("<IHHiIII", 0xA1B2C3D4, 2, 4, 0, 0, BLOCK, 162))

    def keep(self, octets):
        seconds, parts = divmod(time.time_ns() // 1000, 1000000)
        self.file.write(struct.pack("<IIII", seconds, parts, len(octets), len(octets)) + octets)
        self.file.flush()

    def send(self, packet):
        self.keep(packet)
        self.link.send(packet)

    def receive(self, seconds):
        octets = self.link.receive(seconds)
        if octets:
            self.keep(octets)
        return octets

    def close(self):
        self.link.close()


# ---- the command

FORMS = {"load": "ID FILE", "unload": "ID", "activate": "ID [HEX] [BUDGET]", "stop": "ID STEP", "suspend": "ID STEP",
         "resume": "ID", "communicate": "ID NUMBER ..", "status": "", "abort": "ID", "watch": "[SECONDS]"}


def image_of(file):
    """The octets of a file of hexadecimal digits, as `ocp asm` and tools/c_build write it."""
    try:
        with open(file, encoding="ascii") as text:
            digits = text.read(LONGEST_FILE + 1)
        octets = b"" if len(digits) > LONGEST_FILE else bytes.fromhex(digits)
    except OSError as fault:
        raise ValueError(f"{file}: {fault.strerror}") from None
    except ValueError:
        raise ValueError(f"{file}: not hexadecimal digits") from None
    if len(digits) > LONGEST_FILE:
        raise ValueError(f"{file}: over {LONGEST_FILE} characters, which no load takes")
    return octets


def warnings_of(file, image, profile, program):
    """What `ocp check` does not show of an image, a line each; ValueError if it can't be asked."""
    words = [program, "check", f"--profile={profile}"]
    try:
        said = subprocess.run(words, input=image.hex(), capture_output=True, text=True, timeout=60, check=False)
    except (OSError, subprocess.TimeoutExpired) as fault:
        raise ValueError(f"{program} check: {getattr(fault, 'strerror', None) or 'it did not end'}") from None
    if said.returncode not in (0, 1):
        raise ValueError(f"{program} check: {said.stderr.strip() or f'status {said.returncode}'}")
    return [f"{file}: {line}" for line in said.stdout.splitlines() if re.match("slot |round   not|error ", line)]


def warn_of_loads(words, options):
    """Says of each image that the commands load what is not shown of it."""
    if options.check is not None and words[0] == "load" and len(words) == 3:
        for line in warnings_of(words[2], image_of(words[2]), options.check, options.ocp):
            say(line)


def request_of(words):
    """The request that the words of one command name, or ValueError."""
    verb, rest = words[0], words[1:]
    if verb not in FORMS:
        raise ValueError(f"no command `{verb}`; there are {', '.join(FORMS)}")
    makers = {
        ("load", 2): lambda: load(int(rest[0]), image_of(rest[1])),
        ("activate", 1): lambda: activate(int(rest[0])),
        ("activate", 2): lambda: activate(int(rest[0]), bytes.fromhex(rest[1])),
        ("activate", 3): lambda: activate(int(rest[0]), bytes.fromhex(rest[1]), int(rest[2])),
        ("stop", 2): lambda: stop(int(rest[0]), int(rest[1])),
        ("suspend", 2): lambda: suspend(int(rest[0]), int(rest[1])),
        ("unload", 1): lambda: unload(int(rest[0])),
        ("resume", 1): lambda: resume(int(rest[0])),
        ("abort", 1): lambda: abort(int(rest[0])),
        ("status", 0): status,
    }
    if verb == "communicate" and len(rest) > 1:
        return communicate(int(rest[0]), [int(word) for word in rest[1:]])
    if (verb, len(rest)) not in makers:
        raise ValueError(f"{verb} is written `{' '.join([verb, FORMS[verb]]).strip()}`")
    return makers[verb, len(rest)]()


def commands_of(options):
    """The commands between the words `then`. What they load is checked first, if the options say so."""
    found = [[]]
    for word in options.words:
        if word == "then":
            found.append([])
        else:
            found[-1].append(word)
    if not all(found):
        raise ValueError("a command is empty")
    commands = [("watch", seconds_of("watch", one[1:])) if one[0] == "watch" else (one[0], request_of(one)) for one in found]
    for one in found:
        warn_of_loads(one, options)
    return commands


def seconds_of(name, words):
    """A number of seconds, 5 if there is none."""
    if len(words) > 1:
        raise ValueError(f"{name} is written `{name} {FORMS[name]}`")
    seconds = float(words[0]) if words else 5.0
    if not (math.isfinite(seconds) and 0 <= seconds <= LONGEST_WAIT):
        raise ValueError(f"{name}: seconds are 0 to {LONGEST_WAIT}, not {words[0]}")
    return seconds


def say(text):
    print(f"ground: {text}", file=sys.stderr, flush=True)


class Shown:
    """Prints what comes, a fault and a gap on standard error, and knows whether all of it was good news. A report to another
    source is printed with that source, and is no news of ours."""

    def __init__(self, source):
        self.source, self.good = source, True

    def is_own(self, report):
        if isinstance(report, (word_table.Housekeeping, word_table.EventReport)):
            return True
        return report.destination == self.source or (isinstance(report, Verification) and report.code in UNTRUSTED)

    def report(self, report):
        if isinstance(report, PacketFault):
            say(f"bad packet, {report}")
            self.good = False
        elif isinstance(report, Gap):
            say(report)
        elif self.is_own(report):
            print(f"time {report.time} {report}", flush=True)
            self.good &= not isinstance(report, Verification) or report.succeeded
        else:
            print(f"time {report.time} to source {report.destination}: {report}", flush=True)


class Watch:
    """Prints the status if it changed, and every other report but the good ones of its own requests."""

    def __init__(self, shown):
        self.shown, self.before, self.own = shown, None, None

    def report(self, report):
        if isinstance(report, Status) and self.shown.is_own(report):
            if report.procedures != self.before:
                self.shown.report(report)
            self.before = report.procedures
        elif not isinstance(report, Verification) or not report.succeeded or report.request != self.own:
            self.shown.report(report)

    def run(self, ground, seconds):
        """Asks for the status each second."""
        ends = time.monotonic() + seconds
        while time.monotonic() < ends:
            asked = time.monotonic()
            self.own = ground.name()
            ground.ask(status(), COMPLETION, each=self.report)
            while (left := min(ends, asked + 1.0) - time.monotonic()) > 0:
                report = ground.next(left)
                if report is not None:
                    self.shown.report(report)


# what becomes of a request that arrives twice
TWICE = {"load": "is refused", "unload": "is refused", "activate": "is refused while the procedure is active, else done twice",
         "stop": "replaces the first one, or is refused", "suspend": "replaces the first one, or is refused",
         "resume": "is refused, or done twice", "communicate": "is done twice: the words come twice",
         "abort": "is refused", "status": "is done twice"}


def asked(ground, request, options, shown):
    """Asks, and repeats as often as the options say a request that was not answered or was changed on the way. A stop or
    suspend that waits for its step is not repeated."""
    for repeat in range(1, options.retry + 1):
        name = ground.name()
        try:
            came = ground.ask(request, options.flags, options.seconds, shown.report)
            if not any(isinstance(one, Verification) and one.request == name and one.code in UNTRUSTED for one in came):
                return
            why = "the first one was changed on the way"
        except Unanswered as fault:
            if not fault.may_repeat:
                raise
            say(fault)
            why = f"if the first one has arrived, this one {TWICE[request.name]}"
        say(f"repeats {request.name}, {repeat} of {options.retry}; {why}")
    ground.ask(request, options.flags, options.seconds, shown.report)


def options_of(words):
    parser = argparse.ArgumentParser(description=__doc__, formatter_class=argparse.RawDescriptionHelpFormatter)
    link = parser.add_mutually_exclusive_group(required=True)
    link.add_argument("--tcp", type=int, metavar="PORT", help="an engine at a TCP port of the loopback")
    link.add_argument("--udp", type=int, metavar="PORT", help="an engine at a UDP port of the loopback")
    link.add_argument("--pipe", metavar="COMMAND", help="an engine that is started, and spoken to by pipes")
    link.add_argument("--print", action="store_true", help="print the packets, and send them nowhere")
    parser.add_argument("--own", type=int, default=0, metavar="PORT", help="own UDP port (default: any)")
    parser.add_argument("--apid", type=int, default=291)
    parser.add_argument("--source", type=int, default=0, help="source ID, to which reports come (default 0)")
    parser.add_argument("--shared", action="store_true", help="other clients have reports too: say nothing of gaps in the count")
    parser.add_argument("--count", type=int, default=0, help="count of the first request (default 0)")
    parser.add_argument("--flags", type=int, default=ALL_FLAGS, help="1 accepted, 2 started, 8 completed (default 11)")
    parser.add_argument("--seconds", type=float, default=10.0, help="how long a last report is waited for (default 10)")
    parser.add_argument("--retry", type=int, default=0, metavar="N", help="repeat an unanswered request up to N times (default 0)")
    parser.add_argument("--capture", metavar="FILE", help="also keep the packets in a file that Wireshark reads")
    parser.add_argument("--check", type=int, choices=(1, 2), metavar="PROFILE",
                        help="before anything is sent, say what `ocp check` does not show of each image that is loaded")
    parser.add_argument("--words", dest="table", metavar="FILE",
                        help="the table of the mission's words: also show the packets of its flight software")
    parser.add_argument("--ocp", default=OCP, metavar="PROGRAM", help="the program for --check (default: that of this repository)")
    parser.add_argument("words", nargs="+", metavar="COMMAND", help=", ".join(f"{k} {v}".strip() for k, v in FORMS.items()))
    options = parser.parse_args(words)
    if not (math.isfinite(options.seconds) and 0 < options.seconds <= LONGEST_WAIT and 0 <= options.retry <= 100):
        parser.error(f"--seconds is above 0 and at most {LONGEST_WAIT}, --retry is 0 to 100")
    return options


def link_of(options):
    """The engine that the options name; its packets are kept if they say so."""
    kept = open(options.capture, "wb") if options.capture else None
    if options.pipe is not None:
        link = Pipes(shlex.split(options.pipe) or [""])
    else:
        link = Socket("tcp", options.tcp) if options.tcp is not None else Socket("udp", options.udp, options.own)
    return Capture(link, kept) if kept else link


def table_of(options):
    """The table of words that the options name, or none; ValueError if it is faulty."""
    try:
        return word_table.read(options.table) if options.table else None
    except (word_table.Fault, ImportError) as fault:
        raise ValueError(fault) from None


def run(options, commands):
    """Does the commands over the link; gives whether all went well."""
    table = table_of(options)
    ground = Ground(link_of(options), options.source, options.apid, options.count, options.shared, table)
    shown = Shown(options.source)
    try:
        for verb, what in commands:
            if verb == "watch":
                Watch(shown).run(ground, what)
            else:
                asked(ground, what, options, shown)
    finally:
        for report in ground.rest():
            shown.report(report)
        ground.link.close()
    return shown.good


def done(words):
    """Does what the words say; gives the status."""
    options = options_of(words)
    commands = commands_of(options)
    Request("", 8, b"").packet(options.count, options.flags, options.source, options.apid)
    if not options.print:
        return 0 if run(options, commands) else 1
    for count, (_, request) in enumerate(commands):
        if not isinstance(request, Request):
            raise ValueError("watch is no packet")
        print(request.packet((options.count + count) % COUNTS, options.flags, options.source, options.apid).hex())
    sys.stdout.flush()
    return 0


def main(words):
    sys.stderr = sys.stderr or open(os.devnull, "w")
    if sys.stdout is None:
        say("standard output is closed")
        return 3
    try:
        return done(words)
    except (ValueError, OverflowError) as fault:
        say(fault)
        return 2
    except LinkFault as fault:
        say(fault)
    except OSError as fault:
        say(f"{fault.filename or 'output'}: {fault.strerror}")
        os.dup2(os.open(os.devnull, os.O_WRONLY), sys.stdout.fileno())  # what could not be written is not tried again
    except KeyboardInterrupt:
        pass
    return 3


if __name__ == "__main__":
    sys.exit(main(sys.argv[1:]))
