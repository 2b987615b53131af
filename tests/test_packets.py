"""Telecommands and reports, read by a dissector that is not ours, and their error control by another implementation.

Each telecommand is made here from the tables of docs/PROFILE.md: of each kind and profile, with other identifiers, flags and counts,
and loads of random octets. tshark (CCSDS) has to read its primary header as meant. The built program has to take it with the error
control of binascii.crc_hqx, to repeat its first four octets in its reports, and to refuse it with one bit of the error control
changed.

The reports are those that tests of the crates expect of the engine, and cases of library calls of the writer of telemetry. tshark has
to read each as telemetry of one application process, unsegmented and of its own length, and the error control has to be crc_hqx's.
There has to be one of each kind.
"""
import re
import struct
from binascii import crc_hqx

from chance import SEED, chance, scaled
from support import ROOT, Case, needs, ocp, run

APID, SERVICE, SOURCE = 0x123, 18, 7
EXIT = bytes.fromhex("9500000000000000")
REPORT_KINDS = {(1, 1), (1, 2), (1, 3), (1, 4), (1, 7), (1, 8), (18, 9)}
FIELDS = ["version", "type", "secheader", "apid", "seqflag", "seqnum", "length"]
DLT = 'uat:user_dlts:"User 0 (DLT=147)","ccsds","0","","0",""'


def telecommand(subtype, data, count, flags=0, apid=APID):
    """Its octets, and what its primary header has to say."""
    field = struct.pack(">BBBH", 2 << 4 | flags, SERVICE, subtype, SOURCE) + data
    octets = struct.pack(">HHH", 0b00011 << 11 | apid, 0b11 << 14 | count, len(field) + 1) + field
    return octets + struct.pack(">H", crc_hqx(octets, 0xFFFF)), (0, 1, 1, apid, 3, count, len(field) + 1)


def activation(profile, budget, arguments):
    return struct.pack(">H", 7) + (struct.pack(">I", budget) if profile == 2 else b"") + struct.pack(">H", len(arguments)) + arguments


def requests(profile):
    """The data of each kind of request: subtype, data."""
    yield 1, struct.pack(">HH", 7, len(EXIT)) + EXIT
    yield 7, struct.pack(">HBQ", 7, 1, 2**64 - 1)
    yield 3, activation(profile, 2**32 - 1, b"abc")
    yield 7, struct.pack(">HB8Q", 7, 8, *range(8))
    yield 5, struct.pack(">HH", 7, 0xFFFF)
    yield 4, struct.pack(">HH", 7, 1)
    yield 6, struct.pack(">H", 7)
    yield 8, b""
    yield 12, struct.pack(">H", 7)
    yield 2, struct.pack(">H", 7)
    yield 3, activation(profile, 0, bytes(256))


def telecommands(profile):
    """Packets of each kind with all flags, then loads of random octets with random counts: octets, fields."""
    made = [telecommand(kind, data, count, flags) for flags in (1, 15) for count, (kind, data) in enumerate(requests(profile))]
    draw = chance("packets", profile)
    for _ in range(scaled(200)):
        code = draw.randbytes(draw.randrange(1, 300))
        made.append(telecommand(1, struct.pack(">HH", 9, len(code)) + code, draw.randrange(16384), 1))
    return made


def packets_of(octets):
    """The packets, one after the other."""
    while octets:
        end = 7 + int.from_bytes(octets[4:6], "big")
        yield octets[:end]
        octets = octets[end:]


def is_report(octets):
    """Whether octets begin as telemetry of the engine's application process, with more than zeros after the primary header."""
    return len(octets) >= 19 and list(octets[:2]) == [0x08 | APID >> 8, APID & 255] and any(octets[6:17])


def tested_reports():
    """Each array of octets in the tests that is telemetry of the engine's application process, whole; not those with a fault. Then
    what the cases of library calls want of a writer and of an engine."""
    number = r"(?:0x[0-9a-f]+|\d+)"
    for path in sorted(ROOT.glob("crates/*/src/*.rt")):
        text = re.sub(r"(?:NO_|TWO_)\w+: .*?\n\];|fn [\w<>]+\(.*?\n}", "", path.read_text(), flags=re.DOTALL)
        for array in re.findall(rf"\[\s*({number}(?:,\s*{number})*),?\s*\]", text):
            values = [int(it, 0) for it in re.split(r",\s*", array)]
            if max(values) < 256 and is_report(values):
                yield from ((path.name, octets) for octets in packets_of(bytes(values)))
    for path in sorted(ROOT.glob("crates/*_driver/cases/*/*.stdout")):
        for answer in re.findall(r"^Ok ((?:[0-9a-f]{2})+(?: (?:[0-9a-f]{2})+)*)$", path.read_text(), flags=re.MULTILINE):
            yield from ((path.stem, octets) for octets in map(bytes.fromhex, answer.split()) if is_report(octets))


class Packets(Case):
    seconds = 3

    def dissected(self, packets):
        """The fields of each primary header as tshark reads them."""
        room = self.room()
        (room / "packets.txt").write_text("".join("000000 " + octets.hex(" ") + "\n" for octets in packets))
        self.passes(["text2pcap", "-q", "-l", "147", "packets.txt", "packets.pcap"], cwd=room)
        words = ["tshark", "-r", "packets.pcap", "-o", DLT, "-T", "fields", *(it for field in FIELDS for it in ("-e", f"ccsds.{field}"))]
        done = run(words, cwd=room)
        return [tuple(int(it, 0) for it in line.split("\t")) for line in done.stdout.splitlines()]

    def test_telecommands_are_taken(self):
        for profile in (1, 2):
            made = [octets for octets, _ in telecommands(profile)]
            wrong = [octets[:-1] + bytes([octets[-1] ^ 1 << at % 8]) for at, octets in enumerate(made)]
            script = "".join(f"up {octets.hex()}\nup {other.hex()}\n" for octets, other in zip(made, wrong))
            lines = ocp(["run", "--apid", APID, "--profile", profile], script).stdout.splitlines()
            wanted = [octets[:4].hex() for octets in made]
            with self.subTest(seed=SEED, profile=profile):
                accepted = [line.split()[-1] for line in lines if line.startswith("tm 1 1 ") and f" dest {SOURCE} " in line]
                self.assertEqual(accepted, wanted)
                refused = [line.split()[-1] for line in lines if line.startswith("tm 1 2 ") and " dest 0 " in line]
                self.assertEqual(refused, [it + "0004" for it in wanted], "with one bit of the error control changed")

    def test_reports_have_their_error_control(self):
        reports = list(tested_reports())
        for name, octets in reports:
            with self.subTest(name, octets=octets.hex()):
                self.assertEqual(crc_hqx(octets, 0xFFFF), 0)
        self.assertEqual(REPORT_KINDS - {(octets[7], octets[8]) for _, octets in reports}, set(), "no report in tests and cases")

    @needs("tshark", "text2pcap")
    def test_a_dissector_reads_each_header(self):
        sent = [it for profile in (1, 2) for it in telecommands(profile)]
        sent += [(it, (0, 0, 1, APID, 3, int.from_bytes(it[2:4], "big") & 0x3FFF, len(it) - 7)) for _, it in tested_reports()]
        read = self.dissected([octets for octets, _ in sent])
        self.assertEqual(len(read), len(sent))
        for (octets, wanted), found in zip(sent, read):
            with self.subTest(seed=SEED, octets=octets.hex()):
                self.assertEqual(found, wanted)
