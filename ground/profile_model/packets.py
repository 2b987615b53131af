"""Space packets and the secondary headers in them, and why one is discarded or fails."""
import binascii

COUNTS = 16384
SEGMENTED, NO_SECONDARY, NO_ROOM, PEC, PUS_VERSION, SERVICE, SUBTYPE, LAYOUT = 1, 2, 3, 4, 5, 6, 7, 8
ALREADY_LOADED, TABLE_FULL, BAD_CODE, NOT_LOADED, NOT_INACTIVE, NOT_ACTIVE = 16, 17, 18, 19, 20, 21
NOT_RUNNING, NOT_HELD, STOP_PENDING, MAILBOX_FULL, OVERTAKEN, OUTBOX_FULL = 22, 23, 24, 25, 26, 27
ACCEPTANCE, START, COMPLETION = 1, 2, 8


class Discarded(Exception):
    """A packet that is no telecommand for this engine."""


class Failed(Exception):
    """A request that fails: the code and its data."""

    def __init__(self, code, data=b""):
        self.code, self.data = code, data


def number(octets):
    return int.from_bytes(octets, "big")


def error_control(octets):
    return binascii.crc_hqx(octets, 0xFFFF).to_bytes(2, "big")


def telecommand(packet, apid):
    """The flags, source, service, subtype and payload of a telecommand; source and fault if it is rejected."""
    if len(packet) < 7:
        raise Discarded("Short")
    head = number(packet[0:2])
    if head >> 13 != 0:
        raise Discarded("Version")
    if number(packet[4:6]) + 7 != len(packet):
        raise Discarded("Length")
    if head >> 12 & 1 != 1:
        raise Discarded("NotTelecommand")
    if head & 0x7FF != apid:
        raise Discarded("OtherApid")
    if packet[2] >> 6 != 3:
        raise Failed(SEGMENTED)
    if head >> 11 & 1 != 1:
        raise Failed(NO_SECONDARY)
    field = packet[6:]
    if len(field) < 7:
        raise Failed(NO_ROOM)
    if error_control(packet[:-2]) != packet[-2:]:
        raise Failed(PEC)
    if field[0] >> 4 != 2:
        raise Failed(PUS_VERSION)
    return field[0] & 15, number(field[3:5]), field[1], field[2], field[5:-2]


def ground_packet(apid, count, flags, subtype, data):
    """The telecommand that a `send` line makes."""
    field = bytes([2 << 4 | flags, 18, subtype, 0, 0]) + data
    head = (1 << 12 | 1 << 11 | apid).to_bytes(2, "big") + (3 << 14 | count).to_bytes(2, "big")
    packet = head + (len(field) + 1).to_bytes(2, "big") + field
    return packet + error_control(packet)
