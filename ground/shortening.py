"""A telecommand that a line of the console has no room for, made shorter.

No good telecommand is that long: the longest is a load of 2,048 slots. An engine refuses a longer one for what its header says,
for its error control, for its layout, or as a load of too many or of no whole slots. A shorter packet with the same fault has the
same reports, octet for octet, and changes nothing either.
"""
from parting import error_control

LINE_OCTETS = 40_000  # of the console's longest line
LONGEST = (LINE_OCTETS - len("up ")) // 2  # octets of a packet, with two digits for each
HEAD, LENGTH, CONTROL = 13, 2, 2  # octets of a load up to its length, of that, and of its error control
SLOT = 8
TOO_LONG = 2049 * SLOT


def shortened(packet):
    """A packet that the console takes, and that an engine answers as this one."""
    if len(packet) <= LONGEST:
        return packet
    code = len(packet) - HEAD - LENGTH - CONTROL
    short = TOO_LONG + code % SLOT
    stated = short if int.from_bytes(packet[HEAD:HEAD + LENGTH], "big") == code else 0
    field = HEAD + LENGTH + short + CONTROL - 7
    octets = packet[:4] + field.to_bytes(2, "big") + packet[6:HEAD] + stated.to_bytes(LENGTH, "big") + bytes(short)
    return octets + (error_control(octets) ^ error_control(packet)).to_bytes(CONTROL, "big")
