"""Instructions as octets, for the images that tests write."""
import struct


def slot(opcode: int, dst: int = 0, src: int = 0, offset: int = 0, immediate: int = 0) -> bytes:
    return struct.pack("<BBhI", opcode, src << 4 | dst, offset, immediate % 2**32)


def call(number: int) -> bytes:
    """An engine call."""
    return slot(0x85, immediate=number)


def move(dst: int, immediate: int) -> bytes:
    return slot(0xB7, dst, immediate=immediate)


EXIT = slot(0x95)
SPIN = slot(0x07, 0, immediate=1) + slot(0x05, offset=-2)  # counts in r0 for ever
