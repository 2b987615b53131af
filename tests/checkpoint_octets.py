#!/usr/bin/env python3
"""Checkpoints by hand, field by field, as section "Checkpoints" of docs/PROFILE.md has them. It prints each as hexadecimal digits.

usage: tests/checkpoint_octets.py [NAME]     the names: empty, one; all, if left out
"""
import sys

STACK, ARGUMENTS, WORK = 4_096, 256, {1: 1_024, 2: 4_096}
# `exit`, an image of one slot.
EXIT = bytes.fromhex("9500000000000000")
INACTIVE, RUNNING, HELD = range(3)
FRAME_POINTER = 0x1000_1000


def number(octets, value):
    return value.to_bytes(octets, "big")


def words(values):
    return b"".join(number(8, value) for value in values)


def header(profile, apid, count, events, entries):
    return bytes([1, profile]) + number(2, apid) + number(2, count) + number(8, events) + number(8, entries)


def pool(values):
    return number(2, len(values)) + words(values)


def origin(events, request, source, flags):
    return number(8, events) + request + number(2, source) + number(1, flags)


def outbox(completions):
    """Each completion is its origin, and whether something else overtook it."""
    return number(1, len(completions)) + b"".join(octets + number(1, overtaken) for octets, overtaken in completions)


def pending(kind=0, step=0, octets=b""):
    return number(1, kind) + (number(2, step) + octets if kind else b"")


def budget(left=None):
    return b"\0" if left is None else b"\1" + number(4, left)


def counted(octets, values):
    return number(1, len(values)) + b"".join(number(octets, value) for value in values)


def machine(profile, registers, place, frames=(), stack=b"", arguments=b"", work=b""):
    """A frame is R6 to R10 and a place. Each region is filled up with zeros."""
    saved = b"".join(words(kept) + number(2, back) for kept, back in frames)
    regions = stack.ljust(STACK, b"\0") + arguments.ljust(ARGUMENTS, b"\0") + work.ljust(WORK[profile], b"\0")
    return words(registers) + number(2, place) + number(1, len(frames)) + saved + regions


def procedure(name, control, left, breakpoints, mailbox, image, octets):
    """The control is the status, what is pending, the pass flag, the trace flag and the cause."""
    status, wanted, passes, traced, cause = control
    set_by_requests = bytes([status]) + wanted + bytes([passes, traced, cause]) + budget(left)
    return (number(2, name) + set_by_requests + counted(2, breakpoints) + counted(8, mailbox) + number(2, len(image) // 8) + image
            + octets)


def table(procedures):
    return number(1, len(procedures)) + b"".join(procedures)


def empty():
    """An engine of profile 1, APID 42 and 16 pool words in which nothing has happened."""
    return header(1, 42, 0, 0, 0) + pool([0] * 16) + outbox([]) + table([])


def one():
    """One procedure, 7, of one slot. The first request loaded it, the second one started it with the octets 1, 2 and 3. Each asked for
    the reports of acceptance, start and completion, and got them."""
    registers = [0, 0x2000_0000, 3, 0, 0, 0, 0, 0, 0, 0, FRAME_POINTER]
    started = procedure(7, (RUNNING, pending(), 0, 0, 0), None, [], [], EXIT, machine(1, registers, 0, arguments=bytes([1, 2, 3])))
    return header(1, 42, 6, 2, 2) + pool([0] * 16) + outbox([]) + table([started])


CHECKPOINTS = {"empty": empty, "one": one}


def main():
    for name in sys.argv[1:] or CHECKPOINTS:
        print(name, CHECKPOINTS[name]().hex())


if __name__ == "__main__":
    main()
