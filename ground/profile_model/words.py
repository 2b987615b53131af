"""Words of the console, and the request that the words of a `send` line say."""
import re

from profile_model.instructions import MASK
from profile_model.requests import (ABORT, ACTIVATE, COMMUNICATE, LOAD, MAX_ARGUMENTS, MAX_WORDS, REPORT_STATUS, RESUME, STOP, SUSPEND,
                                    UNLOAD)


class Syntax(Exception):
    """A line of a script that has no form."""


def decimal(word, greatest):
    """A number; none has more than 20 digits after its leading zeros."""
    digits = re.fullmatch(b"0*(?P<value>[0-9]{1,20})", word)
    if not digits or int(digits["value"]) > greatest:
        raise Syntax
    return int(digits["value"])


def positive(word, greatest):
    value = decimal(word, greatest)
    if not value:
        raise Syntax
    return value


def short(word):
    return decimal(word, 65535)


def octets(word):
    if not re.fullmatch(b"([0-9a-fA-F]{2})*", word):
        raise Syntax
    return bytes.fromhex(word.decode())


def address(word):
    if not re.fullmatch(b"0x[0-9a-fA-F]{1,16}", word):
        raise Syntax
    return int(word, 16)


def exactly(words, *counts):
    if len(words) not in counts:
        raise Syntax
    return words


def text_of(word):
    """Octets as a text, each one character."""
    return "".join(map(chr, word))


def payload_of(profile, words):
    """Subtype and payload of the request that the words after `send` and the flags say."""
    verb, words = words[0], words[1:]
    two = lambda value: value.to_bytes(2, "big")
    if verb == b"load":
        exactly(words, 1, 2)
        name, code = short(words[0]), octets(b"".join(words[1:]))
        return LOAD, two(name) + two(len(code)) + code
    if verb == b"activate":
        exactly(words, *((1, 2) if profile == 1 else (2, 3)))
        data = two(short(words[0]))
        if profile == 2:
            data += decimal(words[1], 2**32 - 1).to_bytes(4, "big")
        arguments = octets(b"".join(words[profile:]))
        if len(arguments) > MAX_ARGUMENTS:
            raise Syntax
        return ACTIVATE, data + two(len(arguments)) + arguments
    if verb == b"communicate":
        exactly(words, *range(2, 2 + MAX_WORDS))
        numbers = [decimal(word, MASK) for word in words[1:]]
        return COMMUNICATE, two(short(words[0])) + bytes([len(numbers)]) + b"".join(it.to_bytes(8, "big") for it in numbers)
    if verb in (b"stop", b"suspend"):
        name, step = exactly(words, 2)
        return STOP if verb == b"stop" else SUSPEND, two(short(name)) + two(short(step))
    if verb in (b"unload", b"resume", b"abort"):
        (name,) = exactly(words, 1)
        return {b"unload": UNLOAD, b"resume": RESUME, b"abort": ABORT}[verb], two(short(name))
    if verb == b"status":
        exactly(words, 0)
        return REPORT_STATUS, b""
    raise Syntax
