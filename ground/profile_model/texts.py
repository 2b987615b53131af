"""Listings and assembly texts."""
import re

from profile_model.instructions import (
    ARITHMETIC, JUMPS, LOADS, MASK, MASK32, ORDERS, SIGNED, SIGNED_LOADS, STORES, STORES_OF_REGISTERS, BadSlot, instructions,
    signed)
from profile_model.loading import EMPTY, TOO_LONG, LoadFault, loaded
from profile_model.words import Syntax, octets, text_of

MAX_INPUT = 1048576


def listing(text):
    """What `list` writes."""
    if len(text) > MAX_INPUT:
        return "error 0 TooLong\n"
    digits = text.rstrip(b" \n")
    try:
        image = octets(digits)
    except Syntax:
        return "error 0 Hex\n"
    if len(image) % 8:
        return "error 0 Ragged\n"
    try:
        return "".join(f"{found.text}\n" for _, found in instructions(image))
    except BadSlot as bad:
        fault, place = bad.args
        return f"error {place} Decode {fault}\n"


class TextFault(Exception):
    """Why a line is no line of a text."""


def tokens_of(line):
    found, rest = [], text_of(line.split(b";")[0])
    while rest := rest.lstrip(" \t"):
        token = re.match(r"[+-]?[A-Za-z0-9_]+|[,\[\]:]", rest, re.ASCII)
        if not token:
            raise TextFault("Syntax")
        found.append(token[0])
        rest = rest[token.end() :]
    return found


def numeral(token):
    if not re.fullmatch("[0-9]+|0x[0-9a-fA-F]+", token):
        raise TextFault("Syntax")
    return int(token, 16) if token.startswith("0x") else int(token)


def is_register(token):
    return re.fullmatch("r([0-9]|10)", token) is not None


def is_name(token):
    return re.fullmatch("[A-Za-z_][A-Za-z0-9_]{0,31}", token) is not None


SIGNS = {"+": 1, "-": -1}


class Readings:
    """Readings of operands: Syntax at once, and whether a number was out of its range."""

    def __init__(self):
        self.is_out = False

    def register(self, token):
        if not is_register(token):
            raise TextFault("Syntax")
        return int(token[1:])

    def imm(self, token):
        value = -numeral(token[1:]) if token[0] == "-" else numeral(token)
        self.is_out |= not -(2**31) <= value < 2**32
        return value

    def wide_number(self, token):
        value = numeral(token)
        self.is_out |= value > MASK
        return value

    def distance(self, token, bits):
        if token[0] not in SIGNS:
            raise TextFault("Syntax")
        value = SIGNS[token[0]] * numeral(token[1:])
        self.is_out |= value != signed(value, bits)
        return value

    def target(self, token, bits):
        return token if is_name(token) else self.distance(token, bits)

    def width(self, token, *widths):
        value = numeral(token)
        self.is_out |= value not in widths
        return value


def shaped(tokens, shape):
    """The operands among tokens that have a shape: `x` for an operand, else the token itself."""
    if len(tokens) != len(shape):
        raise TextFault("Syntax")
    for token, wanted in zip(tokens, shape):
        if wanted not in ("x", token):
            raise TextFault("Syntax")
    return [token for token, wanted in zip(tokens, shape) if wanted == "x"]


def encoded(opcode, dst=0, src=0, offset=0, imm=0):
    return [opcode, dst, src, offset, imm]


def with_place(read, tokens, shape):
    """Operands of a load or a store, and the distance that may be at the end of the brackets."""
    if len(tokens) == len(shape):
        return *shaped(tokens, shape), 0
    end = shape.index("]")
    return *shaped(tokens[:end] + tokens[end + 1 :], shape), read.distance(tokens[end], 16)


def arithmetic(read, name, width, rest):
    """An instruction of arithmetic with two operands."""
    first, second = shaped(rest, list("x,x"))
    dst, kind, offset = read.register(first), 7 if width == "64" else 4, 1 if name in SIGNED.values() else 0
    code = next(code for code, text in ARITHMETIC.items() if name in (text, SIGNED.get(text))) << 4
    if is_register(second):
        return encoded(code | kind | 8, dst, read.register(second), offset)
    return encoded(code | kind, dst, 0, offset, read.imm(second))


def jump(read, name, width, rest):
    """A jump with a condition."""
    first, second, third = shaped(rest, list("x,x,x"))
    dst, kind = read.register(first), 5 if width == "64" else 6
    code = next(code for code, text in JUMPS.items() if text == name) << 4
    if is_register(second):
        return encoded(code | kind | 8, dst, read.register(second), read.target(third, 16))
    return encoded(code | kind, dst, 0, imm=read.imm(second), offset=read.target(third, 16))


def opcode_of(table, name):
    """The opcode that a table gives a name, or None."""
    return next((opcode for opcode, (text, _) in table.items() if text == name), None)


def access(read, name, rest):
    """A load or a store; None if the name is of neither."""
    if opcode := opcode_of(LOADS | SIGNED_LOADS, name):
        dst, src, offset = with_place(read, rest, list("x,[x]"))
        return encoded(opcode, read.register(dst), read.register(src), offset)
    elif opcode := opcode_of(STORES, name):
        dst, imm, offset = with_place(read, rest, list("[x],x"))
        return encoded(opcode, read.register(dst), 0, offset, read.imm(imm))
    elif opcode := opcode_of(STORES_OF_REGISTERS, name):
        dst, src, offset = with_place(read, rest, list("[x],x"))
        return encoded(opcode, read.register(dst), read.register(src), offset)
    else:
        return None


def statement(tokens):
    """An instruction of a text as opcode, dst, src, offset and imm, a name among them, its second slot if it is wide, and whether
    a number of it is out of its range."""
    read, name, rest = Readings(), tokens[0], tokens[1:]
    base, width = name[:-2], name[-2:]
    orders = {text: opcode for opcode, text in ORDERS.items()}
    high = None
    if width in ("64", "32") and base in [*ARITHMETIC.values(), *SIGNED.values()]:
        made = arithmetic(read, base, width, rest)
    elif width in ("64", "32") and base in JUMPS.values():
        made = jump(read, base, width, rest)
    elif name in ("neg64", "neg32"):
        (first,) = shaped(rest, ["x"])
        made = encoded(0x87 if name == "neg64" else 0x84, read.register(first))
    elif name in ("movsx64", "movsx32"):
        first, second, third = shaped(rest, list("x,x,x"))
        widths = (8, 16, 32) if name == "movsx64" else (8, 16)
        made = encoded(0xBF if name == "movsx64" else 0xBC, read.register(first), read.register(second), read.width(third, *widths))
    elif name in orders:
        first, second = shaped(rest, list("x,x"))
        made = encoded(orders[name], read.register(first), imm=read.width(second, 16, 32, 64))
    elif name == "lddw":
        first, second = shaped(rest, list("x,x"))
        dst, value = read.register(first), read.wide_number(second)
        made, high = encoded(0x18, dst, imm=value), value >> 32
    elif name == "ja":
        (first,) = shaped(rest, ["x"])
        made = encoded(0x05, offset=read.target(first, 16))
    elif name == "ja32":
        (first,) = shaped(rest, ["x"])
        made = encoded(0x06, imm=read.target(first, 32))
    elif name == "call" and rest[:1] == ["local"]:
        (first,) = shaped(rest[1:], ["x"])
        made = encoded(0x85, src=1, imm=read.target(first, 32))
    elif name == "call":
        (first,) = shaped(rest, ["x"])
        made = encoded(0x85, imm=read.imm(first))
    elif name == "exit":
        shaped(rest, [])
        made = encoded(0x95)
    else:
        made = access(read, name, rest)
    if not made:
        raise TextFault("Syntax")
    return made, high, read.is_out


def slot(made):
    opcode, dst, src, offset, imm = made
    return bytes([opcode, src << 4 | dst]) + (offset & 65535).to_bytes(2, "little") + (imm & MASK32).to_bytes(4, "little")


def assembly(text, profile=1):
    """What `asm` writes."""
    if len(text) > MAX_INPUT:
        return "error 0 TooLong\n"
    lines = text.split(b"\n")
    lines = [it.removesuffix(b"\r") for it in lines[:-1]] + lines[-1:]
    labels, found, place = {}, [], 0
    for at, line in enumerate(lines, 1):
        try:
            tokens = tokens_of(line)
            label = None
            if len(tokens) > 1 and tokens[1] == ":":
                label, tokens = tokens[0], tokens[2:]
                if not is_name(label):
                    raise TextFault("Syntax")
            made = statement(tokens) if tokens else None
            if made and made[2]:
                raise TextFault("Range")
            if label in labels:
                raise TextFault("DuplicateLabel")
        except TextFault as fault:
            return f"error {at} {fault}\n"
        if label:
            labels[label] = place
        if made:
            found.append((at, place, made[0], made[1]))
            place += 1 if made[1] is None else 2
    image, line_at = b"", {}
    for at, place, made, high in found:
        for part in (3, 4):
            if isinstance(made[part], str):
                if made[part] not in labels:
                    return f"error {at} UnknownLabel\n"
                made[part] = labels[made[part]] - place - 1
        if not -32768 <= made[3] <= 32767:
            return f"error {at} Range\n"
        line_at[place] = at
        image += slot(made) + (b"" if high is None else bytes(4) + high.to_bytes(4, "little"))
    try:
        loaded(image, profile)
    except LoadFault as fault:
        return f"error {0 if fault.fault in (EMPTY, TOO_LONG) else line_at[fault.slot]} Load {fault.fault}\n"
    return image.hex() + "\n"
