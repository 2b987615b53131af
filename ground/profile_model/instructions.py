"""Instructions: what a slot says, in which spelling, and why one says nothing."""
import struct

ARITHMETIC = {0: "add", 1: "sub", 2: "mul", 3: "div", 4: "or", 5: "and", 6: "lsh", 7: "rsh", 9: "mod", 10: "xor", 11: "mov", 12: "arsh"}
SIGNED = {"div": "sdiv", "mod": "smod"}
JUMPS = {1: "jeq", 2: "jgt", 3: "jge", 4: "jset", 5: "jne", 6: "jsgt", 7: "jsge", 10: "jlt", 11: "jle", 12: "jslt", 13: "jsle"}
ORDERS = {0xD4: "le", 0xDC: "be", 0xD7: "swap"}
LOADS = {0x61: ("ldxw", 4), 0x69: ("ldxh", 2), 0x71: ("ldxb", 1), 0x79: ("ldxdw", 8)}
SIGNED_LOADS = {0x81: ("ldxsw", 4), 0x89: ("ldxsh", 2), 0x91: ("ldxsb", 1)}
STORES = {0x62: ("stw", 4), 0x6A: ("sth", 2), 0x72: ("stb", 1), 0x7A: ("stdw", 8)}
STORES_OF_REGISTERS = {0x63: ("stxw", 4), 0x6B: ("stxh", 2), 0x73: ("stxb", 1), 0x7B: ("stxdw", 8)}
MASK, MASK32 = 2**64 - 1, 2**32 - 1
CUT_WIDE, UNKNOWN, BAD_REGISTER, RESERVED, WRITES_FRAME = 1, 2, 3, 4, 5


class BadSlot(Exception):
    """A slot at which no instruction begins that may be loaded."""


class Instruction:
    """An instruction: its kind, its text, the fields that its row names, and what else the row says."""

    def __init__(self, kind, text, fields, **row):
        self.kind, self.text, self.fields = kind, text, fields
        self.slots, self.is_reserved = 1, False
        self.__dict__.update(row)


def signed(value, bits):
    value &= 2**bits - 1
    return value - 2**bits if value >> bits - 1 else value


def row_of(opcode, dst, src, offset, imm, after):
    """The row of the table that an opcode is in."""
    kind, code = opcode & 7, opcode >> 4
    by_register = opcode >> 3 & 1
    width = 64 if kind in (5, 7) else 32
    second, last = (f"r{src}", "src") if by_register else (f"{imm}", "imm")
    if kind in (4, 7) and code in ARITHMETIC:
        name, fields = ARITHMETIC[code], {"dst", last}
        text = f"{name}{width} r{dst}, {second}"
        if name in SIGNED and offset == 1:
            name, fields, text = SIGNED[name], {"dst", last, "offset"}, f"s{text}"
        if name == "mov" and by_register and offset in ((8, 16, 32) if width == 64 else (8, 16)):
            name, fields, text = "movsx", {"dst", "src", "offset"}, f"movsx{width} r{dst}, r{src}, {offset}"
        return Instruction("alu", text, fields, name=name, width=width, by_register=by_register)
    elif opcode in (0x84, 0x87):
        return Instruction("alu", f"neg{width} r{dst}", {"dst"}, name="neg", width=width, by_register=by_register)
    elif opcode in ORDERS:
        return Instruction("order", f"{ORDERS[opcode]} r{dst}, {imm}", {"dst", "imm"}, name=ORDERS[opcode],
                           is_reserved=imm not in (16, 32, 64))
    elif opcode == 0x05:
        return Instruction("ja", f"ja {offset:+}", {"offset"}, reach=offset)
    elif opcode == 0x06:
        return Instruction("ja", f"ja32 {imm:+}", {"imm"}, reach=imm)
    elif kind in (5, 6) and code in JUMPS:
        text = f"{JUMPS[code]}{width} r{dst}, {second}, {offset:+}"
        return Instruction("jump", text, {"dst", last, "offset"}, name=JUMPS[code], width=width, by_register=by_register, reach=offset)
    elif opcode == 0x85 and src == 1:
        return Instruction("local", f"call local {imm:+}", {"src", "imm"}, reach=imm)
    elif opcode == 0x85:
        return Instruction("call", f"call {imm}", {"imm"}, number=imm)
    elif opcode == 0x95:
        return Instruction("exit", "exit", set())
    elif opcode == 0x18:
        value = int.from_bytes(after[4:], "little") << 32 | imm & MASK32
        return Instruction("wide", f"lddw r{dst}, 0x{value:016x}", {"dst", "imm"}, slots=2, value=value, is_reserved=any(after[:4]))
    elif opcode in LOADS or opcode in SIGNED_LOADS:
        name, count = LOADS[opcode] if opcode in LOADS else SIGNED_LOADS[opcode]
        return Instruction("load", f"{name} r{dst}, [r{src}{offset:+}]", {"dst", "src", "offset"}, count=count,
                           is_signed=opcode in SIGNED_LOADS)
    elif opcode in STORES:
        name, count = STORES[opcode]
        return Instruction("store", f"{name} [r{dst}{offset:+}], {imm}", {"dst", "imm", "offset"}, count=count, of_register=False)
    elif opcode in STORES_OF_REGISTERS:
        name, count = STORES_OF_REGISTERS[opcode]
        return Instruction("store", f"{name} [r{dst}{offset:+}], r{src}", {"dst", "src", "offset"}, count=count, of_register=True)
    else:
        raise BadSlot(UNKNOWN)


def decoded(slot, after):
    """The instruction that begins with a slot of 8 octets, `after` is the next one or None."""
    opcode, registers, offset, imm = struct.unpack("<BBhi", slot)
    dst, src = registers & 15, registers >> 4
    if opcode == 0x18 and after is None:
        raise BadSlot(CUT_WIDE)
    found = row_of(opcode, dst, src, offset, imm, after)
    if dst > 10 or src > 10:
        raise BadSlot(BAD_REGISTER)
    fields = {"dst": dst, "src": src, "offset": offset, "imm": imm}
    if found.is_reserved or any(value for name, value in fields.items() if name not in found.fields):
        raise BadSlot(RESERVED)
    if dst == 10 and found.kind in ("alu", "order", "load", "wide"):
        raise BadSlot(WRITES_FRAME)
    found.dst, found.src, found.offset, found.imm = dst, src, offset, imm
    return found


def instructions(image):
    """The places of an image at which instructions begin, with them, up to a slot that begins none: BadSlot then has the place."""
    slots, place = [image[at : at + 8] for at in range(0, len(image), 8)], 0
    while place < len(slots):
        try:
            found = decoded(slots[place], slots[place + 1] if place + 1 < len(slots) else None)
        except BadSlot as fault:
            raise BadSlot(*fault.args, place) from None
        yield place, found
        place += found.slots
