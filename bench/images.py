"""The images of the speed measurements: what a procedure does between two engine calls, as machine code.

short   200 instructions of arithmetic, whose branches in an interpreter are well predicted
alu     2,000 random instructions of arithmetic, whose branches are not
mem     2,000 loads and stores of 8 octets on the stack
loop    a jump taken back a thousand times

There is no division, no shift by a register and no arithmetic shift of 32 bits: some peers lack them. Each image comes in two
endings: EXIT, for peers that refuse jumps back, and a jump to the first instruction, which runs as long as it may. After
that jump come eight instructions that are never reached, for breakpoints.
"""
import random
import struct

MOVE_IMMEDIATE, SUBTRACT_IMMEDIATE, LOAD_64, STORE_64 = 0xB7, 0x17, 0x79, 0x7B
JUMP, JUMP_IF_NOT_EQUAL, EXIT = 0x05, 0x55, 0x95
FRAME_POINTER = 10
UNREACHED = 8

# add, sub, mul, or, and, lsh, rsh, xor, mov, arsh; the shifts; the classes of 64 and of 32 bits; the bit of a register operand
OPERATIONS = [0x00, 0x10, 0x20, 0x40, 0x50, 0x60, 0x70, 0xA0, 0xB0, 0xC0]
SHIFTS, ARITHMETIC_SHIFT = (0x60, 0x70, 0xC0), 0xC0
ALU_64, ALU_32, BY_REGISTER = 0x07, 0x04, 0x08


def slot(opcode, dst=0, src=0, offset=0, immediate=0):
    return struct.pack("<BBhi", opcode, src << 4 | dst, offset, immediate)


def arithmetic(generator):
    operation = generator.choice(OPERATIONS)
    width = ALU_64 if operation == ARITHMETIC_SHIFT else generator.choice([ALU_64, ALU_32])
    dst = generator.randrange(10)
    if operation in SHIFTS:
        # Mostly small ones, so that not all values become zero.
        widest = 4 if generator.random() < 0.8 else 64 if width == ALU_64 else 32
        return slot(operation | width, dst, immediate=generator.randrange(1, widest))
    if generator.random() < 0.5:
        return slot(operation | width | BY_REGISTER, dst, generator.randrange(10))
    return slot(operation | width, dst, immediate=generator.randrange(1, 1 << 31))


def numbers(generator):
    return [slot(MOVE_IMMEDIATE, it, immediate=generator.randrange(1, 1 << 31)) for it in range(10)]


def memory(generator, count):
    # Each of the 64 words is written first, since some peers refuse to read one before.
    lines = [slot(STORE_64, FRAME_POINTER, it % 10, -8 * (it + 1)) for it in range(64)]
    while len(lines) < count:
        offset = -8 * generator.randrange(1, 65)
        if generator.random() < 0.5:
            lines.append(slot(LOAD_64, generator.randrange(10), FRAME_POINTER, offset))
        else:
            lines.append(slot(STORE_64, FRAME_POINTER, generator.randrange(10), offset))
    return lines


def bodies():
    """The instructions of each image, without an ending."""
    generator = random.Random(7)
    alu = numbers(generator) + [arithmetic(generator) for _ in range(1989)]
    return {
        "short": alu[:199],
        "alu": alu,
        "mem": numbers(generator) + memory(generator, 1989),
        "loop": [
            slot(MOVE_IMMEDIATE, 1, immediate=1000),
            slot(SUBTRACT_IMMEDIATE, 1, immediate=1),
            slot(JUMP_IF_NOT_EQUAL, 1, offset=-2),
        ],
    }


def that_ends(body):
    return b"".join(body) + slot(EXIT)


def that_repeats(body):
    unreached = slot(MOVE_IMMEDIATE) * UNREACHED + slot(EXIT)
    return b"".join(body) + slot(JUMP, offset=-len(body) - 1) + unreached


def unreached_places(body):
    """The places of the instructions that are never reached in the image that repeats."""
    return range(len(body) + 1, len(body) + 1 + UNREACHED)
