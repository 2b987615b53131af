"""How the console reads a line: words are parted by spaces alone, and a number has the digits 0 to 9 alone."""
import re

STEP = re.compile(r" *(?:step|round) +([0-9]+) +([0-9]+) *\r?")


def words_of(line):
    """The words of a line; a carriage return at its end is dropped."""
    return [word for word in line.removesuffix("\r").split(" ") if word]


def decimal(word, most=2**64 - 1):
    """The number of a word; None if it is none, or a greater one."""
    digits = word.lstrip("0")
    if not re.fullmatch("[0-9]+", word) or len(digits) > 20:
        return None
    number = int(digits or "0")
    return number if number <= most else None


def step_of(line):
    """Identifier and count of a `step` or a `round` line, which does instructions of one procedure; None of another line."""
    found = STEP.fullmatch(line)
    number, count = (decimal(found[1]), decimal(found[2])) if found else (None, None)
    return None if number is None or count is None else (number, count)
