"""Reads the table of a mission's pool words, and the packets that flight software sends of them.

    table = read("examples/flight/words.toml")
    table.words[1].name, table.named("pool 1 0000000000000001")

The table is a TOML file: the words of the pool, the application process identifier of flight software, the identifiers of its
housekeeping structure and of its event report of a fault, and a row for each word, on a line of its own. A faulty table is a `Fault`,
with its name and line. Python 3.11 has the reader of TOML.
"""
import re
from typing import NamedTuple, Optional, Tuple

HOUSEKEEPING, EVENT = (3, 25), (5, 3)  # service and subtype: ECSS-E-ST-70-41C, medium severity
FAULTS = {1: "AccessOutside", 2: "WriteToArguments", 3: "CallDepth", 4: "BadPoolIndex", 5: "BudgetSpent"}
NUMBERS = {"pool": (1, 256), "apid": (0, 2046), "housekeeping": (0, 255), "fault": (0, 255)}
COLUMNS = {"index": int, "name": str, "type": str, "unit": str, "writer": str, "text": str}
# octets in housekeeping, least and greatest number
TYPES = {"bool": (1, 0, 1),
         **{f"{kind}{bits}": (bits // 8, -(1 << bits - 1) if kind == "i" else 0, (1 << bits - (kind == "i")) - 1)
            for kind in "ui" for bits in (8, 16, 32, 64)}}
NAME = re.compile("[a-z][a-z0-9_]{0,31}")
OF_THE_HEADER = ("words", "fields", "octets")  # names that the header has itself
LINE = re.compile(r"pool (\d+) ([0-9a-f]{16})|put (\d+) (\d+) set")


class Fault(Exception):
    """What is wrong with a table: Toml, Form, Range, Name, Type, OverPool, TwoRows, TwoNames or NoRow."""

    def __init__(self, file, line, name, text):
        super().__init__(f"{file}: line {line}: {name}: {text}")
        self.line, self.name = line, name


class Word(NamedTuple):
    """A row: a word of the pool."""
    index: int
    name: str
    type: str
    unit: str
    writer: str
    text: str

    @property
    def octets(self):
        return TYPES[self.type][0]

    def number(self, bits):
        """The number that 64 bits of the pool are by the type."""
        return bits - (1 << 64) if TYPES[self.type][1] < 0 and bits >> 63 else bits

    def shown(self, number):
        """Its name, a number and the unit; and that the number is none of the type."""
        _, least, most = TYPES[self.type]
        unit = f" [{self.unit}]" if self.unit else ""
        return f"{self.name} {number}{unit}" + ("" if least <= number <= most else f", which is no {self.type}")


class Housekeeping(NamedTuple):
    """A packet of the pool's words. `misfits` of them did not fit their type, and are sent as the nearest number that does."""
    apid: int
    count: int
    destination: int
    time: int
    misfits: int
    values: Tuple[Tuple[Word, int], ...]

    def __str__(self):
        misfits = f"; {self.misfits} did not fit" if self.misfits else ""
        return "housekeeping " + ", ".join(word.shown(value) for word, value in self.values) + misfits


class EventReport(NamedTuple):
    """A packet that says that a procedure faulted, and at which slot."""
    apid: int
    count: int
    destination: int
    time: int
    procedure: int
    fault: int
    slot: int

    def __str__(self):
        return f"event report: procedure {self.procedure} faulted: {self.fault} {FAULTS.get(self.fault, '')} at slot {self.slot}"


class Table(NamedTuple):
    """The words by index, and the identifiers of flight software."""
    words: Tuple[Word, ...]
    apid: int
    housekeeping: int
    fault: int

    @property
    def octets(self):
        """Of the data of a housekeeping packet: structure, misfits, words."""
        return 3 + sum(word.octets for word in self.words)

    def named(self, line):
        """A line of a transcript; if it is of a word, with its name and its number."""
        found = LINE.fullmatch(line)
        index = int(found[1] or found[3]) if found else len(self.words)
        if index >= len(self.words):
            return line
        word = self.words[index]
        bits = int(found[2], 16) if found[2] else int(found[4])
        return f"{line}    ; {word.shown(word.number(bits))}"

    def report(self, common, kind, data):
        """The packet of flight software with these data, or ValueError."""
        apid, count, destination, time = common
        if kind == HOUSEKEEPING and len(data) == self.octets and data[0] == self.housekeeping:
            values, at = [], 3
            for word in self.words:
                values.append((word, int.from_bytes(data[at:at + word.octets], "big", signed=TYPES[word.type][1] < 0)))
                at += word.octets
            return Housekeeping(apid, count, destination, time, int.from_bytes(data[1:3], "big"), tuple(values))
        if kind == EVENT and len(data) == 6 and data[0] == self.fault:
            procedure, slot = (int.from_bytes(data[at:at + 2], "big") for at in (1, 4))
            return EventReport(apid, count, destination, time, procedure, data[3], slot)
        raise ValueError(f"data {data.hex()} are neither housekeeping nor event report of the table")


# ---- the file

class Rows:
    """The lines of a text: that of a key, and those that begin a row."""

    def __init__(self, file, text):
        self.file, self.lines = file, text.split("\n")
        self.rows = [number for number, line in enumerate(self.lines, 1) if line.lstrip().startswith("{")]

    def fault(self, line, name, text):
        return Fault(self.file, line, name, text)

    def key(self, name):
        return next((number for number, line in enumerate(self.lines, 1) if re.match(rf"\s*\"?{re.escape(name)}\"?\s*=", line)), 1)


def read(file):
    """The table of a file. OSError if it can't be read, Fault if it is faulty."""
    import tomllib  # not in Python 3.8, which the rest of these tools takes
    with open(file, "rb") as source:
        octets = source.read(1_000_000)
    text = octets.decode("utf-8", "replace")
    rows = Rows(file, text)
    try:
        made = tomllib.loads(text)
    except tomllib.TOMLDecodeError as fault:
        at = re.search(r" \(at (?:line (\d+), column \d+|end of document)\)$", str(fault))
        raise rows.fault(int(at[1]) if at and at[1] else len(rows.lines), "Toml", re.sub(r" \(at .*\)$", "", str(fault))) from None
    return Table(words_of(rows, made, numbers_of(rows, made)), made["apid"], made["housekeeping"], made["fault"])


def numbers_of(rows, made):
    """Checks the keys of the file, and the numbers beside the rows; gives how many words the pool has."""
    for name in made:
        if name not in NUMBERS and name != "words":
            raise rows.fault(rows.key(name), "Form", f"there is no key `{name}`")
    for name, (least, most) in NUMBERS.items():
        if name not in made:
            raise rows.fault(1, "Form", f"the key `{name}` is missing")
        if type(made[name]) is not int or not least <= made[name] <= most:
            raise rows.fault(rows.key(name), "Range", f"`{name}` is {least} to {most}")
    return made["pool"]


def words_of(rows, made, pool):
    """The rows by index: one for each word of the pool."""
    given = made.get("words")
    if not isinstance(given, list) or len(given) != len(rows.rows):
        raise rows.fault(rows.key("words"), "Form", "`words` is a list of rows, each on a line of its own that begins with {")
    found, names = {}, {}
    for line, row in zip(rows.rows, given):
        word = word_of(rows, line, row)
        if not 0 <= word.index < pool:
            raise rows.fault(line, "OverPool", f"{word.name} has the index {word.index}, and the pool has {pool} words")
        if word.index in found:
            raise rows.fault(line, "TwoRows", f"word {word.index} has a row on line {found[word.index][0]} already")
        if word.name in names:
            raise rows.fault(line, "TwoNames", f"{word.name} names word {names[word.name]} already")
        found[word.index], names[word.name] = (line, word), word.index
    missing = next((index for index in range(pool) if index not in found), None)
    if missing is not None:
        raise rows.fault(rows.key("pool"), "NoRow", f"word {missing} of {pool} has no row")
    return tuple(found[index][1] for index in range(pool))


def word_of(rows, line, row):
    """The word of a row, each column of its kind."""
    if not isinstance(row, dict) or set(row) != set(COLUMNS):
        wrong: Optional[set] = set(row) ^ set(COLUMNS) if isinstance(row, dict) else set()
        raise rows.fault(line, "Form", f"a row has {', '.join(COLUMNS)}; missing or unknown: {', '.join(sorted(wrong or {'all'}))}")
    for name, kind in COLUMNS.items():
        if type(row[name]) is not kind:
            raise rows.fault(line, "Form", f"`{name}` is a {'number' if kind is int else 'text'}")
        if kind is str and not (row[name].isascii() and row[name].isprintable() and "*/" not in row[name]):
            raise rows.fault(line, "Form", f"`{name}` is a text of ASCII without */")
    if not NAME.fullmatch(row["name"]) or row["name"] in OF_THE_HEADER:
        raise rows.fault(line, "Name", f"`{row['name']}` is no name: small letters, digits and _, at most 32; none of "
                         f"{', '.join(OF_THE_HEADER)}")
    if row["type"] not in TYPES:
        raise rows.fault(line, "Type", f"{row['name']} is of type `{row['type']}`, which is none of {', '.join(TYPES)}")
    return Word(**row)
