"""Journals as files: versions 1 and 2 of include/ocp_journal.h, in one file or several, with gaps and damages as values."""
from __future__ import annotations

import binascii
import mmap
import os
import struct
import zlib
from bisect import bisect_right
from typing import Any, Callable, Iterable, Iterator, NamedTuple, Optional, Sequence, Union

from . import abi

CONTROL, LENGTH = 2, 4  # octets of the error control of version 1, of the length before an entry
NUMBERS = struct.Struct(">5I")
# marker, version, profile, identifier, pool words, entries and octets of the store, flight, first entry, entries, octets of codes
HEAD = struct.Struct(">4sBBHHIIQQII")
MARKER = b"OCPJ"
MASK = (1 << 64) - 1
MOST_OCTETS = 1 << 28  # of a file that can't be mapped, as a pipe
FORMS = {abi.ENTRY_STEPS: struct.Struct(">HI"), abi.ENTRY_SET_BREAK: struct.Struct(">HH"), abi.ENTRY_CLEAR_BREAK: struct.Struct(">HH"),
         abi.ENTRY_TRACE: struct.Struct(">HH"), abi.ENTRY_DRAIN: struct.Struct(">I"), abi.ENTRY_PUT_WORD: struct.Struct(">HQ")}
KINDS = {abi.ENTRY_REQUEST: "request", abi.ENTRY_STEPS: "steps", abi.ENTRY_SET_BREAK: "set break", abi.ENTRY_CLEAR_BREAK: "clear break",
         abi.ENTRY_TRACE: "trace", abi.ENTRY_DRAIN: "drain", abi.ENTRY_PUT_WORD: "put word"}
TEXTS = {"missing": "missing: the state after this is unknown", "again": "again: passed over",
         "swapped": "after later ones: pieces are swapped; passed over", "other flight": "of another flight: passed over",
         "damaged": "damaged: passed over", "cut": "of a block without its end: the journal is cut"}


Told = Optional[Callable[[int, int], None]]


class Finding(NamedTuple):
    """What is wrong at an octet of a file: of the entries `first` to `last`, or of `octets` octets."""
    kind: str
    file: str
    octet: int
    first: int
    last: int
    octets: int

    def __str__(self) -> str:
        what = f"{self.octets} octets" if self.octets else f"entries {self.first} to {self.last}"
        what = f"entry {self.first}" if not self.octets and self.first == self.last else what
        return f"{self.file}, octet {self.octet}: {what} {TEXTS[self.kind]}"


class Entry(NamedTuple):
    index: int
    event: int  # how many events are before it
    octets: bytes

    @property
    def kind(self) -> str:
        return KINDS.get(self.octets[0] if self.octets else 0, "unknown")

    @property
    def fields(self) -> Optional[tuple[Any, ...]]:
        """What docs/PROFILE.md says of its kind; of a request the time and the packet. None if it is no entry."""
        kind, rest = self.octets[:1], self.octets[abi.ENTRY_FIELDS:]
        if kind == bytes([abi.ENTRY_REQUEST]) and len(rest) >= 4:
            return int.from_bytes(rest[:4], "big"), rest[4:]
        form = FORMS.get(kind[0]) if kind else None
        return form.unpack(rest) if form and len(rest) == form.size else None

    @property
    def events(self) -> int:
        return int(self.fields[1]) if self.kind == "steps" and self.fields else 1


class Files:
    """The octets of files, one after the other."""

    def __init__(self, parts: Sequence[tuple[str, Union[bytearray, mmap.mmap]]]) -> None:
        self.parts, self.begins, self.total = parts, [], 0
        for _, octets in parts:
            self.begins.append(self.total)
            self.total += len(octets)
        self.views = [memoryview(octets) for _, octets in parts]

    def part_of(self, at: int) -> int:
        return max(0, bisect_right(self.begins, min(at, max(0, self.total - 1))) - 1)

    def take(self, at: int, count: int) -> Union[bytes, memoryview]:
        """The octets from a place on, up to a number of them. They are copied only if a file ends between them."""
        part = self.part_of(at)
        begin = at - self.begins[part] if self.parts else 0
        if not self.parts or begin + count <= len(self.views[part]) or part + 1 == len(self.parts):
            return self.views[part][begin:begin + count] if self.parts else b""
        taken = bytes(self.views[part][begin:])
        return taken + bytes(self.take(self.begins[part] + len(self.views[part]), count - len(taken)))

    def find(self, marker: bytes, at: int) -> int:
        """Where the marker begins, or the end."""
        while at < self.total:
            part = self.part_of(at)
            begin, end = self.begins[part], self.begins[part] + len(self.views[part])
            found = self.parts[part][1].find(marker, at - begin)
            if found >= 0:
                return begin + found
            for at in range(max(at, end - len(marker) + 1), end):  # one that goes on in the next file
                if bytes(self.take(at, len(marker))) == marker:
                    return at
            at = end
        return self.total


class Stretch(NamedTuple):
    """Whole entries, one after the other: records of version 1, or blocks. The first `known` ones were in the stretch before."""
    begin: int  # in all files together
    end: int
    known: int


class Codes:
    """The codes of a block, and what they refer to. IndexError if they are none."""

    def __init__(self, octets: bytes) -> None:
        self.octets, self.at = octets, 0
        self.words, self.procedures = [0] * abi.PACKED_WORDS, []

    def take(self, count: int) -> bytes:
        if self.at + count > len(self.octets):
            raise IndexError
        self.at += count
        return self.octets[self.at - count:self.at]

    def number(self) -> int:
        number = 0
        for place in range(10):
            octet = self.take(1)[0]
            number |= (octet & 0x7f) << 7 * place
            if octet < 0x80:
                return number & MASK
        raise IndexError

    def word(self, index: int) -> bytes:
        number = self.number()
        self.words[index] = (self.words[index] + (~(number >> 1) if number & 1 else number >> 1)) & MASK
        return struct.pack(">BHHQ", abi.ENTRY_PUT_WORD, 0, index, self.words[index])

    def steps(self, place: int, has_count: bool) -> bytes:
        if has_count:
            self.procedures[place][1] = self.number()
        procedure, count = self.procedures[place]
        if count > 0xffff_ffff:
            raise IndexError
        return struct.pack(">BHHI", abi.ENTRY_STEPS, 0, procedure, count)

    def entry(self) -> bytes:
        code = self.take(1)[0]
        if code < 0x40:
            return self.word(code)
        if code < 0x80:
            return self.steps(code & 31, code >= 0x60)
        if code == 0x80 and len(self.procedures) < abi.LISTED_PROCEDURES:
            self.procedures.append([int.from_bytes(self.take(2), "big"), 0])
            return self.steps(len(self.procedures) - 1, True)
        if code == 0x81:
            return self.take(self.number())
        if code == 0x82:
            return self.word(abi.SHORT_WORDS + self.take(1)[0])
        raise IndexError


class Journal:
    """One journal in parts. `stretches` has its entries up to the first that is missing, `findings` what is wrong with it, and
    `unreadable` why files can't be read. `engine` has the numbers of ocp_open: None if no journal is in the files."""

    def __init__(self, parts: Iterable[tuple[str, Any]], unreadable: Sequence[OSError] = (), told: Told = None) -> None:
        self.files, self.unreadable = Files(list(parts)), list(unreadable)
        self._told = told or (lambda done, total: None)
        self.engine: Optional[tuple[int, ...]] = None
        self.version, self.flight, self.next = 2, 0, 0
        self.stretches: list[Stretch] = []
        self.findings: list[Finding] = []
        self._missing: list[tuple[int, int]] = []
        self._goes_on = False
        head = self.files.take(0, NUMBERS.size + CONTROL)
        if len(head) == NUMBERS.size + CONTROL and binascii.crc_hqx(head, 0xffff) == 0:
            self.version, self.engine = 1, NUMBERS.unpack(head[:NUMBERS.size])
            self._index_records()
        else:
            self._index_blocks()

    @classmethod
    def read(cls, *names: Union[str, os.PathLike[str]], told: Told = None) -> Journal:
        """Maps the files; what is no regular file is read, up to MOST_OCTETS. `told` hears how far it is."""
        parts, unreadable = [], []
        for name in names:
            try:
                with open(name, "rb") as file:
                    size = os.fstat(file.fileno()).st_size
                    octets = mmap.mmap(file.fileno(), 0, access=mmap.ACCESS_COPY) if size else bytearray(file.read(MOST_OCTETS + 1))
                if not size and len(octets) > MOST_OCTETS:
                    raise OSError(0, f"more than {MOST_OCTETS} octets, and no file that can be mapped", os.fspath(name))
                parts.append((os.fspath(name), octets))
            except OSError as fault:
                fault.filename = os.fspath(name)
                unreadable.append(fault)
        return cls(parts, unreadable, told)

    @property
    def is_whole(self) -> bool:
        return not self.findings and not self.unreadable

    def _tell(self, kind: str, at: int, first: int = 0, last: int = 0, octets: int = 0) -> None:
        part = self.files.part_of(at)
        name, octet = (self.files.parts[part][0], at - self.files.begins[part]) if self.files.parts else ("", 0)
        before = self.findings[-1] if self.findings and self._goes_on and not octets else None
        if before and before.kind == kind and before.last + 1 == first and not before.octets:
            self.findings[-1] = before._replace(last=last)
        else:
            self.findings.append(Finding(kind, name, octet, first, last, octets))
        self._goes_on = not octets

    def _add(self, begin: int, end: int, known: int = 0) -> None:
        """A record or block, which goes on with the stretch before if both are in one file."""
        last = self.stretches[-1] if self.stretches else None
        part = self.files.part_of(begin)
        if last and last.end == begin and not known and self.files.part_of(last.begin) == part == self.files.part_of(end - 1):
            self.stretches[-1] = last._replace(end=end)
        else:
            self.stretches.append(Stretch(begin, end, known))

    # version 1: without its length, no record shows where the next one begins

    def _index_records(self) -> None:
        files, at, crc = self.files, NUMBERS.size + CONTROL, binascii.crc_hqx
        while at < files.total:
            head = files.take(at, LENGTH)
            length = int.from_bytes(head, "big")
            end = at + LENGTH + length + CONTROL
            is_cut = len(head) < LENGTH or length <= abi.LONGEST_ENTRY and end > files.total
            if is_cut or length > abi.LONGEST_ENTRY or crc(files.take(at, end - at), 0xffff):
                self._tell("cut" if is_cut else "damaged", at, octets=files.total - at)
                return
            self._add(at, end)
            at = end
            self._told(at, files.total)

    # version 2

    def _head(self, at: int) -> Optional[tuple[Any, ...]]:
        """The fields of a block's head with entries, if one is at a place."""
        head = self.files.take(at, HEAD.size + CONTROL)
        if head[:5] != MARKER + b"\2" or len(head) < HEAD.size + CONTROL or binascii.crc_hqx(head, 0xffff):
            return None
        fields = HEAD.unpack(head[:HEAD.size])
        return fields if fields[9] > 0 and fields[8] < MASK - 0xffff_ffff else None

    def _block_end(self, at: int, head: tuple[Any, ...]) -> int:
        return at + abi.JOURNAL_HEAD + int(head[10]) + abi.JOURNAL_CHECK

    def _index_blocks(self) -> None:
        at = junk = 0
        total = self.files.total
        while at < total:
            head = self._head(at)
            end = self._block_end(at, head) if head else total + 1
            block = self.files.take(at, end - at) if end <= total else b""
            if not block or zlib.crc32(block[:-abi.JOURNAL_CHECK]) != int.from_bytes(block[-abi.JOURNAL_CHECK:], "big"):
                at = self.files.find(MARKER, at + 1)
                continue
            self._tell_junk(junk, at)
            self._judge(at, end, head)
            at = junk = end
            self._told(at, total)
        self._tell_junk(junk, at)

    def _tell_junk(self, begin: int, end: int) -> None:
        if begin < end:
            head = self._head(begin) if end == self.files.total else None
            is_cut = head is not None and self._block_end(begin, head) > self.files.total
            self._tell("cut" if is_cut else "damaged", begin, octets=end - begin)

    def _judge(self, at: int, end: int, head: tuple[Any, ...]) -> None:
        """A whole block: its entries are the next ones, or something is wrong with them."""
        engine, flight, first, last = head[2:7], head[7], head[8], head[8] + head[9] - 1
        if self.engine is None:
            self.engine, self.flight = engine, flight
        if (engine, flight) != (self.engine, self.flight):
            self._tell("other flight", at, first, last)
        elif last < self.next:
            late = any(begin <= first and last <= to for begin, to in self._missing)
            self._tell("swapped" if late else "again", at, first, last)
        else:
            if first > self.next:
                self._missing.append((self.next, first - 1))
                self._tell("missing", at, self.next, first - 1)
            elif first < self.next:
                self._tell("again", at, first, self.next - 1)
            if not self._missing:
                self._add(at, end, max(0, self.next - first))
            self.next, self._goes_on = last + 1, False

    # entries

    def entries(self) -> Iterator[Entry]:
        """The entries up to the first that is missing. Codes that are none are a finding, and end them."""
        index = event = 0
        for stretch in self.stretches:
            known = stretch.known
            for octets in self._records(stretch) if self.version == 1 else self._unpacked(stretch):
                if octets is None:
                    return
                if known:
                    known -= 1
                    continue
                entry = Entry(index, event, octets)
                index, event = index + 1, event + entry.events
                yield entry

    def _records(self, stretch: Stretch) -> Iterator[Optional[bytes]]:
        octets, at = self.files.take(stretch.begin, stretch.end - stretch.begin), 0
        while at < len(octets):
            length = int.from_bytes(octets[at:at + LENGTH], "big")
            yield bytes(octets[at + LENGTH:at + LENGTH + length])
            at += LENGTH + length + CONTROL

    def _unpacked(self, stretch: Stretch) -> Iterator[Optional[bytes]]:
        """Its entries; None in place of the first that is none."""
        at = stretch.begin
        while at < stretch.end:
            head = self._head(at)
            assert head is not None
            end = self._block_end(at, head)
            codes = Codes(bytes(self.files.take(at + abi.JOURNAL_HEAD, head[10])))
            try:
                for left in range(head[9] - 1, -1, -1):
                    entry = codes.entry()
                    if not left and codes.at != head[10]:
                        raise IndexError
                    yield entry
            except IndexError:
                self.tell_damage(at, end - at)
                yield None
            at = end

    def tell_damage(self, at: int, octets: int) -> None:
        """Octets with the right check that are no entries of an engine; said once."""
        known = len(self.findings)
        self._tell("damaged", at, octets=octets)
        if self.findings[-1] in self.findings[:known]:
            self.findings.pop()
