"""Parts octets into packets, and finds the next packet after octets that are none.

A packet is as long as its header says. If its error control is right, it is taken whole. If it is wrong, the next packet may
begin within it: at the first plausible header whose packet has the right error control. A header is plausible if it has
version 0, the type of these packets, a secondary header, sequence flags 3, the application process identifier, and a length
that a packet of the profile can have. The octets before it are passed over. If there is none, the packet is given as it is,
and its reader says what is wrong with it. But a telecommand that no engine of this identifier answers is passed over.

The result depends on the octets alone, not on the pieces in which they come. `quiet` is the exception: it tells that no
octets have come for a while, and then an unfinished packet holds no whole one back.

The time is proportional to the octets. Each one is added to the error control once. What begins the rest is judged once, and
then taken or passed over. Each header after it is judged once, in order, and `looked` is where that has come to; it begins
anew only when what was looked at is gone. A judgement takes the same time whatever the length (`Octets`). Only `quiet` looks
once more at what is held, at most the longest packet with one of the profile.
"""
import binascii
import functools
import re
from typing import NamedTuple

PRIMARY = 6
# why octets are passed over: a packet is not whole, they begin with no header, an error control is wrong
CUT, HEADER, PEC = "Cut", "Header", "Pec"
LONGEST_LOST = 4096


def error_control(octets):
    """The 16 bits of CCSDS packet error control: x^16 + x^12 + x^5 + 1, preset all ones."""
    return binascii.crc_hqx(octets, 0xFFFF)


@functools.lru_cache(maxsize=None)
def _moves():
    """For 1, 2, 4, .. octets: what the low and the high octet of a remainder become after that many octets of zeros."""
    moves = [tuple([binascii.crc_hqx(b"\0", rest << shift) for rest in range(256)] for shift in (0, 8))]
    while len(moves) < 17:
        low, high = moves[-1]
        moves.append(tuple([low[rest & 255] ^ high[rest >> 8] for rest in half] for half in (low, high)))
    return moves


def _moved(rest, size):
    """What a remainder becomes after a number of octets of zeros, below 131,072."""
    for low, high in _moves():
        if size & 1:
            rest = low[rest & 255] ^ high[rest >> 8]
        size >>= 1
        if not size:
            break
    return rest


class Octets:
    """Octets in a row that end later than they begin, and whether the error control of a piece of them is right.

    The error control is linear: the remainder after a piece is that of the piece, plus that before it moved over as many
    zeros. So the remainders before and after a piece tell its own, and each is at most STRIDE octets from one that is kept."""

    STRIDE = 64
    TRIM = 65536  # octets that are gone before room is made

    def __init__(self):
        self.octets = bytearray()
        self.kept = [0]  # the remainder before each STRIDE-th octet

    def append(self, octets):
        self.octets += octets
        for at in range((len(self.kept) - 1) * self.STRIDE, len(self.octets) - self.STRIDE + 1, self.STRIDE):
            self.kept.append(binascii.crc_hqx(self.octets[at:at + self.STRIDE], self.kept[-1]))

    def trim(self, gone):
        """Drops octets of which this many are gone; answers how many it dropped. Not before they are many."""
        dropped = gone - gone % self.STRIDE if gone >= self.TRIM else 0
        del self.octets[:dropped]
        del self.kept[:dropped // self.STRIDE]
        return dropped

    def is_right(self, at, size):
        return self._before(at + size) == _moved(self._before(at) ^ 0xFFFF, size)

    def _before(self, at):
        """The remainder of the octets before a place."""
        number = at // self.STRIDE
        return binascii.crc_hqx(self.octets[number * self.STRIDE:at], self.kept[number])


class Kind(NamedTuple):
    """Packets of one direction: the type bit, and the octets of the shortest and of the longest one in the profile."""
    type: int
    least: int
    most: int


# primary and secondary header, data, error control; the longest data are 2,048 slots of code and 16 statuses
TELECOMMANDS = Kind(1, PRIMARY + 5 + 2, PRIMARY + 5 + 4 + 2048 * 8 + 2)
REPORTS = Kind(0, PRIMARY + 11 + 1 + 2, PRIMARY + 11 + 1 + 16 * 3 + 2)


class Piece(NamedTuple):
    """A packet, or octets that were passed over: then `fault` says why."""
    octets: bytes
    fault: str = ""


class Parting:
    """Octets in; packets and what was passed over out. With no identifier it finds packets of any application process, with a list
    of identifiers those of each of them."""

    def __init__(self, kind, apid=None):
        self.kind = kind
        self.row = Octets()
        self.rest = self.row.octets
        self.at = 0  # where the next packet begins in the rest
        self.looked = 1  # no other packet begins between there and this many octets later
        self.lost = b""  # octets without a header that are not given yet
        self.found = []
        first = kind.type << 4 | 0x08
        named = [[f"[\\x{first:02x}-\\x{first | 7:02x}]", "."]] if apid is None else [
            [f"\\x{first | one >> 8:02x}", f"\\x{one & 255:02x}"] for one in ([apid] if isinstance(apid, int) else apid)]
        parts = ["[\\xc0-\\xff]", ".", ".", "."]
        # the first octets of a header, one to six
        begins = ["|".join("".join([*one, *parts][:size]) for one in named) for size in range(1, PRIMARY + 1)]
        self.begins = [re.compile(begin.encode(), re.DOTALL) for begin in begins]
        self.headers = re.compile(f"(?={begins[-1]})".encode(), re.DOTALL)

    def feed(self, octets):
        """What these octets complete."""
        self.at -= self.row.trim(self.at)
        self.row.append(octets)
        return self._parted(False, False)

    def quiet(self):
        """What is here, if no more octets come for now."""
        return self._parted(True, False)

    def close(self):
        """What is here, if no more octets come at all."""
        return self._parted(True, True)

    def holds(self):
        """Whether octets are held back until more come."""
        return len(self.rest) > self.at or bool(self.lost)

    def _parted(self, quiet, ended):
        self.found = []
        while self._advance(quiet, ended):
            pass
        if quiet:
            self._give_lost()
        return self.found

    def _advance(self, quiet, ended):
        """Takes what comes first; answers false if more octets are needed."""
        here = len(self.rest) - self.at
        if here and not self._may_begin(here):
            return self._pass_over(self._first_header(here))
        if here < PRIMARY:
            return ended and here > 0 and self._give(here)
        size = self._length(self.at)
        is_whole = size <= here
        is_header = self.rest[self.at] >> 5 == 0
        if is_whole and is_header and self.row.is_right(self.at, size):
            return self._take(size)
        if not is_whole and is_header and not quiet:
            return False
        start, is_sure = self._next(min(size, here), quiet)
        if start is not None:
            return is_sure and self._take(start, HEADER if not is_header else PEC if is_whole else CUT)
        return self._give(size) if is_whole else ended and self._give(here)

    def _may_begin(self, here):
        """Whether a packet may begin with the octets that are here. A telecommand may with any, so that the engine answers it
        also if something is wrong with it; a report only with the beginning of a plausible header."""
        if self.kind.type == 1:
            return True
        return self._plausible(self.at) is not None if here >= PRIMARY else self.begins[here - 1].match(self.rest, self.at)

    def _is_answered(self):
        """Whether a packet that begins here has an answer, whatever else is wrong with it: a secondary header is not needed."""
        first, *more = self.rest[self.at:self.at + 2]
        return self.begins[0].match(bytes([first | 0x08])) and (not more or self.begins[1].match(bytes([first | 0x08, *more])))

    def _length(self, at):
        """How long the packet is that begins there, by its header."""
        return (self.rest[at + 4] << 8 | self.rest[at + 5]) + 7

    def _plausible(self, at):
        """How long the packet is whose plausible header begins there, or none."""
        size = self._length(at)
        return size if self.begins[-1].match(self.rest, at) and self.kind.least <= size <= self.kind.most else None

    def _first_header(self, here):
        """Where after the first octet the next plausible header begins, or may begin; else the end of what is here."""
        for header in self.headers.finditer(self.rest, self.at + 1):
            if self._plausible(header.start()) is not None:
                return header.start() - self.at
        return self._cut_header(max(1, here - PRIMARY + 1), here) or here

    def _cut_header(self, start, ends):
        """Where in the last octets a header may begin that is not whole yet, or none."""
        here = len(self.rest) - self.at
        return next((at for at in range(start, ends) if self.begins[here - at - 1].match(self.rest, self.at + at)), None)

    def _next(self, limit, quiet):
        """Where after the first octet and before the limit the next packet begins, and whether that is sure: an unfinished
        one may still turn out to be none. After a quiet time unfinished ones do not count."""
        whole_headers = min(limit, len(self.rest) - self.at - PRIMARY + 1)
        for header in self.headers.finditer(self.rest, self.at + self.looked, self.at + whole_headers + PRIMARY - 1):
            at = header.start()
            size = self._length(at)
            if not self.kind.least <= size <= self.kind.most:
                continue
            if at + size <= len(self.rest):
                if self.row.is_right(at, size):
                    return at - self.at, True
            elif not quiet:
                self.looked = at - self.at
                return self.looked, False
        if quiet:
            return None, False
        self.looked = max(self.looked, whole_headers)
        return self._cut_header(self.looked, limit), False

    def _take(self, size, fault=""):
        self._give_lost()
        self.found.append(Piece(bytes(self.rest[self.at:self.at + size]), fault))
        self.at += size
        self.looked = 1
        return True

    def _give(self, size):
        """Octets that begin as a packet and are none: its reader says so, if it would answer such a packet."""
        return self._take(size) if self.kind.type == 0 or self._is_answered() else self._pass_over(size)

    def _pass_over(self, size):
        """Octets without a header become one piece, however many reads brought them; very many become several."""
        self.lost += self.rest[self.at:self.at + size]
        self.at += size
        self.looked = 1
        while len(self.lost) >= LONGEST_LOST:
            self.found.append(Piece(self.lost[:LONGEST_LOST], HEADER))
            self.lost = self.lost[LONGEST_LOST:]
        return True

    def _give_lost(self):
        if self.lost:
            self.found.append(Piece(self.lost, HEADER))
            self.lost = b""
