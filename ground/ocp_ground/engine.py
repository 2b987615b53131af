"""The engine of libocp_c.a, by ctypes: each call of include/ocp_engine.h."""
from __future__ import annotations

import ctypes as C
import operator
import os
from pathlib import Path
from typing import Any, NamedTuple, Optional

from . import abi

STATUSES = ("inactive", "running", "held")
CAUSES = ("none", "exited", "stopped", "aborted", "fault")
PENDING = ("none", "stop", "suspend")
KINDS = ("broke", "ran", "called", "ended", "faulted")
REGISTERS = 11


class Refused(Exception):
    """A call that the library refused, with the number and the name of its status; nothing has changed."""

    def __init__(self, call: str, status: int) -> None:
        self.call, self.status, self.name = call, status, abi.STATUS.get(status, str(status))
        super().__init__(f"{call}: {self.name}")


class LibraryFault(Exception):
    """Why there is no library of this interface."""


class Outcome(NamedTuple):
    kind: str
    fault: int


class Slice(NamedTuple):
    count: int
    last: Outcome
    step: Optional[int]  # the step that ended


class View(NamedTuple):
    status: str
    cause: str
    fault: int
    place: int
    depth: int
    pending: str
    pending_step: int
    remaining: Optional[int]  # of the budget, if one is set
    registers: tuple[int, ...]


class Record(NamedTuple):
    procedure: int
    place: int
    outcome: Outcome
    registers: tuple[int, ...]


def number(value: int, bits: int) -> int:
    """A number that C takes whole: ctypes drops the upper bits of a larger one, and says nothing."""
    value = operator.index(value)
    if not 0 <= value < 1 << bits:
        raise ValueError(f"{value} is not in 0 to {(1 << bits) - 1}")
    return value


def load_library(path: Optional[str] = None) -> Any:
    """The shared library, with the types of its calls. A walk lets go of the interpreter's lock; the short calls keep it."""
    path = path or os.environ.get("OCP_GROUND_LIBRARY") or os.fspath(Path(__file__).with_name("libocp_ground.so"))
    if not os.path.exists(path):
        raise LibraryFault(f"{path} is missing: ground/build makes it")
    try:
        library: Any = C.PyDLL(path)
        releasing = C.CDLL(path)
        library.ocp_version.restype = C.c_uint32
        version = library.ocp_version()
    except (OSError, AttributeError) as fault:
        raise LibraryFault(f"{path} is no library of the package: {fault}") from None
    if version < abi.VERSION or version >> 16 != abi.VERSION >> 16:
        raise LibraryFault(f"{path} has version {version:#x} of the interface, and the package needs {abi.VERSION:#x}: ground/build")
    try:
        for name, (result, arguments) in abi.CALLS.items():
            call = getattr(library, name)
            call.restype, call.argtypes = result, arguments
        library.walk = releasing.walk
    except AttributeError as fault:
        raise LibraryFault(f"{path} has another interface: {fault}") from None
    library.walk.restype, library.walk.argtypes = abi.CALLS["walk"]
    return library


class Engine:
    """One engine, for one thread at a time. A refused call raises Refused, a number that C would truncate ValueError."""

    library: Any = None

    def __init__(self, profile: int = 1, apid: int = 291, pool_words: int = 16, entries: int = 1024, octets: int = 1 << 20) -> None:
        self.is_open = False
        Engine.library = Engine.library or load_library()
        self.pool_words = pool_words
        self.block = abi.WalkBlock()
        numbers = [number(value, 32) for value in (profile, apid, pool_words, entries, octets)]
        self._check("ocp_open", self.library.walk_open(self.block, *numbers))
        self.is_open = True
        self._at = C.pointer(self.block.engine)  # made once: a pointer made for each call costs as much as the call
        self._reports, self._written = (C.c_uint8 * abi.DRAIN_REPORTS)(), C.c_size_t()
        self._registers, self._view, self._outcome = (C.c_uint64 * REGISTERS)(), abi.View(), abi.Outcome()
        self._one, self._two, self._count, self._step = C.c_uint64(), C.c_uint64(), C.c_uint32(), C.c_uint32()
        self._entry, self._id = (C.c_uint8 * abi.LONGEST_ENTRY)(), C.c_uint16()

    def close(self) -> None:
        if self.is_open:
            self.is_open = False
            self._check("ocp_close", self.library.walk_close(self.block))

    def __enter__(self) -> Engine:
        return self

    def __exit__(self, *_: object) -> None:
        self.close()

    def __del__(self) -> None:
        self.close()

    @staticmethod
    def _check(call: str, status: int) -> None:
        if status:
            raise Refused(call, status)

    def _do(self, call: str, *arguments: Any) -> None:
        if not self.is_open:
            raise Refused(call, abi.NOT_OPEN)
        status = getattr(self.library, call)(self._at, *arguments)
        if status:
            raise Refused(call, status)

    @classmethod
    def version(cls) -> int:
        cls.library = cls.library or load_library()
        return int(cls.library.ocp_version())

    @classmethod
    def size(cls, profile: int, pool_words: int, entries: int, octets: int) -> int:
        """The octets that an open takes, 0 if it is refused."""
        cls.version()
        return int(cls.library.ocp_size(*(number(value, 32) for value in (profile, pool_words, entries, octets))))

    # requests and inputs

    def request(self, packet: bytes, time: int = 0) -> bytes:
        """Executes a telecommand; gives its reports, one after the other."""
        octets = (C.c_uint8 * max(1, len(packet))).from_buffer_copy(packet or b"\0")
        self._do("ocp_request", number(time, 32), octets, len(packet), self._reports, len(self._reports), self._written)
        return C.string_at(self._reports, self._written.value)

    def drain(self, time: int = 0) -> bytes:
        self._do("ocp_drain", number(time, 32), self._reports, len(self._reports), self._written)
        return C.string_at(self._reports, self._written.value)

    def put_word(self, index: int, value: int) -> None:
        self._do("ocp_put_word", number(index, 64), number(value, 64))

    # instructions

    def _last(self) -> Outcome:
        return Outcome(KINDS[self._outcome.kind], self._outcome.fault)

    def step(self, procedure: int) -> Outcome:
        self._do("ocp_step", number(procedure, 16), self._outcome)
        return self._last()

    def slice(self, procedure: int, budget: int) -> Slice:
        self._do("ocp_slice", number(procedure, 16), number(budget, 32), self._count, self._outcome)
        return Slice(self._count.value, self._last(), None)

    def round(self, procedure: int, budget: int) -> Slice:
        self._do("ocp_round", number(procedure, 16), number(budget, 32), self._count, self._outcome, self._step)
        return Slice(self._count.value, self._last(), None if self._step.value == abi.NO_STEP else self._step.value)

    def next_running(self, after: int = abi.NO_PROCEDURE) -> int:
        self._do("ocp_next_running", number(after, 32), self._id)
        return self._id.value

    # the debugger

    def set_break(self, procedure: int, slot: int) -> None:
        self._do("ocp_set_break", number(procedure, 16), number(slot, 16))

    def clear_break(self, procedure: int, slot: int) -> None:
        self._do("ocp_clear_break", number(procedure, 16), number(slot, 16))

    def trace(self, procedure: int, on: bool = True) -> None:
        self._do("ocp_trace", number(procedure, 16), bool(on))

    def trace_record(self, index: int) -> Record:
        record = abi.TraceRecord()
        self._do("ocp_trace_record", number(index, 64), record, self._registers, REGISTERS)
        return Record(record.id, record.place, Outcome(KINDS[record.outcome.kind], record.outcome.fault), tuple(self._registers))

    def memory(self, procedure: int, address: int, length: int) -> bytes:
        octets = (C.c_uint8 * max(1, number(length, 16)))()
        self._do("ocp_memory", number(procedure, 16), number(address, 64), octets, length)
        return bytes(octets)[:length]

    # readers

    def view(self, procedure: int) -> View:
        self._do("ocp_view", number(procedure, 16), self._view, self._registers, REGISTERS)
        it = self._view
        return View(STATUSES[it.status], CAUSES[it.cause], it.fault, it.place, it.depth, PENDING[it.pending], it.pending_step,
                    it.remaining if it.has_budget else None, tuple(self._registers))

    def pool_word(self, index: int) -> int:
        self._do("ocp_pool_word", number(index, 64), self._one)
        return self._one.value

    def pool(self) -> list[int]:
        return [self.pool_word(index) for index in range(self.pool_words)]

    def events(self) -> int:
        self._do("ocp_events", self._one)
        return self._one.value

    # the journal

    def room(self) -> tuple[int, int]:
        """Entries and octets."""
        self._do("ocp_room", self._one, self._two)
        return self._one.value, self._two.value

    def first_entry(self) -> int:
        self._do("ocp_first_entry", self._one)
        return self._one.value

    def entry(self, index: int) -> bytes:
        self._do("ocp_entry", number(index, 64), self._entry, len(self._entry), self._written)
        return C.string_at(self._entry, self._written.value)

    def release(self, count: int = 1) -> None:
        self._do("ocp_release", number(count, 64))


class Snapshots:
    """Snapshots of one engine, by the pages of its memory that are not zero. They are restored in this engine alone."""

    def __init__(self, engine: Engine) -> None:
        self.engine, size = engine, engine.block.in_use
        self._room = (C.c_uint8 * (size + 4 * (size // 512 + 1)))()

    def save(self) -> bytes:
        return C.string_at(self._room, self.engine.library.walk_save(self.engine.block, self._room, len(self._room)))

    def restore(self, snapshot: bytes) -> None:
        self.engine.library.walk_restore(self.engine.block, C.cast(snapshot, C.POINTER(C.c_uint8)), len(snapshot))
