"""A journal run again, to any event, forward and back.

`now` is how many events were done: the state is that before event `now`. The first pass keeps a snapshot at equal distances; a
step back restores the last one before, and runs on from there.
"""
from __future__ import annotations

import ctypes as C
from bisect import bisect_right
from typing import Any, Callable, Iterator, NamedTuple, Optional, Sequence

from . import abi
from .engine import STATUSES, Engine, Refused, Snapshots
from .journal import Journal, Told
from .programs import Image, Line, Text

EVERY, MOST_SNAPSHOTS = 20_000, 400
HITS = 4096
NONE = 255  # for a status in a table: not loaded
REASONS = {abi.WALK_WRITE: "write", abi.WALK_READ: "read", abi.WALK_TAKEN: "taken", abi.WALK_STEP: "step", abi.WALK_STATUS: "status"}


class Differs(Exception):
    """The engine does not do what the journal says: another library, or entries that no engine made."""


class Hit(NamedTuple):
    """Something that an event did; walk.h says what the numbers of each reason are."""
    event: int
    reason: str
    procedure: Optional[int]  # None: flight software
    slot: int
    kind: int
    word: int
    before: int
    after: int


def hit_of(one: Any) -> Hit:
    procedure = None if one.id == abi.WALK_OUTSIDE else one.id
    return Hit(one.event, REASONS[one.reason], procedure, one.slot, one.kind, one.word, one.before, one.after)


class Epoch(NamedTuple):
    """The images from an event on, up to the next epoch."""
    event: int
    images: dict[int, Image]
    tables: Any


class Snapshot(NamedTuple):
    event: int
    stretch: int
    place: bytes
    octets: bytes


class Replay:
    def __init__(self, journal: Journal, texts: Sequence[Text] = (), every: int = EVERY, told: Told = None) -> None:
        if journal.engine is None:
            raise ValueError("no journal is in the files")
        self.journal, self.every = journal, every
        self.texts = {text.image: text for text in texts}
        profile, apid, pool_words, _, _ = journal.engine
        # each entry is released as soon as it is done, so the least store does for all
        self.engine = Engine(profile, apid, pool_words, 1, abi.LONGEST_ENTRY)
        self._octets = [self._mapped(number) for number in range(len(journal.stretches))]
        self._hits = (abi.WalkHit * HITS)()
        self._stretch, self._place = 0, abi.WalkPlace()
        self._store = Snapshots(self.engine)
        self.events = 0
        self.epochs = [self._epoch(0, {})]
        self.snapshots: list[Snapshot] = []
        self._begin_stretch()
        self._keep()
        self._survey(told)

    def close(self) -> None:
        self._octets = []
        self.engine.close()

    def _mapped(self, number: int) -> tuple[Any, Any]:
        """A stretch for the walk, and the octets that it points to."""
        files, one = self.journal.files, self.journal.stretches[number]
        part, length = files.part_of(one.begin), one.end - one.begin
        if part == files.part_of(one.end - 1):
            octets = (C.c_uint8 * length).from_buffer(files.parts[part][1], one.begin - files.begins[part])
        else:
            octets = (C.c_uint8 * length).from_buffer_copy(files.take(one.begin, length))
        return abi.WalkStretch(C.cast(octets, C.POINTER(C.c_uint8)), length, self.journal.version), octets

    # the state

    @property
    def now(self) -> int:
        return int(self._place.event)

    @property
    def time(self) -> int:
        """That of the last request or drain."""
        return int(self._place.time)

    @property
    def epoch(self) -> Epoch:
        return self.epochs[self._epoch_at(self.now)]

    def _epoch_at(self, event: int) -> int:
        return bisect_right(self.epochs, event, key=lambda one: one.event) - 1

    def image_at(self, event: int, procedure: int) -> Optional[Image]:
        return self.epochs[self._epoch_at(event)].images.get(procedure)

    def line(self, event: int, procedure: int, slot: int) -> Optional[Line]:
        image = self.image_at(event, procedure)
        text = self.texts.get(image) if image else None
        return text.lines.get(slot) if text else None

    # the first pass

    def _epoch(self, event: int, images: dict[int, Image]) -> Epoch:
        tables = (abi.WalkTable * len(images))()
        for table, (procedure, image) in zip(tables, images.items()):
            table.id = procedure
            for slot, call in image.calls.items():
                table.call[slot] = call & 0xff
        return Epoch(event, images, tables)

    def _is_loaded(self, procedure: int) -> bool:
        try:
            return bool(self.engine.view(procedure))
        except Refused:
            return False

    def _survey(self, told: Told) -> None:
        """Goes through the whole journal: counts events, finds the images that are loaded, and keeps snapshots."""
        look = self.look(stop_after=abi.WALK_LOADS)
        total = sum(one.end - one.begin for one in self.journal.stretches)
        while True:
            answer = self._walk(self.now - self.now % self.every + self.every, look)
            if answer == abi.WALK_STOPPED:
                self._note_load(C.string_at(look.packet, look.packet_length))
            elif answer == abi.WALK_END:
                break
            if answer == abi.WALK_REACHED:
                self._keep()
                if told:
                    done = sum(one.end - one.begin for one in self.journal.stretches[:self._stretch]) + self._place.at
                    told(done, total)
        self.events = self.now

    def _note_load(self, packet: bytes) -> None:
        images = {one: image for one, image in self.epochs[-1].images.items() if self._is_loaded(one)}
        procedure = int.from_bytes(packet[11:13], "big")
        if packet[8] == 1 and procedure not in images and self._is_loaded(procedure):
            images[procedure] = Image(packet[15:-CONTROL])
        if images != self.epochs[-1].images:
            self.epochs.append(self._epoch(self.now, images))

    def _keep(self) -> None:
        self.snapshots.append(Snapshot(self.now, self._stretch, bytes(self._place), self._store.save()))
        if len(self.snapshots) > MOST_SNAPSHOTS:
            self.snapshots, self.every = self.snapshots[::2], 2 * self.every

    # walks

    def _begin_stretch(self) -> None:
        if self._stretch < len(self.journal.stretches):
            self._place.at, self._place.known = 0, self.journal.stretches[self._stretch].known

    def _walk(self, until: int, look: Any) -> int:
        """Gives events to the engine, from stretch to stretch; says how that ended."""
        while self._stretch < len(self._octets):
            stretch, _ = self._octets[self._stretch]
            answer: int = self.engine.library.walk(self.engine.block, stretch, self._place, until, look)
            if answer in (abi.WALK_DAMAGED, abi.WALK_DIFFERS):
                self._fail(answer)
            if answer != abi.WALK_END:
                return answer
            self._stretch += 1
            self._begin_stretch()
        return abi.WALK_REACHED if self.now >= until else abi.WALK_END

    def _fail(self, answer: int) -> None:
        at = self.journal.stretches[self._stretch].begin + self._place.at
        files = self.journal.files
        part = files.part_of(at)
        what = "no entry begins here" if answer == abi.WALK_DAMAGED else "the engine does not do what the entry says"
        raise Differs(f"{files.parts[part][0]}, octet {at - files.begins[part]}: event {self.now}: {what}")

    def _restore(self, at: int) -> None:
        snapshot = self.snapshots[at]
        self._store.restore(snapshot.octets)
        self._stretch = snapshot.stretch
        C.memmove(C.byref(self._place), snapshot.place, len(snapshot.place))

    def _snapshot_at(self, event: int) -> int:
        """The last one at or before an event."""
        return bisect_right(self.snapshots, event, key=lambda one: one.event) - 1

    def goto(self, event: int) -> Replay:
        """To the state before this event."""
        if not 0 <= event <= self.events:
            raise ValueError(f"the journal has {self.events} events")
        last = self._snapshot_at(event)
        if event < self.now or self.snapshots[last].event > self.now:
            self._restore(last)
        self._walk(event, self.look())
        return self

    def look(self, watch: Sequence[int] = (), changes: bool = False, inputs_of: Optional[int] = None, **more: int) -> Any:
        """What a walk looks at."""
        made = abi.WalkLook(inputs_of=abi.WALK_OUTSIDE if inputs_of is None else inputs_of, **more)
        for word in watch:
            made.watch[word] = abi.WALK_CHANGES if changes else abi.WALK_EACH
        return made

    def run(self, look: Any, until: Optional[int] = None, told: Told = None) -> Iterator[Hit]:
        """Goes forward to an event, or to the end, and gives what the look finds on the way. Between two of them the state is
        not that of either; `told` hears how far it is."""
        until = self.events if until is None else until
        look.hits, look.room = self._hits, HITS
        while self.now < until:
            number = self._epoch_at(self.now)
            epoch = self.epochs[number]
            end = self.epochs[number + 1].event if number + 1 < len(self.epochs) else until
            look.tables, look.table_count = epoch.tables, len(epoch.images)
            for table in epoch.tables:
                table.status = STATUSES.index(self.engine.view(table.id).status)
            while self.now < min(end, until):
                self._walk(min(end, until, self.now + 1_000_000), look)
                for at in range(look.count):
                    yield hit_of(self._hits[at])
                look.count = 0
                if told:
                    told(self.now, until)

    def reports(self) -> Iterator[tuple[int, int, bytes]]:
        """The event of each request and drain with reports, its time, and its reports."""
        self.goto(0)
        look = self.look(stop_after=abi.WALK_REPORTS)
        while self.now < self.events:
            if self._walk(self.events, look) == abi.WALK_STOPPED and look.written:
                yield self.now - 1, self.time, bytes(look.reports[:look.written])

    def last(self, look: Any, before: int, wanted: Callable[[Hit], bool] = bool, told: Told = None) -> Optional[Hit]:
        """The last hit before an event, window by window backward."""
        end, at = before, self._snapshot_at(before - 1) if before else -1
        while at >= 0:
            self._restore(at)
            found = [hit for hit in self.run(look, end) if wanted(hit)]
            if found:
                return found[-1]
            end, at = self.snapshots[at].event, at - 1
            if told:
                told(before - end, before)
        return None

    # questions

    def why(self, word: int, before: Optional[int] = None, changes: bool = False, told: Told = None) -> Optional[Hit]:
        """The last write of a pool word before an event, or the last that changed it."""
        found = self.last(self.look([word], changes), self.events if before is None else before, told=told)
        self.goto(found.event if found else 0)
        return found

    def inputs(self, event: int, procedure: int) -> list[Hit]:
        """What a procedure read since its step began, up to and with an event: pool words and its mailbox. A step begins after the end
        of the one before, or with an activation."""
        def begins(hit: Hit) -> bool:
            started = hit.reason == "status" and STATUSES[hit.before] == "inactive" and STATUSES[hit.after] == "running"
            return hit.procedure == procedure and (hit.reason == "step" or started)
        begun = self.last(self.look(inputs_of=procedure, statuses=1), event, begins)
        self.goto(begun.event + 1 if begun else 0)
        found = list(self.run(self.look(inputs_of=procedure), event + 1))
        self.goto(event)
        return [hit for hit in found if hit.reason in ("read", "taken")]


CONTROL = 2  # octets of error control at the end of a packet
