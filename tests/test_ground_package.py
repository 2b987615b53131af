"""The package ocp_ground and ocp-flight: against an engine walked from the start, against the console, and on bad input."""
import contextlib
import csv
import ctypes
import functools
import io
import json
import os
import re
import shutil
import sqlite3
import sys
import tempfile
import unittest
import unittest.mock
import xml.dom.minidom
from collections import Counter
from pathlib import Path

from chance import SEED, Parts, chance, in_parts, scaled
from support import PROGRAM, ROOT, Case, module_of, ocp, run

sys.path[:0] = [str(ROOT / "ground"), str(ROOT / "embed")]
import journals  # noqa: E402
from ocp_ground import Differs, Engine, Journal, LibraryFault, Refused, Replay, abi, cover, engine, flight  # noqa: E402

C_LIBRARY = Path(os.environ.get("OCP_C_LIBRARY", ROOT / "crates/ocp_c/out/libocp_c.a")).resolve()
HEADERS = ("include/ocp_engine.h", "include/ocp_journal.h", "ground/ocp_ground/walk.h")
FOLDER = tempfile.TemporaryDirectory()
LINES, LIBRARY = Path(FOLDER.name, "lines"), Path(FOLDER.name, "libocp_ground.so")
APID, POOL, MOST_WORDS, STACK, WORK = 291, 16, 256, 0x1000_0000, 0x3000_0000


@functools.lru_cache
def embed():
    """What the tests of the library for C draw: the lines of random passes."""
    return module_of(ROOT / "embed/run")


class Built(Case):
    """Tests with the library of the package, and the program that flies a script and keeps its journal."""

    @classmethod
    def setUpClass(cls):
        if not C_LIBRARY.is_file() or not shutil.which("cc"):
            raise unittest.SkipTest("no cc, or no crates/ocp_c/out/libocp_c.a: ./ocp library")
        if not LIBRARY.exists():
            compile_c([ROOT / "ground/build", C_LIBRARY, LIBRARY])
            compile_flight(LINES, "embed/lines.c", "embed/journal.c")
            os.environ["OCP_GROUND_LIBRARY"] = str(LIBRARY)

    def flown(self, number):
        """A random pass, and the octets of its journal, which the writer in C made."""
        draw, ground = chance("ground package", number), embed().ground
        profile = draw.choice((1, 1, 2))
        images = embed().images_of(*(("flight", "procedures", "c") if profile == 1 else ("second", "second", "flight")))
        lines = [embed().random_line(draw, profile, images) for _ in range(draw.randint(20, 100))]
        begun = []  # three that run from the start, and are sent words
        for procedure in (0, 1, 2):
            requests = (ground.load(procedure, draw.choice(images)), ground.communicate(procedure, [draw.randrange(30)]),
                        ground.activate(procedure, bytes([draw.randrange(9), 9]), 0 if profile == 2 else None))
            load, sent, activate = (f"up {request.packet(procedure).hex()}" for request in requests)
            put = f"put {draw.randrange(MOST_WORDS)} {draw.getrandbits(9)}"
            begun += [load, activate, f"step {procedure} {draw.randrange(1, 9)}", sent, f"round {procedure} 40", put, f"step {procedure} 9"]
        lines[:0] = begun
        kept, pool = self.room() / "journal", draw.choice([POOL, MOST_WORDS])
        done = run([LINES, profile, APID, pool, 100_000, 4_000_000, kept], "".join(line + "\n" for line in lines))
        self.assertEqual(done.returncode, 0, done.stderr)
        return draw, kept.read_bytes()

    def asked(self, *words):
        """Status, output and errors of ocp-flight. Each line of errors is its own: no traceback."""
        said, told = io.StringIO(), io.StringIO()
        with contextlib.redirect_stdout(said), contextlib.redirect_stderr(told):
            status = flight.main([str(word) for word in words])
        self.assertEqual([line for line in told.getvalue().splitlines() if not line.startswith("ocp-flight: ")], [])
        return status, said.getvalue(), told.getvalue()


def compile_c(words):
    done = run(words)
    if done.returncode:
        raise AssertionError(done.stderr)


def compile_flight(program, *texts):
    compile_c(["cc", "-std=c11", "-O1", "-I", ROOT / "include", "-I", ROOT / "examples/embed", *(ROOT / text for text in texts),
               ROOT / "embed/heap.c", C_LIBRARY, "-o", program])


def written_again(draw, octets):
    """The same journal as the writer in C made it, as version 1, or in blocks of few entries, some of them twice."""
    journal = Journal([("", bytearray(octets))])
    entries, way = [one.octets for one in journal.entries()], draw.randrange(4)
    if way == 0:
        return octets
    if way == 1:
        return journals.head_of(*journal.engine) + b"".join(map(journals.entry_record, entries))
    blocks, at = [], 0
    while at < len(entries):
        begin, end = max(0, at - draw.choice([0, 0, 0, 1, 5])), min(len(entries), at + draw.randint(1, 20))
        blocks.append(journals.block_of(begin, end - begin, b"".join(codes_of(entries[begin:end])), engine=journal.engine))
        at = end
    return b"".join(blocks)


def codes_of(entries):
    """Each entry's code, as the header has them."""
    words, listed = {}, {}
    for entry in entries:
        one, number = int.from_bytes(entry[3:5], "big"), int.from_bytes(entry[5:], "big")
        if entry[0] == abi.ENTRY_PUT_WORD:
            change = (number - words.get(one, 0) + 2**63) % 2**64 - 2**63
            words[one] = number
            code = bytes([one]) if one < 64 else bytes([0x82, one - 64])
            yield code + journals.number_of(2 * change if change >= 0 else -2 * change - 1)
        elif entry[0] == abi.ENTRY_STEPS:
            place = list(listed).index(one) if one in listed else 0x20
            code = bytes([0x80]) + entry[3:5] if one not in listed else bytes([0x40 + place + 0x20 * (listed[one] != number)])
            yield code + (b"" if listed.get(one) == number else journals.number_of(number))
            listed[one] = number
        else:
            yield b"\x81" + journals.number_of(len(entry)) + entry


class Fresh:
    """An engine that is walked from the start of a journal, instruction by instruction: its states before some events, each write of
    the pool, what each procedure read in its step, statuses, and which slots were executed."""

    def __init__(self, journal, sought):
        self.engine = Engine(*journal.engine[:3], entries=4, octets=1 << 17)
        self.event, self.time, self.images, self.reads, self.status = 0, 0, {}, {}, {}
        self.sought, self.states = sought, {}
        self.writes, self.inputs, self.statuses, self.ran = [], {}, [], {}
        for entry in journal.entries():
            for _ in range(entry.events):
                self.look()
                self.do(entry)
                self.engine.release()
                self.event += 1
                self.look_at_statuses()
        self.look()

    def look(self):
        if self.event in self.sought:
            self.states[self.event] = self.time, state_of(self.engine)

    def do(self, entry):
        kind, fields = entry.kind, entry.fields
        if kind == "steps":
            self.step(fields[0])
        elif kind == "request":
            self.engine.request(fields[1], fields[0])
            self.note_load(fields[1])
            self.time = fields[0]
        elif kind == "put word":
            before = self.engine.pool_word(fields[0])
            self.engine.put_word(*fields)
            self.writes.append((self.event, None, fields[0], before, fields[1]))
        else:
            self.time = fields[0] if kind == "drain" else self.time
            {"set break": self.engine.set_break, "clear break": self.engine.clear_break, "trace": self.engine.trace,
             "drain": self.engine.drain}[kind](*fields)

    def note_load(self, packet):
        procedure = int.from_bytes(packet[11:13], "big")
        if view_of(self.engine, procedure) is None:
            self.images.pop(procedure, None)
        elif procedure not in self.images:
            self.images[procedure] = packet[15:-2]

    def step(self, procedure):
        view = self.engine.view(procedure)
        slot = self.images[procedure][8 * view.place:8 * view.place + 8]
        index, reads = view.registers[1], self.reads.setdefault(procedure, [])
        pool = {index: self.engine.pool_word(index)} if index < self.engine.pool_words else {}
        done = self.engine.step(procedure)
        if done.kind in ("ran", "called", "ended") or done.kind == "faulted" and done.fault != 5:
            ran, taken = self.ran.setdefault(self.images[procedure], (Counter(), Counter()))
            ran[view.place] += 1
            taken[view.place] += self.engine.view(procedure).place != view.place + 1
        if done.kind != "called":
            return
        call = slot[4]
        if call in (1, 2, 3, 6):
            reads.append((self.event, view.place, "read", index, pool[index]))
        if call == 4:
            registers = self.engine.view(procedure).registers
            reads.append((self.event, view.place, "taken", registers[0], registers[1]))
        if call in (2, 3) or call == 6 and pool[index] == view.registers[2]:
            after = {2: view.registers[2], 3: (pool[index] + view.registers[2]) % 2**64, 6: view.registers[3]}[call]
            self.writes.append((self.event, procedure, index, pool[index], after))
            self.inputs[self.event] = list(reads)
        if call == 5:
            reads.clear()

    def look_at_statuses(self):
        for procedure in embed().PROCEDURES:
            view = view_of(self.engine, procedure)
            before, now = self.status.get(procedure), view and view.status
            self.status[procedure] = now
            if now != before and now and before:
                self.statuses.append((self.event - 1, procedure, before, now))
            if before != "running" and now == "running" and before != "held":
                self.reads[procedure] = []


def write_of(hit):
    return hit.event, hit.procedure, hit.word, hit.before, hit.after


def view_of(engine, procedure):
    try:
        return engine.view(procedure)
    except Refused:
        return None


def state_of(engine):
    views = [(one, view_of(engine, one)) for one in embed().PROCEDURES]
    return engine.events(), engine.pool(), views, [engine.memory(one, at, length) for one, view in views if view
                                                   for at, length in ((STACK, 4096), (WORK, 1024))]


@in_parts(2)
class Sessions(Parts, Built):
    """200 random passes in both profiles, in files of up to three parts."""

    seconds = scaled(10)

    def test_each_answer_is_that_of_a_fresh_engine(self):
        for number in range(self.part, scaled(200), self.parts):
            with self.subTest(f"OCP_SEED={SEED}, run {number}"):
                self.check(number)

    def check(self, number):
        draw, octets = self.flown(number)
        octets = written_again(draw, octets)
        cuts = [0, *sorted(draw.sample(range(len(octets) + 1), draw.randint(0, 2))), len(octets)]
        journal = Journal([(f"part {at}", bytearray(octets[begin:end])) for at, (begin, end) in enumerate(zip(cuts, cuts[1:]))])
        self.assertEqual({one.kind for one in journal.findings} - {"again"}, set())
        with unittest.mock.patch("ocp_ground.replay.HITS", draw.choice([25, 4096])):
            self.compare(draw, journal)

    def compare(self, draw, journal):
        replay = Replay(journal, every=draw.choice([7, 100, 1000]))
        sought = {draw.randint(0, replay.events) for _ in range(8)} | {one.event + 1 for one in journal.entries() if one.kind == "drain"}
        fresh = Fresh(journal, sought)
        self.assertEqual(replay.events, fresh.event)
        for event in draw.sample(sorted(sought), len(sought)):
            self.assertEqual((replay.goto(event).time, state_of(replay.engine)), fresh.states[event], f"event {event}")
        hits = list(replay.goto(0).run(replay.look(range(MOST_WORDS), inputs_of=draw.randrange(3), statuses=1)))
        self.assertEqual([write_of(hit) for hit in hits if hit.reason == "write"], fresh.writes)
        for found in (hits, replay.goto(0).run(replay.look(statuses=1))):  # by instructions, and by entries
            self.assertEqual([(hit.event, hit.procedure, engine.STATUSES[hit.before], engine.STATUSES[hit.after]) for hit in found
                              if hit.reason == "status"], fresh.statuses)
        covered = {}
        cover.count(replay, covered)
        nothing = Counter(), Counter()
        for image, one in covered.items():
            ran, taken = fresh.ran.get(image.octets, nothing)
            self.assertEqual({slot: count for slot, count in one.ran.items() if count}, ran)
            self.assertEqual({slot: ways[1] for slot, ways in one.ways.items()}, {slot: taken[slot] for slot in one.ways})
        self.assertLessEqual(set(fresh.ran), {image.octets for image in covered})
        for _ in range(5):
            self.check_why(draw, replay, fresh)

    def check_why(self, draw, replay, fresh):
        before, changes = draw.randint(0, replay.events), draw.random() < 0.5
        word = draw.choice([one[2] for one in fresh.writes] or [0])
        hit = replay.why(word, before, changes)
        wanted = [one for one in fresh.writes if one[2] == word and one[0] < before and (one[3] != one[4] or not changes)]
        self.assertEqual(hit and write_of(hit), wanted[-1] if wanted else None)
        if hit and hit.procedure is not None:
            found = [(one.event, one.slot, one.reason, *((one.before, one.after) if one.reason == "taken" else (one.word, one.before)))
                     for one in replay.inputs(hit.event, hit.procedure)]
            self.assertEqual(found, fresh.inputs[hit.event])
            self.assertEqual(replay.now, hit.event)


class Console(Built):
    """The proved console confirms each answer of `why`: the word before and after, and in the trace the place and the registers."""

    @unittest.skipUnless(PROGRAM.is_file(), "the program is not built: ./ocp build")
    def test_answers_of_why(self):
        script, confirmed = module_of(ROOT / "ground/journal"), 0
        for number in range(1000, 1040):
            draw, octets = self.flown(number)
            journal = Journal([("journal", bytearray(octets))])
            replay = Replay(journal)
            written = {hit.word for hit in replay.goto(0).run(replay.look(range(MOST_WORDS))) if hit.procedure is not None}
            if not written or confirmed == 12:
                continue
            word = draw.choice(sorted(written))
            hit = replay.why(word, draw.choice([replay.events, draw.randint(1, replay.events)]))
            if not hit or hit.procedure is None:
                continue
            view = replay.engine.view(hit.procedure)
            entries = journals.first_events([one.octets for one in journal.entries()], hit.event)
            before = script.Reading(journals.head_of(*journal.engine) + b"".join(map(journals.entry_record, entries)))
            asked = ["journal", f"pool {word}", f"trace {hit.procedure} on", f"step {hit.procedure} 1", "trace", f"pool {word}"]
            said = ocp(before.words(), before.script() + "".join(line + "\n" for line in asked)).stdout.splitlines()
            first = hit.after if said[-2].endswith("call 3") else hit.before
            registers = " ".join(f"{one:016x}" for one in (first, *view.registers[1:]))
            self.assertIn(f"journal {hit.event}", said)
            self.assertRegex(said[-2], rf"^trace {hit.procedure} {hit.slot} Called {registers} call [236]$")
            self.assertEqual(said[-1], f"pool {word} {hit.after:016x}")
            self.assertIn(f"pool {word} {hit.before:016x}", said[said.index(f"journal {hit.event}"):-1])
            confirmed += 1
        self.assertEqual(confirmed, 12)


class Calls(Built):
    """`Engine` and the module that tools/abi writes."""

    def test_each_call_of_the_header(self):
        text = (ROOT / "ground/ocp_ground/engine.py").read_text().replace("walk_", "ocp_")
        declared = set(re.findall(r"^(?:uint32_t|size_t) (ocp_\w+)\(", (ROOT / HEADERS[0]).read_text(), re.M))
        self.assertEqual({name for name in declared if name not in abi.CALLS or name not in text}, set())
        self.assertGreater(len(declared), 20)

    def test_layout(self):
        """Sizes and offsets are those of the C compiler."""
        names, room = module_of(ROOT / "tools/abi"), self.room()
        rows, wanted = [], []
        for name in re.findall(r"^struct (\w+) \{", "".join((ROOT / header).read_text() for header in HEADERS), re.M):
            kind = getattr(abi, names.class_name(name), None)
            if kind is not None:
                rows += [f"sizeof(struct {name})", *(f"offsetof(struct {name}, {field})" for field, _ in kind._fields_)]
                wanted += [ctypes.sizeof(kind), *(getattr(kind, field).offset for field, _ in kind._fields_)]
        lines = "".join(f'printf("%zu\\n", {row});' for row in rows)
        (room / "layout.c").write_text(f'#include <stdio.h>\n#include "walk.h"\nint main(void) {{ {lines} return 0; }}\n')
        compile_c(["cc", "-std=c11", "-I", ROOT / "include", "-I", ROOT / "ground/ocp_ground", room / "layout.c", "-o", room / "layout"])
        self.assertEqual([int(line) for line in run([room / "layout"]).stdout.split()], wanted)
        self.assertGreater(len(wanted), 60)

    def test_numbers_that_c_would_truncate(self):
        with Engine(1, APID, POOL) as one:
            for name, arguments in (("step", (65543,)), ("slice", (7, 1 << 32)), ("round", (-1, 1)), ("put_word", (1 << 64, 0)),
                                    ("put_word", (0, -1)), ("pool_word", (1 << 64,)), ("view", (65536,)), ("drain", (1 << 32,)),
                                    ("set_break", (7, 65536)), ("clear_break", (65536, 0)), ("trace", (1 << 17,)), ("request", (b"", -1)),
                                    ("memory", (7, 1 << 64, 1)), ("memory", (7, 0, 1 << 16)), ("release", (-1,)), ("entry", (1 << 64,)),
                                    ("next_running", (1 << 32,)), ("trace_record", (-1,))):
                with self.subTest(name):
                    self.assertRaises(ValueError, getattr(one, name), *arguments)
            self.assertRaises(TypeError, one.step, 7.0)
            self.assertEqual(one.events(), 0)
        self.assertRaises(ValueError, Engine, 1, APID, POOL, 1, 1 << 32)

    def test_refusals_have_names(self):
        with Engine(1, APID, POOL, 1, 100) as one:
            for name, call, arguments in (
                    ("NOT_LOADED", "step", (7,)), ("NONE_RUNNING", "next_running", ()), ("NO_WORD", "pool_word", (16,)),
                    ("NOTHING_DUE", "drain", ()), ("NO_BUDGET", "slice", (7, 0)), ("NO_ENTRY", "entry", (0,)), ("NOT_HELD", "release", ()),
                    ("DISCARDED_SHORT", "request", (b"",)), ("NO_RECORD", "trace_record", (0,)), ("NOT_LOADED", "memory", (7, STACK, 1))):
                with self.subTest(name), self.assertRaises(Refused) as refused:
                    getattr(one, call)(*arguments)
                self.assertEqual(refused.exception.name, f"OCP_{name}")
            self.assertEqual((one.room(), one.first_entry()), ((1, 100), 0))
            one.put_word(3, 5)
            self.assertEqual((one.entry(0)[-1], one.room()), (5, (0, 87)))
        self.assertRaisesRegex(Refused, "OCP_NOT_OPEN", one.events)
        self.assertRaisesRegex(Refused, "OCP_BAD_APID", Engine, 1, 2047)
        self.assertEqual((Engine.version(), Engine.size(1, 0, 1, 1)), (abi.VERSION, 0))

    def test_no_memory_is_left(self):
        """10,000 engines are opened and closed, some of them refused."""
        before = None
        for number in range(10_100):
            if number == 100:
                before = resident()
            with contextlib.suppress(Refused), Engine(1 + number % 3, APID, POOL, 1, 1000) as one:
                one.put_word(0, number)
        self.assertLess(resident() - before, 2 << 20)


def resident():
    return int(Path("/proc/self/statm").read_text().split()[1]) * os.sysconf("SC_PAGE_SIZE")


class Questions(Built):
    """Each command in text and in JSON, and what it says of bad input."""

    def setUp(self):
        self.folder = self.room()
        self.file, control = self.folder / "journal", self.folder / "control"
        compile_flight(control, "examples/embed/control.c", "embed/journal.c")
        self.assertEqual(run([control, ROOT / "examples/flight/thermostat.hex", "c8", 300, self.file]).returncode, 0)
        self.octets = self.file.read_bytes()

    def written(self, octets):
        path = self.folder / "bad"
        path.write_bytes(octets)
        return path

    def test_text_and_json(self):
        words: list[list[object]] = [["show"], ["why", 0], ["history", "0,1"], ["compare"], ["cover"], ["export"]]
        others = {"compare": ["--with", self.file], "export": ["--csv", self.folder / "tables"]}
        for command in words:
            more = others.get(command[0], [])
            with self.subTest(command[0]):
                status, text, told = self.asked(*command, self.file, *more)
                self.assertEqual((status, told, bool(text)), (0, "", True))
                self.assertTrue(json.loads(self.asked(*command, self.file, *more, "--json")[1]))

    def test_show_is_what_replay_prints(self):
        replay = self.folder / "replay"
        compile_flight(replay, "embed/replay.c", "embed/journal_reader.c")
        for before in (0, 5, 100, int(self.asked("show", self.file)[1].split()[1])):
            text = self.asked("show", self.file, "--before", before)[1]
            self.assertEqual(text, run([replay, self.file, "--until", before, *(["--view", 7] if before else [])]).stdout)

    def test_a_picture(self):
        picture = self.folder / "history.svg"
        self.assertEqual(self.asked("history", "0,1", self.file, "--cycle", 2, "--svg", picture)[0], 0)
        xml.dom.minidom.parse(str(picture))

    def test_tables(self):
        """SQLite and CSV have the same rows: each write of a word, and each entry."""
        base, folder = self.folder / "base", self.folder / "tables"
        self.assertEqual(self.asked("export", self.file, "--sqlite", base, "--csv", folder)[0], 0)
        with contextlib.closing(sqlite3.connect(base)) as opened:
            for table in ("entries", "words", "statuses", "reports"):
                with open(folder / f"{table}.csv", newline="") as file:
                    rows = list(csv.reader(file))[1:]
                found = opened.execute(f"SELECT * FROM {table}")
                self.assertEqual([["" if one is None else str(one) for one in row] for row in found], rows)
                self.assertGreater(len(rows), 0, table)
            heater = opened.execute("SELECT event, before, after FROM words WHERE word = 1 ORDER BY event DESC LIMIT 1").fetchone()
            events = opened.execute("SELECT sum(events) FROM entries").fetchone()[0]
        last = json.loads(self.asked("why", 1, self.file, "--json")[1])["last_write"]
        self.assertEqual(heater, (last["event"], last["before"], last["after"]))
        self.assertEqual(events, int(self.asked("show", self.file)[1].split()[1]))

    def test_what_was_executed(self):
        """In 300 cycles the room stays below the set point, and no word is sent: slots 3, 4 and 9 to 12 of the thermostat are passed
        over, and each of its first two jumps goes one way."""
        status, text, _ = self.asked("cover", self.file, "--at-least", 34)
        self.assertEqual((status, "12 of 18 instructions, 2 of 6 branches" in text), (1, True), text)
        self.assertEqual(self.asked("cover", self.file, "--at-least", 33)[0], 0)

    def test_the_first_event_that_differs(self):
        word = [bytes([7, 0, 0, 0, index]) + index.to_bytes(8, "big") for index in range(3)]
        steps = [bytes([2, 0, 0, 0, 7]) + count.to_bytes(4, "big") for count in range(9)]
        for one, other, event, said in ((word, word[:2], 2, ["put word 2 2", None]),
                                        (word[:2], [word[0], word[2]], 1, ["put word 1 1", "put word 2 2"]),
                                        ([steps[5], word[0]], [steps[2], steps[3], word[0]], None, [None, None]),
                                        ([steps[5], word[0]], [steps[2], word[1]], 2, ["an instruction of procedure 7", "put word 1 1"])):
            files = [self.folder / name for name in ("one", "other")]
            for file, entries in zip(files, (one, other)):
                file.write_bytes(journals.plain_block(0, entries))
            answer = json.loads(self.asked("compare", files[0], "--with", files[1], "--json")[1])
            self.assertEqual((answer["event"], answer["first"], answer["second"]), (event, *said))
        files[1].write_bytes(journals.plain_block(0, word[:1]) + journals.plain_block(2, word))
        files[0].write_bytes(journals.plain_block(0, word))
        self.assertEqual(self.asked("compare", files[1], "--with", files[0])[:2], (4, "the same 1 events; those after them are missing\n"))

    def test_names_and_lines(self):
        names, text = self.folder / "names", ROOT / "examples/flight/thermostat.asm"
        names.write_text("0 temperature 0.1 degrees\n1 heater # 1 on\n")
        lines = [f"up {embed().ground.load(7, bytes.fromhex(text.with_suffix('.hex').read_text())).packet(0).hex()}",
                 f"up {embed().ground.activate(7, bytes([200])).packet(1).hex()}", "put 0 150", "round 7 100"]
        done = run([LINES, 1, APID, POOL, 100, 10_000, self.folder / "flown"], "".join(line + "\n" for line in lines))
        self.assertEqual(done.returncode, 0)
        if PROGRAM.is_file():
            status, said, told = self.asked("why", "heater", self.folder / "flown", "--names", names, "--ocp", PROGRAM, "--source", text)
            row = next(number for number, line in enumerate(text.read_text().splitlines(), 1) if "call 2 " in line)
            self.assertEqual((status, told), (0, ""))
            self.assertIn(f"slot 14, thermostat.asm:{row}: call 2", said)
        said = self.asked("why", "heater", self.folder / "flown", "--names", names)[1]
        self.assertIn("0 -> 1", said)
        self.assertIn("word 0 temperature 150", said)

    def test_bad_input(self):
        other, of_none = (journals.plain_block(0, [journals.DRAIN], **more) for more in ({"flight": 9}, {"engine": (3, 0, 1, 1, 1)}))
        starts = journals.block_starts(self.octets)
        half = starts[len(starts) // 2]
        for name, octets, status, said in (
                ("nothing", b"", 3, "no journal"), ("junk", bytes(range(256)), 3, "no journal"),
                ("another flight", self.octets + other, 4, "of another flight"), ("cut", self.octets[:-5], 4, "the journal is cut"),
                ("swapped", self.octets[half:] + self.octets[:half], 4, "pieces are swapped"), ("doubled", self.octets * 2, 4, "again"),
                ("a gap", self.octets[:half] + self.octets[starts[-2]:], 4, "missing"), ("no engine", of_none, 3, "no engine opens"),
                *((name, journals.plain_block(0, [entry]), 1, "octet ") for name, entry in journals.IMPOSSIBLE.items())):
            with self.subTest(name):
                found = self.asked("show", self.written(octets))
                self.assertEqual(found[0], status, found)
                self.assertIn(said, found[2])
        for words, status, said in ((["why", 3, self.file], 2, "no word of the pool"),
                                    (["why", "heater", self.file], 2, "heater is no word"),
                                    (["show", self.file, "--before", 10**9], 2, "events"),
                                    (["show", self.folder / "none"], 1, "No such file"),
                                    (["show", self.folder], 1, "directory"),
                                    (["show", self.file, "--source", "/none.c"], 1, "no such file"),
                                    (["show", self.file, "--source", self.file, "--ocp", "/none"], 1, "/none"),
                                    (["show", self.file, "--names", self.folder / "none"], 1, "No such file"),
                                    (["history", "0", self.file, "--svg", self.folder], 1, "directory")):
            with self.subTest(said):
                found = self.asked(*words)
                self.assertEqual((found[0], said in found[2]), (status, True), found)

    def test_damage_anywhere(self):
        """Cut at any octet, or with a bit changed: an answer of what is before, or one of the refusals."""
        for number in range(scaled(60)):
            draw = chance("damage", number)
            at = draw.randrange(len(self.octets))
            flip = self.octets[:at] + bytes([self.octets[at] ^ 1 << draw.randrange(8)]) + self.octets[at + 1:]
            for octets in (self.octets[:at], flip):
                status, _, told = self.asked("why", 0, self.written(octets))
                with self.subTest(f"OCP_SEED={SEED}, run {number}"):
                    self.assertIn(status, (3, 4) if told else (0,))

    def test_another_library(self):
        newer = self.folder / "newer.so"
        (self.folder / "newer.c").write_text("unsigned ocp_version(void) { return 0x20000; }\n")
        compile_c(["cc", "-shared", "-fPIC", self.folder / "newer.c", "-o", newer])
        for path, said in ((newer, "version 0x20000"), (self.folder / "none.so", "ground/build makes it"), (self.file, "no library")):
            with self.subTest(said):
                self.assertRaisesRegex(LibraryFault, said, engine.load_library, str(path))
                done = run([ROOT / "ground/ocp-flight", "show", self.file], env={**os.environ, "OCP_GROUND_LIBRARY": str(path)})
                self.assertEqual((done.returncode, done.stdout, done.stderr.count("\n")), (3, "", 1))

    def test_entries_that_no_engine_makes(self):
        """Their octet is that of the code: the first one begins at octet 44."""
        word = bytes([7, 0, 0, 0, 1]) + bytes(8)
        for block, said in ((journals.plain_block(0, [word, journals.DRAIN]), "octet 59: event 1: the engine does not do"),
                            (journals.block_of(0, 2, b"\x00\x02\x81\x05"), "octet 46: event 1: no entry begins here")):
            self.assertRaisesRegex(Differs, said, Replay, Journal([("journal", bytearray(block))]))
