"""The console's cases beside a second version of the profile, ground/profile_model, and what they would miss.

Each case's output has to be what the model gives. So has the last line of each mistake of tests/mistakes, and of some inputs that are
too long for a file here (test_commands gives them to the program). A case has to run each instruction in each form of its operands.

Then the model is changed at one place at a time (tests/model_changes.py has the changes), and the output of some case has to differ.
tests/model_excuses has the changes that nothing can show, each with its reason. 100 others are tried, another hundred each time.
OCP_CHANGES=TEXT tries each change of a line with this text, and the excused ones, which fail if a case shows them; of ` | ` all.
"""
import itertools
import os
import random
import re
import resource
import struct
import sys
import time

import model_changes
from chance import scaled
from mistake_inputs import mistakes
from support import ROOT, Case

CASES = ROOT / "crates/ocp/cases"
CHANGES = os.environ.get("OCP_CHANGES")
SAMPLE, SEED = scaled(100), os.environ.get("OCP_SEED") or str(random.randrange(10**6))
OCTETS = 4 * 2**30  # a model that takes more memory fails
EXIT = b"9500000000000000"
# What is too long for a file here, at the limits and over them: a command, its input, and the last line of its output.
LONG = [
    ("asm", b"exit\n" * 2048, EXIT.decode() * 2048),
    ("asm", b"exit\n" * 2049, "error 0 Load 3"),
    ("asm", b"exit\n" + b" " * 1048571, EXIT.decode()),
    ("asm", b" " * 1048577, "error 0 TooLong"),
    ("list", EXIT * 65536, "exit"),
    ("list", EXIT * 65536 + b" ", "error 0 TooLong"),
    ("asm", b"ja far\n" + b"exit\n" * 32767 + b"far: exit\n", "error 0 Load 3"),
    ("asm", b"ja far\n" + b"exit\n" * 32768 + b"far: exit\n", "error 1 Range"),
    ("asm", b"b: exit\n" + b"exit\n" * 32766 + b"ja b\n", "error 0 Load 3"),
    ("asm", b"b: exit\n" + b"exit\n" * 32767 + b"ja b\n", "error 32769 Range"),
    ("run", b"send 8 load 7 " + EXIT * 2049, "tm 1 4 seq 0 dest 0 data 1923c0000012030000"),
    ("run", b"send 0 load 1 " + EXIT + b"\n" + b"send 0 activate 1\nsend 0 abort 1\n" * 49999 + b"send 0 activate 1\n", ""),
]


class Input:
    """What the program reads, with its command and options, and what it writes."""

    seconds = 0

    def __init__(self, name, command, text, wanted, options):
        self.name, self.command, self.text, self.wanted, self.options = name, command, text, wanted, options

    def output(self, model):
        if self.command == "list":
            return model["listing"](self.text)
        return model["assembly" if self.command == "asm" else "run"](self.text, **self.options)

    def agrees(self, model):
        return self.output(model) == self.wanted


class LastLine(Input):
    """An input, and the line that ends its output, which is empty if it has none."""

    def agrees(self, model):
        return (self.output(model).splitlines() or [""])[-1] == self.wanted


def inputs():
    """The cases, the mistakes and the long inputs."""
    for path in sorted(CASES.glob("*.stdout")):
        case, args = path.with_suffix(""), path.with_suffix(".args")
        words = args.read_text().split() if args.exists() else []
        command = words.pop(0) if words and not words[0].startswith("-") else "run"
        options = {word[2:]: int(value) for word, value in zip(words[::2], words[1::2])}
        yield Input(case.name, command, case.read_bytes(), path.read_bytes().decode(), options)
    for _, command, profile, wanted, given, *_ in mistakes():
        options = {} if command == "list" else {"profile": int(profile)}
        yield LastLine(f"{command}: {wanted}", command, given, wanted, options)
    for command, text, wanted in LONG:
        yield LastLine(f"{command}: {wanted[:40]}", command, text, wanted, {})


def form_of(found):
    """The text of an instruction with no numbers in it, but the width of a byte order and of a sign extension."""
    text = re.sub(r"\br\d+", "r", found.text)
    return text if found.kind == "order" or text.startswith("movsx") else re.sub(r"(?<= )\d\w*|[+-]\d+", "n", text)


def every_form(model):
    """The forms of all instructions: every opcode, with every offset and imm that a row of the table names by its value."""
    found = set()
    for opcode, src, offset, imm in itertools.product(range(256), (0, 1), (0, 1, 8, 16, 32), (0, 16, 32, 64)):
        try:
            found.add(form_of(model["decoded"](struct.pack("<BBhi", opcode, src << 4, offset, imm), bytes(8))))
        except model["BadSlot"]:
            pass
    return found


def counting(model, ran):
    """Has the model add the form of each instruction that it runs."""
    instruction, call = model["instruction"], model["Engine"].engine_call

    def counted(machine, code):
        ran.add(form_of(code[machine.place]))
        return instruction(machine, code)

    def counted_call(engine, it):
        ran.add(form_of(it.code[it.machine.place]))
        return call(engine, it)
    setattr(sys.modules["profile_model.engine"], "instruction", counted)
    model["Engine"].engine_call = counted_call


class Cases(Case):
    seconds = 4

    def test_the_model_gives_their_output(self):
        model, ran = model_changes.sources().model(), set()
        forms = every_form(model)
        counting(model, ran)
        for case in inputs():
            with self.subTest(case.name):
                self.assertTrue(case.agrees(model), "the model gives another output")
        self.assertEqual(forms - ran, set(), "no case runs these forms of instructions")

    def test_it_runs_by_itself(self):
        case = CASES.parent / "stdin"
        self.writes(case.with_name("stdout").read_bytes(), [sys.executable, "-B", ROOT / "ground/profile_model"], case.read_bytes())


class Changes(Case):
    seconds = scaled(15) if CHANGES is None else 600

    def runs(self, sources):
        """The cases, with the time that each takes and the functions that it enters."""
        model, cases = sources.model(), list(inputs())
        for case in cases:
            began = time.process_time()
            case.agrees(model)
            case.seconds = time.process_time() - began
        return model_changes.Runs(sources, cases)

    def test_a_case_shows_each_change(self):
        sources, excused = model_changes.sources(), model_changes.excuses()
        changes = model_changes.changes(sources)
        self.assertEqual(excused - {it.key() for it in changes}, set(), "these are excused, and no changes")
        if CHANGES is None:
            changes = [it for it in changes if it.key() not in excused]
            changes = random.Random(SEED).sample(changes, min(SAMPLE, len(changes)))
        else:
            changes = [it for it in changes if CHANGES in it.key()]
        runs = self.runs(sources)
        resource.setrlimit(resource.RLIMIT_AS, (OCTETS, OCTETS))
        for change in changes:
            with self.subTest(seed=SEED, line=f"ground/profile_model/{change.module}.py:{change.line}", change=change.key()):
                is_excused = change.key() in excused
                self.assertEqual(model_changes.shows(sources, runs, change), not is_excused, "a case shows it")
