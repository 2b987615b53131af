"""The records of mutants and the command that makes them, over a repository of two small crates and a toolchain that only pretends
to prove. No proof is made."""
import contextlib
import errno
import os
import shutil
import signal
import subprocess
import sys
import time
from pathlib import Path
from unittest import mock

from support import ROOT, Case
from mutation import records, sums
from mutation.edits import Mutant, mutants_of
from mutation.parts import interface
from mutation.rooms import Said
from source import Source

LOW = """//! The lower crate.
ghost use Rattle.low.specs.Number.{two, three};

/// A number.
pub const START: u8 = start();

const fn start() -> u8 {
    1
}

/// A number with an invariant.
pub struct Number {
    value: u8,
    ghost invariant = { value ≤ three },
}

#[tactic(auto, using(crate::proofs::Halves::half))]
pub fn lower(n: u8) -> u8
    ensures { result ≡ two }
{
    n / START // a half
}

pub fn unread(n: u8) -> u8
    ensures { result ≡ three }
{
    n
}

fn halved(n: u8) -> u8
    ensures { result ≡ n }
{
    let text = "// halved"; halved + text
}

macro_rules! made {
    ($name:ident) => {
        fn made() {
            let text = "made by a macro";
        }
    };
}
made!(one);
"""
HIGH = """//! The higher crate.

/// Twice a number.
#[tactic(auto)]
pub fn high(n: u8) -> u8
    ensures { result ≡ n }
{
    let twice = n + n;
    twice
}

impl PartialEq for Thing {
    fn eq(&self, other: &Thing) -> bool {
        true
    }
}

impl Thing {
    fn quiet(&self) -> bool {
        false
    }

    /// Another.
    pub fn other(&self, n: u8) -> u8 {
        let n = n + lower(0);
        n * 3
    }
}

use low::{lower, Number};
pub struct Thing(Number);
"""


LOW_FILE, HIGH_FILE, NUMBER = "crates/low/src/lib.rt", "crates/high/src/lib.rt", "crates/low/specs/Number.antt"
UNREAD = "pub fn unread(m: u8)\n    ensures { m ≡ five }\n{\n}\n\n"


def edit(old, new):
    return f"file: src/lib.rt\nold: {old}\nnew: {new}\n"


FILES = {
    "crates.txt": "low:\nhigh: low std_of_kit # a comment\n",
    "crates/low/src/lib.rt": LOW,
    "crates/low/specs/Number.antt": "-- Two.\npub two : ℕ\ntwo = less four\npub four : ℕ\nfour = less six\npub six : ℕ\nsix = 6\n"
    "pub three : ℕ\nthree = 3\npub five : ℕ\nfive = 5\n",
    "crates/low/proofs/Lib.antt": "pub mod Halves\nmod Unread\n",
    "crates/low/proofs/Halves.antt": "pub half : ℕ\nhalf = 1\npub third : ℕ\nthird = 1\n",
    "crates/low/proofs/Unread.antt": "pub unread : ℕ\n",
    "crates/low/proofs/lower/Answers.antt": "returns c = search\n",
    "crates/high/src/lib.rt": HIGH,
    "crates/high/proofs/high/Answers.antt": "use Rattle.high.proofs.Own.{own}\nreturns c = own\n",
    "crates/high/proofs/Own.antt": "use Rattle.low.proofs.Halves.{half}\npub own : ℕ\nown = half\n",
    "crates/high/proofs/Thing/other/Answers.antt": "returns c = search\n",
    "crates/high/must-fail/thrice.edit": edit("    let twice = n + n;", "    let twice = n + n + n; // REFUSE"),
    "crates/high/edits/by-four.edit": edit("        n * 3", "        n * 4 // REFUSE"),
}
# The pretended toolchain: what it says of a crate is decided by words in its sources.
RATTLE = '''#!/usr/bin/env python3
import pathlib, sys, time
source = pathlib.Path("src/lib.rt").read_text()
line = next((at for at, text in enumerate(source.split("\\n"), 1) if "//" in text and text.rstrip().split()[-1].isupper()), 0)
word = source.split("\\n")[line - 1].split()[-1]
name = "high" if "thrice" in source or line < 12 else "Thing::other"
note = f"note: src/lib.rt:{line}:1: it is not proved that what the function ensures holds (`returns`)"
if "SLOW" in source:
    pathlib.Path(sys.argv[0]).with_name("begun").touch()
    time.sleep(600)
if word == "BROKEN":
    print(f"src/lib.rt:{line}:3: error[mismatched-types]: expected `u8`")
elif word == "REFUSE":
    print(note, f"fn high::{name}: not proved; it stands on an open goal", "only=1 holes=1", sep="\\n")
elif word == "MISSING":
    print(f"./proofs/high/Answers.antt:2:1: error: `returns`: record `V` has no field `if-n`")
    print(note, f"fn high::{name}: not proved", "only=1 holes=1", sep="\\n")
elif word == "OTHERS":
    print(f"fn high::{name}: not proved; it calls `high::there`, which is not proved", "only=1 holes=1", sep="\\n")
else:
    print("only=1 holes=0")
'''
RTLIB = '''import pathlib, sys
KIT = pathlib.Path(__file__).resolve().parent.parent
RATTLE = str(KIT / "bin/rattle")
guarded = lambda: ["env"]
class Crate:
    def __init__(self, folder, root, known):
        self.folder, self.name, self.rlib = folder, pathlib.Path(folder).name, folder + "/out/rlib/it.rlib"
    words = lambda self, flags, keeps: flags
    below = lambda self: [Crate(self.folder.replace("high", "low"), "", {})] if self.name == "high" else []
    makes_rlib = lambda self: False
    stamp = lambda self: text_of(self.folder + "/src/lib.rt")
def text_of(file):
    return pathlib.Path(file).read_text() if pathlib.Path(file).is_file() else None
'''


class Repository(Case):
    """A repository in a folder of its own."""

    def setUp(self):
        self.place = self.room()
        self.top = self.place.resolve() / "repository"
        for path, text in FILES.items():
            self.write(path, text)

    def write(self, path, text):
        file = self.top / path
        file.parent.mkdir(parents=True, exist_ok=True)
        file.write_text(text, encoding="utf-8")

    def change(self, path, old, new):
        text = (self.top / path).read_text(encoding="utf-8")
        self.assertIn(old, text)
        self.write(path, text.replace(old, new))

    def sums(self, version="one"):
        """The sum of each mutant of the higher crate."""
        found = sums.Sums(self.top, version)
        return {mutant.name: found.of(mutant) for mutant in mutants_of(self.top / "crates/high")}

    def changed(self, path, old, new):
        """The mutants whose sum changes with a text."""
        before, kept = self.sums(), (self.top / path).read_text(encoding="utf-8")
        self.change(path, old, new)
        after = self.sums()
        self.write(path, kept)
        return {name for name in before if before[name] != after[name]}


class OfSums(Repository):
    """What a sum depends on."""

    def counts(self, wanted, rows):
        for path, old, new in rows:
            with self.subTest(path=path, old=old, new=new):
                self.assertEqual(self.changed(path, old, new), wanted)

    def test_bodies_comments_and_what_no_name_leads_to_do_not_count(self):
        more = f"ghost use Rattle.low.specs.Number.{{five}};\n{UNREAD.replace('unread', 'added')}pub fn unread"
        self.counts(set(), (
            (LOW_FILE, "n / START", "n / 3"), (LOW_FILE, "/// A number.", "/// Any number."), (LOW_FILE, "// a half", "// one half"),
            (LOW_FILE, "fn halved(n: u8) -> u8\n    ensures { result ≡ n }", "fn halves(n: u8) -> u8\n    ensures { result ≤ n }"),
            (LOW_FILE, "result ≡ three", "result ≤ three"), (LOW_FILE, "pub fn unread", more),
            (LOW_FILE, "using(crate::proofs::Halves::half)", "using(crate::proofs::Unread::unread)"),
            (NUMBER, "-- Two.", "-- A number."), (NUMBER, "five = 5", "five = 4"),
            (NUMBER, "pub five", "mod Added\npub seven : ℕ\nseven = 7\npub five"),
            ("crates/low/proofs/lower/Answers.antt", "search", "grind"), ("crates/low/proofs/Unread.antt", "unread", "other"),
            ("crates/low/proofs/Halves.antt", "third = 1", "third = 3"), (HIGH_FILE, "        false\n", "        true\n"),
            (HIGH_FILE, "/// Another.", "/// One more."), (HIGH_FILE, "fn quiet(", "fn silent("),
            ("crates.txt", "# a comment", "# another")))

    def test_what_a_function_calls_and_what_that_names_count(self):
        self.counts({"by-four"}, (
            (LOW_FILE, "result ≡ two", "result ≤ two"), (LOW_FILE, "specs.Number.{two", "specs.Other.{two"),
            (NUMBER, "two = less four", "two = 2"), (NUMBER, "six = 6", "six = 7"), (LOW_FILE, "value ≤ three", "value ≤ two"),
            (NUMBER, "three = 3", "three = 4"), (HIGH_FILE, "Thing(Number)", "Thing(Number, u8)"),
            (HIGH_FILE, "-> bool {\n        true", "-> u8 {\n        true"), (HIGH_FILE, "low::{lower,", "low::other::{lower,"),
            (LOW_FILE, "pub fn unread", f"{UNREAD.replace('unread', 'lower')}pub fn unread")))

    def test_a_function_its_proof_and_the_lemmas_that_it_cites_count(self):
        self.counts({"thrice"}, (
            ("crates/low/proofs/Halves.antt", "half = 1", "half = 2"), ("crates/high/proofs/Own.antt", "own = half", "own = third"),
            ("crates/high/proofs/high/Answers.antt", "c = own", "c = search"), (HIGH_FILE, "    twice\n", "    twice + 0\n"),
            (HIGH_FILE, "#[tactic(auto)]", "#[tactic(grind)]"), (HIGH_FILE, "result ≡ n", "result ≤ n")))
        self.counts({"by-four"}, (
            ("crates/high/proofs/Thing/other/Answers.antt", "search", "grind"), (HIGH_FILE, "n + lower", "n - lower"),
            ("crates/high/edits/by-four.edit", "n * 4", "n * 5"), ("crates/high/edits/by-four.edit", "n * 4", "unread(n)")))

    def test_what_has_no_name_counts_always(self):
        self.counts({"thrice", "by-four"}, (
            (LOW_FILE, "made by a macro", "made by another macro"), (LOW_FILE, "made!(one)", "made!(two)"),
            (LOW_FILE, "//! The lower", "#![tactic(auto)]\n//! The lower"), (NUMBER, "pub five", "infixl 10 ◌⊕◌\npub five"),
            (NUMBER, "pub five", "pub ◌⊕◌ : ℕ → ℕ → ℕ\na ⊕ b = a\npub five"), ("crates.txt", "low:", "low may_wait=1:")))
        self.assertNotEqual(self.sums("one"), self.sums("two"), "the toolchain")

    def test_constants(self):
        """A constant may have the value of a `const fn`."""
        self.change(HIGH_FILE, "n + lower(0)", "n + lower(START)")
        self.change(HIGH_FILE, "low::{", "low::{START, ")
        self.counts({"by-four"}, ((LOW_FILE, "    1\n", "    2\n"), (LOW_FILE, "pub const START", "pub static START")))

    def test_what_a_mutant_calls(self):
        self.change("crates/high/edits/by-four.edit", "n * 4", "low::unread(n)")
        self.counts({"by-four"}, [(LOW_FILE, "result ≡ three", "result ≤ three")])

    def test_a_mutant_in_no_function_rests_on_the_whole_crate(self):
        self.write("crates/high/edits/a-sum.edit", edit("impl Thing {", "impl Other {"))
        self.counts({"by-four", "a-sum"}, [("crates/high/proofs/Thing/other/Answers.antt", "search", "grind")])
        self.counts({"thrice", "a-sum"}, [(HIGH_FILE, "    twice\n", "    twice + 0\n")])

    def test_interface_has_no_bodies(self):
        for is_below in (False, True):
            low, high = (interface(Source(Path("lib.rt"), text), is_below) for text in (LOW, HIGH))
            for text, part, is_stated in (
                (low, "n / START", False), (low, "halved +", False), (low, "tactic", False), (low, "// ", False), (high, "n * 3", False),
                (low, "result ≡ two", True), (low, "    1\n", True), (low, "made by a macro", True), (high, "pub fn other(&self", True),
                (high, "fn eq", True), (low, "fn halved(", not is_below), (high, "fn quiet(", not is_below),
            ):
                self.assertEqual(part in text, is_stated, part)


class OfRecords(Repository):
    """The file of records and its check."""

    def setUp(self):
        super().setUp()
        self.crate = self.top / "crates/high"
        self.file = self.crate / "mutants.record"
        for name, total in self.sums().items():
            records.keep(self.crate, {"thrice", "by-four"}, {name: records.record_of(name, total, ["returns", "a goal"])})
        self.text = self.file.read_text(encoding="utf-8")

    def faults(self):
        return dict(records.faults_of(self.crate, mutants_of(self.crate), sums.Sums(self.top, "one")))

    def test_faults(self):
        first, second = self.text.splitlines(keepends=True)
        self.assertEqual((self.faults(), first[:8], second[:7]), ({}, "by-four ", "thrice "))
        for text, name, why in (
            (first, "thrice", "no record"),
            (first.replace("returns", "other") + second, "by-four", "edited"),
            (first.replace(first[8:20], "0" * 12) + second, "by-four", "edited"),
            (first.replace(first.split()[1], second.split()[1]) + second, "by-four", "edited"),
            (first + second + second.replace("thrice", "zeros"), "zeros", "no mutant"),
            (first + second[:-3], "mutants.record", "cut off"),
            (first + "<<<<<<< ours\n" + second, "mutants.record", "no record"),
            (second + first, "mutants.record", "not in order"),
            (first + first + second, "mutants.record", "each mutant once"),
            ("", "thrice", "no record"),
            ("\xff\xfe\0", "mutants.record", "not text"),
        ):
            with self.subTest(text=text):
                self.file.write_text(text, encoding="latin-1" if "\xff" in text else "utf-8")
                self.assertIn(why, self.faults().get(name, ""))

    def test_edits_that_cannot_be_tried(self):
        for text, why in (
            (edit("n * 7", "n * 4"), "its text is 0 times in its file: n * 7"),
            ("file: src/lib.rt\n", "changes nothing"),
            (edit("n * 3", "n * 3"), "changes nothing"),
            ("file: src/gone.rt\nold: a\nnew: b\n", "no file"),
            ("old: a\nnew: b\n", "no file"),
            ("", "is empty"),
            ("file: src/../../low/src/lib.rt\nold: n / START\nnew: n\n", "no file"),
        ):
            self.write("crates/high/edits/by-four.edit", text)
            self.assertIn(why, self.faults()["by-four"])
        for kind in ("edits", "must-fail"):
            self.write(f"crates/high/{kind}/by-four.edit", FILES["crates/high/edits/by-four.edit"])
        self.assertIn("two mutants", self.faults()["by-four"])

    def test_a_mutant_that_is_gone_loses_its_record(self):
        records.keep(self.crate, {"thrice"}, {})
        self.assertEqual(self.file.read_text(encoding="utf-8"), self.text.splitlines(keepends=True)[1])
        records.keep(self.crate, {"thrice"}, {"thrice": ""})
        self.assertFalse(self.file.exists(), "the last record goes with its file")

    def test_a_full_disk_leaves_the_old_file(self):
        with mock.patch.object(records.os, "fsync", side_effect=OSError(errno.ENOSPC, "No space left on device")):
            with self.assertRaises(OSError):
                records.keep(self.crate, {"thrice", "by-four"}, {"thrice": ""})
        self.assertEqual(self.file.read_text(encoding="utf-8"), self.text)
        self.assertEqual(list((self.crate / "out").glob("record-*")), [])

    def test_killed_while_it_writes(self):
        program = "import sys, os; sys.path.insert(0, sys.argv[1]); from mutation import records; from pathlib import Path\n"
        program += "os.replace = lambda *_: os.kill(os.getpid(), 9)\nrecords.keep(Path(sys.argv[2]), {'by-four'}, {})"
        ran = subprocess.run([sys.executable, "-B", "-c", program, ROOT / "tools", self.crate], check=False)
        self.assertEqual(ran.returncode, -signal.SIGKILL)
        self.assertEqual(self.file.read_text(encoding="utf-8"), self.text)
        records.keep(self.crate, {"by-four"}, {})
        self.assertEqual(self.file.read_text(encoding="utf-8"), self.text.splitlines(keepends=True)[0])


class OfChecks(Case):
    """How the words of a check are read."""

    def setUp(self):
        self.place = self.room()
        (self.place / "src").mkdir()
        (self.place / "src/lib.rt").write_text(HIGH, encoding="utf-8")

    def said(self, *lines, last="only=1 holes=1"):
        return Said(1, "\n".join([*lines, last]), self.place)

    def outcome(self, *lines, last="only=1 holes=1"):
        said = self.said(*lines, last=last)
        return said.fault or said.outcome({("high",)}, (self.place / "src/lib.rt", "high", None))

    NOTE = "note: src/lib.rt:8:5: it is not proved that what the function ensures holds when it returns (`returns-then`)"
    FALSE = "; the facts known there allow values at which this goal is false"
    FAILED = "fn high::high: not proved; it stands on `Rattle.high.proofs.high.Answers.returns`, which antt refuses"
    MISSING = "./proofs/high/Answers.antt:2:3: error: `returns`: record `R` has no field `if-n`"
    WRONG = "./proofs/high/Answers.antt:2:3: error: `returns`: `grind` stopped at its own limit"

    def test_refused_by_goals(self):
        self.assertEqual(self.outcome(self.NOTE, "fn high::high: not proved").goals, ["returns-then"])
        self.assertEqual(self.outcome(self.WRONG, self.FAILED).goals, ["returns"])
        self.assertEqual(self.outcome(self.MISSING, self.NOTE + self.FALSE, self.FAILED).goals, ["returns-then"])

    def test_only_a_name_is_missing(self):
        unnamed = self.MISSING.replace("`returns`: ", "")
        for lines in ([self.MISSING, self.FAILED], [self.MISSING, self.NOTE, self.FAILED], [unnamed, "fn high::high: no proof"]):
            found = self.outcome(*lines)
            self.assertEqual((found.verdict, found.goals), ("not-tried", []))
            self.assertIn("names what the edit took away", found.why)

    def test_a_lemma_is_refused(self):
        said = self.said(self.WRONG.replace("high/Answers", "Lemmas"), self.MISSING.replace("has no field", "was not admitted"))
        self.assertEqual(said.outcome(set(), None).goals, ["returns"])
        self.assertEqual(said.outcome({("there",)}, (Path("lib.rt"), "there", None)).verdict, "proved")

    def test_other_verdicts(self):
        self.assertEqual(self.outcome(last="only=1 proved=1").verdict, "proved")
        self.assertEqual(self.outcome("fn high::there: not proved; it stands on `x`").verdict, "proved")
        # Another function may be the reason.
        self.assertIsNone(self.outcome("fn high::high: not proved; it calls `high::there`, which is not proved"))
        self.assertIn("does not compile", self.outcome(last="src/lib.rt:3:4: error[unknown-name]: no `x`"))
        self.assertIn("no verdict", self.outcome(last="rattle: no verdict: out of steps"))


class OfCommand(Repository):
    """The command, over the pretended toolchain."""

    def setUp(self):
        super().setUp()
        for path in (".ci/mutants", "tools/kit.py", "tools/source.py"):
            (self.top / path).parent.mkdir(exist_ok=True)
            shutil.copy(ROOT / path, self.top / path)
        shutil.copytree(ROOT / "tools/mutation", self.top / "tools/mutation")
        for path, text in (("kit/bin/rt", ""), ("kit/bin/rtlib.py", RTLIB), ("kit/bin/rattle", RATTLE), ("kit/KIT-ID", "a kit\n"),
                           ("crates/low/out/rlib/it.rlib/format", ""), ("crates/low/out/rlib/stamp", LOW)):
            self.write(path, text)
        for name in ("rt", "rattle"):
            (self.top / "kit/bin" / name).chmod(0o755)
        # A run that is killed leaves its room.
        self.words = {**os.environ, "TMPDIR": str(self.place), "PATH": f"{self.top}/kit/bin:{os.environ['PATH']}"}
        self.crate = self.top / "crates/high"

    def run_it(self, *words):
        how = {"env": self.words, "capture_output": True, "text": True, "timeout": 120}
        ran = subprocess.run([self.top / ".ci/mutants", *words], **how, check=False)
        return ran.returncode, ran.stdout + ran.stderr

    def test_records_and_checks(self):
        status, said = self.run_it("--check-records")
        self.assertEqual((status, "high thrice: no record" in said), (1, True), said)
        status, said = self.run_it("--record", "--lanes", "2")
        self.assertEqual((status, said.count("refused   ")), (0, 2), said)
        self.assertEqual(self.run_it("--check-records")[0], 0)
        with (self.crate / "mutants.record").open("a", encoding="utf-8") as file:
            file.write("zeros 0000 returns\n<<<<<<<\n")
        self.assertEqual(self.run_it("--check-records")[0], 1)
        self.assertIn("no mutant to try", self.run_it("--record")[1])
        self.assertEqual(self.run_it("--check-records")[0], 0)
        self.change("crates/high/src/lib.rt", "    twice\n", "    twice + 0\n")
        status, said = self.run_it("--check-records")
        self.assertEqual((status, "high thrice: changed since it was tried" in said, "by-four" in said), (1, True, False), said)
        status, said = self.run_it("--record", "high")
        self.assertEqual((status, said.count("refused   ")), (0, 1), said)

    def test_libraries_of_other_sources(self):
        self.change("crates/low/src/lib.rt", "n / START", "n / 3")
        for status, said in (self.run_it("--record"), self.run_it("high")):
            self.assertEqual((status, "not built from these sources: low" in said), (2, True), said)
        (self.top / "crates/low/out/rlib/stamp").unlink()
        self.assertEqual((self.run_it("high")[0], self.run_it("--record")[0]), (0, 2))
        (self.top / "crates/low/out/rlib/it.rlib/format").unlink()
        self.assertEqual(self.run_it("--record")[0], 0)

    def test_a_source_that_changes_meanwhile(self):
        self.write("kit/bin/rattle", RATTLE + f"\npathlib.Path('{self.crate}/src/lib.rt').touch()\n")
        status, said = self.run_it("--record")
        self.assertEqual((status, "a source changed meanwhile" in said), (1, True), said)
        self.assertFalse((self.crate / "mutants.record").exists())

    def test_not_refused_is_not_recorded(self):
        for word, verdict, why in (
            ("NONE", "proved", ""),
            ("BROKEN", "not-tried", "does not compile"),
            ("MISSING", "not-tried", "names what the edit took away"),
            ("OTHERS", "not-tried", "no goal of it"),
        ):
            with self.subTest(word=word):
                self.write("crates/high/must-fail/thrice.edit", FILES["crates/high/must-fail/thrice.edit"].replace("REFUSE", word))
                status, said = self.run_it("--record", "--only", "thrice", "high")
                self.assertEqual(status, 1)
                self.assertRegex(said, rf"{verdict} +high thrice: .*{why}")
                self.assertFalse((self.crate / "mutants.record").exists())

    def test_a_record_of_a_mutant_that_is_now_proved_goes(self):
        self.run_it("--record")
        self.write("crates/high/must-fail/thrice.edit", FILES["crates/high/must-fail/thrice.edit"].replace("REFUSE", "NONE"))
        self.assertEqual(self.run_it("--record")[0], 1)
        self.assertNotIn("thrice", (self.crate / "mutants.record").read_text(encoding="utf-8"))

    def test_killed_and_interrupted(self):
        self.run_it("--record", "--only", "by-four", "high")
        kept = (self.crate / "mutants.record").read_text(encoding="utf-8")
        self.write("crates/high/must-fail/thrice.edit", FILES["crates/high/must-fail/thrice.edit"].replace("REFUSE", "SLOW"))
        for number, status in ((signal.SIGKILL, -9), (signal.SIGINT, 130), (signal.SIGTERM, 143)):
            with self.subTest(number=number):
                begun = self.top / "kit/bin/begun"
                begun.unlink(missing_ok=True)
                how = {"stdout": subprocess.DEVNULL, "stderr": subprocess.DEVNULL, "start_new_session": True}
                ran = subprocess.Popen([self.top / ".ci/mutants", "--record"], env=self.words, **how)
                while not begun.exists() and ran.poll() is None:
                    time.sleep(0.05)
                ran.send_signal(number)
                self.assertEqual(ran.wait(60), status)
                with contextlib.suppress(ProcessLookupError):
                    os.killpg(ran.pid, signal.SIGKILL)
                self.assertEqual((self.crate / "mutants.record").read_text(encoding="utf-8"), kept)
        self.write("crates/high/must-fail/thrice.edit", FILES["crates/high/must-fail/thrice.edit"])
        self.assertEqual(self.run_it("--record")[0], 0)

    def test_wrong_words_and_a_folder_that_takes_no_file(self):
        self.write("crates/high/out", "")
        for words, why in (
            (["--record"], "crates/high/out"),
            (["nowhere"], "no crate nowhere"),
            (["--only", "nothing", "high"], "no mutant nothing"),
            ([], "name crates"),
            (["--lanes", "0", "high"], "--lanes"),
        ):
            status, said = self.run_it(*words)
            self.assertEqual((status, "Traceback" in said), (2, False))
            self.assertIn(why, said)

    def test_sample(self):
        self.assertEqual(self.run_it("--sample")[0], 2)
        self.write(".gitignore", "out/\n")
        self.run_it("--record")
        for words in (["init", "-q"], ["add", "-A"], ["commit", "-qm", "One"]):
            subprocess.run(["git", "-c", "user.name=n", "-c", "user.email=e", *words], cwd=self.top, capture_output=True, check=True)
        status, said = self.run_it("--sample")
        self.assertEqual((status, said.count("refused   ")), (0, 2), said)
        self.assertNotIn("this clone has", said)
        clone = self.top.parent / "clone"
        subprocess.run(["git", "clone", "-q", "--depth", "1", f"file://{self.top}", str(clone)], check=True, capture_output=True)
        self.top = clone
        shutil.copytree(self.crate.parent / "low/out", clone / "crates/low/out")
        status, said = self.run_it("--sample")
        self.assertEqual((status, said.count("refused   ")), (0, 2), said)
        self.assertIn("this clone has 1 commit", said)

    def test_an_edit_file_of_a_mutant(self):
        mutant = Mutant(self.crate / "edits/by-four.edit", self.crate)
        self.assertEqual((mutant.function, mutant.module, mutant.fault), ("other", (), ""))
