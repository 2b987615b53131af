"""Sessions of ./ocp live: what is shown and kept of lines that are entered by a pipe and by a terminal, and of what is no session."""
import io
import os
import pty
import random
import re
import select
import signal
import subprocess
import sys
import time
from concurrent.futures import ProcessPoolExecutor
from pathlib import Path
from tempfile import TemporaryDirectory
from unittest import mock

from support import ROOT, Case, module_of, ocp, run

LIVE, HELP = ROOT / "tools/live", ROOT / "docs/help/run"
SCRIPTS = 500
ENDS = ("\x0b", "\x0c", "\x1c", "\x1d", "\x1e", "\x85", "\u2028", "\u2029", "\r")  # str.splitlines parts at these, and the console does not
SEVEN = "b70000000500000007000000020000009500000000000000"
LOADED = "tm 1 1 seq 0 dest 0 data 1923c000\ntm 1 7 seq 1 dest 0 data 1923c000\n"
# What is entered, and what is shown of it; a hint of the program may be left out, as (..).
ENTERED = (
    (f"send 9 load 7 {SEVEN[:32]} {SEVEN[32:]}",
     "refused, Syntax; the line is left out (send <flags> load <id> [<hex>]: nothing more may stand here)\n"),
    (f"send 9 load 7 {SEVEN}", LOADED),
    ("send 1 activate 7", "tm 1 1 seq 2 dest 0 data 1923c001\n"),
    ("step 7", "refused, Syntax; the line is left out (step <id> <n>: <n> is missing)\n"),
    ("step 7 2", "step 7 2 Ran\n"),
    ("undo", "taken back: step 7 2\n"),
    ("step 7 1", "step 7 1 Ran\n"),
    ("step 7 0", "refused, Syntax; the line is left out (step <id> <n>: n is 1 to 1000000, found 0)\n"),
    ("pool 99", "pool 99 BadPoolIndex\n"),
    ("quit", ""),
)
KEPT = f"send 9 load 7 {SEVEN}\nsend 1 activate 7\nstep 7 1\npool 99\n"
FILES = {"seven.asm": "mov64 r0, 5\nadd64 r0, 2\nexit\n", "an image.hex": f"{SEVEN}\n", "wrong.asm": "exit\nexit 1\n",
         "wrong.hex": "9500 zz\n", "wide.asm": "call 6\nexit\n"}
OF_FILES = (
    ("load 7 seven.asm", f"entered: send 9 load 7 {SEVEN}\n{LOADED}"),
    ("load 8 an image.hex", f"entered: send 9 load 8 {SEVEN}\ntm 1 1 seq 2 dest 0 data 1923c001\ntm 1 7 seq 3 dest 0 data 1923c001\n"),
    ("load 9 wrong.asm", "wrong.asm: error 2 Syntax (..); nothing is entered\n"),
    ("load 9 wrong.hex", "wrong.hex: an image is hexadecimal digits, two for each octet; nothing is entered\n"),
    ("load 9 wide.asm", "wide.asm: error 1 Load 9 (..); nothing is entered\n"),
    ("load 9 none.asm", "none.asm: No such file or directory; nothing is entered\n"),
    ("load 9 seven", "seven: the name of an image ends in .hex, that of a text in .asm; nothing is entered\n"),
    ("load 9", "load <id> <file>: nothing is entered\n"),
    ("load 70000 seven.asm", "refused, Syntax; the line is left out (..)\n"),
    ("trace 7 on", "trace 7 on\n"),
    ("send 0 activate 7", ""),
    ("step 7 3", "step 7 3 Ended\n"),
    ("trace", "trace 7    0 Ran       mov64 r0, 5                  r0 0x5, r1 0x20000000, r10 0x10001000\n"
              "trace 7    1 Ran       add64 r0, 2                  r0 0x7\n"
              "trace 7    2 Ended     exit\n"),
)
KEPT_OF_FILES = f"send 9 load 7 {SEVEN}\nsend 9 load 8 {SEVEN}\ntrace 7 on\nsend 0 activate 7\nstep 7 3\ntrace\n"
WIDE = "send 9 load 7 85000000060000009500000000000000\n"  # has a call of the second profile
# Words and redirections of bash that are no session: each is refused with one line.
REFUSED = {"a folder": "folder", "a pipe": "fifo", "a device": "/dev/null", "a file in no folder": "none/session.ocp",
           "a file beside which nothing is written": "beside.ocp", "no standard input": "a.ocp <&-", "no standard output": "a.ocp >&-"}


class Sessions(Case):
    seconds = 5

    def setUp(self):
        self.folder = self.room()

    def session(self, rows, *words, status=0):
        """Enters the lines of rows into a session, and compares what it shows of them and its status."""
        done, wanted = run([LIVE, *words], "".join(f"{line}\n" for line, _ in rows), cwd=self.folder), "".join(shown for _, shown in rows)
        shown = done.stdout + done.stderr
        self.assertEqual(re.sub(r"\([^)]+\)", "(..)", shown) if "(..)" in wanted else shown, wanted)
        self.assertEqual(done.returncode, status)

    def keeps(self, name, text):
        self.assertEqual((self.folder / name).read_bytes(), text)

    def test_a_session_is_kept_and_continued(self):
        self.session(ENTERED)
        self.keeps("session.ocp", KEPT.encode())
        self.session([("step 7 9", "step 7 2 Ended\n")])

    def test_files_are_loaded_and_a_trace_shows_the_registers_that_changed(self):
        for name, text in FILES.items():
            (self.folder / name).write_text(text)
        self.session(OF_FILES, "a.ocp")
        self.keeps("a.ocp", KEPT_OF_FILES.encode())
        self.session([("load 7 wide.asm", f"entered: {WIDE}{LOADED}")], "b.ocp", "--profile=2")
        self.keeps("b.ocp", WIDE.encode())

    def test_options(self):
        self.session([("send 8 activate 7 0", "tm 1 4 seq 0 dest 0 data 1923c0000013\n"), ("pool 7", "pool 7 0000000000000000\n"),
                      ("pool 8", "pool 8 BadPoolIndex\n")], "options.ocp", "--profile", "2", "--pool", "8")
        self.session([("journal", "live: error: invalid value '300' for '--pool <pool>': 300 is not in 1..=256\n")],
                     "options.ocp", "--pool", "300", status=1)

    def test_a_broken_session_is_not_continued(self):
        (self.folder / "broken.ocp").write_text("no line\n")
        self.session([("journal", "live: broken.ocp is no script that can be continued: error 1 Syntax\n")], "broken.ocp", status=1)

    def test_its_help_shows_each_line_of_the_help_of_run(self):
        lines = HELP.read_text().partition("Console lines:\n")[2].partition("\n\n")[0]
        said = run([LIVE, "helped.ocp"], "help\n", cwd=self.folder).stdout
        for forms in re.findall(r"^  ([^ #].*?)(?:  .*)?$", lines, re.MULTILINE):
            for form in forms.split(", "):
                self.assertIn(form, said)

    def test_a_comment_ends_only_at_a_newline(self):
        lines = b"".join(f"# a{end}pool 99{end}\n".encode() for end in ENDS) + b"# \xff\xfe \x00\n"
        for entered, shown, kept in ((lines, b"", lines), (b"pool 99\n", b"pool 99 BadPoolIndex\n", lines + b"pool 99\n")):
            done = run([LIVE, "comments.ocp"], entered, cwd=self.folder)
            self.assertEqual((done.returncode, done.stdout, done.stderr), (0, shown, b""))
            self.keeps("comments.ocp", kept)

    def test_what_is_no_session_is_refused(self):
        (self.folder / "folder").mkdir()
        (self.folder / "beside.ocp.new").mkdir()
        os.mkfifo(self.folder / "fifo")
        for name, words in REFUSED.items():
            with self.subTest(name):
                done = run(["bash", "-c", f'exec "$0" {words}', LIVE], "pool 99\n", cwd=self.folder)
                self.assertEqual((done.returncode, done.stdout), (1, ""))
                self.assertRegex(done.stderr, r"\Alive: [^\n]+\n\Z")
        self.assertTrue(Path("/dev/null").is_char_device())

    def test_output_that_nobody_reads(self):
        reading, writing = os.pipe()
        os.close(reading)
        done = subprocess.run([LIVE, "b.ocp"], input=b"pool 99\n" * 9, stdout=writing, stderr=subprocess.PIPE, cwd=self.folder, timeout=60)
        os.close(writing)
        self.assertEqual(done.returncode, 1)
        self.assertRegex(done.stderr, rb"\Alive: [^\n]+\n\Z")

    def read_to(self, prompt, seconds=20):
        """What the terminal shows up to its next prompt, or its end."""
        shown = b""
        while not shown.endswith(prompt) and select.select([self.terminal], [], [], seconds)[0]:
            try:
                shown += os.read(self.terminal, 4096)
            except OSError:  # the session has ended
                break
        return shown

    def enter(self, keys, end):
        """Types keys until they are shown, since a line editor that just began drops some, and ends the line."""
        before = self.read_to(b"ocp> ")
        for _ in range(5):
            os.write(self.terminal, keys)
            shown = self.read_to(keys, seconds=4)
            if shown.endswith(keys):
                break
        if end == b"\x03":
            time.sleep(0.5)  # Control-C is heard once the line editor waits for a key
        os.write(self.terminal, end)
        return before + shown

    def test_a_terminal(self):
        child, self.terminal = pty.fork()
        if child == 0:
            os.chdir(self.folder)
            signal.signal(signal.SIGINT, signal.SIG_DFL)  # a program that a shell starts in the background would not hear it
            os.execvp(LIVE, [LIVE, "typed.ocp"])
        keys = ((b"jour", b"\t\n"), (b"help", b"\n"), (b"vie", b"\x03"), (b"pool 0", b"\n"), (b"quit", b"\n"))
        shown = b"".join(self.enter(*each) for each in keys) + self.read_to(b"ocp> ")
        if not select.select([self.terminal], [], [], 0)[0]:  # it still runs, and shows nothing more
            os.kill(child, signal.SIGKILL)
        self.assertEqual(os.waitstatus_to_exitcode(os.waitpid(child, 0)[1]), 0)
        for wanted in (b"journal 0", b"work <workers> <budget> <turns>", b"pool 0 0000000000000000"):
            self.assertIn(wanted, shown)


def some_line(chance):
    """A line of a session, as octets: most are good ones, and some none."""
    number, place = chance.choice((3, 7, 7)), chance.randrange(12)
    good = (f"send 9 load {number} b7000000050000009500000000000000", f"send 1 activate {number}", f"step {number} {place + 1}",
            f"view {number}", f"pool {place * 2}", "journal", "drain", f"break {number} {place}", f"time {place}", "", "  ",
            f"send 9 suspend {number} 1", f"mem {number} 0x10000000 16", "send 8 status", f"# {chance.choice(ENDS)}step 7 1")
    line = chance.choice(good).encode()
    kind = chance.randrange(6)
    if kind == 0:
        noise = chance.choice((*(end.encode() for end in ENDS), b"\xff", b"\x00", b"\xed\xa0\x80", "\u0663".encode(), b"9" * 50, b"\t"))
        at = chance.randrange(len(line) + 1)
        return line[:at] + noise + line[at:]
    if kind == 1:
        return bytes(chance.randrange(256) for _ in range(chance.randrange(20))).replace(b"\n", b"")
    return line


def in_process(file, given):
    """How a session in this process ends, None if it ends by itself, what it shows, and what standard error has: 500 take seconds."""
    live = module_of(LIVE)
    shown, said = io.BytesIO(), io.StringIO()
    ends = {"stdin": io.TextIOWrapper(io.BytesIO(given)), "stdout": io.TextIOWrapper(shown), "stderr": said, "argv": ["live", str(file)]}
    with mock.patch.multiple(sys, **ends):
        try:
            live.run()
            status = None
        except SystemExit as end:
            status = end.code
        except Exception as fault:
            status = repr(fault)
        sys.stdout.flush()
    return status, shown.getvalue(), said.getvalue()


def faults_of(number):
    """What is wrong with a random session. What it keeps is a script that the program takes, and it shows what the program prints of it."""
    chance = random.Random(number)
    lines = [some_line(chance) for _ in range(chance.randrange(1, 9))]
    has_undo = chance.randrange(4) == 0
    if has_undo:
        lines.insert(chance.randrange(len(lines) + 1), b"undo")
    with TemporaryDirectory() as folder:
        file = Path(folder) / "session.ocp"
        status, shown, said = in_process(file, b"\n".join([*lines, b""]))
        kept = file.read_bytes().split(b"\n")[:-1] if file.exists() else []
        again = in_process(file, b"") if file.exists() else (None, b"", "")
    done, remaining, shown = ocp(["run"], b"\n".join([*kept, b""])), iter(lines), shown.split(b"\n")[:-1]
    accepted = [line for line in shown if not line.startswith(b"refused, ")]
    holds = {f"it ends with {status} {said}, and then {again}": status is None and again == (None, b"", ""),
             "it keeps lines that were not entered": all(line in remaining for line in kept),
             "it loses lines": len(kept) + len(shown) - len(accepted) + 2 * has_undo >= len(lines),
             f"the program prints {done.stdout} for what it keeps":
                 done.returncode == 0 and (has_undo or b"\n".join([*accepted, b""]) == done.stdout)}
    return [f"script {number}: {lines}: {fault}; it keeps {kept}, and shows {shown}" for fault in holds if not holds[fault]]


class Scripts(Case):
    seconds = 20

    def test_random_scripts(self):
        with ProcessPoolExecutor() as pool:
            self.assertEqual([fault for found in pool.map(faults_of, range(SCRIPTS), chunksize=10) for fault in found], [])
