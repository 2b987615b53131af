"""The commands of the built program: what each writes, what it says on standard error, and its status.

A row of a table has the words, what is special, the input, the status, and the output. With status 1 standard error may have a
hint: test_hints.py compares those, and has most of the mistakes. With another status it is empty if a row says nothing else."""
import os
import re
import shutil
from itertools import product

from support import PROGRAM, ROOT, Case, needs, ocp, run

HELP = ROOT / "docs/help"
COMMANDS = ("asm", "check", "list", "run")
COMPILER = os.environ.get("CC", "cc")
MOST = 1_048_576  # octets of an input
LABELS = "".join(f"{''.join(letters)}:\n" for letters in product("a", "ab", *4 * ["abcdefghijklmnop"]))
EXIT = "9500000000000000"
IMAGE = "b70100000300000017010000010000005501feff000000009500000000000000\n"
TEXT = "start: mov64 r1, 3 ; count\nagain: sub64 r1, 0x1\n jne64 r1, 0, again\n exit\n"
LISTING = "mov64 r1, 3\nsub64 r1, 1\njne64 r1, 0, -2\nexit\n"
CALL_6 = "8500000006000000"

ASM = (
    ("asm", "a text", TEXT, 0, IMAGE),
    ("asm", "no instruction", "", 1, "error 0 Load 1\n"),
    ("asm", "2,048 slots", 2048 * "exit\n", 0, 2048 * EXIT + "\n"),
    ("asm", "the farthest label", "ja far\n" + 32767 * "exit\n" + "far: exit\n", 1, "error 0 Load 3\n"),
    ("asm", "the farthest label before", "b: exit\n" + 32766 * "exit\n" + "ja b\n", 1, "error 0 Load 3\n"),
    ("asm", "a label that is too far before", "b: exit\n" + 32767 * "exit\n" + "ja b\n", 1, "error 32769 Range\n"),
    ("asm", "a call of no number", "exit\ncall 6\nexit\n", 1, "error 2 Load 9\n"),
    ("asm --profile 2", "the sixth call", "exit\ncall 6\nexit\n", 0, EXIT + CALL_6 + EXIT + "\n"),
    ("asm", "1,048,576 octets", 65535 * ";23456789012345\n" + ";2345678901\nexit", 0, EXIT + "\n"),
    ("asm", "131,072 labels, soon", LABELS, 1, "error 0 Load 1\n"),
)
LIST = (
    ("list", "an image", IMAGE, 0, LISTING),
    ("list", "nothing", "", 0, ""),
    ("list", "spaces and newlines after the digits", f"{EXIT} \n \n", 0, "exit\n"),
    ("list", "an octet that is no digit", "950000000000000x\n", 1, "error 0 Hex\n"),
    ("list", "1,048,576 octets", MOST // 16 * EXIT, 0, MOST // 16 * "exit\n"),
)

# The instructions of a round are counted by hand, up to the step end or the exit.
NEVER = "faults 1 2 3   never\n"
NO_BOUND = "round   not bounded, since a fault may come\n"


def at_most(count):
    return f"round          at most {count} instructions from a start or a step end to the next step end or the exit\n"


def shown(count, words=0):
    """The verdict on an image without faults, of a number of instructions and with a least number of words in the pool."""
    return f"{NEVER}fault 4        never{f', with {words} words of pool or more' if words else ''}\n{at_most(count)}"


CHECK = (
    ("check", "an exit", EXIT + "\n", 0, shown(1)),
    ("check", "the third word of the pool", f"b7010000020000008500000001000000{EXIT} \n", 0, shown(3, words=3)),
    ("check --pool 2", "the third word of the pool", f"b7010000020000008500000001000000{EXIT} \n", 1,
     f"{NEVER}slot 1   call 1   may be BadPoolIndex: r1 is 0x2 to 0x2\n{at_most(3)}"),
    ("check", "the octet after the arguments", f"7113000100000000{EXIT}\n", 1,
     f"slot 0   ldxb r3, [r1+256]   may be AccessOutside: r1 is 0x20000000 to 0x20000000\n{NO_BOUND}"),
    ("check", "the last octet of the arguments", f"7113ff0000000000{EXIT}\n", 0, shown(2)),
    ("check", "a store to the arguments", f"7201000000000000{EXIT}\n", 1,
     f"slot 0   stb [r1+0], 0   may be WriteToArguments: r1 is 0x20000000 to 0x20000000\n{NO_BOUND}"),
    ("check", "a store to the octet after the arguments", f"18010000000100200000000000000000" f"7201000000000000{EXIT}\n", 1,
     f"slot 2   stb [r1+0], 0   may be AccessOutside: r1 is 0x20000100 to 0x20000100\n{NO_BOUND}"),
    ("check", "a local call", f"8510000001000000{EXIT}{EXIT}\n", 0, shown(3)),
    ("check", "a function that stores to its stack", f"8510000001000000{EXIT}7a0af8ff00000000b700000000000000{EXIT}\n", 0, shown(5)),
    ("check", "a loop without a step end", "0500ffff00000000\n", 1,
     f"{NEVER}fault 4        never\nround   not bounded: slots 0 repeat without a step end\n"),
    ("check", "a loop of ten slots without a step end", 9 * "b700000000000000" + "0500f6ff00000000\n", 1,
     f"{NEVER}fault 4        never\nround   not bounded: slots 0 1 2 3 4 5 6 7 8 9 repeat without a step end\n"),
    ("check", "a loop with a step end", "b70100000100000085000000050000000500fdff00000000\n", 0, shown(3)),
    ("check", "nothing", "", 1, "error 0 Load 1\n"),
    ("check", "an octet that is no digit", "950000000000000x\n", 1, "error 0 Hex\n"),
    ("check", "R1 after call 1", f"b701000001000000{2 * '8500000001000000'}{EXIT}\n", 0, shown(4, words=2)),
    ("check", "R1 after call 4", f"b70100000100000085000000040000008500000001000000{EXIT}\n", 1,
     f"{NEVER}slot 2   call 1   may be BadPoolIndex: r1 is any number\n{at_most(4)}"),
    ("check", "R0 after call 4", f"8500000004000000bf010000000000008500000001000000{EXIT}\n", 0, shown(4, words=2)),
    ("check --pool 256", "an octet that is loaded", f"71110000000000008500000001000000{EXIT}\n", 0, shown(3, words=256)),
    ("check --pool 256", "two octets that are loaded", f"69110000000000008500000001000000{EXIT}\n", 1,
     f"{NEVER}slot 1   call 1   may be BadPoolIndex: r1 is 0x0 to 0xffff\n{at_most(3)}"),
    ("check", "the sixth call", CALL_6 + EXIT + "\n", 1, "error 0 Load 9\n"),
    ("check --profile 2", "the sixth call", CALL_6 + EXIT + "\n", 1,
     f"{NEVER}slot 0   call 6   may be BadPoolIndex: r1 is 0x20000000 to 0x20000000\n{at_most(2)}"),
    ("check", "1,048,577 octets", MOST // 16 * EXIT + " ", 1, "error 0 TooLong\n"),
)
# What is known after an instruction: the index of a pool word, in a text without jumps, and how many words it needs. R1 is the
# address of the arguments, whose octets are any numbers.
BYTE, ANY = "ldxb r1, [r1+0]\n", "ldxdw r3, [r1+8]\n"
INDICES = (
    ("a remainder is no more than the dividend", ANY + BYTE + "mod64 r1, r3\n", 256),
    ("a remainder is below the divisor", "ldxdw r1, [r1+0]\nmod64 r1, 9\n", 9),
    ("a conjunction is no more than its first operand", ANY + BYTE + "and64 r1, r3\n", 256),
    ("an exclusive disjunction is no more than the sum", BYTE + "and64 r1, 15\nxor64 r1, 16\n", 32),
    ("an arithmetic shift of a number without a sign divides", BYTE + "arsh64 r1, 2\n", 64),
    ("a difference of 32 bits", "ldxb r3, [r1+0]\nmov64 r1, 255\nsub32 r1, r3\n", 256),
    ("a product of 32 bits", BYTE + "and64 r1, 15\nmul32 r1, 3\n", 46),
    ("a shift of 32 bits to the left", BYTE + "and64 r1, 15\nlsh32 r1, 3\n", 121),
    ("a shift by 33 of 32 bits is by 1", BYTE + "and64 r1, 15\nlsh32 r1, 33\n", 31),
    ("an exclusive disjunction of 32 bits", BYTE + "and64 r1, 15\nxor32 r1, 16\n", 32),
    ("an arithmetic shift of 32 bits", BYTE + "arsh32 r1, 2\n", 64),
    ("a negated number of 32 bits", "ldxdw r1, [r1+0]\nneg32 r1\nrsh64 r1, 24\n", 256),
    ("a signed remainder of 32 bits", "ldxdw r1, [r1+0]\nsmod32 r1, 7\nrsh64 r1, 24\n", 256),
    ("sixteen exchanged bits", "ldxdw r1, [r1+0]\nbe r1, 16\nrsh64 r1, 8\n", 256),
    ("thirty-two exchanged bits", "ldxdw r1, [r1+0]\nbe r1, 32\nrsh64 r1, 24\n", 256),
)
RUN = (
    ("", "no words", "journal\n", 0, "journal 0\n"),
    ("run", "one line", "journal\n", 0, "journal 0\n"),
    ("run", "a line of 40,001 octets", 40001 * " " + "\n", 1, "error 1 LineTooLong\n"),
    ("run --apid 5 --pool 2 --journal 9", "the application process is 5", "send 9 status\n", 0,
     "tm 1 1 seq 0 dest 0 data 1805c000\ntm 18 9 seq 1 dest 0 data 00\ntm 1 7 seq 2 dest 0 data 1805c000\n"),
    ("run --profile 2", "a budget of two", f"send 0 load 7 b7000000050000000700000002000000{EXIT}\nsend 0 activate 7 2\nstep 7 5\n", 0,
     "step 7 3 Faulted 5\n"),
    ("run --profile 1", "the sixth call", f"send 8 load 7 {CALL_6}{EXIT}\n", 0, "tm 1 4 seq 0 dest 0 data 1923c0000012090000\n"),
    ("run --profile 2", "the sixth call", f"send 8 load 7 {CALL_6}{EXIT}\n", 0, "tm 1 7 seq 0 dest 0 data 1923c000\n"),
    ("run", "the default journal takes the entries of 100,000 lines",
     f"send 0 load 1 {EXIT}\n" + 49999 * "send 0 activate 1\nsend 0 abort 1\n" + "send 0 activate 1\n", 0, ""),
    ("run", "2,049 slots", f"send 8 load 7 {2049 * EXIT}", 0, "tm 1 4 seq 0 dest 0 data 1923c0000012030000\n"),
    ("run --journal 1", "a journal of one entry", 2 * "send 0 status\n", 0, "tm 18 9 seq 0 dest 0 data 00\nrefused JournalFull\n"),
    ("--version", "the version", "", 0, "ocp 0.1.0\n"),
    ("-V", "the version", "", 0, "ocp 0.1.0\n"),
)
OF_RUN, OF_LIST, OF_OCP = (f"\n\nUsage: ocp {it}" for it in ("run [OPTIONS] < SCRIPT", "list < IMAGE", "[COMMAND] < FILE"))
REFUSED = (
    ("run --apid 2047", "invalid value '2047' for '--apid <apid>': 2047 is not in 0..=2046"),
    ("run --apid 0x123", "invalid value '0x123' for '--apid <apid>': invalid digit found in string"),
    ("run --pool -1", "unexpected argument '-1' found" + OF_RUN),
    ("run --pool 0", "invalid value '0' for '--pool <pool>': 0 is not in 1..=256"),
    ("run --journal 1000001", "invalid value '1000001' for '--journal <journal>': 1000001 is not in 1..=1000000"),
    ("run --profile 3", "invalid value '3' for '--profile <profile>': 3 is not in 1..=2"),
    ("asm --profile 0", "invalid value '0' for '--profile <profile>': 0 is not in 1..=2"),
    ("run --profile 2 --profile 2", "the argument '--profile <profile>' cannot be used multiple times" + OF_RUN),
    ("list --profile 2", "unexpected argument '--profile' found" + OF_LIST),
    ("run --quiet", "unexpected argument '--quiet' found" + OF_RUN),
    ("list --apid 3", "unexpected argument '--apid' found" + OF_LIST),
    ("bogus", "unrecognized subcommand 'bogus'" + OF_OCP),
    ("\udcff", "invalid UTF-8 was detected in one or more arguments" + OF_OCP),
    ("run --apid \udcff", "invalid UTF-8 was detected in one or more arguments" + OF_OCP),
    ("run file", "unexpected argument 'file' found" + OF_RUN),
)
SCRIPT, TRANSCRIPT = ((ROOT / "crates/ocp" / name).read_text() for name in ("stdin", "stdout"))
OCTET_BY_OCTET = (("asm", LISTING, IMAGE), ("list", IMAGE, LISTING),
                  ("run", f"journal\n# three steps\n{SCRIPT}journal", f"journal 0\n{TRANSCRIPT}journal 5\n"))
ALL_COMMANDS = """

For more information, try '--help'.

The commands are run, asm, list and check. run takes --apid 0 to 2046, --pool 1 to 256, --journal 1 to 1000000 and --profile 1 or 2, \
asm --profile 1 or 2, check --pool 1 to 256 and --profile 1 or 2; numbers are in decimal digits.
"""
# Words, redirections of bash, the input, the status, and what is left of output and standard error.
STREAMS = (
    *((word, "< /", "", 3, "", "fault Read\n") for word in COMMANDS),
    *((words, to, "journal\n", 3, "", "fault Write\n")
      for words in (*COMMANDS, "--help", "help", "run --help") for to in ("> /dev/full", ">&-")),
    ("run", "> /dev/full 2>&-", "journal\n", 3, "", ""),
    ("run", "< / 2>&-", "", 3, "", ""),
    *((word, "2>&-", "journal\n", 2, "", "") for word in ("walk", "run --apid 2047")),
    *(("run", to, "journal\nstep 7\n", 1, "journal 0\nerror 2 Syntax\n", "") for to in ("2>&-", "2> /dev/full")),
)


class Commands(Case):
    seconds = 12

    def ends(self, done, status, output, error=""):
        self.assertEqual(done.stdout, output)
        self.assertEqual((done.returncode, "" if status == 1 else done.stderr), (status, error))

    def test_tables(self):
        for words, name, given, status, output in (*ASM, *LIST, *CHECK, *RUN):
            with self.subTest(f"{words}: {name}"):
                self.ends(ocp(words.split(), given), status, output)

    def test_indices(self):
        for name, text, words in INDICES:
            with self.subTest(name):
                image = ocp(["asm"], f"{text}call 1\nexit\n").stdout
                self.ends(ocp(["check", "--pool", "256"], image), 0, shown(text.count("\n") + 2, words))

    def test_a_counter_in_steps_of_four(self):
        """It is 0, 4, .. 60 in the loop, which ends where it is 64: a pool of 64 words is enough, and there is a bound."""
        text = "mov64 r6, 0\nloop: mov64 r1, r6\ncall 1\nadd64 r6, 4\njne64 r6, 64, loop\nexit\n"
        done = ocp(["check", "--pool", "64"], ocp(["asm"], text).stdout)
        self.assertEqual(done.returncode, 0, done.stdout)

    def test_a_test_bounds_a_word_of_the_stack(self):
        """The register is stored, tested, and lost; the word is loaded."""
        text = "ldxdw r3, [r1+0]\nstxdw [r10-8], r3\njge64 r3, 10, +2\nldxdw r1, [r10-8]\ncall 1\nexit\n"
        self.ends(ocp(["check"], ocp(["asm"], text).stdout), 0, shown(6, 10))

    def test_a_search_of_too_few_passes(self):
        """70 loads from the stack, each before a jump back to the load before it: the search reaches slot 12 in the last of its
        64 passes, and no slot after it. R10 is known there, so the access is not the reason."""
        load = "79a0f8ff00000000"
        done = ocp(["check"], f"05008b0000000000{EXIT}{load}0500fdff00000000" + 69 * f"{load}0500fcff00000000")
        left = "".join(line for line in done.stdout.splitlines(True) if "r10 is any number" not in line)
        wanted = f"slot 12   ldxdw r0, [r10-8]   not shown: what is known there did not settle\n{NO_BOUND}"
        self.assertEqual((done.returncode, left), (1, wanted))

    def test_words_that_are_refused(self):
        for words, sentence in REFUSED:
            with self.subTest(words):
                self.ends(ocp(words.split()), 2, "", f"error: {sentence}{ALL_COMMANDS}")

    def test_help(self):
        of_commands = ((words, word) for word in COMMANDS for words in (f"{word} --help", f"help {word}"))
        for words, page in (("--help", "ocp"), ("-h", "ocp"), ("help", "ocp"), *of_commands):
            with self.subTest(words):
                self.ends(ocp(words.split()), 0, (HELP / page).read_text())

    def test_numbers_and_names_in_help_are_those_of_the_manuals(self):
        manuals = "".join((ROOT / page).read_text() for page in ("docs/MANUAL.md", "docs/AUTHOR.md"))
        for word in COMMANDS:
            for number, name in re.findall(r"\b(\d+) ([A-Z][a-z]+[A-Za-z]*)", (HELP / word).read_text()):
                with self.subTest(f"{number} {name}"):
                    self.assertRegex(manuals, rf"\| {number} \| {name}\b|\b{number} {name}\b")

    def test_streams_that_fail_or_are_closed(self):
        for words, to, given, status, output, error in STREAMS:
            with self.subTest(f"{words} {to}"):
                self.ends(run(["bash", "-c", f'exec "$0" "$@" {to}', PROGRAM, *words.split()], given), status, output, error)

    def test_no_memory_for_the_words(self):
        """The least address space in which the program starts at all has none for its words. With less the kernel ends it."""
        for kilobytes in range(1024, 65537, 4):
            done = run(["bash", "-c", f'ulimit -v {kilobytes} && exec "$0" run', PROGRAM], "journal\n")
            if 0 <= done.returncode < 126:
                break
        self.ends(done, 3, "", "fault Memory\n")

    def test_each_application_process(self):
        for apid in range(2047):
            wanted = f"tm 1 1 seq 0 dest 0 data {0x1800 | apid:04x}c000\ntm 18 9 seq 1 dest 0 data 00\n"
            done = ocp(["run", "--apid", apid], "send 1 status\n")
            self.assertEqual((done.returncode, done.stdout, done.stderr), (0, wanted, ""))

    @needs(COMPILER)
    def test_devices_that_fail_once(self):
        """Standard input and output give and take one octet at a call, and the n-th read or write fails; devices.c is between program and C
        library. They work again after that, so a program that tried again would continue. What was written is a prefix of the output,
        which is empty if a read failed and the command is not `run`."""
        library = self.room() / "devices.so"
        self.passes([shutil.which(COMPILER), "-O2", "-shared", "-fPIC", "-o", library, ROOT / "tests/devices.c"])
        for command, given, wanted in OCTET_BY_OCTET:
            calls = [("READ", number) for number in range(len(given) + 2)] + [("WRITE", number) for number in range(1, len(wanted) + 1)]
            for call, number in calls:
                with self.subTest(f"{command}: {call} {number}"):
                    done = ocp([command], given, env={**os.environ, "LD_PRELOAD": str(library), call: str(number)})
                    if number == 0:
                        self.ends(done, 0, wanted)
                    elif call == "WRITE":
                        self.ends(done, 3, wanted[:number - 1], "fault Write\n")
                    else:
                        self.ends(done, 3, done.stdout, "fault Read\n")
                        self.assertTrue((wanted if command == "run" else "").startswith(done.stdout), done.stdout)
