"""The table of a mission's pool words: what is refused of it, the header, the database, and the names that tools add."""
import binascii
import re
import shutil
import subprocess
import sys
import tomllib

from c_tools import build, needs_clang
from chance import chance, scaled
from support import ROOT, Case, needs, run

sys.path[:0] = [str(ROOT / "ground"), str(ROOT / "ground/bench")]
import client  # noqa: E402
import ground  # noqa: E402
import word_table  # noqa: E402
import xtce_reader  # noqa: E402

WORDS, MISSION = ROOT / "tools/words", ROOT / "examples/flight/words.toml"
HEAD = "pool = 2\napid = 292\nhousekeeping = 1\nfault = 9\nwords = [\n"
ROW = '{{index = {}, name = "{}", type = "{}", unit = "{}", writer = "x", text = "y"}},\n'
FIRST, SECOND = ROW.format(0, "depth", "i16", "m"), ROW.format(1, "is_open", "bool", "")
SOUND = f"{HEAD}{FIRST}{SECOND}]\n"
# Tables, each with the line and the name of its fault: line 6 is that of the first row.
FAULTY = {
    "a word without a row": (f"{HEAD}{FIRST}]\n", 1, "NoRow"),
    "two rows for one word": (f"{HEAD}{FIRST}{SECOND}{ROW.format(1, 'other', 'u8', '')}]\n", 8, "TwoRows"),
    "two words of one name": (f"{HEAD}{FIRST}{ROW.format(1, 'depth', 'u8', '')}]\n", 7, "TwoNames"),
    "an index over the pool": (f"{HEAD}{FIRST}{ROW.format(2, 'other', 'u8', '')}]\n", 7, "OverPool"),
    "an index below 0": (f"{HEAD}{ROW.format(-1, 'other', 'u8', '')}{SECOND}]\n", 6, "OverPool"),
    "a type over 64 bits": (f"{HEAD}{FIRST}{ROW.format(1, 'other', 'u128', '')}]\n", 7, "Type"),
    "a type of fractions": (f"{HEAD}{FIRST}{ROW.format(1, 'other', 'f32', '')}]\n", 7, "Type"),
    "a name that C does not take": (f"{HEAD}{ROW.format(0, '2nd', 'u8', '')}{SECOND}]\n", 6, "Name"),
    "a name of the header": (f"{HEAD}{ROW.format(0, 'words', 'u8', '')}{SECOND}]\n", 6, "Name"),
    "a text that ends a comment": (f"{HEAD}{ROW.format(0, 'depth', 'u8', '*/')}{SECOND}]\n", 6, "Form"),
    "a column is missing": (f'{HEAD}{{index = 0, name = "depth"}},\n{SECOND}]\n', 6, "Form"),
    "a column too many": (SOUND.replace('text = "y"},\n]', 'text = "y", more = 1},\n]'), 7, "Form"),
    "an index of another kind": (SOUND.replace("index = 1", "index = true"), 7, "Form"),
    "a row over two lines": (SOUND.replace(FIRST + SECOND, FIRST.strip() + SECOND), 5, "Form"),
    "no rows": (HEAD.replace("words = [\n", ""), 1, "Form"),
    "a key too many": (f"other = 1\n{SOUND}", 1, "Form"),
    "a key is missing": (SOUND.replace("fault = 9\n", ""), 1, "Form"),
    "a pool of 257 words": (SOUND.replace("pool = 2", "pool = 257"), 1, "Range"),
    "the identifier of idle packets": (SOUND.replace("292", "2047"), 2, "Range"),
    "no TOML": (SOUND.replace("fault = 9", "fault = "), 4, "Toml"),
    "a row that does not end": (SOUND[:-6], 7, "Toml"),
}
# By hand, from the tables of docs/PROFILE.md: the answer to the request `1923c00500062912080007d942`, as that page has it.
ANSWER = bytes.fromhex("0923c000001020010100000007000000001923c005b6970923c001000d2012090000000700000000005e81"
                       "0923c002001020010700000007000000001923c005c9bf")


def packet(apid, count, service, subtype, time, data):
    """A telemetry packet by the layout of docs/PROFILE.md; the standard library has the error control."""
    octets = (0x0800 | apid).to_bytes(2, "big") + (0xC000 | count).to_bytes(2, "big") + (11 + len(data) + 2 - 1).to_bytes(2, "big")
    octets += bytes([0x20, service, subtype, 0, 0, 0, 0]) + time.to_bytes(4, "big") + data
    return octets + binascii.crc_hqx(octets, 0xFFFF).to_bytes(2, "big")


# structure 1, no misfits: -300 m and 1; then one misfit; then the event report 9: procedure 7, BadPoolIndex, slot 12
HOUSEKEEPING = packet(292, 0, 3, 25, 5, bytes.fromhex("01 0000 fed4 01"))
MISFIT = packet(292, 1, 3, 25, 6, bytes.fromhex("01 0001 7fff 00"))
EVENT = packet(292, 2, 5, 3, 7, bytes.fromhex("09 0007 04 000c"))


class Words(Case):
    seconds = 4

    def file(self, text):
        path = self.room() / "words.toml"
        path.write_text(text)
        return path

    def test_what_is_refused(self):
        for name, (text, line, fault) in FAULTY.items():
            with self.subTest(name):
                path = self.file(text)
                done = run([WORDS, "header", path])
                self.assertEqual((done.returncode, done.stdout, done.stderr.count("\n")), (1, "", 1))
                self.assertTrue(done.stderr.startswith(f"words: {path}: line {line}: {fault}: "), done.stderr)
        for words in (["header", "/none"], ["names", "/"]):
            self.assertRegex(run([WORDS, *words]).stderr, r"^words: /[^\n]*: [A-Z][^\n]*\n\Z")

    def test_any_text_is_a_table_or_a_fault(self):
        path = self.file("")
        for number in range(scaled(400)):
            luck, text = chance("words", number), list(MISSION.read_text())
            for _ in range(luck.randint(1, 4)):
                at = luck.randrange(len(text))
                text[at:at + luck.randint(0, 3)] = luck.choice(["", '"', "{", "}", "\n", "0", "-1", "a", "\x00", "[[words]]\n", "\u00e9"])
            path.write_text("".join(text))
            try:
                table = word_table.read(path)
                self.assertEqual([word.index for word in table.words], list(range(len(table.words))))
            except word_table.Fault as fault:
                self.assertIn(fault.name, {name for _, _, name in FAULTY.values()}, number)

    def test_header(self):
        """Each row is a constant of C, and each type has its octets and its range: 2 octets of -32,768 to 32,767, 1 of 0 to 1."""
        rows = tomllib.loads(MISSION.read_text())["words"]
        text = '#include "pool.h"\n#include <stdint.h>\n'
        text += "".join(f'_Static_assert(POOL_{row["name"].upper()} == {row["index"]}, "");\n' for row in rows)
        text += f'_Static_assert(POOL_WORDS == {len(rows)} && FLIGHT_APID == 292, "");\n'
        sound = run([WORDS, "header", self.file(SOUND)]).stdout.replace("POOL_", "OWN_").replace("POOL_H", "OWN_H")
        sound = re.sub(r"enum \{\n    FLIGHT.*?\};", "", sound, flags=re.S)
        text += f"""{sound}
struct field {{ int octets; uint64_t least, most; }};
static const struct field fields[OWN_WORDS] = {{OWN_FIELDS}};
int main(void)
{{
    return fields[0].octets == 2 && (int64_t)fields[0].least == -32768 && fields[0].most == 32767 &&
           fields[1].octets == 1 && fields[1].least == 0 && fields[1].most == 1 ? 0 : 1;
}}
"""
        room = self.room()
        (room / "header.c").write_text(text)
        for compiler in filter(shutil.which, ("gcc", "clang")):
            flags = ["-std=c11", "-Wall", "-Wextra", "-Wconversion", "-pedantic", "-Werror", "-I", ROOT / "examples/flight"]
            done = run([compiler, *flags, room / "header.c", "-o", room / "header"])
            self.assertEqual((done.returncode, done.stderr), (0, ""))
            self.assertEqual(run([room / "header"]).returncode, 0)

    @needs_clang()
    def test_a_procedure_in_c(self):
        """The thermostat with the names of the table has the image that it has with its own."""
        text = (ROOT / "examples/c/thermostat.c").read_text()
        own = "enum { TEMPERATURE, HEATER };"
        self.assertIn(own, text)
        named = self.room() / "named.c"
        named.write_text(re.sub(r"\b(TEMPERATURE|HEATER)\b", r"POOL_\1", text.replace(own, '#include "pool.h"')))
        made = [build(path, "--", "-I", ROOT / "examples/flight").stdout for path in (named, ROOT / "examples/c/thermostat.c")]
        self.assertTrue(made[0])
        self.assertEqual(*made)


class Packets(Case):
    """Packets of flight software that were written by hand, as each reader shows them."""

    file = Words.file

    def test_database(self):
        path = self.room() / "mission.xml"
        path.write_text(run([ROOT / "ground/xtce", "--words", self.file(SOUND)]).stdout)
        database = xtce_reader.Database(path)
        own = {"structure", "misfits", "pool_depth", "pool_is_open", "event", "procedure", "fault", "slot"}
        for octets, name, values in (
                (HOUSEKEEPING, "pool_housekeeping", {"structure": 1, "misfits": 0, "pool_depth": -300, "pool_is_open": True}),
                (MISFIT, "pool_housekeeping", {"structure": 1, "misfits": 1, "pool_depth": 32767, "pool_is_open": False}),
                (EVENT, "fault_of_procedure", {"event": 9, "procedure": 7, "fault": "BadPoolIndex", "slot": 12}),
                (ANSWER[:23], "successful_acceptance", {})):
            found, read = database.decode(octets)
            self.assertEqual((found, {key: value for key, value in read.items() if key in own}), (name, values))
        for data in ("02 0000 fed4 01", "01 0000 fed4 02"):  # another structure, no boolean
            self.assertRaises(xtce_reader.Refused, database.decode, packet(292, 0, 3, 25, 5, bytes.fromhex(data)))
        for words, said in ((["--apid", "292", "--words", self.file(SOUND)], "one application process"),
                            (["--words", self.file(HEAD)], "Toml")):
            done = run([ROOT / "ground/xtce", *words])
            self.assertTrue(done.returncode and said in done.stderr and not done.stdout, done.stderr)

    def test_client(self):
        room = self.room()
        (room / "octets").write_bytes(ANSWER[:23] + HOUSEKEEPING + EVENT + b"junk" + ANSWER[23:])
        words = [ROOT / "ground/ground.py", "--pipe", f"sh -c 'cat {room}/octets; cat > {room}/sent'"]
        words += ["--count", 5, "--flags", 9, "--source", 7]
        done = run([*words, "--words", self.file(SOUND), "status"])
        self.assertEqual(done.stdout, "time 0 request 1923c005 accepted\n"
                         "time 5 housekeeping depth -300 [m], is_open 1\n"
                         "time 7 event report: procedure 7 faulted: 4 BadPoolIndex at slot 12\n"
                         "time 0 status nothing loaded\ntime 0 request 1923c005 completed\n", done.stderr)
        self.assertIn("1 report missing before count 2\n", done.stderr)
        self.assertIn("4 octets are no whole report and are passed over", done.stderr)
        self.assertEqual((room / "sent").read_bytes().hex(), "1923c00500062912080007d942")
        done = run([*words, "status"])  # without the table, these packets are no reports of the engine
        self.assertNotIn("housekeeping", done.stdout)
        self.assertEqual(run([*words, "--words", self.file(HEAD), "status"]).returncode, 2)

    def test_each_cut_of_a_stream_gives_the_same(self):
        table = word_table.read(self.file(SOUND))
        octets = EVENT + ANSWER + bytes(9) + HOUSEKEEPING[:11] + MISFIT
        whole = ground.Stream(291, table)
        wanted = list(map(str, whole.feed(octets) + whole.close()))
        self.assertEqual(len(wanted), 7)
        for size in (1, 2, 7, 30):
            cut = ground.Stream(291, table)
            found = [one for at in range(0, len(octets), size) for one in cut.feed(octets[at:at + size])]
            self.assertEqual(list(map(str, found + cut.close())), wanted)


class Names(Case):
    """Tools name a word where they print it."""

    lines = {"pool 0 fffffffffffffed4": "pool 0 fffffffffffffed4    ; depth -300 [m]",
             "pool 1 0000000000000002": "pool 1 0000000000000002    ; is_open 2, which is no bool",
             "put 0 5 set": "put 0 5 set    ; depth 5 [m]", "pool 2 0000000000000000": "pool 2 0000000000000000",
             "pool 9 BadPoolIndex": "pool 9 BadPoolIndex", "view 7 NotLoaded": "view 7 NotLoaded"}
    file = Words.file

    def test_transcript(self):
        done = run([WORDS, "names", self.file(SOUND)], "".join(f"{line}\n" for line in self.lines))
        self.assertEqual(done.stdout.splitlines(), list(self.lines.values()))

    def test_session(self):
        done = run([ROOT / "tools/live", self.room() / "session.ocp", "--words", self.file(SOUND)], "put 0 5\npool 0\npool 3\n")
        self.assertEqual(done.stdout, "put 0 5 set    ; depth 5 [m]\npool 0 0000000000000005    ; depth 5 [m]\npool 3 0000000000000000\n")
        done = run([ROOT / "tools/live", self.room() / "session.ocp", "--words", self.file(HEAD)], "pool 0\n")
        self.assertRegex(done.stderr, r"^live: \S+: line 6: Toml: [^\n]*\n\Z")

    def test_bench(self):
        child, address = client.serve(self.room(), "--words", self.file(SOUND))
        with child:
            status, said = client.ask(address, "names")
            child.stdin.close()
        self.assertEqual((status, '"words": ["depth [m]", "is_open"]' in said), (200, True))
        done = run([ROOT / "ground/bench/serve", "--words", self.file(HEAD)])
        self.assertEqual(done.returncode, 2)
        self.assertRegex(done.stderr, r"^ocp bench: \S+: line 6: Toml: [^\n]*\n\Z")

    @needs("node")
    def test_page(self):
        """The pool of the page, by a document of three lines."""
        text = (ROOT / "ground/bench/page/state.js").read_text()
        shown = re.search(r"at\(\"words\"\)\.replaceChildren\(\.\.\.(state\.pool\.map\(.*?\n    \}\))\)", text, re.S)
        script = f"""const it = {{words: ["depth [m]"]}}, make = (kind, text) => text;
const state = {{pool: ["05", "01"]}}, before = {{pool: ["04", "01"]}};
process.stdout.write(({shown[1]}).join(""));"""
        done = subprocess.run(["node", "-e", script], capture_output=True, text=True, timeout=60)
        self.assertEqual(done.stdout, "  0 05 depth [m] before 04\n  1 01\n")
