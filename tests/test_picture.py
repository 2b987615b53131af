"""ground/picture over scripts with odd characters, and transcripts that are of no script: each gives an SVG that is XML, or one line
on standard error."""
import os
import subprocess
import xml.dom.minidom

from chance import SEED, chance, scaled
from support import ROOT, Case, ocp

ENDS = ("\x0b", "\x0c", "\x1c", "\x85", "\u2028", "\r")
# Characters that XML does not allow, and some that it does.
CHARACTERS = (b"\x01", b"\x1b[2J", b"\xff", b"\xef\xbf\xbe", b"\xed\xa0\x80", b"\x00", b"<&\"'>")
LOAD = b"send 9 load 7 9500000000000000\n"
LOADED = b"tm 1 1 seq 0 dest 0 data 1923c000\ntm 1 7 seq 1 dest 0 data 1923c000\n"
# r1 = 3, step_end, r0 = 9, exit
STEPPING = b"send 9 load 7 b7010000030000008500000005000000b7000000090000009500000000000000\nsend 9 activate 7\nsend 9 suspend 7 "
NO_PROCEDURE = b"names no procedure"
# script, transcript, and a part of the reason
REFUSED = {
    "a step of no procedure": (b"step x 5\n", b"step x 5 Ran\n", NO_PROCEDURE),
    "a view of no procedure": (b"view\n", b"view\n", NO_PROCEDURE),
    "another digit": ("view \u00b2\n".encode(), "view \u00b2\n".encode(), NO_PROCEDURE),
    "a request of no procedure": (b"send 9 load x 95\n", b"", NO_PROCEDURE),
    "another transcript": (b"pool 1\n", b"view 7\n", b"the transcript has"),
}


def printed(script):
    return ocp(["run"], script).stdout


class Picture(Case):
    seconds = scaled(5)
    line = rb"\Apicture: [^\n]+\n\Z"

    def setUp(self):
        self.folder = self.room()

    def drawn(self, script, transcript, *words, **how):
        """Status, picture and errors."""
        paths = [self.folder / "pass.ocp", self.folder / "pass.transcript"]
        for path, octets in zip(paths, (script, transcript)):
            path.write_bytes(octets)
        done = subprocess.run([ROOT / "ground/picture", *paths, *words], timeout=60, check=False, **{"capture_output": True, **how})
        return done.returncode, done.stdout, done.stderr

    def check(self, found):
        """It is a picture, or one line that refuses."""
        status, picture, said = found
        if status == 0:
            xml.dom.minidom.parseString(picture)
            self.assertEqual(said, b"")
        else:
            self.assertEqual((status, picture), (1, b""))
            self.assertRegex(said, self.line)

    def test_what_ends_a_line_elsewhere_ends_no_comment(self):
        plain = self.drawn(LOAD, LOADED)[1].count(b"<circle")
        for end in ENDS:
            with self.subTest(end=end):
                script = f"# a{end}send 9 status\n# b{end}drain\n".encode() + b"# \xff\x00\n" + LOAD
                found = self.drawn(script, printed(script))
                self.check(found)
                self.assertEqual((found[0], found[1].count(b"<circle")), (0, plain))

    def test_refused(self):
        for name, (script, transcript, reason) in REFUSED.items():
            with self.subTest(name):
                # The transcript of a request that names no procedure ends with its load.
                found = self.drawn(LOAD + script, LOADED + transcript) if transcript else self.drawn(script, LOADED)
                self.check(found)
                self.assertEqual(found[0], 1)
                self.assertIn(reason, found[2])

    def test_an_output_that_fails(self):
        with open("/dev/full", "wb") as full:
            for name, how in (("full", {"stdout": full}), ("closed", {"preexec_fn": lambda: os.close(1)})):
                with self.subTest(name):
                    status, _, said = self.drawn(LOAD, LOADED, capture_output=False, stderr=subprocess.PIPE, **how)
                    self.assertEqual(status, 1)
                    self.assertRegex(said, self.line)

    def test_a_round_is_drawn_as_steps(self):
        for step, count, is_held in ((b"3", b"9", True), (b"0", b"9", True), (b"4", b"2", False)):
            with self.subTest(step=step):
                both = [STEPPING + step + b"\n" + line + b"\ndrain\n" for line in (b"round 7 9", b"step 7 " + count)]
                found, wanted = (self.drawn(script, printed(script)) for script in both)
                self.check(found)
                self.assertEqual((found, b"<title>held<" in found[1]), (wanted, is_held))

    def test_a_word_that_is_put_has_its_mark(self):
        script = b"put 3 500\n" + LOAD
        found = self.drawn(script, printed(script))
        self.check(found)
        self.assertEqual(found[1].count(b"<title>put 3 500 set</title>"), 1)

    def test_characters(self):
        for octets in CHARACTERS:
            with self.subTest(octets):
                title = "a" + octets.replace(b"\x00", b"").decode(errors="surrogateescape")
                report = b"tm 1 2 seq 2 dest 0 data 1923c0010008" + octets + b"\n"
                self.check(self.drawn(LOAD + b"send 9 abort 7 " + octets + b"\n", LOADED + report, "--title", title))

    def changed(self, number, pairs):
        """A script and a transcript of the examples, with an octet changed, a line lost or one of another put in."""
        draw = chance("picture", number)
        both = [text.split(b"\n") for text in draw.choice(pairs)]
        for lines in both[draw.randrange(2):][:draw.randrange(1, 3)]:
            at = draw.randrange(len(lines))
            line = lines[at]
            cut = draw.randrange(len(line) + 1)
            other = draw.choice(draw.choice(pairs)[0].split(b"\n"))
            lines[at:at + 1] = draw.choice(([], [line[:cut] + bytes([draw.randrange(256)]) + line[cut + 1:]], [line, other], [line, line]))
        return map(b"\n".join, both)

    def test_examples_that_chance_changed(self):
        pairs = [(path.read_bytes(), path.with_suffix(".transcript").read_bytes()) for path in sorted(ROOT.glob("examples/*/*.ocp"))]
        for number in range(scaled(40)):
            with self.subTest(seed=SEED, number=number):
                self.check(self.drawn(*self.changed(number, pairs)))
