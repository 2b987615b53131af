"""What the built program says of each mistake of the table tests/mistakes on standard error.

A row is: command and profile | the line that ends the output | the input | words of the hint | the word at its mark. The status is 1;
on standard error are a sentence with these words, the line as it was read, and a mark under that word. The head of the table says
how inputs and marks are written."""
import re

from mistake_inputs import mistakes
from support import Case, ocp


def pattern_of(mark):
    """What the line from its mark on has to match: the word of the row, which ends there."""
    marks = {"its end": r"\Z", "a blank": " "}
    return marks.get(mark) or re.escape(mark) + ("(?![0-9A-Za-z])" if mark[-1].isalnum() else "")


class Hints(Case):
    seconds = 2

    def is_hint(self, said, given, words, mark):
        self.assertTrue(said and words in said[0], said)
        if mark == "no line":
            return self.assertEqual(len(said), 1, said)
        self.assertEqual(len(said), 3, said)
        self.assertEqual(said[2].strip(), "^", said)
        self.assertRegex(said[1][said[2].index("^"):], rf"\A{pattern_of(mark)}")
        self.assertIn(said[1][4:], "".join(chr(it) if 32 <= it < 127 else "?" for it in given))

    def test_mistakes(self):
        for row, command, profile, answer, given, words, mark in mistakes():
            with self.subTest(row):
                done = ocp([command, *([] if command == "list" else ["--profile", profile])], given)
                before = "journal 0\n" if given.startswith(b"journal\n") else ""
                self.assertEqual((done.returncode, done.stdout.decode()), (1, f"{before}{answer}\n"))
                self.is_hint(done.stderr.decode("ascii", "replace").splitlines(), given, words, mark)
