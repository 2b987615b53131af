"""The rows of the table tests/mistakes: their texts, and the inputs as octets."""
import re

from support import ROOT


def octets_of(text):
    """The octets of an input: \\xNN is an octet, \\uNNNN a character in UTF-8; `N * A + B` is N times A, and then B."""
    if re.search(r"\d \* ", text):
        pieces = [re.fullmatch(r"(?:(\d+) \* )?(.*)", it, re.DOTALL).groups() for it in text.split(" + ")]
        return b"".join(int(count or 1) * octets_of(it) for count, it in pieces)
    return text.encode("latin-1", "backslashreplace").decode("unicode_escape").replace("\ufeff", "\xef\xbb\xbf").encode("latin-1")


def mistakes():
    """Each row: its text, command, profile, the last line of the output, the input, and words and mark of the hint."""
    for row in (ROOT / "tests/mistakes").read_text(encoding="utf-8").splitlines():
        if row and not row.startswith("//"):
            job, answer, text, words, mark = row.split(" | ")
            yield row, *job.split(), answer, octets_of(text), words, mark
