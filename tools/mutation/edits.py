"""Mutants: files crates/NAME/must-fail/*.edit, which `rt ci` tries too, and crates/NAME/edits/*.edit."""
from functools import lru_cache
from pathlib import Path

from mutation.parts import method_at
from source import edit_of, source_of

KINDS = ("must-fail", "edits")
PARTS = ("src", "specs", "proofs")
# Many mutants change one file: it is parsed once, while it has the same text.
read_source = lru_cache(maxsize=None)(lambda path, changed: source_of(path))


class Mutant:
    """A mutant of a crate in a folder: its name, the file that it changes, its pairs of texts, and the function that has all of
    them. `fault` says why it can't be tried."""

    def __init__(self, path, crate):
        self.path, self.crate, self.name, self.paths = path, crate.name, path.stem, set()
        self.text = path.read_text(encoding="utf-8")
        self.file, self.pairs, self.source, self.fault = self.read(crate)
        self.place = self.file.relative_to(crate).as_posix() if self.source else ""
        self.function, self.owner = self.method = self.only_function()
        parts = Path(self.place).with_suffix("").parts[1:] if self.place.startswith("src/") else ()
        self.module = tuple(part for part in parts if part not in ("lib", "main"))

    def read(self, crate):
        """The file that it changes, its texts, the source, and what is wrong with them."""
        try:
            edit = edit_of(self.path)
        except ValueError:
            return self.path, (), None, "it is empty"
        inside = any(edit.file.resolve().is_relative_to((crate / part).resolve()) for part in PARTS)
        if not inside or not edit.file.is_file():
            return edit.file, edit.pairs, None, "there is no file that it names"
        source = read_source(edit.file, edit.file.stat().st_mtime_ns)
        lost = [old for old, _ in edit.pairs if not old or source.text.count(old) != 1]
        if lost:
            count = source.text.count(lost[0]) if lost[0] else 0
            return edit.file, edit.pairs, source, f"its text is {count} times in its file: {lost[0].strip()}"
        is_change = any(old != new for old, new in edit.pairs)
        return edit.file, edit.pairs, source, "" if is_change else "it changes nothing"

    def only_function(self):
        """The function that has all its texts, and the name of its type."""
        if self.fault or not self.place.startswith("src/"):
            return None, None
        found = {method_at(self.source, self.source.text.index(old)) for old, _ in self.pairs}
        return found.pop() if len(found) == 1 else (None, None)


def mutants_of(crate):
    """The mutants in the folder of a crate, by name."""
    found = [Mutant(path, crate) for kind in KINDS for path in sorted(crate.glob(f"{kind}/*.edit"))]
    return sorted(found, key=lambda mutant: mutant.name)
