"""The checksum of all that the check of a mutant reads. It changes whenever the verdict can, and seldom else.

A proof takes every other function by its contract: the toolchain keeps a function's code and its proof from all others, in its
crate and above it (`rattle help check`: "private to the function"). It reads what its text names, and what that names. So the sum
is of
- the toolchain's version, and the lines of crates.txt of the crate and of those below it;
- the mutant's own text, the function that it changes with its body, what that imports, and the files of its proof;
- the items of these crates that these reach by their words (tools/mutation/items.py): signatures with clauses, types, constants,
  traits, definitions of specs/ and lemmas of proofs/, all without bodies and comments (tools/mutation/parts.py). A name reaches
  every item of that name, in each of these crates; a method or a trait's `impl` counts with its type. Their words reach more.
- what has no name, as macros.
Where a mutant changes no single function, as in a table or a definition, all sources and proofs of its crate count.

It is made of sources alone: it is the same in each clone and on each machine with the same toolchain.
"""
import re
from collections import Counter, defaultdict
from pathlib import Path

from mutation.edits import PARTS
from mutation.items import antt_items, calls_of, digest, imports_of, rattle_items, words_of
from mutation.parts import function_text, interface, without
from source import crates, sources

# Changes whenever what a sum is of changes.
FORM = "3"
# What a function's own proof is written in, in proofs/PATH/.
OF_FUNCTIONS = ("Answers.antt", "Invariants.antt", "Proof.antt")


def antt(file):
    """A definition or proof file without comments and blank lines."""
    lines = file.read_text(encoding="utf-8").split("\n")
    return "\n".join(line for line in lines if line.strip() and not line.lstrip().startswith("--"))


def places_of(crate, path):
    """What names a file in antt, in each path that leads to it from another file."""
    return {crate, Path(path).stem} - {"Lib"}


class Crate:
    """What others read of a crate, and the files of its proofs."""

    def __init__(self, top, name):
        self.folder, self.name = top / "crates" / name, name
        self.sources = list(sources(name, top))
        self.specs, self.proofs = self.files("specs"), self.files("proofs")
        self.types = {item.name for one in self.sources for item in one.items if item.kind in ("struct", "enum", "type")}
        self.stated = {}

    def files(self, part):
        """The texts of the files of a part in antt, by their paths."""
        files = sorted((self.folder / part).rglob("*.antt"))
        return {file.relative_to(self.folder).as_posix(): antt(file) for file in files}

    def items(self, is_below, types):
        """What the crate states, for itself or for crates above, with the sum of each."""
        if is_below not in self.stated:
            lemmas = {path: text for path, text in self.proofs.items() if Path(path).name not in OF_FUNCTIONS}
            found = [(path, item) for path, text in (self.specs | lemmas).items() for item in antt_items(text, *places_of(self.name, path))]
            for one in self.sources:
                path = one.path.relative_to(self.folder).as_posix()
                found += [(path, item) for item in rattle_items(one, interface(one, is_below), types)]
            self.stated[is_below] = [(item, digest(self.name, path, item.text)) for path, item in found]
        return self.stated[is_below]

    def whole(self):
        """All sources and proofs."""
        found = {one.path.relative_to(self.folder).as_posix(): without(one.text, []) for one in self.sources}
        return found | self.proofs

    def proof_of(self, mutant):
        """The files of the proof of the function that a mutant changes. One of a type may be in another file than the type."""
        folders = {name: Path(name).parts[1:-1] for name in self.proofs}
        return [name for name, at in folders.items() if any(is_proof(at[:count], mutant) for count in range(1, len(at) + 1))]


def is_proof(parts, mutant):
    """Whether a folder in proofs/ is of the function that a mutant changes."""
    if mutant.owner:
        return parts[-1] == mutant.function and len(parts) > 1 and re.fullmatch(mutant.owner, parts[-2]) is not None
    return parts == (*mutant.module, mutant.function)


class Reach:
    """The items of a crate and of those below it, with their sums, by the words that lead to them."""

    def __init__(self, items):
        self.named, self.reached = defaultdict(list), {}
        uses = Counter(word for item, _ in items for name in item.names for word in name)
        self.always, self.first, self.known = set(), set(), frozenset(uses)
        for item, total in items:
            words = item.words & self.known
            for name in item.names:
                self.named[min(name, key=uses.get)].append((total, name, words))
            if not item.names:
                self.always.add(total)
                self.first |= words

    def of(self, words):
        """The sums of the items that words reach, for mutants with the same words once."""
        words = words & self.known
        if words not in self.reached:
            self.reached[words] = self.reach(words)
        return self.reached[words]

    def reach(self, words):
        """A name that lacks a word waits for it."""
        found, seen, left, waiting = set(self.always), set(), set(words | self.first), defaultdict(list)
        while left:
            word = left.pop()
            seen.add(word)
            for total, name, more in [*self.named.get(word, ()), *waiting.pop(word, ())]:
                if not name <= seen:
                    waiting[next(iter(name - seen))].append((total, name, more))
                elif total not in found:
                    found.add(total)
                    left |= more - seen
        return sorted(found)


class Sums:
    """The sums of the mutants of a repository."""

    def __init__(self, top, version):
        self.top, self.version, self.crates, self.reaches = top, version, {}, {}
        self.listed = {crate.name: crate for crate in crates(top)}

    def crate(self, name):
        if name not in self.crates:
            self.crates[name] = Crate(self.top, name)
        return self.crates[name]

    def line(self, name):
        """A crate's line of crates.txt."""
        listed = self.listed.get(name)
        return " ".join([name, *listed.marks, *sorted(listed.uses)]) if listed else name

    def below(self, name):
        """A crate with all that it uses, in the order of their names."""
        found, left = set(), [name]
        while left:
            at = left.pop()
            if at not in found:
                found.add(at)
                left += [use for use in self.listed[at].uses if use in self.listed] if at in self.listed else []
        return sorted(found)

    def touched(self, name):
        """What tells whether a file of a crate, or of one below it, was written since."""
        files = [file for it in self.below(name) for part in PARTS for file in (self.top / "crates" / it / part).rglob("*")]
        found = ((str(file), file.lstat()) for file in files)
        return sorted((file, stat.st_ino, stat.st_size, stat.st_mtime_ns) for file, stat in found)

    def reach(self, name):
        if name not in self.reaches:
            below = self.below(name)
            types = set().union(*(self.crate(it).types for it in below))
            self.reaches[name] = Reach([pair for it in below for pair in self.crate(it).items(it != name, types)])
        return self.reaches[name]

    def of(self, mutant):
        """The sum of a mutant that can be tried."""
        own = self.own(self.crate(mutant.crate), mutant)
        words = words_of(mutant.text, mutant.owner or "", *own)
        items = self.reach(mutant.crate).of(words | calls_of(words) | {mutant.crate})
        lines = [self.line(it) for it in self.below(mutant.crate)]
        return digest(FORM, self.version, *lines, mutant.name, mutant.text, *own, "".join(items))

    def own(self, crate, mutant):
        """The texts of its crate that the verdict on one mutant rests on, beside what others read."""
        if not mutant.function:
            return [word for pair in crate.whole().items() for word in pair]
        text = function_text(mutant.source, mutant.source.function_at(mutant.source.text.index(mutant.pairs[0][0])))
        proof = [word for name in crate.proof_of(mutant) for word in (name, crate.proofs[name])]
        return [*proof, text, *imports_of(mutant.source).of(text, words_of(text))]
