"""The one reader of what the repository is made of: Rattle files, definition files, mutants and `crates.txt`.

    crates()                  the crates of crates.txt, in its order
    sources(crate)            the Rattle files of a crate, or of all
    source.functions          each function: owner, contract, body, where they are
    source.items              what a file declares at its top, with its visibility
    source.function_at(5000)  the function that a place of the text is in
    definition_files(crate)   the files of specs/, each with its definitions and their comments
    edits(crate)              the mutants of a crate

It reads what `rt fmt` leaves and does not check it. A place is an index into the text of a file. `code` is that text, as
long as it is, with blanks for all that is in comments, strings and characters: a brace or a word of it is one of the language."""
from __future__ import annotations

import re
from dataclasses import dataclass, field
from functools import cached_property
from pathlib import Path
from typing import Iterator, Optional

ROOT = Path(__file__).resolve().parent.parent
HIDDEN = re.compile(r"""//[^\n]*|/\*.*?\*/|"(?:\\.|[^"\\])*"|'(?:\\[^\n]{1,8}?|[^'\\\n])'""", re.DOTALL)
FUNCTION = re.compile(r'^([ ]*)(pub(?:\([\w ]+\))? )?((?:const |unsafe |ghost |extern +)*)fn (\w+)', re.MULTILINE)
BLOCK = re.compile(r"^(pub(?:\([\w ]+\))? )?(impl|trait)\b([^{};]*)\{", re.MULTILINE)
ITEM = re.compile(r"^(pub(?:\([\w ]+\))? )?((?:const |unsafe |extern +)*)(fn|const|static|struct|enum|trait|type|mod) (\w+)", re.MULTILINE)
PUBLIC_USE = re.compile(r"^pub use ([^;]+);", re.MULTILINE)
GHOST_USE = re.compile(r"^[ ]*ghost use [^{;]*?(?:\{([^}]*)\}|as (\w+));", re.MULTILINE)
CLAUSE = re.compile(r"\b(requires|ensures)\*?(?: (\w+))? \{")
INVARIANT = re.compile(r"\bghost invariant\*? = \{")
CALL = re.compile(r"(?<!\bfn )\b(?:(\w+)::)?(\w+)\s*(?:::<[^<>()]*>)?\(")
BRACE = re.compile(r"[{}]")
DEFINITION = re.compile(r"^( *)((?:(?:abbrev|unfoldable|pub|data|record) +)+)([A-Za-z_]\w*|[^\w\s]\S*)")


@dataclass(frozen=True)
class Crate:
    """A line of crates.txt: the crate, what follows its name, the libraries that it uses, and the group that a comment names."""

    name: str
    marks: tuple[str, ...]
    uses: tuple[str, ...]
    group: str
    line: str

    @property
    def folder(self) -> Path:
        return ROOT / "crates" / self.name


@dataclass(frozen=True)
class Clause:
    """A clause of a contract, or one of a closure: its braces are at `start` and before `end`."""

    kind: str
    name: Optional[str]
    text: str
    start: int
    end: int


@dataclass(frozen=True)
class Item:
    """What a file declares at its top: `kind` is fn, const, static, struct, enum, trait, type or mod."""

    kind: str
    name: str
    visibility: str
    is_export: bool
    start: int


@dataclass(frozen=True)
class Block:
    """An `impl`, of a trait or not, or a `trait`, by the last names of their paths."""

    kind: str
    owner: str
    trait: Optional[str]
    is_public: bool
    start: int
    end: int


@dataclass(frozen=True)
class Function:
    """A function, or a call that a trait declares. `body` is the place of its opening brace, None if it has no body."""

    source: Source = field(repr=False)
    name: str
    visibility: str
    words: tuple[str, ...]
    block: Optional[Block]
    signature: str
    clauses: tuple[Clause, ...]
    start: int
    body: Optional[int]
    end: int

    @property
    def owner(self) -> Optional[str]:
        return self.block.owner if self.block else None

    @property
    def path(self) -> Path:
        return self.source.path

    @property
    def is_public(self) -> bool:
        return self.visibility == "pub"

    @property
    def is_export(self) -> bool:
        """Whether programs in C call it."""
        return "extern" in self.words

    @property
    def is_law(self) -> bool:
        """Whether it is a contract alone, which nothing runs."""
        return self.source.is_of_laws or bool(self.clauses) and self.signature == "()"

    @cached_property
    def called(self) -> set[tuple[str, str]]:
        """What its body calls: the type or module before each name, if there is one, and the name."""
        return set(CALL.findall(self.source.code_without_clauses[self.body : self.end])) if self.body is not None else set()


@dataclass
class Source:
    """A Rattle file."""

    path: Path
    text: str

    @property
    def crate(self) -> str:
        parts = self.path.parts
        return parts[parts.index("src") - 1] if "src" in parts else ""

    @property
    def is_of_laws(self) -> bool:
        return self.path.name == "laws.rt" or "laws" in self.path.parts

    @cached_property
    def code(self) -> str:
        return HIDDEN.sub(lambda found: re.sub(r"[^\n]", " ", found[0]), self.text)

    @cached_property
    def clauses(self) -> tuple[Clause, ...]:
        """All clauses, with the invariants of types."""
        found = [self._clause(one, one[1], one[2]) for one in CLAUSE.finditer(self.code)]
        found += [self._clause(one, "invariant", None) for one in INVARIANT.finditer(self.code)]
        return tuple(sorted(found, key=lambda clause: clause.start))

    def _clause(self, match: re.Match[str], kind: str, name: Optional[str]) -> Clause:
        start, end = match.end() - 1, end_of(self.code, match.end() - 1)
        return Clause(kind, name, self.text[start + 1 : end - 1].strip(), start, end)

    @cached_property
    def code_without_clauses(self) -> str:
        """The code with blanks in place of what requires and ensures have in their braces."""
        pieces, last = [], 0
        for clause in self.clauses:
            if clause.start >= last and clause.kind != "invariant":
                pieces += [self.code[last : clause.start], " " * (clause.end - clause.start)]
                last = clause.end
        return "".join(pieces) + self.code[last:]

    @cached_property
    def blocks(self) -> tuple[Block, ...]:
        return tuple(self._block(match) for match in BLOCK.finditer(self.code))

    def _block(self, match: re.Match[str]) -> Block:
        head = without_arguments(match[3].partition(" where ")[0])
        trait, word, owner = head.partition(" for ")
        if not word or match[2] == "trait":
            owner, trait = head.partition(":")[0], ""
        return Block(match[2], last_name(owner), last_name(trait) or None, match[1] == "pub ", match.start(),
                     end_of(self.code, match.end() - 1))

    @cached_property
    def functions(self) -> tuple[Function, ...]:
        return tuple(self._function(match) for match in FUNCTION.finditer(self.code))

    def _function(self, match: re.Match[str]) -> Function:
        place, clauses = next_of(self.code, match.end(), "{;"), []
        while place in self._clause_at:
            clauses.append(self._clause_at[place])
            place = next_of(self.code, clauses[-1].end, "{;")
        first = self.code.rindex(clauses[0].kind, 0, clauses[0].start) if clauses else place
        has_body = self.code.startswith("{", place)
        block = next((one for one in self.blocks if one.start <= match.start() < one.end), None)
        return Function(self, match[4], (match[2] or "").strip(), tuple(match[3].split()), block,
                        " ".join(self.text[match.end() : first].split()), tuple(clauses), match.start(),
                        place if has_body else None, end_of(self.code, place) if has_body else place + 1)

    @cached_property
    def _clause_at(self) -> dict[int, Clause]:
        return {clause.start: clause for clause in self.clauses if clause.kind != "invariant"}

    def function_at(self, place: int) -> Optional[Function]:
        """The innermost function that a place of the text is in, its contract too."""
        found = [function for function in self.functions if function.start <= place < function.end]
        return found[-1] if found else None

    @cached_property
    def items(self) -> tuple[Item, ...]:
        return tuple(Item(match[3], match[4], (match[1] or "").strip(), "extern" in match[2], match.start())
                     for match in ITEM.finditer(self.code))

    @cached_property
    def exports(self) -> set[str]:
        """The names that `pub use` gives to other crates."""
        return {name for use in PUBLIC_USE.findall(self.code) for name in re.findall(r"\w+", use)}

    @cached_property
    def aliases(self) -> dict[str, str]:
        """The public names of types, each with the type that it is another name of."""
        return dict(re.findall(r"^pub type (\w+)(?:<.*?>)? = (\w+)\b", self.code, re.MULTILINE))

    @cached_property
    def ghost_uses(self) -> tuple[str, ...]:
        """The names that each `ghost use` brings in."""
        found = [name for names, module in GHOST_USE.findall(self.text) for name in (names.split(",") if names else [module])]
        return tuple(name.split(" as ")[-1].strip() for name in found if name.strip())

    def line_of(self, place: int) -> int:
        return self.text.count("\n", 0, place) + 1

    def comment_of(self, place: int) -> str:
        """The doc comment above the declaration at a place."""
        lines = self.text[:place].splitlines()
        while lines and re.match(r"\s*#\[", lines[-1]):
            lines.pop()
        found: list[str] = []
        while lines and lines[-1].lstrip().startswith("///"):
            found.insert(0, lines.pop().strip()[3:].strip())
        return " ".join(found)


@dataclass(frozen=True)
class Definition:
    """A definition of a file of specs/, or a field of a record; `comment` is what is said right above it."""

    name: str
    kind: str
    is_public: bool
    is_field: bool
    comment: str


@dataclass
class DefinitionFile:
    """A file of specs/: the comment at its head, and its definitions in order."""

    path: Path
    text: str

    @cached_property
    def head(self) -> str:
        lines = self.text.splitlines()
        count = next((at for at, line in enumerate(lines) if not line.startswith("--")), len(lines))
        return " ".join(line[2:].strip() for line in lines[:count])

    @cached_property
    def definitions(self) -> tuple[Definition, ...]:
        comment, found, is_head = [], [], True
        for line in self.text.splitlines():
            if line.startswith("--"):
                comment.append(line[2:].strip())
                continue
            if named := DEFINITION.match(line):
                words = named[2].split()
                kind = next((word for word in words if word != "pub"), "")
                found.append(Definition(named[3], kind, "pub" in words, bool(named[1]), "" if is_head else " ".join(comment)))
            comment, is_head = [], False
        return tuple(found)


@dataclass(frozen=True)
class Edit:
    """A mutant: the file that it changes, and each text with what takes its place."""

    path: Path
    file: Path
    pairs: tuple[tuple[str, str], ...]

    @property
    def name(self) -> str:
        """Its crate, folder and name, as space_packet/must-fail/length-off-by-one."""
        return "/".join([*self.path.parts[-3:-1], self.path.stem])

    def places(self, text: str) -> list[int]:
        """Where its texts are in the file; none if one of them is not there, or more than once."""
        return [text.index(old) for old, _ in self.pairs] if all(text.count(old) == 1 for old, _ in self.pairs) else []


def next_of(code: str, place: int, ends: str) -> int:
    """The next of these characters that no parenthesis or bracket encloses."""
    depth = 0
    while place < len(code):
        if depth == 0 and code[place] in ends:
            return place
        depth += (code[place] in "([") - (code[place] in ")]")
        place += 1
    return place


def end_of(code: str, place: int) -> int:
    """The place after the brace that closes the one at a place."""
    depth = 0
    for match in BRACE.finditer(code, place):
        depth += 1 if match[0] == "{" else -1
        if depth == 0:
            return match.end()
    return len(code)


def without_arguments(head: str) -> str:
    """The head of a block without what is between < and >."""
    before = None
    while head != before:
        head, before = re.sub(r"<[^<>]*>", "", head.replace("->", "")), head
    return head


def last_name(path: str) -> str:
    return next(iter(re.findall(r"\w+", path)[::-1]), "")


def crates(root: Path = ROOT) -> list[Crate]:
    """The crates of crates.txt, in its order."""
    found, group = [], "base"
    for line in (root / "crates.txt").read_text(encoding="utf-8").splitlines():
        text, _, comment = line.partition("#")
        head, colon, uses = text.partition(":")
        if colon:
            name, *marks = head.split()
            found.append(Crate(name, tuple(marks), tuple(uses.split()), group, line))
        elif comment:
            group = comment.strip()
    return found


def source_of(path: Path) -> Source:
    return Source(path, path.read_text(encoding="utf-8"))


def sources(crate: str = "*", root: Path = ROOT) -> Iterator[Source]:
    """The Rattle files of a crate, or of all."""
    return map(source_of, sorted(root.glob(f"crates/{crate}/src/**/*.rt")))


def definition_files(crate: str = "*", root: Path = ROOT) -> Iterator[DefinitionFile]:
    """The files of specs/ of a crate, or of all."""
    for path in sorted(root.glob(f"crates/{crate}/specs/**/*.antt")):
        yield DefinitionFile(path, path.read_text(encoding="utf-8"))


def edit_of(path: Path) -> Edit:
    head, *lines = [line for line in path.read_text(encoding="utf-8").split("\n") if line]
    texts = [line[len("old: ") :] for line in lines]
    return Edit(path, path.parent.parent / head.removeprefix("file: "), tuple(zip(texts[::2], texts[1::2])))


def edits(crate: str = "*", root: Path = ROOT) -> Iterator[Edit]:
    """The mutants of a crate, or of all: those that the gate tries, and the others."""
    for kind in ("must-fail", "edits"):
        yield from map(edit_of, sorted(root.glob(f"crates/{crate}/{kind}/*.edit")))
