"""Pages: no link, name or number of a section leads nowhere, the front page keeps its form, and no page grows past its words."""
import re

from support import ROOT, Case

import source

CONTRIBUTORS = [f"docs/{name}.md" for name in ("RECIPES", "DECISIONS", "GATE")] + ["crates/ocp_tests/README.md"]
NAMING = ["README.md", "CONTRIBUTING.md", *(f"docs/{name}.md" for name in ("ASSURANCE", "PROOFS", "ARCHITECTURE", "SECURITY", "TRACE")),
          *CONTRIBUTORS]
LINKING = [ROOT / "README.md", ROOT / "CONTRIBUTING.md", *sorted(ROOT.glob("docs/*.md")), *sorted(ROOT.glob("examples/**/README.md")),
           *sorted(ROOT.glob("*/README.md")), ROOT / "ground/bench/README.md", *sorted(ROOT.glob("crates/*/README.md"))]
# The most words of a page: 42,000 at most in all.
WORDS = {"README.md": 900, "CONTRIBUTING.md": 1_400, "docs/ARCHITECTURE.md": 1_640, "docs/ASSURANCE.md": 2_450, "docs/AUTHOR.md": 4_750,
         "docs/BENCH.md": 1_100, "docs/C.md": 1_200, "docs/CARD.md": 950, "docs/CHANGES.md": 310, "docs/DECISIONS.md": 2_060,
         "docs/EMBED.md": 3_680, "docs/GATE.md": 600, "docs/GLOSSARY.md": 900, "docs/GROUND.md": 2_190, "docs/MANUAL.md": 7_100,
         "docs/PROFILE.md": 3_950, "docs/PROOFS.md": 4_300, "docs/RECIPES.md": 1_150, "docs/SECURITY.md": 480, "docs/SPEED.md": 1_000,
         "docs/TRACE.md": 710}
PARTS = ["Why this engine", "A procedure", "Try it", "What it does not do", "What is proved", "Read on"]
CLAIMS, ASSUMPTIONS = 6, 3
# The rows of docs/SPEED.md that the front page shows, in its order.
SPEEDS = ["an instruction of `short`", "of `alu`", "of `mem`"]
BLOCK = re.compile(r"^```.*?^```$", re.MULTILINE | re.DOTALL)
QUOTE = re.compile(r"^```\S+ from=(\S+)\n(.*?)^```$", re.MULTILINE | re.DOTALL)
LINK = re.compile(r"\]\(([^)\s]+)\)")
SECTION = re.compile(r"[Ss]ection (\d+)\b(?!\.\d)(?: of `(docs/\w+\.md)`)?")
NAME = re.compile(r"[A-Za-z_][A-Za-z0-9_]*(::[A-Za-z_][A-Za-z0-9_]*)*")
IN_A_CRATE = re.compile(r"`((?:src|specs|proofs|cases|must-fail|edits)/[\w/.-]*)`")
FROM_THE_TOP = re.compile(r"(crates|docs|embed|examples|ground|include|bench|tests|tools|\.ci)/(?!.*(?:[ *<$]|NAME))")
CALL = re.compile(r"`([\w:]+)`(?: of (\w+))?")
DEFINED = re.compile(r"`(\w+)::((?:[A-Z]\w*::)*[A-Z]\w*)::(\w+)`")
DEFINED_IN = re.compile(r"((?:`\w+`(?:, | and ))*`\w+`) in `crates/(\w+)/specs/([\w/]+)\.antt`")


def cells_of(line):
    return [cell.strip() for cell in re.split(r"(?<!\\)\|", line)[1:-1]] if line.startswith("|") else []


def headings_of(page):
    return re.findall(r"^#+ (.*)$", BLOCK.sub("", page.read_text()), re.MULTILINE) if page.suffix == ".md" else []


def anchor_of(heading):
    return re.sub(r"[^\w\- ]", "", heading.lower()).replace(" ", "-")


def is_quoted_from(path, quote):
    """Whether lines of a file are those of a quote, apart from an indentation that all of them share."""
    if not path.is_file():
        return False
    wanted, lines = quote.splitlines(), path.read_text().splitlines()
    for start in range(len(lines) - len(wanted) + 1):
        indent = lines[start].removesuffix(wanted[0])
        if not indent.strip(" ") and all(line == (indent + want if want else "") for line, want in zip(lines[start:], wanted)):
            return True
    return False


class Links(Case):
    """A link leads to a file and a heading that are there; a page of docs/ between backquotes is there. "section N" is of this page,
    or of the one named after it, if that has headings with numbers. A block with `from=FILE` has lines of that file."""

    def test_each_leads_somewhere(self):
        for page in LINKING:
            with self.subTest(page.relative_to(ROOT)):
                self.assertEqual([*self.links(page), *self.sections(page), *self.quotes(page)], [])

    def links(self, page):
        text = BLOCK.sub("", page.read_text())
        for link in LINK.findall(text):
            name, _, anchor = link.partition("#")
            leads_to = (page.parent / name).resolve() if name else page
            if "://" in link:
                continue
            if not leads_to.exists():
                yield f"no file: {link}"
            elif anchor and anchor not in map(anchor_of, headings_of(leads_to)):
                yield f"no heading: {link}"
        yield from (f"no page: {name}" for name in re.findall(r"`(docs/[\w/.]+\.\w+)`", text) if not (ROOT / name).exists())

    def sections(self, page):
        for number, name in SECTION.findall(BLOCK.sub("", page.read_text())):
            named = ROOT / name if name else page
            numbers = {heading.partition(".")[0] for heading in headings_of(named)
                       if re.match(r"\d+\. ", heading)} if named.exists() else set()
            if number not in numbers and (name or numbers):
                yield f"no section {number} {name}"

    def quotes(self, page):
        for name, quote in QUOTE.findall(page.read_text()):
            if not is_quoted_from(ROOT / name, quote):
                yield f"{name} has not the lines that are quoted: {quote.splitlines()[0]}"


class Names(Case):
    """A text between backquotes that reads as a name is in the sources; one that begins with a folder is a file: of the repository, or
    of a crate that the first cell of its row names, or else of some crate."""

    crates = {path.name for path in ROOT.glob("crates/*")}
    words: set[str] = set()

    @classmethod
    def setUpClass(cls):
        """Every word of the sources, the names of crates, files and clauses among them."""
        cls.words.update(cls.crates)
        for pattern in ("crates/*/src/**/*.rt", "crates/*/specs/**/*.antt", "crates/*/proofs/*.antt", "crates.txt", "HANDLES",
                        "include/*.h",
                        "embed/*.c", "examples/embed/*.[ch]"):
            for path in ROOT.glob(pattern):
                cls.words.update(re.findall(r"[A-Za-z_][A-Za-z0-9_]*", path.read_text()), {path.stem})

    def test_each_is_there(self):
        for page in NAMING:
            with self.subTest(page):
                text = re.sub(r"```.*?```", "", (ROOT / page).read_text(), flags=re.DOTALL)
                self.assertEqual([*self.names_lost(text), *self.files_lost(text)], [])

    def names_lost(self, text):
        for cited in re.findall(r"`([^`\n]+)`", text):
            if NAME.fullmatch(cited) and not set(cited.split("::")) <= self.words:
                yield f"{cited} is not in the sources"

    def test_each_group_of_tests_is_there(self):
        for page in LINKING:
            text = page.read_text()
            named = {name.partition(".")[0] for words in re.findall(r"\./ocp test((?: [a-z][\w.]*)+)[`\n ]", text)
                     for name in words.split()}
            with self.subTest(page.relative_to(ROOT)):
                self.assertEqual([name for name in named if not (ROOT / f"tests/test_{name}.py").is_file()], [])

    def files_lost(self, text):
        named = re.findall(r"\bcrates/[\w/]+\.(?:antt|rt)\b",
                           text) + [one for one in re.findall(r"`([^`\n]+)`", text) if FROM_THE_TOP.match(one)]
        yield from (f"there is no file {name}" for name in named if not (ROOT / name).exists())
        for line in text.splitlines():
            first = line.split("|")[1] if line.startswith("|") else ""
            crates = [word for word in re.findall(r"\w+", first) if word in self.crates] or sorted(self.crates)
            for name in IN_A_CRATE.findall(line):
                if not any((ROOT / "crates" / crate / name).exists() for crate in crates):
                    yield f"there is no file {name} in the crates of its row"

    def test_each_definition_is_in_its_file(self):
        """As `ocp_core::Budget::IsWithinBudget`, or as `IsWithinBudget` in `crates/ocp_core/specs/Budget.antt`."""
        for page in sorted([*ROOT.glob("*.md"), *ROOT.glob("docs/*.md")]):
            text = page.read_text()
            cited = [(crate, name.replace("::", "/"), it) for crate, name, it in DEFINED.findall(text) if crate in self.crates]
            cited += [(crate, name, it) for names, crate, name in DEFINED_IN.findall(text) for it in re.findall(r"\w+", names)]
            with self.subTest(page.relative_to(ROOT)):
                self.assertEqual([one for one in cited if one[2] not in self.definitions_in(*one[:2])], [])

    def definitions_in(self, crate, name):
        path = ROOT / f"crates/{crate}/specs/{name}.antt"
        return {one.name for one in source.DefinitionFile(path, path.read_text()).definitions} if path.is_file() else set()

    def test_the_page_of_lib_driver_has_each_call(self):
        driver = ROOT / "crates/lib_driver"
        cells = re.findall(r"^\| (`[^|]*`) \|", (driver / "README.md").read_text(), re.MULTILINE)
        listed = {name for cell in cells for name in re.findall(r"`([\w.]+)`", cell)}
        taken = {name for path in driver.glob("src/**/*.rt") for name in re.findall(r'"(\w+\.\w+)"', path.read_text())}
        self.assertEqual(listed, taken)


class Promises(Case):
    """In a row of docs/PROOFS.md a clause is one of a call of the row, and each call has one of the clauses that the row names. A row
    without clauses has no call whose clauses have names."""

    def test_clauses_are_those_of_their_calls(self):
        known = self.contracts()
        for line in (ROOT / "docs/PROOFS.md").read_text().splitlines():
            cells = cells_of(line)
            if len(cells) == 4:
                with self.subTest(cells[0]):
                    calls = [f"{name} of {crate}" if crate else name for name, crate in CALL.findall(cells[1])]
                    self.assertEqual(list(self.faults([call for call in calls if call in known], re.findall(r"`(\w+)`", cells[2]), known)),
                                     [])

    def contracts(self):
        """The names of the clauses of each function, by its name, by `Type::name` and by `name of crate`; several if names are shared."""
        found = {}
        for one in source.sources():
            for function in one.functions:
                names = [function.name, f"{function.name} of {one.crate}",
                         *([f"{function.owner}::{function.name}"] if function.owner else [])]
                for name in names:
                    found.setdefault(name, []).append([clause.name for clause in function.clauses])
        return found

    def faults(self, calls, clauses, known):
        if not clauses:
            yield from (f"it names no clause of {call}" for call in calls if all(map(any, known[call])))
            return
        for clause in clauses if calls else []:
            if not any(clause in names for call in calls for names in known[call]):
                yield f"no call has a clause {clause}"
        for call in calls:
            if not any(clause in names for clause in clauses for names in known[call]):
                yield f"{call} has none of the clauses"


class Front(Case):
    """README.md has a fixed order of parts. Each claim and each assumption has a link, and the speeds are those of docs/SPEED.md."""

    def setUp(self):
        self.parts = dict(re.findall(r"^## ([^\n]*)\n(.*?)(?=^## |\Z)", (ROOT / "README.md").read_text(), re.M | re.S))

    def test_parts(self):
        self.assertEqual(list(self.parts), PARTS)

    def test_each_claim_and_each_assumption_has_a_link(self):
        claims, _, assumptions = self.parts["What is proved"].partition("Assumed:")
        for wanted, lines in ((CLAIMS, re.findall(r"^\d+\. .*", claims, re.M)), (ASSUMPTIONS, re.findall(r"^- .*", assumptions, re.M))):
            self.assertEqual([len(lines), *("](docs/" in line for line in lines)], [wanted, *[True] * wanted])

    def test_speeds(self):
        measured = {cells[0]: [cell.removesuffix(" ns") for cell in cells[1:]]
                    for cells in map(cells_of, (ROOT / "docs/SPEED.md").read_text().splitlines()) if cells}
        shown = [cells[1:] for cells in map(cells_of, self.parts["Why this engine"].splitlines()) if cells and re.match(r"\d", cells[1])]
        self.assertEqual(shown, [measured.get(name) for name in SPEEDS])

    def test_no_page_is_too_long(self):
        pages = ["README.md", "CONTRIBUTING.md",
                 *(f"docs/{page.name}" for page in sorted((ROOT / "docs").glob("[A-Z]*.md")) if page.name != "README.md")]
        for name in pages:
            with self.subTest(name):
                self.assertLessEqual(len((ROOT / name).read_text().split()), WORDS.get(name, 0))
