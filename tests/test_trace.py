"""`tools/trace`: no part of the profile, promise or case is without a requirement, and no requirement without a promise and a test."""
import re

from support import ROOT, Case, module_of, run

TRACE = module_of(ROOT / "tools/trace")
PROFILE, ASSURANCE, PAGE = (ROOT / f"docs/{name}.md" for name in ("PROFILE", "ASSURANCE", "TRACE"))
# The page that has such a part if the profile has none; and what is in the sentence before a table, or in its first line.
OTHER_PAGES = {"The journal": "docs/EMBED.md", "The program": "docs/MANUAL.md", "The console": "docs/MANUAL.md"}
# What no engine makes yet, so that no case can show it: the crate that reads and writes it has laws and mutants.
NOT_YET = {"Checkpoints"}
OTHER_TABLES = {"The console: options": "Option of", "The console: refusals of the debugger": "Refusals of the debugger",
                "The console: lines": "Line | Output"}


def tables_of(page):
    """The part of each table, and the words before it and in its first line; and all parts."""
    part, before, is_inside, found, parts = "", "", False, [], []
    for line in page.splitlines():
        if heading := re.match(r"#+ (.*)", line):
            part = heading[1]
            parts.append(part)
        if line.startswith("|") and not is_inside:
            found.append((part, f"{before} {line}"))
        is_inside = line.startswith("|")
        before = line or before
    return found, parts


def section_of(part, page):
    """The text under a heading that begins with the name of a part, or None."""
    found = re.search(rf"^## (?:\d+\. )?{part}\b.*?\n(.*?)(?=^## |\Z)", page.read_text(), re.MULTILINE | re.DOTALL)
    return found[1] if found else None


def has_test(name):
    """Whether there is this file of tests or script, or whether a crate has this file of tests or this folder of cases."""
    crate, _, rest = name.partition("/")
    folder = ROOT / "crates" / crate
    return any(path.is_file() for path in (folder / f"src/{rest}.rt", ROOT / name)) or any((folder / "cases" / rest).glob("*.stdout"))


class Profile(Case):
    def setUp(self):
        tables, parts = tables_of(PROFILE.read_text())
        self.tables = [table for table in tables if table[0] not in {*OTHER_PAGES, *NOT_YET}]
        self.parts = [part for part in parts if part not in {*OTHER_PAGES, *NOT_YET}]

    def test_each_table_and_each_part_has_a_row(self):
        taken = []
        for part, words in self.tables:
            taken += [row for row in TRACE.ROWS if row.startswith(f"{part}: ") and row.split(": ", 1)[1] in words] or [part]
        plain = {row if row in self.parts else row.split(": ")[0] for row in TRACE.ROWS}
        self.assertEqual([row for row in sorted(set(taken)) if taken.count(row) > 1], [], "rows of several tables")
        self.assertEqual([one for one in sorted({*taken, *self.parts}) if one not in TRACE.ROWS and one not in plain], [], "without a row")
        self.assertEqual([row for row in TRACE.ROWS if row not in self.parts and row not in taken], [], "rows of no part")

    def test_what_the_profile_leaves_to_another_page_is_there(self):
        sections = {part: section_of(part, PROFILE) or section_of(part, ROOT / page) for part, page in OTHER_PAGES.items()}
        tables = [words for text in sections.values() for _, words in tables_of(text or "")[0]]
        self.assertNotIn(None, sections.values())
        for row, mark in OTHER_TABLES.items():
            with self.subTest(row):
                self.assertEqual(sum(mark in words for words in tables), 1)


class Rows(Case):
    def test_each_case_is_in_a_row(self):
        names = sorted(path.stem for path in TRACE.CASES.glob("*.stdout"))
        found = {name: TRACE.row_of(name) for name in names}
        self.assertEqual([name for name in names if found[name] is None], [])
        patterns = {(part, pattern) for part, (them, _) in TRACE.ALL_ROWS.items() for pattern in them}
        self.assertEqual(patterns - set(found.values()), set(), "patterns that no case fits")
        self.assertGreater(len(names), 400)

    def test_each_row_has_a_case_or_a_test(self):
        cases = TRACE.cases()
        for row, (_, tests) in TRACE.ALL_ROWS.items():
            with self.subTest(row):
                self.assertTrue(cases[row] or tests)
                self.assertEqual([test for test in tests if not has_test(test)], [])


class Requirements(Case):
    def setUp(self):
        self.known = TRACE.promises()

    def test_each_names_what_is_there(self):
        for name, (_, words, rows) in TRACE.REQUIREMENTS.items():
            with self.subTest(name):
                self.assertNotIn(None, list(TRACE.promises_of(words, self.known)))
                self.assertEqual([row for row in rows if row not in TRACE.ALL_ROWS and not has_test(row)], [])

    def test_no_promise_and_no_row_is_left_out(self):
        named = {one.number for _, words, _ in TRACE.REQUIREMENTS.values() for one in TRACE.promises_of(words, self.known) if one}
        shown = {row for _, _, rows in TRACE.REQUIREMENTS.values() for row in rows}
        self.assertEqual(set(self.known) - named, set())
        self.assertEqual(set(TRACE.ALL_ROWS) - shown, set())

    def test_promises_are_counted_from_1(self):
        self.assertEqual([one for one in self.known if one[1:] != "1" and f"{one[0]}{int(one[1:]) - 1}" not in self.known], [])

    def test_the_page_has_each_section_of_a_standard(self):
        for standard, short in TRACE.STANDARDS.items():
            part = re.search(rf"^## {standard},.*?(?=^## |\Z)", PAGE.read_text(), re.MULTILINE | re.DOTALL)
            rows = re.findall(r"^\| (?:annex )?([A-Z]?\.?[\d.]+(?:, [\d.]+)*) \|", part[0] if part else "", re.MULTILINE)
            with self.subTest(standard):
                self.assertCountEqual(rows, [name.partition(" ")[2] for name in TRACE.REQUIREMENTS if name.startswith(f"{short} ")])

    def test_the_assurance_page_names_promises_and_assumptions_that_are_there(self):
        text = ASSURANCE.read_text()
        listed = {*self.known, *re.findall(r"^- \*\*(A\d+)\. ", text, re.MULTILINE)}
        self.assertEqual(set(re.findall(r"\b[A-Z]\d+\b", text)) - listed, set())

    def test_the_matrix_has_a_part_for_each(self):
        for words, wanted in ((["--names"], list(TRACE.REQUIREMENTS)), (["RFC", "4.1"], ["RFC 4.1"])):
            done = run([ROOT / "tools/trace", *words])
            self.assertEqual((done.returncode, re.findall(r"^## (.*)$", done.stdout, re.MULTILINE), done.stderr), (0, wanted, ""))
