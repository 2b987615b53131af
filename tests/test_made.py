"""Files that a tool writes: pictures, the man page, the completion, counts; and what else such a tool goes by."""
import os
import re

from support import ROOT, Case, module_of, run

import source

MADE = ["tools/abi", "tools/clock", "tools/help", "tools/pictures", "tools/words", "bench/picture"]
# Crates without a mutant: tests alone, drivers that owe safety alone, laws alone.
WITHOUT_MUTANTS = {"ocp_tests", "lock_driver", "lib_driver", "lib_times", "ocp_assured"}
MOST_IN_MUST_FAIL = 12


class Made(Case):
    def test_each_file_is_what_its_tool_writes(self):
        for tool in MADE:
            for path, text in module_of(ROOT / tool).made().items():
                with self.subTest(path.relative_to(ROOT)):
                    self.assertEqual(path.read_text() if path.is_file() else None, text, f"{tool} --write writes it")


class Crates(Case):
    def test_the_picture_has_each_crate_and_each_line(self):
        """Another release of graphviz lays it out otherwise: its boxes, colours, lines and groups are compared."""
        tool = module_of(ROOT / "tools/crates")
        picture = tool.PICTURE.read_text()
        colours, lines, groups = tool.drawn()
        self.assertEqual(tool.shown(picture), (colours, lines), "tools/crates --write draws it")
        self.assertEqual([group for group in groups if f">{group} &#160;<" not in picture], [])

    def test_the_table_has_a_row_for_each(self):
        table = (ROOT / "docs/ARCHITECTURE.md").read_text().partition("| Crate | What it gives |\n")[2].partition("\n\n")[0]
        self.assertEqual([line.split("|")[1].strip() for line in table.splitlines()[1:]], [crate.name for crate in source.crates()])

    def test_each_has_mutants(self):
        counts = module_of(ROOT / "tools/clock").counts()
        self.assertEqual({name for name, (tried, others, _) in counts.items() if tried + others == 0}, WITHOUT_MUTANTS)
        self.assertLessEqual(sum(tried for tried, _, _ in counts.values()), MOST_IN_MUST_FAIL)


class Definitions(Case):
    def test_each_that_a_contract_cites_has_a_comment(self):
        rows = [(str(path), names, comment) for path, _, table in module_of(ROOT / "tools/definitions").tables() for names,
                comment in table]
        self.assertEqual([row for row in rows if not row[2]], [])
        self.assertGreater(len(rows), 300)


class Help(Case):
    """The options that the man page and the completion have of the verbs of ./ocp are those that `./ocp VERB --help` names at once."""

    def test_verbs_of_the_wrapper(self):
        for verb, (_, _, options) in module_of(ROOT / "tools/help").OF_THE_WRAPPER.items():
            with self.subTest(verb):
                wanted = {name.split()[0] for name in options} | {"--help"} | ({"--version"} if verb == "try" else set())
                done = self.answer(verb)
                rows = "\n".join(line for line in done.stdout.decode().splitlines() if re.match(r"\s+-", line))
                self.assertEqual((done.returncode, set(re.findall(r"(?<![\w-])--[a-z]+", rows))), (0, wanted))

    def answer(self, verb):
        """What the verb answers if its input does not end."""
        read_end, write_end = os.pipe()
        try:
            return run([ROOT / "ocp", verb, "--help"], None, seconds=30, stdin=read_end)
        finally:
            os.close(read_end)
            os.close(write_end)


class Pictures(Case):
    def test_statuses_has_the_requests_that_change_one(self):
        tool = module_of(ROOT / "tools/pictures")
        self.assertEqual(tool.requests_drawn(), set(tool.requests_in_table()))
