"""The program of library calls on its cases, each folder of crates/lib_driver/cases, and its page beside its help."""
from support import LIBRARY, ROOT, Case, needs_built


@needs_built(LIBRARY)
class Library(Case):
    seconds = 5

    def test_cases(self):
        for folder in sorted((ROOT / "crates/lib_driver/cases").iterdir()):
            with self.subTest(folder.name):
                self.follows(folder, LIBRARY)

    def test_page_has_the_rows_of_the_help(self):
        self.passes([ROOT / "tools/calls", "--program", LIBRARY])
