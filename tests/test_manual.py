"""What the pages show, done with the built program: the output has to be theirs.

In a page, a block with a name is one of these; a block without a name is an illustration.
  script     its options of `run` follow the name; its `output` comes next, in which `...` means lines left out
  asm        is followed by the registers that it leaves (`view`), by its image (`image`), by a script that loads its
             image, or by commands
  image      is followed by its `listing`
  sh         commands, run at the top of the repository; the `output` that follows is what they write
  c          C that calls the library, with its `output`: embed/run compiles and runs it
A block with `file=NAME` is also kept as that file for the commands of its page. Commands outside of blocks, in lines
that begin with four spaces, are run too, except those of the toolchain and of the gate."""
import re
import shutil
from typing import NamedTuple

from c_tools import TOOLS, newest
from support import PROGRAM, ROOT, Case, ocp, run

MANUALS = ("docs/MANUAL.md", "docs/AUTHOR.md")
PAGES = (*MANUALS, "README.md", "docs/C.md", *(f"examples/{name}README.md" for name in ("", "flight/", "procedures/", "second/")))
PAIRS = [pair.split() for pair in ("script output", "sh output", "asm view", "asm image", "asm script", "image listing", "c output")]
BLOCK = re.compile(r"^```(\w*)([^\n]*)\n(.*?)^```$", re.M | re.S)
NOT_RUN = re.compile(r"rt |\./ocp (?:try|build|live|test)\b|cd |\(cd |\.ci/|.*[A-Z]{4}|.*apt-get")
COMMAND_OF = {"script": "run", "asm": "asm", "text": "asm", "image": "list"}


class Block(NamedTuple):
    kind: str
    files: list
    options: list
    text: str


def read(page):
    return (ROOT / page).read_text()


def blocks_of(page):
    """The blocks of a page that have a name."""
    return [Block(kind, re.findall(r"file=(\S+)", words), re.sub(r"file=\S+", "", words).split(), text)
            for kind, words, text in BLOCK.findall(read(page)) if kind]


def codes_of(cell):
    return [code.replace("\\|", "|") for code in re.findall(r"`([^`]+)`", cell)]


def anchor_of(heading):
    return re.sub(r"[^\w\- ]", "", heading.replace("`", "").lower()).replace(" ", "-")


class Pages(Case):
    seconds = 8

    def place(self):
        """A folder with what the commands of a page use."""
        room = self.room()
        (room / "ocp").symlink_to(PROGRAM)
        for name in ("ground", "include", "tools"):
            (room / name).symlink_to(ROOT / name)
        shutil.copytree(ROOT / "examples", room / "examples")
        (room / "crates/ocp").mkdir(parents=True)
        shutil.copy(ROOT / "crates/ocp/stdin", room / "crates/ocp")
        return room

    def shell(self, room, text):
        """What commands write, standard error included, and their status."""
        if "tools/c_build" in text and not all(map(newest, TOOLS)):
            self.skipTest("no clang for BPF")
        return run(["bash", "-c", f"exec 2>&1\n{text}"], cwd=room, seconds=120)

    def is_like(self, output, wanted):
        """The output is the wanted text, in which a line `...` means any lines."""
        parts = [re.escape(line) + "\n" if line != "..." else "(?:.*\n)*?" for line in wanted.splitlines()]
        if not re.fullmatch("".join(parts), output):
            self.assertEqual(output, wanted)

    def gives(self, room, first, second):
        """A block gives the one that follows it."""
        if first.kind == "c":
            return self.assertIn("ocp_open(", first.text)
        command = COMMAND_OF.get(first.kind)
        made = ocp([command, *first.options], first.text).stdout if command else self.shell(room, first.text).stdout
        if second.kind == "script":
            return self.assertIn(made.strip(), second.text.split())
        if second.kind == "view":
            made = ocp(["run"], f"send 0 load 1 {made}send 0 activate 1\nstep 1 1000000\nview 1\n").stdout
            return self.assertLessEqual(set(second.text.splitlines()), set(made.splitlines()))
        return self.is_like(made, second.text)

    def test_blocks(self):
        for page in PAGES:
            room, blocks = self.place(), blocks_of(page)
            for before, block, after in zip([None, *blocks], blocks, [*blocks[1:], None]):
                with self.subTest(f"{page}: {block.text.partition(chr(10))[0]}"):
                    self.assertIn(block.kind, sum(PAIRS, []))
                    for name in block.files:
                        (room / name).write_text(block.text)
                    if after and [block.kind, after.kind] in PAIRS:
                        self.gives(room, block, after)
                    elif not block.files:
                        self.assertTrue(before and [before.kind, block.kind] in PAIRS, "nothing runs this block")
            for command in re.findall(r"^    (\S.*)$", BLOCK.sub("", read(page)), re.M):
                if not NOT_RUN.match(command):
                    with self.subTest(f"{page}: {command}"):
                        done = self.shell(room, command)
                        self.assertEqual(done.returncode, 0, done.stdout)
                        self.assertNotIn("error", done.stdout)

    def test_tables_of_why_syntax(self):
        """What the first cell has is refused as the second says, and what the third has is taken."""
        for page in MANUALS:
            command = None
            for line in re.search(r"^## \d+\. Why Syntax\?\n(.*?)(?:^## |\Z)", read(page), re.M | re.S)[1].splitlines():
                heading = re.match(r"\| In (?:an?|the) (\w+)", line)
                cells = [codes_of(cell) for cell in re.split(r"(?<!\\)\|", line)[1:-1]]
                if heading:
                    command = COMMAND_OF[heading[1]]
                elif line.startswith("|") and cells[1]:
                    with self.subTest(f"{page}: {line}"):
                        wrong, said, right = (cell[0] for cell in cells[:3])
                        more = "\nexit\n" if command == "asm" else "\n"
                        self.assertEqual(ocp([command], wrong + more).stdout, said + "\n")
                        self.assertFalse(ocp([command], right + more).stdout.startswith("error"), right)

    def test_contents(self):
        """Each heading of a manual is in its list of contents."""
        for page in MANUALS:
            outside = BLOCK.sub("", read(page))
            headings = [anchor_of(heading) for heading in re.findall(r"^###? (.*)$", outside, re.M)]
            self.assertEqual(re.findall(r"^ *(?:\d+\.|-) \[.*\]\(#([^)]*)\)", outside, re.M), headings)
            self.assertEqual(len(headings), len(set(headings)))
