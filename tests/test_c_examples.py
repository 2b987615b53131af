"""Procedures in C: the stored images by their scripts, the same built again, and what tools/c_build takes, refuses and says."""
import os
import re
import shutil

from c_tools import TOOLS, build, needs_clang, newest
from support import PROGRAM, ROOT, Case, needs, ocp, run

INCLUDE = '#include "ocp.h"\n'
CALLED = "bash sed grep sort head od tr awk cat wc mktemp rm dirname readlink paste tail".split()  # by tools/c_build
XDP = '__attribute__((section("xdp"), used)) word entry(const octet *a, word n) { return n; }'
# Texts that include the header, and a word of why each is refused; none for those that are taken: a header of the compiler's own, and
# loops that clang must not turn into calls of a library.
TEXTS = (
    ("#include <stdint.h>\nword entry(const octet *a, word n) { uint32_t x = n * 3; return x; }", ""),
    ("word entry(const octet *a, word n) { for (word i = 0; i < n; i++) WORK[i] = 0; return n; }", ""),
    ("word entry(const octet *a, word n) { for (word i = 0; i < n; i++) WORK[i] = a[i]; return n; }", ""),
    ("static const word table[4] = {1, 2, 3, 500};\nword entry(const octet *a, word n) { return table[n & 3]; }", "data"),
    ("word other(word n);\nword entry(const octet *a, word n) { return other(n); }", "`other`"),
    ("word before(word n) { return n * n; }\nword entry(const octet *a, word n) { return before(n); }", "before `entry`"),
    ("word start(const octet *a, word n) { return n; }", "no function `entry`"),
    ("word entry(const octet *a, word n) { return (long)n / 3; }", "signed"),
    (XDP, "in the section xdp"),
    (f"{XDP}\nword other(word n) {{ return n * n; }}", "in more than one section"),
    ("word entry = 5;\nword other(word n) { return n; }", "`entry` is no function"),
    ("extern word outside;\nword entry(const octet *a, word n) { return outside; }", "`outside`"),
    ("word entry(const octet *a, word n) { return n + ADDED; }", "clang refuses it"),
)
# Bodies that may read an octet after the arguments, or not; that never end; and that no load takes.
OPEN, SHOWN, ENDLESS = "return a[n];", "return n < 256 ? a[n] : 0;", "for (;;) pool_set(0, n);"
ATOMIC = "__sync_fetch_and_add((word *)WORK, 1); return n;"
MAKEFILE = f".DELETE_ON_ERROR:\n%.hex: %.c\n\t{ROOT}/tools/c_build -c $< > $@\n"
# Files that are no text in C, and a word of why.
NO_TEXTS = (("text.asm", "exit\n", "does not end in .c"), ("words.c", "a line of words\n", "this is no text in C"),
            ("object.c", "\x7fELF\n", "this is no text in C"))


def stored():
    """Each example: its text, image, script and transcript."""
    for text in sorted((ROOT / "examples/c").glob("*.c")):
        image, script, transcript = (text.with_suffix(ending).read_text() for ending in (".hex", ".ocp", ".transcript"))
        yield text, image.strip(), script, transcript


class Stored(Case):
    seconds = 4

    def test_each_script_gives_its_transcript_with_the_stored_image(self):
        for text, image, script, transcript in stored():
            with self.subTest(text.name):
                self.assertRegex(script, rf"(?m)^send \d+ load \d+ {image}$")
                self.assertEqual(ocp(["run"], script).stdout, transcript)

    @needs_clang()
    def test_an_image_that_is_built_again_computes_the_same(self):
        """R0 at the end, the words of the pool, and the octets of memory that are shown: another clang may choose other registers."""
        for text, image, script, transcript in stored():
            with self.subTest(text.name):
                again = ocp(["run"], script.replace(image, build(text).stdout.strip())).stdout
                self.assertEqual(*(re.findall("^(?:r0|pool|mem) .*", shown, re.M) for shown in (again, transcript)))


@needs_clang()
class Build(Case):
    seconds = 20

    def setUp(self):
        self.folder = self.room()

    def file(self, name, text):
        (self.folder / name).write_text(text)
        return self.folder / name

    def fails(self, answer, reason):
        self.assertEqual((answer.returncode, answer.stdout), (1, ""))
        self.assertIn(reason, answer.stderr)

    def test_texts(self):
        for text, reason in TEXTS:
            with self.subTest(text):
                answer = build(self.file("text.c", f"{INCLUDE}{text}\n"))
                if reason:
                    self.fails(answer, reason)
                else:
                    self.assertEqual(answer.returncode, 0, answer.stderr)

    def test_files_that_are_no_texts(self):
        for name, text, reason in NO_TEXTS:
            with self.subTest(name):
                answer = build(self.file(name, text))
                self.fails(answer, reason)
                self.assertEqual(answer.stderr.count("\n"), 1)

    def added(self, **environment):
        text = self.file("text.c", f"{INCLUDE}word entry(const octet *a, word n) {{ return n + ADDED; }}\n")
        return build(text, "--", "-DADDED=5", env={**os.environ, **environment})

    def test_tools_under_a_name_with_a_version_and_tools_that_are_missing(self):
        tools = self.folder / "tools"
        tools.mkdir()
        for name in CALLED:
            (tools / name).symlink_to(shutil.which(name))
        for tool in TOOLS:
            self.fails(self.added(PATH=str(tools)), f"there is no {tool} here (Debian: apt-get install")
            (tools / f"{tool}-99").symlink_to(newest(tool))
        self.assertRegex(self.added().stdout, "^[0-9a-f]+\n$")
        self.assertEqual(self.added(PATH=str(tools)).stdout, self.added().stdout)
        self.assertEqual(self.added(CLANG="no-such-clang").returncode, 1)

    def test_header_from_another_folder_in_c_and_cpp(self):
        for language, linkage in (("c", ""), ("c++", 'extern "C" ')):
            with self.subTest(language):
                entry = "word entry(const octet *a, word n) { return n + a[0] + pool_get(0); }\n"
                options = [*f"-target bpf -O2 -Wall -Wextra -Werror -x {language} -I".split(), ROOT / "include", "-o", "outside.o"]
                self.passes([newest("clang"), *options, "-c", self.file("outside.text", f"{INCLUDE}{linkage}{entry}")], cwd=self.folder)

    @needs_clang("llvm-objdump")
    def test_lines_of_a_text_with_a_form_feed(self):
        """What ends a line for others, and not for clang, ends none of a text: its lines are found, and read again."""
        text = self.file("feed.c", "unsigned long entry(const unsigned char *a, unsigned long n)\n{\n/* \f \u2028 \x85 */\n"
                                   "return n + /* \f2 x.c:9 */ 1;\n}\n")
        table = self.folder / "feed.lines"
        self.passes([ROOT / "tools/lines", text, table])
        slot, _, source = table.read_text().rstrip("\n").rpartition("\n")[2].partition(" ")
        self.assertEqual(source, "feed.c:4 return n + /* \f2 x.c:9 */ 1;")
        shown = run([ROOT / "tools/places", "7", table], f"break 7 {slot} set\n").stdout
        self.assertEqual(shown, f"break 7 {int(slot)} set    ; {source.replace(' ', ': ', 1)}\n")

    @needs_clang("llvm-objdump")
    def test_verdict_on_what_is_built(self):
        """With -c the line of what may fault is said: an argument that is not there may be read."""
        entry = "word entry(const octet *a, word n)\n{{\n    return {};\n}}\n"
        text = self.file("verdict.c", INCLUDE + entry.format("a[n]"))
        plain, answer = build(text), build("-c", text)
        self.assertEqual((answer.returncode, answer.stdout), (1, plain.stdout))
        self.assertRegex(answer.stderr, r"(?m)^verdict\.c:4: slot \d+   ldxb r0, \[r\d\+0\]   may be AccessOutside: "
                                        r"r\d is 0x20000000 to 0x20000100$")
        self.file("verdict.c", INCLUDE + entry.format("n < 256 ? a[n] : 0"))
        self.assertTrue(build("-c", text).stderr.startswith("faults 1 2 3   never\n"))
        answer = build("-c", text, env={**os.environ, "OCP": "/nowhere/ocp"})
        self.assertEqual(answer.returncode, 1)
        self.assertIn("ocp check ended with status 127", answer.stderr)


@needs_clang("llvm-objdump")
class Verdicts(Case):
    """The status of `tools/c_build -c` is the verdict's, so that a makefile can gate on it."""

    seconds = 10
    program = {**os.environ, "OCP": str(PROGRAM)}

    def setUp(self):
        self.folder = self.room()

    def built(self, body, *options):
        (self.folder / "text.c").write_text(f"{INCLUDE}word entry(const octet *a, word n)\n{{\n    {body}\n}}\n")
        return build(*options, self.folder / "text.c", env=self.program)

    def test_the_status_is_that_of_the_verdict(self):
        for body, status in ((SHOWN, 0), (OPEN, 1), (ENDLESS, 1), (ATOMIC, 1), ("return nothing;", 1)):
            with self.subTest(body=body):
                self.assertEqual(self.built(body, "-c").returncode, status)
        self.assertEqual(self.built(OPEN).returncode, 0, "without -c an image is enough")

    def test_lines_are_written_also_if_something_is_open(self):
        done = self.built(OPEN, "-g", "-c")
        self.assertEqual((done.returncode, done.stdout), (1, self.built(OPEN).stdout))
        self.assertIn("text.c:4", (self.folder / "text.lines").read_text())
        self.assertIn("text.c:4: slot", done.stderr)

    @needs("make")
    def test_a_makefile_keeps_only_images_that_are_shown(self):
        (self.folder / "Makefile").write_text(MAKEFILE)
        for body, kept in ((OPEN, False), (SHOWN, True)):
            self.built(body)
            done = run(["make", "-C", self.folder, "text.hex"], env=self.program)
            self.assertEqual((done.returncode == 0, (self.folder / "text.hex").exists()), (kept, kept), done.stderr)
