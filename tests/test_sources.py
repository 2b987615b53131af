"""Rattle files, definitions and mutants: calls that nobody makes, items that nobody can name, lines, names, and the reader of them."""
import re

from support import ROOT, Case

import source

COLUMNS = 100
# Irregular participles, except those that are also verbs and nouns, as `put`, `run` and `bound`.
IRREGULAR = """begun built chosen done drawn fed found given gone grown held kept known lent lost made met overtaken paid read_back
    said sent shown spent spoken taken told written""".split()
# Words that end as participles do.
OTHERS = ("need", "seed", "feed", "speed", "signed", "unsigned")
# What makes a verb of the participle before it. Before a noun it is an adjective: `written_line`.
BEHIND = ("as", "at", "back", "behind", "by", "from", "in", "of", "ok", "to", "with")
EXAMPLE = '''//! A file.
use byteorder::BigEndian;

/// A number, as `fn "f" {` writes it.
pub struct Number<'a> { text: &'a str } // } no brace

impl<'a, L: Naming<u8>> Model for Pair<L> {
    ghost invariant = { λ n. n ≤ 10 };

    /// What it is,
    /// in words.
    #[inline]
    pub(crate) const fn number_of(text: &str) -> [u8; 2]
        requires { length text ≡ 2 }
        ensures value { IfOk result (λ n. { n }) }
    {
        let brace = '{';
        read::<u8>("}", other::first(brace))
    }
}

pub trait Sink {
    fn push(&mut self, octet: u8)
        ensures pushed { octet };
}

pub extern "C" fn ocp_one() {}
'''


class Reader(Case):
    """`tools/source.py`."""

    def setUp(self):
        self.file = source.Source(ROOT / "crates/one/src/deep/example.rt", EXAMPLE)

    def test_functions(self):
        of, push, export = self.file.functions
        self.assertEqual([one.name for one in self.file.functions], ["number_of", "push", "ocp_one"])
        self.assertEqual([one.visibility for one in self.file.functions], ["pub(crate)", "", "pub"])
        self.assertEqual((of.owner, of.block.trait, push.owner, push.block.kind, export.block), ("Pair", "Model", "Sink", "trait", None))
        self.assertEqual((of.signature, of.words, of.called), ("(text: &str) -> [u8; 2]", ("const",), {("", "read"), ("other", "first")}))
        self.assertEqual((push.body, push.is_public, export.is_export, export.is_law), (None, False, True, False))
        self.assertEqual(EXAMPLE[of.end - 6 : of.end], "\n    }")

    def test_contracts(self):
        found = [(one.kind, one.name, one.text) for one in self.file.functions[0].clauses]
        self.assertEqual(found, [("requires", None, "length text ≡ 2"), ("ensures", "value", "IfOk result (λ n. { n })")])
        self.assertEqual([one.kind for one in self.file.clauses], ["invariant", "requires", "ensures", "ensures"])
        self.assertNotIn("IfOk", self.file.code_without_clauses)

    def test_places(self):
        self.assertEqual(self.file.function_at(EXAMPLE.index("let brace")).name, "number_of")
        self.assertIsNone(self.file.function_at(EXAMPLE.index("ghost invariant")))
        self.assertEqual(self.file.comment_of(self.file.functions[0].start), "What it is, in words.")
        self.assertEqual((self.file.crate, self.file.line_of(EXAMPLE.index("pub struct"))), ("one", 5))
        self.assertEqual([(one.kind, one.name) for one in self.file.items], [("struct", "Number"), ("trait", "Sink"), ("fn", "ocp_one")])

    def test_definitions(self):
        text = ("-- A file.\n\nuse Rattle.x;\n\n-- What holds.\nabbrev pub IsOne : ℕ → Type 0\nIsOne n = n ≡ 1\n\n"
                "pub record Two =\n  pub first : ℕ\n")
        file = source.DefinitionFile(ROOT / "One.antt", text)
        found = [(one.name, one.kind, one.is_public, one.is_field, one.comment) for one in file.definitions]
        self.assertEqual(file.head, "A file.")
        self.assertEqual(found, [("IsOne", "abbrev", True, False, "What holds."), ("Two", "record", True, False, ""),
                                 ("first", "", True, True, "")])

    def test_crates(self):
        room = self.room()
        (room / "crates.txt").write_text("one:\n# a group\ntwo may_wait=1: one hex  # why\n")
        found = [(one.name, one.marks, one.uses, one.group) for one in source.crates(room)]
        self.assertEqual(found, [("one", (), (), "base"), ("two", ("may_wait=1",), ("one", "hex"), "a group")])

    def test_each_brace_of_the_sources_is_closed_where_its_line_says(self):
        """A function's last brace is as far to the right as its first line."""
        for one in source.sources():
            for function in one.functions:
                first, last = one.text[function.start : function.end].splitlines()[0], one.text[: function.end].splitlines()[-1]
                indent = len(first) - len(first.lstrip())
                if function.body is not None and last != " " * indent + "}" and not last.endswith("{}"):
                    self.fail(f"{one.path.relative_to(ROOT)}: {function.name} ends with {last}")


# The layers of checkpoints: the engine for flight will call them to save and to restore, and does not yet.
OF_CHECKPOINTS = ("crates/ocp_saved/src/", "crates/bpf_step/src/machine/resuming.rt: frames",
                  "crates/ocp_table/src/table.rt: restore")


class Callers(Case):
    """Each `pub fn` is called by name in a source file or, for an export, in a C program; a clause calls nothing. Two of one name have
    a caller together. A law has none. An item at the top of a library's file can be named: lib.rt exports it or its module, or it is
    exported under the name of a type alias; else it is no `pub` item."""

    def test_each_public_call_has_a_caller(self):
        files = list(source.sources())
        called = {name for one in files for _, name in source.CALL.findall(one.code_without_clauses)}
        texts = [path.read_text() for path in [*ROOT.glob("embed/*.c"), *ROOT.glob("examples/embed/*.c")]]
        called_in_c = {name for text in texts for _, name in source.CALL.findall(re.sub(r"//.*", "", text))}
        calls = [function for one in files for function in one.functions if function.is_public and not function.is_law]
        lost = [f"{function.path.relative_to(ROOT)}: {function.name}" for function in calls
                if function.name not in (called_in_c if function.is_export else called)]
        self.assertEqual([place for place in lost if not place.startswith(OF_CHECKPOINTS)], [])
        self.assertGreater(len(calls), 500)

    def test_each_public_item_can_be_named(self):
        for crate in source.crates():
            files = {one.path.relative_to(crate.folder / "src"): one for one in source.sources(crate.name)}
            lib = next((one for path, one in files.items() if str(path) == "lib.rt"), None)
            if lib is None:
                continue
            modules = {item.name for item in lib.items if item.kind == "mod" and item.visibility == "pub"}
            hidden = [(str(path), item.name) for path,
                      one in files.items() if one is not lib and path.with_suffix("").parts[0] not in modules
                      for item in one.items if self.is_public(item) and not self.is_exported(item.name, one, lib)]
            with self.subTest(crate.name):
                self.assertEqual(hidden, [])

    def is_public(self, item):
        return item.visibility == "pub" and item.kind != "mod" and not item.is_export

    def is_exported(self, name, file, lib):
        return name in lib.exports or any(named == name and alias in lib.exports for alias, named in file.aliases.items())


def is_participle(name):
    first, *rest = re.sub(r"(?<=[a-z])(?=[A-Z])", "_", name).lower().split("_")
    return (first in IRREGULAR or first.endswith("ed") and first not in OTHERS) and (not rest or rest[0] in BEHIND)


def is_read(name, text):
    """Whether a text has a name: of an operator, all of its parts."""
    return all(re.search(rf"(?<!\w){re.escape(part)}(?!\w)" if part[0].isalnum() else re.escape(part), text) for part in name.split("◌")
               if part)


class Style(Case):
    """A line of a doc comment, a clause or a definition has at most 100 columns, apart from a line of `use` and a row of a table. A file
    begins with what it is for. A definition and a function of the product are not named by a participle: `stored`, `sent_by`. What a
    `ghost use` brings in is read."""

    def test_sources(self):
        for one in source.sources():
            with self.subTest(one.path.relative_to(ROOT)):
                self.assertTrue(one.text.startswith("//!"), "no line says what the file is for")
                self.assertEqual(list(self.long_lines(one)), [], f"more than {COLUMNS} columns")
                rest = re.sub(r"//[^\n]*", "", source.GHOST_USE.sub("", one.text))
                self.assertEqual([name for name in one.ghost_uses if not is_read(name, rest)], [], "nothing reads it")
                if one.crate != "ocp_tests":
                    self.assertEqual([function.name for function in one.functions if not function.is_export
                                      and is_participle(function.name)], [])

    def long_lines(self, one):
        in_clauses = {number for clause in one.clauses for number in range(one.line_of(clause.start), one.line_of(clause.end) + 1)}
        for number, line in enumerate(one.text.splitlines(), 1):
            text = line.strip()
            is_comment = text.startswith(("///", "//!")) and not text[3:].startswith(" |")
            if len(line) > COLUMNS and (number in in_clauses or is_comment):
                yield number

    def test_definitions(self):
        for file in source.definition_files():
            with self.subTest(file.path.relative_to(ROOT)):
                self.assertEqual([line for line in file.text.splitlines() if len(line) > COLUMNS and not line.startswith("use ")], [])
                self.assertEqual([one.name for one in file.definitions if is_participle(one.name) and self.is_named(one)], [])

    def is_named(self, definition):
        """Fields of records have the names of what they contain."""
        return not definition.is_field or definition.kind in ("abbrev", "unfoldable")


class Mutants(Case):
    def test_each_text_is_in_its_file_once(self):
        mutants = list(source.edits())
        self.assertEqual([edit.name for edit in mutants if not edit.pairs or not edit.file.is_file()
                          or not edit.places(edit.file.read_text())], [])
        self.assertGreater(len(mutants), 800)
