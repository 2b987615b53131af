"""`tools/labels`: the slots of the labels of each example, against the listings of their images."""
import re

from support import ROOT, Case, module_of, ocp, run

LABELS = module_of(ROOT / "tools/labels")
NAMED = re.compile(r"(?:j\w+|call[ \t]+local)\b.*?([A-Za-z_][A-Za-z0-9_]*)[ \t]*$")
DISTANCE = re.compile(r"([+-]\d+)$")


class Labels(Case):
    seconds = 2

    def test_each_jump_to_a_name_leads_to_its_slot(self):
        compared = 0
        for path in sorted(ROOT.glob("examples/*/*.asm")):
            words = ["--profile", "2"] if path.parent.name == "second" else []
            with self.subTest(path.relative_to(ROOT)):
                compared += self.compare(path.read_text(), words)
        self.assertGreater(compared, 40)

    def compare(self, text, words):
        """Compares the distances in the listing of a text, and answers how many."""
        labels, instructions, slots = LABELS.read(text)
        image = ocp(["asm", *words], text).stdout
        self.assertEqual(slots, len(image.strip()) // 16)
        slot_of, compared = {name: slot for slot, name in labels}, 0
        for (slot, written), listed in zip(instructions, ocp(["list"], image).stdout.splitlines()):
            named = NAMED.match(written)
            if named and named[1] in slot_of:
                compared += 1
                self.assertEqual(slot + 1 + int(DISTANCE.search(listed)[1]), slot_of[named[1]], written)
        return compared

    def test_a_line_for_each_label(self):
        done = run([ROOT / "tools/labels"], "again: add64 r1\n")
        self.assertEqual(done.returncode, 1)
        self.assertTrue(done.stderr.startswith("labels: "))
        done = run([ROOT / "tools/labels"], "again: lddw r2, 5\n  add64 r2, 1\nnext: exit\n")
        self.assertEqual((done.returncode, done.stdout), (0, "0 again\n3 next\n"))
