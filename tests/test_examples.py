"""The cases of the console, and the examples: text, image, listing, script and transcript of each; some script loads each image."""
import re

from support import PROGRAM, ROOT, Case

EXAMPLES = ROOT / "examples"


class Cases(Case):
    seconds = 3

    def test_console(self):
        self.follows(ROOT / "crates/ocp/cases")


class Examples(Case):
    seconds = 1

    def gives(self, given, words, ending):
        with self.subTest(f"{given.relative_to(EXAMPLES)} gives its {ending}"):
            self.writes(given.with_suffix(f".{ending}").read_bytes(), [PROGRAM, *words], given.read_bytes())

    def test_folders(self):
        for name, profile in (("procedures", []), ("flight", []), ("second", ["--profile", "2"])):
            texts, scripts = (sorted((EXAMPLES / name).glob(f"*.{ending}")) for ending in ("asm", "ocp"))
            self.assertTrue(texts and scripts)
            loads = re.findall(r"^send \d+ load \d+ ([0-9a-f]+)$", "".join(script.read_text() for script in scripts), re.M)
            for text in texts:
                image = text.with_suffix(".hex")
                self.gives(text, ["asm", *profile], "hex")
                self.gives(image, ["list"], "listing")
                with self.subTest(f"a script loads {name}/{image.name}"):
                    self.assertIn(image.read_text().strip(), loads)
            for script in scripts:
                self.gives(script, ["run", *profile], "transcript")

    def test_workers_together_do_what_steps_do_alone(self):
        texts = ((how, (EXAMPLES / f"procedures/three_by_{how}.transcript").read_text()) for how in ("step", "work"))
        self.assertEqual(*([line for line in text.splitlines() if not line.startswith(f"{how} ")] for how, text in texts))
