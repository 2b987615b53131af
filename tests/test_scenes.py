"""Scenes that test by themselves, each in the folder of its programs. Each says what it skips."""
import shutil
from concurrent.futures import ThreadPoolExecutor

from support import PROGRAM, ROOT, Case, needs

CROSS = ("aarch64-linux-gnu-gcc", "qemu-aarch64-static")
MADE_BEFORE = ("crates/ocp_c/out/libocp_c.a", "crates/lib_driver/out/lib_driver")  # by tools/static_library, by rt ci
MINUTE = 60


class Ground(Case):
    seconds = 60

    def test_tools_for_ground(self):
        self.passes([ROOT / "ground/run"], 20 * MINUTE)


class Bench(Case):
    seconds = 100

    def test_the_bench(self):
        self.passes([ROOT / "ground/bench/run"], 20 * MINUTE)


class Bodies(Case):
    seconds = 10

    def test_bodies_in_other_implementations(self):
        self.passes([ROOT / "bench/bodies", "--bodies", 500, "--program", PROGRAM], 10 * MINUTE)


@needs("rt")
class Embed(Case):
    """The library for C, over what was proved, for x86-64 and aarch64; the instructions and the stack that docs/EMBED.md states;
    the package of ground over it."""

    seconds = 420

    def test_library_for_c(self):
        if not any((ROOT / name).exists() for name in MADE_BEFORE):
            self.skipTest("no library for C, and nothing to make it of soon: rt ci, or tools/static_library")
        also = ["--also", "aarch64-unknown-linux-gnu"] if all(map(shutil.which, CROSS)) else []
        late = [] if (ROOT / MADE_BEFORE[0]).exists() else [["ocp", "test", "ground_package"]]  # which was skipped without it
        self.passes([ROOT / "tools/static_library", *also], 50 * MINUTE)
        with ThreadPoolExecutor() as pool:  # side by side
            scenes = (["embed/run"], ["bench/worst", "--check"], ["embed/run", "--target", "aarch64"], *late)
            ends = [pool.submit(self.passes, [ROOT / words[0], *words[1:]], 20 * MINUTE) for words in scenes]
            for words, end in zip(scenes, ends):
                with self.subTest(" ".join(words)):
                    end.result()
