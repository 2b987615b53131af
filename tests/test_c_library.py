"""`./ocp library` and `./ocp build` over a prover that only writes files: what they resume, wait for and say. The library without any
proof is made by the toolchain, and runs."""
from __future__ import annotations

import os
import re
import signal
import subprocess
import time
from pathlib import Path

from clones import clone
from support import ROOT, Case, is_alive, needs, run, small_files

PROVER = """#!/bin/sh
cd "$1" && name=$(basename "$PWD") && echo "$name" >> "$PROVED" && sleep 0.2
if [ "$name" = "$WRONG" ]; then echo "fn a: not proved"; exit 1; fi
if [ "$name" = "$SLOW" ]; then echo $$ > "$PROVED.slow"; sleep 100; fi
case $name in
    ocp) mkdir -p out && echo program > out/ocp ;;
    ocp_c) case $5 in x86*) to=out ;; *) to=out/$5 ;; esac; mkdir -p $to && echo "$5" > $to/libocp_c.a ;;
    *) mkdir -p "out/rlib/$name.rlib" ;;
esac
"""
TARGETS = {"out/libocp_c.a": "x86_64-unknown-linux-gnu", "out/aarch64-unknown-linux-gnu/libocp_c.a": "aarch64-unknown-linux-gnu"}


@needs("rt")
class Build(Case):
    seconds = 25

    def setUp(self) -> None:
        self.folder = self.room()
        self.clone = clone(self.folder / "clone")
        (self.clone / ".git").mkdir()
        (self.clone / "tools/prove").write_text(PROVER)
        self.log = self.folder / "proved"

    def ocp(self, verb: str, *words: str, status: int = 0, **more: str | object) -> subprocess.CompletedProcess[str]:
        given = {name: str(more.pop(name)) for name in ("WRONG", "SLOW") if name in more}
        done = run([self.clone / "ocp", verb, *words], env={**os.environ, "PROVED": str(self.log), **given}, **more)
        self.assertEqual(done.returncode, status, done.stderr)
        return done

    def proved(self) -> list[str]:
        return self.log.read_text().split() if self.log.exists() else []

    def begin(self, **given: str) -> subprocess.Popen[str]:
        """Begins ./ocp library, and waits until the slow crate is being proved."""
        one = subprocess.Popen([self.clone / "ocp", "library"], env={**os.environ, "PROVED": str(self.log), **given}, text=True,
                               stdout=subprocess.DEVNULL, stderr=subprocess.PIPE, start_new_session=True)
        until = time.monotonic() + 40
        while not Path(f"{self.log}.slow").exists() and time.monotonic() < until:
            time.sleep(0.05)
        return one

    def slow(self) -> int:
        return int(Path(f"{self.log}.slow").read_text())

    def test_library_for_both_targets_then_the_program(self) -> None:
        done = self.ocp("library")
        self.assertEqual(done.stdout.splitlines(), [str(self.clone / "crates/ocp_c" / it) for it in TARGETS])
        said = re.match(r"Proves (\d+) of (\d+) crates, in about \d+ minutes on \d+ idle cores\.", done.stderr)
        assert said is not None, done.stderr
        count = int(said[1])
        self.assertEqual(said[1], said[2])
        for path, target in TARGETS.items():
            self.assertEqual((self.clone / "crates/ocp_c" / path).read_text(), f"{target}\n")
        self.assertEqual((self.proved().count("ocp_c"), len(self.proved()), len(set(self.proved()))), (2, count, count - 1))
        again = self.ocp("library", "--target", "aarch64-unknown-linux-gnu")
        self.assertEqual((again.stderr, len(self.proved())), ("", count))
        (self.clone / "crates/ocp_c/out/libocp_c.a").unlink()
        self.ocp("library")
        self.assertEqual(self.proved()[count:], ["ocp_c"])
        self.ocp("build")
        self.assertEqual(len(set(self.proved()[count + 1:])), len(self.proved()[count + 1:]))
        self.assertNotIn("ocp_core", self.proved()[count + 1:])

    def test_killed_and_resumed(self) -> None:
        one = self.begin(SLOW="ocp_world")
        one.send_signal(signal.SIGKILL)
        one.communicate()
        before, until = self.proved(), time.monotonic() + 10
        while is_alive(self.slow()) and time.monotonic() < until:
            time.sleep(0.05)
        self.assertFalse(is_alive(self.slow()), "a prover goes on without its build")
        self.assertTrue([it for it in os.listdir(self.clone / ".git") if it.startswith("ocp-rooms-")])
        done = self.ocp("library")
        left, count = map(int, re.findall(r"^Proves (\d+) of (\d+)", done.stderr)[0])
        self.assertLess(left, count)
        self.assertEqual(len(self.proved()) - len(before), left)
        self.assertEqual(os.listdir(self.clone / ".git"), [])

    def test_interrupted_by_the_terminal(self) -> None:
        one = self.begin(SLOW="ocp_world")
        os.killpg(one.pid, signal.SIGINT)
        said = one.communicate(timeout=20)[1]
        self.assertEqual((one.returncode, said.splitlines()[-1]), (1, "library: interrupted; the next build resumes here"))
        self.assertFalse(is_alive(self.slow()))
        self.assertEqual(os.listdir(self.clone / ".git"), [])

    def test_another_build_is_waited_for(self) -> None:
        one = self.begin(SLOW="ocp_world")
        with subprocess.Popen([self.clone / "ocp", "build"], env={**os.environ, "PROVED": str(self.log)}, text=True,
                              stdout=subprocess.DEVNULL, stderr=subprocess.PIPE) as other:
            assert other.stderr is not None
            self.assertEqual(other.stderr.readline(), "Waits for another build of this clone.\n")
            other.send_signal(signal.SIGINT)
            self.assertEqual(other.stderr.read().splitlines()[-1], "build: interrupted; the next build resumes here")
        os.killpg(one.pid, signal.SIGTERM)
        one.communicate(timeout=20)
        self.assertEqual(one.returncode, 1)

    def test_not_proved(self) -> None:
        done = self.ocp("library", WRONG="ocp_pool", status=1)
        self.assertEqual(done.stderr.splitlines()[-2:], ["fn a: not proved", "library: ocp_pool is not proved"])
        self.ocp("library")
        self.assertEqual(self.proved().count("bpf_types"), 1)

    def test_full_disk(self) -> None:
        done = self.ocp("library", status=1, preexec_fn=lambda: small_files(100))
        said = "^library: .*File too large.*; what is proved is kept, and the next build resumes here$"
        self.assertRegex(done.stderr.splitlines()[-1], said)
        self.ocp("library")

    def test_words(self) -> None:
        done = self.ocp("library", "--target", "riscv64-unknown-linux-gnu", status=2)
        self.assertIn("is none of x86_64-unknown-linux-gnu, aarch64-unknown-linux-gnu", done.stderr)
        self.assertEqual(self.ocp("library", "--cores", "0", status=1).stderr, "library: --cores wants a number from 1\n")
        self.assertEqual(self.proved(), [])


@needs("rt", "cc")
class Unproved(Case):
    seconds = 40

    def test_library(self) -> None:
        done = run([ROOT / "ocp", "library", "--unproved", "--target", "x86_64-unknown-linux-gnu"], seconds=400)
        self.assertEqual(done.returncode, 0, done.stderr)
        library = Path(done.stdout.strip())
        self.assertEqual(library.name, "libocp_c_unproved.a")
        self.assertEqual(done.stderr.splitlines()[-1], "library: NOT PROVED: for a first try, never for flight")
        self.assertIn(b"ocp_c_is_not_proved", library.read_bytes())
        least = self.room() / "least"
        sources = [ROOT / "examples/embed/least.c", library, ROOT / "embed/heap.c"]
        self.passes(["cc", "-std=c11", "-I", ROOT / "include", *sources, "-o", least])
        self.assertEqual(self.passes([least]).splitlines()[-1], "3 instructions, r0 = 7")


@needs("rt")
class Try(Case):
    seconds = 60

    def test_second_try_starts_at_once(self) -> None:
        with open(ROOT / "crates/ocp/stdin", encoding="utf-8") as file:
            script = file.read()
        first = run([ROOT / "ocp", "try", "run"], script, seconds=600)
        self.assertEqual((first.returncode, first.stdout), (0, (ROOT / "crates/ocp/stdout").read_text()), first.stderr)
        self.assertEqual(first.stderr.splitlines()[-1], "ocp: not proved")
        began = time.monotonic()
        second = run([ROOT / "ocp", "try", "run"], script)
        self.assertEqual((second.returncode, second.stdout, second.stderr), (0, first.stdout, "ocp: not proved\n"))
        self.assertLess(time.monotonic() - began, 20)
        wrong = run([ROOT / "ocp", "try", "asm"], "what\n")
        self.assertEqual((wrong.returncode, wrong.stdout.split()[0]), (1, "error"), wrong.stdout)
