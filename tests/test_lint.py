"""Scripts, headers and C as their checkers see them: flake8, mypy, shellcheck and cppcheck. `setup.cfg` has the rules."""
import functools
import os
import re

from support import ROOT, Case, needs, run

TYPED = ["tools/source.py", "tests/support.py", *(f"ground/ocp_ground/{path.name}" for path in ROOT.glob("ground/ocp_ground/*.py"))]
# C for a clang with the target bpf alone.
OF_PROCEDURES = "examples/c/"


@functools.lru_cache
def files():
    """The files of the repository, but for crates, each with its first line."""
    names = run(["git", "ls-files"], cwd=ROOT).stdout.split() or [str(path.relative_to(ROOT)) for path in ROOT.rglob("*")]
    paths = [ROOT / name for name in names if not re.match(r"crates/|\.git/", name)]
    return {str(path.relative_to(ROOT)): first_line(path) for path in paths if path.is_file()}


def first_line(path):
    with open(path, errors="replace") as file:
        return file.readline()


def scripts(language, *endings):
    """Those in a language, by their first line or ending."""
    return sorted(name for name, first in files().items() if name.endswith(endings) or first.startswith("#!") and language in first)


class Lint(Case):
    seconds = 20

    def check(self, words, names, **more):
        self.assertTrue(names)
        done = run([*words, *names], cwd=ROOT, seconds=300, **more)
        self.assertEqual((done.returncode, done.stdout + done.stderr), (0, ""))

    @needs("flake8")
    def test_flake8(self):
        self.check(["flake8"], scripts("python", ".py"))

    @needs("shellcheck")
    def test_shellcheck(self):
        self.check(["shellcheck", "-s", "bash"], scripts("bash", ".bash"))


class Types(Case):
    seconds = 20
    check = Lint.check

    @needs("mypy")
    def test_mypy(self):
        """Names of scripts are unique in a folder alone, so each folder is checked by itself."""
        names, room = scripts("python", ".py"), self.room()
        folders = sorted({os.path.dirname(name) for name in names})
        for words, them in [(["--strict", "--strict-optional"], TYPED),
                            *(([], [one for one in names if os.path.dirname(one) == it]) for it in folders)]:
            with self.subTest(them[0]):
                path = os.pathsep.join(["tests", "tools", "bench", "ground", "ground/bench"])
                self.check(["mypy", "--no-error-summary", "--cache-dir", room, *words], them, env={**os.environ, "MYPYPATH": path})


class Headers(Case):
    seconds = 40
    check = Lint.check

    @needs("cppcheck")
    def test_cppcheck(self):
        names = [name for name in files() if name.endswith((".c", ".h")) and not name.startswith(OF_PROCEDURES)]
        self.check(["cppcheck", "-q", "--std=c11", "--enable=warning,portability,performance", "--inline-suppr", "--error-exitcode=1",
                    "-I", "include", "-I", "examples/embed"], names)
