"""What `ocp check` says of images, and rounds of them that do what it says never comes."""
import re
from collections import defaultdict

from support import ocp

FAULT = re.compile(" Faulted [123]$")
ACTIVATIONS, ROUNDS = 3, 10
UNBOUNDED = 400
# The longest round that is run: of a longer bound only this part is seen.
LONGEST = 10_000
WORDS = [0, 1, 2, 15, 16, 255, 256, 1023, 1024, 2**31, 2**32 - 1, 2**63, 2**64 - 1]


class Verdict:
    """The checker's verdict on an image."""

    def __init__(self, said):
        self.said = said
        self.is_safe = re.search(r"^faults 1 2 3   never$", said, re.M) is not None
        pool = re.search(r"^fault 4        never(?:, with (\d+) words? of pool or more)?$", said, re.M)
        bound = re.search(r"^round          at most (\d+) instructions? ", said, re.M)
        self.words = int(pool[1] or 1) if pool else None
        self.bound = int(bound[1]) if bound else None


def verdict_of(profile, image):
    done = ocp(["check", "--profile", profile], image)
    if done.returncode not in (0, 1) or done.stdout.startswith("error"):
        raise AssertionError(f"ocp check ended with {done.returncode} and {done.stdout.strip()}: {image}")
    return Verdict(done.stdout)


def words_of(draw):
    return [draw.choice([*WORDS, draw.randrange(2**64)]) for _ in range(4)]


def script_of(draw, profile, image, verdict, words):
    """The lines of one image. Its rounds are as long as its bound, so that a longer one is seen."""
    lines = [f"send 0 load 7 {image}"]
    for _ in range(ACTIVATIONS):
        arguments = draw.randbytes(draw.choice([0, 1, 8, 255, 256])).hex()
        lines.append(f"send 0 activate 7 {'0 ' if profile == 2 else ''}{arguments}".rstrip())
        for _ in range(ROUNDS):
            if draw.random() < 0.5:
                lines.append(f"put {draw.randrange(words)} {words_of(draw)[0]}")
            if draw.random() < 0.3:
                lines.append("send 0 communicate 7 " + " ".join(map(str, words_of(draw))))
            lines.append(f"round 7 {min(verdict.bound or UNBOUNDED, LONGEST)}")
        lines.append("send 0 abort 7")
    return lines + ["send 0 unload 7", "time 0"]


def fault_of(line, verdict):
    """What is wrong with a round, if anything is."""
    _, _, count, outcome, *rest = line.split()
    if verdict.is_safe and FAULT.search(line):
        return f"fault {rest[0]} never comes"
    if outcome == "Faulted" and rest[0] == "4" and verdict.words is not None:
        return f"fault 4 never comes with {verdict.words} words"
    if verdict.bound is None or int(count) < verdict.bound or outcome in ("Ended", "Faulted", "NotRunning") or "step" in rest:
        return None
    return f"a round has at most {verdict.bound} instructions, and {count} did not end it"


class Flown:
    """What images did: what never comes, how many instructions, and how many images met a fault of their own."""

    def __init__(self):
        self.violations, self.instructions, self.faulted = [], 0, 0

    def fly(self, draw, profile, judged):
        """Runs images with as few pool words as their verdicts ask for."""
        groups = defaultdict(list)
        for image, verdict in judged:
            groups[max(1, verdict.words or 16)].append((image, verdict))
        for words, group in sorted(groups.items()):
            self.fly_with(draw, profile, words, group)

    def fly_with(self, draw, profile, words, group):
        text = "\n".join(line for image, verdict in group for line in script_of(draw, profile, image, verdict, words)) + "\n"
        done = ocp(["run", "--profile", profile, "--pool", words, "--journal", 1000000], text)
        rounds, each = [line for line in done.stdout.splitlines() if line.startswith("round ")], ACTIVATIONS * ROUNDS
        if done.returncode or len(rounds) != each * len(group):
            raise AssertionError(f"status {done.returncode}, {len(rounds)} rounds: {done.stdout[-200:]} {done.stderr[-400:]}")
        for number, (image, verdict) in enumerate(group):
            own = rounds[each * number:each * (number + 1)]
            self.instructions += sum(int(line.split()[2]) for line in own)
            self.faulted += any(map(FAULT.search, own))
            wrong = next(((fault, line) for line in own if (fault := fault_of(line, verdict))), None)
            if wrong:
                self.violations.append(f"{wrong[0]}, but: {wrong[1]}\n  profile {profile}, {words} words: {image}")
