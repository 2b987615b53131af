"""Processor time of commands: user and system time of whole runs, the least of several rounds."""
import os
import subprocess
import sys
import tempfile


class Run:
    """A command with its input, and the least processor time in seconds that it has taken so far."""

    def __init__(self, words, text):
        self.words, self.text, self.least = words, text, float("inf")

    def again(self):
        with tempfile.TemporaryFile() as given:
            given.write(self.text)
            given.seek(0)
            child = subprocess.Popen(self.words, stdin=given, stdout=subprocess.DEVNULL, stderr=subprocess.DEVNULL)
            _, status, used = os.wait4(child.pid, 0)
            child.returncode = status
        if status:
            sys.exit(f"{' '.join(self.words)}: status {status >> 8}")
        self.least = min(self.least, used.ru_utime + used.ru_stime)


class Difference:
    """What lies between a short and a long run of the same kind, so that start-up is out."""

    def __init__(self, short, long, count):
        self.runs, self.count = (short, long), count

    def nanoseconds(self):
        """For each of the things that the long run does more."""
        short, long = self.runs
        return max(long.least - short.least, 0) * 1e9 / self.count


def measure(differences, rounds):
    """Runs all of them in turn, `rounds` times: a disturbance then meets each of them alike."""
    for _ in range(rounds):
        for difference in differences:
            for run in difference.runs:
                run.again()
