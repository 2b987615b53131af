"""Runs a command with bounds on its time, memory, output and files; all that it started ends with it."""
import os
import re
import selectors
import signal
import subprocess
import tempfile
import threading
import time
from contextlib import contextmanager
from pathlib import Path

OCTETS = 4_000_000          # of a text, a script or a request
PRINTED = 32_000_000        # octets of one run
SAID = 1_000_000            # octets of standard error that are kept; the rest is read and dropped
SECONDS = 10                # of one run
MEMORY = 2_000_000          # kilobytes of one process
AT_ONCE = 2                 # runs; others wait, so that all together have one bound
PIECE = 65_536
TURNS = threading.BoundedSemaphore(AT_ONCE)
KEEPER = None               # what ends the runs of a server that was killed (keeper.py)


def sentence(said):
    """The first line in which a command describes a fault, without the number of the line."""
    return re.sub(r"^(line \d+: |the input: )", "", said.strip().split("\n")[0])


class Refused(Exception):
    """What the page says in place of an answer."""


@contextmanager
def folder():
    """A folder for a while; the keeper removes it if the server ends before."""
    with tempfile.TemporaryDirectory(prefix="ocp-bench-", ignore_cleanup_errors=True) as path:
        if KEEPER:
            KEEPER.add(path)
        try:
            yield Path(path)
        finally:
            if KEEPER:
                KEEPER.remove(path)


class Allowance:
    """The seconds of one run, or of several that belong together. A run that waits for others uses none."""

    def __init__(self):
        self.left = SECONDS


class Child:
    """A command in a process group of its own, under the bounds; the whole group is killed at its end."""

    def __init__(self, words, blocks=0, directory=None, environment=None, allowance=None):
        if not TURNS.acquire(timeout=3 * SECONDS):
            raise Refused(f"the bench is busy with {AT_ONCE} other runs; ask again")
        try:
            self.allowance, self.begun = allowance or Allowance(), time.monotonic()
            self.until = self.begun + self.allowance.left
            limits = f'ulimit -c 0; ulimit -t {SECONDS}; ulimit -v {MEMORY}; ulimit -f "$0"; exec "$@"'
            self.process = subprocess.Popen(
                ["/bin/sh", "-c", limits, str(blocks), *map(str, words)], stdin=subprocess.PIPE, stdout=subprocess.PIPE,
                stderr=subprocess.PIPE, bufsize=0, cwd=directory, env=environment, start_new_session=True)
        except BaseException:
            TURNS.release()
            raise
        if KEEPER:
            KEEPER.add(self.process.pid)
        self.input, self.said, self.size, self.is_writing = memoryview(b""), b"", 0, False
        self.pipes = selectors.DefaultSelector()
        for pipe in (self.process.stdin, self.process.stdout, self.process.stderr):
            os.set_blocking(pipe.fileno(), False)
        for pipe in (self.process.stdout, self.process.stderr):
            self.pipes.register(pipe, selectors.EVENT_READ)

    def late(self):
        return Refused(f"the run takes over {SECONDS} seconds, and was ended")

    def give(self, octets):
        """Has these octets written while the answer is read."""
        self.input = memoryview(octets)
        self.pipes.register(self.process.stdin, selectors.EVENT_WRITE)
        self.is_writing = True

    def pieces(self):
        """The pieces of standard output as they come, up to its end; input that waits is written meanwhile."""
        while any(key.events == selectors.EVENT_READ for key in self.pipes.get_map().values()):
            left = self.until - time.monotonic()
            if left <= 0:
                raise self.late()
            for key, _ in self.pipes.select(left):
                if key.fileobj is self.process.stdin:
                    self.write()
                    continue
                piece = os.read(key.fd, PIECE)
                if not piece:
                    self.pipes.unregister(key.fileobj)
                elif key.fileobj is self.process.stderr:
                    self.said += piece[:SAID - len(self.said)]
                else:
                    self.size += len(piece)
                    if self.size > PRINTED:
                        raise Refused(f"the run prints over {PRINTED:,} octets, and was ended")
                    yield piece

    def write(self):
        try:
            self.input = self.input[os.write(self.process.stdin.fileno(), self.input[:PIECE]):]
        except BrokenPipeError:
            self.input = self.input[:0]
        if not self.input:
            self.pipes.unregister(self.process.stdin)
            self.is_writing = False
            self.written()

    def written(self):
        """All input is written: a run of one text has no more."""
        self.process.stdin.close()

    def status(self):
        """The exit status, for which the run has what is left of its time. The group is there until it is asked for."""
        while os.waitid(os.P_PID, self.process.pid, os.WEXITED | os.WNOWAIT | os.WNOHANG) is None:
            if time.monotonic() > self.until:
                raise self.late()
            time.sleep(0.001)
        self.end_group()
        return self.process.returncode

    def end_group(self):
        """Ends all that the command started, and takes its status."""
        if self.process.returncode is None:
            try:
                os.killpg(self.process.pid, signal.SIGKILL)
            except OSError:
                pass
            self.process.wait()

    def __enter__(self):
        return self

    def __exit__(self, *_):
        self.allowance.left -= time.monotonic() - self.begun
        try:
            self.end_group()
            self.drain()
        finally:
            if KEEPER:
                KEEPER.remove(self.process.pid)
            self.pipes.close()
            for pipe in (self.process.stdin, self.process.stdout, self.process.stderr):
                pipe.close()
            TURNS.release()

    def drain(self, seconds=2):
        """Waits until the pipes have no writer, so until the whole group has ended."""
        end = time.monotonic() + seconds
        if self.is_writing:
            self.pipes.unregister(self.process.stdin)
        while self.pipes.get_map() and time.monotonic() < end:
            for key, _ in self.pipes.select(end - time.monotonic()):
                if not os.read(key.fd, PIECE):
                    self.pipes.unregister(key.fileobj)


def run(words, text, blocks=0, directory=None, environment=None, allowance=None):
    """Standard output, standard error and status of a command; `blocks` of 512 octets is the longest file that it may write."""
    with Child(words, blocks, directory, environment, allowance) as child:
        child.give(text.encode())
        output = b"".join(child.pieces())
        status = child.status()
    if status in (-signal.SIGKILL, -signal.SIGXCPU):
        raise child.late()
    return output.decode(errors="replace"), child.said.decode(errors="replace"), status


class Talk(Child):
    """A command that is asked line by line, under the same bounds. What it printed for a line ends with a mark."""

    def __init__(self, words, mark, answer):
        super().__init__(words)
        self.mark, self.end = mark, answer.encode()
        self.printing, self.rest = self.pieces(), b""

    def written(self):
        """More may be asked."""

    def ask(self, lines):
        self.give("".join(line + "\n" for line in (*lines, self.mark)).encode())
        printed = []
        while True:
            *whole, self.rest = self.rest.split(b"\n")
            if whole and whole[-1] == self.end:
                return [line.decode(errors="replace") for line in [*printed, *whole[:-1]]]
            printed += whole
            piece = next(self.printing, None)
            if piece is None:
                raise Refused("the run has ended")
            self.rest += piece
