"""Crates proved side by side, each in a room of its own: what `./ocp build` and `./ocp library` share. `tools/build` explains the order.

What is proved is kept in crates/NAME/out, with a stamp of the sources that it was proved from. The stamp is written last: whatever
ends a build, and whenever, the next one resumes with the crates that have no stamp of their sources.
"""
import contextlib
import ctypes
import errno
import fcntl
import hashlib
import os
import shutil
import signal
import subprocess
import sys
import tempfile
import time
from concurrent.futures import ThreadPoolExecutor
from pathlib import Path

import source
from kit import NATIVE, library_for, version

ROOT = os.path.dirname(os.path.dirname(os.path.realpath(__file__)))
PROGRAM, STATIC = "ocp", "ocp_c"
PARTS = ("src", "specs", "proofs")
STAMP = "proved"
# The folder of what is made of a crate, and the one in it that a check resumes from.
MADE, STEPS = "out", "incremental"
ROOMS = "ocp-rooms-"
LINES_A_SECOND = 20
JOB_OCTETS = 2 << 30
# A chain counts as the longest if it is shorter by less than NEAR seconds. For each STEP_SECONDS that its chain is shorter, the
# priority of a crate is a step lower. Both were chosen by few builds and by a model of them.
NEAR = 90
STEP_SECONDS = 120
MOST_STEPS = 19


def stop(why):
    print(f"{os.path.basename(sys.argv[0])}: {why}", file=sys.stderr)
    sys.exit(1)


def read(path):
    with open(path, encoding="utf-8") as file:
        return file.read()


def rows_of(path):
    return [line.split() for line in read(path).splitlines()]


def memory():
    return os.sysconf("SC_PAGE_SIZE") * os.sysconf("SC_PHYS_PAGES")


class Crate:
    """A crate of crates.txt: the one that is wanted, for a target, or one that it uses."""

    def __init__(self, root, name, line, uses, target=NATIVE):
        self.root, self.name, self.line, self.uses, self.target = root, name, line, uses, target
        self.folder = f"{root}/crates/{name}"
        self.key = name if target == NATIVE else f"{name}-{target.partition('-')[0]}"
        self.is_program = os.path.isfile(f"{self.folder}/src/main.rt")
        self.is_static = "staticlib" in line.partition(":")[0].split()
        self.below, self.stamp = set(), ""
        # The seconds of the longest chain of crates that begins with this one, and the next of that chain.
        self.chain, self.next = 0, None
        self.seconds, self.most_jobs = 0, None

    def made(self):
        """What its proof leaves."""
        built = f"out/{self.name}" if self.is_program else f"out/rlib/{self.name}.rlib"
        return f"{self.folder}/{library_for(self.target) if self.is_static else built}"

    def kept(self):
        """The folder of its stamp and its verdict."""
        return f"{self.folder}/{MADE}" + (f"/{self.target}" if self.target != NATIVE else "")

    def files(self):
        """Its sources, in a fixed order."""
        found = []
        for part in PARTS:
            for folder, folders, names in os.walk(f"{self.folder}/{part}"):
                folders.sort()
                found += [f"{folder}/{name}" for name in sorted(names)]
        return found

    def lines(self):
        return sum(read(path).count("\n") for path in self.files())

    def learn(self, known):
        """Takes its seconds and its most jobs from tools/seconds; if it is not there, counts the seconds by its lines."""
        self.seconds, self.most_jobs = known.get(self.name, (self.lines() // LINES_A_SECOND, None))

    def is_proved(self):
        """Whether its last build had the same sources, its own and those below it."""
        try:
            return os.path.exists(self.made()) and read(f"{self.kept()}/{STAMP}") == self.stamp
        except OSError:
            return False


def crates_of(root, top=PROGRAM, targets=(NATIVE,)):
    """A crate for each target, and all crates below it, by key, each with the crates that it uses and with its longest chain."""
    listed = {crate.name: crate for crate in source.crates(Path(root))}
    if top not in listed:
        stop(f"crates.txt names no {top}")
    found = {}

    def visit(name, target=NATIVE):
        line, uses = listed[name].line, listed[name].uses
        crate = Crate(root, name, line, [use for use in uses if use in listed], target)
        if crate.key not in found:
            for use in crate.uses:
                crate.below |= {use} | visit(use).below
            found[crate.key] = crate
        return found[crate.key]

    for target in targets:
        visit(top, target)
    known = {name: (int(seconds), int(jobs[0]) if jobs else None) for name, seconds, *jobs in rows_of(f"{root}/tools/seconds")}
    # Highest first: a crate has more below it than any crate that it uses.
    for crate in sorted(found.values(), key=lambda it: -len(it.below)):
        above = [it for it in found.values() if crate.name in it.uses]
        crate.next = max(above, key=lambda it: it.chain, default=None)
        crate.learn(known)
        crate.chain = crate.seconds + (crate.next.chain if crate.next else 0)
    write_stamps(found)
    return found


def print_longest_chain(crates):
    """Prints the crates that are proved one after another whatever runs beside them: a line each, and the sum."""
    crate = first = max(crates.values(), key=lambda it: it.chain)
    while crate:
        print(f"{crate.name} {crate.seconds}")
        crate = crate.next
    print(f"all {first.chain}")


def write_stamps(crates):
    """Gives each crate the sum of all that its proof reads: the toolchain, its line of crates.txt, and its sources and those below it."""
    said = version()
    for crate in sorted(crates.values(), key=lambda it: len(it.below)):
        digest = hashlib.sha256(f"{said}\n{crate.line}\n".encode())
        for use in sorted(crate.uses):
            digest.update(crates[use].stamp.encode())
        for path in crate.files():
            digest.update(os.path.relpath(path, crate.folder).encode())
            digest.update(read(path).encode())
        crate.stamp = digest.hexdigest()


def share(source, target):
    """Gives a file that is only read a second name, or copies it to another file system."""
    try:
        os.link(source, target)
    except OSError:
        shutil.copy2(source, target)


def make_room(crates, crate, folder):
    """Makes a folder with a copy of a crate's sources, and with what is proved of those below it. Answers the path of the copy."""
    os.makedirs(f"{folder}/crates")
    with open(f"{folder}/crates.txt", "w", encoding="utf-8") as file:
        file.writelines(f"{crates[it].line}\n" for it in (*crate.below, crate.name))
    shutil.copy(f"{crate.root}/HANDLES", folder)
    for name in crate.below:
        # A proof reads what is proved below it, and not how.
        steps = shutil.ignore_patterns(STEPS)
        shutil.copytree(crates[name].folder, f"{folder}/crates/{name}", ignore=steps, copy_function=share)
    return shutil.copytree(crate.folder, f"{folder}/crates/{crate.name}", ignore=shutil.ignore_patterns(MADE))


def ended_with_parent():
    """Puts a process into a group that can be ended as one, and has it killed when this process ends, however it ends. In a session
    of its own it would not yield: Linux shares cores among sessions."""
    os.setpgrp()
    ctypes.CDLL(None).prctl(1, signal.SIGKILL)


class Room:
    """A crate that is being proved, in a folder with a copy of it and of the crates below it."""

    def __init__(self, crates, crate, place, jobs, slack):
        self.crate, self.jobs, self.start = crate, jobs, time.time()
        self.folder = f"{place}/{crate.key}"
        self.inner = make_room(crates, crate, self.folder)
        self.log = f"{place}/{crate.key}.log"
        steps = min(slack // STEP_SECONDS, MOST_STEPS)
        words = ["nice", "-n", str(steps), f"{crate.root}/tools/prove", self.inner, "--jobs", str(jobs), "--target", crate.target]
        with open(self.log, "w", encoding="utf-8") as log:
            self.run = subprocess.Popen(words, stdin=subprocess.DEVNULL, stdout=log, stderr=log, preexec_fn=ended_with_parent)

    def close(self):
        """Ends what still runs, or hands what was proved to the crate. The room is left as it is."""
        if self.run.poll() is None:
            os.killpg(self.run.pid, signal.SIGTERM)
            self.run.wait()
        elif self.run.returncode == 0:
            self.hand_over()

    def hand_over(self):
        """Gives the crate what was made of it here, in the place of what it had. The steps of a check stay there."""
        kept = f"{self.crate.folder}/{MADE}"
        os.makedirs(kept, exist_ok=True)
        for made in os.scandir(f"{self.inner}/{MADE}"):
            if made.is_dir():
                shutil.rmtree(f"{kept}/{made.name}", ignore_errors=True)
            shutil.move(made.path, f"{kept}/{made.name}")
        with open(f"{self.crate.kept()}/{STAMP}", "w", encoding="utf-8") as file:
            file.write(self.crate.stamp)


class Build:
    """Proves what is not proved yet."""

    def __init__(self, crates, place, cores, times, removals):
        self.crates, self.place, self.cores, self.times, self.removals = crates, place, cores, times, removals
        self.proved = {it.key for it in crates.values() if it.is_proved()}
        # The most jobs that there is memory for.
        self.most = max(memory() // JOB_OCTETS, cores)
        self.rooms, self.start, self.shown = {}, time.time(), 0.0

    def ready(self):
        """The crates that can be proved now, those with the longest chain above them first."""
        found = [
            it
            for it in self.crates.values()
            if it.key not in self.proved and it.key not in self.rooms and it.below <= self.proved
        ]
        return sorted(found, key=lambda it: -it.chain)

    def left_of(self, crate):
        """The seconds that are left of its chain."""
        room = self.rooms.get(crate.key)
        return crate.chain - (min(time.time() - room.start, crate.seconds) if room else 0)

    def open_rooms(self):
        """Opens the rooms of the crates that can be proved, while there are jobs for them."""
        longest = max((self.left_of(it) for it in self.crates.values() if it.key not in self.proved), default=0)
        for crate in self.ready():
            slack = max(int(longest) - crate.chain, 0)
            wanted = crate.most_jobs or self.cores if slack < NEAR else 1
            jobs = min(wanted, self.most - sum(it.jobs for it in self.rooms.values()))
            if jobs < 1:
                return
            self.rooms[crate.key] = Room(self.crates, crate, self.place, jobs, slack)

    def close_rooms(self):
        """Takes the rooms away whose proofs have ended. Answers the one that failed, if one did."""
        for name, room in list(self.rooms.items()):
            if room.run.poll() is not None:
                room.close()
                # In a thread of its own: it may take ten seconds.
                self.removals.submit(shutil.rmtree, room.folder, ignore_errors=True)
                del self.rooms[name]
                if room.run.returncode != 0:
                    return room
                self.proved.add(name)
                self.keep_time(name, time.time() - room.start)
                self.show()
        return None

    def keep_time(self, name, seconds):
        """Adds the seconds of a crate to the file that is to have them."""
        if self.times:
            with open(self.times, "a", encoding="utf-8") as file:
                file.write(f"{name} {seconds:.0f}\n")

    def show(self):
        """Says how far it is: over one line of a terminal, or a line each time that a crate is proved."""
        gone = int(time.time() - self.start)
        line = f"{len(self.proved)} of {len(self.crates)} crates, {gone // 60} min {gone % 60:02} s"
        if self.rooms:
            line += f": {', '.join(self.rooms)}"
        if sys.stderr.isatty():
            width = shutil.get_terminal_size().columns - 1
            print(f"\r{line[:width]:{width}}", end="", file=sys.stderr, flush=True)
        else:
            print(line, file=sys.stderr, flush=True)
        self.shown = time.time()

    def run(self):
        """Proves all. Answers the room of a proof that failed, if one did."""
        try:
            while len(self.proved) < len(self.crates):
                failed = self.close_rooms()
                if failed:
                    return failed
                self.open_rooms()
                if sys.stderr.isatty() and time.time() - self.shown > 1:
                    self.show()
                time.sleep(0.2)
            return None
        finally:
            for room in self.rooms.values():
                room.close()
            if sys.stderr.isatty():
                print(file=sys.stderr)


def minutes_left(crates, cores):
    """About how many minutes a build of what is not proved takes on idle cores, by tools/seconds."""
    left = [it for it in crates.values() if not it.is_proved()]
    keys, chains = {it.key for it in left}, {}
    for crate in sorted(left, key=lambda it: -len(it.below)):
        above = [chains[it.key] for it in left if crate.name in it.uses and it.key in chains]
        chains[crate.key] = crate.seconds + max(above, default=0)
    most = max(max(chains.values(), default=0), sum(it.seconds for it in left) / cores)
    return len(keys), -(-int(most) // 60)


def git_of(root):
    """The folder of git's own state, which no check reads; none if there is no git."""
    git = f"{root}/.git"
    if os.path.isfile(git):
        git = os.path.join(root, read(git).strip().removeprefix("gitdir: "))
    return git if os.path.isdir(git) else None


@contextlib.contextmanager
def place_of(root):
    """A folder for rooms, held by one build of a clone at a time. What a killed build left is removed."""
    held = os.open(f"{root}/crates", os.O_RDONLY)
    try:
        try:
            fcntl.flock(held, fcntl.LOCK_EX | fcntl.LOCK_NB)
        except BlockingIOError:
            print("Waits for another build of this clone.", file=sys.stderr)
            fcntl.flock(held, fcntl.LOCK_EX)
        git = git_of(root)
        for name in os.listdir(git) if git else []:
            if name.startswith(ROOMS):
                shutil.rmtree(f"{git}/{name}", ignore_errors=True)
        with tempfile.TemporaryDirectory(prefix=ROOMS, dir=git, ignore_cleanup_errors=True) as place:
            yield place
    finally:
        os.close(held)


def prove_all(crates, cores, times=None):
    """Proves what is not proved yet, and stops with a message if it cannot."""
    signal.signal(signal.SIGTERM, lambda *_: sys.exit(1))
    signal.signal(signal.SIGHUP, lambda *_: sys.exit(1))
    try:
        with place_of(ROOT) as place, ThreadPoolExecutor(1) as removals:
            build = Build(crates, place, cores, times, removals)
            if build.proved != set(crates):
                count, minutes = minutes_left(crates, cores)
                print(f"Proves {count} of {len(crates)} crates, in about {minutes} minutes on {cores} idle cores."
                      " What is proved is kept in crates/*/out.", file=sys.stderr)
            failed = build.run()
            if failed:
                print(read(failed.log), end="", file=sys.stderr)
                stop(f"{failed.crate.key} is not proved")
    except KeyboardInterrupt:
        stop("interrupted; the next build resumes here")
    except (OSError, shutil.Error) as why:
        if os.strerror(errno.ENOSPC) in str(why):
            stop("the disk is full; what is proved is kept, and the next build resumes here")
        stop(f"{why}; what is proved is kept, and the next build resumes here")
