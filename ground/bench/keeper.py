"""A process for the server: when the server has ended, in any way, it ends the runs and removes the folders that
are left.
"""
import os
import shutil
import signal

IGNORED = (signal.SIGINT, signal.SIGTERM, signal.SIGHUP)


class Keeper:
    """Told of each process group and each folder that begins and ends. To be begun before the first thread."""

    def __init__(self):
        reading, self.pipe = os.pipe()
        self.child = os.fork()
        if self.child == 0:
            try:
                self.watch(reading)
            finally:
                os._exit(0)
        os.close(reading)

    def watch(self, reading):
        """Reads what is there, up to the end of the server."""
        for number in IGNORED:
            signal.signal(number, signal.SIG_IGN)
        os.setsid()
        os.close(self.pipe)
        nothing = os.open(os.devnull, os.O_RDWR)
        for number in range(3):
            os.dup2(nothing, number)
        there = set()
        with os.fdopen(reading, encoding="utf-8", errors="surrogateescape") as told:
            for line in told:
                (there.add if line[0] == "+" else there.discard)(line[1:-1])
        for each in sorted(there, key=lambda each: not each.isdigit()):
            if each.isdigit():
                try:
                    os.killpg(int(each), signal.SIGKILL)
                except OSError:
                    pass
            else:
                shutil.rmtree(each, ignore_errors=True)

    def tell(self, text):
        try:
            os.write(self.pipe, text.encode(errors="surrogateescape"))
        except OSError:
            pass

    def add(self, what):
        """A process group by its number, or a folder by its path."""
        self.tell(f"+{what}\n")

    def remove(self, what):
        self.tell(f"-{what}\n")

    def end(self):
        """Has it do its work now, and waits for it."""
        os.close(self.pipe)
        os.waitpid(self.child, 0)
