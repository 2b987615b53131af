"""Texts, scripts and clients that mean harm: the bench answers in time, keeps within its bounds, and leaves no process or file."""
import json
import os
import signal
import socket
import subprocess
import sys
import tempfile
import threading
import time
from concurrent.futures import ThreadPoolExecutor
from pathlib import Path

import bounds
import client
import connections
import shield
import texts

ENTRY = "unsigned long entry(const unsigned char *arguments, unsigned long count)\n{ return 3; }\n"
IMAGE = "b7000000030000009500000000000000"
# Takes a compiler a minute and more.
SLOW = ("#define A(x) B(B(B(x)))\n#define B(x) C(C(C(x)))\n#define C(x) D(D(D(x)))\n#define D(x) E(E(E(x)))\n"
        "#define E(x) F(F(F(x)))\n#define F(x) G(G(G(x)))\n#define G(x) (x+x+x+x)\n" + ENTRY + "int y = A(A(1));\n")


def waited(holds, seconds=15):
    """Whether something comes to hold."""
    end = time.monotonic() + seconds
    while not holds() and time.monotonic() < end:
        time.sleep(0.05)
    return holds()


def running(part):
    """The processes whose command line has this part."""
    found = set()
    for folder in Path("/proc").glob("[0-9]*"):
        try:
            if part.encode() in (folder / "cmdline").read_bytes():
                found.add(int(folder.name))
        except OSError:
            pass
    return found


def with_way(way, work):
    """Does something with builds under this shield, or under none."""
    usual, shield.way_of = shield.way_of, lambda run: way
    try:
        return work()
    finally:
        shield.way_of = usual


def ways():
    return [way for way in (shield.by_bubblewrap, shield.by_unshare) if shield.holds(way, texts.is_done)]


def files_that_are_read(check, program):
    """A text reads the file of another only if there is no shield."""
    with tempfile.TemporaryDirectory() as folder:
        secret = Path(folder) / "secret"
        secret.write_text("extern int from_another_file;\n")
        readers = [f'#include "{secret}"\n{ENTRY}', f'{ENTRY}__asm__(".section .x; .incbin \\"{secret}\\"");\n']
        for way in (None, *ways()):
            for text in readers:
                image, _, _, faults, _ = with_way(way, lambda text=text: texts.built(program, text))
                is_read = image == IMAGE and not faults
                check(f"a file of another text, {way.__name__ if way else 'no shield'}", is_read == (way is None))
            text = '#include "ocp.h"\n' + ENTRY.replace("3;", "/* \f0 text.c:99 */ 3;")
            image, _, places, faults, said = with_way(way, lambda: texts.built(program, text))
            check("a text of its own under the shield", (image, faults, said) == (IMAGE, [], "") and places == {0: 3, 1: 3})
    if not ways():
        print("skipped: no bubblewrap or unshare that a user may use")


def builds_end(check, program):
    """A build that reads its own output for ever ends in time, with all its processes and its folder; so does a slow one."""
    usual = bounds.SECONDS, tempfile.tempdir
    with tempfile.TemporaryDirectory() as folder:
        bounds.SECONDS, tempfile.tempdir = 1, folder
        try:
            for way, text in ((None, f'#include "/dev/stdout"\n{ENTRY}'), *((way, SLOW) for way in (None, *ways()))):
                began = time.monotonic()
                try:
                    with_way(way, lambda text=text: texts.built(program, text))
                except bounds.Refused as reason:
                    check(f"a build is ended: {reason}", "over 1 seconds" in str(reason))
                else:
                    check("a build takes longer than the bound", False)
                check("a build is ended in time", time.monotonic() - began < 6)
                check("a build leaves no process", waited(lambda: not running(folder), 4))
                check("a build leaves no file", not list(Path(folder).iterdir()))
        finally:
            bounds.SECONDS, tempfile.tempdir = usual
    bounds.SECONDS, usual = 30, bounds.SECONDS  # it takes three on an idle machine
    try:
        faults = texts.built(program, f"#warning {'x' * 90}\n" * 12_000 + ENTRY)[3]
    except bounds.Refused as reason:
        faults = [str(reason)]
    bounds.SECONDS = usual
    check(f"12,000 warnings are no time-out: {faults[-1]}", len(faults) == 201 and faults[200] == [0, "and more"])


def servers_end(check, script):
    """What runs ends with the server, also when that is killed: runs, builds and their folders."""
    for number in (signal.SIGTERM, signal.SIGKILL):
        with tempfile.TemporaryDirectory() as folder:
            child, address = client.serve(folder)
            with child, ThreadPoolExecutor() as pool:
                answers = [pool.submit(client.ask, address, "pass", script=script)]
                loops = lambda: {each for each in running("--journal") if _parent(each) == child.pid}
                check("a long run has begun", waited(loops))
                found = loops()
                if texts.has_clang():
                    # Another build may not begin before the run has ended, so that it is asked of a server of its own.
                    other, its = client.serve(folder)
                    answers.append(pool.submit(client.ask, its, "text", text=SLOW, language="c"))
                    check("a slow build has begun",
                          waited(lambda: any("/clang" in _command(each) for each in running(f"{folder}/ocp-bench-"))))
                    other.send_signal(number)
                    other.wait(15)
                    check(f"no build outlives its server, {number.name}", waited(lambda: not running(f"{folder}/ocp-bench-"), 4))
                    other.stdin.close(), other.stdout.close()
                child.send_signal(number)
                child.wait(15)
                check(f"no run outlives its server, {number.name}", waited(lambda: not any(map(_is_there, found)), 4))
                check(f"no folder outlives its server, {number.name}", waited(lambda: not list(Path(folder).iterdir()), 4))
                for answer in answers:
                    check("the question is cut or refused", answer.exception(10) is not None or answer.result()[0] == 422)


def _parent(process):
    try:
        return int(Path(f"/proc/{process}/stat").read_text().rpartition(")")[2].split()[1])
    except OSError:
        return None


def _command(process):
    try:
        return Path(f"/proc/{process}/cmdline").read_text(errors="replace").partition("\0")[0]
    except OSError:
        return ""


def _is_there(process):
    try:
        return Path(f"/proc/{process}/stat").read_text().rpartition(")")[2].split()[0] != "Z"
    except OSError:
        return False


def runs_together(check):
    """All runs together have one bound: no more than two are there at a time."""
    stamps = "date +%s.%N; sleep 0.2; date +%s.%N"
    with ThreadPoolExecutor(8) as pool:
        spans = [list(map(float, done[0].split())) for done in pool.map(lambda _: bounds.run(["sh", "-c", stamps], ""), range(8))]
    most = max(sum(begin <= moment < end for begin, end in spans) for moment, _ in spans)
    check(f"{most} runs at a time", most <= 2)


# Answers each line by itself, in pieces that chance cuts, so that a read may end anywhere.
IN_PIECES = """
import os, random, sys
chance = random.Random(77)
for line in sys.stdin:
    said = ("answer to " + line + "-\\n") if line != "mark\\n" else "end\\n"
    while said:
        size = chance.randrange(1, 9)
        os.write(1, said[:size].encode())
        said = said[size:]
"""


def cut_reads(check):
    """What a run answers is the same however it is cut into reads."""
    with bounds.Talk([sys.executable, "-c", IN_PIECES], "mark", "end") as talk:
        for count in (0, 1, 2, 50, 3):
            lines = [f"line {number}" for number in range(count)]
            check(f"{count} answers in pieces", talk.ask(lines) == [said for line in lines for said in (f"answer to {line}", "-")])


def strangers(check, address):
    """Connections that say little and slowly keep nobody out, and each address has its share."""
    host, port, _ = client.place_of(address)

    def stranger(source):
        line = socket.create_connection((host, port), 5, (source, 0))
        line.sendall(b"POST / HTTP/1.1\r\n")
        return line

    def is_open(line):
        line.setblocking(False)
        try:
            return line.recv(1) != b""
        except BlockingIOError:
            return True
        except OSError:
            return False

    others = [stranger("127.0.0.2") for _ in range(connections.SHARE)]
    many = [stranger("127.0.0.1") for _ in range(40)]
    for line in many:
        try:
            line.sendall(b"X-A: b\r\n")
        except OSError:
            pass
    began = time.monotonic()
    check("the rightful user", client.ask(address, "names")[0] == 200 and time.monotonic() - began < 4)
    check("those of another address are kept", all(map(is_open, others)))
    check("the oldest of an address go", waited(lambda: sum(map(is_open, many)) < connections.SHARE)
          and not any(map(is_open, many[:30])))
    for line in (*others, *many):
        line.close()
    ours, theirs = socket.socketpair()
    paced, dripping = connections.Paced(ours), threading.Event()
    paced.until = time.monotonic() + 0.5

    def drip():
        while not dripping.wait(0.1):
            theirs.send(b"X")

    threading.Thread(target=drip, daemon=True).start()
    began = time.monotonic()
    try:
        while paced.read(1):
            pass
    except TimeoutError:
        pass
    check("a request that drips has an end", 0.4 < time.monotonic() - began < 2)
    dripping.set()
    ours.close()
    theirs.close()


def raw(address, *lines, body=b"{}"):
    """The status of a request whose lines are given as they are."""
    host, port, path = client.place_of(address)
    with socket.create_connection((host, port), 5) as line:
        head = [f"POST {path}names HTTP/1.1", "Content-Type: application/json", *lines, "", ""]
        line.sendall("\r\n".join(head).encode() + body)
        return int(line.recv(100).split(b" ")[1] or 0)


def requests(check, address):
    """Requests of another shape are refused by name, and none loses its connection."""
    host = "Host: " + address[7:].partition("/")[0]
    length = "Content-Length: 2"
    check("a plain request", raw(address, host, length) == 200)
    check("a second host", raw(address, host, "Host: example.org", length) == 403)
    check("another host before", raw(address, "Host: example.org", host, length) == 403)
    check("a second origin", raw(address, host, f"Origin: http://{host[6:]}", "Origin: http://example.org", length) == 403)
    check("no host", raw(address, length) == 403)
    check("two lengths", raw(address, host, length, "Content-Length: 3") == 413)
    check("pieces", raw(address, host, "Transfer-Encoding: chunked", length) == 413)
    for options in ([], [1], "a", 5, None):
        status, said = client.ask(address, "pass", script="", options=options)
        check(f"options {options}", status == 422 and json.loads(said) == {"refused": "options are an object"})
    zeros = "0" * 5000
    for line in ("time \u00b2", "time \u0663", f"time {'9' * 5000}", "step \u00b2 3", f"step 7 {'9' * 5000}", "view \u00b2",
                 "send 1 communicate 7 \u00b2", "send 99999999999999999999 status", f"step {zeros}7 {zeros}1", f"time {zeros}5",
                 "break 7 \u00b2", "up \u00b2", "send 9 load \u00b2 95", "view\u20037", "send\x0c9 status"):
        status, said = client.ask(address, "pass", script=f"{line}\nsend 9 status\n")
        check(f"a script with {line[:30]!r}", status == 200)
        key = json.loads(said)["key"]
        for name, asked in (("packets", {"line": 0}), ("state", {"done": 0, "count": 0}), ("visits", {"id": 7, "places": [1]}),
                            ("history", {"done": 0, "count": 0, "id": 7})):
            status, said = client.ask(address, name, **asked, **{"pass": key})
            check(f"{name} of {line[:30]!r}: {status} {said[:80]}", status == 200)


def long_pass(check, address, image):
    """Many lines that print much are read while they are written."""
    script = f"send 0 load 7 {image}\nsend 0 activate 7\n" + "view 7\n" * 15_000 + "step 7 20\n"
    key = json.loads(client.ask(address, "pass", script=script)[1])["key"]
    status, said = client.ask(address, "visits", id=7, places=[1], **{"pass": key})
    check(f"breakpoints of a long pass: {said[:100]}", (status, json.loads(said).get("events")) == (200, list(range(3, 22, 2))))


def two_servers(check, address):
    """Each server has a port of its own, so that no other page finds the texts that the browser keeps for it."""
    with tempfile.TemporaryDirectory() as folder:
        child, other = client.serve(folder)
        check("a port of its own", other.startswith("http://") and client.place_of(other)[1] != client.place_of(address)[1])
        child.stdin.close(), child.wait(15), child.stdout.close()
    done = subprocess.run([client.SERVE], stdin=subprocess.DEVNULL, preexec_fn=lambda: os.close(1), capture_output=False,
                          stderr=subprocess.PIPE, timeout=10, text=True, check=False)
    check("no standard output", (done.returncode, done.stderr.count("\n")) == (3, 1))


def all_of(check, program, address, ocp):
    loop = ocp(["asm"], "a: ja a").strip()
    counts = ocp(["asm"], "a: add64 r0, 1\nja a").strip()
    requests(check, address)
    strangers(check, address)
    long_pass(check, address, counts)
    two_servers(check, address)
    runs_together(check)
    cut_reads(check)
    servers_end(check, f"send 0 load 1 {loop}\nsend 0 activate 1\n" + "step 1 1000000\n" * 19_000)
    if not texts.has_clang():
        return print("skipped: no clang")
    files_that_are_read(check, program)
    builds_end(check, program)
