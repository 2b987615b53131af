"""500 requests that chance makes: the server answers each by a status of its own, and its next good question as before."""
import json
import random
import socket
import string

import client

NAMES = ("names", "text", "listing", "pass", "state", "history", "visits", "packets", "none", "", "../serve")
KEYS = ("pass", "done", "count", "id", "places", "line", "script", "options", "text", "language", "image", "has")
ANSWERS = {200, 400, 403, 404, 410, 413, 415, 422}
REQUESTS = 500


def some_text(chance):
    """Lines of a script or of a text, and characters that are none."""
    words = ["send", "9", "load", "7", "95000000", "step", "round", "put", "up", "view", "mem", "0x10000000", "work", "2", "time",
             "\u00b2", "\u0663", "99999999999999999999", "-1", "\x00", "\x0c", "\u2028", "\ud800", "\r", "\t", "#", "1923c005",
             "mov64", "r1,", "exit", "lddw", "[r10-8]", ";", "a:", "entry", "0" * 100]
    return "".join(chance.choice(words) + chance.choice((" ", " ", "\n", "  ")) for _ in range(chance.randrange(12)))


def some_value(chance, depth=0):
    kind = chance.randrange(9 if depth < 3 else 6)
    if kind < 2:
        return chance.choice((0, 1, 7, -1, 2, 65_535, 65_536, 10**30, 1.5, 1e400))
    if kind < 4:
        return some_text(chance)
    if kind < 6:
        return chance.choice((None, True, False, "", "c", "asm"))
    if kind == 6:
        return [some_value(chance, depth + 1) for _ in range(chance.randrange(4))]
    return {chance.choice((*KEYS, "profile", "apid", "pool", "journal")): some_value(chance, depth + 1)
            for _ in range(chance.randrange(5))}


def some_question(chance, key):
    """A question with the fields that are asked for, some of them of another kind."""
    asked = {"pass": key, "done": chance.randrange(4), "count": chance.randrange(3), "id": 7, "places": [1], "line": 1,
             "script": some_text(chance), "text": some_text(chance), "image": chance.choice(("95", "9500000000000000", "zz")),
             "options": {"profile": chance.randint(1, 2)}}
    for _ in range(chance.randrange(4)):
        asked[chance.choice(KEYS)] = some_value(chance)
    if asked.get("language") == "c":
        del asked["language"]  # a build takes a second; hostile.py has some
    return asked


def some_body(chance, key):
    body = json.dumps(some_question(chance, key)).encode()
    kind = chance.randrange(10)
    if kind == 0:
        place = chance.randrange(len(body))
        return body[:place] + bytes([chance.randrange(256)]) + body[place + 1:]
    if kind == 1:
        return chance.choice((b"", b"null", b"[]", b"5", b"[" * 5000, b"{" * 100, b"\xff\xfe", b"1" * 5000, b'"\\ud800"'))
    return body


def some_octets(chance, address, key):
    """A whole request as octets, and whether its head is a good one."""
    host, port, path = client.place_of(address)
    body, name = some_body(chance, key), chance.choice(NAMES)
    head = [f"POST {path}{name} HTTP/1.1", f"Host: {host}:{port}", "Content-Type: application/json",
            f"Content-Length: {len(body)}", "Connection: close"]
    good = chance.randrange(4) > 0
    if not good:
        letters = string.ascii_letters + string.digits + ":/\\ ;,\x00\x0c\xff"
        for _ in range(chance.randrange(1, 3)):
            place = chance.randrange(len(head))
            line = head[place]
            cut = chance.randrange(len(line) + 1)
            head[place] = chance.choice((line[:cut], line[:cut] + chance.choice(letters) + line[cut + 1:], f"{line}\r\n{line}", ""))
    return "\r\n".join([*head, "", ""]).encode("latin-1") + body, good


def answer_to(address, octets):
    """The status and the body of an answer; None if the connection was closed without one."""
    host, port, _ = client.place_of(address)
    with socket.create_connection((host, port), 15) as line:
        line.sendall(octets)
        line.shutdown(socket.SHUT_WR)
        said = b""
        try:
            while piece := line.recv(65_536):
                said += piece
        except ConnectionResetError:
            pass  # it closed before it had read all
    head, _, body = said.partition(b"\r\n\r\n")
    words = head.split(b" ", 2)
    return (int(words[1]), body) if len(words) > 1 and words[0].startswith(b"HTTP/") and words[1].isdigit() else None


def requests(check, address, ocp, count=REQUESTS):
    chance = random.Random(77)
    image = ocp(["asm"], "a: add64 r0, 1\nja a").strip()
    script = f"send 9 load 7 {image}\nsend 9 activate 7\nstep 7 3\n"
    good = client.ask(address, "pass", script=script)
    key = json.loads(good[1])["key"]
    state = client.ask(address, "state", done=3, count=0, id=7, **{"pass": key})
    seen = set()
    for number in range(count):
        octets, has_good_head = some_octets(chance, address, key)
        found = answer_to(address, octets)
        if found is None:
            check(f"request {number} has no answer: {octets[:300]}", not has_good_head)
            continue
        status, body = found
        seen.add(status)
        check(f"request {number} is answered with {status}: {octets[:300]} {body[:100]}",
              status in ANSWERS or not has_good_head and 400 <= status < 600 and status != 500)
        if has_good_head and status != 404 or status == 200:
            said = json.loads(body)
            check(f"request {number} has its answer", isinstance(said, dict) and (status == 200) == ("refused" not in said))
    check(f"all kinds of answers are seen: {seen}", seen >= {200, 400, 403, 404, 422})
    again = json.loads(client.ask(address, "pass", script=script)[1])
    check("a good question after them", {**again, "from": 0} == {**json.loads(good[1]), "from": 0}
          and client.ask(address, "state", done=3, count=0, id=7, **{"pass": key}) == state)
