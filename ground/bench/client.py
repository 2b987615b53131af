"""Starts the server, and asks it, as the tests do."""
import http.client
import json
import os
import subprocess
from pathlib import Path

SERVE = Path(__file__).resolve().parent / "serve"


def serve(folder, *words):
    """The server, which takes this folder for its home and for what is temporary, and its address."""
    surroundings = dict(os.environ, TMPDIR=str(folder), HOME=str(folder))
    child = subprocess.Popen([SERVE, *words], stdin=subprocess.PIPE, stdout=subprocess.PIPE, text=True, cwd=folder,
                             env=surroundings)
    return child, child.stdout.readline().strip()


def place_of(address):
    """Host, port and path of an address."""
    host, _, path = address.removeprefix("http://").partition("/")
    return host.split(":")[0], int(host.split(":")[1]), f"/{path}"


def request(address, path=None, method="POST", body=b"{}", **headers):
    """Status and text of an answer."""
    host, port, rest = place_of(address)
    line = http.client.HTTPConnection(host, port, timeout=30)
    line.request(method, f"{rest}{path or ''}", body, {"Content-Type": "application/json"} | headers)
    answer = line.getresponse()
    return answer.status, answer.read().decode()


def ask(address, name, **asked):
    return request(address, name, body=json.dumps(asked).encode())
