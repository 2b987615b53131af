"""Proves and builds crates/lib_times, which times single calls of the library, and reads what it prints."""
import os
import subprocess

ROOT = os.path.dirname(os.path.dirname(os.path.abspath(__file__)))
CRATE = f"{ROOT}/crates/lib_times"
BELOW = f"{ROOT}/crates/ocp_core/out"


def built():
    """Proves the program if it is not proved yet, and gives its path; or None if the engine below it is not proved."""
    if not os.path.isdir(BELOW):
        print("calls: skipped, ocp_core is not proved yet")
        return None
    made = subprocess.run(["rt", "run"], cwd=CRATE, stdin=subprocess.DEVNULL, capture_output=True, text=True, check=False)
    if made.returncode:
        print(f"calls: skipped, not proved:\n{made.stdout}{made.stderr}")
        return None
    return f"{CRATE}/out/lib_times"


def nanoseconds(program, rounds):
    """The least nanoseconds a call, by what was called and for how many units."""
    least = {}
    for _ in range(rounds):
        said = subprocess.run([program], capture_output=True, text=True, check=True).stdout
        for line in said.splitlines():
            what, units, block, calls, *_ = line.split()
            row, took = (what, int(units)), int(block) / int(calls)
            least[row] = min(least.get(row, took), took)
    return least


def megabytes(program, rounds):
    """The most megabytes in a second, by each way of bench/c_crc.c."""
    most = {}
    for _ in range(rounds):
        said = subprocess.run([program], capture_output=True, text=True, check=True).stdout
        for line in said.splitlines():
            way, rate, *_ = line.split()
            most[way] = max(most.get(way, 0), float(rate))
    return most
