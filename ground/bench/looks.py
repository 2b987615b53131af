"""Looks that need lines of their own beside those of the pass: records of the last instructions, frames, and when a
procedure comes to a place. What the program says then of the procedure is compared with the state of the same moment.
"""
import re
import sys
from pathlib import Path

from bounds import Refused, Talk, run
from console import step_of, words_of
from passes import mark_of, touched

sys.path.insert(0, str(Path(__file__).resolve().parent.parent))
import ground  # noqa: E402

KEPT = 256                  # records that the program keeps
VISITS = 2_000


def command_of(found):
    """The command of a run whose journal has room for the lines of the look."""
    return [found.program, "run", *(word for name, value in dict(found.options, journal=1_000_000).items()
                                    for word in (f"--{name}", str(value)))]


def does_nothing(row):
    """Whether a line found the journal full; with a greater journal it would do something."""
    return any("JournalFull" in shown for shown in row["printed"])


def records(found, done, count, number):
    """The records of a procedure's last instructions before a moment, each with place, outcome, registers and text."""
    begin, enough = done, count if count and step_of(found.lines[done])[0] == number else 0
    while begin > 0 and enough < KEPT and not found.rows[begin - 1].get("free"):
        begin -= 1
        step = step_of(found.lines[begin])
        if step and step[0] == number:
            enough += found.rows[begin]["events"]
    line, mark = mark_of()
    on = f"trace {number} on"
    asked = [text for text, row in zip(found.lines[:begin], found.rows) if not does_nothing(row)] + [on]
    for text, row in zip(found.lines[begin:done], found.rows[begin:done]):
        if not does_nothing(row):
            again = touched(text)[0] == number and words_of(text)[0] in ("send", "up", "trace")
            asked += [text, on] if again else [text]
    asked += found.prefix(done, count)[done:]
    output = run(command_of(found), "".join(f"{text}\n" for text in [*asked, line, "trace", line, f"view {number}"]))[0]
    parts = output.split(f"{mark}\n")
    if len(parts) != 3 or parts[2].splitlines() != found.state(done, count, number)["views"].get(number, []):
        raise Refused("the records of this moment can't be had")
    rows = []
    for shown in parts[1].splitlines():
        form = re.match(r"trace (\d+) (\d+) (Ran|Called|Ended|Faulted \d) ((?:[0-9a-f]{16} ){11})(.*)$", shown)
        if form and int(form[1]) == number:
            rows.append([int(form[2]), form[3], form[4].split(), form[5]])
    return rows


def frames(rows, depth):
    """The calls that are open, the innermost first: depth, place of the call, and the registers that its exit brings back."""
    found = []
    level = wanted = depth
    for place, outcome, registers, text in reversed(rows):
        if wanted == 0:
            break
        if outcome == "Ran" and text == "exit":
            level += 1
        elif outcome == "Ran" and text.startswith("call local"):
            if level == wanted:
                found.append([level, place, registers[6:10]])
                wanted -= 1
            level -= 1
    return found


def history(found, done, count, number):
    """Records and frames of a moment."""
    view = found.state(done, count, number)["views"].get(number)
    if view is None:
        return {"records": [], "frames": [], "depth": 0}
    depth = int(view[0].split()[7])
    rows = records(found, done, count, number)
    return {"records": rows, "frames": frames(rows, depth), "depth": depth}


def visits(found, number, places):
    """The events at which a running procedure comes to one of these places, whether a breakpoint holds it there or not."""
    events = []
    resume = f"up {ground.resume(number).packet(0, 0, 0, found.options['apid']).hex()}"
    with Talk(command_of(found), *mark_of()) as talk:
        begin = 0
        waiting = []
        for text, row in zip(found.lines, found.rows):
            step = step_of(text)
            if row.get("fault") or len(events) >= VISITS:
                break
            if step and step[0] == number and row["events"]:
                again = f"{words_of(text)[0]} {number}"
                events += [begin + each for each in visits_of_line(talk, waiting, number, places, step[1], again, resume)]
                waiting = []
            elif not does_nothing(row):
                waiting.append(text)
            begin += 1 if row.get("free") else row["events"]
    return {"events": sorted(set(events))[:VISITS], "more": len(events) >= VISITS}


def visits_of_line(talk, before, number, places, count, again, resume):
    """The same of one `step` or `round` line, counted from its begin; `again` are its first words."""
    events, done = [], 0
    view = talk.ask([*before, f"view {number}"])[-12].split()
    if view[2] == "running" and int(view[5]) in places:
        events.append(0)
    answers = talk.ask([f"break {number} {place}" for place in places])
    if any(answer.endswith("BreaksFull") for answer in answers):
        raise Refused("this procedure has 8 breakpoints: remove one to look for other places")
    mine = [place for place, answer in zip(places, answers) if answer.endswith(" set")]
    while done < count:
        shown = talk.ask([f"{again} {count - done}", f"view {number}"])
        outcome = shown[0].split()
        if outcome[3] != "Broke":
            break
        done += int(outcome[2]) - 1
        place = int(shown[1].split()[5])
        if place in places:
            events.append(done)
        if place not in mine or len(events) >= VISITS:
            break
        talk.ask([resume])
    talk.ask([f"unbreak {number} {place}" for place in mine])
    return events
