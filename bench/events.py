#!/usr/bin/env python3
"""Instructions of each kind of event, counted by valgrind in a session by turns.

    events.py [KIND..]

For each kind there are two sessions that differ in how many events of it they have. It prints what one takes, from making its memory ready to its answer: what
differs between the instructions of `Console::prepare` and `Console::apply` where `Desk::enter` calls them, for a Paint of all `Desk::paint`, by the number of
events; the part that makes its memory ready; and how many that is for each unit, cell, record or byte that it touches. Then come ratios to the same events
beside what they do not touch: a window of 512 by 256, 4,096 records more in the queue, 224 handles and 7 buffers more, a history of 100 lines, and for calls
24 clients more that make the same. A larger window is touched by what paints or scrolls it. A read is a Begin and a Collect, and a Paint one of nothing new.
An event of the terminal's side shows some 30 too few: beside it a client goes on, whose calls are dearer behind the link's end."""
import os
import sys
import tempfile
from concurrent.futures import ThreadPoolExecutor
from typing import NamedTuple

sys.dont_write_bytecode = True

import counts
import hostile
import runs

FEW, MORE = 100, 500
# The rounds in which what stands beside the events is made.
HEAD = 250
IDLE = ["mode", 2]
RECORD = ["key", True, 1, 0, 0, 97, 0]
ENTERS = {"within": ("Console::prepare", "Console::apply"), "caller": "Desk::enter"}
PAINTS = {"within": ("Desk::paint",)}


class Kind(NamedTuple):
    """The name of its events in a report, how much one touches, what makes it, a call or a frame of the link, and a call before. An exit is a client more."""

    name: str
    units: int = 0
    call: list = None
    frame: bytes = b""
    before: list = IDLE


KINDS = {
    "mode": Kind("set-mode", call=["set-mode", 2, 7]),
    "text": Kind("write", 20, ["write", 2, "twenty units of text"]),
    "line": Kind("write", 2, ["write", 2, "\r\n"]),
    "colour": Kind("write", 5, ["write", 2, "\x1b[32m"], before=["set-mode", 2, 7]),
    "cursor": Kind("set-cursor", call=["set-cursor", 2, 40, 12]),
    "words": Kind("fill-attrs", 100, ["fill-attrs", 2, 0, 12, 100, 31]),
    "rect": Kind("rect-read", 100, ["rect-read", 2, [0, 0, 19, 4]]),
    "key": Kind("write-input", 1, ["write-input", 1, [RECORD]]),
    "peek": Kind("peek", 4, ["peek", 1, 4], before=["write-input", 1, [RECORD] * 4]),
    "read": Kind("collect", 2, ["read-input", 1, 2], before=["write-input", 1, [RECORD] * 2 * MORE]),
    "feed": Kind("feed", 16, frame=hostile.typed(b"abcdefghijklmnop")),
    "quiet": Kind("quiet", frame=b"Q"),
    "ask": Kind("ask", frame=b"P"),
    "paint": Kind("paint", frame=b"P"),
    "exit": Kind("exit"),
}
# What is beside the events: the window, calls before them, how many clients there are, and what is typed before.
CROWDS = {
    "plain": ((80, 25), [], 1, b""),
    "window": ((512, 256), [], 1, b""),
    "queue": ((80, 25), [["write-input", 1, [["menu", 1]] * 1024]] * 4, 1, b""),
    "handles": ((80, 25), [["buffer-create", 3]] * 7 + [["open-out", 3]] * 224, 1, b""),
    "history": ((80, 25), [["set-history", 100, 1, 0], *[["read", 1, 100]] * 100], 1, b"".join(b"line %02d\r" % k for k in range(100))),
    "clients": ((80, 25), [], 25, b""),
}


def crowds(kind):
    """What events of a kind are measured beside. Clients that only exit do so before there is anything but the window."""
    return list(CROWDS) if kind.call else list(CROWDS)[:5] if kind.frame else ["plain", "window"]


def sizes(name):
    """How many events of a kind its two sessions have. A Paint of a large window takes millions of instructions."""
    return (FEW // 10, MORE // 10) if name in ("paint", "exit") else (FEW, MORE)


def counted(job):
    """The instructions that make memory ready and those that enter the events of a session, or those of its Paints, and how many events of the kind it has."""
    name, crowd, count = job
    kind, (window, calls, clients, typed) = KINDS[name], CROWDS[crowd]
    script = [*calls, kind.before, *([kind.call] * count if kind.call else [IDLE] * (HEAD + MORE))]
    scripts = [script] * clients if kind.call or kind.frame else [[]] * count
    made = {"version": 2, "size": window, "clients": [{"program": "sh", "group": 1, "calls": calls} for calls in scripts]}
    link = hostile.typed(typed) + (b"Q" * HEAD + kind.frame * count if kind.frame else b"")
    with tempfile.TemporaryDirectory() as folder:
        words = [runs.PROGRAM, "solo", hostile.document(folder, "session", made)]
        _, within, report = counts.counted(words, link, **PAINTS if name == "paint" else ENTERS)
    return list(within.values()) + [report.count(b',"%s",' % kind.name.encode())]


def main():
    kinds = sys.argv[1:] or list(KINDS)
    if set(kinds) - set(KINDS):
        sys.exit(f"the kinds are {', '.join(KINDS)}")
    runs.needs_program()
    jobs = [(kind, crowd, count) for kind in kinds for crowd in crowds(KINDS[kind]) for count in sizes(kind)]
    with ThreadPoolExecutor(int(os.environ.get("JOBS") or os.cpu_count())) as pool:
        found = dict(zip(jobs, pool.map(counted, jobs)))
    print(f"{'kind':8} {'events':>7} {'each':>9} {'memory':>8} {'a unit':>8}   beside " + ", ".join(list(CROWDS)[1:]))
    for kind in kinds:
        each = {}
        for crowd in crowds(KINDS[kind]):
            *parts, events = (more - few for few, more in zip(*(found[kind, crowd, count] for count in sizes(kind))))
            each[crowd] = sum(parts) / events, sum(parts[:-1]) / events, events
        (plain, memory, events), units = each["plain"], KINDS[kind].units
        line = f"{kind:8} {events:7} {plain:9,.0f} {f'{memory:8,.0f}' if memory else '':8} {f'{plain / units:8.1f}' if units else '':8}  "
        print(line + "".join(f" {each[crowd][0] / plain:7.2f}" for crowd in list(each)[1:]))


if __name__ == "__main__":
    main()
