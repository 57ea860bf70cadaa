#!/usr/bin/env python3
"""What a paint costs beside the window's height: instructions of `solo`, counted by valgrind.

    paints.py [WIDTH..]

In windows of 80 and 512 columns, or those given, and of 8 to 256 rows, a client does the same step again and again, and each step is
painted. What a step takes is the difference between a session of few steps and one of some more: first the whole step, with its call and
its report in it, then its view and its frame alone, then both by each cell of the rows that changed, or of the window. All pages are of equal rows at first, since a search that compares whole screens goes furthest in them.

- two: the last two rows change, each in its first cell
- half: all cells of the lower half change, and none above
- line: CR LF at the bottom, and some text, so that rows are lifted
- none: a frame of output is wanted, and nothing changed
- buffer: another buffer is shown, with the same cells
- resize: the window gets the size that it has

Behind each step's count stands its ratio to the one of half as many rows. At most 2 is a straight line; 4 is a square. JOBS names how
many run side by side."""
import json
import os
import sys
import tempfile
from concurrent.futures import ThreadPoolExecutor
from typing import NamedTuple

sys.dont_write_bytecode = True

import counts
import hostile
import runs

HEIGHTS = [8, 16, 32, 64, 128, 256]
FEW, MORE = 2, 6
VIEW, FRAME = "Desk::paint", "painting::draw"


def move(row):
    return f"\x1b[{row}H"


def two(w, h, i):
    unit = "bc"[i % 2]
    return ["write", 2, move(h - 1) + unit + move(h) + unit]


def half(w, h, i):
    return ["fill-units", 2, 0, h // 2, w * (h - h // 2), ord("bc"[i % 2])]


def line(w, h, i):
    return ["write", 2, f"\r\nline {i}"]


def other(w, h, i):
    return ["activate", [4, 2][i % 2]]


# What is done in a step, and of how many cells the rows are that changed.
KINDS = {"two": two, "half": half, "line": line, "none": None, "buffer": other, "resize": None}


def changed(kind, w, h):
    return w * {"two": 2, "half": h - h // 2}.get(kind, h)


def session(kind, w, h, steps):
    calls = [["set-mode", 2, 7], ["fill-units", 2, 0, 0, w * h, ord("a")], ["write", 2, move(h)]]
    if kind == "buffer":
        calls += [["buffer-create", 3], ["fill-units", 4, 0, 0, w * h, ord("a")]]
    link = b"Q" * (len(calls) + 1)
    if KINDS[kind]:
        # The first step is in both sessions, so that none of those that are counted begins on the page as it was filled.
        calls += [KINDS[kind](w, h, i) for i in range(steps + 1)]
        link += b"Q" * (steps + 1)
    else:
        calls.append(["read", 1, 20])
        link += (b"P" if kind == "none" else hostile.size(w, h)) * (steps + 1)
    return {"version": 2, "size": [w, h], "clients": [{"program": "bench", "group": 1, "calls": calls}]}, link


def counted(job):
    """The instructions of a session, of its views and of its frames, and where each frame ends."""
    kind, w, h, steps = job
    document, link = session(kind, w, h, steps)
    with tempfile.TemporaryDirectory() as folder:
        name = os.path.join(folder, "session.json")
        with open(name, "w", encoding="utf-8") as out:
            json.dump(document, out)
        count, parts, report = counts.counted([runs.PROGRAM, "solo", name], link, (VIEW, FRAME))
    return (count, parts[VIEW], parts[FRAME]), runs.painted(report.decode())


class Step(NamedTuple):
    """What a step takes: its instructions, those of the view and of the frame, and the frame's bytes."""

    whole: float
    view: float
    frame: float
    length: float

    @property
    def paint(self):
        return self.view + self.frame


def measured(pool, widths=(80, 512), heights=HEIGHTS, kinds=tuple(KINDS)):
    """The step of each kind, width and height."""
    shapes = [(kind, w, h) for kind in kinds for w in widths for h in heights]
    jobs = [(*shape, steps) for shape in shapes for steps in (FEW, MORE)]
    results, found = dict(zip(jobs, pool.map(counted, jobs))), {}
    for shape in shapes:
        (few, seen), (more, all_seen) = (results[(*shape, steps)] for steps in (FEW, MORE))
        if len(all_seen) - len(seen) != MORE - FEW:
            sys.exit(f"{shape}: {len(all_seen) - len(seen)} paints in place of {MORE - FEW}")
        ends = all_seen[-1] - seen[-1]
        found[shape] = Step(*((b - a) / (MORE - FEW) for a, b in zip((*few, 0), (*more, ends))))
    return found


def jobs_to_use():
    return int(os.environ.get("JOBS") or os.cpu_count())


def main():
    widths = [int(word) for word in sys.argv[1:]] or [80, 512]
    runs.needs_program()
    with ThreadPoolExecutor(jobs_to_use()) as pool:
        found = measured(pool, widths)
    print(f"{'columns':>7} {'kind':6} {'rows':>4} {'a step':>12} {'ratio':>6} {'its view':>12} {'its frame':>12} {'a cell':>8} {'bytes':>8}")
    for (kind, w, h), step in found.items():
        before = found.get((kind, w, h // 2))
        ratio = f"{step.whole / before.whole:.2f}" if before else ""
        parts = f"{step.view:12,.0f} {step.frame:12,.0f} {step.paint / changed(kind, w, h):8.1f}"
        print(f"{w:7} {kind:6} {h:4} {step.whole:12,.0f} {ratio:>6} {parts} {step.length:8,.0f}")


if __name__ == "__main__":
    main()
