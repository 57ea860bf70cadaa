#!/usr/bin/env python3
"""Each figure of speed that has an aim, beside it and beside its peer, as one table, whose rows docs/DECISIONS.md has with the reasons of those that miss.

    figures.py [--quick] [POINT..]

The points are paints, views, threads, keys, texts, frames, terminals, entries and mirror; without words all are measured, in some half an hour on four
processors. With --quick inputs are smaller and windows no larger than 80 by 64: some minutes. Each figure is counted instructions (valgrind --tool=callgrind),
bytes, a ratio, or the least time of some runs. The measuring is that of the other scripts here. A peer is another program that does the same, or the same
program where it has less to do. It wants what bench/README.md says, and shows no peer that is not installed. JOBS names how many counted runs go side by side.

It judges by the aims alone, and ends with 0 also where one is missed."""
import argparse
import os
import sys
import tempfile
from concurrent.futures import ThreadPoolExecutor

sys.dont_write_bytecode = True

import counts
import entries
import frames
import make_input
import mirror
import paints
import peers
import readers
import runs
import searches
import sessions
import threads
import throughput
import views
import words

missed = met = 0


def shown(value):
    if value is None:
        return "–"
    if isinstance(value, str):
        return value
    return f"{value:,.0f}" if abs(value) >= 100 or value == int(value) else f"{value:.1f}" if abs(value) >= 10 else f"{value:.2f}"


def row(point, what, figure, aim=None, peer=None, name=""):
    """A row of the table. The figure must be at most the aim."""
    global missed, met
    verdict = "" if aim is None or isinstance(figure, str) else "met" if figure <= aim else "missed"
    met, missed = met + (verdict == "met"), missed + (verdict == "missed")
    beside = "–" if peer is None else f"{shown(peer)} ({name})"
    print(f"| {point} | {what} | {shown(figure)} | {shown(aim)} | {beside} | {verdict} |", flush=True)


# ---- paints

# Instructions by which the painter compares a cell with the one before.
PASS = 28


def slopes(found, kind, w, heights):
    """What a doubling of the rows adds beside the one before, for each doubling: 2 is a straight line, and 4 a square."""
    steps = [found[kind, w, h].paint for h in heights]
    adds = [max(b - a, 1) for a, b in zip(steps, steps[1:])]
    return [b / a for a, b in zip(adds, adds[1:])]


def measure_paints(quick, pool):
    widths, heights = ((80,), paints.HEIGHTS[:4]) if quick else ((80, 512), paints.HEIGHTS)
    found = paints.measured(pool, widths, heights)
    w, h = widths[-1], heights[-1]
    for kind in ("half", "line", "two", "none"):
        # The smallest windows are left out: what does not depend on the rows weighs most there.
        worst = max(slopes(found, kind, width, heights[1:])[-1] for width in widths)
        row("a paint", f"{kind}: what the last doubling of the rows adds, beside the one before", worst, 2.1, 2, "a straight line")
    nothing = found["none", w, h]
    for kind in ("half", "line", "two"):
        step = found[kind, w, h]
        passes = (step.paint - nothing.paint) / paints.changed(kind, w, h) / PASS
        row("a paint", f"{kind} ({w} by {h}): a Paint, in passes over the cells of the rows that changed", passes, 4, 1, "one pass")
    row("nothing new", f"a Paint, instructions a cell of the window ({w} by {h})", nothing.paint / (w * h), 0.1)
    row("nothing new", "its frame alone, instructions a row", nothing.frame / h, 100)
    row("nothing new", "its frame, bytes", nothing.length, 10)
    for kind in ("buffer", "resize"):
        row("nothing new", f"{kind}: a frame, in passes over the cells", found[kind, w, h].frame / (w * h) / PASS, 1.1 if kind == "buffer" else None)


def measure_views(quick, pool):
    size = (80, 25) if quick else (512, 256)
    name = f"{size[0]} by {size[1]}"
    for way in ("solo", "run"):
        row("the view", f"`{way}`: the most memory that is held, in windows of cells ({name})", views.copies(way, size), 4)
        row("the view", f"`{way}`: memory asked for by a Paint of one row, in windows of cells ({name})", views.asked(way, size), 1)
    for way in ("solo", "run"):
        row("nothing new", f"`{way}`: an Ask and its Paint, microseconds of the processor (80 by 25)", views.asks(way, 20_000 if quick else 100_000), 1)


# ---- sessions

def measure_threads(quick, pool):
    seed = "1"
    events, count, _, _ = sessions.generated(seed)
    whole, others, copied, framed = sessions.parts(seed, events, count)
    _, processor, _ = counts.timed([runs.PROGRAM, "gen", seed], runs=9)
    row("sessions", "an event of a generated session that is no Paint, instructions", others)
    row("sessions", "the same, microseconds of the processor at the pace of the whole run", 1e6 * others * processor / (whole * events), 2)
    row("sessions", "a Paint of it, instructions, of which the frame has the last", f"{copied + framed:,.0f}, {framed:,.0f}")
    with tempfile.TemporaryDirectory() as folder:
        here, _, beside, processor = threads.speeds(folder, 64, 3 if quick else 9)
        if beside:
            row("sessions", "64 clients by threads: their time beside that of the same calls at a mutex", beside / here, 2, 1, "a mutex of std")
        row("sessions", "64 clients by threads: the processor's time beside that by turns", processor, 1.5, 1, "by turns")
        times, _ = threads.echoes(folder)
        row("sessions", "from a typed byte to its echo, microseconds, the middle of a hundred", 1e6 * sorted(times)[50], 150)
    each = readers.measured(pool, 512 if quick else 2_048)
    few, middle, most = (each[clients] for clients in readers.CLIENTS)
    row("sessions", "32 readers by turns, an event beside that of 16", middle / few, 1.1, 1, "16 readers")
    row("sessions", "64 readers by turns, an event beside that of 16", most / few, 1.1, 1, "16 readers")


def measure_keys(quick, pool):
    lines = 200 if quick else 999
    shapes = [(511, 510), (searches.MOST, searches.MOST - 1), (searches.MOST, None)]
    found = searches.searched(pool, (lines // 2, lines), shapes)
    far, near = found[lines, searches.MOST, searches.MOST - 1], found[lines, 511, 510]
    row("keys", f"F8 over {lines} lines that differ at the last unit before the caret, instructions", far)
    row("keys", "the same with 1,023 units before the caret, beside 511", far / near, 1.1, 1, "511 units")
    row("keys", "the same, beside half as many lines", far / found[lines // 2, searches.MOST, searches.MOST - 1], 2.1, 2, "a straight line")
    row("keys", "F8 where the newest line is found, instructions", found[lines, searches.MOST, None])
    half, whole, beside = (words.taken(program, count)[0] for program, count in ((runs.PROGRAM, 80_000), (runs.PROGRAM, 160_000), ("/bin/true", 160_000)))
    row("keys", "160,000 words of a command line, seconds", whole, 1, beside, "/bin/true")
    row("keys", "the same, beside 80,000", whole / half, 2.2, 2, "a straight line")


# ---- texts

# Where less than now is wanted, and the size of the window by `play`. The others are by `type`.
AIMS = [
    ("sgr", "type", 45), ("sgr", "80x25", 45), ("motion", "type", 40), ("motion", "80x25", 40), ("random", "type", 100), ("random", "80x25", 100),
    ("reverse", "type", 90), ("region", "type", 60), ("lifts", "type", 120), ("rows", "type", 60), ("characters", "type", 80), ("cleared", "type", 150),
    ("short", "512x256", 80),
]
# How long a text is for a peer.
BESIDE = 100_000
SAID = {
    "sgr": "dense SGR", "motion": "random cursor motion", "random": "random bytes", "reverse": "ESC M at the top of a region", "region": "LF at the bottom of a region",
    "lifts": "CSI S and CSI T", "rows": "rows inserted and deleted", "characters": "characters inserted and deleted", "cleared": "the display erased for every few characters",
    "short": "lines of up to 8 characters",
}


def measure_texts(quick, pool):
    length = BESIDE if quick else throughput.SHORT
    with tempfile.TemporaryDirectory() as folder:
        beside = peers.counters(folder)
        for kind in SAID:
            for size in (0, BESIDE, length):
                throughput.made(folder, kind, size)

        def counted(job):
            kind, where, _ = job
            size = "80x25" if where == "type" else where
            here = throughput.a_byte(["type"] if where == "type" else ["play", size], kind, folder, length)
            # For each line libvterm moves all cells of a large window, one by one: that would take minutes.
            there = {name: count for name, count in beside.items() if size == "80x25" or name != "libvterm"}
            found = {name: peers.a_byte(count, kind, size, folder, BESIDE) for name, count in there.items()}
            best = min(found, key=found.get, default=None)
            return here, best and found[best], best

        for (kind, where, aim), (here, best, name) in zip(AIMS, pool.map(counted, AIMS)):
            row("texts", f"`{where}` {SAID[kind]}" if where == "type" else f"`play` {where} {SAID[kind]}", here, aim, best, name)


# ---- frames

def measure_frames(quick, pool):
    with tempfile.TemporaryDirectory() as folder:
        found = frames.lengths(folder)
    for name, here, beside in found:
        row("frames", f"{name}, bytes", here, beside, beside, "ncurses")
    row("frames", "all eighteen, bytes", sum(here for _, here, _ in found), sum(beside for _, _, beside in found), sum(beside for _, _, beside in found), "ncurses")


def measure_terminals(quick, pool):
    with tempfile.TemporaryDirectory() as folder:
        for name, others in frames.shown(folder):
            row("terminals", f"{name}: cells and cursors of the eighteen pictures that are others", sum(others), 0)


# ---- histories

def measure_entries(quick, pool):
    size = 1 << 19 if quick else 4 << 20
    for way in entries.WAYS:
        memory, _, processor, count = entries.measured(way, size, 1 if quick else 3)
        row("entries", f"`{way}`: an entry without text, bytes", memory, 64)
        row("entries", f"`{way}`: the same, microseconds of the processor", processor, 1)
        row("entries", f"`{way}`: the same, instructions", count)


def measure_mirror(quick, pool):
    for number in (7,) if quick else (7, 42, 4294967295):
        alone, both, _ = mirror.both_ways(number)
        row("mirror", f"a second terminal of the session's size, session {number}", both / alone, 1.3, 1, "`solo`")


POINTS = {
    "paints": measure_paints, "views": measure_views, "threads": measure_threads, "keys": measure_keys, "texts": measure_texts, "frames": measure_frames,
    "terminals": measure_terminals, "entries": measure_entries, "mirror": measure_mirror,
}


def main():
    call = argparse.ArgumentParser(description="Figures of speed beside their aims and peers.")
    call.add_argument("--quick", action="store_true", help="smaller inputs and windows")
    call.add_argument("points", nargs="*", metavar="POINT", help=", ".join(POINTS))
    asked = call.parse_args()
    if set(asked.points) - set(POINTS):
        call.error(f"the points are {', '.join(POINTS)}")
    points = asked.points or list(POINTS)
    runs.needs_program()
    if not counts.is_there():
        sys.exit("install valgrind first")
    print("| point | what | figure | aim: at most | peer | |\n|---|---|---|---|---|---|", flush=True)
    with ThreadPoolExecutor(int(os.environ.get("JOBS") or os.cpu_count())) as pool:
        for point in points:
            POINTS[point](asked.quick, pool)
    print(f"\n{met} aims are met, {missed} missed.")


if __name__ == "__main__":
    main()
