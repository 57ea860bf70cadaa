#!/usr/bin/env python3
"""Instructions of an F8 over a history, counted by valgrind: over how many lines, with how long a text before the caret, and where the lines differ from it.

    searches.py [LINES..]

A line of 1,023 units is kept so many times, 999 by default, and a text is typed. Then come 200 and 400 times F8: what the second 200 took is what F8 costs. In
each row the lines differ from the text at the place told, or at none: then each F8 finds one. CONPTY may name another program than the one built here."""
import os
import sys
import tempfile
from concurrent.futures import ThreadPoolExecutor

sys.dont_write_bytecode = True

import counts
import hostile
import runs

MOST, KEYS = 1_023, 200
# How long the text is, and at which of its units the lines differ from it.
SHAPES = [(64, None), (64, 63), (511, None), (511, 0), (511, 255), (511, 510), (MOST, None), (MOST, 0), (MOST, 479), (MOST, 959), (MOST, MOST - 1)]


def link(lines, units, at, keys):
    text = b"a" * units
    kept = bytearray(b"a" * MOST + b"\r")
    if at is not None:
        kept[at] = ord("b")
    return hostile.typed(bytes(kept) * lines) + b"Q" * (4 * lines) + hostile.typed(text + b"\x1b[19~" * keys)


def counted(lines, units, at, keys):
    calls = [["set-history", 999, 1, 0], *[["read", 1, 2_000]] * (lines + 1)]
    with tempfile.TemporaryDirectory() as folder:
        document, path = hostile.document(folder, "kept", hostile.session(calls)), os.path.join(folder, "link")
        with open(path, "wb") as file:
            file.write(link(lines, units, at, keys))
        return counts.counted([runs.PROGRAM, "solo", document], path)[0]


def searched(pool, most, shapes=SHAPES):
    """What an F8 takes, by lines, units before the caret, and where the lines differ from these."""
    jobs = [(lines, *shape, keys) for lines in most for shape in shapes for keys in (KEYS, 2 * KEYS)]
    found = dict(zip(jobs, pool.map(lambda job: counted(*job), jobs)))
    return {(lines, *shape): (found[lines, *shape, 2 * KEYS] - found[lines, *shape, KEYS]) / KEYS for lines in most for shape in shapes}


def main():
    runs.needs_program()
    most = [int(word) for word in sys.argv[1:]] or [999]
    with ThreadPoolExecutor(os.cpu_count()) as pool:
        found = searched(pool, most)
    print(f"{'lines':>6} {'units':>6} {'differ at':>10} {'instructions of an F8':>22}")
    for (lines, units, at), each in found.items():
        print(f"{lines:6} {units:6} {'nowhere' if at is None else at:>10} {each:22,.0f}")


if __name__ == "__main__":
    main()
