#!/usr/bin/env python3
"""What a second terminal costs: a generated session by `mirror`, with a second terminal of the session's size, beside the same session by `solo`.

    mirror.py [N..]

For each number it makes the document of the generated session, and runs it over a link of one frame: `A` with 80 by 25 for `mirror`, `P` for `solo`. It prints
the instructions of both where valgrind is there, else the least processor's time of five runs, and their ratio."""
import json
import os
import resource
import struct
import subprocess
import sys
import tempfile

sys.dont_write_bytecode = True

import counts
import generated
from runs import PROGRAM, needs_program


def run(form, session, link, folder):
    """What a run took: instructions, or seconds of the processor."""
    words, how = [PROGRAM, form, session], {"input": link, "cwd": folder, "check": True}
    if counts.is_there():
        return counts.counted(words, link, cwd=folder)[0]
    taken = []
    for _ in range(5):
        before = resource.getrusage(resource.RUSAGE_CHILDREN)
        subprocess.run(words, stdout=subprocess.DEVNULL, stderr=subprocess.DEVNULL, **how)
        after = resource.getrusage(resource.RUSAGE_CHILDREN)
        taken.append(after.ru_utime + after.ru_stime - before.ru_utime - before.ru_stime)
    return min(taken)


def both_ways(number):
    """A generated session by `solo` and by `mirror`, and the bytes on the second terminal."""
    with tempfile.TemporaryDirectory() as folder:
        session = os.path.join(folder, "session.json")
        with open(session, "w", encoding="utf-8") as text:
            json.dump(generated.session(number), text)
        alone = run("solo", session, b"P", folder)
        both = run("mirror", session, b"A" + struct.pack(">HH", 80, 25), folder)
        return alone, both, os.path.getsize(os.path.join(folder, "conpty.mirror"))


def main():
    needs_program()
    for number in sys.argv[1:] or ["7", "42", "4294967295"]:
        alone, both, size = both_ways(int(number))
        print(f"session {number:>10}: solo {alone}, mirror {both}, {both / alone:.2f} times; {size} bytes on the second terminal")


if __name__ == "__main__":
    main()
