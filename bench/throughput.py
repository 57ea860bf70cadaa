#!/usr/bin/env python3
"""Throughput of the program on texts made from a number, beside `wc -c` on the same texts by pipe in the same run.

    throughput.py [MEGABYTES]

For `type`, `play 80x25` and `play 512x256`, and for each kind of text, it prints megabytes a second, the share of what `wc -c` does,
peak memory, and, where valgrind is there, instructions a byte (on a shorter text, less those of an empty one)."""
import os
import subprocess
import sys
import tempfile
import time

sys.dont_write_bytecode = True

import counts
import make_input
import runs

HERE = os.path.dirname(os.path.abspath(__file__))
FORMS = ("type",), ("play", "80x25"), ("play", "512x256")
SHORT = 400_000


def made(folder, kind, size):
    name = os.path.join(folder, f"{kind}-{size}")
    if not os.path.exists(name):
        with open(name, "wb") as out:
            subprocess.run([sys.executable, os.path.join(HERE, "make_input.py"), kind, str(size)], stdout=out, check=True)
    return name


def run(words, name):
    """The least time of three runs, in seconds, and the peak memory, in KiB."""
    best, peak = None, 0
    for _ in range(3):
        begun = time.perf_counter()
        source = subprocess.Popen(["cat", name], stdout=subprocess.PIPE)
        child = subprocess.Popen(words, stdin=source.stdout, stdout=subprocess.DEVNULL, stderr=subprocess.DEVNULL)
        source.stdout.close()
        _, status, used = os.wait4(child.pid, 0)
        taken = time.perf_counter() - begun
        source.wait()
        if status != 0:
            sys.exit(f"{words} ended with {status}")
        best, peak = min(taken, best or taken), max(peak, used.ru_maxrss)
    return best, peak


def a_byte(form, kind, folder, size=SHORT):
    """Instructions a byte of a form on a kind of text, less those of an empty text."""
    whole, none = (counts.counted([runs.PROGRAM, *form], made(folder, kind, length))[0] for length in (size, 0))
    return (whole - none) / size


def main():
    size = int(float(sys.argv[1]) * 1_000_000) if len(sys.argv) > 1 else 16_000_000
    runs.needs_program()
    with tempfile.TemporaryDirectory() as folder:
        for form in FORMS:
            for kind in make_input.KINDS:
                name = made(folder, kind, size)
                taken, peak = run([runs.PROGRAM, *form], name)
                beside, _ = run(["wc", "-c"], name)
                line = f"{' '.join(form):12} {kind:10} {size / taken / 1e6:8.1f} MB/s  {beside / taken:6.3f} of wc -c  {peak:6} KiB"
                if counts.is_there():
                    line += f"  {a_byte(form, kind, folder):6.1f} instructions a byte"
                print(line, flush=True)


if __name__ == "__main__":
    main()
