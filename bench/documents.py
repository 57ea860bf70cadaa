#!/usr/bin/env python3
"""How long session documents take to read, beside the kit's own reading of the same bytes as JSON.

    documents.py [MEGABYTES]

A document has 64 clients of 256 calls, each as long as it takes, 16 MB in all if it is not said. Its last call is none, so `solo` reads it to its end and
refuses it there, and nothing runs. With version 0 the same document is refused as soon as its JSON stands: that run is the kit's reading alone, beside what
both have, a file that is read and a tree that is let go. For each kind of call it prints the time of both and their ratio, the peak memory of both, and, where
valgrind is there, instructions a byte of both (of a document with as long calls and an eighth of them)."""
import json
import os
import sys
import tempfile
from concurrent.futures import ThreadPoolExecutor

sys.dont_write_bytecode = True

import counts
import runs

CLIENTS, CALLS, COUNTED = 64, 256, 32
# The version of a document that is read to its end, and of one of which JSON alone is read. Both end with this status, and where they are counted so.
WHOLE, JSON, REFUSED = 2, 0, 3
LAST = {WHOLE: f"clients[{CLIENTS - 1}].calls[{COUNTED - 1}]", JSON: "version"}


def text(size):
    return ["write", 2, "".join(chr(33 + i * 7 % 93) for i in range(size - 18)).replace("\\", "/").replace('"', "'")]


def wide(size):
    return ["write", 2, "\u20ac\u00e9" * ((size - 18) // 5)]


def words(size):
    return ["run-write-attrs", 2, 0, 0, [i * 31 % 256 for i in range((size - 28) // 4)]]


def records(size):
    return ["write-input", 1, [["key", True, 1, 65, 30, 97, 0]] * ((size - 20) // 28)]


def many(size):
    return ["write-input", 1, [["menu", 7]] * ((size - 20) // 11)]


KINDS = text, wide, words, records, many


def made(folder, kind, version, size, count=CALLS):
    """The path of a document whose clients have so many calls, each as long as in a document of this size."""
    calls = [kind(size // (CLIENTS * CALLS))] * count
    clients = [{"program": "sh", "group": 1, "calls": script} for script in [calls] * (CLIENTS - 1) + [calls[1:] + [["none"]]]]
    name = os.path.join(folder, f"{kind.__name__}-{version}-{count}")
    with open(name, "w", encoding="utf-8") as out:
        json.dump({"version": version, "size": [80, 25], "clients": clients}, out, separators=(",", ":"), ensure_ascii=False)
    return name


def a_byte(folder, kind, version, size):
    """Instructions a byte."""
    name = made(folder, kind, version, size, COUNTED)
    count, _, report = counts.counted([runs.PROGRAM, "solo", name], status=REFUSED)
    if report.decode() != f'["end",{REFUSED},"{LAST[version]}"]\n':
        sys.exit(f"{name}: {report.decode()}")
    return count / os.path.getsize(name)


def main():
    size = int(float(sys.argv[1]) * 1_000_000) if len(sys.argv) > 1 else 16_000_000
    runs.needs_program()
    with tempfile.TemporaryDirectory() as folder, ThreadPoolExecutor(os.cpu_count()) as pool:
        for kind in KINDS:
            found = [counts.timed([runs.PROGRAM, "solo", made(folder, kind, version, size)], status=REFUSED) for version in LAST]
            (whole, _, most), (alone, _, peak) = found
            line = f"{kind.__name__:8} {whole:6.3f} s, JSON alone {alone:6.3f}: {whole / alone:.2f} times; {most >> 20} and {peak >> 20} MiB"
            if counts.is_there():
                here, there = pool.map(lambda version: a_byte(folder, kind, version, size), LAST)
                line += f"; {here:.1f} and {there:.1f} instructions a byte: {here / there:.2f} times"
            print(line, flush=True)


if __name__ == "__main__":
    main()
