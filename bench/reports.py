#!/usr/bin/env python3
"""How many instructions a byte of a report takes to read and to write, counted by valgrind in the program itself.

    reports.py [MEGABYTES]

For each kind of line there are two reports, 1 MB if it is not said and half of it. `audit` reads them: their last line is wrong, so it refuses them once all
were read, and does nothing else with them. What differs between the instructions of both runs is divided by the bytes. The peer is the kit's own reading of
the same lines as one array of JSON: that of a session document of version 0, which `solo` refuses as soon as its JSON stands. Then comes a session by `solo`
whose report has such lines, once to a standard error that takes all and once to one that takes nothing: what differs, by the bytes, is the writing."""
import os
import sys
import tempfile
from concurrent.futures import ThreadPoolExecutor

sys.dont_write_bytecode = True

import counts
import hostile
import runs

CALLS, NOTHING = 512, "/dev/full"
TEXT = "forty units of text that are all written"
RECORD = ["key", True, 1, 65, 30, 97, 0]


def write(i):
    return '["c1","write",[2,"%s"],["ok",40]]' % "".join("%04x" % (32 + (i + k) % 95) for k in range(40))


def cells(i):
    return '["c2","rect-read",[2,[0,0,79,24]],["ok",[0,0,79,24],"%s"]]' % ("%04x0007" % (65 + i % 26) * 2000)


def records(i):
    return '["c3","peek",[1,64],["ok",[%s]]]' % ",".join('["key",true,1,65,30,%d,0]' % (97 + (i + k) % 26) for k in range(64))


def short(i):
    return '["t","quiet",[],["ok"]]'


def paint(i):
    return '["p","paint",[],["painted",%d]]' % (i * 1000)


# Each kind of line, and what makes it: a call, or a frame of the link.
KINDS = {write: ["write", 2, TEXT], cells: ["rect-read", 2, [0, 0, 79, 24]], records: ["peek", 1, 64], short: b"Q", paint: b"P"}


def lines(kind, size):
    """Lines of so many bytes in all, or a few more."""
    made, length = [], 0
    while length < size:
        made.append(kind(len(made)))
        length += len(made[-1]) + 1
    return made


def read(kind, size):
    """The instructions of an audit of a report of this size, and its bytes."""
    with tempfile.TemporaryDirectory() as folder:
        report = "".join(line + "\n" for line in lines(kind, size)) + "wrong\n"
        names = [hostile.document(folder, "session", hostile.IDLE), *(hostile.written(folder, name, []) for name in ("link", "stream"))]
        names.append(hostile.written(folder, "report", [report.encode()]))
        count, _, said = counts.counted([runs.PROGRAM, "audit", *names], status=13)
    if said.decode() != '["audit","no",%d,"line"]\n' % (report.count("\n") - 1):
        sys.exit(f"{kind.__name__}: {said.decode()}")
    return count, len(report)


def alone(kind, size):
    """The instructions of a document with these lines that is refused once its JSON was read, and its bytes."""
    with tempfile.TemporaryDirectory() as folder:
        text = '{"version":0,"size":[80,25],"clients":[%s]}' % ",".join(lines(kind, size))
        count, _, said = counts.counted([runs.PROGRAM, "solo", hostile.written(folder, "session", [text.encode()])], status=3)
    if said != b'["end",3,"version"]\n':
        sys.exit(f"{kind.__name__}: {said.decode()}")
    return count, len(text)


def written(kind):
    """The instructions a byte of the writing of a report's lines."""
    made = KINDS[kind]
    calls, link = ([made] * CALLS, b"") if isinstance(made, list) else ([["mode", 2]] * 9, made * CALLS)
    with tempfile.TemporaryDirectory() as folder, open(NOTHING, "wb") as nothing:
        words = [runs.PROGRAM, "solo", hostile.document(folder, "session", hostile.session([["write-input", 1, [RECORD] * 64], *calls]))]
        whole, _, report = counts.counted(words, link)
        none, _, _ = counts.counted(words, link, status=6, err=nothing)
    return (whole - none) / len(report)


def main():
    size = int(float(sys.argv[1]) * 1_000_000) if len(sys.argv) > 1 else 1_000_000
    runs.needs_program()
    with ThreadPoolExecutor(int(os.environ.get("JOBS") or os.cpu_count())) as pool:
        jobs = [(way, kind, most) for kind in KINDS for way in (read, alone) for most in (size // 2, size)]
        found, writing = dict(zip(jobs, pool.map(lambda job: job[0](*job[1:]), jobs))), dict(zip(KINDS, pool.map(written, KINDS)))
    for kind in KINDS:
        each = {}
        for way in (read, alone):
            (few, before), (more, whole) = found[way, kind, size // 2], found[way, kind, size]
            each[way] = (more - few) / (whole - before)
        told = f"read {each[read]:6.1f} instructions a byte, JSON alone {each[alone]:6.1f}: {each[read] / each[alone]:5.2f} times"
        print(f"{kind.__name__:8} {told}; written {writing[kind]:6.1f}", flush=True)


if __name__ == "__main__":
    main()
