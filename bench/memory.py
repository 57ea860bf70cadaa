#!/usr/bin/env python3
"""Runs in which there is no memory for one allocation, for each of them in turn, until a run meets no failure.

    memory.py                 the console: the case of crates/cases/data/memory.cases
    memory.py solo [NAME..]   sessions by turns: the examples
    memory.py run [NAME..]    sessions by threads: the examples

An event of the console that was begun in vain must leave no trace: each run prints what it prints with all memory, or ends with status 1 or 2 and prints
nothing, or that the file is none or that there was no memory, where what failed was none of the console's events.

A session by turns ends with status 9, and what stands of its report and of its stream is a front of the right ones: whole lines and then the last line, or,
where there was no memory for those either, a part of that. A report ends before a Paint that has no frame. Or it ends with status 0 and all is right. Of the
examples the right reports are worked out by hand. By threads events come in another order each time: each run ends, with status 9 and the last line
or a part of the report, or with status 0 and the last line.

It prints how many runs there were of each kind, and each other one, and ends with 1 where there was one."""
import os
import re
import subprocess
import sys
import tempfile

import examples
from runs import PROGRAM

CRATES = os.path.join(os.path.dirname(os.path.abspath(__file__)), "..", "crates")
CONSOLE = os.path.join(CRATES, "cases", "out", "cases")
DATA = os.path.join(CRATES, "cases", "data")
MOST = 100_000
BEFORE = b"", b"memory.cases: no file of cases\n", b"memory.cases:0: out of memory\n"
SHIM = """
#define _GNU_SOURCE
#include <dlfcn.h>
#include <fcntl.h>
#include <stdlib.h>
#include <unistd.h>

static long count, fails;

__attribute__((constructor)) static void begin(void)
{
    const char *word = getenv("FAIL_AT");
    fails = word ? atol(word) : 0;
    count = 0;
}

/* Whether this allocation fails. A file is the mark of that, since a program may end without its destructors. */
static int is_due(void)
{
    if (__atomic_add_fetch(&count, 1, __ATOMIC_SEQ_CST) != fails)
        return 0;
    const char *mark = getenv("MARK");
    if (mark)
        close(open(mark, O_WRONLY | O_CREAT, 0600));
    return 1;
}

void *malloc(size_t size)
{
    static void *(*real)(size_t);
    if (!real)
        real = dlsym(RTLD_NEXT, "malloc");
    return is_due() ? 0 : real(size);
}

void *realloc(void *old, size_t size)
{
    static void *(*real)(void *, size_t);
    if (!real)
        real = dlsym(RTLD_NEXT, "realloc");
    return is_due() ? 0 : real(old, size);
}
"""


def sweep(shim, words, link=None, seconds=20, folder=None):
    """Runs with each allocation failing in turn, each with its number, until one meets no failure; before them one with all memory. Each has some seconds."""
    mark = shim + ".mark"
    for n in range(MOST):
        if os.path.exists(mark):
            os.remove(mark)
        given = open(link, "rb") if link else subprocess.DEVNULL
        try:
            env = {"LD_PRELOAD": shim, "FAIL_AT": str(n), "MARK": mark}
            ran = subprocess.run(words, env=env, stdin=given, capture_output=True, check=False, timeout=seconds, cwd=folder)
        except subprocess.TimeoutExpired:
            ran = subprocess.CompletedProcess(words, f"none within {seconds} seconds", b"", b"")
        if link:
            given.close()
        if n and not os.path.exists(mark):
            return
        yield n, ran
    sys.exit(f"more than {MOST} allocations")


def told(what, kinds, others):
    print(f"{what}: {sum(kinds.values())} allocations; " + ", ".join(f"{count} {kind}" for kind, count in kinds.items()), flush=True)
    for other in others:
        print(f"OTHERWISE: {what}, {other}")
    return len(others)


def console(shim):
    kinds, others, whole = {"as with all memory": 0, "ended before": 0}, [], None
    for n, one in sweep(shim, [CONSOLE, "memory.cases"], folder=DATA):
        whole = whole or one
        if n == 0:
            if (one.returncode, one.stdout) != (0, b"memory/events that take memory: ok\n"):
                others.append(f"with all memory: status {one.returncode}, {one.stdout!r}")
            continue
        if (one.returncode, one.stdout) == (whole.returncode, whole.stdout):
            kinds["as with all memory"] += 1
        elif one.returncode in (1, 2) and one.stdout in BEFORE:
            kinds["ended before"] += 1
        else:
            others.append(f"allocation {n}: status {one.returncode}, {one.stdout!r}")
    return told("console", kinds, others)


END = b'["end",9]\n'


def fronts(lines):
    """The reports of a session that ended for want of memory: behind so many of its events, the last of which may be a Paint without its frame."""
    for count in range(len(lines) + 1):
        before = b"".join(lines[:count])
        yield before + END
        if count and lines[count - 1].startswith(b'["p",'):
            yield b"".join(lines[:count - 1]) + re.sub(rb"\d+\]\]\n$", b"0]]\n", lines[count - 1]) + END


def lengths(report):
    return [int(length) for length in re.findall(rb'\["painted",(\d+)\]', report)]


class Whole:
    """A session by turns that had all memory."""

    def __init__(self, ran):
        self.out, self.err = ran.stdout, ran.stderr
        self.fronts = set(fronts(ran.stderr.splitlines(keepends=True)[:-1]))

    def kind_of(self, one):
        """What the session ended with where one allocation failed, or None where that is not right."""
        if (one.returncode, one.stdout, one.stderr) == (0, self.out, self.err):
            return "with status 0, whole"
        if one.returncode != 9 or not self.out.startswith(one.stdout):
            return None
        if one.stderr in self.fronts:
            ends = lengths(one.stderr)
            # What was written is all that was there before the last frame, and no more than its length.
            least = max(ends[:-1], default=0)
            return "with status 9 and the last line" if least <= len(one.stdout) <= max(ends, default=0) else None
        if self.err.startswith(one.stderr) or any(report.startswith(one.stderr) for report in self.fronts):
            return "with status 9 and a part of the report"
        return None


def kind_by_threads(one):
    if one.returncode == 0:
        return "with status 0, whole" if one.stderr.endswith(b'\n["end",0]\n') else None
    if one.returncode != 9:
        return None
    if one.stderr.endswith(END):
        return "with status 9 and the last line"
    last = b"".join(one.stderr.splitlines(keepends=True)[-1:])
    return None if last.startswith(b'["end",') and not END.startswith(last) else "with status 9 and a part of the report"


def session(shim, way, name):
    kinds, others, whole = {}, [], None
    for n, one in sweep(shim, [PROGRAM, way, examples.path(name, "json")], examples.path(name, "link")):
        if n == 0:
            whole = Whole(one)
            if way == "solo" and (one.returncode != 0 or examples.without_lengths(one.stderr) != examples.report_of(name)):
                others.append("with all memory, another report")
            continue
        kind = whole.kind_of(one) if way == "solo" else kind_by_threads(one)
        if kind:
            kinds[kind] = kinds.get(kind, 0) + 1
        else:
            others.append(f"allocation {n}: status {one.returncode}, {len(one.stdout)} bytes, {one.stderr.decode(errors='replace')}")
    return told(f"{way} {name}", kinds, others)


def main():
    way = sys.argv[1] if sys.argv[1:] else "console"
    if not os.access(CONSOLE if way == "console" else PROGRAM, os.X_OK):
        sys.exit("build the program first: tools/prove.py cases; ./conpty type </dev/null >/dev/null")
    with tempfile.TemporaryDirectory() as folder:
        shim = os.path.join(folder, "shim.so")
        subprocess.run(["cc", "-shared", "-fPIC", "-O1", "-x", "c", "-", "-o", shim, "-ldl"], input=SHIM, text=True, check=True)
        if way == "console":
            wrong = console(shim)
        else:
            wrong = sum(session(shim, way, name) for name in sys.argv[2:] or examples.NAMES)
    sys.exit(wrong > 0)


if __name__ == "__main__":
    main()
