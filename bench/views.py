#!/usr/bin/env python3
"""What a painted view costs in memory, and what a Paint of nothing new costs in time.

    views.py

How much memory a session holds at most whose window is 512 by 256, beside one of 8 by 8, and how much a Paint of one changed row asks for, both in windows of
cells of eight bytes; and the microseconds of an Ask with its Paint, of which nothing is new; each by turns and by threads. Memory is told by a library that is
loaded before the program, for which there must be `cc`."""
import os
import subprocess
import sys
import tempfile

sys.dont_write_bytecode = True

import counts
import hostile
import runs

CELL = 8
SHIM = """
#define _GNU_SOURCE
#include <dlfcn.h>
#include <fcntl.h>
#include <malloc.h>
#include <stdlib.h>
#include <sys/mman.h>
#include <unistd.h>
/* What was asked for in all, what is held, and the most that was. They stand in a file, since a program may end without its destructors. */
static struct counts { long asked, held, most; } none, *counts = &none;
__attribute__((constructor)) static void begin(void)
{
    int file = open(getenv("ASKED"), O_RDWR | O_CREAT | O_TRUNC, 0600);
    if (file >= 0 && ftruncate(file, sizeof *counts) == 0)
        counts = mmap(0, sizeof *counts, PROT_READ | PROT_WRITE, MAP_SHARED, file, 0);
    close(file);
}
static void *got(void *place, long size, long before)
{
    if (!place)
        return place;
    __atomic_add_fetch(&counts->asked, size, __ATOMIC_RELAXED);
    long held = __atomic_add_fetch(&counts->held, (long)malloc_usable_size(place) - before, __ATOMIC_RELAXED);
    if (held > counts->most)
        counts->most = held;
    return place;
}
void *malloc(size_t size)
{
    static void *(*real)(size_t);
    if (!real)
        real = dlsym(RTLD_NEXT, "malloc");
    return got(real(size), size, 0);
}
void *realloc(void *old, size_t size)
{
    static void *(*real)(void *, size_t);
    if (!real)
        real = dlsym(RTLD_NEXT, "realloc");
    long before = old ? malloc_usable_size(old) : 0;
    return got(real(old, size), size, before);
}
void free(void *old)
{
    static void (*real)(void *);
    if (!real)
        real = dlsym(RTLD_NEXT, "free");
    if (old)
        __atomic_sub_fetch(&counts->held, malloc_usable_size(old), __ATOMIC_RELAXED);
    real(old);
}
"""
READS = [["read", 1, 100]]


def allocated(way, session, link, folder):
    """What a session asks for in all and the most that it holds, in bytes, and how many Paints it has."""
    shim, told = os.path.join(folder, "shim.so"), os.path.join(folder, "asked")
    if not os.path.exists(shim):
        subprocess.run(["cc", "-shared", "-fPIC", "-O1", "-x", "c", "-", "-o", shim, "-ldl"], input=SHIM, text=True, check=True)
    document = hostile.document(folder, "session", session)
    env = {**os.environ, "LD_PRELOAD": shim, "ASKED": told}
    ran = subprocess.run([runs.PROGRAM, way, document], input=link, env=env, stdout=subprocess.DEVNULL, stderr=subprocess.PIPE, check=True)
    with open(told, "rb") as count:
        asked, _, most = (int.from_bytes(count.read(8), sys.byteorder) for _ in range(3))
    return asked, most, len(runs.painted(ran.stderr.decode()))


def copies(way, window):
    """How many windows of cells a session holds at most that paints them, beside one of 8 by 8."""
    width, height = window
    with tempfile.TemporaryDirectory() as folder:
        most = []
        for w, h in (window, (8, 8)):
            calls = [["set-mode", 2, 7], ["fill-units", 2, 0, 0, w * h, ord("a")], *READS]
            most.append(allocated(way, hostile.session(calls, window=(w, h)), b"QQQPPP", folder)[1])
    return (most[0] - most[1]) / (CELL * width * height)


def asked(way, window, few=4, more=24):
    """How much memory a Paint of one row asks for, in windows of cells."""
    width, height = window
    with tempfile.TemporaryDirectory() as folder:
        found = []
        for steps in (few, more):
            calls = [["set-mode", 2, 7], *(["write", 2, f"\x1b[{k % 8 + 1}Hrow {k}"] for k in range(steps)), *READS]
            # An Ask behind each Quiet: it is answered before the next frame is read, also where clients are threads.
            found.append(allocated(way, hostile.session(calls, window=window), b"QP" * (steps + 2), folder))
    (least, _, seen), (most, _, all_seen) = found
    return (most - least) / (all_seen - seen) / (CELL * width * height)


def asks(way, count, times=3):
    """Microseconds of the processor of an Ask with its Paint, where nothing is new: those of so many beside a tenth of them."""
    with tempfile.TemporaryDirectory() as folder:
        document = hostile.document(folder, "session", hostile.session(READS))
        few, more = (counts.timed([runs.PROGRAM, way, document], hostile.written(folder, str(n), [b"P" * n]), times)[1] for n in (count // 10, count))
    return 1e6 * (more - few) / (count - count // 10)


def main():
    runs.needs_program()
    for way in ("solo", "run"):
        print(f"{way:4} at most {copies(way, (512, 256)):.1f} windows of cells, {asked(way, (512, 256)):.1f} asked for by a Paint, {asks(way, 100_000):.2f} microseconds an Ask", flush=True)


if __name__ == "__main__":
    main()
