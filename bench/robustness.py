#!/usr/bin/env python3
"""The program as an attacker, a careless user and a system under load would use it: what it ends with, how long that takes, and how much memory.

    robustness.py [--page] [GROUP..]

The groups are memory, calls, links, documents, sizes, texts, files, streams and limits; without words these are tried, which takes some minutes. Two more are
largest, whose sessions take gigabytes or some minutes each, and longest, whose sessions take hours; each of both has a limit of memory and one of time, and is
left out where too little memory is free, so nothing else should run then. What has to come is said by the statuses of docs/FORMATS.md and the rules of
docs/PROFILE.md; streams and reports of runs that were disturbed are a front of those of a run that was not. Prints a line for each case, and with `--page`
writes those of each group into docs/ROBUSTNESS.md, behind its heading "Each case", where those of other groups stay. Ends with 1 where one was otherwise than
it has to be. CONPTY may name another program than the one that is built here.

Allocations, reads and writes fail by a library that is loaded before the program, for which there must be `cc`."""
import argparse
import collections
import json
import os
import select
import signal
import subprocess
import sys
import tempfile
import time

import examples
import hostile
import memory
import runs

DONE, WANT, WAYS, SECOND = '["end",0]', '["end",9]', ("solo", "run"), "conpty.mirror"
table = runs.Table()
DOCS = os.path.join(os.path.dirname(os.path.abspath(__file__)), "..", "docs")

SHIM = """
#define _GNU_SOURCE
#include <dlfcn.h>
#include <errno.h>
#include <fcntl.h>
#include <stdlib.h>
#include <string.h>
#include <unistd.h>

static const char *what;
static long at, most, count;

__attribute__((constructor)) static void begin(void)
{
    const char *word;
    what = getenv("FAILS");
    at = (word = getenv("FAILS_AT")) ? atol(word) : 0;
    most = (word = getenv("AT_MOST")) ? atol(word) : 0;
}

/* Whether this call fails. A file is the mark of that. */
static int is_due(const char *name)
{
    if (!what || strcmp(what, name) || __atomic_add_fetch(&count, 1, __ATOMIC_SEQ_CST) != at)
        return 0;
    const char *mark = getenv("MARK");
    int (*really)(const char *, int, ...) = dlsym(RTLD_NEXT, "open");
    if (mark)
        close(really(mark, O_WRONLY | O_CREAT, 0600));
    errno = EIO;
    return 1;
}

static size_t part(size_t size) { return most && size > (size_t)most ? (size_t)most : size; }

int open(const char *path, int how, ...)
{
    static int (*really)(const char *, int, ...);
    if (!really)
        really = dlsym(RTLD_NEXT, "open");
    return is_due(strstr(path, "conpty.mirror") ? "making" : "opening") ? -1 : really(path, how, 0600);
}

ssize_t read(int file, void *into, size_t size)
{
    static ssize_t (*really)(int, void *, size_t);
    if (!really)
        really = dlsym(RTLD_NEXT, "read");
    return is_due(file ? "file" : "link") ? -1 : really(file, into, part(size));
}

ssize_t write(int file, const void *from, size_t size)
{
    static ssize_t (*really)(int, const void *, size_t);
    if (!really)
        really = dlsym(RTLD_NEXT, "write");
    return is_due(file == 2 ? "report" : file == 1 ? "stream" : "second") ? -1 : really(file, from, part(size));
}
"""


# What a session by threads may end with where the system refuses it a thread.
NO_THREAD = ("0", "9")


class Room:
    """A folder with what all cases use."""

    def __init__(self, folder):
        self.folder = folder
        self.idle = hostile.document(folder, "idle.json", hostile.IDLE)
        self.listing = hostile.document(folder, "listing.json", hostile.listing())
        self.listing_link = self.file("listing.link", hostile.LISTING_LINK)
        self.shell, self.shell_link = examples.path("shell", "json"), examples.path("shell", "link")
        self.mirror, self.mirror_link = examples.path("mirror", "json"), examples.path("mirror", "link")

    def path(self, name):
        return os.path.join(self.folder, name)

    def file(self, name, text):
        return hostile.written(self.folder, name, [text])

    def second(self):
        """What a run by `mirror` wrote to its second terminal. The file goes, so that the next run makes it."""
        try:
            with open(self.path(SECOND), "rb") as stream:
                text = stream.read()
            os.remove(self.path(SECOND))
            return text
        except FileNotFoundError:
            return b""

    def library(self, name, source):
        path = self.path(name)
        subprocess.run(["cc", "-shared", "-fPIC", "-O1", "-x", "c", "-", "-o", path, "-ldl"], input=source, text=True, check=True)
        return path


def shown(ran, size="80x25"):
    """What a stream shows."""
    return subprocess.run([runs.PROGRAM, "play", size], input=ran.out.first, capture_output=True, check=False).stderr.decode()


# ---- each allocation fails in turn

def swept(shim, words, link, kind_of, folder=None):
    """How the runs with each allocation failing ended, by their kinds."""
    kinds, others, begun = collections.Counter(), [], time.perf_counter()
    for n, ran in memory.sweep(shim, [runs.PROGRAM, *words], link, seconds=5, folder=folder):
        kind = kind_of(n, ran)
        kinds[(kind or "otherwise").removeprefix("with status ")] += n > 0
        others += [f"allocation {n}: status {ran.returncode}"] * (kind is None)
    table.count(f"`{words[0]} {os.path.basename(words[1])}`", kinds, others, time.perf_counter() - begun)


class Turns:
    """What a session by turns may end with, by the first run, in which nothing failed."""

    def __init__(self):
        self.whole = None

    def __call__(self, n, ran):
        if n == 0:
            self.whole = memory.Whole(ran)
        return self.whole.kind_of(ran)


def by_threads(_, ran):
    return memory.kind_by_threads(ran) if ran.returncode in (0, 9) else None


def undisturbed(room):
    """The session that is disturbed below, which leaves the picture that its files ask for."""
    table.group("Nothing fails")
    for way in WAYS:
        ran = runs.run([way, room.listing], room.listing_link)
        other = "" if shown(ran, "120x30") == hostile.LISTING_DUMP else "the picture of the last 29 files"
        table.expect(f"`{way} listing.json`", ran, "0", DONE, other)


def memories(room):
    undisturbed(room)
    table.group("Each allocation fails in turn")
    shim = room.library("memory.so", memory.SHIM)
    both = hostile.document(room.folder, "two scripts", hostile.session([["count", 1]] * 2, clients=2))
    swept(shim, ["solo", room.listing], room.listing_link, Turns())
    swept(shim, ["solo", room.shell], room.shell_link, Turns())
    swept(shim, ["mirror", room.mirror], room.mirror_link, Turns(), room.folder)
    swept(shim, ["run", both], os.devnull, by_threads)


# ---- each read and write fails in turn

# The status and the last line by what fails: the calls that open and read the session's file, that read the link, and that write the stream and the report.
LASTS = {
    "opening": ("7", '["end",7,"failed"]'),
    "file": ("7", '["end",7,"failed"]'),
    "link": ("4", '["end",4,"link"]'),
    "stream": ("5", '["end",5,"term"]'),
    "report": ("6", None),
}
# The same of the file of a second terminal: the call that makes it, and those that write it.
SECONDS = {"making": ("12", '["end",12,"mirror"]'), "second": ("12", '["end",12,"mirror"]')}
CALLS = {
    "opening": "each opening of the file",
    "file": "each read of the file",
    "link": "each read of the link",
    "making": f"each making of `{SECOND}`",
    "second": f"each write of `{SECOND}`",
}


def fault_of(what, ran, whole):
    """What is wrong with a run in which a call of this kind failed."""
    ended, last = (LASTS | SECONDS)[what]
    if (ran.ended, last or ran.err.last_line()) != (ended, ran.err.last_line()):
        return f"status {ran.ended}, {ran.err.last_line()}"
    if not whole.out.first.startswith(ran.out.first):
        return "the stream is no front"
    return "" if what != "report" or whole.err.first.startswith(ran.err.first) else "the report is no front"


def failing(room, shim, words, link, what, fronts=True):
    """Runs with each call of a kind failing in turn, until a run meets none."""
    mark, others, begun, n = room.path("mark"), [], time.perf_counter(), 1
    whole, second = runs.run(words, link, folder=room.folder), room.second()
    while True:
        if os.path.exists(mark):
            os.remove(mark)
        env = {"LD_PRELOAD": shim, "FAILS": what, "FAILS_AT": str(n), "MARK": mark}
        ran = runs.run(words, link, env=env, folder=room.folder)
        left = room.second()
        is_front = not fronts or second.startswith(left)
        if not os.path.exists(mark):
            break
        fault = fault_of(what, ran, whole if fronts else ran) or "" if is_front else f"`{SECOND}` is no front"
        others += [f"call {n}: {fault}"] * bool(fault)
        n += 1
    told = f"{CALLS.get(what, f'each write of the {what}')} by `{' '.join(map(os.path.basename, words))}` fails in turn"
    ended, last = (LASTS | SECONDS)[what]
    table.count(told, collections.Counter({ended: n - 1}), others + ["none failed"] * (n == 1), time.perf_counter() - begun, last or "")


def pieces(room, shim, words, link, fronts=True):
    """A byte at a time: all is as it is with whole pieces."""
    whole, second = runs.run(words, link, folder=room.folder), room.second()
    ran = runs.run(words, link, env={"LD_PRELOAD": shim, "AT_MOST": "1"}, folder=room.folder)
    same = (whole.out.first, whole.err.first, second) == (ran.out.first, ran.err.first, room.second())
    told = " ".join(map(os.path.basename, words))
    other = "" if same or not fronts else "the same stream and report"
    table.expect(f"`{told}`, whose reads and writes take a byte at a time", ran, whole.ended, whole.err.last_line(), other)


def calls(room):
    table.group("Each read and each write fails in turn, with EIO")
    shim = room.library("calls.so", SHIM)
    turns = [(["solo", room.listing], room.listing_link, LASTS), (["solo", room.shell], room.shell_link, LASTS)]
    others = [(["gen", "7"], None, ("stream", "report")), (["type"], room.shell, ("link", "stream")), (["play", "80x25"], room.shell, ("link", "report"))]
    others += [(["mirror", room.mirror], room.mirror_link, LASTS | SECONDS)]
    for words, link, kinds in turns + others:
        for what in kinds:
            # Behind a link that failed clients go on, so that what is shown last may be another picture.
            failing(room, shim, words, link, what, fronts=(words[0], what) != ("mirror", "link"))
        pieces(room, shim, words, link)
    for what in LASTS:
        failing(room, shim, ["run", room.shell], room.shell_link, what, fronts=False)
    pieces(room, shim, ["run", room.shell], room.shell_link, fronts=False)


# ---- links that are cut or spoiled

def cuts(way, name, path, link, room):
    kinds, others, begun = collections.Counter(), [], time.perf_counter()
    for word, text in hostile.spoiled(link):
        ran, wanted = runs.run([way, path], room.file("spoiled", text), folder=room.folder), hostile.end_of(text, way == "mirror")
        kinds[wanted[0]] += 1
        others += [f"{word}: {ran.ended}, {ran.err.last_line()}, and not {wanted[1]}"] * ((ran.ended, ran.err.last_line()) != wanted)
    table.count(f"the link of {name}, `{way}`: cut at each byte, and each byte set to 0 and to 255", kinds, others, time.perf_counter() - begun)


def links(room):
    table.group("Links that are cut or spoiled")
    for way in WAYS:
        cuts(way, "the listing", room.listing, hostile.LISTING_LINK, room)
    for name in examples.NAMES:
        with open(examples.path(name, "link"), "rb") as link:
            cuts("solo", name, examples.path(name, "json"), link.read(), room)
    with open(room.mirror_link, "rb") as link:
        cuts("mirror", "mirror", room.mirror, link.read(), room)


# ---- documents

def named(room, name, pieces_of):
    return hostile.written(room.folder, name, pieces_of)


# Documents of 16,777,216 bytes: a front, what comes again and again, and a back, each with the last line of its report.
SPELLED = (
    ("`[` alone", b"", b"[", b"", '["end",3,"json"]'),
    ("spaces alone", b"", b" ", b"", '["end",3,"json"]'),
    ("one number", b"[1", b"1", b"]", '["end",3,"json"]'),
    ("one text", b'"', b"a", b'"', '["end",3,""]'),
    ("one text of escapes", b'"', b"\\u0007", b'"', '["end",3,""]'),
    ("arrays that are empty", b"[", b"[],", b"[]]", '["end",3,""]'),
    ("objects that are empty", b"[", b"{},", b"{}]", '["end",3,""]'),
    ("zeros", b"[", b"0,", b"0]", '["end",3,""]'),
    ("one key, and those of a session are missing", b'{"', b"a", b'":0}', '["end",3,"version"]'),
)
KEYED = b'{"version":1,"size":[8,2],"clients":[{"program":"a","group":1,"calls":[]}],"'
WRITING = b'{"version":1,"size":[8,2],"clients":[{"program":"a","group":1,"calls":[["write",2,"'


def spelled(room):
    for what, front, unit, back, last in SPELLED:
        ran = runs.run(["solo", named(room, "large", hostile.filled(front, unit, back))])
        table.expect(f"16,777,216 bytes: {what}", ran, "3", last)
    ran = runs.run(["solo", named(room, "large", hostile.filled(b"", b"[", most=hostile.MOST + 1))])
    table.expect("one byte more: `[` alone", ran, "3", '["end",3,"length"]')
    ran = runs.run(["solo", named(room, "large", hostile.filled(KEYED, b"a", b'":0}'))])
    is_told = ran.err.first.startswith(b'["end",3,"aaa') and ran.err.count == hostile.MOST - len(KEYED) - 4 + len('["end",3,""]\n')
    table.expect("16,777,216 bytes: an unknown key, which the path tells", ran, "3", other="" if is_told else "the key as its path")
    key = "\x9b\x7f\u202e".encode()
    ran = runs.run(["solo", room.file("keyed", KEYED + key + b'":0}')])
    other = "" if ran.err.first == b'["end",3,"' + key + b'"]\n' else "the key as its path"
    table.expect("an unknown key of U+009B, U+007F and U+202E, which stands in the path as it is", ran, "3", other=other)
    ran = runs.run(["solo", named(room, "large", hostile.filled(WRITING, b"a", b'"]]}]}'))])
    table.expect("16,777,216 bytes: a `write` of one text, which is refused with 1816", ran, "0", DONE, "" if b'["fail",1816]' in ran.err.last else "1816")


def crowds(room):
    """As many clients and calls as there may be, and one more."""
    small = [["write", 2, "abc"], ["count", 1], ["set-cursor", 2, 1, 1], ["mode", 2]] * 64
    for way in WAYS:
        table.expect(f"64 clients of 256 calls, `{way}`", runs.run([way, hostile.document(room.folder, "crowd", hostile.session(small, 64))]), "0", DONE)
    most = ((64, [*small, ["count", 1]], "clients"), (65, [], "clients"), (1, small * 4 + [["count", 1]], "clients[0].calls"))
    for clients, script, path in most:
        ran = runs.run(["solo", hostile.document(room.folder, "crowd", hostile.session(script, clients))])
        table.expect(f"{clients} clients of {len(script)} calls", ran, "3", f'["end",3,"{path}"]')


def longest_session(room):
    """A document of 16,777,216 bytes, of 64 clients with as many calls as there may be; what is left over is spaces."""
    count, left = divmod(hostile.MOST - len(json.dumps(hostile.session([["write", 2, ""]] * 256, 64))), 64 * 256)
    one = hostile.session([["write", 2, "a" * count]] * 256)
    front, back = json.dumps({**one, "clients": [None]}).encode().split(b"null")
    client = json.dumps(one["clients"][0]).encode()
    path = named(room, "large", [front, *[client + b", "] * 63, client, back, b" " * left])
    for way in WAYS:
        table.expect(f"16,777,216 bytes: 64 clients of 256 calls, each a `write` of {count} units, `{way}`", runs.run([way, path]), "0", DONE)


def documents(room):
    table.group("Documents")
    spelled(room)
    crowds(room)
    longest_session(room)


# ---- sessions that ask for much

def sizes(room):
    table.group("Sessions that ask for much")
    for way in WAYS:
        for what, unit in (("escape", b"\x1b"), ("the byte 255", b"\xff"), ("`ESC [`", b"\x1b["), ("moves of the mouse", b"\x1b[<35;1;1M")):
            ran = runs.run([way, room.idle], named(room, "link", hostile.fed(unit)))
            table.expect(f"16 MiB that are typed, and nobody reads, `{way}`: {what}", ran, "0", DONE)
        frames(room, way)
    for what, unit in (("ESC", b"\x1b"), ("255", b"\xff")):
        ran = runs.run(["solo", room.idle], named(room, "link", hostile.filled(b"", unit)))
        table.expect(f"a link of 16,777,216 bytes {what}", ran, "8", '["end",8,0,"tag"]')
    ran = runs.run(["solo", room.idle], named(room, "link", hostile.filled(b"X", b"z")))
    table.expect("X, and 16 MiB that are not read", ran, "0", DONE)
    lines(room)
    controls(room)
    lists(room)


def frames(room, way):
    """Frames that cost the most for their length."""
    ran = runs.run([way, room.idle], named(room, "link", hostile.filled(b"", b"Q", most=1 << 21)))
    table.expect(f"2 MiB of `Q`, `{way}`", ran, "0", DONE)
    turned = hostile.size(1, 1) + hostile.size(512, 256)
    ran = runs.run([way, room.idle], named(room, "link", [turned * 1000]))
    table.expect(f"1,000 times a window of 1 by 1, and of 512 by 256, `{way}`", ran, "0", DONE)
    for width, height, count in ((80, 25, 100_000), (512, 256, 4_000)):
        window = hostile.document(room.folder, "window", hostile.session([], window=(width, height)))
        ran = runs.run([way, window], named(room, "link", [b"P" * count]))
        table.expect(f"{count:,} times `P` at {width} by {height}, `{way}`", ran, "0", DONE)


# A history of 999 lines of 1,024 units, and a read behind them.
FULL_HISTORY = hostile.session([["set-history", 999, 1, 0], *[["read", 1, 2000]] * 1000])
KEPT = hostile.typed((b"a" * 1023 + b"b\r") * 999)


def lines(room):
    """What a person may type into a line."""
    read = ["solo", hostile.document(room.folder, "read", hostile.session([["read", 1, 16_384]], window=(512, 256)))]
    ran = runs.run(read, named(room, "link", hostile.fed(b"a", 1 << 22)))
    table.expect("4 MiB that are typed into one line, at 512 by 256", ran, "0", DONE)
    front = b"Q" + hostile.typed(b"a" * 1000 + b"\x1b[H")
    ran = runs.run(read, named(room, "link", [front, *hostile.fed(b"x\x7f", 1 << 20)]))
    table.expect("1 MiB at the front of a line of 1,000: a unit, and back", ran, "0", DONE)
    for what, line in (("all begin as the line does", b"a" * 1023), ("none does, by its last unit alone", b"a" * 1022 + b"c")):
        link = named(room, "link", [KEPT, b"Q" * 4000, hostile.typed(line), *hostile.fed(b"\x1b[19~", 1 << 16)])
        ran = runs.run(["solo", hostile.document(room.folder, "full", FULL_HISTORY)], link)
        table.expect(f"64 KiB of F8 over 999 lines of 1,024, of which {what}", ran, "0", DONE)


def controls(room):
    """4,096 ctrl+C in one frame: 64 of them wait for a client, and the others are dropped; at the end event 2 comes."""
    many = hostile.document(room.folder, "many", hostile.session([["handler-add", 0], ["read-input", 1, 1]]))
    ran = runs.run(["solo", many], named(room, "link", [b"QQ", hostile.typed(b"\x03" * 4096), b"Q" * 100]))
    took = [ran.err.first.count(f'["c1","take-ctrl",[],["ctrl",{event}]]'.encode()) for event in (0, 2)]
    other = "" if took == [64, 1] else f"64 events 0 and one event 2, and not {took}"
    table.expect("4,096 ctrl+C in a frame, of which a client takes 64, `solo`", ran, "0", DONE, other)
    # By threads they may come before the client has its handler.
    ran = runs.run(["run", many], room.path("link"))
    table.expect("4,096 ctrl+C in a frame, `run`", ran, "0", DONE)
    loud = hostile.document(room.folder, "loud", hostile.session([["handler-add", 0], *[["signal", 0, 0]] * 255], clients=64))
    for way in WAYS:
        table.expect(f"64 clients, each of which sends ctrl+C to all 255 times, `{way}`", runs.run([way, loud]), "0", DONE)
    ran = runs.run(["a"] * 160_000)
    table.expect("160,000 words", ran, "2", '["end",2,"usage"]')


def lists(room):
    """Answers that are long."""
    aliases = [["alias-add", "sh", f"{k:03}" + "s" * 252, "t" * 1024] for k in range(256)]
    calls_of = [*aliases, *[["alias-list", "sh"]] * 768]
    ran = runs.run(["solo", hostile.document(room.folder, "lists", hostile.session(calls_of))], limits={"AS": 1 << 30})
    table.expect("768 lists of 256 aliases, 480 MiB of units, with 1 GiB of room", ran, ("0", "9"), DONE if ran.ended == "0" else '["end",9]')
    ran = runs.run(["solo", hostile.document(room.folder, "lists", hostile.session(calls_of, clients=16))], limits={"AS": 1 << 30})
    table.expect("16 clients with 768 such lists each, 7 GiB of units, with 1 GiB of room", ran, "9")


# What a session that takes gigabytes may have, and has to find free: nothing else should run beside it.
SPACE = 12 << 30


def free():
    """The memory that programs may still have."""
    with open("/proc/meminfo", encoding="utf-8") as text:
        return next(int(line.split()[1]) << 10 for line in text if line.startswith("MemAvailable"))


def spacious(what, words, link=None, seconds=900):
    """A session that takes gigabytes, with a limit of memory, which may not suffice, and one of time."""
    if free() < SPACE:
        table.tell(what, "left out", "", 0, "", f"; it has to find {SPACE >> 30} GiB of memory free")
    else:
        ran = runs.run(words, link, limits={"AS": SPACE}, seconds=seconds)
        table.expect(f"{what}, in {SPACE >> 30} GiB", ran, ("0", "9"), WANT if ran.ended == "9" else DONE)


def searched(room):
    """As many F8 as a link has room for, over a full history in which each is in vain."""
    front = [KEPT, b"Q" * 4000, hostile.typed(b"a" * 1022 + b"c")]
    most = hostile.MOST - sum(map(len, front))
    link = named(room, "link", [*front, *hostile.fed(b"\x1b[19~", most)])
    words = ["solo", hostile.document(room.folder, "full", FULL_HISTORY)]
    spacious("16 MiB of F8 over 999 lines of 1,024, of which none begins as the line does, by its last unit alone", words, link)


def largest(room):
    table.group("Sessions that take gigabytes, or minutes")
    cells = hostile.session([["rect-read", 2, [0, 0, 127, 127]]] * 256, clients=64, window=(128, 128))
    path = hostile.document(room.folder, "cells", cells)
    for way in WAYS:
        spacious(f"16,384 times `rect-read` of 16,384 cells, `{way}`", [way, path])
    for what, unit in (("`Q`", b"Q"), ("`P` at 80 by 25", b"P")):
        link = named(room, "link", hostile.filled(b"", unit))
        for way in WAYS:
            spacious(f"16 MiB of {what}, `{way}`", [way, room.idle], link)
    searched(room)


def longest(room):
    """What goes on for hours."""
    table.group("Sessions that take hours")
    wide = hostile.document(room.folder, "window", hostile.session([], window=(512, 256)))
    link = named(room, "link", hostile.filled(b"", hostile.size(1, 1) + hostile.size(512, 256)))
    spacious("16 MiB of a window of 1 by 1, and of 512 by 256, `solo`", ["solo", room.idle], link, 14_400)
    link = named(room, "link", hostile.filled(b"", b"P"))
    for way in WAYS:
        spacious(f"16 MiB of `P` at 512 by 256, `{way}`", [way, wide], link, 14_400)


# ---- texts that are typed and played

BLANK, BOLD = hostile.dump(80, 25, "0,0", []), hostile.dump(80, 25, "1,0", ["X"], ["@0,0+1 000f"])
# 16,777,216 is 16 more than a number of rows.
FULL = hostile.dump(80, 25, "16,24", ["\ufffd" * 80] * 24 + ["\ufffd" * 16])
# Texts of 16,777,216 bytes: a front, what comes again and again, a back, and what `type` shows.
TYPED = (
    ("escape", b"", b"\x1b", b"", BLANK),
    ("the byte 255", b"", b"\xff", b"", FULL),
    ("one sequence of colours", b"\x1b[", b"1;", b"mX", BOLD),
    ("one title", b"\x1b]0;", b"a", b"", BLANK),
    ("screens that come and go", b"", b"\x1b[?1049h\x1b[?1049l", b"", BLANK),
    ("line feeds", b"", b"\n", b"", hostile.dump(80, 25, "0,24", [])),
    ("ESC M at the top of a region", b"\x1b[2;25r\x1b[2;1H", b"\x1bM", b"", hostile.dump(80, 25, "0,1", [])),
    ("the display erased", b"", b"\x1b[2J", b"", BLANK),
    ("32,767 rows put in", b"", b"\x1b[32767L", b"", BLANK),
    ("where is the cursor", b"", b"\x1b[6n", b"", BLANK),
)
COLOURS = b"\x1b[41m\x1b[2J\x1b[42m\x1b[2J"
PLAYED = (("escape", b"\x1b", hostile.MOST), ("the byte 255", b"\xff", hostile.MOST), ("1 MiB of the display erased in two colours in turn", COLOURS, 1 << 20))


def texts(room):
    table.group("Texts of 16,777,216 bytes")
    for what, front, unit, back, wanted in TYPED:
        ran = runs.run(["type"], named(room, "text", hostile.filled(front, unit, back)))
        table.expect(f"`type`: {what}", ran, "0", "", "" if shown(ran) == wanted else "another picture")
    for what, unit, most in PLAYED:
        ran = runs.run(["play", "512x256"], named(room, "text", hostile.filled(b"", unit, most=most)))
        table.expect(f"`play 512x256`: {what}", ran, "0")


# ---- files

SENDS = """
import sys, time
with open(sys.argv[1], "wb", 0) as out:
    for piece in sys.argv[2:]:
        out.write(piece.encode())
        time.sleep(0.1)
"""


def pipes(room):
    with open(room.shell, encoding="utf-8") as text:
        shell = text.read()
    path = room.path("pipe")
    os.mkfifo(path)
    whole, part = ("a pipe that gives one in two pieces", shell[:100], shell[100:]), ("a pipe that gives a part of one", shell[:100])
    for (what, *pieces_of), ended in ((whole, ("0", DONE)), (part, ("3", '["end",3,"json"]'))):
        writer = subprocess.Popen([sys.executable, "-c", SENDS, path, *pieces_of])
        table.expect(f"it is {what}", runs.run(["solo", path], room.shell_link), *ended)
        writer.kill()
        writer.wait()
    table.expect("it is a pipe that nobody writes: it waits, and was ended after 2 seconds", runs.run(["solo", path], seconds=2), runs.NO_END)


CHANGES = """
import sys, time
with open(sys.argv[2], "rb") as text:
    session = text.read()
while True:
    with open(sys.argv[1], "wb", 0) as out:
        for k in range(8):
            out.write(b" " * 4096)
        out.write(session)
    time.sleep(0.002)
"""


def changed(room):
    """A session that is cut to nothing and written anew while it is read, a hundred times."""
    path, kinds, others, begun = room.file("changed", b"{"), collections.Counter(), [], time.perf_counter()
    writer = subprocess.Popen([sys.executable, "-c", CHANGES, path, room.shell])
    for n in range(100):
        ran = runs.run(["solo", path], room.shell_link)
        kinds[ran.ended] += 1
        others += [f"run {n}: {ran.ended}, {ran.err.last_line()}"] * ((ran.ended, ran.err.last_line()) not in (("0", DONE), ("3", '["end",3,"json"]')))
    writer.kill()
    writer.wait()
    table.count("it is cut and written anew while it is read", kinds, others, time.perf_counter() - begun)


def files(room):
    table.group("The session's file")
    table.expect("it is not there", runs.run(["solo", room.path("none")]), "7", '["end",7,"missing"]')
    table.expect("it is empty", runs.run(["solo", os.devnull]), "3", '["end",3,"json"]')
    table.expect("it is a folder", runs.run(["solo", room.folder]), "7", '["end",7,"failed"]')
    table.expect("it has no end", runs.run(["solo", "/dev/zero"]), "3", '["end",3,"length"]')
    table.expect("its name goes on behind a file", runs.run(["solo", room.shell + "/more"]), "7", '["end",7,"failed"]')
    table.expect("its name is too long", runs.run(["solo", "a" * 5000]), "7", '["end",7,"failed"]')
    for name, target, last in (("dangling", "nothing", "missing"), ("round", "round", "failed")):
        os.symlink(target, room.path(name))
        ran = runs.run(["solo", room.path(name)])
        table.expect(f"it is a symlink that leads {'nowhere' if last == 'missing' else 'to itself'}", ran, "7", f'["end",7,"{last}"]')
    ran = runs.run(["solo", "/dev/stdin"], room.idle)
    table.expect("it is standard input, a file, which is then read as the link, too", ran, "8", '["end",8,0,"tag"]')
    table.expect("a word is not UTF-8", runs.run(["solo", b"\xff"]), "2", '["end",2,"usage"]')
    strange = os.path.join(os.fsencode(room.folder), b"\xff")
    os.symlink(os.path.abspath(runs.PROGRAM), strange)
    table.expect("the program's own path is not UTF-8, and it is called by it", runs.run(["type"], program=strange), "0")
    table.expect("the same, and it is called conpty, as the launcher calls it", runs.run(["type"], program=strange, name="conpty"), "0")
    unreadable(room)
    pipes(room)
    changed(room)


NOBODY = 65_534


def unreadable(room):
    """Another user's session, tried as nobody where this script is root."""
    path = room.file("hidden", b"{}")
    os.chmod(path, 0)
    ran = runs.run(["solo", path], program=for_all(room), user=NOBODY if os.getuid() == 0 else None)
    table.expect("it may not be read", ran, "7", '["end",7,"failed"]')


def for_all(room):
    """A copy of the program that any user may run."""
    path = room.path("program")
    if not os.path.exists(path):
        with open(runs.PROGRAM, "rb") as text:
            hostile.written(room.folder, "program", [text.read()])
        os.chmod(path, 0o755)
        os.chmod(room.folder, 0o755)
    return path


# ---- streams

def closed(room):
    """Streams that are not there at all."""
    solo = ["solo", room.shell]
    for number, ended, last in ((0, "4", '["end",4,"link"]'), (1, "5", '["end",5,"term"]'), (2, "6", None)):
        for way in WAYS:
            table.expect(f"stream {number} is closed, `{way}`", runs.run([way, room.shell], room.shell_link, closed=[number]), ended, last)
    table.expect("stream 0 is closed, `type`", runs.run(["type"], closed=[0]), "4", '["end",4,"link"]')
    table.expect("stream 1 is closed, `type`", runs.run(["type"], closed=[1]), "5", '["end",5,"term"]')
    table.expect("stream 2 is closed, `type`, which writes nothing to it", runs.run(["type"], closed=[2]), "0")
    table.expect("all three are closed, `solo`", runs.run(solo, closed=[0, 1, 2]), "5")
    table.expect("stream 1 is closed, `play`, which writes nothing to it", runs.run(["play", "3x2"], closed=[1]), "0")


def full(room):
    solo = ["solo", room.shell]
    with open("/dev/full", "wb") as device:
        for way in WAYS:
            table.expect(f"standard output is full, `{way}`", runs.run([way, room.shell], room.shell_link, out=device), "5", '["end",5,"term"]')
            table.expect(f"standard error is full, `{way}`", runs.run([way, room.shell], room.shell_link, err=device), "6")
        table.expect("both are full, `solo`", runs.run(solo, room.shell_link, out=device, err=device), "5")
        table.expect("standard output is full, `gen 7`", runs.run(["gen", "7"], out=device), "5", '["end",5,"term"]')
        table.expect("standard error is full, words that are no form", runs.run(["none"], err=device), "2")
    for most in (0, 10, 1000):
        for what, number, ended, last in (("stream", "out", "5", '["end",5,"term"]'), ("summary", "err", "6", None)):
            with open(room.path("grows"), "wb") as out:
                ran = runs.run(["gen", "7"], limits={"FSIZE": most}, **{number: out})
                table.expect(f"a file may have {most} bytes, and gets the {what} of `gen 7`", ran, ended, last)
    with open(room.path("grows"), "wb") as out:
        ran = runs.run(["gen", "7"], limits={"FSIZE": 10}, out=out, ignored=())
        table.expect("a file may have 10 bytes, and the program is called alone, where nobody ignores SIGXFSZ", ran, "SIGXFSZ")


def seconds(room):
    """Files of a second terminal that cannot be made or written, and one that is there."""
    mirror, last = ["mirror", room.mirror], '["end",12,"mirror"]'
    for what, make in (("is a folder", os.mkdir), ("is a symlink to a full device", lambda path: os.symlink("/dev/full", path))):
        # (an earlier group may have left one)
        if os.path.lexists(room.path(SECOND)):
            os.remove(room.path(SECOND))
        make(room.path(SECOND))
        table.expect(f"`{SECOND}` {what}, `mirror`", runs.run(mirror, room.mirror_link, folder=room.folder), "12", last)
        (os.rmdir if os.path.isdir(room.path(SECOND)) else os.remove)(room.path(SECOND))
    room.file(SECOND, b"older")
    ran = runs.run(mirror, room.mirror_link, folder=room.folder)
    table.expect(f"`{SECOND}` is there, `mirror`: it is written anew", ran, "0", DONE, "another stream" if b"older" in room.second() else "")
    room.file(SECOND, b"older")
    ran = runs.run(mirror, os.devnull, folder=room.folder)
    other = "" if room.second() == b"older" else "the older file"
    table.expect(f"`{SECOND}` is there, `mirror`, and no second terminal comes: it stays", ran, "0", DONE, other)


def gone(room):
    """Readers that go away, and streams that do not wait."""
    room.wide = hostile.document(room.folder, "wide", hostile.session([["fill-units", 2, 0, 0, 131_072, 65]], window=(512, 256)))
    room.wide_link = room.file("wide.link", b"Q" + (hostile.size(511, 256) + hostile.size(512, 256)) * 4)
    for number, ended, last in (("out", "5", '["end",5,"term"]'), ("err", "6", None)):
        for way in WAYS:
            there, here = os.pipe()
            os.close(there)
            ran = runs.run([way, room.listing], room.listing_link, **{number: here})
            table.expect(f"nobody reads standard {'output' if number == 'out' else 'error'}, `{way}`", ran, ended, last)
            os.close(here)
    there, here = os.pipe()
    os.set_blocking(there, False)
    with os.fdopen(there, "rb", 0) as given:
        table.expect("standard input does not wait, and has nothing", runs.run(["solo", room.shell], given=given), "4", '["end",4,"link"]')
    os.close(here)
    there, here = os.pipe()
    os.set_blocking(here, False)
    ran = runs.run(["solo", room.wide], room.wide_link, out=here)
    table.expect("standard output does not wait, and nobody takes 600 KB from it", ran, "5", '["end",5,"term"]')
    os.close(there)
    os.close(here)


def leaving(room):
    """Readers that take one byte and go away: the stream and the report are longer than what a pipe holds."""
    asked = room.file("asked.link", b"P" * 10_000)
    for way in WAYS:
        cases = (("output", "out", room.wide, room.wide_link, "5", '["end",5,"term"]'), ("error", "err", room.idle, asked, "6", None))
        for what, number, path, link, ended, last in cases:
            there, here = os.pipe()

            def beside(_, there=there):
                if select.select([there], [], [], 20)[0]:
                    os.read(there, 1)
                os.close(there)

            ran = runs.run([way, path], link, beside=beside, **{number: here})
            table.expect(f"who reads standard {what} takes one byte and goes away, `{way}`", ran, ended, last)
            os.close(here)


def silent(room):
    """A terminal that goes away while the link is silent: `run` tells it at the end of the link."""
    there, here = os.pipe()
    given, link = os.pipe()
    os.close(there)

    def beside(_):
        os.close(given)
        time.sleep(1)
        os.write(link, b"Q")
        os.close(link)

    with os.fdopen(os.dup(given), "rb", 0) as reader:
        ran = runs.run(["run", room.shell], given=reader, out=here, beside=beside)
        table.expect("nobody reads standard output, and the link is silent for a second, `run`", ran, "5", '["end",5,"term"]')
    os.close(here)


def signalled(room, way, names):
    """A run that gets signals while it waits for its link."""
    given, link = os.pipe()

    def beside(child):
        time.sleep(0.2)
        for name in names:
            os.kill(child.pid, getattr(signal, name))
            time.sleep(0.05)
        os.write(link, b"Q")
        os.close(link)

    with os.fdopen(given, "rb", 0) as reader:
        return runs.run([way, room.shell], given=reader, beside=beside)


def signals(room):
    harmless = ("SIGSTOP", "SIGCONT", "SIGWINCH", "SIGPIPE", "SIGCHLD")
    for way in WAYS:
        table.expect(f"{', '.join(harmless)} while it waits, `{way}`", signalled(room, way, harmless), "0", DONE)
        for name in ("SIGINT", "SIGTERM", "SIGHUP"):
            table.expect(f"{name} while it waits, `{way}`: it ends, and there is no report", signalled(room, way, (name,)), name, "")


def streams(room):
    table.group("Standard input, output and error")
    closed(room)
    full(room)
    seconds(room)
    gone(room)
    leaving(room)
    silent(room)
    signals(room)


# ---- limits of the system

def limits(room):
    table.group("Limits of the system")
    for most in (4, 8, 12, 16, 24, 32, 64, 96, 128):
        for way in WAYS:
            for what, link in (("", room.shell_link), (", with an empty link", os.devnull)):
                ran = runs.run([way, room.shell], link, limits={"AS": most << 20}, seconds=5)
                table.expect(f"{most} MiB of room, `{way}`{what}", ran, NO_THREAD if way == "run" else ("0", "9"))
    for most in (64, 256, 1024):
        for way in WAYS:
            ran = runs.run([way, room.listing], room.listing_link, limits={"STACK": most << 10}, seconds=5)
            table.expect(f"a stack of {most} KiB, `{way}`", ran, NO_THREAD if way == "run" else "0")
    for most in range(0, 7) if os.getuid() == 0 else ():
        ran = runs.run(["run", room.listing], room.listing_link, limits={"NPROC": most}, user=NOBODY, program=for_all(room), seconds=5)
        table.expect(f"at most {most} processes and threads of a user, `run`", ran, NO_THREAD)


GROUPS = {
    "memory": memories,
    "calls": calls,
    "links": links,
    "documents": documents,
    "sizes": sizes,
    "texts": texts,
    "files": files,
    "streams": streams,
    "limits": limits,
}
DEAREST = {"largest": largest, "longest": longest}
PAGE = os.path.join(DOCS, "ROBUSTNESS.md")
HEADING = "## Each case\n"


def write_page():
    """Writes the tables of the groups that ran in place of those that stand there; the others stay."""
    with open(PAGE, encoding="utf-8") as text:
        front, _, older = text.read().partition(HEADING)
    tables = {part.partition("\n")[0]: part.rstrip("\n") for part in (older + table.page()).split("\n### ")[1:]}
    with open(PAGE, "w", encoding="utf-8") as out:
        out.write(front + HEADING + "".join(f"\n### {part}\n" for part in tables.values()))


def main():
    parser = argparse.ArgumentParser(description=__doc__, formatter_class=argparse.RawDescriptionHelpFormatter)
    parser.add_argument("--page", action="store_true")
    parser.add_argument("groups", nargs="*", metavar="GROUP", choices=[[], *GROUPS, *DEAREST])
    got = parser.parse_args()
    if not os.access(runs.PROGRAM, os.X_OK):
        sys.exit("build the program first: ./conpty type </dev/null >/dev/null")
    # (a shell ignores the first for what it starts in the background, and nohup the second)
    signal.signal(signal.SIGINT, signal.default_int_handler)
    signal.signal(signal.SIGHUP, signal.SIG_DFL)
    with tempfile.TemporaryDirectory() as folder:
        room = Room(folder)
        for name in got.groups or GROUPS:
            (GROUPS | DEAREST)[name](room)
            if got.page:
                write_page()
    print(f"{sum(not isinstance(row, str) for row in table.rows)} rows, {table.wrong} otherwise")
    sys.exit(table.wrong > 0)


main()
