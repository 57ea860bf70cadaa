#!/usr/bin/env python3
"""Sessions by turns: what an event costs, and how much memory the largest ones take.

    sessions.py [N..]
    sessions.py large

For each number it runs the session that is generated from it, and prints how many events it has and how many of them are Paints, events
a second, bytes of a frame on the average, and, where valgrind is there, instructions: of the whole run by event, with its summary, for which the history is entered
once more; and in the session itself those of an event that is no Paint, of a Paint, which copies the whole window, and of the making of its frame.

With `large` it makes sessions with as many calls as a document may have, by 64 clients and by 16, over links of 16,777,216 bytes, and prints time and peak memory.
In one link nothing is typed for a while in every byte, so that each is an event; in the other all bytes are typed, and clients read some of them."""
import json
import os
import subprocess
import sys
import tempfile
import time

sys.dont_write_bytecode = True

import counts
from runs import PROGRAM, needs_program

MOST = 16_777_216


def generated(seed):
    """The status lines of a generated session, the length of its stream, and the least time of three runs."""
    best = None
    for _ in range(3):
        begun = time.perf_counter()
        told = subprocess.run([PROGRAM, "gen", seed], stdin=subprocess.DEVNULL, capture_output=True, check=True)
        taken = time.perf_counter() - begun
        best = min(taken, best or taken)
    counts = dict(line.split() for line in told.stderr.decode().splitlines()[:4])
    # Each client's calls and its exit, the end of the link, and the Paints.
    paints = int(counts["paints"])
    return int(counts["calls"]) + 4 + 1 + paints, paints, len(told.stdout), best


WATCHED = "Desk::enter", "Desk::paint", "painting::draw"


def parts(seed, events, paints):
    """Instructions of a generated session: by event in all, of an event that is no Paint, of a Paint, and of its frame."""
    whole, within, _ = counts.counted([PROGRAM, "gen", seed], within=WATCHED)
    others, copied, framed = (within[name] for name in WATCHED)
    return whole / events, others / (events - paints), copied / paints, framed / paints


def measure(seeds):
    for seed in seeds:
        events, paints, length, taken = generated(seed)
        line = f"gen {seed:10} {events} events, {paints} Paints, {events / taken:9.0f} events a second, {length / paints:6.0f} bytes a Paint"
        if counts.is_there():
            whole, others, copied, framed = parts(seed, events, paints)
            line += f"; instructions: {whole:.0f} an event in all; {others:.0f} an event that is no Paint, {copied:.0f} a Paint, {framed:.0f} its frame"
        print(line, flush=True)


def small(i):
    """A call whose answer is small."""
    return [["write", 2, "abc"], ["count", 1], ["set-cursor", 2, i % 80, i % 25], ["mode", 2]][i % 4]


def reading(i):
    """The same, but each fourth call takes 1,024 records."""
    return ["read-input", 1, 1024] if i % 4 == 3 else small(i)


def made(folder, clients, calls, call):
    name = os.path.join(folder, "session")
    client = {"program": "sh", "group": 1, "calls": [["set-mode", 1, 0], *[call(i) for i in range(calls - 1)]]}
    with open(name, "w", encoding="utf-8") as out:
        json.dump({"version": 2, "size": [80, 25], "clients": [client] * clients}, out)
    return name


def large():
    frame = b"B\x10\x00" + b"a" * 4096
    typed = frame * (MOST // len(frame))
    links = {"quiet": (b"Q" * MOST, small), "typed": (typed + b"Q" * (MOST - len(typed)), reading)}
    with tempfile.TemporaryDirectory() as folder:
        for clients, calls in ((64, 256), (16, 1024)):
            for kind, (link, call) in links.items():
                name, bytes_of = made(folder, clients, calls, call), os.path.join(folder, "link")
                with open(bytes_of, "wb") as out:
                    out.write(link)
                begun = time.perf_counter()
                with open(bytes_of, "rb") as link_in:
                    child = subprocess.Popen([PROGRAM, "solo", name], stdin=link_in, stdout=subprocess.DEVNULL, stderr=subprocess.DEVNULL)
                    _, status, used = os.wait4(child.pid, 0)
                taken = time.perf_counter() - begun
                print(f"{clients} clients of {calls} calls, {kind}: status {os.waitstatus_to_exitcode(status)}, {taken:.0f} s, {used.ru_maxrss / 1024:.0f} MiB", flush=True)


def main():
    needs_program()
    if sys.argv[1:] == ["large"]:
        large()
    else:
        measure(sys.argv[1:] or ["1", "7", "4294967295"])


if __name__ == "__main__":
    main()
