#!/usr/bin/env python3
"""Sessions by threads: whether they end as the same session by turns does, and how fast they go.

    threads.py

Eight clients, each of which writes on rows of its own, run a hundred times by threads: each run ends with 0 and with the picture that the session by turns leaves.
Then it prints events a second of sessions of 1, 4, 16 and 64 such clients with 8,192 calls in all, by threads, beside it by turns, and by threads that enter the same calls
into the same console under a mutex of std, with no history, painter and report (`bench_parts threads`); what part of the last one's events by threads makes, and how much
processor time it takes of that by turns; and the time from a byte on the link to its echo on the stream, of a hundred bytes typed one after another.
It ends with 1 where a run ended otherwise."""
import json
import os
import re
import resource
import statistics
import subprocess
import sys
import tempfile
import time

sys.dont_write_bytecode = True

from runs import PARTS, PROGRAM, needs_parts, needs_program

ROWS, CALLS = 25, 8_192


def session(folder, clients, calls):
    """A document of clients that write on rows of their own, as long as there are enough."""
    name = os.path.join(folder, f"session{clients}")
    scripts = [[["run-write-units", 2, 20 * (client // ROWS), client % ROWS, f"client {client} {call:5}"] for call in range(calls)] for client in range(clients)]
    with open(name, "w", encoding="utf-8") as out:
        json.dump({"version": 2, "size": [80, ROWS], "clients": [{"program": "sh", "group": 1, "calls": script} for script in scripts]}, out)
    return name


def used():
    """The processor's time of all runs so far."""
    runs = resource.getrusage(resource.RUSAGE_CHILDREN)
    return runs.ru_utime + runs.ru_stime


def ended(form, name):
    """Its status, last line, stream and events, and the clock's and the processor's time."""
    begun, before = time.perf_counter(), used()
    ran = subprocess.run([PROGRAM, form, name], stdin=subprocess.DEVNULL, capture_output=True, check=False)
    taken, processor = time.perf_counter() - begun, used() - before
    lines = ran.stderr.decode().splitlines()
    return ran.returncode, lines[-1], ran.stdout, len(lines) - 1, taken, processor


def entered(name):
    """How many events the threads at a mutex enter in a second of the clock, from the program's start to its end."""
    begun = time.perf_counter()
    ran = subprocess.run([PARTS, "threads", name], capture_output=True, check=True, text=True)
    return int(ran.stdout.split()[0]) / (time.perf_counter() - begun)


def picture(stream):
    return subprocess.run([PROGRAM, "play", f"80x{ROWS}"], input=stream, capture_output=True, check=True).stderr


def hundred(folder):
    """How many of a hundred runs end otherwise than the session by turns."""
    name = session(folder, 8, 64)
    _, _, stream, _, _, _ = ended("solo", name)
    wanted, others = picture(stream), 0
    for _ in range(100):
        status, last, stream, _, _, _ = ended("run", name)
        others += (status, last) != (0, '["end",0]') or picture(stream) != wanted
    print(f"a hundred runs of eight clients: {others} ended otherwise than by turns", flush=True)
    return others


def speeds(folder, clients, times=3):
    """Events a second by threads, by turns and, where the bench crate is built, at a mutex; what part the processor's time by threads is of that by turns."""
    name = session(folder, clients, min(1_024, CALLS // clients))
    told, mutex = {"run": [], "solo": []}, []
    for _ in range(times):
        for form, taken in told.items():
            taken.append(ended(form, name))
        if os.access(PARTS, os.X_OK):
            mutex.append(entered(name))
    run, solo = (min(told[form], key=lambda ran: ran[4]) for form in ("run", "solo"))
    return run[3] / run[4], solo[3] / solo[4], max(mutex, default=None), min(ran[5] for ran in told["run"]) / min(ran[5] for ran in told["solo"])


def speed(folder):
    for clients in (1, 4, 16, 64):
        here, turns, beside, processor = speeds(folder, clients)
        print(f"{clients:2} clients: {here:8.0f} events a second by threads, {turns:8.0f} by turns, {beside:8.0f} at a mutex; by threads {here / beside:.2f} of those at a mutex, and {processor:.2f} of the processor time by turns", flush=True)


def echoes(folder):
    """The times from each of a hundred bytes on the link to its echo, in seconds, and the status of the run."""
    name = os.path.join(folder, "line")
    with open(name, "w", encoding="utf-8") as out:
        json.dump({"version": 1, "size": [80, ROWS], "clients": [{"program": "sh", "group": 1, "calls": [["write", 2, "$"], ["read", 1, 500]]}]}, out)
    times = []
    with subprocess.Popen([PROGRAM, "run", name], stdin=subprocess.PIPE, stdout=subprocess.PIPE, stderr=subprocess.DEVNULL, bufsize=0) as ran:
        seen = b""
        while b"$" not in seen:
            seen += ran.stdout.read(65_536)
        for byte in b"0123456789" * 10:
            begun, seen = time.perf_counter(), b""
            ran.stdin.write(b"B\x00\x01" + bytes([byte]))
            while bytes([byte]) not in re.sub(rb"\x1b\[[^A-Za-z]*[A-Za-z]?", b"", seen):
                seen += ran.stdout.read(65_536)
            times.append(time.perf_counter() - begun)
            time.sleep(0.005)
        ran.stdin.write(b"B\x00\x01\r")
        ran.stdin.close()
        ran.stdout.read()
    return times, ran.returncode


def echo(folder):
    times, status = echoes(folder)
    print(f"from a byte on the link to its echo: {1e6 * statistics.median(times):.0f} microseconds, at most {1e6 * max(times):.0f}; status {status}", flush=True)


def main():
    needs_program()
    needs_parts()
    with tempfile.TemporaryDirectory() as folder:
        others = hundred(folder)
        speed(folder)
        echo(folder)
    sys.exit(others > 0)


if __name__ == "__main__":
    main()
