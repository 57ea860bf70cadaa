#!/usr/bin/env python3
"""What an audit costs beside the run that it audits, and how both grow.

    audit.py [N..]

For each number it draws sessions as `gen` does (docs/FORMATS.md), but of 4, 8 and 16 clients with up to as many calls as a document may have, runs each by `solo`
over a link of one frame, and audits what it left. It prints the events, the instructions of both where valgrind is there, else the least processor's time of five
runs, their ratio, instructions (or nanoseconds) of an audit by event, and the peak memory of both. Ends with 1 where an audit says no."""
import json
import os
import re
import resource
import shutil
import subprocess
import sys
import tempfile

import generated

PROGRAM = os.path.abspath(os.environ.get("CONPTY") or os.path.join(os.path.dirname(os.path.abspath(__file__)), "..", "crates", "conpty", "out", "conpty"))
# Clients, and the calls of each. The second is what `gen` draws.
SIZES = ((4, 125), (4, 500), (8, 1000), (16, 1024))
LINK = b"P"


def session(number, clients, calls):
    """A session that is drawn as a generated one is."""
    draw, made = generated.Draws(number), []
    for client in range(1, clients + 1):
        steps = [["set-mode", 2, 7], *(generated.drawn(draw) for _ in range(calls - 1))]
        made.append({"program": f"gen{client}", "group": client, "calls": steps})
    return {"version": 1, "size": [80, 25], "clients": made}


def files(folder, number, clients, calls):
    """The names of the four files of an audit, of which a run has not written the last two yet."""
    names = [os.path.join(folder, name) for name in ("session", "link", "stream", "report")]
    with open(names[0], "w", encoding="utf-8") as text:
        json.dump(session(number, clients, calls), text)
    with open(names[1], "wb") as link:
        link.write(LINK)
    return names


def run(words, names, before=()):
    """Runs the program, over the link where it is no audit, and answers its last line."""
    if words[0] == "audit":
        told = subprocess.run([*before, PROGRAM, *words], stdin=subprocess.DEVNULL, stdout=subprocess.DEVNULL, stderr=subprocess.PIPE, check=False)
        return told.stderr.decode().splitlines()[-1]
    with open(names[1], "rb") as link, open(names[2], "wb") as stream, open(names[3], "wb") as report:
        subprocess.run([*before, PROGRAM, *words], stdin=link, stdout=stream, stderr=report, check=True)
    with open(names[3], "rb") as report:
        return report.read().splitlines()[-1].decode()


def instructions(words, names, folder):
    log = os.path.join(folder, "log")
    run(words, names, ("valgrind", "--tool=callgrind", f"--callgrind-out-file={folder}/out", f"--log-file={log}"))
    with open(log, encoding="utf-8") as told:
        return int(re.search(r"Collected : (\d+)", told.read()).group(1))


def seconds(words, names):
    taken = []
    for _ in range(5):
        before = resource.getrusage(resource.RUSAGE_CHILDREN)
        run(words, names)
        after = resource.getrusage(resource.RUSAGE_CHILDREN)
        taken.append(after.ru_utime + after.ru_stime - before.ru_utime - before.ru_stime)
    return min(taken)


def peak(words, names):
    """The peak memory in MiB."""
    with open(names[1], "rb") as link:
        child = subprocess.Popen([PROGRAM, *words], stdin=link, stdout=subprocess.DEVNULL, stderr=subprocess.DEVNULL)
        return os.wait4(child.pid, 0)[2].ru_maxrss / 1024


def measure(number, clients, calls):
    """Prints the line of a session, and answers whether what it left is a run."""
    with tempfile.TemporaryDirectory() as folder:
        names = files(folder, number, clients, calls)
        solo, audit = ["solo", names[0]], ["audit", *names]
        if run(solo, names) != '["end",0]':
            sys.exit(f"the session of {number} does not end with 0")
        found = run(audit, names)
        with open(names[3], "rb") as report:
            events = report.read().count(b"\n") - 1
        if shutil.which("valgrind"):
            ran, audited = instructions(solo, names, folder), instructions(audit, names, folder)
            told = f"solo {ran / 1e6:.1f}, audit {audited / 1e6:.1f} million instructions"
            each = f"{audited / events:.0f} an event of the audit"
        else:
            ran, audited = seconds(solo, names), seconds(audit, names)
            told = f"solo {ran:.3f}, audit {audited:.3f} s"
            each = f"{audited / events * 1e9:.0f} ns an event of the audit"
        memory = f"{peak(solo, names):.0f} and {peak(audit, names):.0f} MiB"
        print(f"session {number}, {clients} clients of {calls} calls: {events} events; {told}, {audited / ran:.2f} times, {each}; {memory}; {found}", flush=True)
        return found == '["audit","yes"]'


def main():
    if not os.access(PROGRAM, os.X_OK):
        sys.exit("build the program first: ./conpty type </dev/null >/dev/null")
    right = [measure(int(number), *size) for number in sys.argv[1:] or ["7"] for size in SIZES]
    sys.exit(not all(right))


if __name__ == "__main__":
    main()
