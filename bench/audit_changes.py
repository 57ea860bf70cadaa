#!/usr/bin/env python3
"""Whether an audit sees what was changed: one bit of each byte of a run's stream, report and link in turn.

    audit_changes.py [--each K] [--only FILE] [--calls N] [--jobs N]

A session of two clients, with keys, sizes and questions for pictures in its link, runs by `solo`; by its default it has some 2,000 events. In the file of a
copy one bit of one byte is another, of the n-th byte bit n modulo 8, and the copy is audited. With `--each K` that is done to each K-th byte alone, with
`--only FILE` in that file alone. Prints for each file how many changes were refused, by what, and each that was not with the reason why it is a run as well:

- stream: each picture up to the next size is the same on the specified terminal (`play`), from a blank one and from one that is full and hides its cursor;
- link: it stands behind a hangup, where nothing is read;
- report: a picture ends at another place of the stream, and is shown there as well; all else in a report is told by it alone.

Ends with 1 where there is no reason, or where an audit ended otherwise than with 0 and 13."""
import argparse
import collections
import concurrent.futures
import functools
import json
import os
import random
import subprocess
import sys
import tempfile

PROGRAM = os.path.abspath(os.environ.get("CONPTY") or os.path.join(os.path.dirname(os.path.abspath(__file__)), "..", "crates", "conpty", "out", "conpty"))
KINDS = ("stream", "report", "link")
YES, NO = 0, 13


def session(calls):
    """Clients that write in colours, move about, and read what is typed."""
    draw = random.Random(7)
    texts = ("abc", "x\r\n", "\x1b[31mred", "\x1b[0m", "\x1b[44mblue \x1b[0m", "\x1b[3;5H*", "\x1b[K", "wider text ")
    clients = []
    for number in (1, 2):
        steps = [["set-mode", 2, 7]]
        while len(steps) < calls:
            steps += [["write", 2, draw.choice(texts)], ["count", 1], ["read-input", 1, 1] if len(steps) % 11 == number else ["mode", 2]]
        clients.append({"program": f"p{number}", "group": number, "calls": steps[:calls]})
    return {"version": 1, "size": [16, 5], "clients": clients}


def link(calls):
    """Keys, sizes, and questions for a picture, and a hangup with some bytes behind it, which nobody reads."""
    draw = random.Random(11)
    frames = []
    for at in range(calls):
        key = bytes([97 + draw.randrange(26)])
        frames.append(b"B\0\2" + key + key if at % 3 else b"Q")
        if at % 40 == 20:
            frames.append(b"R" + bytes([0, 12 + draw.randrange(8), 0, 4 + draw.randrange(3)]))
        if at % 10 == 5:
            frames.append(b"P")
    return b"".join(frames) + b"X" + b"behind"


def audit(folder, names, kind, at):
    """The status and the line of an audit in which a bit of a file is another."""
    with open(names[kind], "rb") as file:
        text = bytearray(file.read())
    text[at] ^= 1 << at % 8
    changed = os.path.join(folder, f"{kind}.{at}")
    with open(changed, "wb") as file:
        file.write(text)
    words = [names["session"], *(changed if it == kind else names[it] for it in ("link", "stream", "report"))]
    ran = subprocess.run([PROGRAM, "audit", *words], stdin=subprocess.DEVNULL, capture_output=True, check=False)
    os.remove(changed)
    return at, ran.returncode, ran.stderr.decode(errors="replace").strip()


def shown(text, at):
    """A byte of a file, between those beside it."""
    return f"{bytes(text[max(at - 8, 0):at])!r} [{bytes(text[at:at + 1])!r}] {bytes(text[at + 1:at + 9])!r}"


@functools.cache
def dump(width, height, full, played):
    """What the specified terminal shows of bytes, of one that is blank, or full of letters in reverse with the cursor hidden."""
    before = b"\x1b[7m" + b"x" * (width * height) + b"\x1b[?25l" if full else b""
    return subprocess.run([PROGRAM, "play", f"{width}x{height}"], input=before + played, capture_output=True, check=True).stderr


def pictures_of(session, report):
    """Of each picture of a report where the stream began at which the terminal got its size, the size, and where the picture ends."""
    width, height = session["size"]
    begun, end, pictures = 0, 0, []
    for line in report.splitlines()[:-1]:
        _, name, arguments, reply = json.loads(line)
        if name == "resize":
            (width, height), begun = arguments, end
        if name == "paint":
            end = reply[1]
            pictures.append((begun, width, height, end))
    return pictures


def shows_same(stream, other, at, pictures):
    """Whether two streams that differ at a place show the same at each picture up to the next size."""
    behind = [picture for picture in pictures if picture[3] > at]
    for begun, width, height, end in (picture for picture in behind if picture[0] == behind[0][0]):
        for full in (False, True):
            if dump(width, height, full, stream[begun:end]) != dump(width, height, full, other[begun:end]):
                return False
    return bool(behind)


def shows_there_too(stream, pictures, others):
    """Whether pictures that end elsewhere in a stream are shown there as well."""
    if len(pictures) != len(others):
        return False
    moved = [(one, other) for one, other in zip(pictures, others) if one != other]
    for (begun, width, height, end), (start, _, _, there) in moved:
        for full in (False, True):
            if dump(width, height, full, stream[begun:end]) != dump(width, height, full, stream[start:there]):
                return False
    return bool(moved)


def reason(kind, text, at, made, hung, stream, pictures):
    """Why what was changed is a run as well; empty where there is no such reason."""
    other = bytearray(text)
    other[at] ^= 1 << at % 8
    if kind == "link":
        return "behind the hangup nothing is read" if at > hung else ""
    if kind == "stream":
        return "each picture is the same" if shows_same(text, bytes(other), at, pictures) else ""
    return "the picture is shown there as well" if shows_there_too(stream, pictures, pictures_of(made, bytes(other))) else ""


def tried(folder, names, kind, each, jobs):
    """Changes bytes of a file, and answers how many changes are no run by what they are refused, and those that are one."""
    with open(names[kind], "rb") as file:
        text = file.read()
    places = range(0, len(text), each)
    refused, taken, wrong = collections.Counter(), [], []
    with concurrent.futures.ThreadPoolExecutor(jobs) as pool:
        for at, status, line in pool.map(lambda at: audit(folder, names, kind, at), places):
            if status == YES:
                taken.append(at)
            elif status == NO:
                refused[json.loads(line)[3]] += 1
            else:
                wrong.append((at, status, line))
    return text, len(places), refused, taken, wrong


def tell(kind, text, count, refused, taken, wrong, why_of):
    """Prints what came of a file, and answers whether it is as it has to be."""
    by = ", ".join(f"{what} {number}" for what, number in sorted(refused.items()))
    print(f"{kind}: {count} of {len(text)} bytes changed, {sum(refused.values())} refused ({by}), {len(taken)} taken for a run", flush=True)
    right = not wrong
    for at in taken:
        why = why_of(kind, text, at)
        right = right and bool(why)
        print(f"  byte {at}, bit {at % 8}, {shown(text, at)}: {why or 'FOR NO REASON'}")
    for at, status, line in wrong:
        print(f"  byte {at}, bit {at % 8}: OTHERWISE: status {status}, {line}")
    return right


def main():
    words = argparse.ArgumentParser(description=__doc__.splitlines()[0])
    words.add_argument("--each", type=int, default=1, metavar="K", help="each K-th byte alone")
    words.add_argument("--only", choices=KINDS, help="in this file alone")
    words.add_argument("--calls", type=int, default=545, metavar="N", help="how many calls each client makes")
    words.add_argument("--jobs", type=int, default=os.cpu_count(), metavar="N", help="how many audits at once")
    given = words.parse_args()
    if not os.access(PROGRAM, os.X_OK):
        sys.exit("build the program first: ./conpty type </dev/null >/dev/null")
    with tempfile.TemporaryDirectory() as folder:
        names = {name: os.path.join(folder, name) for name in ("session", *KINDS)}
        with open(names["session"], "w", encoding="utf-8") as text:
            json.dump(session(given.calls), text)
        frames = link(given.calls + 20)
        with open(names["link"], "wb") as file:
            file.write(frames)
        with open(names["stream"], "wb") as stream, open(names["report"], "wb") as report:
            ran = subprocess.run([PROGRAM, "solo", names["session"]], input=frames, stdout=stream, stderr=report, check=False)
        sound = subprocess.run([PROGRAM, "audit", *(names[it] for it in ("session", "link", "stream", "report"))], capture_output=True, check=False)
        with open(names["report"], "rb") as file:
            report = file.read()
        with open(names["stream"], "rb") as file:
            stream = file.read()
        events, made = report.count(b"\n") - 1, session(given.calls)
        why_of = functools.partial(reason, made=made, hung=frames.rindex(b"X"), stream=stream, pictures=pictures_of(made, report))
        print(f"a run of {events} events: status {ran.returncode}; audited: {sound.stderr.decode().strip()}", flush=True)
        right = (ran.returncode, sound.returncode) == (0, YES)
        for kind in [given.only] if given.only else KINDS:
            right = tell(kind, *tried(folder, names, kind, given.each, given.jobs), why_of) and right
    sys.exit(not right)


if __name__ == "__main__":
    main()
