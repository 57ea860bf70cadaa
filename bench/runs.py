"""Runs of the program with its streams, limits, time and memory, and a table of what they came to."""
import os
import re
import resource
import signal
import subprocess
import sys
import threading
import time
from typing import NamedTuple

BUILT = os.path.join(os.path.dirname(os.path.abspath(__file__)), "..", "crates", "conpty", "out", "conpty")
PROGRAM = os.path.abspath(os.environ.get("CONPTY") or BUILT)
PARTS = os.path.abspath(os.environ.get("BENCH_PARTS") or os.path.join(os.path.dirname(BUILT), "..", "..", "bench_parts", "out", "bench_parts"))
NO_END = "no end"
WIDEST = 60


def needs_program():
    """Ends where the program is not built."""
    if not os.access(PROGRAM, os.X_OK):
        sys.exit("build the program first: ./conpty type </dev/null >/dev/null")


def needs_parts():
    """Ends where the bench crate is not built."""
    if not os.access(PARTS, os.X_OK):
        sys.exit("build what it is measured beside first: tools/prove.py bench_parts")


def painted(report):
    """Where each frame of a report ends in the stream."""
    return [int(end) for end in re.findall(r'\["painted",(\d+)\]', report)]


class Kept(threading.Thread):
    """What comes out of a pipe: how many bytes, the first and the last of them."""

    FIRST, LAST = 1 << 20, 1 << 16

    def __init__(self, pipe):
        super().__init__(daemon=True)
        self.pipe, self.count, self.first, self.last = pipe, 0, b"", b""
        self.start()

    def run(self):
        first = bytearray()
        while True:
            piece = self.pipe.read1(self.LAST)
            if not piece:
                break
            self.count += len(piece)
            first += piece[: max(self.FIRST - len(first), 0)]
            self.last = (self.last + piece)[-self.LAST :]
        self.first = bytes(first)
        self.pipe.close()

    def last_line(self):
        lines = self.last.decode(errors="replace").splitlines()
        return lines[-1] if lines else ""


class Nothing:
    """A stream that nobody kept."""

    count, first, last = 0, b"", b""

    @staticmethod
    def last_line():
        return ""


class Ran(NamedTuple):
    """What a run came to: a status, a signal's name or no end; its streams; the clock's seconds; peak memory in MiB, or what it is below."""

    ended: str
    out: Kept
    err: Kept
    seconds: float
    memory: str


def limited(limits, closed, user, ignored):
    """What is done in the new process before the program begins."""

    def prepare():
        for kind, most in limits.items():
            resource.setrlimit(getattr(resource, f"RLIMIT_{kind}"), (most, most))
        for number in closed:
            os.close(number)
        if user is not None:
            os.setgroups([])
            os.setgid(user)
            os.setuid(user)
        for number in ignored:
            signal.signal(number, signal.SIG_IGN)

    return prepare


def waited(child, seconds):
    """The status of a process and what it used, or nothing where it had to be killed."""
    until = time.monotonic() + seconds
    while time.monotonic() < until:
        pid, status, used = os.wait4(child.pid, os.WNOHANG)
        if pid:
            child.returncode = os.waitstatus_to_exitcode(status)
            return child.returncode, used
        time.sleep(0.002)
    child.kill()
    _, status, used = os.wait4(child.pid, 0)
    child.returncode = os.waitstatus_to_exitcode(status)
    return None, used


def ended_of(status):
    return NO_END if status is None else signal.Signals(-status).name if status < 0 else str(status)


def run(
    words, link=None, *, given=None, out=None, err=None, seconds=120, limits=None, closed=(), user=None, env=None, program=None, name=None, beside=None,
    folder=None, ignored=(signal.SIGXFSZ,),
):
    """Runs the program. `link` is the path of what it reads, `given` an open file in its place; `out` and `err` are open files, or what comes is kept.
    `name` is what the program is told that it is called; `beside` is called with the process once it runs; `folder` is where it runs, and `ignored` are the
    signals that do nothing."""
    program = program or PROGRAM
    reader = given if given is not None else open(link or os.devnull, "rb")
    floor = resource.getrusage(resource.RUSAGE_SELF).ru_maxrss // 1024 + 1
    how = {"stdout": subprocess.PIPE if out is None else out, "stderr": subprocess.PIPE if err is None else err, "env": {**os.environ, **(env or {})}}
    begun = time.perf_counter()
    how |= {"cwd": folder, "preexec_fn": limited(limits or {}, closed, user, ignored)}
    child = subprocess.Popen([name or program, *words], executable=program, stdin=reader, **how)
    if given is None:
        reader.close()
    kept = [Kept(pipe) if pipe else Nothing for pipe in (child.stdout, child.stderr)]
    if beside:
        beside(child)
    status, used = waited(child, seconds)
    taken = time.perf_counter() - begun
    for one in kept:
        if one is not Nothing:
            one.join()
    memory = used.ru_maxrss // 1024
    return Ran(ended_of(status), *kept, taken, str(memory) if memory > floor else f"< {floor}")


class Table:
    """What was tried, row by row, and how many were otherwise than they have to be."""

    def __init__(self):
        self.rows, self.wrong = [], 0

    def group(self, name):
        self.rows.append(name)

    def tell(self, what, ended, last, seconds, memory, wanted):
        """A row. `wanted` says what it had to be where it was otherwise, and is empty where all is right."""
        self.wrong += bool(wanted)
        self.rows.append((what, ended, last, f"{seconds:.2f}", memory))
        room = f", {memory} MiB" if memory else ""
        print(f"{'OTHERWISE' if wanted else 'as it has to'}: {what}: {ended}, {last or 'no line'}, {seconds:.2f} s{room}{wanted}", flush=True)

    def expect(self, what, ran, ended, last=None, other=""):
        """A run that has to end with this status, or one of these, and with this last line of its report; `other` tells what else is not right."""
        line = ran.err.last_line()
        endings = (ended,) if isinstance(ended, str) else ended
        wrong = [f"status {' or '.join(endings)}"] * (ran.ended not in endings) + [f"the last line {last}"] * (last is not None and line != last)
        wanted = "; it has to be " + ", ".join([*wrong, other] if other else wrong) if wrong or other else ""
        told = line if line.startswith('["end",') and line.isprintable() or wanted else "another" if line else ""
        self.tell(what, ran.ended, told if len(told) <= WIDEST else f"{told[:WIDEST]}..", ran.seconds, ran.memory, wanted)

    def count(self, what, kinds, others, seconds, last=""):
        """Many runs of one kind: how many there were of each ending, and those that have to be otherwise."""
        told = ", ".join(f"{count} × {kind}" for kind, count in sorted(kinds.items(), key=lambda kind: -kind[1]) if count)
        wanted = "; it has to be otherwise: " + "; ".join(others[:5]) if others else ""
        self.tell(what, told, last, seconds, "", wanted)

    def page(self):
        """The table as a page has it."""
        lines = []
        for row in self.rows:
            if isinstance(row, str):
                lines += ["", f"### {row}", "", "| what | ended with | last line | seconds | MiB |", "|---|---|---|---|---|"]
            else:
                cells = [cell.replace("|", "\\|") for cell in row]
                cells[2] = f"`{cells[2]}`" if cells[2].startswith("[") else cells[2]
                lines.append("| " + " | ".join(cells) + " |")
        return "\n".join(lines) + "\n"
