#!/usr/bin/env python3
"""Proves a program of the repository with the crates that it stands on, and builds it, by the toolchain's own gate. Outside what is proved.

It is what the launcher `conpty` does at its first call, and how the programs of the benchmarks are built; like the other tools it is outside what is proved.

    tools/prove.py PROGRAM

`rt ci` proves the crates in a copy of their files, under out/side, side by side as processors and memory allow; it tries no wrong bodies, of which the copy
has none. What it proved it keeps beside the toolchain, on this machine, by the sums of all that it read: so a run that is ended goes on where it was, and
what the gate proved is not proved again. The program goes to crates/PROGRAM/out.

A line tells of each crate as it is done, and one of each minute in which none is, on standard error. Status 1: a crate could not be proved, and the last
lines of rt are shown."""
import argparse
import collections
import os
import pathlib
import re
import shutil
import signal
import subprocess
import sys
import threading
import time

TOP = pathlib.Path(__file__).resolve().parent.parent
# What rt ci reads of a crate: its text, and with what the program is run once.
PARTS = ("src", "specs", "proofs", "data", "args", "stdin", "stdout", "status")


def say(text):
    print(f"conpty: {text}", file=sys.stderr, flush=True)


def copy(one, other):
    if one.is_dir():
        shutil.copytree(one, other)
    elif one.is_file():
        shutil.copy2(one, other)


class Failed(Exception):
    """rt did not prove a crate, or not build the program."""


class Build:
    """A copy of the crates, and the run of rt that proves them."""

    def __init__(self, program):
        lines = [it.partition("#")[0] for it in (TOP / "crates.txt").read_text(encoding="utf-8").splitlines()]
        self.listed = {it.split()[0].rstrip(":"): it for it in lines if ":" in it}
        self.program, self.names, self.side = program, [], TOP / "out/side"
        self.began, self.told, self.done, self.process = time.monotonic(), time.monotonic(), 0, None
        self.add(program)

    def add(self, crate):
        """Adds a crate behind those of the repository that it stands on."""
        for it in self.listed[crate].partition(":")[2].split():
            if it in self.listed and it not in self.names:
                self.add(it)
        self.names.append(crate)

    def copy_crates(self):
        """rt takes the copy for the top of a repository, and refuses a list with a crate that has no folder there."""
        shutil.rmtree(self.side, ignore_errors=True)
        (self.side / ".git").mkdir(parents=True)
        for name in self.names:
            (self.side / "crates" / name).mkdir(parents=True)
            for part in PARTS:
                copy(TOP / "crates" / name / part, self.side / "crates" / name / part)
        copy(TOP / "HANDLES", self.side / "HANDLES")
        (self.side / "crates.txt").write_text("".join(f"{self.listed[it]}\n" for it in self.names), encoding="utf-8")

    def tell(self, what):
        passed = int(time.monotonic() - self.began)
        self.told = time.monotonic()
        say(f"{what}: {self.done} of {len(self.names)} crates are done, {len(self.names) - self.done} are left, after {passed // 60} min {passed % 60:02} s")

    def tell_each_minute(self, is_ended):
        while not is_ended.wait(1):
            if time.monotonic() - self.told >= 60:
                self.tell("at work")

    def read(self, line, last):
        """Tells of what a line of rt says; `last` has the lines of the crate that it speaks of."""
        if line.startswith("== "):
            last.clear()
        found = re.match(r"rt: (\w+) (?:is kept: .*|(NOT )?PROVED|proved)$", line)
        if re.match(r"rt: (waiting for |.*waiting for it)", line):
            say(line)
        elif found and found[1] in self.names and not found[2]:
            self.done += 1
            self.tell(found[1])
        elif line.strip():
            last.append(line)
        if found and found[2]:
            raise Failed

    def prove(self):
        last, is_ended = collections.deque(maxlen=20), threading.Event()
        pipes = {"stdin": subprocess.DEVNULL, "stdout": subprocess.PIPE, "stderr": subprocess.STDOUT}
        self.process = subprocess.Popen(["rt", "ci"], cwd=self.side, errors="replace", start_new_session=True, **pipes)
        threading.Thread(target=self.tell_each_minute, args=(is_ended,), daemon=True).start()
        try:
            for line in self.process.stdout:
                self.read(line.rstrip("\n"), last)
            if self.process.wait():
                raise Failed
        except Failed as failed:
            raise Failed("\n".join(last)) from failed
        finally:
            is_ended.set()
            self.end()

    def end(self):
        """Ends what is at work."""
        if self.process and self.process.poll() is None:
            os.killpg(self.process.pid, signal.SIGTERM)
            self.process.wait()

    def build(self):
        made = pathlib.Path("crates", self.program, "out", self.program)
        try:
            self.copy_crates()
            self.prove()
            (TOP / made).parent.mkdir(exist_ok=True)
            shutil.copy2(self.side / made, TOP / made)
        finally:
            shutil.rmtree(self.side, ignore_errors=True)


def main():
    def interrupted(number, _):
        build.end()
        sys.exit(128 + number)

    words = argparse.ArgumentParser(description=__doc__, formatter_class=argparse.RawDescriptionHelpFormatter)
    words.add_argument("program", metavar="PROGRAM")
    build = Build(words.parse_args().program)
    for it in (signal.SIGINT, signal.SIGTERM, signal.SIGHUP):
        signal.signal(it, interrupted)
    try:
        build.build()
    except Failed as failed:
        print(failed, file=sys.stderr)
        sys.exit(1)


main()
