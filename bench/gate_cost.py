#!/usr/bin/env python3
"""Runs a command, as `rt ci`, and prints the processor seconds of each crate's checks: its proof, its tests, its edits, and then of each
edit by name (`seed` is the crate as it stands, among its edits).

    bench/gate_cost.py [--log FILE] [--table FILE] rt ci
    bench/gate_cost.py --read FILE [--table FILE]

It stands in the repository's top folder. It looks twice a second at the processes below the command, by /proc, so up to half a second of each process is not
counted. The last line has all that the command and its children took, by the system's own count. A run that is interrupted prints what it took so far.

How edits are tried depends on the kit. rattle-kit-13b tries a crate's edits one behind another, the first one over an empty folder, so that one has the crate's
proof in its seconds; the crate as it stands comes last, where there are two edits or more. rattle-kit-13f checks the crate as it stands first, and keeps what
passed from run to run: there `rt ci --anew` is the run that shows the whole cost.

--log has a line for each check, written every ten seconds and again as it goes on: the process, its seconds, the crate, the kind of check and the edit. --read
prints the same from such a file, also while the run goes on or where it was killed. --table writes a line for each crate: its name, and the seconds of its
proof, its tests, its seed and its edits, and how many edits those are (of a run that did not end, fewer than the crate has)."""
import argparse
import collections
import functools
import os
import pathlib
import resource
import subprocess
import sys
import time

TICKS = os.sysconf("SC_CLK_TCK")


def processes():
    """Each process's parent and the seconds that it took itself."""
    found = {}
    for name in os.listdir("/proc"):
        if name.isdigit():
            try:
                with open(f"/proc/{name}/stat") as it:
                    fields = it.read().rpartition(")")[2].split()
            except OSError:
                continue
            found[int(name)] = int(fields[1]), (int(fields[11]) + int(fields[12])) / TICKS, fields[19]
    return found


def below(found, top):
    """The processes below one."""
    children = collections.defaultdict(list)
    for pid, (parent, _, _) in found.items():
        children[parent].append(pid)
    todo, met = [top], []
    while todo:
        met.append(todo.pop())
        todo += children[met[-1]]
    return met


@functools.cache
def edits_of(crate):
    """Each edit of a crate by its name: the files that it changes, as they then read."""
    found, top = {}, pathlib.Path("crates", crate)
    for edit in sorted(top.glob("must-fail/*.edit")):
        path, old, texts = None, None, {}
        for line in edit.read_text().split("\n"):
            word, _, rest = line.partition(":")
            rest = rest.removeprefix(" ")
            if word == "file":
                path = rest.strip()
                texts.setdefault(path, (top / path).read_text())
            elif word == "old":
                old = rest
            elif word == "new":
                texts[path] = texts[path].replace(old, rest)
        found[edit.stem] = texts
    return found


def edit_in(crate, room):
    """The edit that a copy of a crate is, or `seed` if it is the crate as it stands."""
    for name, texts in edits_of(crate).items():
        if all(pathlib.Path(room, path).read_text() == text for path, text in texts.items()):
            return name
    return "seed"


def part_of(pid):
    """The crate and the kind of check that a process works on, and the edit's name."""
    try:
        with open(f"/proc/{pid}/cmdline", "rb") as it:
            words = it.read().decode(errors="replace").split("\0")
        folder = os.readlink(f"/proc/{pid}/cwd")
    except OSError:
        return None
    if "--crate-name" not in words:
        return None
    crate = words[words.index("--crate-name") + 1]
    if any("/rt-edit" in it for it in [folder, *words]):
        try:
            return crate, "edits", edit_in(crate, folder)
        except OSError:
            return crate, "edits", "of no known name"
    return crate, "tests" if "--test" in words else "proof", None


class Seen:
    """What each process of a check took, by its number and beginning, and the crate, the kind of check and the edit."""

    def __init__(self, log=None):
        self.parts, self.took, self.log, self.logged = {}, {}, log and open(log, "w", encoding="utf-8"), {}

    def look(self, top):
        found = processes()
        for pid in below(found, top):
            if pid in found:
                one = pid, found[pid][2]
                self.parts[one] = self.parts.get(one) or part_of(pid)
                self.took[one] = found[pid][1]

    def write(self):
        """Adds a line to the log for each check that took more since the last one."""
        if not self.log:
            return
        for one, part in self.parts.items():
            if part and self.logged.get(one) != self.took[one]:
                self.logged[one] = self.took[one]
                print(*one, f"{self.took[one]:.2f}", *part[:2], part[2] or "-", sep="\t", file=self.log)
        self.log.flush()

    def read(self, name):
        with open(name, encoding="utf-8") as it:
            for line in it:
                words = line.rstrip("\n").split("\t")
                # The last line of a run that was killed may be a part of one.
                if len(words) == 6 and line.endswith("\n"):
                    pid, began, seconds, crate, kind, edit = words
                    self.parts[pid, began] = crate, kind, None if edit == "-" else edit
                    self.took[pid, began] = float(seconds)

    def sums(self):
        """The seconds of each crate by the kind of check, and of each crate and edit."""
        table, edits = collections.defaultdict(collections.Counter), collections.Counter()
        for one, part in self.parts.items():
            if part:
                table[part[0]][part[1]] += self.took[one]
                if part[2]:
                    edits[part[0], part[2]] += self.took[one]
        return table, edits


def run(command, seen):
    """Runs the command to its end, and returns its status."""
    ran, written = subprocess.Popen(command), time.monotonic()
    try:
        while ran.poll() is None:
            seen.look(ran.pid)
            if time.monotonic() - written > 10:
                seen.write()
                written = time.monotonic()
            time.sleep(0.5)
    except KeyboardInterrupt:
        ran.wait()
    seen.write()
    return ran.returncode


def show(table, edits):
    print(f"{'crate':14} {'proof':>7} {'tests':>7} {'edits':>7} {'all':>7}")
    for crate, kinds in sorted(table.items(), key=lambda it: -sum(it[1].values())):
        print(f"{crate:14} " + " ".join(f"{it:7.0f}" for it in [kinds["proof"], kinds["tests"], kinds["edits"], sum(kinds.values())]))
    kinds = sum(table.values(), collections.Counter())
    print(f"{'all':14} " + " ".join(f"{it:7.0f}" for it in [kinds["proof"], kinds["tests"], kinds["edits"], sum(kinds.values())]))
    for (crate, name), seconds in sorted(edits.items(), key=lambda it: (it[0][0], -it[1])):
        print(f"{seconds:7.0f} {crate} {name}")


def write_table(name, table, edits):
    with open(name, "w", encoding="utf-8") as out:
        print("# NAME PROOF TESTS SEED EDITS COUNT, in processor seconds; EDITS is that of all COUNT edits", file=out)
        for crate, kinds in sorted(table.items(), key=lambda it: -sum(it[1].values())):
            own = {edit: seconds for (of, edit), seconds in edits.items() if of == crate}
            seed = own.pop("seed", 0)
            print(crate, *[f"{it:.0f}" for it in (kinds["proof"], kinds["tests"], seed, sum(own.values()))], len(own), file=out)


def main():
    words = argparse.ArgumentParser(description="see the head of this file")
    words.add_argument("--log", metavar="FILE")
    words.add_argument("--table", metavar="FILE")
    words.add_argument("--read", metavar="FILE")
    words.add_argument("command", nargs=argparse.REMAINDER)
    given = words.parse_args()
    if bool(given.read) == bool(given.command) or given.read and given.log:
        words.error("give a command to run, or --read and a file")
    seen, status = Seen(given.log), 0
    if given.read:
        seen.read(given.read)
    else:
        status = run(given.command, seen)
    table, edits = seen.sums()
    show(table, edits)
    if given.table:
        write_table(given.table, table, edits)
    if given.command:
        used = resource.getrusage(resource.RUSAGE_CHILDREN)
        print(f"in all {used.ru_utime + used.ru_stime:.0f} processor seconds")
    return status


if __name__ == "__main__":
    sys.exit(main())
