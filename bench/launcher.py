#!/usr/bin/env python3
"""The script `conpty` with a made-up `rt`, in copies of the repository that have its crates.txt and a file for each crate.

    launcher.py [WORD..]

The made-up `rt` proves nothing: it takes a moment for each crate, notes what it was given, and makes a script for the program. So this tells in
a minute which crates are proved, what is proved again and what is not, and how calls end. With words it tries those whose names have
one of them. It prints a line for each, and ends with 1 where one was otherwise than it has to be."""
import json
import os
import pathlib
import re
import shutil
import signal
import subprocess
import sys
import tempfile
import time

TOP = pathlib.Path(__file__).resolve().parent.parent
RT = r'''
import hashlib, json, os, subprocess, sys
here, verb, words = os.getcwd(), sys.argv[1], sys.argv[2:]
def note(what, of):
    with open(os.environ["NOTES"], "a") as it:
        it.write(json.dumps([what, of, os.getpid(), here]) + "\n")
def wait():
    subprocess.run(["sleep", os.environ.get("TAKES", "0.01")])
if verb == "try":
    at = words.index("--")
    note("tried", os.path.basename(here))
    os.chdir("/")
    sys.stdout.buffer.write(bytes(range(256)) + b"|" + sys.stdin.buffer.read() + b"|" + b" ".join(os.fsencode(it) for it in words[at + 1 :]))
    sys.stdout.flush()
    wait()
    print('["t","quiet",[],["ok"]]\nchecked: by nobody\n["end",8,1,"none"]', file=sys.stderr)
    if os.environ.get("FAILS") == "try":
        print("checked: fault index\nrun=fault proved=no", file=sys.stderr)
        sys.exit(4)
    print("checked: ended status=8\nraces: not looked for\nrun=ended status=8 runners=1 proved=no", file=sys.stderr)
    sys.exit(8)
if [verb, *words] != ["ci"]:
    sys.exit(f"rt: {verb}?")
if not os.path.isdir(".git"):
    sys.exit("rt: this is not the top of a repository")
lines = [it.partition("#")[0].partition(":") for it in open("crates.txt")]
uses = {it.split()[0]: rest.split() for it, colon, rest in lines if colon}
for it in uses:
    if not os.path.isdir(f"crates/{it}/src"):
        sys.exit(f"rt: crates.txt: {it}: there is no folder crates/{it}/src")
    if os.path.exists(f"crates/{it}/must-fail"):
        sys.exit(f"rt: {it} has wrong bodies to try")
def stamp(crate):
    sum = hashlib.sha256()
    for at, _, files in sorted(os.walk(f"crates/{crate}/src")):
        for it in sorted(files):
            sum.update(it.encode() + open(f"{at}/{it}", "rb").read())
    sum.update(repr([stamp(it) for it in uses[crate] if it in uses]).encode())
    return sum.hexdigest()
def say(text):
    print(text, flush=True)
def prove(crate):
    kept = os.path.join(os.environ["KEPT"], stamp(crate))
    if os.path.exists(kept):
        note("kept", crate)
        return say(f"rt: {crate} is kept: an earlier run on this machine proved the same files over the same libraries")
    note("begun", crate)
    wait()
    say(f"== {crate}\ncrate {crate}: modules loaded=1 checked=1")
    if crate == os.environ.get("FAILS"):
        for number in range(40):
            say(f"line {number} of {crate}")
        say(f"rt: {crate} NOT PROVED")
        lost.add(crate)
        return
    open(kept, "w").close()
    note("proved", crate)
    say(f"rt: {crate} proved")
done, lost = [], set()
if os.environ.get("WAITS"):
    say("rt: con_units: another run on this machine is proving the same; waiting for it")
while len(done) < len(uses):
    for it in uses:
        if it not in done and all(below in done for below in uses[it] if below in uses):
            done.append(it)
            if lost.intersection(uses[it]):
                say(f"rt: {it} NOT PROVED: its library failed")
                lost.add(it)
            else:
                prove(it)
if lost:
    say("rt: FAILED: " + " ".join(sorted(lost)))
    sys.exit(1)
os.makedirs("crates/conpty/out")
with open("crates/conpty/out/conpty", "w") as it:
    it.write('#!/bin/sh\nprintf "%s." "$@"\ncat\necho report >&2\nexit 5\n')
os.chmod("crates/conpty/out/conpty", 0o755)
'''


class Copy:
    """A copy of the repository's script and list of crates, with files of one line for each crate."""

    def __init__(self, folder, name="copy"):
        self.room, self.top = pathlib.Path(folder), pathlib.Path(folder, name)
        (self.room / "bin").mkdir()
        (self.room / "bin/rt").write_text(f"#!{sys.executable}\n{RT}")
        (self.room / "bin/rt").chmod(0o755)
        self.top.mkdir()
        shutil.copy2(TOP / "conpty", self.top)
        shutil.copy2(TOP / "crates.txt", self.top)
        (self.top / "tools").mkdir()
        shutil.copy2(TOP / "tools/prove.py", self.top / "tools")
        lines = [it.partition("#")[0].partition(":") for it in (TOP / "crates.txt").read_text().splitlines()]
        self.uses = {it.split()[0]: rest.split() for it, colon, rest in lines if colon}
        for crate in self.uses:
            (self.top / "crates" / crate / "src").mkdir(parents=True)
            (self.top / "crates" / crate / "src/lib.rt").write_text(f"// {crate}\n")
            (self.top / "crates" / crate / "must-fail").mkdir()
        self.notes, self.script = self.room / "notes", self.top / "conpty"
        (self.room / "kept").mkdir()
        self.env = {**os.environ, "PATH": f"{self.room}/bin:{os.environ['PATH']}", "NOTES": str(self.notes), "KEPT": str(self.room / "kept")}

    def begin(self, *words, given=subprocess.DEVNULL, folder=None, script=None, **env):
        how = {"stdin": given, "stdout": subprocess.PIPE, "stderr": subprocess.PIPE, "start_new_session": True, "cwd": folder}
        return subprocess.Popen([script or self.script, *words], env={**self.env, **env}, **how)

    def call(self, *words, text=b"", **how):
        """Its status, standard output and standard error."""
        with tempfile.TemporaryFile() as given:
            given.write(text)
            given.seek(0)
            ran = self.begin(*words, given=given, **how)
            out, err = ran.communicate(timeout=120)
            return ran.returncode, out, err.decode()

    def noted(self, what):
        if not self.notes.exists():
            return []
        return [crate for it, crate, _, _ in map(json.loads, self.notes.read_text().splitlines()) if it == what]

    def forget(self):
        self.notes.unlink(missing_ok=True)

    def below(self, crate="conpty"):
        found = {crate}
        for it in self.uses[crate]:
            if it in self.uses:
                found |= self.below(it)
        return found

    def wait_for(self, what, crate):
        for _ in range(2400):
            if crate in self.noted(what):
                return
            time.sleep(0.05)
        raise AssertionError(f"{crate} was never {what}")

    def children(self):
        """The processes that the made-up rt began and that still run."""
        pids = {pid for _, _, pid, _ in map(json.loads, self.notes.read_text().splitlines())}
        found = []
        for it in pathlib.Path("/proc").iterdir():
            if it.name.isdigit():
                try:
                    parent = int((it / "stat").read_text().rpartition(")")[2].split()[1])
                    state = (it / "stat").read_text().rpartition(")")[2].split()[0]
                except OSError:
                    continue
                if state != "Z" and (int(it.name) in pids or parent in pids):
                    found.append(int(it.name))
        return found


def same(one, other):
    assert one == other, f"{one!r}, and not {other!r}"


def order(copy):
    """rt proves the crates that the program stands on, and no other, in a copy that goes with the call; a line tells of each as it is done."""
    status, out, err = copy.call("type", text=b"text")
    same((status, out), (5, b"type.text"))
    proved = copy.noted("proved")
    same((sorted(proved), proved[-1]), (sorted(copy.below()), "conpty"))
    count = len(proved)
    lines = re.findall(r"(?m)^conpty: (\w+): (\d+) of (\d+) crates are done, (\d+) are left, after 0 min \d\d s$", err)
    same([crate for crate, _, _, _ in lines], proved)
    same([tuple(map(int, it[1:])) for it in lines], [(at + 1, count, count - at - 1) for at in range(count)])
    same((err.splitlines()[-1], os.listdir(copy.top / "out")), ("report", ["conpty"]))


def later_calls(copy):
    """Once it is built nothing is asked of rt, and words and bytes go through as they are."""
    copy.call("type")
    copy.forget()
    same(copy.call("a b", "", "*", text=b"\0\377"), (5, b"a b..*.\0\377", "report\n"))
    same(copy.notes.exists(), False)


def resumption(copy):
    """What was proved before a call ended is not proved again."""
    status, out, _ = copy.call("type", FAILS="con_machine")
    same((status, out), (70, b""))
    first = copy.noted("proved")
    copy.forget()
    same(copy.call("type")[0], 5)
    same(set(copy.noted("proved")), copy.below() - set(first))
    assert "con_units" in first and "con_machine" in copy.noted("proved")


def failure(copy):
    """A crate that is not proved ends the call at once, with 70 and the crate's last lines; no program is left."""
    status, out, err = copy.call("type", FAILS="con_screen", TAKES="0.1")
    same((status, out), (70, b""))
    lines = err.splitlines()
    same(lines[-21:], [f"line {number} of con_screen" for number in range(21, 40)] + ["rt: con_screen NOT PROVED", "conpty: the program could not be built"])
    time.sleep(0.3)
    same((copy.children(), os.listdir(copy.top / "out"), "con_host" in copy.noted("begun")), ([], [], False))


def failure_of_the_program(copy):
    """The same where the program's own crate is not proved."""
    status, out, err = copy.call("type", FAILS="conpty")
    same((status, out, err.splitlines()[-3:]), (70, b"", ["line 39 of conpty", "rt: conpty NOT PROVED", "conpty: the program could not be built"]))


def no_rt(copy):
    """Without rt on the path it says so."""
    (copy.room / "bin/rt").unlink()
    for words in (["type"], ["unproved", "type"]):
        status, out, err = copy.call(*words, PATH=f"{copy.room}/bin:/usr/bin:/bin")
        same((status, out), (70, b""))
        assert "rt is not on the path" in err, err


def signals(copy):
    """A signal ends the call by that signal, and all that it began; the next call goes on."""
    for name in ("INT", "TERM", "HUP"):
        copy.forget()
        ran = copy.begin("type", TAKES="0.2")
        copy.wait_for("begun", {"INT": "con_grid", "TERM": "con_screen", "HUP": "con_threads"}[name])
        os.kill(ran.pid, getattr(signal, f"SIG{name}"))
        ran.communicate(timeout=20)
        same(ran.returncode, -getattr(signal, f"SIG{name}"))
        time.sleep(0.3)
        same(copy.children(), [])
        same(os.listdir(copy.top / "out"), [])
    before = copy.noted("proved")
    copy.forget()
    same(copy.call("type")[0], 5)
    assert "con_screen" not in copy.noted("proved") and "con_screen" in before, before


def two_calls(copy):
    """Of two calls at once one builds and the other waits; both run the program."""
    one, other = (copy.begin(word, TAKES="0.05") for word in ("one", "other"))
    said = [it.communicate(timeout=120) for it in (one, other)]
    same([(it.returncode, err) for it, (_, err) in zip((one, other), said) if it.returncode != 5], [])
    same([out for out, _ in said], [b"one.", b"other."])
    same(sum(b"another call is building the program" in err for _, err in said), 1)
    same(sorted(copy.noted("proved")), sorted(copy.below()))


def other_rt(copy):
    """That rt waits for another rt is told."""
    _, _, err = copy.call("type", WAITS="1")
    assert "conpty: rt: con_units: another run on this machine is proving the same; waiting for it" in err, err


def spaces(copy):
    """The folder's name may have spaces, stars and a byte that is no UTF-8, and the call come from another folder."""
    same(copy.call("type", text=b"x", folder="/")[:2], (5, b"type.x"))
    same(copy.call("type", text=b"y", folder=copy.room)[:2], (5, b"type.y"))
    same(sorted(set(copy.noted("proved"))), sorted(copy.below()))


def links(copy):
    """A symlink to the script, by a path that is not whole too, runs it where it stands."""
    link = copy.room / "link to it"
    link.symlink_to("copy/conpty")
    same(copy.call("type", text=b"x", script=link, folder="/")[:2], (5, b"type.x"))
    same(copy.call("type", text=b"y", script="./link to it", folder=copy.room)[:2], (5, b"type.y"))
    same(len(copy.noted("proved")), len(copy.below()))


def edits(copy):
    """An edit builds the program anew: what was edited, and what stands on it; one beside the program's crates does not."""
    copy.call("type")
    copy.forget()
    for path, text in (("README.md", "x"), ("crates/tests_book/src/lib.rt", "// x\n"), ("crates/con_term/must-fail/one.edit", "x")):
        (copy.top / path).write_text(text)
    same((copy.call("type")[0], copy.notes.exists()), (5, False))
    (copy.top / "crates/con_link/src/lib.rt").write_text("// another\n")
    same(copy.call("type")[0], 5)
    above = {it for it in copy.below() if "con_link" in copy.below(it)}
    same(set(copy.noted("proved")), above)
    copy.forget()
    (copy.top / "crates/con_host/src/more.rt").write_text("// a new file\n")
    same(copy.call("type")[0], 5)
    same(copy.noted("proved"), ["con_host", "conpty"])
    copy.forget()
    (copy.top / "crates/con_host/src/more.rt").unlink()
    same(copy.call("type")[0], 5)
    same((copy.noted("proved"), "con_host" in copy.noted("kept")), ([], True))
    copy.forget()
    # An older file in its place, with an older time.
    shutil.copy2(TOP / "crates.txt", copy.room / "older")
    os.utime(copy.room / "older", (1, 1))
    os.replace(copy.room / "older", copy.top / "crates/con_pipe/src/lib.rt")
    same(copy.call("type")[0], 5)
    assert "con_pipe" in copy.noted("proved")


def edit_meanwhile(copy):
    """An edit during the build is built by the next call."""
    ran = copy.begin("type", TAKES="0.1")
    copy.wait_for("begun", "con_host")
    (copy.top / "crates/con_units/src/lib.rt").write_text("// changed\n")
    ran.communicate(timeout=120)
    copy.forget()
    same(copy.call("type")[0], 5)
    assert "con_units" in copy.noted("proved")
    copy.forget()
    same((copy.call("type")[0], copy.notes.exists()), (5, False))


def unproved(copy):
    """A form by rt try: nothing is proved, the program's bytes, report and status are as they are, and a first line says so."""
    (copy.room / "a session.json").write_text("{}")
    status, out, err = copy.call("unproved", "solo", "a session.json", text=b"\0\n", folder=copy.room)
    same((status, out), (8, bytes(range(256)) + b"|\0\n|solo " + os.fsencode(copy.room) + b"/a session.json"))
    lines = err.splitlines()
    assert lines[0].startswith("conpty: NOTHING IS PROVED"), lines[0]
    same(lines[1:], ['["t","quiet",[],["ok"]]', "checked: by nobody", '["end",8,1,"none"]'])
    for words in (["type"], ["gen", "7"], ["run", ""], ["run", "-x"], ["solo", "/a/b"], ["play", "80x25", "more"], ["run", "a", "b"]):
        same(copy.call("unproved", *words)[1][257:].partition(b"|")[2], " ".join(words).encode())
    words = ("audit", "a", "/b", "c d\n", "-e")
    at = os.fsencode(copy.room)
    same(copy.call("unproved", *words, folder=copy.room)[1][257:].partition(b"|")[2], b"audit " + at + b"/a /b " + at + b"/c d\n -e")
    same((copy.noted("proved"), (copy.top / "out").exists()), ([], False))


def unproved_without_end(copy):
    """Where rt try tells of no end of the program, all that it said is shown, and the status is 70; a signal ends it and what it began."""
    status, _, err = copy.call("unproved", "type", FAILS="try")
    same((status, err.splitlines()[-3:]), (70, ["checked: fault index", "run=fault proved=no", "conpty: the program did not come to its end"]))
    copy.forget()
    ran = copy.begin("unproved", "type", TAKES="30")
    copy.wait_for("tried", "conpty")
    os.kill(ran.pid, signal.SIGTERM)
    ran.communicate(timeout=20)
    time.sleep(0.3)
    same((ran.returncode, copy.children()), (-signal.SIGTERM, []))


def usage(copy):
    """No words, and words that ask for help, tell how to use it, and build nothing."""
    for words in ([], ["-h"], ["--help"], ["unproved"]):
        status, out, err = copy.call(*words)
        same((status, out, err.splitlines()[-1]), (2, b"", '["end",2,"usage"]'))
    same(copy.notes.exists(), False)


def main():
    tries = [order, later_calls, resumption, failure, failure_of_the_program, no_rt, signals, two_calls, other_rt, spaces, links, edits, edit_meanwhile]
    tries += [unproved, unproved_without_end, usage]
    failed = 0
    for one in tries:
        if sys.argv[1:] and not any(it in one.__name__ for it in sys.argv[1:]):
            continue
        with tempfile.TemporaryDirectory() as folder:
            try:
                one(Copy(folder, "a folder * of \udcff it" if one is spaces else "copy"))
                print(f"{one.__name__}: ok", flush=True)
            except (AssertionError, subprocess.TimeoutExpired) as error:
                failed += 1
                print(f"{one.__name__}: OTHERWISE: {error}", flush=True)
    sys.exit(failed > 0)


main()
