#!/usr/bin/env python3
"""Runs the program to each of its statuses, from a real shell's files and streams, by turns and by threads, and the examples, whose reports and last
pictures stand beside them.

    statuses.py

Prints a line for each run, and ends with 1 where one ended otherwise than it has to. The statuses and last lines are those of docs/FORMATS.md."""
import json
import os
import resource
import subprocess
import sys
import tempfile

import examples
import generated
from runs import PROGRAM

SHELL = examples.path("shell", "json")
WAYS = ("solo", "run")
NUMBERS = (0, 1, 7, 4294967295)
wrong = 0


def run(words, link=b"", out=subprocess.PIPE, err=subprocess.PIPE, memory=None):
    """A run over a link, which is its bytes or what is opened for reading."""
    limit = memory and (lambda: resource.setrlimit(resource.RLIMIT_AS, (memory, memory)))
    given = {"input": link} if isinstance(link, bytes) else {"stdin": link}
    return subprocess.run([PROGRAM, *words], stdout=out, stderr=err, preexec_fn=limit, check=False, **given)


def expect(what, ran, status, last=None):
    """Whether a run ended with this status and its report with this line."""
    global wrong
    told = ran.stderr.decode().splitlines()[-1:] if ran.stderr is not None else []
    right = ran.returncode == status and (last is None or told == [last])
    wrong += not right
    print(f"{'as it has to' if right else 'OTHERWISE'}: status {ran.returncode}, {what}")


def made(folder, name, text):
    path = os.path.join(folder, name)
    with open(path, "wb") as out:
        out.write(text)
    return path


def usages():
    ways = ([way, *words] for way in WAYS for words in ([], ["a", "b"], [""]))
    audits = (["audit", *words] for words in ([], ["a"], ["a", "b", "c"], ["a", "b", "c", ""], ["a", "b", "-c", "d"], ["a", "b", "c", "d", "e"]))
    for words in ([], *ways, *audits, ["mirror"], ["gen", "07"], ["gen", "-1"], ["gen", "4294967296"], ["play", "0x5"], ["--help"]):
        expect(f"words {words}", run(words), 2, '["end",2,"usage"]')


def names():
    """What the program is called by may be any bytes; a word may not."""
    for name, word, status in ((b"\xff", b"7", 0), (b"\xff", b"\xff", 2), (b"conpty", b"\xff", 2)):
        ran = subprocess.run([name, b"gen", word], executable=PROGRAM, stdin=subprocess.DEVNULL, capture_output=True, check=False)
        expect(f"called by the name {name}, words gen {word}", ran, status)


def refusals(folder, way):
    expect(f"{way}: no JSON", run([way, made(folder, "a", b"{")]), 3, '["end",3,"json"]')
    expect(f"{way}: no session", run([way, made(folder, "b", b'{"version":1,"size":[0,25],"clients":[]}')]), 3, '["end",3,"size"]')
    expect(f"{way}: a long file", run([way, made(folder, "c", b" " * 16_777_217)]), 3, '["end",3,"length"]')
    expect(f"{way}: no file", run([way, os.path.join(folder, "none")]), 7, '["end",7,"missing"]')
    expect(f"{way}: a folder", run([way, folder]), 7, '["end",7,"failed"]')


def links(folder, way):
    at = os.open(folder, os.O_RDONLY)
    expect(f"{way}: a link that cannot be read", run([way, SHELL], at), 4, '["end",4,"link"]')
    os.close(at)
    for link, place, kind in ((b"z", 0, "tag"), (b"QB\0\0", 1, "length"), (b"R\0\0\0\1", 0, "size"), (b"B\0\5a", 0, "cut")):
        expect(f"{way}: link {link}", run([way, SHELL], link), 8, f'["end",8,{place},"{kind}"]')
    # Sequences that are no key, so that no record is made of them.
    most = (b"B\x0f\xff" + b"\x1b[m" * 1365) * 4094 + b"Q" * 4
    expect(f"{way}: as many bytes as a link may have", run([way, SHELL], most), 0, '["end",0]')
    expect(f"{way}: one byte more", run([way, SHELL], most + b"Q"), 10, '["end",10,"too long"]')


def failures(folder, way):
    with open("/dev/full", "wb") as full:
        expect(f"{way}: a terminal that fails", run([way, SHELL], b"Q", out=full), 5, '["end",5,"term"]')
        expect(f"{way}: a report that fails", run([way, SHELL], b"Q", err=full), 6)
        expect(f"{way}: a terminal and a report that fail", run([way, SHELL], b"Q", out=full, err=full), 5)
    # 16 MiB that are typed, and nobody reads: their records alone have 640 MiB.
    typed = (b"B\x10\0" + b"a" * 4096) * 4000
    idle = made(folder, "idle", b'{"version":1,"size":[80,25],"clients":[{"program":"a","group":1,"calls":[]}]}')
    expect(f"{way}: little memory", run([way, idle], typed, memory=100 * 1024 * 1024), 9, '["end",9]')


def generations(folder):
    for number in NUMBERS:
        drawn(folder, number)
    with open("/dev/full", "wb") as full:
        expect("a terminal that fails a generated session", run(["gen", "7"], out=full), 5, '["end",5,"term"]')
        expect("a summary that fails", run(["gen", "7"], err=full), 6)
    expect("little memory for a generated session", run(["gen", "7"], memory=8 * 1024 * 1024), 9)


def drawn(folder, number):
    """A generated session, whose stream and summary are those of the document that is drawn by docs/FORMATS.md."""
    global wrong
    ran, beside = run(["gen", str(number)]), run(["solo", made(folder, "drawn", json.dumps(generated.session(number)).encode())])
    expect(f"gen {number}", ran, 0)
    report, told = beside.stderr.decode(), ran.stderr.decode().splitlines(keepends=True)
    # Each record that is put in is left, since no call takes one.
    count = {"refused": '["fail",', "records": '"write-input"', "paints": '["painted",'}
    counts = "calls 2000\n" + "".join(f"{name} {report.count(word)}\n" for name, word in count.items())
    dump = run(["play", "80x25"], ran.stdout).stderr.decode()
    if beside.returncode != 0 or (ran.stdout, "".join(told[:4]), "".join(told[4:])) != (beside.stdout, counts, dump):
        wrong += 1
        print(f"OTHERWISE: gen {number} is another session than the drawn one")


def mirror(folder):
    """The second terminal is a file in the folder in which the program runs; a folder of its name cannot be written."""
    global wrong
    session = os.path.abspath(examples.path("mirror", "json"))
    with open(examples.path("mirror", "link"), "rb") as link:
        frames = link.read()
    program = [os.path.abspath(PROGRAM), "mirror", session]
    ran = subprocess.run(program, input=frames, capture_output=True, cwd=folder, check=False)
    expect("mirror: example mirror", ran, 0, '["end",0]')
    with open(os.path.join(folder, "conpty.mirror"), "rb") as file:
        second = run(["play", "30x5"], file.read()).stderr.decode()
    with open(examples.path("mirror", "second"), encoding="utf-8") as text:
        shows = text.read()
    last = run(["play", "24x4"], ran.stdout).stderr.decode()
    if examples.without_lengths(ran.stderr) != examples.report_of("mirror") or last != examples.dump_of("mirror") or second != shows:
        wrong += 1
        print("OTHERWISE: the report or a last picture of mirror is not the one beside it")
    full = os.path.join(folder, "full")
    os.makedirs(os.path.join(full, "conpty.mirror"))
    lost = subprocess.run(program, input=frames, capture_output=True, cwd=full, check=False)
    expect("mirror: a file that cannot be written", lost, 12, '["end",12,"mirror"]')
    if lost.stdout != ran.stdout:
        wrong += 1
        print("OTHERWISE: the terminal's stream where the second terminal failed")
    for way in WAYS:
        expect(f"{way}: a link with a second terminal", run([way, session], frames), 8, '["end",8,0,"tag"]')


def audit(folder, name, session, link, stream, report):
    """The words of an audit of a session's file, a link's, and what a run wrote."""
    left = (("link", link), ("stream", stream), ("report", report))
    return ["audit", session, *(made(folder, f"{name}.{kind}", text) for kind, text in left)]


def audits(folder):
    """What a session left is a run; with a change it is none. The terminal's stream of an audit has nothing."""
    global wrong
    session = examples.path("version1", "json")
    with open(examples.path("version1", "link"), "rb") as file:
        link = file.read()
    ran = run(["solo", session], link)
    lines = ran.stderr.splitlines(keepends=True)
    words = audit(folder, "whole", session, link, ran.stdout, ran.stderr)
    sound = run(words)
    expect("audit: what a session left", sound, 0, '["audit","yes"]')
    if sound.stdout:
        wrong += 1
        print("OTHERWISE: an audit wrote to its standard output")
    # The first line is the link's first frame, so the next one that the terminal's side enters is the second, before the first.
    unfed = audit(folder, "unfed", session, link, ran.stdout, b"".join(lines[1:]))
    entered = next(at for at, line in enumerate(lines[1:]) if line.startswith(b'["t",'))
    expect("audit: a report without its first line", run(unfed), 13, f'["audit","no",{entered},"follows"]')
    cut = audit(folder, "cut", session, link, ran.stdout, b"".join(lines[:-1]))
    expect("audit: a report without its last line", run(cut), 13, f'["audit","no",{len(lines) - 1},"line"]')
    painted = next(at for at, line in enumerate(lines) if b'"painted"' in line)
    expect("audit: a stream of no byte", run(audit(folder, "dark", session, link, b"", ran.stderr)), 13, f'["audit","no",{painted},"end"]')
    expect("audit: no JSON", run(audit(folder, "text", made(folder, "a", b"{"), link, ran.stdout, ran.stderr)), 3, '["end",3,"json"]')
    long = audit(folder, "long", session, b" " * 16_777_217, ran.stdout, ran.stderr)
    expect("audit: a link that is too long", run(long), 3, '["end",3,"length"]')
    for at in range(1, 5):
        none = [*words[:at], os.path.join(folder, "none"), *words[at + 1 :]]
        expect(f"audit: no file {at}", run(none), 7, '["end",7,"missing"]')
    expect("audit: a folder", run([*words[:4], folder]), 7, '["end",7,"failed"]')
    with open("/dev/full", "wb") as full:
        expect("audit: a line that cannot be written", run(words, err=full), 6)
        expect("audit: one that tells of no run", run(cut, err=full), 13)
    expect("audit: little memory", run(long, memory=16 * 1024 * 1024), 9)


def example(folder, name, way):
    """By threads events come in another order each time, so their lines are not told. What is left is a run."""
    global wrong
    session = examples.path(name, "json")
    with open(examples.path(name, "link"), "rb") as file:
        link = file.read()
    ran = run([way, session], link)
    expect(f"{way}: example {name}", ran, 0, '["end",0]')
    expect(f"audit: example {name} by {way}", run(audit(folder, name, session, link, ran.stdout, ran.stderr)), 0, '["audit","yes"]')
    if way == "solo" and examples.without_lengths(ran.stderr) != examples.report_of(name):
        wrong += 1
        print(f"OTHERWISE: the report of {name} is not examples/{name}.report")
    if way == "solo" and run(["play", examples.SIZES[name]], ran.stdout).stderr.decode() != examples.dump_of(name):
        wrong += 1
        print(f"OTHERWISE: the last picture of {name} is not examples/{name}.dump")


def main():
    if not os.access(PROGRAM, os.X_OK):
        sys.exit("build the program first: ./conpty type </dev/null >/dev/null")
    usages()
    names()
    with tempfile.TemporaryDirectory() as folder:
        for way in WAYS:
            refusals(folder, way)
            links(folder, way)
            failures(folder, way)
            for name in examples.NAMES:
                example(folder, name, way)
            expect(f"{way}: example fault", run([way, examples.path("fault", "json")], b"Q"), 3, '["end",3,"clients[0].calls[1]"]')
        generations(folder)
        audits(folder)
        mirror(folder)
    sys.exit(wrong > 0)


main()
