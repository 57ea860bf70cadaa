#!/usr/bin/env python3
"""Runs a real program in a pseudoterminal, and writes a session of what it wrote. Outside what is proved."""
import codecs
import fcntl
import json
import os
import re
import select
import shutil
import struct
import subprocess
import tempfile
import termios
import time
from typing import List, NamedTuple, Tuple

from conptylib import base, linktext
from conptylib.frames import Frame

ABOUT = """Runs a real program in a pseudoterminal of a size, types keys into it, and writes a session document whose
one client makes the writes that the program made, so that `conpty solo` paints them.

  record.py --size 80x25 --keys TEXT -o SESSION -- vim notes.txt
  conpty solo SESSION < /dev/null | conpty play 80x25

The text of the keys is that of link.py; standard input is `-`. Each line waits until the program is still for a while
(for two seconds where it wrote nothing yet) and is typed then; `quiet` waits once more. Keys of the cursor are sent in
the form that the program has asked for. `resize` changes the size of the pseudoterminal; the session gets it by a link
of its own (--link), with quiet frames up to its place. `hangup` hangs up, and so does the end of the text, once the
program is still. `paint` is nothing here.

Each write is what came between two pauses of --gap ms, in at most 16,384 units; a character that is cut by a pause is
written with the next part, and a byte that is no UTF-8 is U+FFFD. Sequences are left as they are. Where there are more
than 1,023 writes, those with the shortest pauses between them become one.

What differs from what a terminal shows (vim, less, nano, htop, mc, dialog, top, git, bash and python3 were compared
with tmux, row by row):
- With --mode 7 a character in the last column moves the cursor to the next row at once, and LF goes to column 0: a full
  row has an empty one below it, and a program that writes all of its screen scrolls it. Mode 15 (no automatic return)
  does as terminals do, and is what is written by default.
- Characters of two columns, characters past U+FFFF and combining marks are U+FFFD, in one column for each UTF-16 unit.
- Bold is a bright colour; colours of 24 bits, faint, italic, blinking and struck through are not there.
- Where a row is full and its end is erased, its last cell is erased too, as xterm does it and tmux does not.
- Of a private mode with more numbers the first alone counts: CSI ? 12 ; 25 h does not show the cursor.
- Nobody answers a program that asks what its terminal is, or where the cursor is.
- REP (CSI b), which the console does not know, is taken out of the program's terminal description by infocmp and tic.
  Where these are not installed, repeated characters are missing; --term names another description.

Status: 0; 2 where the program cannot be run, or what it wrote is more than a session may have."""

MOST_UNITS = 16_384
MOST_CALLS = 1_024
MOST_DOCUMENT = 16_777_216
PATIENCE = 10.0
STARTING = 2.0
CURSOR_KEYS = re.compile(rb"\x1b\[\?1([hl])")
CURSOR_KEY = re.compile(rb"\x1b\[([ABCDHF])")


class Chunk(NamedTuple):
    """What came at a time."""

    at: float
    what: bytes


class Recording(NamedTuple):
    """What a program wrote, and the sizes that its terminal got, each before a chunk of this number."""

    chunks: List[Chunk]
    sizes: List[Tuple[int, Tuple[int, int]]]


# ---- the program


def set_size(terminal: int, size: Tuple[int, int]) -> None:
    fcntl.ioctl(terminal, termios.TIOCSWINSZ, struct.pack("HHHH", size[1], size[0], 0, 0))


def environment(term: str, folder: str) -> dict:
    """The program's environment: its terminal, without REP where that can be taken out, and a language in UTF-8."""
    env = {key: value for key, value in os.environ.items() if key not in ("LINES", "COLUMNS", "TERMINFO", "TERMCAP")}
    env["TERM"] = term
    if not any(env.get(name) for name in ("LC_ALL", "LC_CTYPE", "LANG")):
        env["LANG"] = "C.UTF-8"
    if shutil.which("infocmp") and shutil.which("tic"):
        told = subprocess.run(["infocmp", "-1", term], stdout=subprocess.PIPE, stderr=subprocess.DEVNULL, check=False)
        kept = b"".join(line for line in told.stdout.splitlines(True) if not line.strip().startswith(b"rep="))
        made = subprocess.run(["tic", "-x", "-o", folder, "-"], input=kept, stderr=subprocess.DEVNULL, check=False)
        if told.returncode == 0 and made.returncode == 0:
            env["TERMINFO"] = folder
    return env


def begin(words: List[str], size: Tuple[int, int], env: dict) -> Tuple[subprocess.Popen, int]:
    """The program on a pseudoterminal of its own, and our end of it."""
    ours, its = os.openpty()
    set_size(its, size)

    def take_terminal() -> None:
        fcntl.ioctl(0, termios.TIOCSCTTY, 0)

    try:
        program = subprocess.Popen(
            words, stdin=its, stdout=its, stderr=its, env=env, start_new_session=True, preexec_fn=take_terminal
        )
    except OSError as fault:
        raise base.ToolError(f"{words[0]}: {fault.strerror}") from None
    finally:
        os.close(its)
    return program, ours


class Recorder:
    """A program that runs, and what it wrote so far."""

    def __init__(self, terminal: int, still: float):
        self.terminal, self.still = terminal, still
        self.recording = Recording([], [])
        self.is_over = self.cursor_keys = False

    def wait_still(self) -> None:
        """Reads until the program wrote nothing for a while, has ended, or was never still for long."""
        until = time.monotonic() + PATIENCE
        while not self.is_over and time.monotonic() < until:
            still = self.still if self.recording.chunks else max(self.still, STARTING)
            if not select.select([self.terminal], [], [], still)[0]:
                return
            self.read()

    def read(self) -> None:
        try:
            what = os.read(self.terminal, 65536)
        except OSError:
            what = b""
        self.is_over = not what
        if what:
            self.recording.chunks.append(Chunk(time.monotonic(), what))
            for found in CURSOR_KEYS.finditer(what):
                self.cursor_keys = found.group(1) == b"h"

    def type(self, typed: bytes) -> None:
        """Types some bytes: keys of the cursor in the form that the program has asked for."""
        if self.cursor_keys:
            typed = CURSOR_KEY.sub(b"\x1bO\\1", typed)
        while typed and not self.is_over:
            _, is_ready, _ = select.select([], [self.terminal], [], 0.1)
            if is_ready:
                typed = typed[os.write(self.terminal, typed[:512]) :]
            if select.select([self.terminal], [], [], 0)[0]:
                self.read()

    def enter(self, frame: Frame) -> None:
        if frame.tag == "B":
            self.type(frame.typed)
        elif frame.tag == "R":
            self.recording.sizes.append((len(self.recording.chunks), frame.size))
            set_size(self.terminal, frame.size)


def record(words: List[str], size: Tuple[int, int], frames: List[Frame], got) -> Recording:
    """Runs a program to the end of the keys, and hangs up."""
    with tempfile.TemporaryDirectory() as folder:
        program, terminal = begin(words, size, environment(got.term, folder))
        recorder = Recorder(terminal, got.still / 1000)
        try:
            for frame in frames:
                recorder.wait_still()
                if frame.tag == "X" or recorder.is_over:
                    break
                recorder.enter(frame)
            recorder.wait_still()
        finally:
            os.close(terminal)
            end(program)
    return recorder.recording


def end(program: subprocess.Popen) -> None:
    """Waits for a program that was hung up; one that goes on is ended."""
    try:
        program.wait(2)
    except subprocess.TimeoutExpired:
        program.kill()
        program.wait()


# ---- the session


def gathered(recording: Recording, gap: float, most: int) -> Recording:
    """The chunks with only a short pause between them as one, and so many of them at most, cut at each new size."""
    cuts = {at for at, _ in recording.sizes}
    chunks, pauses = recording.chunks, []
    for at in range(1, len(chunks)):
        pauses.append(float("inf") if at in cuts else chunks[at].at - chunks[at - 1].at)
    longest = sorted(pauses, reverse=True)[: most - 1]
    starts = [at + 1 for at, pause in enumerate(pauses) if pause >= gap and pause >= (longest or [0])[-1]]
    starts = [0, *starts][:most] if chunks else []
    parts = [chunks[start:stop] for start, stop in zip(starts, [*starts[1:], len(chunks)])]
    sizes = [(sum(start < at for start in starts), size) for at, size in recording.sizes]
    return Recording([Chunk(part[0].at, b"".join(chunk.what for chunk in part)) for part in parts], sizes)


def texts(recording: Recording) -> List[List[str]]:
    """The text of each chunk in parts of at most as many units as a write has; cut characters go to the next chunk."""
    decoder = codecs.getincrementaldecoder("utf-8")("replace")
    last = len(recording.chunks) - 1
    return [parts_of(decoder.decode(chunk.what, at == last)) for at, chunk in enumerate(recording.chunks)]


def parts_of(text: str) -> List[str]:
    parts, start, units = [], 0, 0
    for at, char in enumerate(text):
        width = 2 if char > "\uffff" else 1
        if units + width > MOST_UNITS:
            parts.append(text[start:at])
            start, units = at, 0
        units += width
    return parts + [text[start:]] if start < len(text) else parts


def session_of(program: str, size: Tuple[int, int], mode: int, written: List[List[str]]) -> bytes:
    """The document, with a line for each call."""
    calls = [["set-mode", 2, mode]] + [["write", 2, part] for parts in written for part in parts]
    if len(calls) > MOST_CALLS:
        raise base.ToolError(f"{len(calls)} calls are needed, and a client has at most {MOST_CALLS}")
    lines = ",\n    ".join(json.dumps(call, separators=(",", ":")) for call in calls)
    client = f'{{"program":{json.dumps(program[:120])},"group":1,"calls":[\n    {lines}]}}'
    document = f'{{"version":2,"size":[{size[0]},{size[1]}],"clients":[\n  {client}]}}\n'.encode()
    if len(document) > MOST_DOCUMENT:
        raise base.ToolError(f"the session has {len(document)} bytes, and at most {MOST_DOCUMENT} are read")
    return document


def link_of(sizes: List[Tuple[int, Tuple[int, int]]], written: List[List[str]]) -> bytes:
    """The link that gives the sizes by turns: the client makes its call of number n behind the frame of number n."""
    frames: List[Frame] = []
    for at, size in sizes:
        before = 1 + sum(len(parts) for parts in written[:at])
        frames += [Frame("Q")] * (before - len(frames))
        frames.append(Frame("R", size=size))
    return b"".join(frame.spelled() for frame in frames)


def arguments(words: List[str]):
    parser = base.parser(ABOUT, usage="record.py --size WxH [--keys TEXT] [-o SESSION] [...] -- PROGRAM [WORD ...]")
    parser.add_argument("--size", type=base.size_argument, default=(80, 25), metavar="WxH", help="80x25 by default")
    parser.add_argument("--keys", metavar="TEXT", help="what is typed, as a text of link.py; - is standard input")
    parser.add_argument("-o", dest="session", metavar="SESSION", default="-", help="standard output without it")
    parser.add_argument("--link", metavar="LINK", help="where the link with the new sizes goes")
    parser.add_argument("--raw", metavar="FILE", help="keeps the bytes as they came, too")
    parser.add_argument("--term", metavar="NAME", default="xterm-256color", help="the program's TERM")
    parser.add_argument("--mode", type=int, choices=(7, 15), default=15, help="the output mode: 15 by default, or 7")
    parser.add_argument("--still", type=int, metavar="MS", default=400, help="how long it is still: 400 by default")
    parser.add_argument("--gap", type=int, metavar="MS", default=20, help="the pause that ends a write: 20 by default")
    parser.add_argument("program", nargs="+", metavar="PROGRAM", help="the program and its words, behind --")
    return parser.parse_args(words)


def main(words: List[str]) -> int:
    got = arguments(words)
    frames = linktext.read_text(base.read_text(got.keys)).frames if got.keys else []
    if any(frame.tag == "R" for frame in frames) and not got.link:
        raise base.ToolError("the keys have a resize: --link says where the link with it goes")
    made = record(got.program, got.size, frames, got)
    if got.raw:
        base.write_bytes(got.raw, b"".join(chunk.what for chunk in made.chunks))
    made = gathered(made, got.gap / 1000, MOST_CALLS - 1)
    written = texts(made)
    base.write_bytes(got.session, session_of(os.path.basename(got.program[0]), got.size, got.mode, written))
    if got.link:
        base.write_bytes(got.link, link_of(made.sizes, written))
    return 0


if __name__ == "__main__":
    base.start(main)
