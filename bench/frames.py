#!/usr/bin/env python3
"""Eighteen pictures one after another on one terminal: the bytes of each frame beside those that ncurses writes to show the same, and whether other terminals
show them cell by cell.

    frames.py [bytes|cells]

A client writes eighteen times, and each picture is painted. `bytes`: ncurses is run on a terminal of its own (TERM=xterm-256color), is handed the same cells one
picture after another, and told that rows and characters may be inserted and deleted. `cells`: the stream is shown, frame by frame, on what is installed of tmux,
screen (characters alone), libvterm and libtsm, and their cells and cursor are compared with the dump that `play` makes; terminals.py does so by pixels, for
terminals that want a display. It ends with 1 where a cell is another one."""
import json
import os
import pty
import re
import select
import subprocess
import sys
import tempfile
import termios
import time
import tty

sys.dont_write_bytecode = True

import dumps
import hostile
import peers
import runs
from dumps import H, W

TEXT = "The cursor goes to a place, a row is written, a colour changes, and nothing else of the page is another one than it was before it".split()


def at(y, x):
    return f"\x1b[{y};{x}H"


def prose(row, most=70):
    """A line of words, another one for each row."""
    line = ""
    for k in range(30):
        word = TEXT[(row * 7 + k) % len(TEXT)]
        if len(line) + len(word) >= most - row * 5 % 23:
            break
        line += word + " "
    return line.rstrip()


def page():
    rows = "".join(at(y, 1) + prose(y) for y in range(1, H))
    return "\x1b[m\x1b[2J" + rows + at(H, 1) + "\x1b[7m" + f"{' notes.txt   24 lines':80}" + "\x1b[m" + at(3, 1)


def menu():
    rows = [f"| {name:14} |" for name in ("New file", "Open ..", "Save", "Save as ..", "Close", "Quit")]
    box = ["+" + "-" * 16 + "+", *rows, "+" + "-" * 16 + "+"]
    return "\x1b[30;46m" + "".join(at(4 + k, 10) + row for k, row in enumerate(box)) + "\x1b[m" + at(5, 12)


def without_menu():
    return "".join(at(y, 10) + f"{prose(y):70}"[9:27] for y in range(4, 12)) + at(3, 1)


def marks(*columns):
    return "".join(at(y, x) + "|" for y in range(1, H) for x in columns)


def moved_marks():
    return "".join(at(y, x) + " #" for y in range(1, H) for x in (10, 40, 70)) + at(H, 1)


def coloured():
    words = prose(5).split()
    return at(5, 1) + " ".join(f"\x1b[{31 + k % 6}m{word}" for k, word in enumerate(words)) + "\x1b[m"


def counters(text):
    return "".join(at(2 + 4 * k, 60) + f"{text}{k}" for k in range(6)) + at(H, 1)


# What each picture is, and what is written for it onto the one before.
PICTURES = [
    ("an empty page, the first frame", "\x1b[m"),
    ("a prompt", "$ "),
    ("a character typed", "l"),
    ("a command's output of twelve lines", "s\r\n" + "".join(f"file{k:02}.txt  {k * 977 % 5000:5} bytes\r\n" for k in range(12)) + "$ "),
    ("to the bottom, with twelve more", "ls\r\n" + "".join(f"other{k:02}.txt {k * 577 % 5000:5} bytes\r\n" for k in range(12)) + "$ "),
    ("a scroll by one line", "\r\n$ "),
    ("a scroll by five lines", "".join(f"\r\nline {k} of five" for k in range(5))),
    ("an editor's page", page()),
    ("the cursor alone, down", at(12, 31)),
    ("a menu over the text", menu()),
    ("the menu gone again", without_menu()),
    ("a row inserted in a region", "\x1b[1;24r" + at(8, 1) + "\x1b[L\x1b[r" + at(8, 1)),
    ("a row deleted in a region", "\x1b[1;24r" + at(15, 1) + "\x1b[M\x1b[r" + at(15, 1)),
    ("a character inserted in a row", at(5, 10) + "\x1b[@x"),
    ("colours, and the same text", coloured()),
    ("columns of marks", "\x1b[2J" + marks(10, 40, 70) + at(H, 1)),
    ("the marks, one column on", moved_marks()),
    ("six counters", counters("count ")),
]


def session(folder):
    """The stream of a session with these pictures, and where the frame of each ends in it."""
    calls = [["set-mode", 2, 15], *(["write", 2, text] for _, text in PICTURES[1:])]
    name = hostile.document(folder, "pictures", hostile.session(calls))
    ran = subprocess.run([runs.PROGRAM, "solo", name], input=b"Q" * (len(calls) + 1), capture_output=True, check=True)
    ends = runs.painted(ran.stderr.decode())
    if len(ends) != len(PICTURES):
        sys.exit(f"{len(ends)} frames in place of {len(PICTURES)}")
    return ran.stdout, ends


def dump(stream):
    return subprocess.run([runs.PROGRAM, "play", f"{W}x{H}"], input=stream, capture_output=True, check=True).stderr


def dumped(text):
    """The cursor of a dump, or None where it is hidden, and its cells: character, foreground, background, reversed, underlined."""
    rows, looks = dumps.cells(text)
    cells = []
    for y in range(H):
        for x in range(W):
            word = looks[y][x][0]
            fore, back = (colour + 8 * bright for colour, bright in (dumps.ansi(word & 15), dumps.ansi(word >> 4 & 15)))
            cells.append((rows[y][x], fore, back, bool(word & 0x4000), bool(word & 0x8000)))
    place = re.match(rb"\d+x\d+ cursor (\d+),(\d+)", text)
    return (int(place[1]), int(place[2])) if place else None, cells


# ---- bytes, beside ncurses

def ncurses(source, ready, going):
    """Shows pictures with ncurses, and tells after each that it is there. Runs in a process of its own, on a terminal."""
    import curses

    with open(source, encoding="utf-8") as text:
        pictures = json.load(text)
    screen = curses.initscr()
    curses.start_color()
    curses.use_default_colors()
    curses.raw()
    curses.nonl()
    screen.idlok(True)
    screen.idcok(True)
    pairs = {}

    def look(fore, back, is_reversed, is_underlined):
        pair = -1 if fore == 7 else fore, -1 if back == 0 else back
        if pair != (-1, -1) and pair not in pairs:
            pairs[pair] = len(pairs) + 1
            curses.init_pair(pairs[pair], *pair)
        colour = curses.color_pair(pairs[pair]) if pair in pairs else 0
        return colour | (curses.A_REVERSE if is_reversed else 0) | (curses.A_UNDERLINE if is_underlined else 0)

    for cursor, cells in pictures:
        for place, (sign, *looks) in enumerate(cells):
            # In the lower right cell the character is put, and it is an error that the cursor cannot go on.
            try:
                screen.addstr(place // W, place % W, sign, look(*looks))
            except curses.error:
                pass
        curses.curs_set(1 if cursor else 0)
        if cursor:
            screen.move(cursor[1], cursor[0])
        screen.refresh()
        os.write(ready, b".")
        os.read(going, 1)
    os._exit(0)


def ncurses_frames(pictures, folder):
    """What ncurses writes for each of some pictures."""
    source = os.path.join(folder, "cells.json")
    with open(source, "w", encoding="utf-8") as out:
        json.dump(pictures, out)
    ready, is_ready = os.pipe()
    goes, going = os.pipe()
    child, screen = pty.fork()
    if child == 0:
        termios.tcsetwinsize(0, (H, W))
        tty.setraw(0)
        os.set_inheritable(is_ready, True)
        os.set_inheritable(goes, True)
        env = {**os.environ, "TERM": "xterm-256color", "LC_ALL": "C.UTF-8", "LINES": str(H), "COLUMNS": str(W)}
        os.execve(sys.executable, [sys.executable, os.path.abspath(__file__), "ncurses", source, str(is_ready), str(goes)], env)
    frames = []
    for _ in pictures:
        frame, there = b"", False
        while True:
            found = select.select([screen, ready], [], [], 0.1 if there else 20)[0]
            if screen in found:
                frame += os.read(screen, 65536)
            elif ready in found:
                there = bool(os.read(ready, 1))
            elif there:
                break
            else:
                sys.exit(f"ncurses shows no picture: {frame!r}")
        frames.append(frame)
        os.write(going, b".")
    os.waitpid(child, 0)
    return frames


def lengths(folder):
    """For each picture its name, the bytes of its frame, and those of ncurses."""
    stream, ends = session(folder)
    beside = ncurses_frames([dumped(dump(stream[:end])) for end in ends], folder)
    begins = [0, *ends]
    return [(name, ends[k] - begins[k], len(beside[k])) for k, (name, _) in enumerate(PICTURES)]


# ---- cells, on other terminals

def told(lines):
    """What a library's program tells: a cursor and cells."""
    x, y = map(int, lines[0].split())
    cells = [tuple(map(int, line.split())) for line in lines[1 : 1 + W * H]]
    return (x, y), [(chr(sign), fore, back, bool(r), bool(u)) for sign, fore, back, r, u in cells]


def by_library(program, stream, ends):
    for end in ends:
        ran = subprocess.run([program, str(W), str(H), "cells"], input=stream[:end], capture_output=True, check=True)
        yield told(ran.stdout.decode().splitlines())


def attributes(line):
    """The cells of a line of tmux, in which attributes stand as sequences."""
    fore, back, is_reversed, is_underlined = 7, 0, False, False
    for sequence, sign in re.findall(r"\x1b\[([\d;:]*)m|\x1b[()].|(.)", line):
        if sign:
            yield sign, fore, back, is_reversed, is_underlined
            continue
        codes = [int(code or 0) for code in sequence.split(";")]
        while codes:
            code = codes.pop(0)
            if code == 0:
                fore, back, is_reversed, is_underlined = 7, 0, False, False
            elif code in (4, 24):
                is_underlined = code == 4
            elif code in (7, 27):
                is_reversed = code == 7
            elif code == 39:
                fore = 7
            elif code == 49:
                back = 0
            elif 30 <= code <= 37 or 90 <= code <= 97:
                fore = code % 10 + 8 * (code >= 90)
            elif 40 <= code <= 47 or 100 <= code <= 107:
                back = code % 10 + 8 * (code >= 100)


def feeding(folder):
    """A command by which a pane shows what comes on a pipe."""
    path = os.path.join(folder, "pipe")
    os.mkfifo(path)
    return path, f"stty raw -echo; exec cat {path}"


def settled(read, wanted):
    """What is read once it is what is wanted, or after some seconds."""
    for _ in range(60):
        found = read()
        if found == wanted:
            break
        time.sleep(0.05)
    return found


def by_tmux(stream, ends, wanted):
    with tempfile.TemporaryDirectory() as folder:
        path, command = feeding(folder)
        peers.tmux(folder, "new-session", "-d", "-x", str(W), "-y", str(H), command, ";", "set", "-g", "status", "off", ";", "resize-window", "-x", str(W), "-y", str(H))

        def read():
            x, y, shown = map(int, peers.tmux(folder, "display", "-p", "#{cursor_x} #{cursor_y} #{cursor_flag}").stdout.split())
            rows = peers.tmux(folder, "capture-pane", "-p", "-e", "-N").stdout.split("\n")[:H]
            cells = [cell for row in rows for cell in [*attributes(row), *[(" ", 7, 0, False, False)] * W][:W]]
            return (x, y) if shown else None, cells

        try:
            yield from fed(path, stream, ends, read, wanted)
        finally:
            peers.tmux(folder, "kill-server")


def fed(path, stream, ends, read, wanted):
    with open(path, "wb", buffering=0) as pipe:
        for begin, end, picture in zip([0, *ends], ends, wanted):
            pipe.write(stream[begin:end])
            yield settled(read, picture)


def by_screen(stream, ends, wanted):
    """Characters alone: screen tells no attributes. Their looks are taken as they should be, and the cursor too."""
    with tempfile.TemporaryDirectory() as folder:
        path, command = feeding(folder)
        env = {**os.environ, "SCREENDIR": folder, "TERM": "xterm-256color", "LC_ALL": "C.UTF-8"}
        os.chmod(folder, 0o700)
        child, display = pty.fork()
        if child == 0:
            termios.tcsetwinsize(0, (H, W))
            os.execvpe("screen", ["screen", "-U", "-c", "/dev/null", "-S", "frames", "sh", "-c", command], env)
        hard = os.path.join(folder, "copy")

        def characters():
            while select.select([display], [], [], 0)[0]:
                os.read(display, 65536)
            subprocess.run(["screen", "-S", "frames", "-X", "hardcopy", hard], env=env, capture_output=True, check=False)
            time.sleep(0.05)
            with open(hard, encoding="utf-8") as text:
                return [f"{row:{W}}"[:W] for row in [*text.read().split("\n"), *[""] * H][:H]]

        try:
            time.sleep(1)
            right = [["".join(cell[0] for cell in cells[y * W : y * W + W]) for y in range(H)] for _, cells in wanted]
            for rows, (cursor, cells) in zip(fed(path, stream, ends, characters, right), wanted):
                yield cursor, [(sign, *cell[1:]) for sign, cell in zip("".join(rows), cells)]
        finally:
            subprocess.run(["screen", "-S", "frames", "-X", "quit"], env=env, capture_output=True, check=False)
            os.close(display)
            os.waitpid(child, 0)


def shown(folder):
    """For each terminal that is there, how many cells and cursors of each picture are others."""
    stream, ends = session(folder)
    wanted = [dumped(dump(stream[:end])) for end in ends]
    ways = {name: by_library(program, stream, ends) for name, program in peers.built(folder).items()}
    for name, way in (("tmux", by_tmux), ("screen, characters", by_screen)):
        if peers.is_installed(name.split(",")[0]):
            ways[name] = way(stream, ends, wanted)
    for name, way in ways.items():
        others = []
        for (cursor, cells), (right, right_cells) in zip(way, wanted):
            others.append(sum(a != b for a, b in zip(cells, right_cells)) + (right is not None and cursor != right))
        yield name, others


def main():
    if sys.argv[1:2] == ["ncurses"]:
        ncurses(sys.argv[2], int(sys.argv[3]), int(sys.argv[4]))
    runs.needs_program()
    wrong = 0
    with tempfile.TemporaryDirectory() as folder:
        if "cells" not in sys.argv[1:]:
            print(f"{'picture':36} {'bytes':>6} {'ncurses':>8}")
            for name, here, beside in lengths(folder):
                print(f"{name:36} {here:6} {beside:8}", flush=True)
        if "bytes" not in sys.argv[1:]:
            for name, others in shown(folder):
                wrong += sum(others)
                at_fault = ", ".join(f"{count} in {PICTURES[k][0]}" for k, count in enumerate(others) if count)
                print(f"{name}: {len(others)} pictures, {at_fault or 'each cell and cursor as it should be'}", flush=True)
    sys.exit(wrong > 0)


if __name__ == "__main__":
    main()
