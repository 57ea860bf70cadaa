#!/usr/bin/env python3
"""Runs a session live on the terminal that it is called on. Outside what is proved."""
import contextlib
import io
import os
import selectors
import signal
import subprocess
import sys
import tempfile
import termios
import time
import tty
from typing import BinaryIO, Iterator, List, Optional, Tuple

from conptylib import base, shown
from conptylib.frames import MOST_TYPED, Frame
from conptylib.keys import key_bytes
from conptylib.sessions import read_session

ABOUT = """Runs a session live on this terminal, by `conpty run`: keys go to it as they are typed, a pause of some
50 ms is a quiet frame, and a new size of the terminal is a resize frame; what the program paints goes to the screen.

  attach.py SESSION --report REPORT --record LINK

`conpty run` reads its link to the end, so it goes on when the last client has left: ctrl+] ends the link, and then the
session ends, since clients that wait for input are told that there is none. A second ctrl+] ends the program at once.
SIGTERM and SIGHUP hang up (a hangup frame). The terminal's modes, its screen and its cursor are restored whatever
happens, also where the program dies. With --record the link is kept, and `conpty solo SESSION < LINK` replays it by
turns. A terminal of another size than the session's begins with a resize frame; above 512 by 256 it counts as that.

Status: that of the program; 128 and the number of a signal that ended the program or this tool; 2 where it cannot
begin."""

ENTER = b"\x1b[?1049h"
LEAVE = b"\x1b[!p\x1b[?7h\x1b[0m\x1b[?25h\x1b[?1049l"
MOUSE_ON, MOUSE_OFF = b"\x1b[?1003h\x1b[?1006h", b"\x1b[?1006l\x1b[?1003l"
GRACE = 3.0


def terminal_size(terminal: int) -> Optional[Tuple[int, int]]:
    """The terminal's size within the program's limits, or None where it does not know it or has gone."""
    try:
        width, height = os.get_terminal_size(terminal)
    except OSError:
        return None
    return (min(width, 512), min(height, 256)) if width and height else None


@contextlib.contextmanager
def raw_screen(keys: int, screen: int, mouse: bool) -> Iterator[None]:
    """The terminal in raw mode on its other screen, and as it was behind it."""
    modes = termios.tcgetattr(keys)
    try:
        tty.setraw(keys)
        os.write(screen, ENTER + (MOUSE_ON if mouse else b""))
        yield
    finally:
        for restore in (
            lambda: os.write(screen, (MOUSE_OFF if mouse else b"") + LEAVE),
            lambda: termios.tcsetattr(keys, termios.TCSAFLUSH, modes),
        ):
            with contextlib.suppress(OSError, termios.error):
                restore()


class Link:
    """The program's standard input: frames that wait to be taken, and the file that keeps them."""

    def __init__(self, pipe: BinaryIO, record: BinaryIO):
        self.pipe, self.record = pipe, record
        self.waiting, self.is_over = b"", False
        os.set_blocking(pipe.fileno(), False)

    def send(self, frame: Frame) -> None:
        if self.is_over:
            return
        self.waiting += frame.spelled()
        self.record.write(frame.spelled())
        self.record.flush()

    def end(self) -> None:
        """No more frames come."""
        self.is_over = True

    def push(self) -> None:
        """Hands on what the program takes, and ends its input behind the last frame."""
        try:
            while self.waiting:
                self.waiting = self.waiting[os.write(self.pipe.fileno(), self.waiting) :]
        except BlockingIOError:
            return
        except OSError:
            self.waiting, self.is_over = b"", True
        if self.is_over and not self.pipe.closed:
            with contextlib.suppress(OSError):
                self.pipe.close()


class Attached:
    """A program that runs on a terminal."""

    def __init__(self, program: subprocess.Popen, link: Link, screen: int, got):
        self.program, self.link, self.screen = program, link, screen
        self.leave, self.pause = got.leave, got.pause / 1000
        self.quiet_at: Optional[float] = None
        self.dead_at: Optional[float] = None
        self.signals: List[int] = []

    def typed(self, keys: bytes) -> None:
        """What came from the keyboard."""
        before, leave, _ = keys.partition(self.leave) if self.leave else (keys, b"", b"")
        if before:
            self.link.send(Frame("B", before))
            self.quiet_at = time.monotonic() + self.pause
        if leave and self.link.is_over:
            self.program.kill()
        elif leave or not keys:
            self.link.end()

    def resized(self) -> None:
        size = terminal_size(self.screen)
        if size:
            self.link.send(Frame("R", size=size))

    def hang_up(self, number: int) -> None:
        self.signals.append(number)
        self.link.send(Frame("X"))
        self.link.end()
        self.dead_at = time.monotonic() + GRACE

    def tick(self) -> None:
        """What is due at this time."""
        now = time.monotonic()
        if self.quiet_at and now >= self.quiet_at:
            self.link.send(Frame("Q"))
            self.quiet_at = None
        if self.dead_at and now >= self.dead_at:
            self.program.kill()
        self.link.push()

    def wait_time(self) -> Optional[float]:
        due = [at for at in (self.quiet_at, self.dead_at) if at]
        if self.link.waiting:
            due.append(time.monotonic() + 0.02)
        return max(min(due) - time.monotonic(), 0) if due else None

    def painted(self) -> bool:
        """Shows what the program wrote; False where it is at its end."""
        painted = os.read(self.program.stdout.fileno(), 65536)
        is_more = bool(painted)
        try:
            while painted:
                painted = painted[os.write(self.screen, painted) :]
        except OSError:
            self.hang_up(signal.SIGHUP)
        return is_more

    def signalled(self, numbers: bytes) -> None:
        for number in numbers:
            if number == signal.SIGWINCH:
                self.resized()
            else:
                self.hang_up(number)

    def run(self, keys: int, waking: int) -> None:
        """Goes on until the program writes no more."""
        with selectors.DefaultSelector() as wait:
            for source in (keys, waking, self.program.stdout.fileno()):
                wait.register(source, selectors.EVENT_READ)
            is_more = True
            while is_more:
                self.tick()
                for key, _ in wait.select(self.wait_time()):
                    if key.fd == waking:
                        self.signalled(os.read(waking, 64))
                    elif key.fd == keys:
                        typed = read_keys(keys)
                        self.typed(typed)
                        if not typed:
                            wait.unregister(keys)
                    else:
                        is_more = self.painted()

    def status(self) -> int:
        status = self.program.wait()
        if self.signals:
            return 128 + self.signals[0]
        return 128 - status if status < 0 else status


def read_keys(keys: int) -> bytes:
    """What was typed; nothing where the terminal has gone."""
    try:
        return os.read(keys, MOST_TYPED)
    except OSError:
        return b""


@contextlib.contextmanager
def woken_by_signals() -> Iterator[int]:
    """A source that gives the number of each signal that comes."""
    waking, woken = os.pipe()
    os.set_blocking(woken, False)
    numbers = (signal.SIGWINCH, signal.SIGTERM, signal.SIGHUP, signal.SIGINT)
    kept = {number: signal.signal(number, lambda *_: None) for number in numbers}
    before = signal.set_wakeup_fd(woken)
    try:
        yield waking
    finally:
        signal.set_wakeup_fd(before)
        for number, handler in kept.items():
            signal.signal(number, handler)
        os.close(waking)
        os.close(woken)


def begin(got, report: BinaryIO) -> subprocess.Popen:
    """The program, out of reach of the terminal's own signals."""
    try:
        return subprocess.Popen(
            [got.conpty, "run", got.session],
            stdin=subprocess.PIPE,
            stdout=subprocess.PIPE,
            stderr=report,
            start_new_session=True,
        )
    except OSError as fault:
        raise base.ToolError(f"{got.conpty}: {fault.strerror}") from None


def attach(got, report: BinaryIO, record: BinaryIO) -> int:
    """Runs the session on the terminal, and gives its status."""
    keys, screen = sys.stdin.fileno(), sys.stdout.fileno()
    session = read_session(got.session)
    with woken_by_signals() as waking, begin(got, report) as program:
        try:
            attached = Attached(program, Link(program.stdin, record), screen, got)
            if terminal_size(screen) not in (None, session.size):
                attached.resized()
            with raw_screen(keys, screen, got.mouse):
                attached.run(keys, waking)
            return attached.status()
        finally:
            if program.poll() is None:
                program.kill()


def opened(path: Optional[str], otherwise) -> BinaryIO:
    """A file to write and read again, or what stands for it where none is named."""
    try:
        return open(path, "w+b") if path else otherwise()
    except OSError as fault:
        raise base.ToolError(f"{path}: {fault.strerror}") from None


def last_line(report: BinaryIO) -> str:
    report.seek(0)
    lines = report.read().decode("utf-8", "replace").splitlines()
    return shown.safe(lines[-1], {}) if lines else "no report"


def main(words: List[str]) -> int:
    parser = base.parser(ABOUT)
    parser.add_argument("session", metavar="SESSION")
    parser.add_argument("--report", metavar="FILE", help="keeps the report")
    parser.add_argument("--record", metavar="LINK", help="keeps the link, so that solo replays it")
    parser.add_argument("--leave", metavar="KEY", default="ctrl+]", help="the key that ends the link; none for none")
    parser.add_argument("--pause", metavar="MS", type=int, default=50, help="how long a pause is a quiet frame")
    parser.add_argument("--mouse", action="store_true", help="has the terminal send its mouse")
    base.add_conpty(parser)
    got = parser.parse_args(words)
    try:
        got.leave = key_bytes(got.leave) if got.leave != "none" else b""
    except ValueError as fault:
        parser.error(str(fault))
    if not (sys.stdin.isatty() and sys.stdout.isatty()):
        raise base.ToolError("standard input and output are no terminal")
    base.prepare(got.conpty)
    with opened(got.report, tempfile.TemporaryFile) as report, opened(got.record, io.BytesIO) as record:
        status = attach(got, report, record)
        print(f"attach.py: status {status}, {last_line(report)}", file=sys.stderr)
    return status


if __name__ == "__main__":
    base.start(main)
