"""Errors, arguments and the program itself, for all tools. Outside what is proved."""
import argparse
import os
import re
import subprocess
import sys
from typing import Callable, List, NamedTuple, Optional, Sequence, Tuple

OUTSIDE = "This tool stands outside what is proved: nothing that it says is a promise of the program."
HERE = os.path.dirname(os.path.abspath(__file__))
TOP = os.path.dirname(os.path.dirname(HERE))
LAUNCHER = os.path.join(TOP, "conpty")
BUILT = os.path.join(TOP, "out", "conpty")


class ToolError(Exception):
    """What a tool cannot do, in words for the person who called it, and the status that it ends with."""

    def __init__(self, words: str, status: int = 2):
        super().__init__(words)
        self.status = status


class Ran(NamedTuple):
    """What a run of the program came to: its stream, its report, its status."""

    out: bytes
    err: bytes
    status: int


def parser(about: str, **more) -> argparse.ArgumentParser:
    """A parser of a tool's words, whose help says that the tool is outside what is proved."""
    return argparse.ArgumentParser(
        description=about, epilog=OUTSIDE, formatter_class=argparse.RawDescriptionHelpFormatter, **more
    )


def add_conpty(words: argparse.ArgumentParser) -> None:
    words.add_argument(
        "--conpty",
        metavar="PROGRAM",
        default=os.environ.get("CONPTY") or LAUNCHER,
        help="the program; by default what CONPTY names, or else the launcher beside tools/",
    )


def prepare(program: str) -> None:
    """Has the launcher build the program where that is not done yet, with its lines of progress on standard error."""
    if os.path.abspath(program) == LAUNCHER and subprocess.call(
        [program, "type"], stdin=subprocess.DEVNULL, stdout=subprocess.DEVNULL
    ):
        raise ToolError(f"{program}: the program could not be built")


def run_program(program: str, words: Sequence[str], given: bytes = b"") -> Ran:
    """Runs the program to its end over some bytes."""
    try:
        ran = subprocess.run(
            [program, *words], input=given, stdout=subprocess.PIPE, stderr=subprocess.PIPE, check=False
        )
    except OSError as fault:
        raise ToolError(f"{program}: {fault.strerror}") from None
    return Ran(ran.stdout, ran.stderr, ran.returncode)


def built_program() -> Optional[str]:
    """The program that CONPTY names, or that the launcher has built; None where there is neither."""
    for path in (os.environ.get("CONPTY"), BUILT):
        if path and os.access(path, os.X_OK):
            return path
    return None


def read_bytes(path: str) -> bytes:
    """A file's bytes; `-` is standard input."""
    try:
        if path == "-":
            return sys.stdin.buffer.read()
        with open(path, "rb") as file:
            return file.read()
    except OSError as fault:
        raise ToolError(f"{path}: {fault.strerror}") from None


def write_bytes(path: str, what: bytes) -> None:
    """Writes a file; `-` is standard output."""
    try:
        if path == "-":
            sys.stdout.buffer.write(what)
            sys.stdout.buffer.flush()
            return
        with open(path, "wb") as file:
            file.write(what)
    except OSError as fault:
        raise ToolError(f"{path}: {fault.strerror}") from None


def read_text(path: str) -> str:
    try:
        return read_bytes(path).decode("utf-8")
    except UnicodeDecodeError as fault:
        raise ToolError(f"{path}: byte {fault.start} is no UTF-8") from None


def size_of(text: str) -> Optional[Tuple[int, int]]:
    """The width and height that `WxH` says, within the program's limits."""
    width, mark, height = text.partition("x")
    if not (mark and all(re.fullmatch("[1-9][0-9]{0,2}", part) for part in (width, height))):
        return None
    size = int(width), int(height)
    return size if 1 <= size[0] <= 512 and 1 <= size[1] <= 256 else None


def size_argument(text: str) -> Tuple[int, int]:
    """A size as argparse takes it."""
    size = size_of(text)
    if size is None:
        raise argparse.ArgumentTypeError(f"no size of 1x1 to 512x256: {text}")
    return size


def printed(text: str) -> str:
    """A text with escapes in place of each character that is not printed, so that no terminal obeys it."""
    return "".join(char if char.isprintable() else f"\\u{{{ord(char):x}}}" for char in text)


def start(main: Callable[[List[str]], int]) -> None:
    """Runs a tool's main function, tells its error in one line, and ends with its status."""
    name = os.path.basename(sys.argv[0])
    try:
        status = main(sys.argv[1:])
        sys.stdout.flush()
    except ToolError as fault:
        print(f"{name}: {printed(str(fault))}", file=sys.stderr)
        status = fault.status
    except BrokenPipeError:
        os.dup2(os.open(os.devnull, os.O_WRONLY), sys.stdout.fileno())
        status = 1
    except KeyboardInterrupt:
        status = 130
    sys.exit(status)
