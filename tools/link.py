#!/usr/bin/env python3
"""Makes a link from a readable text, and reads a link back into that text. Outside what is proved."""
from typing import List

from conptylib import base, linktext
from conptylib.frames import read_link
from conptylib.keys import NAMED

ABOUT = """Makes a link (docs/FORMATS.md, "Links") from a readable text, and reads a link back into that text.

The text has a line for each frame; empty lines, and what stands behind a #, are left out:

  type "ls -l\\r"       characters; \\\\ \\" \\n \\r \\t \\e \\0 and \\u{1f600} are escapes
  key ctrl+c           a key by its name; `link.py keys` lists all names with their bytes
  type "ls" + key tab  more than one thing in one frame
  paste "two\\nlines"   as a terminal sends it: each end of a line is return
  click 10,5           press and release; also `click right 10,5`, `click ctrl+left 10,5`
  press left 10,5      and release, and drag: a move with the button held
  move 10,5            also `move shift 10,5`
  wheel up 3,4         and wheel down; places count from 0, the column first
  bytes 1b5b41         any bytes
  quiet                nothing more was typed for a while; `quiet 5` five times
  resize 100x30        the terminal's new size
  paint                a frame of output is wanted
  attach 40x10         with `conpty mirror`, a second terminal comes; `detach`, it goes
  hangup               the terminal goes away; behind it only
  unread 00ff          bytes that are left unread

A line that types more than 4,096 bytes becomes more frames than one. A key that is escape alone needs a `quiet`
behind it, or it is part of what follows. What is read back has names where a key is whole in its frame and its bytes
are those of the name, and `bytes` elsewhere; it makes the same link again, byte by byte. Shift+tab is what terminals
send for it, ESC [ Z, though the console makes no key of it.

Status: 0; 1 where a link has a fault, which is told with its place and kind as the program tells them, behind what was
read before it; 2 where something else is wrong."""


def make(text: str, link: str) -> int:
    base.write_bytes(link, linktext.link_bytes(linktext.read_text(base.read_text(text))))
    return 0


def read(link: str, text: str) -> int:
    found = read_link(base.read_bytes(link), mirrored=True)
    lines = "".join(line + "\n" for line in linktext.link_text(found))
    base.write_bytes(text, lines.encode())
    if found.fault:
        raise base.ToolError(f"{link}: {found.fault}", 1)
    return 0


def keys() -> int:
    for name, spelled in NAMED.items():
        print(f"{name:24}{spelled.hex(' ')}")
    return 0


def main(words: List[str]) -> int:
    parser = base.parser(ABOUT)
    ways = parser.add_subparsers(dest="way", required=True, metavar="make|read|keys")
    for way, given, made in (("make", "TEXT", "LINK"), ("read", "LINK", "TEXT")):
        words_of = ways.add_parser(way, help=f"a {made.lower()} from a {given.lower()}", epilog=base.OUTSIDE)
        words_of.add_argument("given", metavar=given, nargs="?", default="-", help="a file; standard input without it")
        words_of.add_argument("-o", dest="made", metavar=made, default="-", help="a file; standard output without it")
    ways.add_parser("keys", help="lists the names of keys with their bytes", epilog=base.OUTSIDE)
    got = parser.parse_args(words)
    if got.way == "keys":
        return keys()
    return make(got.given, got.made) if got.way == "make" else read(got.given, got.made)


if __name__ == "__main__":
    base.start(main)
