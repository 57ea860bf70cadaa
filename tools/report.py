#!/usr/bin/env python3
"""Compares two reports of sessions, and shows one in columns. Outside what is proved."""
import json
from typing import List

from conptylib import base, shown
from conptylib.reports import Event, Report, read_report

ABOUT = """Compares two reports (docs/FORMATS.md, "Reports"), and shows one in columns.

  report.py compare A B   says the first line that is another one; the numbers behind "painted" do not count
  report.py show REPORT   prints the number of each line, the actor, the event, its arguments and its reply: units as
                          text with escapes, the bytes of a feed as keys (in the words of link.py), cells as rows

Lines count from 1. A report is a file, or - for standard input. What is printed has no control character of a report.

Status: of compare 0 where nothing differs, 1 where something does; of both 2 where a report is none, or cannot be
read."""

WIDEST = 44


def line_text(report: Report, at: int) -> str:
    """A line of a report without the number of a paint, or that there is none."""
    if at < len(report.events):
        event = report.events[at]
        return compared(event)
    return json.dumps(["end", *report.end], separators=(",", ":")) if at == len(report.events) else "no line"


def compared(event: Event) -> str:
    reply = event.reply[:1] if event.name == "paint" else event.reply
    return json.dumps([event.actor, event.name, event.arguments, reply], separators=(",", ":"))


def first_difference(one: Report, other: Report) -> int:
    """The number of the first line, from 0, that is another one; -1 for none."""
    for at in range(max(len(one.events), len(other.events)) + 1):
        if line_text(one, at) != line_text(other, at):
            return at
    return -1


def compare(first: str, second: str) -> int:
    reports = [read_report(base.read_bytes(name), name) for name in (first, second)]
    at = first_difference(*reports)
    if at < 0:
        lines = len(reports[0].events) + 1
        print(f"the same {lines} line{'s' * (lines > 1)}, but for lengths")
        return 0
    print(f"line {at + 1} differs")
    for name, report in zip((first, second), reports):
        print(f"  {shown.safe(name)}: {shown.safe(line_text(report, at), {})}")
    return 1


def columns(rows: List[List[str]]) -> List[int]:
    """How wide the first columns are; a wider cell moves what stands behind it to a line of its own."""
    return [min(max((len(row[at]) for row in rows), default=0), WIDEST) for at in range(len(rows[0]) - 1)]


def row_lines(row: List[str], widths: List[int], reply: List[str]) -> List[str]:
    indent = sum(widths) + 2 * len(widths)
    front = "  ".join(
        cell.rjust(width) if at == 0 else cell.ljust(width) for at, (cell, width) in enumerate(zip(row, widths))
    )
    if len(row[-1]) > widths[-1]:
        return [front] + [" " * indent + line for line in reply]
    return [f"{front}  {reply[0]}"] + [" " * indent + line for line in reply[1:]]


def show(name: str) -> int:
    report = read_report(base.read_bytes(name), name)
    rows, replies = [], []
    for event, arguments, reply in shown.shown_events(report.events):
        rows.append([str(event.number), event.actor, event.name, arguments])
        replies.append(reply)
    widths = columns([row + [""] for row in rows]) if rows else []
    for row, reply in zip(rows, replies):
        print("\n".join(line.rstrip() for line in row_lines(row, widths, reply)))
    print(shown.end_text(report))
    return 0


def main(words: List[str]) -> int:
    parser = base.parser(ABOUT)
    ways = parser.add_subparsers(dest="way", required=True, metavar="compare|show")
    words_of = ways.add_parser("compare", help="the first line that is another one", epilog=base.OUTSIDE)
    words_of.add_argument("first", metavar="A")
    words_of.add_argument("second", metavar="B")
    ways.add_parser("show", help="a report in columns", epilog=base.OUTSIDE).add_argument("report", metavar="REPORT")
    got = parser.parse_args(words)
    return show(got.report) if got.way == "show" else compare(got.first, got.second)


if __name__ == "__main__":
    base.start(main)
