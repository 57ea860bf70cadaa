#!/usr/bin/env python3
"""Makes one HTML page of a session: each picture beside what happened since the last one. Outside what is proved."""
import html
import json
import os
import re
from typing import Dict, Iterator, List, NamedTuple, Optional, Tuple

from conptylib import base, shown
from conptylib.frames import read_link
from conptylib.reports import Report, read_report
from conptylib.sessions import Session, check_clients, check_frames, read_session
from conptylib.terminal import Attribute, Runs, Terminal

ABOUT = """Makes one self-contained HTML page of a session: each picture in its colours, beside the calls and
frames since the picture before it. It is stepped through by buttons and keys: left, right, home, end; space plays.

  film.py SESSION LINK -o PAGE                 runs `conpty solo SESSION < LINK` and shows what came of it
  film.py SESSION LINK STREAM REPORT -o PAGE   shows a run that was kept: its standard output and standard error

The page has no part elsewhere, and everything in it is text, whatever a session writes. The tool plays the stream
itself, on a terminal of its own that follows docs/PROFILE.md, "con_term"; the sixteen colours are those of Windows'
consoles, the others xterm's. A character's width is looked up in Python's tables. PAGE#3 opens at the third picture.

Status: 0; 2 where files cannot be read, or do not belong together: where a line of the report is not of that session or
link, or the stream ends before a picture does."""

TEMPLATE = os.path.join(base.HERE, "film_page.html")
SIXTEEN = (
    "0c0c0c 0037da 13a10e 3a96dd c50f1f 881798 c19c00 cccccc " "767676 3b78ff 16c60c 61d6d6 e74856 b4009e f9f1a5 f2f2f2"
).split()
STEPS = (0, 95, 135, 175, 215, 255)


class Picture(NamedTuple):
    """What shows after a paint, and where that stands: its event's place in the report, its bytes in the stream."""

    at: int
    start: int
    end: int
    size: Tuple[int, int]
    rows: List[Runs]
    cursor: Optional[Tuple[int, int]]


# ---- colours


def colour(index: int) -> str:
    """A colour of the table of 256, from 16 on."""
    if index >= 232:
        return "#" + f"{8 + 10 * (index - 232):02x}" * 3
    parts = (index - 16) // 36, (index - 16) // 6 % 6, (index - 16) % 6
    return "#" + "".join(f"{STEPS[part]:02x}" for part in parts)


def style(attribute: Attribute) -> str:
    """The colours and the line of an attribute, in CSS."""
    word = attribute.word
    fore = colour(attribute.fore) if attribute.fore >= 0 else "#" + SIXTEEN[word & 15]
    back = colour(attribute.back) if attribute.back >= 0 else "#" + SIXTEEN[word >> 4 & 15]
    if word & 0x4000:
        fore, back = back, fore
    return f"color:{fore};background:{back}" + (";text-decoration:underline" if word & 0x8000 else "")


# ---- pictures


def pictures(session: Session, report: Report, stream: bytes, name: str) -> Iterator[Picture]:
    """What shows after each paint of a report."""
    terminal, done = Terminal(*session.size), 0
    for at, event in enumerate(report.events):
        if event.name == "resize" and event.reply[0] == "ok":
            terminal = Terminal(*event.arguments)
        if event.name != "paint":
            continue
        end = event.reply[1]
        if not done <= end <= len(stream):
            told = f"a picture up to byte {end}, and the stream has {len(stream)} with {done} before it"
            raise base.ToolError(f"{name}: line {event.number}: {told}")
        terminal.play(stream[done:end])
        rows = [terminal.runs(y) for y in range(terminal.height)]
        yield Picture(at, done, end, (terminal.width, terminal.height), rows, terminal.cursor())
        done = end


class Table:
    """Things that are kept once, and named by numbers from 0."""

    def __init__(self) -> None:
        self.numbers: Dict[object, int] = {}

    def number(self, thing: object) -> int:
        return self.numbers.setdefault(thing, len(self.numbers))


def event_cells(report: Report) -> List[list]:
    """Each event of a report as the page's table has it."""
    return [
        [event.number, event.actor, event.name, arguments, "\n".join(reply)]
        for event, arguments, reply in shown.shown_events(report.events)
    ]


def film_of(session: Session, report: Report, stream: bytes, name: str) -> Tuple[dict, List[Attribute]]:
    """What the page's script shows, and the attributes that its rows name by numbers."""
    events, steps, rows, styles, since = event_cells(report), [], Table(), Table(), 0
    last = None
    for picture in pictures(session, report, stream, name):
        ids = [
            rows.number(tuple((styles.number(attribute), text) for _, text, attribute in row)) for row in picture.rows
        ]
        title = f"Up to this picture: bytes {picture.start} to {picture.end} of the stream"
        last = {"size": picture.size, "rows": ids, "cursor": picture.cursor}
        steps.append({**last, "title": title, "events": events[since : picture.at + 1]})
        since = picture.at + 1
    if last is None:
        blank = rows.number(((styles.number(Attribute()), " " * session.size[0]),))
        last = {"size": session.size, "rows": [blank] * session.size[1], "cursor": None}
    steps.append({**last, "title": f"After the last picture: {shown.end_text(report)}", "events": events[since:]})
    names = {
        f"c{number}": f"c{number} {shown.safe(client.program)}" for number, client in enumerate(session.clients, 1)
    }
    names.update({"t": "t terminal", "p": "p painter"})
    return {"steps": steps, "rows": list(rows.numbers), "names": names}, list(styles.numbers)


# ---- the page


def data(value: object) -> str:
    """JSON that can stand in a script element."""
    spelled = json.dumps(value, separators=(",", ":"))
    return spelled.replace("&", "\\u0026").replace("<", "\\u003c").replace(">", "\\u003e")


def page(title: str, film: dict, styles: List[Attribute]) -> str:
    rules = "\n".join(f"#screen .s{number}{{{style(attribute)}}}" for number, attribute in enumerate(styles))
    about = f"{len(film['steps']) - 1} pictures, and what was done after the last one."
    with open(TEMPLATE, encoding="utf-8") as file:
        text = file.read()
    parts = {"title": html.escape(shown.safe(title)), "styles": rules, "about": about, "film": data(film)}
    return re.sub(r"\{\{(\w+)\}\}", lambda found: parts[found.group(1)], text)


def run_of(got) -> Tuple[bytes, bytes, str]:
    """The stream and the report, kept or of a run by turns, and the name that a fault in the report is told with."""
    if got.report is not None:
        return base.read_bytes(got.stream), base.read_bytes(got.report), got.report
    base.prepare(got.conpty)
    ran = base.run_program(got.conpty, ["solo", got.session], base.read_bytes(got.link))
    if not ran.err.endswith(b"\n"):
        raise base.ToolError(f"{got.conpty} ended with status {ran.status} and no report")
    return ran.out, ran.err, "report of the run"


def main(words: List[str]) -> int:
    parser = base.parser(ABOUT)
    parser.add_argument("session", metavar="SESSION")
    parser.add_argument("link", metavar="LINK")
    parser.add_argument("stream", metavar="STREAM", nargs="?")
    parser.add_argument("report", metavar="REPORT", nargs="?")
    parser.add_argument("-o", dest="page", metavar="PAGE", required=True, help="the page's file; - is standard output")
    parser.add_argument("--title", help="the page's heading; by default the session's name")
    base.add_conpty(parser)
    got = parser.parse_args(words)
    if got.stream is not None and got.report is None:
        parser.error("a stream comes with its report")
    session, link = read_session(got.session), read_link(base.read_bytes(got.link), mirrored=got.report is not None)
    stream, report_text, name = run_of(got)
    report = read_report(report_text, name)
    check_clients(session, report, name)
    check_frames(link, report, name)
    film, styles = film_of(session, report, stream, name)
    title = got.title or os.path.splitext(os.path.basename(got.session))[0]
    base.write_bytes(got.page, page(title, film, styles).encode())
    return 0


if __name__ == "__main__":
    base.start(main)
