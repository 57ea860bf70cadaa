"""Reports in words: arguments, replies and cells, without a control character. Outside what is proved."""
from typing import Any, Iterator, List, Tuple

from .frames import WORDS
from .linktext import ESCAPE_OF, frame_texts
from .reports import CODES, CONTROLS, FORMS, Event, Report

STATES = ((0x100, "enhanced"), (0x08, "ctrl"), (0x02, "alt"), (0x10, "shift"))
ENDS = {
    0: "all was done",
    2: "the words are no form",
    3: "no session",
    4: "the link failed",
    5: "the terminal failed",
    7: "the session's file",
    8: "the link has a fault",
    9: "want of memory",
    10: "the link is too long",
}


def units_of(digits: str) -> List[int]:
    return [int(digits[i : i + 4], 16) for i in range(0, len(digits), 4)]


def text_of(units: List[int]) -> str:
    """The text of UTF-16 units; a lone half of a pair stays as it is."""
    return b"".join(unit.to_bytes(2, "little") for unit in units).decode("utf-16-le", "surrogatepass")


def safe(text: str, escapes=ESCAPE_OF) -> str:
    """A text with escapes in place of each character that is not printed."""
    return "".join(escapes.get(char, char if char.isprintable() else f"\\u{{{ord(char):x}}}") for char in text)


def quoted_units(digits: str) -> str:
    return f'"{safe(text_of(units_of(digits)))}"'


def cell_char(unit: int) -> str:
    """A cell's character, as one of the screen's columns."""
    return chr(unit) if chr(unit).isprintable() else "\ufffd"


def word_runs(words: List[int]) -> Iterator[Tuple[int, int, int]]:
    """The longest runs of one word: where they begin, how long they are, the word."""
    start = 0
    for at in range(1, len(words) + 1):
        if at == len(words) or words[at] != words[start]:
            yield start, at - start, words[start]
            start = at


def cell_lines(rect: List[int], digits: str) -> List[str]:
    """The rows of cells between bars, and behind each one its runs of another word than 0007, as a dump has them."""
    both = units_of(digits)
    width = max(rect[2] - rect[0] + 1, 1)
    lines = []
    for at in range(0, len(both), 2 * width):
        row = both[at : at + 2 * width]
        runs = "".join(f" @{rect[0] + x}+{n} {word:04x}" for x, n, word in word_runs(row[1::2]) if word != 7)
        lines.append("|" + "".join(cell_char(unit) for unit in row[::2]) + "|" + runs)
    return lines


def record_text(record: List[Any]) -> str:
    if record[0] == "key":
        _, down, repeat, vk, scan, unit, state = record
        held = "".join(name + "+" for bit, name in STATES if state & bit)
        rest = state & ~sum(bit for bit, _ in STATES)
        return (
            f"key {'down' if down else 'up'} {held}vk {vk}"
            + (f' "{safe(chr(unit))}"' if unit else "")
            + f" repeat {repeat}" * (repeat != 1)
            + f" scan {scan}" * (scan != 0)
            + f" state {rest:#x}" * (rest != 0)
        )
    if record[0] == "mouse":
        return "mouse {1},{2} buttons {3} state {4:#x} flags {5}".format(*record)
    return " ".join(str(part).lower() for part in record)


def value_text(kind: str, value: Any) -> str:
    """A value in words, by what it is."""
    if kind == "text" or kind == "collected" and isinstance(value, str):
        return quoted_units(value)
    if kind == "texts":
        return "[" + ", ".join(quoted_units(text) for text in value) + "]"
    if kind in ("records", "collected"):
        return "[" + ", ".join(record_text(record) for record in value) + "]"
    if kind == "attrs" or kind == "words" and isinstance(value, str):
        return "words " + " ".join(
            f"{word:04x}*{n}" if n > 1 else f"{word:04x}" for _, n, word in word_runs(units_of(value))
        )
    if kind == "rect" or kind == "clip" and value is not None:
        return "[{},{},{},{}]".format(*value)
    if kind == "numbers":
        return " ".join(str(number) for number in value)
    return "-" if value is None else str(value).lower()


def reply_lines(event: Event) -> List[str]:
    """A reply in words, and below it the rows of cells that were read."""
    word, *values = event.reply
    if word == "fail":
        return [f"fail {values[0]}, {CODES[values[0]]}"]
    if word == "ctrl":
        return [f"ctrl {values[0]}, {CONTROLS[values[0]]}"]
    if event.name == "rect-read" and word == "ok":
        return [f"ok {value_text('rect', values[0])}"] + cell_lines(values[0], values[1])
    kinds = FORMS[event.name][1].split() or ["number"] * len(values)
    return [" ".join([word] + [value_text(kind, value) for kind, value in zip(kinds, values)])]


def fed_texts(events: List[Event]) -> Iterator[str]:
    """What each feed has, in the words of a link's text."""
    frames = [frame for frame in (event.frame() for event in events) if frame]
    for frame, text in zip(frames, frame_texts(frames)):
        if WORDS[frame.tag] == "feed":
            yield text


def shown_events(events: List[Event]) -> Iterator[Tuple[Event, str, List[str]]]:
    """Each event with its arguments and its reply in words."""
    fed = fed_texts(events)
    for event in events:
        if event.name == "feed":
            arguments = next(fed)
        else:
            kinds = FORMS[event.name][0].split()
            arguments = " ".join(value_text(kind, value) for kind, value in zip(kinds, event.arguments))
        yield event, arguments, reply_lines(event)


def end_text(report: Report) -> str:
    """The last line in words."""
    status, *rest = report.end
    return f"end {status}, {ENDS.get(status, 'unknown')}" + "".join(f" {safe(str(part))}" for part in rest)
