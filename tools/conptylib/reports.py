"""Reports, line by line, as docs/FORMATS.md has them. Outside what is proved."""
import json
import re
from typing import Any, Dict, List, NamedTuple, Optional, Tuple

from .base import ToolError
from .frames import Frame

CODES = {5: "denied", 6: "bad handle", 31: "no alias", 87: "bad argument", 109: "closed", 995: "ctrl+C", 1816: "limit"}
CONTROLS = {0: "ctrl+C", 1: "ctrl+break", 2: "close"}

# What each event's arguments are, and what the values of its reply are: a number, a signed number, a bool, a text in
# digits, a rect, a clip, the words of cells, records, the bytes of a feed, cells, texts, numbers.
FORMS: Dict[str, Tuple[str, str]] = {
    "buffer-create": ("number", "number"),
    "open-out": ("number", "number"),
    "open-in": ("number", "number"),
    "close": ("number", ""),
    "activate": ("number", ""),
    "mode": ("number", "number"),
    "info": ("number", "signed " * 9),
    "cursor-info": ("number", "number bool"),
    "count": ("number", "number"),
    "flush": ("number", ""),
    "duplicate": ("number number", "number"),
    "set-mode": ("number number", ""),
    "set-size": ("number signed signed", ""),
    "set-cursor": ("number signed signed", ""),
    "set-origin": ("number signed signed", ""),
    "set-cursor-info": ("number number bool", ""),
    "set-attr": ("number number", ""),
    "title": ("", "text"),
    "history-info": ("", "number number number"),
    "history-list": ("", "texts"),
    "history-clear": ("", ""),
    "processes": ("", "numbers"),
    "set-title": ("text", ""),
    "write": ("number text", "number"),
    "rect-read": ("number rect", "rect cells"),
    "rect-write": ("number rect text words", "rect"),
    "run-read-units": ("number signed signed number", "text"),
    "run-read-attrs": ("number signed signed number", "attrs"),
    "run-write-units": ("number signed signed text", "number"),
    "run-write-attrs": ("number signed signed attrs", "number"),
    "fill-units": ("number signed signed number number", "number"),
    "fill-attrs": ("number signed signed number number", "number"),
    "scroll": ("number rect clip signed signed number number", ""),
    "peek": ("number number", "records"),
    "write-input": ("number records", "number"),
    "set-history": ("number number number", ""),
    "alias-add": ("text text text", ""),
    "alias-remove": ("text text", ""),
    "alias-get": ("text text", "text"),
    "alias-list": ("text", "texts"),
    "signal": ("number number", ""),
    "ignore": ("bool", ""),
    "handler-add": ("number", ""),
    "handler-remove": ("number", ""),
    "exit": ("number", ""),
    "begin-read": ("number number", ""),
    "begin-read-input": ("number number", ""),
    "begin-read-with": ("number number text number", ""),
    "collect": ("", "collected"),
    "take-ctrl": ("", ""),
    "feed": ("bytes", ""),
    "quiet": ("", ""),
    "resize": ("number number", ""),
    "ask": ("", ""),
    "hangup": ("", ""),
    "drained": ("", ""),
    "paint": ("", ""),
}
TERMINAL = ("feed", "quiet", "resize", "ask", "hangup", "drained")


class Event(NamedTuple):
    """A line of a report: its number from 1, who, what, with what, and the answer."""

    number: int
    actor: str
    name: str
    arguments: List[Any]
    reply: List[Any]

    def frame(self) -> Optional[Frame]:
        """The frame of a link that an event of the terminal's side enters."""
        if self.name == "feed":
            return Frame("B", bytes.fromhex(self.arguments[0]))
        if self.name == "resize":
            return Frame("R", size=(self.arguments[0], self.arguments[1]))
        return {"quiet": Frame("Q"), "ask": Frame("P"), "hangup": Frame("X")}.get(self.name)


class Report(NamedTuple):
    """A report: its events, and its last line without the word end."""

    events: List[Event]
    end: List[Any]


# ---- what a value is


def is_whole(value: Any, least: int, most: int) -> bool:
    return isinstance(value, int) and not isinstance(value, bool) and least <= value <= most


def is_digits(value: Any, each: int) -> bool:
    return isinstance(value, str) and len(value) % each == 0 and re.fullmatch("[0-9a-f]*", value) is not None


def is_list(value: Any, is_item) -> bool:
    return isinstance(value, list) and all(is_item(item) for item in value)


def is_rect(value: Any) -> bool:
    return is_list(value, lambda side: is_whole(side, -32768, 32767)) and len(value) == 4


def is_record(value: Any) -> bool:
    kinds = {"key": "bnnnnn", "mouse": "nnnnn", "size": "nn", "menu": "n", "focus": "b"}
    if not (isinstance(value, list) and value and isinstance(value[0], str) and value[0] in kinds):
        return False
    form = kinds[value[0]]
    return len(value) == len(form) + 1 and all(
        isinstance(item, bool) == (kind == "b") and isinstance(item, int) for item, kind in zip(value[1:], form)
    )


IS = {
    "number": lambda value: is_whole(value, 0, 2**32 - 1),
    "signed": lambda value: is_whole(value, -(2**31), 2**31),
    "bool": lambda value: isinstance(value, bool),
    "text": lambda value: is_digits(value, 4),
    "attrs": lambda value: is_digits(value, 4),
    "words": lambda value: is_whole(value, 0, 65535) or is_digits(value, 4),
    "bytes": lambda value: is_digits(value, 2) and len(value) > 0,
    "cells": lambda value: is_digits(value, 8),
    "rect": is_rect,
    "clip": lambda value: value is None or is_rect(value),
    "records": lambda value: is_list(value, is_record),
    "texts": lambda value: is_list(value, lambda text: is_digits(text, 4)),
    "numbers": lambda value: is_list(value, IS["number"]),
    "collected": lambda value: is_digits(value, 4) or is_list(value, is_record),
}


def are(values: List[Any], kinds: List[str]) -> bool:
    return len(values) == len(kinds) and all(IS[kind](value) for value, kind in zip(values, kinds))


def is_reply(name: str, reply: Any) -> bool:
    if not (isinstance(reply, list) and reply):
        return False
    if name == "paint":
        return len(reply) == 2 and reply[0] == "painted" and is_whole(reply[1], 0, 2**64)
    if reply[0] == "fail":
        return len(reply) == 2 and reply[1] in CODES and not isinstance(reply[1], bool)
    if name == "take-ctrl":
        return len(reply) == 2 and reply[0] == "ctrl" and is_whole(reply[1], 0, 2)
    return reply[0] == "ok" and are(reply[1:], FORMS[name][1].split())


def is_actor_of(actor: Any, name: str) -> bool:
    if name in TERMINAL:
        return actor == "t"
    if name == "paint":
        return actor == "p"
    return isinstance(actor, str) and re.fullmatch("c[1-9][0-9]{0,2}", actor) is not None and int(actor[1:]) < 256


def is_event(line: Any) -> bool:
    """Whether a line of a report has this value, but for what no console tells."""
    return (
        isinstance(line, list)
        and len(line) == 4
        and isinstance(line[1], str)
        and line[1] in FORMS
        and is_actor_of(line[0], line[1])
        and isinstance(line[2], list)
        and are(line[2], FORMS[line[1]][0].split())
        and is_reply(line[1], line[3])
    )


def is_end(line: Any) -> bool:
    """The last line of a report."""
    if not (isinstance(line, list) and len(line) >= 2 and line[0] == "end" and is_whole(line[1], 0, 10)):
        return False
    lengths = {0: 2, 9: 2, 8: 4}
    return len(line) == lengths.get(line[1], 3)


def read_report(text: bytes, name: str) -> Report:
    """A report's events and its end. `name` is told where a line is none of a report's."""
    lines = text.split(b"\n")
    if lines[-1] == b"":
        lines.pop()
    elif lines[-1]:
        raise ToolError(f"{name}: line {len(lines)}: the report ends within a line")
    events: List[Event] = []
    for number, line in enumerate(lines, 1):
        value = value_of(line)
        if number == len(lines) and is_end(value):
            return Report(events, value[1:])
        if not is_event(value):
            raise ToolError(f"{name}: line {number}: no line of a report")
        events.append(Event(number, *value))
    raise ToolError(f"{name}: line {len(lines) + 1}: the last line is missing")


def value_of(line: bytes) -> Any:
    """The JSON value of a line that has no space in it but within texts; None for any other."""
    try:
        value = json.loads(line.decode("utf-8"))
    except (ValueError, RecursionError):
        return None
    spelled = json.dumps(value, separators=(",", ":"), ensure_ascii=False)
    return value if line.decode("utf-8") == spelled else None
