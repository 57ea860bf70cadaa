"""Session documents, and whether a report follows a session and a link. Outside what is proved."""
import json
from typing import Any, Dict, List, NamedTuple, Tuple

from .base import ToolError, read_bytes
from .frames import Link
from .reports import TERMINAL, Report

BEGINS = {"read": "begin-read", "read-input": "begin-read-input", "read-with": "begin-read-with"}


class Client(NamedTuple):
    program: str
    calls: List[List[Any]]


class Session(NamedTuple):
    size: Tuple[int, int]
    clients: List[Client]


def read_session(path: str) -> Session:
    """A session's size, and its clients with their calls. The program says better what is wrong with one."""
    try:
        document = json.loads(read_bytes(path).decode("utf-8"))
        width, height = document["size"]
        clients = [Client(str(client["program"]), list(client["calls"])) for client in document["clients"]]
        if not all(call and isinstance(call[0], str) for client in clients for call in client.calls):
            raise ValueError
        if not (1 <= width <= 512 and 1 <= height <= 256):
            raise ValueError
        return Session((width, height), clients)
    except (ValueError, KeyError, TypeError, RecursionError):
        raise ToolError(f"{path}: no session; `conpty solo` says where its first fault is") from None


def check_clients(session: Session, report: Report, name: str) -> None:
    """Tells where a report has an event that its client does not make next."""
    made: Dict[str, int] = {}
    for event in report.events:
        if not event.actor.startswith("c") or event.name in ("collect", "take-ctrl", "exit"):
            continue
        at, number = made.get(event.actor, 0), int(event.actor[1:])
        calls = session.clients[number - 1].calls if number <= len(session.clients) else []
        wanted = BEGINS.get(calls[at][0], calls[at][0]) if at < len(calls) else "nothing"
        if wanted != event.name:
            told = f"{event.actor} makes {event.name}, and in the session {wanted}"
            raise ToolError(f"{name}: line {event.number}: {told}")
        made[event.actor] = at + 1


def check_frames(link: Link, report: Report, name: str) -> None:
    """Tells where a report has an event of the terminal's side that is not the link's next frame."""
    frames = iter(link.frames)
    for event in report.events:
        if event.name not in TERMINAL or event.name == "drained":
            continue
        frame, wanted = event.frame(), next(frames, None)
        if frame is None or wanted is None or frame[:3] != wanted.counted()[:3]:
            raise ToolError(f"{name}: line {event.number}: the link has another frame here")
