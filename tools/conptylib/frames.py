"""The frames of a link, as docs/FORMATS.md has them. Outside what is proved."""
from typing import List, NamedTuple, Optional, Tuple

MOST_TYPED = 4096
MOST_LINK = 16_777_216
WORDS = {"B": "feed", "Q": "quiet", "R": "resize", "P": "ask", "X": "hangup"}
# Those of a link that may have a second terminal.
MIRRORED = ("A", "D")


class Frame(NamedTuple):
    """A frame: its first byte, what was typed, the size, and its place in the link."""

    tag: str
    typed: bytes = b""
    size: Tuple[int, int] = (0, 0)
    place: int = 0

    def spelled(self) -> bytes:
        """The frame's bytes."""
        if self.tag == "B":
            return b"B" + len(self.typed).to_bytes(2, "big") + self.typed
        if self.tag in ("R", "A"):
            return self.tag.encode() + self.size[0].to_bytes(2, "big") + self.size[1].to_bytes(2, "big")
        return self.tag.encode()

    def counted(self) -> "Frame":
        """What the frame counts as: those for a second terminal want a frame of output, as P does."""
        return Frame("P", place=self.place) if self.tag in MIRRORED else self


class Fault(NamedTuple):
    """Where no frame stands, and why, as the program tells it."""

    place: int
    kind: str

    def __str__(self) -> str:
        return "too long" if self.kind == "too long" else f"place {self.place}, kind {self.kind}"


class Link(NamedTuple):
    """A link's frames, the fault behind them if there is one, and the bytes that a hangup leaves unread."""

    frames: List[Frame]
    fault: Optional[Fault] = None
    unread: bytes = b""


def read_frame(link: bytes, at: int, mirrored: bool = False):
    """The frame at a place and the place behind it; or the kind of fault that stands there."""
    tag = chr(link[at])
    if tag in MIRRORED and not mirrored:
        return "tag", at
    if tag in ("Q", "P", "X", "D"):
        return Frame(tag, place=at), at + 1
    if tag == "B":
        length = int.from_bytes(link[at + 1 : at + 3], "big")
        if len(link) < at + 3:
            return "cut", at
        if not 1 <= length <= MOST_TYPED:
            return "length", at
        typed = link[at + 3 : at + 3 + length]
        return ("cut", at) if len(typed) < length else (Frame("B", typed, place=at), at + 3 + length)
    if tag in ("R", "A"):
        if len(link) < at + 5:
            return "cut", at
        size = int.from_bytes(link[at + 1 : at + 3], "big"), int.from_bytes(link[at + 3 : at + 5], "big")
        if not (1 <= size[0] <= 512 and 1 <= size[1] <= 256):
            return "size", at
        return Frame(tag, size=size, place=at), at + 5
    return "tag", at


def read_link(link: bytes, mirrored: bool = False) -> Link:
    """The frames of a link, up to its end, its hangup or its first fault; also those for a second terminal, where it may have one."""
    front, at, frames = link[:MOST_LINK], 0, []
    while at < len(front):
        frame, at = read_frame(front, at, mirrored)
        if isinstance(frame, str):
            is_long = frame == "cut" and len(link) > MOST_LINK
            return Link(frames, Fault(at, "too long" if is_long else frame))
        frames.append(frame)
        if frame.tag == "X":
            return Link(frames, None, link[at:])
    return Link(frames, Fault(at, "too long") if len(link) > MOST_LINK else None)
