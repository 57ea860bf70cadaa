"""Links as readable text, and back. Outside what is proved."""
import re
from typing import Callable, Dict, Iterable, Iterator, List, Tuple

from .base import ToolError, size_of
from .frames import MOST_LINK, MOST_TYPED, Frame, Link
from .keys import BUTTONS, NAME_OF, Piece, Splitter, key_bytes, mouse_bytes, mouse_name

ESCAPES = {"\\": "\\", '"': '"', "n": "\n", "r": "\r", "t": "\t", "e": "\x1b", "0": "\0"}
ESCAPE_OF = {char: "\\" + letter for letter, char in ESCAPES.items()}
TOKEN = re.compile(r'\s*("(?:[^"\\]|\\.)*"(?=\s|$)|[^\s"]\S*)')
ESCAPED = re.compile(r"\\(u\{([0-9A-Fa-f]{1,6})\}|.)")
UNREAD_LINE = 32
# Frames of a byte alone, by their words.
ALONE = {"paint": "P", "hangup": "X", "detach": "D"}
VERB_OF = {tag: verb for verb, tag in ALONE.items()}


# ---- texts in quotes


def quoted(text: str) -> str:
    """A text in quotes, without a control or another character that is not printed."""
    return '"' + "".join(shown_char(char) for char in text) + '"'


def shown_char(char: str) -> str:
    if char in ESCAPE_OF:
        return ESCAPE_OF[char]
    return char if char.isprintable() else f"\\u{{{ord(char):x}}}"


def unquoted(token: str) -> str:
    """The text of a token in quotes."""
    if len(token) < 2 or not (token.startswith('"') and token.endswith('"')):
        raise ValueError(f"no text in quotes: {token}")
    return ESCAPED.sub(unescaped, token[1:-1])


def unescaped(found: "re.Match[str]") -> str:
    if found.group(2):
        code = int(found.group(2), 16)
        if code > 0x10FFFF or 0xD800 <= code < 0xE000:
            raise ValueError(f"no such character: {found.group()}")
        return chr(code)
    if found.group(1) not in ESCAPES:
        raise ValueError(f"no such escape: {found.group()}")
    return ESCAPES[found.group(1)]


# ---- what a line says


class Words:
    """The words of a line, taken one after another."""

    def __init__(self, line: str):
        self.left = line

    def more(self) -> bool:
        left = self.left.strip()
        return bool(left) and not left.startswith("#")

    def take(self, what: str) -> str:
        found = TOKEN.match(self.left)
        if not found:
            raise ValueError(f"no {what}" if not self.left.strip() else f"a quote is not closed: {self.left.strip()}")
        self.left = self.left[found.end() :]
        return found.group(1)


def place_of(token: str) -> Tuple[int, int]:
    found = re.fullmatch(r"(\d{1,5}),(\d{1,5})", token, re.ASCII)
    if not found:
        raise ValueError(f"no place as 10,5: {token}")
    return int(found.group(1)), int(found.group(2))


def held_and_name(token: str) -> Tuple[int, str]:
    """The modifiers of a mouse report as a number, and what stands behind them."""
    *held, name = token.lower().split("+")
    values = {"shift": 4, "alt": 8, "ctrl": 16}
    if any(part not in values for part in held) or len(set(held)) != len(held):
        raise ValueError(f"no such modifiers: {token}")
    return sum(values[part] for part in held), name


def button_bytes(words: Words, base: int, ends: str) -> bytes:
    token = words.take("button")
    held, name = held_and_name(token)
    if name not in BUTTONS:
        raise ValueError(f"no such button: {token}")
    return mouse_bytes(base + held + BUTTONS.index(name), *place_of(words.take("place")), ends)


def click_bytes(words: Words) -> bytes:
    token = words.take("place")
    if token[:1].isdigit():
        token, place = "left", token
    else:
        place = words.take("place")
    down = button_bytes(Words(f"{token} {place}"), 0, "M")
    return down + down[:-1] + b"m"


def move_bytes(words: Words) -> bytes:
    token, held = words.take("place"), 0
    if not token[:1].isdigit():
        held = held_and_name(token + "+")[0]
        token = words.take("place")
    return mouse_bytes(35 + held, *place_of(token), "M")


def wheel_bytes(words: Words) -> bytes:
    token = words.take("direction")
    held, name = held_and_name(token)
    if name not in ("up", "down"):
        raise ValueError(f"no such direction: {token}")
    return mouse_bytes(64 + held + (name == "down"), *place_of(words.take("place")), "M")


def hex_bytes(words: Words) -> bytes:
    digits = words.take("hexadecimal digits")
    while re.match(r"\s*[0-9A-Fa-f]", words.left):
        digits += words.take("hexadecimal digits")
    if len(digits) % 2 or not re.fullmatch("[0-9A-Fa-f]+", digits):
        raise ValueError(f"no pairs of hexadecimal digits: {digits}")
    return bytes.fromhex(digits)


def pasted(text: str) -> bytes:
    """What a terminal sends for a text that is pasted: each end of a line is return."""
    return re.sub("\r\n|\n", "\r", text).encode()


TYPED: Dict[str, Callable[[Words], bytes]] = {
    "type": lambda words: unquoted(words.take("text in quotes")).encode(),
    "paste": lambda words: pasted(unquoted(words.take("text in quotes"))),
    "key": lambda words: key_bytes(words.take("key")),
    "press": lambda words: button_bytes(words, 0, "M"),
    "release": lambda words: button_bytes(words, 0, "m"),
    "drag": lambda words: button_bytes(words, 32, "M"),
    "click": click_bytes,
    "move": move_bytes,
    "wheel": wheel_bytes,
    "bytes": hex_bytes,
}


def typed_of(words: Words, verb: str) -> bytes:
    """The bytes of a line of what is typed: things with a + between them."""
    typed = TYPED[verb](words)
    while words.more():
        joiner = words.take("+")
        if joiner != "+":
            raise ValueError(f"this is too much, or lacks a + before it: {joiner}")
        verb = words.take("thing behind the +")
        if verb not in TYPED:
            raise ValueError(f"nothing that is typed: {verb}")
        typed += TYPED[verb](words)
    if not typed:
        raise ValueError("nothing is typed")
    return typed


def cuts(typed: bytes) -> Iterator[bytes]:
    """The parts of at most as many bytes as a frame has, cut between keys where that can be."""
    ends = {piece.start for piece in Splitter().feed(typed)} if len(typed) > MOST_TYPED else set()
    start = 0
    while len(typed) - start > MOST_TYPED:
        cut = start + MOST_TYPED
        while cut > start + MOST_TYPED - 64 and not (cut in ends or is_between(typed, cut)):
            cut -= 1
        yield typed[start:cut]
        start = cut
    yield typed[start:]


def is_between(typed: bytes, cut: int) -> bool:
    """Both bytes at a cut are printable ASCII with no sequence near before them."""
    return all(0x20 <= byte < 0x7F for byte in typed[max(0, cut - 33) : cut + 1])


def frames_of_line(line: str) -> List[Frame]:
    """The frames that a line says; none for an empty one and a comment."""
    words = Words(line)
    if not words.more():
        return []
    verb = words.take("thing")
    if verb in TYPED:
        return [Frame("B", part) for part in cuts(typed_of(words, verb))]
    frames = other_frames(verb, words)
    if words.more():
        raise ValueError(f"this is too much: {words.left.strip()}")
    return frames


def other_frames(verb: str, words: Words) -> List[Frame]:
    if verb == "quiet":
        number = words.take("number") if words.more() else "1"
        if not re.fullmatch("[1-9][0-9]{0,7}", number):
            raise ValueError(f"no number of 1 to 99999999: {number}")
        return [Frame("Q")] * int(number)
    if verb in ("resize", "attach"):
        token = words.take("size")
        size = size_of(token)
        if size is None:
            raise ValueError(f"no size of 1x1 to 512x256: {token}")
        return [Frame("R" if verb == "resize" else "A", size=size)]
    if verb in ALONE:
        return [Frame(ALONE[verb])]
    raise ValueError(f"no such thing: {verb}")


def read_text(text: str) -> Link:
    """The frames that a text says, and the bytes that a hangup leaves unread."""
    frames: List[Frame] = []
    unread = b""
    for number, line in enumerate(text.split("\n"), 1):
        try:
            words = Words(line)
            is_over = bool(frames) and frames[-1].tag == "X"
            if is_over and words.more():
                if words.take("thing") != "unread":
                    raise ValueError("nothing but `unread` comes behind a hangup")
                unread += hex_bytes(words)
            elif not is_over:
                frames += frames_of_line(line)
        except ValueError as fault:
            raise ToolError(f"line {number}: {fault}") from None
    return Link(frames, None, unread)


def link_bytes(link: Link) -> bytes:
    spelled = b"".join(frame.spelled() for frame in link.frames) + link.unread
    if sum(len(frame.spelled()) for frame in link.frames) > MOST_LINK:
        raise ToolError(f"the link has more than {MOST_LINK} bytes")
    return spelled


# ---- the way back


def pieces_of(frames: Iterable[Frame]) -> List[Piece]:
    """The keys of all that is typed, with places in the whole of it."""
    splitter, pieces = Splitter(), []
    for frame in frames:
        if frame.tag == "B":
            pieces += splitter.feed(frame.typed)
        elif frame.tag == "Q":
            pieces += splitter.quiet()
    if splitter.held:
        pieces.append(splitter.piece(splitter.at, "none"))
    return pieces


def named(spelled: bytes, kind: str) -> Tuple[str, str]:
    """A verb and what stands behind it, for a piece that lies in one frame."""
    if kind == "text":
        return "type", spelled.decode()
    if kind == "key" and spelled in NAME_OF:
        return "key", NAME_OF[spelled]
    if kind == "key":
        verb, _, rest = (mouse_name(spelled) or "").partition(" ")
        return verb, rest
    return "bytes", spelled.hex()


def gathered(things: Iterable[Tuple[str, str]]) -> List[Tuple[str, str]]:
    """Neighbours that are one: texts, bytes, and a press with its release at one place."""
    out: List[Tuple[str, str]] = []
    for verb, rest in things:
        last = out[-1] if out else ("", "")
        if verb == last[0] and verb in ("type", "bytes"):
            out[-1] = verb, last[1] + rest
        elif verb == "release" and last == ("press", rest):
            out[-1] = "click", rest[5:] if rest.startswith("left ") else rest
        else:
            out.append((verb, rest))
    return out


def thing_text(verb: str, rest: str) -> str:
    return f"{verb} {quoted(rest) if verb == 'type' else rest}"


def typed_texts(frames: List[Frame]) -> Iterator[str]:
    """What each frame of typed bytes says, in the words of a text."""
    pieces, at, start = pieces_of(frames), 0, 0
    for frame in frames:
        if frame.tag != "B":
            continue
        end, things = start + len(frame.typed), []
        while at < len(pieces) and pieces[at].start < end:
            piece = pieces[at]
            spelled = frame.typed[max(piece.start, start) - start : piece.end - start]
            is_within = start <= piece.start and piece.end <= end
            things.append(named(spelled, piece.kind if is_within else "none"))
            if piece.end > end:
                break
            at += 1
        yield " + ".join(thing_text(*thing) for thing in gathered(things))
        start = end


def frame_texts(frames: List[Frame]) -> Iterator[str]:
    """A line for each frame."""
    typed = typed_texts(frames)
    for frame in frames:
        if frame.tag == "B":
            yield next(typed)
        elif frame.tag in ("R", "A"):
            yield f"{'resize' if frame.tag == 'R' else 'attach'} {frame.size[0]}x{frame.size[1]}"
        else:
            yield "quiet" if frame.tag == "Q" else VERB_OF[frame.tag]


def link_text(link: Link) -> Iterator[str]:
    """The lines that say a link; a run of quiet frames is one line with its number."""
    count = 0
    for line in [*frame_texts(link.frames), None]:
        if line == "quiet":
            count += 1
            continue
        if count:
            yield "quiet" if count == 1 else f"quiet {count}"
            count = 0
        if line is not None:
            yield line
    for at in range(0, len(link.unread), UNREAD_LINE):
        yield "unread " + link.unread[at : at + UNREAD_LINE].hex()
