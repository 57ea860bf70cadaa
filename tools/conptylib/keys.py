"""Which bytes a terminal sends for a key, and which keys bytes are. Outside what is proved.

The table is that of docs/PROFILE.md ("con_vtin: keys and sequences"), with one row more: shift+tab, which terminals
send as ESC [ Z and of which the console makes no key."""
import re
from typing import Dict, Iterator, NamedTuple, Optional

ESCAPE = b"\x1b"
LETTERS = {"up": "A", "down": "B", "right": "C", "left": "D", "home": "H", "end": "F"}
FIRST = {"f1": "P", "f2": "Q", "f3": "R", "f4": "S"}
NUMBERS = {
    "insert": 2,
    "delete": 3,
    "pageup": 5,
    "pagedown": 6,
    "f5": 15,
    "f6": 17,
    "f7": 18,
    "f8": 19,
    "f9": 20,
    "f10": 21,
    "f11": 23,
    "f12": 24,
}
SINGLE = {"return": 0x0D, "tab": 0x09, "space": 0x20, "back": 0x7F}
BUTTONS = ("left", "middle", "right")
PLACE_LIMIT = 32767


class Piece(NamedTuple):
    """A whole key or sequence, or bytes that are none: where it stands in what was typed."""

    start: int
    end: int
    kind: str  # "text", "key", or "none" for bytes that become no key by name


def modifiers(shift: bool, alt: bool, ctrl: bool) -> str:
    return "ctrl+" * ctrl + "alt+" * alt + "shift+" * shift


def single_bytes() -> Dict[str, bytes]:
    """The keys of one byte that are no printable character, without alt."""
    keys = {name: bytes([byte]) for name, byte in SINGLE.items() if name != "space"}
    keys["ctrl+back"] = b"\x08"
    keys["ctrl+space"] = b"\x00"
    keys.update(
        {f"ctrl+{chr(0x60 + byte)}": bytes([byte]) for byte in range(1, 0x1B) if byte not in (0x08, 0x09, 0x0D)}
    )
    keys.update({f"ctrl+{chr(0x40 + byte)}": bytes([byte]) for byte in range(0x1C, 0x20)})
    return keys


def sequence_bytes() -> Dict[str, bytes]:
    """The keys of the sequences, with each set of modifiers."""
    keys = {"shift+tab": b"\x1b[Z"}
    for m in range(8):
        name, digit = modifiers(m % 2 == 1, m // 2 % 2 == 1, m // 4 == 1), str(m + 1)
        for key, last in LETTERS.items():
            keys[name + key] = f"\x1b[1;{digit}{last}".encode() if m else f"\x1b[{last}".encode()
        for key, last in FIRST.items():
            keys[name + key] = f"\x1b[1;{digit}{last}".encode() if m else f"\x1bO{last}".encode()
        for key, number in NUMBERS.items():
            keys[name + key] = f"\x1b[{number};{digit}~".encode() if m else f"\x1b[{number}~".encode()
    return keys


def alt_bytes(singles: Dict[str, bytes]) -> Dict[str, bytes]:
    """ESC and a byte below 0x80 other than ESC, [ and O."""
    keys = {}
    for name, byte in singles.items():
        keys["ctrl+alt+" + name[5:] if name.startswith("ctrl+") else "alt+" + name] = ESCAPE + byte
    for code in range(0x21, 0x7F):
        if chr(code) not in "[O":
            keys["alt+" + chr(code)] = ESCAPE + bytes([code])
    keys["alt+space"] = b"\x1b "
    return keys


SINGLES = single_bytes()
NAMED = {**SINGLES, **sequence_bytes(), **alt_bytes(SINGLES), "escape": ESCAPE}
NAME_OF = {spelled: name for name, spelled in NAMED.items()}
ALSO = {
    "enter": "return",
    "backspace": "back",
    "esc": "escape",
    "del": "delete",
    "ins": "insert",
    "pgup": "pageup",
    "pgdn": "pagedown",
}
SAME_BYTE = {
    "ctrl+h": "ctrl+back",
    "ctrl+i": "tab",
    "ctrl+m": "return",
    "ctrl+[": "escape",
    "ctrl+alt+h": "ctrl+alt+back",
    "ctrl+alt+i": "alt+tab",
    "ctrl+alt+m": "alt+return",
}


def ordered(name: str) -> str:
    """A key's name with its modifiers in the order of the table, and the other names of a key replaced."""
    parts = name.split("+")
    if name.endswith("+"):
        parts = parts[:-2] + ["+"]
    front, key = {part.lower() for part in parts[:-1]}, parts[-1]
    if not front <= {"shift", "alt", "ctrl"} or len(front) != len(parts) - 1:
        return name
    key = key if len(key) == 1 else ALSO.get(key.lower(), key.lower())
    if len(key) == 1 and "ctrl" in front:
        key = key.lower()
    elif len(key) == 1 and "shift" in front and key.isascii() and key.isalpha():
        key, front = key.upper(), front - {"shift"}
    return modifiers("shift" in front, "alt" in front, "ctrl" in front) + key


def key_bytes(name: str) -> bytes:
    """The bytes of a key by its name; ValueError says why there is none."""
    known = ordered(name)
    if known in NAMED:
        return NAMED[known]
    if known == "space":
        return b" "
    if len(known) == 1 and (known.isprintable()):
        return known.encode()
    if known in SAME_BYTE:
        raise ValueError(f"{name} is the byte of {SAME_BYTE[known]}: write that")
    raise ValueError(f"no such key: {name}")


# ---- the mouse

MOUSE = re.compile(rb"\x1b\[<(0|[1-9]\d{0,4});([1-9]\d{0,4});([1-9]\d{0,4})([Mm])")


def mouse_bytes(button: int, x: int, y: int, ends: str) -> bytes:
    """A report of the mouse, SGR; x and y count from 0."""
    if not (0 <= x < PLACE_LIMIT and 0 <= y < PLACE_LIMIT):
        raise ValueError(f"no place of 0,0 to {PLACE_LIMIT - 1},{PLACE_LIMIT - 1}: {x},{y}")
    return f"\x1b[<{button};{x + 1};{y + 1}{ends}".encode()


def mouse_name(spelled: bytes) -> Optional[str]:
    """What a report of the mouse says: press, release, move, drag or wheel, its button and its place."""
    found = MOUSE.fullmatch(spelled)
    if not found:
        return None
    button, x, y = (int(number) for number in found.group(1, 2, 3))
    if button > 127 or x > PLACE_LIMIT or y > PLACE_LIMIT:
        return None
    held = modifiers(button & 4 != 0, button & 8 != 0, button & 16 != 0)
    base, goes_down, place = button & ~0x1C, found.group(4) == b"M", f"{x - 1},{y - 1}"
    if base in (0, 1, 2):
        return f"{'press' if goes_down else 'release'} {held}{BUTTONS[base]} {place}"
    if base in (32, 33, 34) and goes_down:
        return f"drag {held}{BUTTONS[base - 32]} {place}"
    if base == 35 and goes_down:
        return f"move {held}{place}" if not held else f"move {held[:-1]} {place}"
    if base in (64, 65) and goes_down:
        return f"wheel {held}{'up' if base == 64 else 'down'} {place}"
    return None


# ---- the way back

MOST_HELD = 32
CONTROL_FRONT = re.compile(rb"\x1b\[[\x30-\x3f]*[\x20-\x2f]*")
CONTROL_WHOLE = re.compile(rb"\x1b\[[\x30-\x3f]*[\x20-\x2f]*[\x40-\x7e]")
SHORT_WHOLE = re.compile(rb"\x1bO[\x40-\x7e]|\x1b[\x00-\x1a\x1c-\x4e\x50-\x5a\x5c-\x7f]")
TEXT = re.compile(rb"[\x20-\x7e]+")
# What needs no look at what is held: a run of text, a control, a whole sequence.
WHOLE = re.compile(b"|".join([TEXT.pattern, rb"[\x00-\x1a\x1c-\x1f\x7f]", CONTROL_WHOLE.pattern, SHORT_WHOLE.pattern]))


class Splitter:
    """Splits what is typed into keys as the console does, and says where each one stands."""

    def __init__(self) -> None:
        self.held = b""
        self.at = 0

    def feed(self, typed: bytes) -> Iterator[Piece]:
        """The pieces that these bytes end. A text's piece has as many characters as stand together."""
        i = 0
        while i < len(typed):
            found = WHOLE.match(typed, i) if not self.held else None
            length = found.end() - i if found else 0
            is_text = 0x20 <= typed[i] < 0x7F
            if found and (is_text or length <= MOST_HELD + 1):
                yield Piece(self.at, self.at + length, "text" if is_text else kind_of(found.group()) or "none")
                self.at += length
                i += length
            else:
                yield from self.advance(typed[i : i + 1])
                i += 1

    def quiet(self) -> Iterator[Piece]:
        """The pieces that what is held becomes where nothing more comes for a while."""
        if self.held:
            yield self.piece(self.at, "key" if self.held == ESCAPE else "none")
            self.held = b""

    def piece(self, end: int, kind: str) -> Piece:
        return Piece(self.at - len(self.held), end, kind)

    def advance(self, byte: bytes) -> Iterator[Piece]:
        grown = self.held + byte
        if is_front(grown):
            self.held, self.at = grown, self.at + 1
            return
        kind = kind_of(grown)
        if kind is None and self.held:
            yield self.piece(self.at, "key" if self.held == ESCAPE else "none")
            self.held = b""
            yield from self.advance(byte)
            return
        yield self.piece(self.at + 1, kind or "none")
        self.held, self.at = b"", self.at + 1


def is_front(held: bytes) -> bool:
    """The bytes are the front of a key, and less than a whole one."""
    if held[:1] == ESCAPE:
        return held in (ESCAPE, b"\x1bO") or (len(held) <= MOST_HELD and CONTROL_FRONT.fullmatch(held) is not None)
    return is_cut(held)


def is_cut(held: bytes) -> bool:
    """The bytes are the front of a character of more bytes than one."""
    if not 0xC2 <= held[0] <= 0xF4:
        return False
    try:
        held.decode("utf-8")
    except UnicodeDecodeError as fault:
        return fault.reason == "unexpected end of data" and fault.start == 0
    return False


def kind_of(whole: bytes) -> Optional[str]:
    """Whether bytes are a whole key: "text" for characters, "key" for what has a name, "none" for a nameless one."""
    if whole[:1] == ESCAPE:
        if not (CONTROL_WHOLE.fullmatch(whole) or SHORT_WHOLE.fullmatch(whole)):
            return None
        return "key" if whole in NAME_OF or mouse_name(whole) else "none"
    if len(whole) == 1 and whole[0] < 0x80:
        return "text" if 0x20 <= whole[0] < 0x7F else "key"
    try:
        whole.decode("utf-8")
    except UnicodeDecodeError:
        return None
    return "text"
