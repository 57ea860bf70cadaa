"""A small terminal, by the table of crates/con_term/specs (docs/PROFILE.md, "con_term"). Outside what is proved."""
import codecs
import re
import unicodedata
from typing import Iterator, List, NamedTuple, Optional, Tuple

ESCAPE = "\x1b"
REPLACEMENT = "\ufffd"
PRINTED = re.compile(r"[^\x00-\x1f\x7f-\x9f]+")
CONTROL_FRONT = re.compile(r"\x1b\[([0-?]*)([ -/]*)")
NESTED_FRONT = re.compile(r"\x1b[ -/]+")
STRING_END = re.compile(r"[\x07\x18\x1a\x1b]")
OPENERS = "]PX^_"


class Attribute(NamedTuple):
    """What a cell is written in: the word, and the index of 16 to 255 of foreground and background, or -1."""

    word: int = 7
    fore: int = -1
    back: int = -1


# The runs of a row: column, text, attribute.
Runs = Tuple[Tuple[int, str, Attribute], ...]


class Pen(NamedTuple):
    """What is written next: two of the sixteen colours in the bits of a word, two indices or -1, and three flags."""

    foreground: int = 7
    background: int = 0
    fore: int = -1
    back: int = -1
    bold: bool = False
    underline: bool = False
    negative: bool = False

    def attribute(self) -> Attribute:
        colour = self.foreground | 8 if self.bold else self.foreground
        word = colour + 16 * self.background + 0x4000 * self.negative + 0x8000 * self.underline
        return Attribute(word, self.fore, self.back)


class Sequence(NamedTuple):
    """A whole control sequence that may have an effect."""

    private: bool
    numbers: List[int]
    intermediate: str
    last: str


# ---- colours


def bits(colour: int) -> int:
    """A colour of ECMA-48, 0 to 7, in the bits of a word: red and blue change places."""
    return (colour & 1) << 2 | colour & 2 | colour >> 2


def nearest(index: int) -> int:
    """The one of the sixteen colours that is nearest to an index of 16 to 255."""
    if index >= 232:
        return (0, 8, 7, 15)[(index - 232) // 6]
    parts = (index - 16) // 36, (index - 16) // 6 % 6, (index - 16) % 6
    return sum(bit for bit, part in zip((4, 2, 1), parts) if part >= 3) + 8 * (5 in parts)


def indexed(pen: Pen, ground: int, index: int) -> Pen:
    """38;5;n and 48;5;n."""
    if index > 255:
        return pen
    colour = nearest(index) if index > 15 else bits(index % 8) + index // 8 * 8
    shade = index if index > 15 else -1
    return pen._replace(foreground=colour, fore=shade) if ground == 38 else pen._replace(background=colour, back=shade)


def coloured(pen: Pen, number: int) -> Pen:
    """A number of SGR that names one of the sixteen colours."""
    for first, bright, is_fore in ((30, 0, True), (90, 8, True), (40, 0, False), (100, 8, False)):
        if first <= number < first + 8:
            colour = bits(number - first) + bright
            return pen._replace(foreground=colour, fore=-1) if is_fore else pen._replace(background=colour, back=-1)
    if number == 39:
        return pen._replace(foreground=7, fore=-1)
    return pen._replace(background=0, back=-1) if number == 49 else pen


FLAGS = {1: ("bold", True), 22: ("bold", False), 4: ("underline", True), 24: ("underline", False)}
FLAGS.update({7: ("negative", True), 27: ("negative", False)})


def pen_after(pen: Pen, numbers: List[int]) -> Pen:
    """The pen after the numbers of an SGR, of which there is at least one."""
    at = 0
    while at < len(numbers):
        number, at = numbers[at], at + 1
        if number in (38, 48):
            kind = numbers[at] if at < len(numbers) else None
            more = {5: 1, 2: 3}.get(kind, 99)
            if at + more >= len(numbers):
                return pen
            pen = indexed(pen, number, numbers[at + 1]) if kind == 5 else pen
            at += 1 + more
        elif number == 0:
            pen = Pen()
        elif number in FLAGS:
            pen = pen._replace(**{FLAGS[number][0]: FLAGS[number][1]})
        else:
            pen = coloured(pen, number)
    return pen


# ---- the items of a text


def is_one_column(char: str) -> bool:
    """Whether a character takes one column, by the tables that Python has."""
    return unicodedata.east_asian_width(char) not in "WF" and unicodedata.category(char) not in ("Mn", "Me", "Cf", "Cs")


def stored(char: str) -> str:
    """The characters that cells show for one: two for one past U+FFFF, which has two units."""
    if " " <= char <= "~":
        return char
    if char > "\uffff":
        return REPLACEMENT * 2
    return char if is_one_column(char) else REPLACEMENT


def sequence_of(found: "re.Match[str]", last: str) -> Optional[Sequence]:
    private = found.group(1).startswith("?")
    numbers = found.group(1)[private:]
    if len(found.group(2)) > 1 or not re.fullmatch("[0-9;]*", numbers):
        return None
    values = [min(int(number or "0"), 32767) for number in numbers.split(";")] if numbers else []
    return Sequence(private, values[:16], found.group(2), last)


def read_escape(text: str, at: int) -> Tuple[int, Optional[Sequence]]:
    """Where what begins with ESC ends, and the control sequence if it is one; a place of -1 where it is not whole."""
    found = CONTROL_FRONT.match(text, at)
    if found:
        end = found.end()
        if end == len(text):
            return -1, None
        return (end + 1, sequence_of(found, text[end])) if "@" <= text[end] <= "~" else (end, None)
    if text[at + 1 : at + 2] and text[at + 1] in OPENERS:
        return read_string(text, at), None
    nested = NESTED_FRONT.match(text, at)
    end = nested.end() if nested else at + 1
    if end == len(text):
        return -1, None
    return (end + 1 if "0" <= text[end] <= "~" else end), None


def read_string(text: str, at: int) -> int:
    """Where a string ends: behind BEL or ESC \\, or at what breaks it."""
    ends = STRING_END.search(text, at + 2)
    if not ends:
        return -1
    if ends.group() == "\x07":
        return ends.end()
    if ends.group() != ESCAPE:
        return ends.start()
    if ends.end() == len(text):
        return -1
    return ends.end() + 1 if text[ends.end()] == "\\" else ends.start()


def runs(row: List[Tuple[str, Attribute]]) -> Iterator[Tuple[int, str, Attribute]]:
    """The longest runs of a row in one attribute: the column, the text, the attribute."""
    start = 0
    for at in range(1, len(row) + 1):
        if at == len(row) or row[at][1] != row[start][1]:
            yield start, "".join(char for char, _ in row[start:at]), row[start][1]
            start = at


class Terminal:
    """A window without margins and tab stops, between any two bytes of its stream."""

    def __init__(self, width: int, height: int):
        self.width, self.height = width, height
        self.pen = Pen()
        self.x = self.y = 0
        self.pending, self.visible = False, True
        self.decoder = codecs.getincrementaldecoder("utf-8")("replace")
        self.tail = ""
        self.rows = [self.blank_row() for _ in range(height)]
        self.known: List[Optional[Runs]] = [None] * height

    def blank_row(self) -> List[Tuple[str, Attribute]]:
        return [(" ", self.pen.attribute())] * self.width

    def play(self, stream: bytes) -> None:
        """What bytes do."""
        text, at = self.tail + self.decoder.decode(stream), 0
        self.tail = ""
        while at < len(text):
            run = PRINTED.match(text, at)
            if run:
                self.print(run.group())
                at = run.end()
            elif text[at] != ESCAPE:
                self.control(text[at])
                at += 1
            else:
                end, sequence = read_escape(text, at)
                if end < 0:
                    self.tail = text[at:]
                    return
                at = end
                if sequence and not sequence.intermediate:
                    self.act(sequence)

    def print(self, text: str) -> None:
        attribute = self.pen.attribute()
        for char in text:
            for shown in stored(char):
                if self.pending:
                    self.down()
                    self.x, self.pending = 0, False
                self.rows[self.y][self.x] = (shown, attribute)
                self.known[self.y] = None
                if self.x + 1 < self.width:
                    self.x += 1
                else:
                    self.pending = True

    def down(self) -> None:
        if self.y + 1 < self.height:
            self.y += 1
        else:
            self.lift(1)

    def lift(self, count: int) -> None:
        count = min(count, self.height)
        self.rows = self.rows[count:] + [self.blank_row() for _ in range(count)]
        self.known = self.known[count:] + [None] * count

    def control(self, char: str) -> None:
        if char == "\b":
            self.move(self.x - 1, self.y)
        elif char == "\n":
            self.down()
            self.pending = False
        elif char == "\r":
            self.move(0, self.y)

    def move(self, x: int, y: int) -> None:
        self.x, self.y = min(max(x, 0), self.width - 1), min(max(y, 0), self.height - 1)
        self.pending = False

    def erase(self, start: int, end: int) -> None:
        """Makes the cells from one place up to another blank."""
        blank = (" ", self.pen.attribute())
        for place in range(start, end):
            self.rows[place // self.width][place % self.width] = blank
            self.known[place // self.width] = None
        self.pending = False

    def act(self, sequence: Sequence) -> None:
        numbers = sequence.numbers + [0, 0]
        if sequence.private:
            if numbers[0] == 25 and sequence.last in "hl":
                self.visible = sequence.last == "h"
            return
        first, some, last = numbers[0], max(numbers[0], 1), sequence.last
        if last in "ABCD":
            dx, dy = {"A": (0, -some), "B": (0, some), "C": (some, 0), "D": (-some, 0)}[last]
            self.move(self.x + dx, self.y + dy)
        elif last in "Hf":
            self.move(max(numbers[1], 1) - 1, some - 1)
        elif last == "S":
            self.lift(some)
        elif last in "JK" and first < 3:
            self.erase_part(first, last == "J")
        elif last == "X":
            at = self.y * self.width + self.x
            self.erase(at, min(at + some, (self.y + 1) * self.width))
        elif last == "m":
            self.pen = pen_after(self.pen, sequence.numbers or [0])

    def erase_part(self, part: int, is_display: bool) -> None:
        """ED and EL: from the cursor on, up to it, or all."""
        at = self.y * self.width + self.x
        low, high = (0, self.height * self.width) if is_display else (self.y * self.width, (self.y + 1) * self.width)
        self.erase(at if part == 0 else low, at + 1 if part == 1 else high)

    def runs(self, y: int) -> Runs:
        """The longest runs of a row in one attribute. They are kept until the row changes."""
        known = self.known[y]
        if known is None:
            known = self.known[y] = tuple(runs(self.rows[y]))
        return known

    def cursor(self) -> Optional[Tuple[int, int]]:
        """Where the cursor shows."""
        return (self.x, self.y) if self.visible else None


# ---- what it shows


def dump(terminal: Terminal) -> str:
    """What a terminal shows, as `conpty play` writes it."""
    cursor = "{},{}".format(*terminal.cursor()) if terminal.visible else "hidden"
    lines = [f"{terminal.width}x{terminal.height} cursor {cursor}"]
    lines += ["|" + "".join(char for char, _ in row) + "|" for row in terminal.rows]
    for y in range(terminal.height):
        for x, text, attribute in terminal.runs(y):
            shades = f" f{attribute.fore}" * (attribute.fore >= 0) + f" b{attribute.back}" * (attribute.back >= 0)
            if attribute != Attribute():
                lines.append(f"@{y},{x}+{len(text)} {attribute.word:04x}{shades}")
    return "".join(line + "\n" for line in lines)
