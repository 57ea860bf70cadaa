"""Sessions, links and texts that nobody means well with, by docs/FORMATS.md, and what has to come of them. Large ones are written to files in pieces."""
import json
import os

MOST = 16_777_216
FRAME = 4_096


# ---- links

def typed(text):
    """Frames of bytes that were typed."""
    return b"".join(b"B" + len(part).to_bytes(2, "big") + part for part in (text[at : at + FRAME] for at in range(0, len(text), FRAME)))


def size(width, height):
    return b"R" + width.to_bytes(2, "big") + height.to_bytes(2, "big")


def frame_at(link, at, mirrored=False):
    """How long the frame at a place is, or the kind of its fault. `A` and `D` are frames of a link with a second terminal."""
    tag, left = link[at : at + 1], len(link) - at
    if mirrored and tag in (b"A", b"D"):
        tag = b"R" if tag == b"A" else b"P"
    if tag in (b"Q", b"P", b"X"):
        return 1
    if tag == b"B":
        count = int.from_bytes(link[at + 1 : at + 3], "big")
        if left < 3:
            return "cut"
        return "length" if not 1 <= count <= FRAME else 3 + count if left >= 3 + count else "cut"
    if tag == b"R":
        width, height = (int.from_bytes(link[at + k : at + k + 2], "big") for k in (1, 3))
        if left < 5:
            return "cut"
        return 5 if 1 <= width <= 512 and 1 <= height <= 256 else "size"
    return "tag"


def end_of(link, mirrored=False):
    """The status and the last line of a session over a link, by its bytes alone."""
    at = 0
    while at < len(link):
        found = frame_at(link, at, mirrored)
        if isinstance(found, str):
            return "8", f'["end",8,{at},"{found}"]'
        if link[at : at + 1] == b"X":
            break
        at += found
    return "0", '["end",0]'


def spoiled(link):
    """A link cut before each byte and behind the last, and with each byte set to 0 and to 255, each with a word for it."""
    for at in range(len(link) + 1):
        yield f"cut after {at}", link[:at]
    for at in range(len(link)):
        for byte in (0, 255):
            yield f"byte {at} is {byte}", link[:at] + bytes([byte]) + link[at + 1 :]


# ---- sessions

def session(calls, clients=1, window=(80, 25), version=2):
    return {"version": version, "size": list(window), "clients": [{"program": "sh", "group": 1, "calls": calls}] * clients}


IDLE = session([])


def listing():
    """A shell of 120 by 30 that reads a line by its alias and lists 200 files in green."""
    files = [["write", 2, f"\x1b[32mfile{k:03}\x1b[0m\r\n"] for k in range(1, 201)]
    calls = [["set-mode", 2, 7], ["alias-add", "sh", "ls", "dir $*"], ["write", 2, "$ "], ["read", 1, 200], *files]
    calls += [["set-title", "listing"], ["write", 2, "\x1b[?1049h"], ["write", 2, "edit"], ["write", 2, "\x1b[?1049l"], ["exit", 0]]
    return session(calls, window=(120, 30), version=1)


LISTING_LINK = typed(b"ls -l\r") + b"P"
LISTING_DUMP = "".join(
    ["120x30 cursor 0,29\n", *(f"|{f'file{k:03}':120}|\n" for k in range(172, 201)), f"|{'':120}|\n", *(f"@{y},0+7 0002\n" for y in range(29))]
)


def written(folder, name, pieces):
    """The path of a file that has these pieces."""
    path = os.path.join(folder, name)
    with open(path, "wb") as out:
        for piece in pieces:
            out.write(piece)
    return path


def document(folder, name, value):
    return written(folder, name, [json.dumps(value).encode()])


def filled(front, unit, back=b"", most=MOST):
    """A front, a unit as often as there is room for it in so many bytes, and a back, in pieces."""
    count = (most - len(front) - len(back)) // len(unit)
    yield front
    for at in range(0, count, FRAME):
        yield unit * min(FRAME, count - at)
    yield back


def fed(unit, most=MOST):
    """Frames of a unit over and over, of at most so many bytes in all, in pieces."""
    piece = typed(unit * (FRAME // len(unit)))
    for _ in range(most // len(piece)):
        yield piece


# ---- pictures, as `play` dumps them

def dump(width, height, cursor, rows, words=()):
    lines = [f"{width}x{height} cursor {cursor}", *(f"|{row:{width}}|" for row in [*rows, *[""] * (height - len(rows))]), *words]
    return "".join(f"{line}\n" for line in lines)
