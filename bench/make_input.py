#!/usr/bin/env python3
"""Writes a text for a benchmark to standard output, the same for the same words.

    make_input.py KIND BYTES [NUMBER]

KIND is lines (80 columns and CR LF), runs (printable characters without a line end), sgr (a colour for every few
characters), indexed (one of 256 colours, of the foreground or of the background, for every few characters), motion (the cursor goes
to a random place before every few characters), feeds (LF alone), returns (CR LF alone), short (lines of up to 8 characters), reverse
(ESC M at the top of a region), lifts (CSI S and CSI T), rows (rows are inserted and deleted), characters (characters are inserted and
deleted), region (LF at the bottom of a region), erased (parts of rows are erased), cleared (the display is erased for every few
characters), drawn (the characters of ESC ( 0), cjk, boxes, accents, emoji or random (bytes). NUMBER seeds it."""
import random
import sys

PRINTABLE = "".join(map(chr, range(0x20, 0x7F)))


def word(draw, least, most):
    return "".join(draw.choices(PRINTABLE, k=draw.randint(least, most)))


def lines(draw):
    return word(draw, 78, 78) + "\r\n"


def runs(draw):
    return word(draw, 500, 500)


def sgr(draw):
    colour = draw.choice([30, 40, 90, 100]) + draw.randrange(8)
    return f"\x1b[{draw.choice([0, 1, 4, 7, 22, 24, 27])};{colour}m" + word(draw, 1, 8)


def indexed(draw):
    return f"\x1b[{draw.choice([38, 48])};5;{draw.randrange(256)}m" + word(draw, 1, 8)


def motion(draw):
    return f"\x1b[{draw.randint(1, 25)};{draw.randint(1, 80)}H" + word(draw, 1, 8)


def feeds(draw):
    return "\n" * 50


def returns(draw):
    return "\r\n" * 25


def short(draw):
    return word(draw, 0, 8) + "\r\n"


def reverse(draw):
    return "\x1b[5;20r\x1b[5;1H" + "\x1bM" * 20


def lifts(draw):
    return f"\x1b[{draw.randint(1, 5)}S\x1b[{draw.randint(1, 5)}T" + word(draw, 1, 8)


def rows(draw):
    return f"\x1b[{draw.randint(1, 3)}L\x1b[{draw.randint(1, 3)}M" + word(draw, 1, 8)


def characters(draw):
    return f"\x1b[{draw.randint(1, 3)}@\x1b[{draw.randint(1, 3)}P" + word(draw, 1, 8)


def region(draw):
    return "\x1b[5;20r\x1b[20;1H" + "\n".join(word(draw, 1, 8) for _ in range(20))


def erased(draw):
    return f"\x1b[{draw.randint(1, 25)};{draw.randint(1, 80)}H\x1b[{draw.randint(0, 2)}K\x1b[{draw.randint(1, 40)}X"


def cleared(draw):
    return "\x1b[H\x1b[J" + word(draw, 1, 8)


def drawn(draw):
    return "\x1b(0" + word(draw, 1, 20) + "\x1b(B"


def between(draw, first, last, count):
    return "".join(chr(draw.randint(first, last)) for _ in range(count)) + "\r\n"


def cjk(draw):
    return between(draw, 0x4E00, 0x9FFF, 30)


def boxes(draw):
    return between(draw, 0x2500, 0x257F, 60)


def accents(draw):
    return "".join(draw.choices("abcde\u00e0\u00e4\u00e7\u00e9\u00f1\u00f6\u00fc", k=70)) + "\r\n"


def emoji(draw):
    return between(draw, 0x1F600, 0x1F64F, 20)


def noise(draw):
    return bytes(draw.randrange(256) for _ in range(100))


KINDS = {
    "lines": lines, "runs": runs, "sgr": sgr, "indexed": indexed, "motion": motion, "feeds": feeds, "returns": returns,
    "short": short, "reverse": reverse, "lifts": lifts, "rows": rows, "characters": characters, "region": region,
    "erased": erased, "cleared": cleared, "drawn": drawn, "cjk": cjk, "boxes": boxes, "accents": accents, "emoji": emoji,
    "random": noise,
}


def as_bytes(text):
    return text if isinstance(text, bytes) else text.encode()


def main():
    if len(sys.argv) not in (3, 4) or sys.argv[1] not in KINDS:
        sys.exit(__doc__)
    kind, size = KINDS[sys.argv[1]], int(sys.argv[2])
    draw = random.Random(int(sys.argv[3]) if len(sys.argv) == 4 else 1)
    out, left = sys.stdout.buffer, size
    while left > 0:
        piece = b"".join(as_bytes(kind(draw)) for _ in range(200))[:left]
        out.write(piece)
        left -= len(piece)


if __name__ == "__main__":
    main()
