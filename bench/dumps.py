"""The dumps that `play` prints of a terminal of 80 by 25."""
import re

W, H = 80, 25


def cells(dump):
    """The characters and the attributes of a dump's cells."""
    lines = dump.decode().split("\n")
    rows = [line[1:-1] for line in lines[1:1 + H]]
    looks = [[(0x07, None, None)] * W for _ in range(H)]
    for line in lines[1 + H:]:
        m = re.fullmatch(r"@(\d+),(\d+)\+(\d+) ([0-9a-f]{4})(?: f(\d+))?(?: b(\d+))?", line)
        if m:
            y, x, n = int(m[1]), int(m[2]), int(m[3])
            for k in range(n):
                looks[y + (x + k) // W][(x + k) % W] = int(m[4], 16), m[5], m[6]
    return rows, looks


def ansi(nibble):
    return (nibble >> 2 & 1) | (nibble & 2) | (nibble << 2 & 4), nibble >> 3
