"""The session that is drawn from a number, by docs/FORMATS.md, as a document."""

MULTIPLIER, INCREMENT = 6364136223846793005, 1442695040888963407
CLIENTS, CALLS = 4, 500


class Draws:
    """The numbers that are drawn from one."""

    def __init__(self, number):
        self.x = number

    def __call__(self, below):
        self.x = (self.x * MULTIPLIER + INCREMENT) % 2**64
        return (self.x >> 33) % below


def drawn(draw):
    """The next call. The draws of a call follow in the order in which they are written."""
    kind = draw(8)
    if kind == 0:
        length = 1 + draw(40)
        return ["write", 2, "".join(chr(32 + draw(95)) for _ in range(length))]
    if kind == 1:
        return ["write", 2, "\r\n"]
    if kind == 2:
        return ["write", 2, f"\x1b[{30 + draw(8)}m"]
    if kind == 3:
        return ["set-cursor", 2, draw(80), draw(25)]
    if kind == 4:
        return ["fill-attrs", 2, draw(80), draw(25), draw(200), draw(256)]
    if kind == 5:
        return ["rect-read", 2, [draw(80), draw(25), draw(80), draw(25)]]
    if kind == 6:
        return ["write-input", 1, [["key", True, 1, 0, 0, 97 + draw(26), 0]]]
    return ["peek", 1, 4]


def session(number):
    draw, clients = Draws(number), []
    for client in range(1, CLIENTS + 1):
        calls = [["set-mode", 2, 7], *(drawn(draw) for _ in range(CALLS - 1))]
        clients.append({"program": f"gen{client}", "group": client, "calls": calls})
    return {"version": 1, "size": [80, 25], "clients": clients}
