"""Real programs recorded as sessions. The screens are worked out by hand, or those of tmux for the same bytes."""
import json
import os
import shutil
import subprocess
import tempfile
import time
import unittest

import support
from record import Chunk, Recording, gathered, link_of, parts_of, session_of, texts


def recording(*chunks: tuple, sizes=()) -> Recording:
    return Recording([Chunk(at, what) for at, what in chunks], list(sizes))


class Writes(unittest.TestCase):
    def test_parts_have_at_most_as_many_units(self):
        self.assertEqual([len(part) for part in parts_of("a" * 16_385)], [16_384, 1])
        # 8,191 pairs are 16,382 units: one unit more fits, and the next pair does not.
        self.assertEqual([len(part) for part in parts_of("\U0001f600" * 8_191 + "ab\U0001f600")], [8_193, 1])
        self.assertEqual([len(part) for part in parts_of("\U0001f600" * 8_191 + "a\U0001f600")], [8_192, 1])
        self.assertEqual(parts_of(""), [])

    def test_a_character_over_a_cut(self):
        made = recording((0, b"a\xe2\x94"), (1, b"\x80b"), (2, b"\xff\xc3"))
        self.assertEqual(texts(made), [["a"], ["\u2500b"], ["\ufffd\ufffd"]])

    def test_pauses(self):
        made = recording((0, b"a"), (0.01, b"b"), (0.5, b"c"), (0.6, b"d"), (0.61, b"e"))
        self.assertEqual([chunk.what for chunk in gathered(made, 0.05, 9).chunks], [b"ab", b"c", b"de"])
        self.assertEqual([chunk.what for chunk in gathered(made, 0.05, 2).chunks], [b"ab", b"cde"])
        self.assertEqual([chunk.what for chunk in gathered(made, 0, 9).chunks], [b"a", b"b", b"c", b"d", b"e"])
        self.assertEqual(gathered(recording(), 0.05, 9).chunks, [])

    def test_sizes_cut_and_come_before_their_write(self):
        made = gathered(recording((0, b"a"), (0.01, b"b"), (0.02, b"c"), sizes=[(1, (60, 12)), (3, (61, 13))]), 1, 9)
        self.assertEqual([chunk.what for chunk in made.chunks], [b"a", b"bc"])
        self.assertEqual(made.sizes, [(1, (60, 12)), (2, (61, 13))])
        # Round 1 sets the mode, round 2 writes a, round 3 gets the size and writes bc, round 4 the other size.
        self.assertEqual(link_of(made.sizes, [["a"], ["bc"]]), b"QQR\0\x3c\0\x0cR\0\x3d\0\x0d")
        self.assertEqual(link_of(made.sizes, [["a", "a"], ["bc"]]), b"QQQR\0\x3c\0\x0cR\0\x3d\0\x0d")

    def test_the_document(self):
        document = json.loads(session_of("vim", (80, 25), 15, [["\x1b[m\u2500"], ["a", "b"]]))
        calls = [["set-mode", 2, 15], ["write", 2, "\x1b[m\u2500"], ["write", 2, "a"], ["write", 2, "b"]]
        self.assertEqual(
            document, {"version": 2, "size": [80, 25], "clients": [{"program": "vim", "group": 1, "calls": calls}]}
        )
        with self.assertRaises(support.base.ToolError):
            session_of("vim", (80, 25), 15, [["a"]] * 1024)


@support.needs_program
class Recorded(unittest.TestCase):
    def setUp(self):
        self.folder = tempfile.TemporaryDirectory()
        self.addCleanup(self.folder.cleanup)

    def path(self, name: str) -> str:
        return os.path.join(self.folder.name, name)

    def record(self, keys: str, *words: str, more=()) -> None:
        ran = support.tool(
            "record.py",
            "--size",
            "20x4",
            "--keys",
            "-",
            "-o",
            self.path("session"),
            "--raw",
            self.path("raw"),
            *more,
            "--",
            *words,
            given=keys.encode(),
        )
        self.assertEqual((ran.returncode, ran.stderr), (0, b""))

    def dump(self, width: int, height: int, link: bytes = b"") -> list:
        ran = support.base.run_program(support.PROGRAM, ["solo", self.path("session")], link)
        self.assertEqual(ran.status, 0)
        return (
            support.base.run_program(support.PROGRAM, ["play", f"{width}x{height}"], ran.out).err.decode().splitlines()
        )

    def test_a_shell_script(self):
        script = "printf 'name? '; read name; printf '\\033[32mhello %s\\033[m\\n' \"$name\"; printf '%020d|' 7"
        self.record('type "Ada"\nkey return\n', "sh", "-c", script)
        self.assertEqual(
            self.dump(20, 4),
            [
                "20x4 cursor 1,3",
                "|name? Ada           |",
                "|hello Ada           |",
                "|00000000000000000007|",
                "||                   |",
                "@1,0+9 0002",
            ],
        )

    def test_mode_7_wraps_at_once(self):
        self.record("", "sh", "-c", "printf '%020d\\nend' 7", more=["--mode", "7"])
        self.assertEqual(
            self.dump(20, 4)[1:4], ["|00000000000000000007|", "|                    |", "|end                 |"]
        )
        self.record("", "sh", "-c", "printf '%020d\\nend' 7")
        self.assertEqual(self.dump(20, 4)[1:3], ["|00000000000000000007|", "|end                 |"])

    def test_keys_of_the_cursor(self):
        reads = "stty raw -echo; printf 'ready\\r\\n'; dd bs=1 count=3 2>/dev/null | od -An -tx1; stty sane"
        self.record("key up\nquiet\n", "sh", "-c", f"printf '\\033[?1h'; {reads}")
        self.assertEqual(self.dump(20, 4)[2], "| 1b 4f 41           |")
        self.record("key up\nquiet\n", "sh", "-c", reads)
        self.assertEqual(self.dump(20, 4)[2], "| 1b 5b 41           |")

    def test_a_new_size(self):
        script = "stty size; trap 'stty size; exit' WINCH; printf ready; while :; do sleep 0.1; done"
        self.record("quiet\nresize 30x5\nquiet\n", "sh", "-c", script, more=["--link", self.path("link")])
        with open(self.path("link"), "rb") as file:
            link = file.read()
        self.assertRegex(link, rb"^Q+R\0\x1e\0\x05$")
        report = support.base.run_program(support.PROGRAM, ["solo", self.path("session")], link).err.decode()
        self.assertIn('["t","resize",[30,5],["ok"]]', report)
        self.assertEqual(self.dump(30, 5, link)[1:4], [f"|{row:30}|" for row in ("4 20", "ready5 30", "")])

    def test_errors(self):
        ran = support.tool("record.py", "--", "/no/such/program")
        self.assertEqual((ran.returncode, ran.stderr), (2, b"record.py: /no/such/program: No such file or directory\n"))
        ran = support.tool("record.py", "--keys", "-", "--", "ls", given=b"resize 9x9")
        self.assertEqual((ran.returncode, ran.stdout), (2, b""))
        self.assertIn(b"the keys have a resize: --link says", ran.stderr)
        self.assertEqual(
            support.tool("record.py", "--keys", "-", "--", "ls", given=b"key f13").stderr,
            b"record.py: line 1: no such key: f13\n",
        )

    @unittest.skipUnless(shutil.which("tmux") and shutil.which("less"), "no tmux or no less: install them")
    def test_less_shows_what_it_shows_in_tmux(self):
        with open(self.path("text"), "w", encoding="utf-8") as file:
            file.write("".join(f"line {number} of the text\n" for number in range(1, 31)))
        self.record("key space\nquiet\nkey up\nquiet\n", "less", self.path("text"))
        # Of 30 rows the first page ends with row 3, the second with row 6; up shows row 3 again. A row has 20 columns.
        rows = [row.strip("|").rstrip() for row in self.dump(20, 4)[1:5]]
        self.assertEqual(rows, ["line 3 of the text", "line 4 of the text", "line 5 of the text", ":"])
        self.assertEqual(self.in_tmux(), rows)

    def in_tmux(self) -> list:
        """The rows of a pane of tmux that got the bytes as they came."""
        tmux = ["tmux", "-S", self.path("tmux"), "-f", "/dev/null"]
        script = f"stty raw -echo; cat {self.path('raw')}; touch {self.path('shown')}; exec sleep 60"
        subprocess.run([*tmux, "new-session", "-d", "-x", "20", "-y", "4", script], check=True, timeout=60)
        try:
            until = time.monotonic() + 60
            while not os.path.exists(self.path("shown")) and time.monotonic() < until:
                time.sleep(0.1)
            time.sleep(0.5)
            shown = subprocess.run([*tmux, "capture-pane", "-p"], stdout=subprocess.PIPE, check=True, timeout=60).stdout
            return [row.rstrip() for row in shown.decode().split("\n")[:4]]
        finally:
            subprocess.run([*tmux, "kill-server"], check=False, timeout=60)


if __name__ == "__main__":
    unittest.main()
