"""The film of a session. Screens and reports are those that examples/README.md works out by hand."""
import html
import json
import os
import re
import shutil
import subprocess
import tempfile
import unittest

import support
from conptylib import terminal
from film import colour, style

SHELL_END = ["$ ls -l", "notes.txt", "$ ls -l *.txt", "", "", "", "", ""]
EDITOR = [" notes.txt", "milk", "", "", "", ""]
BROWSER = shutil.which("chromium") or shutil.which("chromium-browser") or shutil.which("google-chrome")


def film_in(page: str) -> dict:
    return json.loads(re.search('<script type="application/json" id="film">(.*?)</script>', page, re.S).group(1))


def screen(film: dict, step: int) -> list:
    """The rows of a picture as text, without spaces at their ends."""
    rows = [film["rows"][number] for number in film["steps"][step]["rows"]]
    return ["".join(text for _, text in row).rstrip() for row in rows]


def dump_of(width: int, height: int, text: str) -> str:
    played = terminal.Terminal(width, height)
    played.play(text.encode())
    return terminal.dump(played)


class Playing(unittest.TestCase):
    """By docs/PROFILE.md, con_term."""

    def test_a_wrap_is_pending_in_the_last_column(self):
        self.assertEqual(dump_of(3, 2, "abc"), "3x2 cursor 2,0\n|abc|\n|   |\n")
        self.assertEqual(dump_of(3, 2, "abcd"), "3x2 cursor 1,1\n|abc|\n|d  |\n")
        self.assertEqual(dump_of(3, 2, "abc\rd"), "3x2 cursor 1,0\n|dbc|\n|   |\n")
        self.assertEqual(dump_of(3, 2, "abc\x1b[mdefg"), "3x2 cursor 1,1\n|def|\n|g  |\n")

    def test_erasing_is_in_the_pen(self):
        self.assertEqual(dump_of(4, 1, "abcd\x1b[2G\x1b[1;2H\x1b[44m\x1b[K"), "4x1 cursor 1,0\n|a   |\n@0,1+3 0017\n")
        self.assertEqual(dump_of(4, 1, "abcd\x1b[1;3H\x1b[1K"), "4x1 cursor 2,0\n|   d|\n")
        self.assertEqual(dump_of(4, 2, "abcd\r\nef\x1b[1J"), "4x2 cursor 2,1\n|    |\n|    |\n")
        self.assertEqual(dump_of(4, 1, "abcd\x1b[H\x1b[2X"), "4x1 cursor 0,0\n|  cd|\n")

    def test_colours(self):
        self.assertEqual(dump_of(2, 1, "\x1b[32ma"), "2x1 cursor 1,0\n|a |\n@0,0+1 0002\n")
        self.assertEqual(dump_of(2, 1, "\x1b[1;7;4;31mab"), "2x1 cursor 1,0\n|ab|\n@0,0+2 c00c\n")
        # 196 is the brightest red of the cube, and its nearest colour is bright red.
        self.assertEqual(dump_of(2, 1, "\x1b[38;5;196;48;5;232ma"), "2x1 cursor 1,0\n|a |\n@0,0+1 000c f196 b232\n")
        self.assertEqual(dump_of(1, 1, "\x1b[38;2;1;2;3;42ma"), "1x1 cursor 0,0\n|a|\n@0,0+1 0027\n")

    def test_what_is_no_character_and_no_sequence(self):
        played = terminal.Terminal(6, 1)
        for part in (b"\xe2\x94", b"\x80\xff", b"\x1b[", b"31", b"\x1b]0;x\x07", b"a\x1b(B", b"\xf0\x9f\x98\x80"):
            played.play(part)
        self.assertEqual(terminal.dump(played), "6x1 cursor 5,0\n|\u2500\ufffda\ufffd\ufffd |\n")
        self.assertEqual(dump_of(2, 1, "\x1b[?25la"), "2x1 cursor hidden\n|a |\n")


class Colours(unittest.TestCase):
    def test_the_table_of_256(self):
        table = {16: "#000000", 21: "#0000ff", 196: "#ff0000", 208: "#ff8700", 231: "#ffffff", 232: "#080808"}
        self.assertEqual({index: colour(index) for index in table}, table)
        self.assertEqual(colour(255), "#eeeeee")

    def test_styles(self):
        attribute = terminal.Attribute
        self.assertEqual(style(attribute()), "color:#cccccc;background:#0c0c0c")
        self.assertEqual(style(attribute(0x4007)), "color:#0c0c0c;background:#cccccc")
        self.assertEqual(style(attribute(0x801F, 196)), "color:#ff0000;background:#0037da;text-decoration:underline")


@support.needs_program
class Films(unittest.TestCase):
    def setUp(self):
        self.folder = tempfile.TemporaryDirectory()
        self.addCleanup(self.folder.cleanup)

    def path(self, name: str, what: bytes) -> str:
        path = os.path.join(self.folder.name, name)
        with open(path, "wb") as file:
            file.write(what)
        return path

    def film(self, *words: str) -> str:
        ran = support.tool("film.py", *words, "-o", "-")
        self.assertEqual((ran.returncode, ran.stderr), (0, b""))
        return ran.stdout.decode()

    def test_shell(self):
        page = self.film(support.example("shell", "json"), support.example("shell", "link"))
        film = film_in(page)
        self.assertEqual(len(film["steps"]), 8)
        self.assertEqual(screen(film, 1)[:2], ["$", ""])
        self.assertEqual(screen(film, 6), SHELL_END)
        self.assertEqual(film["steps"][6]["cursor"], [0, 3])
        green = film["rows"][film["steps"][6]["rows"][1]][0]
        self.assertEqual(green[1], "notes.txt")
        self.assertIn(f"#screen .s{green[0]}{{color:#13a10e;background:#0c0c0c}}", page)
        self.assertEqual(
            [event[1:4] for event in film["steps"][3]["events"]],
            [["t", "feed", 'type " -l" + key return'], ["c1", "collect", ""], ["p", "paint", ""]],
        )
        self.assertEqual(film["steps"][7]["title"], "After the last picture: end 0, all was done")
        self.assertEqual(film["names"]["c1"], "c1 sh")

    def test_editor_grows(self):
        film = film_in(self.film(support.example("editor", "json"), support.example("editor", "link")))
        self.assertEqual([step["size"] for step in film["steps"]], [[24, 4]] * 3 + [[30, 6]] * 4)
        self.assertEqual(screen(film, 3), EDITOR)
        self.assertEqual(screen(film, 4), EDITOR[:5] + ["q to leave"])
        self.assertEqual(screen(film, 6), ["$ edit notes.txt"] + [""] * 5)

    def test_a_run_by_threads_that_was_kept(self):
        """The shell is one client, so that it ends with the same screen in whatever order its keys come."""
        session, link = support.example("shell", "json"), support.example("shell", "link")
        with open(link, "rb") as file:
            ran = support.base.run_program(support.PROGRAM, ["run", session], file.read())
        film = film_in(self.film(session, link, self.path("stream", ran.out), self.path("report", ran.err)))
        self.assertEqual(screen(film, len(film["steps"]) - 1), SHELL_END)

    def test_a_run_with_a_second_terminal_that_was_kept(self):
        session, link = support.example("mirror", "json"), support.example("mirror", "link")
        with open(link, "rb") as file:
            words = [os.path.abspath(support.PROGRAM), "mirror", session]
            ran = subprocess.run(words, stdin=file, capture_output=True, check=False, cwd=self.folder.name)
        film = film_in(self.film(session, link, self.path("stream", ran.stdout), self.path("report", ran.stderr)))
        self.assertEqual(screen(film, len(film["steps"]) - 1), ["fetching", "unpacking", "building a long name", "done"])

    def test_pictures_are_those_of_the_program(self):
        """Each picture, played by the program itself."""
        write = "\x1b[1;38;5;130m\u2588caf\u00e9\x1b[7m\x1b[48;5;20mab\x1b[0m\x1b[4mc\r\n\x1b[95md"
        write += "\x1b[10;70Hlong enough to wrap\x1b[2J"
        session = support.one_client([["set-mode", 2, 7]] + [["write", 2, write[:n]] for n in range(10, len(write), 9)])
        path = self.path("s.json", json.dumps(session).encode())
        ran = support.base.run_program(support.PROGRAM, ["solo", path])
        played, done = terminal.Terminal(80, 25), 0
        for reply in support.replies(ran.err, "paint"):
            played.play(ran.out[done : reply[1]])
            done = reply[1]
            dump = support.base.run_program(support.PROGRAM, ["play", "80x25"], ran.out[:done]).err.decode()
            self.assertEqual(terminal.dump(played), dump)

    def test_nothing_of_a_session_is_markup(self):
        hostile = "</script><script>alert(1)</script><!--{{film}}&amp;"
        session = support.one_client([["write", 2, hostile], ["title"]])
        session["clients"][0]["program"] = hostile
        path = self.path("<b>{{styles}}.json", json.dumps(session).encode())
        page = self.film(path, self.path("l", b"QQ"), "--title", "<i>{{film}}")
        self.assertEqual(len(re.findall("<script", page)), 2)
        self.assertNotIn("alert", page.replace("\\u003cscript\\u003ealert", ""))
        self.assertIn("<h1>" + html.escape("<i>{{film}}") + "</h1>", page)
        self.assertEqual(screen(film_in(page), 1)[0], hostile)

    def test_what_does_not_belong_together(self):
        session, link = support.example("shell", "json"), support.example("shell", "link")
        with open(link, "rb") as file:
            ran = support.base.run_program(support.PROGRAM, ["solo", session], file.read())
        stream, report = self.path("stream", ran.out), self.path("report", ran.err)
        ends = [(int(end), at) for at, line in enumerate(ran.err.splitlines(), 1) for end in re.findall(rb'\["painted",(\d+)\]', line)]
        end, line = ends[3]
        table = [
            (
                [session, link, self.path("short", ran.out[: end - 1]), report],
                f"line {line}: a picture up to byte {end}, and the stream has {end - 1}",
            ),
            (
                [support.example("ctrl_c", "json"), link, stream, report],
                "line 2: c1 makes set-mode, and in the session ignore",
            ),
            ([session, support.example("editor", "link"), stream, report], "line 13: the link has another frame here"),
            ([session, link, stream, self.path("none", b"[]\n")], "line 1: no line of a report"),
            ([link, link, stream, report], "no session; `conpty solo` says where its first fault is"),
        ]
        for words, told in table:
            with self.subTest(told):
                ran = support.tool("film.py", *words, "-o", self.path("page", b""))
                self.assertEqual(ran.returncode, 2)
                self.assertIn(told, ran.stderr.decode())

    @unittest.skipUnless(BROWSER, "no browser: install chromium")
    def test_the_keyboard_steps_through_it(self):
        page = self.film(support.example("shell", "json"), support.example("shell", "link"))
        keys = ["End", "ArrowLeft", "Home", "ArrowRight", "ArrowRight", "ArrowLeft"]
        press = "".join(
            f'document.dispatchEvent(new KeyboardEvent("keydown",{{key:"{key}"}}));seen.push(step+1);' for key in keys
        )
        script = f"<script>const seen=[];{press}document.title=seen.join();</script></body>"
        path = self.path("page.html", page.replace("</body>", script).encode())
        words = [BROWSER, "--headless=new", "--no-sandbox", "--disable-gpu", "--dump-dom", f"file://{path}"]
        dom = subprocess.run(
            words, stdout=subprocess.PIPE, stderr=subprocess.DEVNULL, timeout=100, check=False
        ).stdout.decode()
        self.assertIn("<title>7,6,1,2,3,2</title>", dom)
        self.assertIn("2 of 7, 80 by 25, cursor at 2, 0", dom)


if __name__ == "__main__":
    unittest.main()
