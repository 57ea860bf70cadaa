"""Sessions on a real terminal: attach.py in a pane of tmux. Screens are those that examples/README.md works out."""
import json
import os
import shlex
import shutil
import signal
import subprocess
import sys
import tempfile
import time
import unittest

import support
from conptylib import frames, linktext

PATIENCE = 60
SHELL_END = ["$ ls -l", "notes.txt", "$ exit"]


class Pane:
    """A pane of a tmux of its own, in which one tool runs."""

    def __init__(self, folder: str, width: int, height: int, *words: str, program: str):
        self.folder, self.socket = folder, os.path.join(folder, "tmux")
        tool = " ".join(map(shlex.quote, [sys.executable, os.path.join(support.TOOLS, "attach.py"), *words]))
        script = os.path.join(folder, "script")
        with open(script, "w", encoding="utf-8") as file:
            file.write(f"cd {shlex.quote(folder)}; export CONPTY={shlex.quote(program)}; stty -a > before\n")
            file.write(f"printf 'was here\\n'; sh -c {shlex.quote('echo $$ > pid; exec ' + tool)}; echo status $?\n")
            file.write("stty -a > after; echo over; exec sleep 300\n")
        self.tmux("-f", "/dev/null", "new-session", "-d", "-x", str(width), "-y", str(height), f"exec sh {script}")

    def tmux(self, *words: str) -> str:
        ran = subprocess.run(
            ["tmux", "-S", self.socket, *words],
            stdout=subprocess.PIPE,
            stderr=subprocess.STDOUT,
            check=False,
            timeout=PATIENCE,
        )
        return ran.stdout.decode()

    def rows(self) -> list:
        return [row.rstrip() for row in self.tmux("capture-pane", "-p").splitlines()]

    def type(self, *keys: str) -> None:
        self.tmux("send-keys", *keys)

    def wait(self, *rows: str) -> list:
        """Waits until the screen begins with these rows, and has nothing below them."""
        until = time.monotonic() + PATIENCE
        while time.monotonic() < until:
            seen = self.rows()
            if seen[: len(rows)] == list(rows) and not any(seen[len(rows) :]):
                return seen
            time.sleep(0.1)
        raise AssertionError(f"waited for {rows}, and there is {self.rows()}")

    def read(self, name: str) -> bytes:
        with open(os.path.join(self.folder, name), "rb") as file:
            return file.read()

    def wait_for_quiet(self) -> None:
        """Waits until a pause behind what was typed stands in the link that is kept."""
        until = time.monotonic() + PATIENCE
        while not self.read("link").endswith(b"Q"):
            if time.monotonic() > until:
                raise AssertionError(f"no quiet: {self.read('link')!r}")
            time.sleep(0.05)

    def wait_over(self, status: int, last: str) -> None:
        """Waits until the screen is the one from before with the tool's last words, and looks at the modes."""
        self.wait("was here", f"attach.py: status {status}, {last}", f"status {status}", "over")
        # The first line has the size, which is no mode.
        if self.read("before").splitlines()[1:] != self.read("after").splitlines()[1:]:
            raise AssertionError("the modes of the terminal are not restored")


@support.needs_program
@unittest.skipUnless(shutil.which("tmux"), "no tmux: install it")
class Attached(unittest.TestCase):
    def pane(self, width: int, height: int, *words: str, program: str = "") -> Pane:
        folder = tempfile.TemporaryDirectory()
        self.addCleanup(folder.cleanup)
        pane = Pane(folder.name, width, height, *words, program=program or support.PROGRAM)
        self.addCleanup(pane.tmux, "kill-server")
        return pane

    def test_shell(self):
        pane = self.pane(80, 25, support.example("shell", "json"), "--report", "report", "--record", "link")
        pane.wait("$")
        pane.type("ls -l", "Enter")
        pane.wait("$ ls -l", "notes.txt", "$")
        pane.wait_for_quiet()
        pane.type("exit", "Enter")
        pane.wait(*SHELL_END)
        pane.type("C-]")
        pane.wait_over(0, '["end",0]')
        lines = [json.loads(line) for line in pane.read("report").splitlines()]
        answers = [line[3][1] for line in lines if line[1] == "collect"]
        self.assertEqual(answers, ["0064006900720020002d006c000d000a", "0065007800690074000d000a"])
        link = pane.read("link")
        fed = b"".join(frame.typed for frame in frames.read_link(link).frames)
        self.assertEqual(fed, b"ls -l\rexit\r")
        self.assertIn("quiet", list(linktext.link_text(frames.read_link(link))))
        ran = support.base.run_program(support.PROGRAM, ["solo", support.example("shell", "json")], link)
        dump = support.base.run_program(support.PROGRAM, ["play", "80x25"], ran.out).err.decode().splitlines()
        self.assertEqual([row.strip("|").rstrip() for row in dump[1:4]], SHELL_END)

    def test_sizes(self):
        pane = self.pane(24, 4, support.example("editor", "json"), "--report", "report", "--record", "link")
        pane.wait(" notes.txt", "milk")
        pane.tmux("resize-window", "-x", "30", "-y", "6")
        pane.wait(" notes.txt", "milk", "", "", "", "q to leave")
        pane.type("q")
        pane.wait("$ edit notes.txt")
        pane.type("C-]")
        pane.wait_over(0, '["end",0]')
        link = frames.read_link(pane.read("link")).frames
        self.assertEqual([frame.size for frame in link if frame.tag == "R"], [(30, 6)])
        self.assertEqual(b"".join(frame.typed for frame in link), b"q")

    def test_escape_is_not_taken_with_what_comes_later(self):
        calls = [["set-mode", 1, 0], ["write", 2, "ready "], ["read-input", 1, 1], ["write", 2, "got it"]]
        with tempfile.NamedTemporaryFile("w", suffix=".json") as file:
            json.dump(support.one_client(calls), file)
            file.flush()
            pane = self.pane(80, 25, file.name, "--record", "link")
            pane.wait("ready")
            pane.type("Escape")
            pane.wait("ready got it")
        self.assertEqual(pane.read("link"), b"B\0\1\x1bQ")

    def test_a_signal_hangs_up(self):
        pane = self.pane(80, 25, support.example("shell", "json"), "--record", "link")
        pane.wait("$")
        os.kill(int(pane.read("pid")), signal.SIGTERM)
        pane.wait_over(143, '["end",0]')
        # The terminal has another size than the session.
        self.assertEqual(pane.read("link"), b"R\0\x50\0\x19X")

    def program(self, script: str) -> str:
        """A program of these lines, in place of the real one."""
        folder = tempfile.TemporaryDirectory()
        self.addCleanup(folder.cleanup)
        path = os.path.join(folder.name, "program")
        with open(path, "w", encoding="utf-8") as file:
            file.write("#!/bin/sh\n" + script)
        os.chmod(path, 0o755)
        return path

    def test_a_program_that_dies(self):
        program = self.program("printf '\\033[Hhalf a picture\\033[31m\\033[?25l'; sleep 1; kill -9 $$\n")
        pane = self.pane(80, 25, support.example("shell", "json"), program=program)
        pane.wait("half a picture")
        pane.wait_over(137, "no report")

    def test_a_program_that_does_not_end(self):
        program = self.program("printf '\\033[Hforever'; exec sleep 300\n")
        pane = self.pane(80, 25, support.example("shell", "json"), program=program)
        pane.wait("forever")
        pane.type("C-]")
        time.sleep(0.5)
        pane.wait("forever")
        pane.type("C-]")
        pane.wait_over(137, "no report")

    def test_the_mouse(self):
        calls = [["set-mode", 1, 16], ["write", 2, "ready "], ["read-input", 1, 1], ["write", 2, "clicked"]]
        with tempfile.NamedTemporaryFile("w", suffix=".json") as file:
            json.dump(support.one_client(calls), file)
            file.flush()
            pane = self.pane(80, 25, file.name, "--mouse", "--report", "report")
            pane.wait("ready")
            self.assertEqual(pane.tmux("display", "-p", "#{mouse_all_flag} #{mouse_sgr_flag}"), "1 1\n")
            pane.type("-l", "\x1b[<0;3;4M")
            pane.wait("ready clicked")
            pane.type("C-]")
            pane.wait_over(0, '["end",0]')
            self.assertEqual(pane.tmux("display", "-p", "#{mouse_all_flag} #{mouse_sgr_flag}"), "0 0\n")
        self.assertEqual(support.replies(pane.read("report"), "collect"), [["ok", [["mouse", 2, 3, 1, 0, 0]]]])

    def test_without_a_terminal(self):
        ran = support.tool("attach.py", support.example("shell", "json"))
        self.assertEqual((ran.returncode, ran.stderr), (2, b"attach.py: standard input and output are no terminal\n"))


if __name__ == "__main__":
    unittest.main()
