"""The commands of tools/README.md, with what it says that they print."""
import os
import re
import shlex
import subprocess
import tempfile
import unittest

import support

TOP = os.path.dirname(support.TOOLS)


def commands() -> list:
    """Each command of the page, with the lines below it."""
    found = []
    with open(os.path.join(support.TOOLS, "README.md"), encoding="utf-8") as page:
        for line in page:
            told = re.match(r"    (\$ )?(.*)", line)
            if told and told.group(1):
                found.append((told.group(2), []))
            elif told and found and not told.group(2).startswith("python3"):
                found[-1][1].append(told.group(2))
    return found


@support.needs_program
class Page(unittest.TestCase):
    def test_commands_run_as_written(self):
        ran = 0
        with tempfile.TemporaryDirectory() as folder:
            for command, lines in commands():
                if "live" in command:
                    continue  # It needs a terminal: test_attach.py does the same in tmux.
                words = command.replace("/tmp/", folder + "/").replace("./conpty", shlex.quote(support.PROGRAM))
                done = subprocess.run(
                    ["sh", "-c", words],
                    cwd=TOP,
                    env=dict(os.environ, CONPTY=support.PROGRAM),
                    stdout=subprocess.PIPE,
                    stderr=subprocess.STDOUT,
                    timeout=120,
                    check=False,
                )
                with self.subTest(command):
                    self.assertEqual(done.stdout.decode().splitlines(), lines)
                ran += 1
        self.assertGreater(ran, 9)

    def test_each_tool_says_what_it_is(self):
        for name in sorted(os.listdir(support.TOOLS)):
            if name.endswith(".py"):
                with open(os.path.join(support.TOOLS, name), encoding="utf-8") as file:
                    self.assertIn("Outside what is proved.", "".join(file.readlines()[:3]))
                told = support.tool(name, "--help")
                self.assertEqual(told.returncode, 0)
                self.assertIn(b"outside what is proved", told.stdout)


if __name__ == "__main__":
    unittest.main()
