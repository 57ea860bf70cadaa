"""What the tests of the tools share."""
import json
import os
import subprocess
import sys
import tempfile
import unittest

TOOLS = os.path.dirname(os.path.dirname(os.path.abspath(__file__)))
EXAMPLES = os.path.join(os.path.dirname(TOOLS), "examples")
sys.path.insert(0, TOOLS)

from conptylib import base  # noqa: E402

PROGRAM = base.built_program()
NO_PROGRAM = "no program: set CONPTY, or build it by ./conpty"
needs_program = unittest.skipUnless(PROGRAM, NO_PROGRAM)


def example(name: str, kind: str) -> str:
    return os.path.join(EXAMPLES, f"{name}.{kind}")


def tool(name: str, *words: str, given: bytes = b"") -> subprocess.CompletedProcess:
    """A run of a tool, with the program that the tests use."""
    env = dict(os.environ, CONPTY=PROGRAM or "")
    return subprocess.run(
        [sys.executable, os.path.join(TOOLS, name), *words],
        input=given,
        env=env,
        timeout=120,
        stdout=subprocess.PIPE,
        stderr=subprocess.PIPE,
        check=False,
    )


def solo(session: dict, link: bytes) -> base.Ran:
    """A session by turns over a link."""
    with tempfile.TemporaryDirectory() as folder:
        path = os.path.join(folder, "session.json")
        with open(path, "w", encoding="utf-8") as file:
            json.dump(session, file)
        return base.run_program(PROGRAM, ["solo", path], link)


def one_client(calls: list, size=(80, 25)) -> dict:
    return {"version": 2, "size": list(size), "clients": [{"program": "t", "group": 1, "calls": calls}]}


def replies(report: bytes, name: str) -> list:
    """The replies to the events of a name, in order."""
    lines = [json.loads(line) for line in report.decode().splitlines()]
    return [line[3] for line in lines if line[1] == name]
