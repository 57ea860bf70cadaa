"""Reports compared and shown. The lines are written by hand, by docs/FORMATS.md."""
import os
import re
import tempfile
import unittest

import support
from conptylib import shown
from conptylib.base import ToolError
from conptylib.reports import read_report

SMALL = [
    '["t","quiet",[],["ok"]]',
    '["c1","write",[2,"00680069"],["ok",2]]',
    '["p","paint",[],["painted",65]]',
    '["end",0]',
]


def text(lines: list) -> bytes:
    return "".join(line + "\n" for line in lines).encode()


def words(*lines: str) -> list:
    """The arguments and the reply of each event of a report, in words."""
    report = read_report(text([*lines, '["end",0]']), "r")
    return [(arguments, reply) for _, arguments, reply in shown.shown_events(report.events)]


class Reading(unittest.TestCase):
    def test_wrong_lines(self):
        table = {
            '["c1","write",[2,"0068"],["ok", 2]]': "a space",
            '["c1","write",[2,"006A"],["ok",1]]': "a capital",
            '["c1","write",[2,"006"],["ok",1]]': "digits that are no unit",
            '["c1","write",[2,"0068"],["ok"]]': "no number",
            '["t","write",[2,"0068"],["ok",1]]': "an event of another actor",
            '["c0","exit",[0],["ok"]]': "no actor",
            '["c256","exit",[0],["ok"]]': "no actor",
            '["c1","exit",[true],["ok"]]': "no number",
            '["c1","exit",[0],["fail",7]]': "no code",
            '["c1","writes",[2,"0068"],["ok",1]]': "no event",
            '["c1","exit",[01],["ok"]]': "no JSON",
            '["p","paint",[],["ok"]]': "no length",
            "": "nothing",
            '["c1","collect",[],["ok",[["key",1,1,81,0,113,0]]]]': "a key that is neither up nor down",
        }
        for line, why in table.items():
            with self.subTest(why), self.assertRaises(ToolError) as caught:
                read_report(text([SMALL[0], line, '["end",0]']), "r")
            self.assertEqual(str(caught.exception), "r: line 2: no line of a report")

    def test_ends(self):
        self.assertEqual(read_report(b'["end",8,12,"length"]\n', "r").end, [8, 12, "length"])
        for lines, told in (
            (SMALL[:3], "line 4: the last line is missing"),
            ([*SMALL, SMALL[0]], "line 4: no line of a report"),
        ):
            with self.assertRaises(ToolError) as caught:
                read_report(text(lines), "r")
            self.assertEqual(str(caught.exception), f"r: {told}")
        with self.assertRaises(ToolError):
            read_report(b'["end",0]', "r")


class Showing(unittest.TestCase):
    def test_texts_have_no_controls(self):
        self.assertEqual(
            words('["c1","write",[2,"001b005b006d000d000a0085d83dde00d83d"],["ok",9]]'),
            [('2 "\\e[m\\r\\n\\u{85}\U0001f600\\u{d83d}"', ["ok 9"])],
        )

    def test_feeds_are_keys(self):
        fed = words(
            '["t","feed",["6c731b5b41"],["ok"]]',
            '["t","feed",["1b"],["ok"]]',
            '["t","quiet",[],["ok"]]',
            '["t","feed",["0d"],["ok"]]',
        )
        self.assertEqual([arguments for arguments, _ in fed], ['type "ls" + key up', "key escape", "", "key return"])

    def test_cells_are_rows(self):
        cells = "006100070062000200630002" + "fffd0007002000072500001f"
        line = f'["c1","rect-read",[2,[3,1,5,2]],["ok",[3,1,5,2],"{cells}"]]'
        self.assertEqual(
            words(line), [("2 [3,1,5,2]", ["ok [3,1,5,2]", "|abc| @4+2 0002", "|\ufffd \u2500| @5+1 001f"])]
        )
        self.assertEqual(words('["c1","rect-read",[2,[90,0,91,0]],["ok",[0,0,-1,-1],""]]')[0][1], ["ok [0,0,-1,-1]"])

    def test_records(self):
        keys = '["key",true,1,81,0,113,0],["key",false,2,38,3,0,264]'
        line = f'["c1","collect",[],["ok",[{keys},["mouse",10,5,1,0,4],["size",60,12],["focus",true]]]]'
        self.assertEqual(
            words(line)[0][1],
            [
                'ok [key down vk 81 "q", key up enhanced+ctrl+vk 38 repeat 2 scan 3, '
                "mouse 10,5 buttons 1 state 0x0 flags 4, size 60 12, focus true]"
            ],
        )

    def test_other_values(self):
        table = [
            ('["c1","rect-write",[2,[0,0,1,0],"00410042",7],["ok",[0,0,1,0]]]', '2 [0,0,1,0] "AB" 7', "ok [0,0,1,0]"),
            ('["c1","run-write-attrs",[2,0,0,"000700070002"],["ok",3]]', "2 0 0 words 0007*2 0002", "ok 3"),
            ('["c1","scroll",[2,[0,1,9,9],null,0,-1,32,7],["ok"]]', "2 [0,1,9,9] - 0 -1 32 7", "ok"),
            ('["c1","alias-list",["0061"],["ok",["0061003d0062","0063003d"]]]', '"a"', 'ok ["a=b", "c="]'),
            ('["c1","cursor-info",[2],["ok",25,true]]', "2", "ok 25 true"),
            ('["c2","processes",[],["ok",[1,2]]]', "", "ok 1 2"),
            ('["c1","collect",[],["fail",995]]', "", "fail 995, ctrl+C"),
            ('["c1","take-ctrl",[],["ctrl",2]]', "", "ctrl 2, close"),
        ]
        for line, arguments, reply in table:
            with self.subTest(line):
                self.assertEqual(words(line), [(arguments, [reply])])


class Tool(unittest.TestCase):
    def setUp(self):
        self.folder = tempfile.TemporaryDirectory()
        self.addCleanup(self.folder.cleanup)

    def file(self, name: str, lines: list) -> str:
        path = os.path.join(self.folder.name, name)
        with open(path, "wb") as out:
            out.write(text(lines))
        return path

    def compared(self, one: list, other: list) -> tuple:
        ran = support.tool("report.py", "compare", self.file("a", one), self.file("b", other))
        return ran.returncode, ran.stdout.decode().replace(self.folder.name + os.sep, ""), ran.stderr.decode()

    def test_compare(self):
        other_length = [line.replace("65", "99") for line in SMALL]
        self.assertEqual(self.compared(SMALL, other_length), (0, "the same 4 lines, but for lengths\n", ""))
        self.assertEqual(
            self.compared(SMALL, [*SMALL[:3], '["end",9]']), (1, 'line 4 differs\n  a: ["end",0]\n  b: ["end",9]\n', "")
        )
        self.assertEqual(
            self.compared(SMALL, [*SMALL[:2], SMALL[3]])[:2],
            (1, 'line 3 differs\n  a: ["p","paint",[],["painted"]]\n  b: ["end",0]\n'),
        )
        self.assertEqual(
            self.compared(SMALL, [SMALL[0], SMALL[1].replace("0068", "0048"), *SMALL[2:]])[:2],
            (
                1,
                'line 2 differs\n  a: ["c1","write",[2,"00680069"],["ok",2]]\n'
                '  b: ["c1","write",[2,"00480069"],["ok",2]]\n',
            ),
        )

    def test_what_is_no_report(self):
        status, out, err = self.compared(SMALL, ["[]"])
        self.assertEqual((status, out), (2, ""))
        self.assertRegex(err, r"^report\.py: .*b: line 1: no line of a report\n$")
        self.assertEqual(support.tool("report.py", "compare", self.file("a", SMALL), "/nowhere").returncode, 2)

    def test_show(self):
        ran = support.tool("report.py", "show", "-", given=text(SMALL))
        self.assertEqual(
            ran.stdout.decode(),
            '1  t   quiet          ok\n2  c1  write  2 "hi"  ok 2\n3  p   paint          painted 65\n'
            "end 0, all was done\n",
        )
        long = '["c1","write",[2,"' + "0061" * 60 + '"],["ok",60]]'
        ran = support.tool("report.py", "show", "-", given=text([long, SMALL[3]]))
        self.assertEqual(
            ran.stdout.decode(),
            f'1  c1  write  2 "{"a" * 60}"\n' + " " * (3 + 4 + 7 + 46) + "ok 60\nend 0, all was done\n",
        )

    def test_paths_are_shown_without_controls(self):
        ran = support.tool("report.py", "show", "-", given='["end",3,"a\\u001b\u0085\x7f"]\n'.encode())
        self.assertEqual(ran.stdout.decode(), "end 3, no session a\\e\\u{85}\\u{7f}\n")


@support.needs_program
class WithTheProgram(unittest.TestCase):
    def test_each_kind_of_event_is_read(self):
        """Every call once, so that none is missing in the table of events, and each kind of reply."""
        rect = [0, 0, 3, 1]
        calls = [
            ["set-mode", 2, 7],
            ["mode", 2],
            ["buffer-create", 3],
            ["open-out", 3],
            ["open-in", 3],
            ["close", 5],
            ["activate", 4],
            ["activate", 2],
            ["info", 2],
            ["cursor-info", 2],
            ["count", 1],
            ["flush", 1],
            ["duplicate", 2, 3],
            ["set-size", 2, 80, 30],
            ["set-cursor", 2, 1, 1],
            ["set-origin", 2, 0, 1],
            ["set-cursor-info", 2, 50, True],
            ["set-attr", 2, 10],
            ["title"],
            ["set-title", "a\u20acb"],
            ["title"],
            ["history-info"],
            ["history-list"],
            ["history-clear"],
            ["processes"],
            ["write", 2, "a\u001b[31mb\r\n"],
            ["rect-read", 2, rect],
            ["rect-write", 2, rect, "abcdefgh", 7],
            ["rect-write", 2, [0, 0, 1, 0], "ab", [7, 65535]],
            ["run-read-units", 2, 0, 0, 5],
            ["run-read-attrs", 2, 0, 0, 5],
            ["run-write-units", 2, 0, 0, "abc"],
            ["run-write-attrs", 2, 0, 0, [1, 2]],
            ["fill-units", 2, 0, 0, 5, 65],
            ["fill-attrs", 2, 0, 0, 5, 12],
            ["scroll", 2, rect, None, 0, -1, 32, 7],
            ["scroll", 2, rect, rect, 0, -1, 32, 7],
            [
                "write-input",
                1,
                [
                    ["key", True, 1, 65, 0, 97, 0],
                    ["mouse", -1, 2, 1, 0, 0],
                    ["size", 1, 1],
                    ["menu", 3],
                    ["focus", False],
                ],
            ],
            ["peek", 1, 9],
            ["read-input", 1, 9],
            ["set-history", 10, 4, 1],
            ["alias-add", "t", "x", "y"],
            ["alias-get", "t", "x"],
            ["alias-list", "t"],
            ["alias-remove", "t", "x"],
            ["alias-get", "t", "x"],
            ["ignore", True],
            ["ignore", False],
            ["handler-add", 0],
            ["signal", 0, 0],
            ["handler-remove", 0],
            ["read", 1, 5],
            ["read-with", 1, 9, "ab", 512],
            ["read", 9, 5],
            ["exit", 3],
        ]
        link = b"Q" * (len(calls) - 6) + b"B\0\2a\rR\0\x50\0\x1aPB\0\2c\t"
        ran = support.solo(support.one_client(calls), link)
        report = read_report(ran.err, "report")
        names = {event.name for event in report.events}
        asked = {call[0] for call in calls} - {"read", "read-input", "read-with"}
        self.assertEqual(asked - names, set())
        self.assertLessEqual(
            {
                "begin-read",
                "begin-read-input",
                "begin-read-with",
                "collect",
                "take-ctrl",
                "feed",
                "resize",
                "ask",
                "paint",
            },
            names,
        )
        self.assertEqual(report.end, [0])
        out = support.tool("report.py", "show", "-", given=ran.err)
        self.assertEqual((out.returncode, re.findall(rb"[\x00-\x09\x0b-\x1f\x7f]", out.stdout)), (0, []))
        self.assertIn('ok "a\u20acb"'.encode(), out.stdout)

    def test_a_report_compares_with_itself(self):
        with open(support.example("shell", "link"), "rb") as link:
            ran = support.base.run_program(support.PROGRAM, ["solo", support.example("shell", "json")], link.read())
        with tempfile.NamedTemporaryFile() as file:
            file.write(ran.err)
            file.flush()
            out = support.tool("report.py", "compare", file.name, "-", given=ran.err)
        self.assertEqual((out.returncode, out.stdout), (0, b"the same 30 lines, but for lengths\n"))


if __name__ == "__main__":
    unittest.main()
