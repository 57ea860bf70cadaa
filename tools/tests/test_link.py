"""Links made from texts and read back. The bytes are those of docs/FORMATS.md and of con_vtin's table in PROFILE.md."""
import os
import random
import tempfile
import unittest

import support
from conptylib import frames, linktext
from conptylib.base import ToolError


def made(text: str) -> bytes:
    return linktext.link_bytes(linktext.read_text(text))


def back(link: bytes) -> str:
    return "\n".join(linktext.link_text(frames.read_link(link, mirrored=True)))


class Making(unittest.TestCase):
    def test_frames(self):
        self.assertEqual(made("quiet\nresize 100x30\npaint\nhangup\n"), b"QR\x00\x64\x00\x1ePX")
        self.assertEqual(made("attach 100x30\ndetach"), b"A\x00\x64\x00\x1eD")
        self.assertEqual(made("# nothing\n\n  quiet 3  # three\n"), b"QQQ")
        self.assertEqual(made("hangup\nunread 42 00\n\nunread ff"), b"X\x42\x00\xff")

    def test_texts(self):
        self.assertEqual(made(r'type "ls -l\r"'), b"B\x00\x06ls -l\r")
        self.assertEqual(made(r'type "\\\"\n\t\e\0\u{20ac}"'), b'B\x00\x09\\"\n\t\x1b\x00\xe2\x82\xac')
        self.assertEqual(made('type "#" # and a comment'), b"B\x00\x01#")
        self.assertEqual(made(r'paste "a\nb\r\nc"'), b"B\x00\x05a\rb\rc")
        self.assertEqual(made('type "a" + key up + bytes 00ff'), b"B\x00\x06a\x1b[A\x00\xff")

    def test_keys(self):
        table = {
            "up": b"\x1b[A",
            "ctrl+c": b"\x03",
            "return": b"\r",
            "enter": b"\r",
            "tab": b"\t",
            "shift+tab": b"\x1b[Z",
            "escape": b"\x1b",
            "back": b"\x7f",
            "ctrl+back": b"\x08",
            "ctrl+space": b"\x00",
            "space": b" ",
            "f1": b"\x1bOP",
            "F4": b"\x1bOS",
            "f5": b"\x1b[15~",
            "f6": b"\x1b[17~",
            "f10": b"\x1b[21~",
            "f11": b"\x1b[23~",
            "f12": b"\x1b[24~",
            "alt+x": b"\x1bx",
            "alt+ctrl+c": b"\x1b\x03",
            "alt+return": b"\x1b\r",
            "shift+a": b"A",
            "delete": b"\x1b[3~",
            "pageup": b"\x1b[5~",
            "shift+up": b"\x1b[1;2A",
            "alt+left": b"\x1b[1;3D",
            "ctrl+home": b"\x1b[1;5H",
            "shift+alt+ctrl+end": b"\x1b[1;8F",
            "ctrl+f1": b"\x1b[1;5P",
            "shift+f12": b"\x1b[24;2~",
            "ctrl+delete": b"\x1b[3;5~",
            "+": b"+",
            "#": b"#",
            "ctrl+_": b"\x1f",
            "\u20ac": b"\xe2\x82\xac",
        }
        for name, spelled in table.items():
            with self.subTest(name):
                self.assertEqual(made(f"key {name}"), b"B\x00" + bytes([len(spelled)]) + spelled)

    def test_mouse(self):
        table = {
            "click 10,5": b"\x1b[<0;11;6M\x1b[<0;11;6m",
            "press right 0,0": b"\x1b[<2;1;1M",
            "release middle 3,4": b"\x1b[<1;4;5m",
            "wheel up 3,4": b"\x1b[<64;4;5M",
            "wheel down 3,4": b"\x1b[<65;4;5M",
            "move 1,2": b"\x1b[<35;2;3M",
            "drag left 1,2": b"\x1b[<32;2;3M",
            "click ctrl+right 1,2": b"\x1b[<18;2;3M\x1b[<18;2;3m",
            "move alt+shift 1,2": b"\x1b[<47;2;3M",
            "wheel shift+up 1,2": b"\x1b[<68;2;3M",
        }
        for name, spelled in table.items():
            with self.subTest(name):
                self.assertEqual(made(name), b"B\x00" + bytes([len(spelled)]) + spelled)
                self.assertEqual(back(made(name)), name)

    def test_long_things_are_split(self):
        found = frames.read_link(made('type "' + "a" * 5000 + '"')).frames
        self.assertEqual([len(frame.typed) for frame in found], [4096, 904])
        # 1,366 characters of three bytes have 4,098: the last that is whole in a frame ends at 4,095.
        found = frames.read_link(made('type "' + "\u20ac" * 1366 + '"')).frames
        self.assertEqual([len(frame.typed) for frame in found], [4095, 3])
        found = frames.read_link(made('type "' + "a" * 4094 + '" + key up')).frames
        self.assertEqual([frame.typed[-3:] for frame in found], [b"aaa", b"\x1b[A"])

    def test_errors(self):
        table = {
            "quiet\n\nkey ctr+c": "line 3: no such key: ctr+c",
            "key ctrl+i": "line 1: ctrl+i is the byte of tab: write that",
            "resize 0x25": "line 1: no size of 1x1 to 512x256: 0x25",
            "resize 513x1": "line 1: no size of 1x1 to 512x256: 513x1",
            "attach 513x1": "line 1: no size of 1x1 to 512x256: 513x1",
            "tipe": "line 1: no such thing: tipe",
            'type "a': 'line 1: a quote is not closed: "a',
            "type": "line 1: no text in quotes",
            r'type "\q"': r"line 1: no such escape: \q",
            r'type "\u{d800}"': r"line 1: no such character: \u{d800}",
            'type ""': "line 1: nothing is typed",
            "bytes 1b5": "line 1: no pairs of hexadecimal digits: 1b5",
            "click 3": "line 1: no place as 10,5: 3",
            "click rigth 3,4": "line 1: no such button: rigth",
            "wheel left 1,1": "line 1: no such direction: left",
            "hangup\nquiet": "line 2: nothing but `unread` comes behind a hangup",
            "key a b": "line 1: this is too much, or lacks a + before it: b",
            "quiet 0": "line 1: no number of 1 to 99999999: 0",
            "paint 2": "line 1: this is too much: 2",
            "click 32767,0": "line 1: no place of 0,0 to 32766,32766: 32767,0",
        }
        for text, words in table.items():
            with self.subTest(text), self.assertRaises(ToolError) as caught:
                made(text)
            self.assertEqual(str(caught.exception), words)


class ReadingBack(unittest.TestCase):
    def test_names(self):
        self.assertEqual(
            back(b"QQQQB\x00\x06ls\x1b[A\rPR\x00\x3c\x00\x0cX"),
            'quiet 4\ntype "ls" + key up + key return\npaint\nresize 60x12\nhangup',
        )
        self.assertEqual(back(b"A\0\x28\0\x0aQDX"), "attach 40x10\nquiet\ndetach\nhangup")
        self.assertEqual(back(b'B\x00\x05"\\\xc2\x85\x03'), r'type "\"\\\u{85}" + key ctrl+c')
        self.assertEqual(back(b"B\x00\x03\x1b[Z"), "key shift+tab")

    def test_escape_is_a_key_only_where_the_console_takes_it_as_one(self):
        self.assertEqual(back(b"B\x00\x01\x1bQ"), "key escape\nquiet")
        self.assertEqual(back(b"B\x00\x01\x1b"), "bytes 1b")
        self.assertEqual(back(b"B\x00\x01\x1bB\x00\x01a"), "bytes 1b\nbytes 61")
        self.assertEqual(back(b"B\x00\x02\x1b\x1bQ"), "key escape + key escape\nquiet")
        self.assertEqual(back(b"B\x00\x03\x1b\xc3\xa9"), 'key escape + type "\u00e9"')

    def test_bytes_without_a_name(self):
        table = {
            b"\x1bOA": "bytes 1b4f41",  # up, but not as its name is spelled
            b"\x1b[1;1A": "bytes 1b5b313b3141",  # likewise
            b"\x1b[P": "bytes 1b5b50",  # no key
            b"\xff\xc3": "bytes ffc3",  # no characters
            b"\xe2\x82a": 'bytes e282 + type "a"',
            b"\x1b[<0;0;1M": "bytes 1b5b3c303b303b314d",
            b"\x1b[\x01": "bytes 1b5b + key ctrl+a",
        }
        for typed, words in table.items():
            with self.subTest(typed):
                self.assertEqual(back(frames.Frame("B", typed).spelled()), words)

    def test_a_character_over_two_frames(self):
        self.assertEqual(back(b"B\x00\x02a\xc3B\x00\x02\xa9b"), 'type "a" + bytes c3\nbytes a9 + type "b"')

    def test_faults(self):
        table = {
            b"Qz": (1, "tag"),
            b"B\0\0": (0, "length"),
            b"QQB\x10\x01": (2, "length"),
            b"R\0\0\0\1": (0, "size"),
            b"B\0\5a": (0, "cut"),
            b"B\0": (0, "cut"),
            b"R\x02\x01\x00": (0, "cut"),
            b"R\x02\x01\x00\x01": (0, "size"),
            b"QR\0\1\1\1": (1, "size"),
        }
        for link, fault in table.items():
            with self.subTest(link):
                self.assertEqual(frames.read_link(link).fault, fault)
        for link in (b"A\0\x28\0\x0a", b"D"):
            self.assertEqual(frames.read_link(link).fault, (0, "tag"))
            self.assertIsNone(frames.read_link(link, mirrored=True).fault)
        self.assertEqual(frames.read_link(b"A\0\0\0\1", mirrored=True).fault, (0, "size"))
        self.assertEqual(frames.read_link(b"QXzz"), ([("Q", b"", (0, 0), 0), ("X", b"", (0, 0), 1)], None, b"zz"))

    def test_the_longest_link(self):
        # 4,093 frames of 4,099 bytes are 16,777,207: nine bytes are left.
        most = (b"B\x10\0" + b"a" * 4096) * 4093
        self.assertIsNone(frames.read_link(most + b"Q" * 9).fault)
        self.assertEqual(frames.read_link(most + b"Q" * 10).fault, (16_777_216, "too long"))
        self.assertEqual(frames.read_link(most + b"B\0\x09123456789").fault, (16_777_207, "too long"))
        self.assertEqual(frames.read_link(most + b"B\0\x091").fault, (16_777_207, "cut"))
        self.assertEqual(frames.read_link(most + b"B\0\0").fault, (16_777_207, "length"))

    def test_round_trips(self):
        draw = random.Random(5)
        for _ in range(400):
            link = b"".join(frame.spelled() for frame in random_frames(draw))
            self.assertEqual(made(back(link)), link)


def random_frames(draw: random.Random) -> list:
    """Frames of parts of sequences, so that whole, broken and cut ones come often."""
    parts = [
        b"\x1b",
        b"[",
        b"O",
        b"A",
        b"1;5",
        b"<0;1;1",
        b"M",
        b"m",
        b"~",
        b"15",
        b"\xc3",
        b"\xa9",
        b"\xf0\x9f",
        b"\x98\x80",
        b"a",
        b'"',
        b"\\",
        b"\x00",
        b"\x7f",
        b"\r",
        b"\n",
        b"\xff",
        b" ",
        b"\xe2\x80\xa8",
        b";" * 40,
    ]
    out = []
    for _ in range(draw.randrange(8)):
        tag = draw.choice("BBBBQRP")
        typed = b"".join(draw.choice(parts) for _ in range(draw.randrange(1, 9)))
        out.append(frames.Frame(tag, typed, (draw.randrange(1, 513), draw.randrange(1, 257))))
    return out + [frames.Frame("X")] * draw.randrange(2)


class Tool(unittest.TestCase):
    def test_help_says_what_it_is(self):
        self.assertIn(b"outside what is proved", support.tool("link.py", "--help").stdout)

    def test_examples(self):
        for name in ("shell", "ctrl_c", "editor", "mirror"):
            with open(support.example(name, "link"), "rb") as file:
                link = file.read()
            read = support.tool("link.py", "read", support.example(name, "link"))
            self.assertEqual((read.returncode, read.stderr), (0, b""))
            self.assertEqual(support.tool("link.py", "make", given=read.stdout).stdout, link)

    def test_faults_and_errors(self):
        ran = support.tool("link.py", "read", given=b"QB\0\0")
        self.assertEqual(
            (ran.returncode, ran.stdout, ran.stderr), (1, b"quiet\n", b"link.py: -: place 1, kind length\n")
        )
        ran = support.tool("link.py", "make", given=b"quiet\nquiet\nkey ctr+c\n")
        self.assertEqual((ran.returncode, ran.stdout, ran.stderr), (2, b"", b"link.py: line 3: no such key: ctr+c\n"))
        ran = support.tool("link.py", "make", given=b"key \x1b]0;a\x07")
        self.assertEqual(ran.stderr, b"link.py: line 1: no such key: \\u{1b}]0;a\\u{7}\n")
        with tempfile.TemporaryDirectory() as folder:
            path = os.path.join(folder, "none")
            self.assertEqual(
                support.tool("link.py", "read", path).stderr.decode(), f"link.py: {path}: No such file or directory\n"
            )


@support.needs_program
class WithTheProgram(unittest.TestCase):
    def test_keys_are_read_as_these_records(self):
        """Virtual-key code, unit and state of each key, by the table of con_vtin."""
        table = {
            "up": (0x26, 0, 0x100),
            "ctrl+c": (0x43, 3, 8),
            "return": (0x0D, 0x0D, 0),
            "alt+x": (0x58, 0x78, 2),
            "f1": (0x70, 0, 0),
            "f12": (0x7B, 0, 0),
            "ctrl+alt+shift+f5": (0x74, 0, 0x1A),
            "shift+left": (0x25, 0, 0x110),
            "delete": (0x2E, 0, 0x100),
            "ctrl+back": (0x08, 0x7F, 8),
            "A": (0x41, 0x41, 0x10),
            "ctrl+space": (0x20, 0, 8),
            "alt+back": (8, 8, 2),
        }
        calls = [["set-mode", 1, 0]] + [["read-input", 1, 2]] * len(table)
        link = made("quiet\n" + "".join(f"key {name}\nquiet\n" for name in table))
        ran = support.solo(support.one_client(calls), link)
        keys = [reply[1][0] for reply in support.replies(ran.err, "collect")]
        self.assertEqual(keys, [["key", True, 1, vk, 0, unit, state] for vk, unit, state in table.values()])

    def test_the_mouse_is_read_as_these_records(self):
        calls = [["set-mode", 1, 16]] + [["read-input", 1, 8]] * 3
        link = made("quiet\nclick right 10,5\nquiet\nwheel up 3,4\nquiet\nmove ctrl 1,0\nquiet\n")
        ran = support.solo(support.one_client(calls), link)
        got = [record for reply in support.replies(ran.err, "collect") for record in reply[1]]
        self.assertEqual(
            got,
            [
                ["mouse", 10, 5, 2, 0, 0],
                ["mouse", 10, 5, 0, 0, 0],
                ["mouse", 3, 4, 0x780000, 0, 4],
                ["mouse", 1, 0, 0, 8, 1],
            ],
        )

    def test_faults_are_told_as_the_program_tells_them(self):
        draw = random.Random(11)
        session = support.example("editor", "json")
        faults = 0
        for _ in range(25):
            link = b"".join(frame.spelled() for frame in random_frames(draw)) + draw.choice(
                [b"", b"z", b"B\0\0", b"B\x10\x01", b"R\0\0\0\0", b"R\x01"]
            )
            link = link[: draw.randrange(len(link) + 1)]
            fault = frames.read_link(link).fault
            last = support.base.run_program(support.PROGRAM, ["solo", session], link).err.decode().splitlines()[-1]
            faults += fault is not None
            self.assertEqual(last, f'["end",8,{fault.place},"{fault.kind}"]' if fault else '["end",0]')
        self.assertGreater(faults, 5)


if __name__ == "__main__":
    unittest.main()
