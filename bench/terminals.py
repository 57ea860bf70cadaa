#!/usr/bin/env python3
"""Shows frames of `type` on real terminals, each in a window of its own, and tells which show what they should.

    terminals.py FOLDER [TERMINAL..]

Pixels that differ go to FOLDER. The picture of each frame is shown cell by cell, by places and whole attributes, from the dump that `play` gives, and then the
frame; both windows must have the same pixels, once the terminal says that it has read all, and pictures that differ must not have the same. Where they do not,
both are shown once more before that is told. The frames with all indices of 16 to 255 must have the colours of that table in them. Behind the frames of `type`
come the pictures of frames.py, each by all frames up to it. CONPTY may name another program than the one built here. It needs an X server (DISPLAY),
ImageMagick's import, and the terminals; one that is not installed is left out. Terminals in folders and on displays of their own may be tried side by side."""
import os, random, re, shutil, subprocess, sys, tempfile, time

sys.dont_write_bytecode = True

import dumps
import frames
import runs
from dumps import H, W

FONT = "DejaVu Sans Mono"
# Rows and columns, as `stty` tells them, and how often a frame is looked at before it differs.
SIZE, TIMES = f"{H} {W}", 2


def run(words, stdin):
    p = subprocess.run(words, input=stdin, capture_output=True)
    return p.stdout, p.stderr, p.returncode


def rgb(n):
    """The colour of an index of 16 to 255."""
    if n >= 232:
        v = 8 + 10 * (n - 232)
        return v, v, v
    steps = (0, 95, 135, 175, 215, 255)
    n -= 16
    return steps[n // 36], steps[n // 6 % 6], steps[n % 6]


def texts():
    out = {}
    t = ""
    for n in range(16, 256):
        t += f"\x1b[48;5;{n}m{'%-5d' % n if n % 3 else '     '}"
    out["backgrounds"] = t
    t = ""
    for n in range(16, 256):
        t += f"\x1b[38;5;{n}mooooo"
    out["foregrounds"] = t
    out["blocks"] = t.replace("o", "█")
    r = random.Random(1)
    t = ""
    for _ in range(1900):
        t += f"\x1b[38;5;{r.randrange(256)};48;5;{r.randrange(256)}m{chr(r.randrange(33, 127))}"
    out["both"] = t
    t = ""
    for n in (20, 46, 100, 196, 226, 240, 255):
        for code in ("", "1;", "4;", "7;", "1;4;7;"):
            t += f"\x1b[0;{code}38;5;{n}mfore\x1b[39mplain\x1b[0;{code}48;5;{n}mback\x1b[49mplain\x1b[0m "
    out["flags"] = t
    t = ""
    for n in range(16):
        t += f"\x1b[0;38;5;{n}mfore{n}\x1b[0;48;5;{n}mback{n}\x1b[0m {n} "
    out["first sixteen"] = t
    t = ""
    for n in (17, 52, 88, 124, 160, 196, 232, 250):
        t += f"\x1b[48;5;{n}m\x1b[K{n}\r\n\x1b[0m"
    t += "\x1b[15;10H\x1b[48;5;60m\x1b[1Jback"
    out["erased"] = t
    t = ""
    for n in range(16, 60):
        t += f"\x1b[38;5;{n}mline {n} \x1b[48;5;{n + 100}mand more\x1b[0m\r\n"
    t += "\x1b[5;1H\x1b[48;5;90m\x1b[3L\x1b[12;1H\x1b[48;5;28m\x1b[2M\x1b[20;10H\x1b[4@\x1b[21;1H\x1b[3P"
    out["moved"] = t
    t = ""
    for n in range(8):
        for m in range(8):
            t += f"\x1b[0;3{n};4{m}mab\x1b[1mc\x1b[9{m};10{n}md\x1b[4me\x1b[7mf"
    out["plain colours"] = t
    r = random.Random(7)
    t = ""
    for _ in range(700):
        k = r.randrange(6)
        if k == 0:
            t += f"\x1b[{r.choice(('0', '1', '22', '4', '24', '7', '27', '39', '49', '31', '97', '42', '103'))}m"
        elif k == 1:
            t += f"\x1b[{r.choice('34')}8;5;{r.randrange(256)}m"
        elif k == 2:
            t += f"\x1b[{r.randrange(1, 26)};{r.randrange(1, 81)}H"
        elif k == 3:
            t += r.choice(("\x1b[K", "\x1b[1K", "\x1b[3X", "\x1b[2L", "\x1b[2M", "\x1b[2P", "\x1b[2@", "\x1b[S", "\x1b[T"))
        else:
            t += "".join(chr(r.randrange(32, 127)) for _ in range(r.randrange(1, 30)))
    out["random"] = t
    t = "text without colours\r\n" * 20 + "\x1b[38;5;208mone line of them\x1b[0m\r\n" + "more\r\n" * 3
    out["lines"] = t
    return out


def near(n):
    """The nibble of an index's nearest colour."""
    if n >= 232:
        return (0, 8, 7, 15)[(n - 232) // 6]
    r, g, b = (n - 16) // 36, (n - 16) // 6 % 6, (n - 16) % 6
    return 4 * (r >= 3) + 2 * (g >= 3) + (b >= 3) + 8 * (5 in (r, g, b))


def spelled(dump):
    """The picture cell by cell."""
    rows, looks = dumps.cells(dump)
    out = "\x1b[0m\x1b[2J"
    for y in range(H):
        for x in range(W):
            word, fore, back = looks[y][x]
            codes = ["0"]
            if word & 0xFF != 0x07 or fore or back:
                c, bright = dumps.ansi(word & 15)
                if fore and bright > near(int(fore)) >> 3:
                    codes.append("1")
                codes.append(f"38;5;{fore}" if fore else str((90 if bright else 30) + c))
                c, bright = dumps.ansi(word >> 4 & 15)
                codes.append(f"48;5;{back}" if back else str((100 if bright else 40) + c))
            if word & 0x4000:
                codes.append("7")
            if word & 0x8000:
                codes.append("4")
            out += f"\x1b[{y + 1};{x + 1}H\x1b[{';'.join(codes)}m{rows[y][x]}"
    return out.encode()


# No terminal may show anything beside cells that one stream changes and another does not: scroll bars, the size while it changes, tabs that have a title.
QTERMINAL = """[General]
AskOnExit=false
HideTabBarWithOneTab=true
MenuVisible=false
SavePosOnExit=false
SaveSizeOnExit=false
ScrollbarPosition=0
ShowTerminalSizeHint=false
TabBarless=true
TerminalMargin=0
fontFamily=%s
fontSize=9
""" % FONT
FILES = {
    "config/qterminal.org/qterminal.ini": QTERMINAL,
    "tmux.conf": "set -g status off\nset -g default-terminal xterm-256color\n",
    "screenrc": "startup_message off\nautodetach off\nhardstatus off\nterm screen-256color\n",
}
# Each terminal gets its size, some of them late. What it answers to `CSI 6 n` comes behind all that it has read.
SHOW = f"""stty raw -echo min 0 time 100
for k in $(seq 100); do [ "$(stty size)" = '{SIZE}' ] && break; sleep 0.1; done
cd "$1"
stty size > size.txt
cat stream.bin
printf '\\033[6n'
for k in $(seq 12); do [ "$(dd bs=1 count=1 2>/dev/null)" = R ] && touch shown && break; done
sleep 300
"""


def terminals(folder):
    sh = ["sh", f"{folder}/show.sh", folder]
    xterm = ["xterm", "-geometry", "80x25+0+0", "-fa", FONT, "-fs", "9", "-bc", "-e"]
    konsole = ("TerminalColumns=80", "TerminalRows=25", "ScrollBarPosition=2", "HistoryMode=0", "HighlightScrolledLines=false", "ShowTerminalSizeHint=false")
    return {
        "xterm": xterm + sh,
        "urxvt": ["urxvt", "-geometry", "80x25+0+0", "-fn", f"xft:{FONT}:size=9", "+sb", "-e"] + sh,
        "st": ["st", "-g", "80x25+0+0", "-f", f"{FONT}:size=9", "-e"] + sh,
        "mlterm": ["mlterm", "--geometry=80x25+0+0", "--sbmod=none", "-e"] + sh,
        "pterm": ["pterm", "-geometry", "80x25+0+0", "-fn", f"client:{FONT} 9", "-sb-", "-e"] + sh,
        "kitty": ["kitty", "--config", "NONE", "-o", "remember_window_size=no", "-o", "initial_window_width=80c", "-o", "initial_window_height=25c",
                  "-o", "confirm_os_window_close=0", "-o", "cursor_blink_interval=0"] + sh,
        "alacritty": ["alacritty", "-o", "window.dimensions.columns=80", "-o", "window.dimensions.lines=25", "-e"] + sh,
        "konsole": ["konsole", "--separate", "--hide-menubar", "--hide-tabbar", *(word for one in konsole for word in ("-p", one)), "-e"] + sh,
        "xfce4-terminal": ["xfce4-terminal", "--disable-server", "--geometry=80x25+0+0", "--hide-menubar", "--hide-toolbar", "--hide-scrollbar", "-x"] + sh,
        "qterminal": ["qterminal", "--geometry", "648x436+0+0", "-e", " ".join(sh)],
        "tmux in xterm": xterm + ["tmux", "-f", f"{folder}/tmux.conf", "-S", f"{folder}/tmux", "new", *sh],
        "screen in xterm": xterm + ["screen", "-S", "frames", "-c", f"{folder}/screenrc"] + sh,
    }


def image():
    return subprocess.run(["import", "-silent", "-window", "root", "-depth", "8", "ppm:-"], capture_output=True, check=True).stdout


def settled(wanted):
    """The display's pixels once they are the wanted ones, or stay as they are for some looks."""
    last, looks = None, 0
    for _ in range(60):
        if looks == (4 if wanted is None else 12):
            break
        time.sleep(0.25)
        now = image()
        looks = looks + 1 if now == last else 0
        last = now
        if now == wanted and looks:
            break
    return last


def picture(words, folder, stream, wanted=None):
    """The pixels of a terminal that shows a stream, and its size in rows and columns; or nothing, and why."""
    with open(f"{folder}/stream.bin", "wb") as it:
        it.write(stream + b"\x1b[?25l")
    for name in ("size.txt", "shown"):
        if os.path.exists(f"{folder}/{name}"):
            os.remove(f"{folder}/{name}")
    env = dict(os.environ, TERM="xterm-256color", LC_ALL="C.UTF-8", LIBGL_ALWAYS_SOFTWARE="1")
    env.update(XDG_RUNTIME_DIR=folder, XDG_CONFIG_HOME=f"{folder}/config", SCREENDIR=f"{folder}/screens")
    # Else each would start a bus that stays.
    env["DBUS_SESSION_BUS_ADDRESS"] = f"unix:path={folder}/no-bus"
    env["NO_AT_BRIDGE"] = "1"
    env.pop("TMUX", None)
    with open(f"{folder}/log", "w", encoding="utf-8") as log:
        p = subprocess.Popen(words, env=env, stdout=subprocess.DEVNULL, stderr=log, start_new_session=True)
    try:
        for _ in range(600):
            if os.path.exists(f"{folder}/shown"):
                break
            if p.poll() is not None:
                return None, f"it ended with {p.returncode}"
            time.sleep(0.1)
        else:
            return None, "it is asked for the cursor's place, and says nothing for a minute"
        with open(f"{folder}/size.txt", encoding="utf-8") as it:
            return settled(wanted), it.read().strip()
    finally:
        # The server of a terminal in another one would go on without it.
        for end in (["tmux", "-S", f"{folder}/tmux", "kill-server"], ["screen", "-S", "frames", "-X", "quit"]):
            if end[0] in words:
                subprocess.run(end, env=env, capture_output=True, check=False)
        try:
            os.killpg(p.pid, 9)
        except OSError:
            pass
        p.wait()


def colours(image):
    head = re.match(rb"P6\s+(\d+)\s+(\d+)\s+255\s", image)
    data = image[head.end():]
    count = {}
    for i in range(0, len(data), 3):
        c = data[i:i + 3]
        count[c] = count.get(c, 0) + 1
    return count


def streams_to_show():
    """By its name a stream, and the bytes that show the same picture cell by cell."""
    for name, text in texts().items():
        frame, _, status = run([runs.PROGRAM, "type"], text.encode())
        assert status == 0
        yield name, (frame, spelled(frames.dump(frame)))
    with tempfile.TemporaryDirectory() as folder:
        stream, ends = frames.session(folder)
    for (name, _), end in zip(frames.PICTURES, ends):
        yield name, (stream[:end], spelled(frames.dump(stream[:end])))


def prepared(folder):
    """Writes what terminals read, and what runs in them."""
    for name, text in {**FILES, "show.sh": SHOW}.items():
        path = os.path.join(folder, name)
        os.makedirs(os.path.dirname(path), exist_ok=True)
        with open(path, "w", encoding="utf-8") as out:
            out.write(text)
    os.makedirs(f"{folder}/screens", mode=0o700, exist_ok=True)
    os.chmod(folder, 0o700)


def kept(folder, name, frame, **images):
    """Keeps pixels that differ."""
    for label, it in images.items():
        with open(f"{folder}/{name.replace(' ', '_')}.{frame.replace(' ', '_')}.{label}.ppm", "wb") as out:
            out.write(it)


def faults(name, words, folder, frame, stream, reference, seen):
    """What is otherwise than it should be with a frame on a terminal. `seen` has what its pictures looked like."""
    for _ in range(TIMES):
        wanted, size = picture(words, folder, reference)
        shown, again = picture(words, folder, stream, wanted) if wanted else (None, size)
        if wanted and shown == wanted and size == again == SIZE:
            break
    if not shown:
        return [f"{frame}: shows nothing, {again}"]
    found = [f"{frame}: a window of {size} and one of {again} in place of {SIZE}"] * ((size, again) != (SIZE, SIZE))
    # Cells that are filled to their edges may touch each other's edges, in another order: only their colours are looked at.
    if shown != wanted and frame != "blocks":
        found.append(f"{frame}: differs")
        kept(folder, name, frame, shown=shown, wanted=wanted)
    # Windows in which nothing is drawn yet are the same, too.
    if seen.setdefault(wanted, reference) != reference:
        found.append(f"{frame}: looks as another picture does")
    if frame in ("backgrounds", "blocks"):
        there = colours(shown)
        missing = [n for n in range(16, 256) if there.get(bytes(rgb(n)), 0) < 100]
        found += [f"{frame}: {len(missing)} colours of 240 are others, as {missing[0]}"] if missing else []
    return found


def main():
    folder, *only = sys.argv[1:]
    folder = os.path.abspath(folder)
    runs.needs_program()
    prepared(folder)
    streams = dict(streams_to_show())
    for name, words in terminals(folder).items():
        if shutil.which(words[0]) is None or only and name not in only:
            continue
        told, seen = [], {}
        for frame, (stream, reference) in streams.items():
            told += faults(name, words, folder, frame, stream, reference, seen)
            if "shows nothing" in "".join(told):
                break
        print(f"{name}: " + ("; ".join(told) or f"{len(streams)} frames the same, all 240 colours right"), flush=True)


if __name__ == "__main__":
    main()
