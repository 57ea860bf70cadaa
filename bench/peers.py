#!/usr/bin/env python3
"""Other terminals without a display: how many instructions a byte they take of the texts, and what they show of a stream.

    peers.py [WxH]

Prints instructions a byte of each text for tmux and for the libraries libvterm and libtsm, each where it is installed: of the library's read of all bytes, and
of tmux's server with one pane in which a file is written, and nobody looks on. An empty text's instructions are taken off. It needs valgrind, and `cc` for
the libraries."""
import os
import re
import shutil
import subprocess
import sys
import tempfile
import time

sys.dont_write_bytecode = True

import counts
import make_input
import throughput

# A program that reads a stream from standard input and shows it on a library's screen. With a third word it prints the cursor and the cells, a line each.
FRONT = """
#include <stdio.h>
#include <stdlib.h>
static char piece[4096];
"""
VTERM = FRONT + """
#include <vterm.h>
static int number(VTermColor *c, int plain) { return VTERM_COLOR_IS_INDEXED(c) ? c->indexed.idx : plain; }
int main(int count, char **words)
{
    int w = atoi(words[1]), h = atoi(words[2]);
    VTerm *term = vterm_new(h, w);
    vterm_set_utf8(term, 1);
    VTermScreen *screen = vterm_obtain_screen(term);
    vterm_screen_enable_altscreen(screen, 1);
    vterm_screen_reset(screen, 1);
    for (size_t n; (n = fread(piece, 1, sizeof piece, stdin)) > 0;)
        vterm_input_write(term, piece, n);
    if (count < 4)
        return 0;
    VTermPos pos;
    vterm_state_get_cursorpos(vterm_obtain_state(term), &pos);
    printf("%d %d\\n", pos.col, pos.row);
    for (pos.row = 0; pos.row < h; pos.row++)
        for (pos.col = 0; pos.col < w; pos.col++) {
            VTermScreenCell cell;
            vterm_screen_get_cell(screen, pos, &cell);
            printf("%u %d %d %d %d\\n", cell.chars[0] ? cell.chars[0] : 32, number(&cell.fg, 7), number(&cell.bg, 0),
                   cell.attrs.reverse, cell.attrs.underline != 0);
        }
}
"""
TSM = FRONT + """
#include <libtsm.h>
#include <string.h>
static int width, wanted;
static void written(struct tsm_vte *vte, const char *bytes, size_t length, void *data) {}
static int drawn(struct tsm_screen *s, uint64_t id, const uint32_t *ch, size_t len, unsigned w, unsigned x, unsigned y, const struct tsm_screen_attr *a,
                 tsm_age_t age, void *data)
{
    int fore = a->fccode < 0 || a->fccode > 15 ? 7 : a->fccode, back = a->bccode < 0 || a->bccode > 15 ? 0 : a->bccode;
    printf("%u %d %d %d %d\\n", len ? ch[0] : 32, fore, back, a->inverse, a->underline);
    return 0;
}
int main(int count, char **words)
{
    struct tsm_screen *screen;
    struct tsm_vte *vte;
    if (tsm_screen_new(&screen, NULL, NULL) || tsm_vte_new(&vte, screen, written, NULL, NULL, NULL) || tsm_screen_resize(screen, atoi(words[1]), atoi(words[2])))
        return 1;
    for (size_t n; (n = fread(piece, 1, sizeof piece, stdin)) > 0;)
        tsm_vte_input(vte, piece, n);
    if (count < 4)
        return 0;
    printf("%u %u\\n", tsm_screen_get_cursor_x(screen), tsm_screen_get_cursor_y(screen));
    tsm_screen_set_flags(screen, TSM_SCREEN_HIDE_CURSOR);
    tsm_screen_draw(screen, drawn, NULL);
}
"""
LIBRARIES = {"libvterm": (VTERM, "-lvterm"), "libtsm": (TSM, "-ltsm")}


def is_installed(name):
    return bool(shutil.which(name))


def built(folder):
    """The programs over the libraries that are installed."""
    found = {}
    for name, (text, library) in LIBRARIES.items():
        path = os.path.join(folder, name)
        words = ["cc", "-O2", "-x", "c", "-", "-o", path, library]
        if is_installed("cc") and subprocess.run(words, input=text, text=True, capture_output=True, check=False).returncode == 0:
            found[name] = path
    return found


def library_count(program, size, name):
    return counts.counted([program, *size.split("x")], name)[0]


def tmux(folder, *words, **how):
    return subprocess.run(["tmux", "-f", "/dev/null", "-S", os.path.join(folder, "tmux"), *words], capture_output=True, text=True, check=False, **how)


def tmux_count(size, name):
    """The instructions of tmux's server from its start to the end of its only pane, in which a file was written."""
    width, height = size.split("x")
    with tempfile.TemporaryDirectory() as folder:
        log = os.path.join(folder, "log")
        tool = ["valgrind", "--tool=callgrind", "--trace-children=no", f"--callgrind-out-file={folder}/out.%p", f"--log-file={log}.%p"]
        server = subprocess.Popen(
            [*tool, "tmux", "-f", "/dev/null", "-S", os.path.join(folder, "tmux"), "-D"], stdout=subprocess.DEVNULL, stderr=subprocess.DEVNULL, env={**os.environ, "TMUX": "", "TERM": "xterm"},
        )
        for _ in range(300):
            if os.path.exists(os.path.join(folder, "tmux")):
                break
            time.sleep(0.1)
        tmux(folder, "new-session", "-d", "-x", width, "-y", height, f"stty raw; cat {name}; stty sane; tmux -S {folder}/tmux wait-for -S shown; sleep 100")
        tmux(folder, "wait-for", "shown", timeout=100)
        tmux(folder, "kill-server")
        try:
            server.wait(20)
        finally:
            server.kill()
        with open(f"{log}.{server.pid}", encoding="utf-8") as said:
            return int(re.search(r"Collected : (\d+)", said.read()).group(1))


def counters(folder):
    """By the name of a peer, what counts the instructions of a file in a window of a size."""
    found = {name: lambda size, text, program=program: library_count(program, size, text) for name, program in built(folder).items()}
    if is_installed("tmux"):
        found["tmux"] = tmux_count
    return found


def a_byte(count, kind, size, folder, length=throughput.SHORT):
    text, none = (throughput.made(folder, kind, n) for n in (length, 0))
    return (count(size, text) - count(size, none)) / length


def main():
    size = sys.argv[1] if sys.argv[1:] else "80x25"
    with tempfile.TemporaryDirectory() as folder:
        found = counters(folder)
        print(f"{size:12}" + "".join(f"{name:>10}" for name in found))
        for kind in make_input.KINDS:
            print(f"{kind:12}" + "".join(f"{a_byte(count, kind, size, folder):10.1f}" for count in found.values()), flush=True)


if __name__ == "__main__":
    main()
