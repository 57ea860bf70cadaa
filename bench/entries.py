#!/usr/bin/env python3
"""What an entry of a history costs that has no text: bytes of memory, time and instructions, by turns and by threads.

    entries.py [BYTES]

The link is a Quiet in every byte, 4,194,304 of them if it is not said, and the one client waits in a read. So each byte is an entry, with its reply and its line
of the report. Memory is the peak beside that of a short link, by entry; time is that of the clock, and of the processor, from the program's start to its end;
instructions, where valgrind is there, are those of more entries beside fewer."""
import os
import sys
import tempfile

sys.dont_write_bytecode = True

import counts
import hostile
import runs

WAYS = "solo", "run"
FEW, MORE = 20_000, 60_000


def measured(way, size, times=2):
    """Bytes, microseconds of the clock and of the processor, and instructions, each by entry."""
    with tempfile.TemporaryDirectory() as folder:
        document = hostile.document(folder, "reader", hostile.session([["read", 1, 100]]))
        links = {n: hostile.written(folder, str(n), [b"Q" * n]) for n in (1, FEW, MORE, size)}
        words = [runs.PROGRAM, way, document]
        _, _, least = counts.timed(words, links[1], 1)
        clock, processor, peak = counts.timed(words, links[size], times)
        count = None
        if counts.is_there():
            count = (counts.counted(words, links[MORE])[0] - counts.counted(words, links[FEW])[0]) / (MORE - FEW)
    return (peak - least) / size, 1e6 * clock / size, 1e6 * processor / size, count


def main():
    runs.needs_program()
    size = int(sys.argv[1]) if sys.argv[1:] else 4 << 20
    for way in WAYS:
        memory, clock, processor, count = measured(way, size)
        line = f"{way:4} {size} entries: {memory:5.0f} bytes, {clock:.2f} microseconds of the clock, {processor:.2f} of the processor an entry"
        print(line + (f", {count:,.0f} instructions" if count else ""), flush=True)


if __name__ == "__main__":
    main()
