#!/usr/bin/env python3
"""What a round by turns costs where of many clients only one can act: instructions of an event, counted by valgrind.

    readers.py [READS]

16, 32 and 64 clients read one record at a time, READS in all (2,048 if it is not said), and the link has a frame for each record. So in each round one client
can act, and the others wait. What a read costs is the difference between a session of READS and one of half as many."""
import os
import sys
import tempfile
from concurrent.futures import ThreadPoolExecutor

sys.dont_write_bytecode = True

import counts
import hostile
import runs

CLIENTS = 16, 32, 64


def counted(clients, reads):
    """Instructions and events of a session."""
    each = reads // clients
    calls = [["read-input", 1, 1]] * each
    with tempfile.TemporaryDirectory() as folder:
        document, path = hostile.document(folder, "readers", hostile.session(calls, clients)), os.path.join(folder, "link")
        with open(path, "wb") as link:
            # Each byte is a record of a key that goes down, and one of it that comes up.
            link.write(b"Q" + hostile.typed(b"a") * (reads // 2))
        count, _, report = counts.counted([runs.PROGRAM, "solo", document], path)
    return count, report.count(b"\n") - 1


def measured(pool, reads):
    """For each number of clients the instructions of an event."""
    jobs = [(clients, n) for clients in CLIENTS for n in (reads, reads // 2)]
    found = dict(zip(jobs, pool.map(lambda job: counted(*job), jobs)))
    each = {}
    for clients in CLIENTS:
        (more, events), (few, before) = found[clients, reads], found[clients, reads // 2]
        each[clients] = (more - few) / (events - before)
    return each


def main():
    runs.needs_program()
    reads = int(sys.argv[1]) if sys.argv[1:] else 2_048
    with ThreadPoolExecutor(os.cpu_count()) as pool:
        each = measured(pool, reads)
    for clients, count in each.items():
        print(f"{clients:2} readers: {count:9,.0f} instructions an event, {count / each[CLIENTS[0]]:.2f} times those of {CLIENTS[0]}", flush=True)


if __name__ == "__main__":
    main()
