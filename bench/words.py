#!/usr/bin/env python3
"""What a long command line costs: seconds of the program that is called with many words, beside /bin/true, and what the words are answered with.

    words.py [WORDS]

80,000 and 160,000 words if it is not said. Most of the time is the system's, which copies them."""
import os
import resource
import subprocess
import sys
import time

sys.dont_write_bytecode = True

import runs


def more_room():
    """Words may take a quarter of the stack."""
    _, most = resource.getrlimit(resource.RLIMIT_STACK)
    resource.setrlimit(resource.RLIMIT_STACK, (most, most))


def taken(program, count, times=5):
    """The least seconds of some runs, and the status."""
    words, best = [program, *["w"] * count], None
    for _ in range(times):
        begun = time.perf_counter()
        ran = subprocess.run(words, stdin=subprocess.DEVNULL, stdout=subprocess.DEVNULL, stderr=subprocess.DEVNULL, preexec_fn=more_room, check=False)
        spent = time.perf_counter() - begun
        best = min(spent, best or spent)
    return best, ran.returncode


def main():
    runs.needs_program()
    most = int(sys.argv[1]) if sys.argv[1:] else 160_000
    for count in (most // 2, most):
        (here, status), (beside, _) = taken(runs.PROGRAM, count), taken("/bin/true", count)
        print(f"{count} words: {here:.3f} seconds, status {status}; /bin/true {beside:.3f}", flush=True)


if __name__ == "__main__":
    main()
