"""What a run takes: instructions, counted by valgrind, or time and memory."""
import os
import re
import shutil
import subprocess
import tempfile
import time


def is_there():
    return bool(shutil.which("valgrind"))


def called(report, names, caller=""):
    """For each of some names, which stand in those of functions, the instructions of these with all that they call, where one calls them in whose name `caller`
    stands."""
    found, numbers, here, there = {name: 0 for name in names}, {}, "", ""
    for line in report:
        told = re.match(r"(c?)fn=\((\d+)\)(?: (.*))?", line)
        if told:
            is_callee, number, text = told.groups()
            if text:
                numbers[number] = text
            here, there = (here, numbers[number]) if is_callee else (numbers[number], "")
        elif line.startswith("calls=") and there and caller in here:
            count = int(next(report).split()[1])
            for name in names:
                found[name] += count * (name in there)
    return found


def counted(words, link=None, within=(), cwd=None, status=0, caller="", err=subprocess.PIPE):
    """How many instructions a run takes that ends with this status, those of some functions of it with all that they call, where `caller` calls them, and what
    it wrote to standard error. `link` is what it reads, bytes or the path of a file. None of these functions calls itself."""
    with tempfile.TemporaryDirectory() as folder:
        log, out = os.path.join(folder, "log"), os.path.join(folder, "out")
        tool = ["valgrind", "--tool=callgrind", f"--callgrind-out-file={out}", f"--log-file={log}"]
        given = {"input": link} if isinstance(link, bytes) else {"stdin": open(link, "rb") if link else subprocess.DEVNULL}
        ran = subprocess.run([*tool, *words], stdout=subprocess.DEVNULL, stderr=err, check=False, cwd=cwd, **given)
        if link and not isinstance(link, bytes):
            given["stdin"].close()
        if ran.returncode != status:
            raise SystemExit(f"{words} ended with {ran.returncode}")
        with open(log, encoding="utf-8", errors="replace") as said:
            count = int(re.search(r"Collected : (\d+)", said.read()).group(1))
        parts = {}
        if within:
            with open(out, encoding="utf-8", errors="replace") as report:
                parts = called(report, within, caller)
    for name, part in parts.items():
        if not part:
            raise SystemExit(f"no function of the program is named {name}")
    return count, parts, ran.stderr


def timed(words, link=None, runs=3, status=0):
    """The least seconds of the clock of some runs that end with this status, the least of the processor, and the peak memory of one in bytes."""
    clock, processor, peak = [], [], 0
    for _ in range(runs):
        begun = time.perf_counter()
        with open(link or os.devnull, "rb") as given:
            child = subprocess.Popen(words, stdin=given, stdout=subprocess.DEVNULL, stderr=subprocess.DEVNULL)
            _, ended, used = os.wait4(child.pid, 0)
        clock.append(time.perf_counter() - begun)
        child.returncode = os.waitstatus_to_exitcode(ended)
        if child.returncode != status:
            raise SystemExit(f"{words} ended with {child.returncode}")
        processor.append(used.ru_utime + used.ru_stime)
        peak = max(peak, used.ru_maxrss * 1024)
    return min(clock), min(processor), peak
