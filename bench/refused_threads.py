#!/usr/bin/env python3
"""Sessions by threads where the system makes n threads and no more, for each n from 0 until a run is refused none.

    refused_threads.py [NAME..]   the examples, each over its link, over an empty one, and over one that says nothing

Where a thread is refused nothing has begun: the run ends with status 9, its report is the last line alone, and it wrote nothing. Where none is, it ends
with status 0. The thread is refused in three ways: by a `pthread_create` that makes n threads and no more, by a limit on the processes of a user other
than root, whom the caller has to be allowed to become, and by a limit on memory, which refuses other things too: there a run ends with status 9 and the
last line or a part of the report, or with status 0 and the last line, or the program is not loaded. Each run has 20 seconds.

It prints a line for each kind of end, and ends with 1 where a run ended otherwise or not at all."""
import os
import resource
import shutil
import subprocess
import sys
import tempfile

import examples
from runs import PROGRAM

MOST = 200
SECONDS = 20
NOBODY = 65534
END = b'["end",9]\n'
SHIM = """
#define _GNU_SOURCE
#include <dlfcn.h>
#include <errno.h>
#include <fcntl.h>
#include <pthread.h>
#include <stdlib.h>
#include <unistd.h>

static long count;

/* Makes as many threads as THREADS says, and no more. A file is the mark of one that was refused. */
int pthread_create(pthread_t *thread, const pthread_attr_t *attributes, void *(*start)(void *), void *argument)
{
    static int (*real)(pthread_t *, const pthread_attr_t *, void *(*)(void *), void *);
    if (!real)
        real = dlsym(RTLD_NEXT, "pthread_create");
    if (__atomic_add_fetch(&count, 1, __ATOMIC_SEQ_CST) <= atol(getenv("THREADS")))
        return real(thread, attributes, start, argument);
    close(open(getenv("MARK"), O_WRONLY | O_CREAT, 0600));
    return EAGAIN;
}
"""


def run(program, name, link, limit=None, environment=None):
    """A run, or None where it did not end in time. The link is a file, or what was opened for reading; none is an empty one."""
    given = open(link, "rb") if isinstance(link, str) else link or subprocess.DEVNULL
    try:
        return subprocess.run(
            [program, "run", name], stdin=given, capture_output=True, check=False, timeout=SECONDS, preexec_fn=limit, env=environment or {}
        )
    except subprocess.TimeoutExpired:
        return None
    finally:
        if isinstance(link, str):
            given.close()


def is_refused(ran):
    return ran and (ran.returncode, ran.stdout, ran.stderr) == (9, b"", END)


def is_whole(ran):
    return ran and ran.returncode == 0 and ran.stderr.endswith(b'["end",0]\n')


def told(what, kinds, others):
    print(f"{what}: " + ", ".join(f"{count} {kind}" for kind, count in kinds.items()), flush=True)
    for other in others:
        print(f"OTHERWISE: {what}, {other}")
    return len(others)


def shown(ran):
    if not ran:
        return f"no end within {SECONDS} seconds"
    return f"status {ran.returncode}, {len(ran.stdout)} bytes, {ran.stderr[-200:].decode(errors='replace')!r}"


def by_count(shim, what, name, link):
    """The system makes n threads and no more. Also how many a run wants."""
    kinds, others, mark = {}, [], shim + ".mark"
    for n in range(MOST):
        if os.path.exists(mark):
            os.remove(mark)
        ran = run(PROGRAM, name, link, environment={"LD_PRELOAD": shim, "THREADS": str(n), "MARK": mark})
        refused = os.path.exists(mark)
        kind = "refused" if refused and is_refused(ran) else "whole" if not refused and is_whole(ran) else None
        kinds[kind or "otherwise"] = kinds.get(kind or "otherwise", 0) + 1
        if not kind:
            others.append(f"{n} threads: {shown(ran)}")
        if not refused:
            return told(f"{what}, n threads", kinds, others), n
    sys.exit(f"more than {MOST} threads")


def by_silence(shim, what, name, enough):
    """The same of fewer threads than are wanted, over a link that stays open."""
    kinds, others = {}, []
    silent, held = os.pipe()
    for n in range(enough):
        ran = run(PROGRAM, name, silent, environment={"LD_PRELOAD": shim, "THREADS": str(n), "MARK": shim + ".mark"})
        kind = "refused" if is_refused(ran) else "otherwise"
        kinds[kind] = kinds.get(kind, 0) + 1
        if kind == "otherwise":
            others.append(f"{n} threads: {shown(ran)}")
    os.close(silent)
    os.close(held)
    return told(f"{what}, n threads", kinds, others)


def by_processes(program, what, name, link):
    """The user may have so many processes, this one among them."""
    kinds, others = {}, []
    for n in range(9):

        def limit(n=n):
            resource.setrlimit(resource.RLIMIT_NPROC, (n, n))
            os.setgid(NOBODY)
            os.setuid(NOBODY)

        ran = run(program, name, link, limit)
        kind = "refused" if is_refused(ran) else "whole" if is_whole(ran) else "otherwise"
        kinds[kind] = kinds.get(kind, 0) + 1
        if kind == "otherwise":
            others.append(f"{n} processes: {shown(ran)}")
    return told(f"{what}, n processes", kinds, others)


def kind_by_memory(ran):
    if is_whole(ran):
        return "whole"
    if ran and (ran.returncode == 127 or ran.returncode < 0 and not ran.stderr):
        return "not loaded"
    if not ran or ran.returncode != 9:
        return None
    if ran.stderr.endswith(END):
        return "with status 9 and the last line"
    last = b"".join(ran.stderr.splitlines(keepends=True)[-1:])
    return None if last.startswith(b'["end",') and not END.startswith(last) else "with status 9 and a part of the report"


def by_memory(what, name, link):
    kinds, others = {}, []
    for size in range(4, 132, 4):

        def limit(size=size):
            resource.setrlimit(resource.RLIMIT_AS, (size << 20, size << 20))

        ran = run(PROGRAM, name, link, limit)
        kind = kind_by_memory(ran)
        kinds[kind or "otherwise"] = kinds.get(kind or "otherwise", 0) + 1
        if not kind:
            others.append(f"{size} MiB: {shown(ran)}")
    return told(f"{what}, 4 to 128 MiB", kinds, others)


def copied(folder, name):
    """A copy that a user other than root may read."""
    path = shutil.copy(name, folder)
    os.chmod(path, 0o755)
    return path


def main():
    if not os.access(PROGRAM, os.X_OK):
        sys.exit("build the program first: ./conpty type </dev/null >/dev/null")
    wrong = 0
    with tempfile.TemporaryDirectory() as folder:
        os.chmod(folder, 0o755)
        shim = os.path.join(folder, "shim.so")
        subprocess.run(["cc", "-shared", "-fPIC", "-O1", "-x", "c", "-", "-o", shim, "-ldl"], input=SHIM, text=True, check=True)
        program = copied(folder, PROGRAM)
        for name in sys.argv[1:] or examples.NAMES:
            session = copied(folder, examples.path(name, "json"))
            for link in (None, examples.path(name, "link")):
                what = f"{name}, {'its' if link else 'an empty'} link"
                otherwise, enough = by_count(shim, what, session, link)
                wrong += otherwise
                if os.getuid() == 0:
                    wrong += by_processes(program, what, session, link)
                wrong += by_memory(what, session, link)
            wrong += by_silence(shim, f"{name}, a link that says nothing", session, enough)
    sys.exit(wrong > 0)


main()
