#!/usr/bin/env python3
"""Refuses the program memory, one allocation at a time, and looks whether it says so and leaves all else alone.

usage: refusals.py [PROGRAM [TOOL ..]]

Each tool runs over a small tree once, which tells how often it asks for memory, and then once for each of these times, in which the
system has none. It is a shim in front of the C library's malloc, realloc and aligned_alloc that says so, made by cc.
Looked at is: the status is that of the undisturbed run, and then all is printed and left as by that run, or 3; with 3 nothing is on
standard output and standard error has the one line `out of memory`, or none where the words were not gathered yet; and then every path of the disk is as before, but the lists
that were to be written, the targets of a copy, and what was chosen for removal. Where a path can't be opened for want of memory in
the system's own library, the path is named as failed, with status 1.

The last line counts the tries and those that were wrong.
"""
import os
import shutil
import subprocess
import sys
import tempfile

from faults import make, state, tools

SHIM = r"""
#define _GNU_SOURCE
#include <dlfcn.h>
#include <errno.h>
#include <stdatomic.h>
#include <stdio.h>
#include <stdlib.h>
#include <sys/syscall.h>
#include <unistd.h>
static atomic_long asked, written;
static long refused;
static int is_between;
static void *(*their_malloc)(size_t), *(*their_realloc)(void *, size_t), *(*their_aligned)(size_t, size_t);
static int is_refused(void) {
    if (is_between && atomic_load(&written) != 1) return 0;
    return refused && atomic_fetch_add(&asked, 1) + 1 == refused;
}
__attribute__((constructor)) static void begin(void) {
    their_realloc = dlsym(RTLD_NEXT, "realloc");
    their_aligned = dlsym(RTLD_NEXT, "aligned_alloc");
    refused = atol(getenv("REFUSED"));
    is_between = getenv("BETWEEN") != 0;
}
/* Where it is asked for, the allocations count that come between the first and the second write to standard output. */
ssize_t write(int file, const void *bytes, size_t size) {
    if (file == 1) atomic_fetch_add(&written, 1);
    return syscall(SYS_write, file, bytes, size);
}
/* The program ends by this call. Where the allocations are counted, it tells how many there were. */
void _exit(int status) {
    long many = atomic_load(&asked);
    if (getenv("COUNTED") && write(9, &many, sizeof many) < 0) status = 99;
    for (;;) syscall(SYS_exit_group, status);
}
#define GIVE(call) if (is_refused()) { errno = ENOMEM; return 0; } return call
void *malloc(size_t size) { if (!their_malloc) their_malloc = dlsym(RTLD_NEXT, "malloc"); GIVE(their_malloc(size)); }
void *realloc(void *old, size_t size) { GIVE(their_realloc(old, size)); }
void *aligned_alloc(size_t align, size_t size) { GIVE(their_aligned(align, size)); }
"""


def run(program, words, shim, work, refused, counts=False):
    """Runs the program with one allocation refused, and answers status, output, notes and, where asked, the number of allocations."""
    told = os.open(f"{work}/count", os.O_RDWR | os.O_CREAT | os.O_TRUNC)
    os.dup2(told, 9)
    more = {"COUNTED": "1"} if counts else {}
    done = subprocess.run(
        [program, *words], env={**os.environ, "LD_PRELOAD": shim, "REFUSED": str(refused), **more}, capture_output=True, pass_fds=[9], check=False
    )
    os.close(told)
    with open(f"{work}/count", "rb") as file:
        return done.returncode, done.stdout, done.stderr, int.from_bytes(file.read(), sys.byteorder)


def may_change(tool, top, path):
    """Whether the path may be otherwise after want of memory."""
    changed = {"dcp": f"{top}/d/t", "dsync": f"{top}/u", "drm": f"{top}/t"}.get(tool.partition("-")[0])
    return path == f"{top}/o" or changed is not None and (path == changed or path.startswith(f"{changed}/"))


def wrong_in(tool, top, plain, now, first, is_gathering):
    """What is wrong with a run in which an allocation was refused, or None. While words are gathered no line is owed."""
    if now == plain:
        return None
    (status, out, notes), after = now
    if status == 1 and notes and plain[0][0] in (0, 1):
        return None if notes.startswith((b"failed", b"parent", b"not empty", b"dest failed")) else f"status 1 with {notes}"
    if status == 8 and notes.startswith(b"list fault"):
        return None
    if status == 4:
        return None if not notes else f"status 4 with {notes}"
    if status != 3:
        return f"status {status}"
    if out or not (notes == b"out of memory\n" or is_gathering and not notes):
        return f"status 3 with {out[:60]} and {notes}"
    differ = [one for one in {**first, **after} if first.get(one) != after.get(one) and not may_change(tool, top, one)]
    return f"on the disk differ {differ}" if differ else None


def main():
    program = os.path.abspath(sys.argv[1] if len(sys.argv) > 1 else os.path.join(os.path.dirname(__file__), "../crates/mfu/out/mfu"))
    work = os.path.realpath(tempfile.mkdtemp(prefix="refusals"))
    top, shim, tried, wrong, by_status = f"{work}/tree", f"{work}/shim.so", 0, 0, {}
    subprocess.run(["cc", "-shared", "-fPIC", "-O1", "-x", "c", "-", "-o", shim, "-ldl"], input=SHIM.encode(), check=True)

    def fresh():
        shutil.rmtree(top, ignore_errors=True)
        os.mkdir(top)
        make(top, 0o755)

    for tool, words in tools(top).items():
        if len(sys.argv) > 2 and tool not in sys.argv[2:]:
            continue
        fresh()
        first = state(top)
        *plain, count = run(program, words, shim, work, 10**9, True)
        plain = tuple(plain), state(top)
        print(f"{tool}: {count} allocations", flush=True)
        is_gathering, silent = True, 0
        for refused in range(1, count + 1):
            fresh()
            *now, _ = run(program, words, shim, work, refused)
            # (no refusal after the first one that had a line may be without one)
            is_gathering = is_gathering and now[0] == 3 and not now[2]
            silent += is_gathering
            fault = wrong_in(tool, top, plain, (tuple(now), state(top)), first, is_gathering)
            tried += 1
            by_status[now[0]] = by_status.get(now[0], 0) + 1
            if fault:
                wrong += 1
                print(f"WRONG: {tool}: allocation {refused}: {fault}")
        print(f"{tool}: {silent} without a line, the first ones, for {len(words)} words", flush=True)
    shutil.rmtree(work)
    print("statuses:", " ".join(f"{status}: {count}" for status, count in sorted(by_status.items())))
    print(f"tries: {tried} wrong: {wrong}")
    sys.exit(wrong > 0)


if __name__ == "__main__":
    main()
