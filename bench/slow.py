#!/usr/bin/env python3
"""Times walks on a slow file system: each look and each open waits for a while.

usage: slow.py [PROGRAM [MICROSECONDS]]

A library in front of the C library makes each `statx` and each open wait for MICROSECONDS (2,000 by default) and do no work meanwhile. cc makes it. Two
trees are made in a temporary directory: a chain of 150 directories, in which only one thread has work at a time; and 40 directories with 50 files each.
The script walks the chain on one and on four threads, and the tree on one, four and 16 threads with 16 ranks. Each line has the median of five runs in
seconds, the processor seconds, the context switches, and the ratio to one thread. The script stops if two walks print different texts.
"""
import os
import resource
import statistics
import subprocess
import sys
import tempfile
import time

SOURCE = r"""
#define _GNU_SOURCE
#include <dlfcn.h>
#include <fcntl.h>
#include <stdarg.h>
#include <stdlib.h>
#include <sys/stat.h>
#include <time.h>
static struct timespec pause_of_a_call;
static int (*their_statx)(int, const char *, int, unsigned, struct statx *);
static int (*their_open)(const char *, int, ...), (*their_openat)(int, const char *, int, ...);
__attribute__((constructor)) static void begin(void) {
    long us = getenv("SLOW_US") ? atol(getenv("SLOW_US")) : 0;
    pause_of_a_call = (struct timespec){us / 1000000, us % 1000000 * 1000};
    their_statx = dlsym(RTLD_NEXT, "statx");
    their_open = dlsym(RTLD_NEXT, "open");
    their_openat = dlsym(RTLD_NEXT, "openat");
}
static void wait_a_while(void) { nanosleep(&pause_of_a_call, 0); }
int statx(int dir, const char *path, int flags, unsigned mask, struct statx *told) {
    wait_a_while();
    return their_statx(dir, path, flags, mask, told);
}
#define MODE va_list rest; va_start(rest, flags); int mode = va_arg(rest, int); va_end(rest)
int open(const char *path, int flags, ...) { MODE; wait_a_while(); return their_open(path, flags, mode); }
int open64(const char *path, int flags, ...) { MODE; wait_a_while(); return their_open(path, flags, mode); }
int openat(int dir, const char *path, int flags, ...) { MODE; wait_a_while(); return their_openat(dir, path, flags, mode); }
int openat64(int dir, const char *path, int flags, ...) { MODE; wait_a_while(); return their_openat(dir, path, flags, mode); }
"""
HERE = os.path.dirname(os.path.realpath(__file__))
ROUNDS = 5


def once(words, given):
    """The text, the seconds, the processor seconds and the context switches of a run."""
    before, start = resource.getrusage(resource.RUSAGE_CHILDREN), time.perf_counter()
    text = subprocess.run(words, env=given, stdin=subprocess.DEVNULL, stdout=subprocess.PIPE, check=True).stdout
    wall, after = time.perf_counter() - start, resource.getrusage(resource.RUSAGE_CHILDREN)
    spent = after.ru_utime + after.ru_stime - before.ru_utime - before.ru_stime
    return text, (wall, spent, after.ru_nvcsw + after.ru_nivcsw - before.ru_nvcsw - before.ru_nivcsw)


def measure(program, given, tree, ranks):
    """Prints a line for each number of threads."""
    one, whole = None, None
    for number, hosts in ranks:
        words = [program, "dwalk", "--ranks", str(number), "--hosts", str(hosts), tree]
        texts, runs = zip(*(once(words, given) for _ in range(ROUNDS)))
        wall, spent, switches = (statistics.median(column) for column in zip(*runs))
        one, whole = one or wall, whole or texts[0]
        if set(texts) != {whole}:
            sys.exit(f"WRONG: {' '.join(words)} prints another text")
        print(f"{os.path.basename(tree)}, {number} ranks, {hosts} threads: {wall:.2f} s, {wall / one:.2f} of one thread, "
              f"{spent:.3f} s of a processor, {switches:.0f} switches")  # fmt: skip


def main(program=None, microseconds="2000"):
    if program is None:
        subprocess.run([f"{HERE}/../mfu", "dwalk", "/dev/null"], stdout=subprocess.DEVNULL, check=True)
        program = f"{HERE}/../crates/mfu/out/mfu"
    with tempfile.TemporaryDirectory() as work:
        with open(f"{work}/slow.c", "w", encoding="ascii") as file:
            file.write(SOURCE)
        subprocess.run(["cc", "-O2", "-shared", "-fPIC", "-o", f"{work}/slow.so", f"{work}/slow.c", "-ldl"], check=True)
        os.makedirs(f"{work}/chain" + "/d" * 150)
        for folder in range(40):
            os.makedirs(f"{work}/tree/d{folder}")
            for name in range(50):
                os.close(os.open(f"{work}/tree/d{folder}/f{name}", os.O_CREAT | os.O_WRONLY))
        given = {**os.environ, "LD_PRELOAD": f"{work}/slow.so", "SLOW_US": microseconds}
        print(f"{os.cpu_count()} processors, load {os.getloadavg()[0]:.1f}, {microseconds} microseconds a call")
        measure(program, given, f"{work}/chain", [(1, 1), (4, 4)])
        measure(program, given, f"{work}/tree", [(16, 1), (16, 4), (16, 16)])


if __name__ == "__main__":
    main(*sys.argv[1:])
