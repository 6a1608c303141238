#!/usr/bin/env python3
"""Runs each tool as a user who may start fewer threads than it asks for, and looks whether it does all the same.

usage: refused_threads.py [PROGRAM [RUNS]]

RUNS times (200 by default) one of the tools runs on eight ranks and four hosts over a fresh tree, whose widest directory has 300
files, as a user who may start none, one or two of the threads that it asks for. The limit is RLIMIT_NPROC, which the system asks of
an ordinary user alone: a user without processes if root starts this, else the user who starts it. A shim in front of pthread_create,
made by cc, counts the starts and those that the system refused. Status, output, notes and every path of the disk have to be as after a
run that nothing limited.

The last line counts the runs, the starts that were refused, and the runs that were wrong. It is a failure too if a limit refused none.
"""
import os
import resource
import shutil
import struct
import subprocess
import sys
import tempfile

from faults import make, state, tools

SHIM = r"""
#define _GNU_SOURCE
#include <dlfcn.h>
#include <pthread.h>
#include <stdatomic.h>
#include <sys/syscall.h>
#include <unistd.h>
static atomic_long started, refused;
static int (*theirs)(pthread_t *, const pthread_attr_t *, void *(*)(void *), void *);
__attribute__((constructor)) static void begin(void) { theirs = dlsym(RTLD_NEXT, "pthread_create"); }
int pthread_create(pthread_t *thread, const pthread_attr_t *how, void *(*run)(void *), void *with) {
    int why = theirs(thread, how, run, with);
    atomic_fetch_add(why ? &refused : &started, 1);
    return why;
}
/* The program ends by this call. */
void _exit(int status) {
    long counts[2] = {atomic_load(&started), atomic_load(&refused)};
    if (write(9, counts, sizeof counts) < 0) status = 99;
    for (;;) syscall(SYS_exit_group, status);
}
"""

USER = 54321 if os.getuid() == 0 else os.getuid()
SHARES = ["--ranks", "8", "--hosts", "4"]
WIDE = 300


def threads_of(user):
    """How many threads the user has now. One that only root starts programs for has none."""
    if user != os.getuid():
        return 0
    count = 0
    for number in filter(str.isdigit, os.listdir("/proc")):
        try:
            if os.stat(f"/proc/{number}").st_uid == user:
                count += len(os.listdir(f"/proc/{number}/task"))
        except OSError:
            continue
    return count


def fresh(top):
    """Makes the trees of faults.py with a wide directory in each, as the user's own."""
    shutil.rmtree(top, ignore_errors=True)
    os.mkdir(top)
    make(top, 0o755)
    for name, text in (("t", "new"), ("u", "old")):
        os.mkdir(f"{top}/{name}/wide")
        for number in range(WIDE):
            with open(f"{top}/{name}/wide/f{number}", "w", encoding="ascii") as file:
                file.write(text if number % 3 else "same")
            os.utime(f"{top}/{name}/wide/f{number}", (86400, 86400))
        for folder in (f"{top}/{name}/wide", f"{top}/{name}"):
            os.utime(folder, (86400, 86400))
    for folder, folders, files in os.walk(top):
        for name in (".", *folders, *files):
            os.chown(os.path.join(folder, name), USER, -1, follow_symlinks=False)


def words_of(top):
    """What is run, by a name: the words of faults.py, without its own ranks, on eight ranks and four hosts; and a made-up tree."""
    runs = {**tools(top), "dtest": ["dtest", "20000"]}
    # (a list is read on one thread)
    del runs["dwalk-input"]
    for name, words in runs.items():
        if "--ranks" in words:
            at = words.index("--ranks")
            words = words[:at] + words[at + 2:]
        runs[name] = [*words[:1], *SHARES, *words[1:]]
    return runs


def run(work, words, more):
    """Runs the program as the user, who may have so many more threads than its first, or any number.

    Answers status, output, notes and paths of the disk; and how many threads were started and refused.
    """
    with open(f"{work}/count", "w+b") as told:
        def begin():
            os.dup2(told.fileno(), 9)
            if more is not None:
                most = threads_of(USER) + (USER != os.getuid()) + more
                resource.setrlimit(resource.RLIMIT_NPROC, (most, most))
            os.setuid(USER)

        done = subprocess.run(
            [f"{work}/mfu", *words], env={**os.environ, "LD_PRELOAD": f"{work}/shim.so"}, stdin=subprocess.DEVNULL, capture_output=True,
            preexec_fn=begin, pass_fds=[9], cwd=work, check=False,
        )
        told.seek(0)
        counts = struct.unpack("ll", told.read(16) or bytes(16))
    return (done.returncode, done.stdout, done.stderr, state(f"{work}/tree")), counts


def main():
    program = os.path.abspath(sys.argv[1] if len(sys.argv) > 1 else os.path.join(os.path.dirname(__file__), "../crates/mfu/out/mfu"))
    runs = int(sys.argv[2]) if len(sys.argv) > 2 else 200
    work = os.path.realpath(tempfile.mkdtemp(prefix="threads"))
    os.chmod(work, 0o755)
    shutil.copy(program, f"{work}/mfu")
    os.chmod(f"{work}/mfu", 0o755)
    subprocess.run(["cc", "-shared", "-fPIC", "-O1", "-x", "c", "-", "-o", f"{work}/shim.so", "-ldl"], input=SHIM.encode(), check=True)
    top, tries = f"{work}/tree", [(tool, more) for tool in words_of("") for more in (0, 1, 2)]
    plain, refused, wrong = {}, dict.fromkeys((0, 1, 2), 0), 0
    for tool, words in words_of(top).items():
        fresh(top)
        plain[tool], (started, no_start) = run(work, words, None)
        print(f"{tool}: status {plain[tool][0]}, {started} threads started, {no_start} refused without a limit", flush=True)
    for number in range(runs):
        tool, more = tries[number % len(tries)]
        fresh(top)
        now, (_, no_start) = run(work, words_of(top)[tool], more)
        refused[more] += no_start
        if now != plain[tool]:
            wrong += 1
            print(f"WRONG: {tool} with {more} threads more: status {now[0]}, {now[2][:200]!r}")
    shutil.rmtree(work)
    print(f"runs: {runs} refused starts: {sum(refused.values())} wrong: {wrong}")
    sys.exit(wrong > 0 or (runs >= len(tries) and not all(refused.values())))


if __name__ == "__main__":
    main()
