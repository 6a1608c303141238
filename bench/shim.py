#!/usr/bin/env python3
"""A shim in front of the C library, for the scripts that let one call of the program fail.

It tells each call that has to do with a regular file below a folder: `look` (statx by an open directory), `open`, `make` (an open that may
make the file), `read` (pread) and `write` (pwrite). One call of a kind, the AT-th, fails; or, before the AT-th read, another hand takes half
of its bytes from the file; or each write takes only half of the bytes that it is given. It is made by cc, and works with any number of threads.
"""
import os
import re
import subprocess

SOURCE = r"""
#define _GNU_SOURCE
#include <dlfcn.h>
#include <errno.h>
#include <fcntl.h>
#include <stdarg.h>
#include <stdatomic.h>
#include <stdio.h>
#include <stdlib.h>
#include <string.h>
#include <sys/stat.h>
#include <unistd.h>
static atomic_long calls;
static long at;
static int error;
static const char *kind, *top, *how;
static ssize_t (*their_pread)(int, void *, size_t, off_t), (*their_pwrite)(int, const void *, size_t, off_t);
static int (*their_open)(const char *, int, ...), (*their_openat)(int, const char *, int, ...);
static int (*their_statx)(int, const char *, int, unsigned, struct statx *);
static const char *given(const char *name, const char *otherwise) { return getenv(name) ? getenv(name) : otherwise; }
__attribute__((constructor)) static void begin(void) {
    their_pread = dlsym(RTLD_NEXT, "pread");
    their_pwrite = dlsym(RTLD_NEXT, "pwrite");
    their_open = dlsym(RTLD_NEXT, "open");
    their_openat = dlsym(RTLD_NEXT, "openat");
    their_statx = dlsym(RTLD_NEXT, "statx");
    kind = given("SHIM_KIND", "");
    how = given("SHIM_HOW", "fail");
    at = atol(given("SHIM_AT", "0"));
    error = atoi(given("SHIM_ERROR", "5"));
    top = given("SHIM_TOP", "/");
}
/* The path of a name in an open directory, as /proc/self/fd/N/NAME, or of a whole path; 0 where it is not below the top. */
static const char *whole(const char *path, char *into) {
    static const char fds[] = "/proc/self/fd/";
    const char *name = strncmp(path, fds, sizeof fds - 1) ? 0 : strchr(path + sizeof fds - 1, '/');
    if (name) {
        char folder[64];
        snprintf(folder, sizeof folder, "%.*s", (int)(name - path), path);
        ssize_t size = readlink(folder, into, 4000);
        if (size < 0) return 0;
        snprintf(into + size, 4097, "%s", name);
    } else {
        snprintf(into, 8192, "%s", path);
    }
    return strncmp(into, top, strlen(top)) ? 0 : into;
}
static const char *of_number(int file, char *into) {
    char link[64];
    snprintf(link, sizeof link, "/proc/self/fd/%d", file);
    ssize_t size = readlink(link, into, 8191);
    if (size < 0) return 0;
    into[size] = 0;
    return strncmp(into, top, strlen(top)) ? 0 : into;
}
/* Tells a call, and answers whether it is the one. */
static int is_it(const char *which, long size, const char *path) {
    char line[9000];
    int hit = !strcmp(which, kind) && atomic_fetch_add(&calls, 1) + 1 == at;
    int length = snprintf(line, sizeof line, "%s%s %ld %s%c", hit ? "!" : "", which, size, path, 0);
    if (write(9, line, length) != length) abort();
    return hit;
}
static int is_refused(const char *which, const char *path, int may_be_new) {
    char room[8192];
    struct stat told;
    const char *file = whole(path, room);
    if (!file || (!may_be_new && (lstat(file, &told) || !S_ISREG(told.st_mode)))) return 0;
    if (!is_it(which, 0, file) || strcmp(how, "fail")) return 0;
    errno = error;
    return 1;
}
ssize_t pread(int file, void *into, size_t size, off_t from) {
    char room[8192];
    const char *path = of_number(file, room);
    if (path && is_it("read", size, path)) {
        struct stat told;
        if (!strcmp(how, "fail")) { errno = error; return -1; }
        if (!strcmp(how, "shorten") && (fstat(file, &told) || truncate(path, told.st_size / 2))) abort();
    }
    return their_pread(file, into, size, from);
}
ssize_t pwrite(int file, const void *from, size_t size, off_t to) {
    char room[8192];
    const char *path = of_number(file, room);
    if (path && is_it("write", size, path) && !strcmp(how, "fail")) { errno = error; return -1; }
    return their_pwrite(file, from, path && !strcmp(how, "short") ? (size + 1) / 2 : size, to);
}
int open(const char *path, int flags, ...) {
    va_list more;
    va_start(more, flags);
    int mode = va_arg(more, int);
    va_end(more);
    return is_refused(flags & O_CREAT ? "make" : "open", path, flags & O_CREAT) ? -1 : their_open(path, flags, mode);
}
int openat(int folder, const char *path, int flags, ...) {
    va_list more;
    va_start(more, flags);
    int mode = va_arg(more, int);
    va_end(more);
    return is_refused(flags & O_CREAT ? "make" : "open", path, flags & O_CREAT) ? -1 : their_openat(folder, path, flags, mode);
}
/* (the walk looks at whole paths; the look before a file is opened goes by an open directory) */
int statx(int folder, const char *path, int flags, unsigned wanted, struct statx *into) {
    if (!strncmp(path, "/proc/self/fd/", 14) && is_refused("look", path, 0)) return -1;
    return their_statx(folder, path, flags, wanted, into);
}
"""


def build(folder):
    """Makes the shim in the folder, and answers its path."""
    path = os.path.join(folder, "shim.so")
    subprocess.run(["cc", "-shared", "-fPIC", "-O1", "-x", "c", "-", "-o", path, "-ldl"], input=SOURCE.encode(), check=True)
    return path


def run(shim, top, log, words, **how):
    """Runs the words, and answers status, output and notes, and each call: whether it is the one, its kind, size and path.

    KIND, AT, HOW (`fail`, `shorten` or `short`) and ERROR say what is done to which call.
    """
    with open(log, "wb") as told:
        os.dup2(told.fileno(), 9)
    env = {**os.environ, "LD_PRELOAD": shim, "SHIM_TOP": os.fsdecode(top), **{f"SHIM_{name}": str(value) for name, value in how.items()}}
    done = subprocess.run(words, env=env, stdin=subprocess.DEVNULL, capture_output=True, pass_fds=[9], timeout=600, check=False)
    os.close(9)
    with open(log, "rb") as told:
        lines = told.read().split(b"\0")[:-1]
    calls = [re.fullmatch(rb"(!?)(\w+) (\d+) (.*)", line, re.DOTALL).groups() for line in lines]
    return (done.returncode, done.stdout, done.stderr), [(bool(it), kind.decode(), int(size), path) for it, kind, size, path in calls]
