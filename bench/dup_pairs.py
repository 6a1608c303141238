#!/usr/bin/env python3
"""Runs ddup over random trees on the disk, and compares what it prints with what a plain program of its own finds.

usage: dup_pairs.py PROGRAM [TREES [SEED [FOLDER]]]

TREES trees (500 by default) are made one after another in FOLDER, a temporary directory by default. Their files have one of a few
contents, or one that differs from it in its last byte, its first one, or one beside the end of a piece that is read at once; sizes go
from 0 to 200,000, with 65,535, 65,536 and 65,537 among them. There are hard links, links, pipes, empty directories and odd names. A run
is `ddup` over the tree, or over some directories of it, on one or on four threads. Looked at is:

- the text, to the byte: the groups that sha256 of hashlib and a comparison of bytes give, in path order, and the numbers; the notes, to
  the byte; the status: 1 where there is a note, and else 0;
- no file is read that has no bytes, or a size that no other file has; each other one is read to its end at most twice;
- the tree is as before: no path, byte, text, permission or time of a change is another one.

Over one tree of ten the program runs again for each call that looks at a file, opens it or reads it: the call fails, and then `failed
read` and the path is the only new note, and the groups are those of the other files. For each read it runs once more, and the file loses
half of its bytes just before: then the file is named `changed`, and a path that is named beside it is a hard link of it. The shim of
`shim.py` does both.

The tree of seed S has the seeds S, S + 1, ..: `dup_pairs.py PROGRAM 1 SEED` makes one tree again. The last line counts the trees, the
groups, the runs with a failed or a shortened read, and what was wrong. The status is 1 if anything was.
"""
import collections
import hashlib
import os
import random
import re
import shutil
import stat
import subprocess
import sys
import tempfile

import shim

NAMES = [b"a", b"b", b"b-x", b"b.x", b"c", b" ", b"a b", b"-dash", b"*", b"'q\"", b".hidden", b"..x", b"back\\slash", b"x\ny", b"tab\t",
         "\u00e9\u4e2d".encode(), b"\x7f", b"y" * 255]  # fmt: skip
SIZES = [0, 1, 2, 100, 65535, 65536, 65537, 131072, 200000]
KINDS = ("look", "open", "read")


def some_content(draw, contents):
    """One of the contents, or one that differs from it in one byte."""
    content = draw.choice(contents)
    if not content or draw.randrange(100) < 60:
        return content
    at = draw.choice([len(content) - 1, 0, min(len(content) - 1, 65535), min(len(content) - 1, 65536)])
    return content[:at] + bytes([content[at] ^ 1]) + content[at + 1 :]


def fill(draw, folder, depth, contents, files):
    """Puts entries with names of their own into a folder."""
    names = draw.sample(NAMES, draw.choice([1, 2, 3, 5, 8] if depth < 2 else [0, 1, 2, 3]))
    for name in names + ([b"\xff"] if draw.randrange(40) == 0 else []):
        path = os.path.join(folder, name)
        kind = draw.choices("dfhlp", [30 if depth < 4 else 0, 50, 10 if files else 0, 8, 2])[0]
        if kind == "d":
            os.mkdir(path)
            fill(draw, path, depth + 1, contents, files)
        elif kind == "f":
            with open(path, "wb") as file:
                file.write(some_content(draw, contents))
            files.append(path)
        elif kind == "h":
            os.link(draw.choice(files), path)
        elif kind == "l":
            os.symlink(draw.choice(files or [b"absent"]), path)
        else:
            os.mkfifo(path)


def make(draw, top):
    os.mkdir(top)
    contents = [draw.randbytes(draw.choice(SIZES)) for _ in range(draw.choice([1, 2, 3]))]
    contents += [content[: len(content) // 2] * 2 for content in contents[:1]]
    for number in range(draw.randrange(2, 5)):
        os.mkdir(os.path.join(top, b"d%d" % number))
    files = []
    for name in sorted(os.listdir(top)):
        fill(draw, os.path.join(top, name), 0, contents, files)
    fill(draw, top, 3, contents, files)


def state(top):
    """All paths below the top, with kinds, permissions, times of changes, inodes, and bytes or texts."""
    found = {}
    for folder, folders, files in os.walk(top):
        for path in [folder, *(os.path.join(folder, name) for name in (*folders, *files))]:
            told = os.lstat(path)
            held = None
            if stat.S_ISLNK(told.st_mode):
                held = os.readlink(path)
            elif stat.S_ISREG(told.st_mode):
                with open(path, "rb") as file:
                    held = file.read()
            found[path] = told.st_mode, told.st_ino, told.st_mtime_ns, held
    return found


def is_text(name):
    try:
        name.decode()
    except UnicodeDecodeError:
        return False
    return True


def in_order(path):
    """Path order: `/` before every other byte."""
    return [0 if byte == 47 else byte + 1 for byte in path]


def escaped(path):
    return re.sub(rb"[\x00-\x1f\\\x7f]", lambda found: b"\\x%02X" % found[0][0], path)


def walked(roots):
    """The files at and below the roots with their bytes, and the notes of the walk: names and texts of links that are not UTF-8."""
    files, notes = {}, set()
    waiting = list(roots)
    while waiting:
        path = waiting.pop()
        told = os.lstat(path)
        if stat.S_ISDIR(told.st_mode):
            names = os.listdir(path)
            waiting += [os.path.join(path, name) for name in names if is_text(name)]
            if odd := sum(not is_text(name) for name in names):
                notes.add((path, b"unnamed " + escaped(path) + b" %d" % odd))
        elif stat.S_ISREG(told.st_mode):
            with open(path, "rb") as file:
                files[path] = file.read()
        elif stat.S_ISLNK(told.st_mode) and not is_text(os.readlink(path)):
            notes.add((path, b"failed stat " + escaped(path)))
    return files, notes


def expected(files, walk_notes, failed, changed):
    """The text and the notes of a run in which these reads failed or found the file changed."""
    divided = collections.defaultdict(list)
    for path in sorted(files, key=in_order):
        if path not in failed and path not in changed:
            divided[files[path]].append(path)
    groups = [(content, paths) for content, paths in divided.items() if len(paths) > 1]
    out = b""
    for content, paths in groups:
        out += b"group %d %d %s\n" % (len(content), len(paths), hashlib.sha256(content).hexdigest().encode())
        out += b"".join(escaped(path) + b"\n" for path in paths)
    lines = {(path, b"failed read " + escaped(path)) for path in failed} | {(path, b"changed " + escaped(path)) for path in changed}
    lines |= walk_notes
    extra = sum(len(content) * (len(paths) - 1) for content, paths in groups)
    out += b"groups %d files %d extra_bytes %d failed %d\n" % (len(groups), sum(len(paths) for _, paths in groups), extra, len(lines))
    return out, b"".join(line + b"\n" for _, line in sorted(lines, key=lambda line: in_order(line[0])))


class Trial:
    """A tree, what ddup is asked of it, and what was found wrong."""

    def __init__(self, program, made, work, seed):
        self.draw = random.Random(seed)
        self.shim, self.top, self.log = made, os.path.join(work, b"t"), os.path.join(work, b"log")
        make(self.draw, self.top)
        self.before = state(self.top)
        roots = [self.top]
        if self.draw.randrange(3) == 0:
            below = [os.path.join(self.top, name) for name in sorted(os.listdir(self.top)) if is_text(name)]
            roots = self.draw.sample(below, min(len(below), 2)) + ([self.top] if self.draw.randrange(4) == 0 else [])
        self.words = [program, "ddup", *self.draw.choice([["--ranks", "1"], ["--ranks", "8", "--hosts", "4"]]), *roots]
        self.files, self.walk_notes = walked(roots)
        self.wrong = []

    def run(self, **how):
        return shim.run(self.shim, self.top, self.log, self.words, **how)

    def compare(self, what, given, failed=(), changed=()):
        """Compares what a run gave with what it should give."""
        out, notes = expected(self.files, self.walk_notes, failed, changed)
        if given != (1 if notes else 0, out, notes):
            self.wrong.append(f"{what}: given {given}, expected {(out, notes)}")
        return out

    def look_at_reads(self, calls):
        """No file is read without need, and none more than twice."""
        many = collections.Counter(len(content) for content in self.files.values())
        total = collections.Counter()
        for _, kind, size, path in calls:
            if kind == "read":
                total[path] += size
        for path, size in total.items():
            if path not in self.files or many[len(self.files[path])] < 2:
                self.wrong.append(f"{path} was read")
            elif size > 2 * len(self.files[path]):
                self.wrong.append(f"{path} was read more than twice: {size} bytes")

    def look_at_tree(self, what):
        if state(self.top) != self.before:
            self.wrong.append(f"{what}: the tree is another one")

    def fail_each(self, calls):
        """Lets each call fail in turn, and answers how often."""
        tried = 0
        for kind in KINDS:
            for number in range(1, sum(call[1] == kind for call in calls) + 1):
                given, now = self.run(KIND=kind, AT=number)
                hit = {path for it, _, _, path in now if it}
                tried += bool(hit)
                self.compare(f"{kind} {number} of {hit} fails", given, failed=hit)
                self.look_at_tree(f"{kind} {number} fails")
        return tried

    def shorten_each(self, calls):
        """Shortens the file before each read in turn, and answers how often."""
        tried = 0
        for number in range(1, sum(call[1] == "read" for call in calls) + 1):
            given, now = self.run(KIND="read", AT=number, HOW="shorten")
            hit = {path for it, _, _, path in now if it}
            tried += bool(hit)
            same = {path for path in self.files if any(self.before[path][1] == self.before[one][1] for one in hit)}
            named = {path for path in same if b"changed " + escaped(path) in given[2].splitlines()}
            if not hit <= named:
                self.wrong.append(f"read {number}: {hit} is shortened, and not named")
            self.compare(f"{hit} is shortened at read {number}", given, changed=named)
            for path in hit:
                with open(path, "wb") as file:
                    file.write(self.before[path][3])
                os.utime(path, ns=(self.before[path][2], self.before[path][2]))
            self.look_at_tree(f"{hit} is shortened at read {number}")
        return tried


def main(program, trees=500, seed=1, folder=None):
    shim_folder = tempfile.mkdtemp(prefix="mfu-dup-shim.")
    made = shim.build(shim_folder)
    groups = failing = shortened = failed = 0
    for each in range(int(seed), int(seed) + int(trees)):
        work = os.path.realpath(os.fsencode(tempfile.mkdtemp(prefix="mfu-dup-pairs.", dir=folder)))
        trial = Trial(os.path.abspath(program), made, work, each)
        given, calls = trial.run()
        groups += sum(line.startswith(b"group ") for line in trial.compare("undisturbed", given).splitlines())
        trial.look_at_reads(calls)
        trial.look_at_tree("undisturbed")
        if each % 10 == 0:
            failing += trial.fail_each(calls)
            shortened += trial.shorten_each(calls)
        shutil.rmtree(work)
        failed += bool(trial.wrong)
        for line in trial.wrong:
            print(f"WRONG: seed {each}: {line}", flush=True)
    shutil.rmtree(shim_folder)
    print(f"{trees} trees, {groups} groups, {failing} failed calls, {shortened} shortened files, {failed} wrong")
    sys.exit(failed > 0)


if __name__ == "__main__":
    if not 2 <= len(sys.argv) <= 5:
        sys.exit(__doc__)
    main(*sys.argv[1:])
