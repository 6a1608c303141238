#!/usr/bin/env python3
"""Copies files by byte ranges on the disk, with every number of ranks from 1 to 8, and lets each call fail in turn.

usage: range_pairs.py PROGRAM [FOLDER]

The source is a tree with files of 0, 1, 65,535, 65,536, 65,537 and 200,003 bytes, one of 4,096 ranges of 100 bytes, an empty directory
and a link. No run may have more than 128 files open at once. For each number of ranks from 1 to 8, on 1 and on 4 threads, and each of some sizes of a range, from 1 byte on, it is copied by
`dcp --range`, to no destination and over one whose files are longer, shorter or others. Looked at is:

- every byte of the copy, which is that of the source; the status is 0, and the text and the notes are those of dcp without ranges;
- the source and a tree beside the destination: no path, byte, text or time is another one.

Then, on one thread and on four, each write of the program fails in turn, each read, each look, each open and each making of a file; each
read is preceded in turn by the loss of half of the file's bytes; and once each write takes only half of its bytes, which is a failure
too. A file whose call failed is named by `failed copy`, one that was shortened by `changed`, and no other; the status is 1, the numbers are
those of the other files, and these are equal to their sources. A file that was shortened after another rank had read the bytes that it
lost is copied whole. The last line counts the copies, the failed calls, and what was wrong.
"""
import collections
import os
import random
import re
import resource
import shutil
import subprocess
import sys
import tempfile

import shim

SIZES = {"empty": 0, "one": 1, "under": 65535, "piece": 65536, "over": 65537, "more": 200003, "many": 409600}
OPEN_FILES = 128
RANGES = (1, 16, 17, 100, 4096, 65535, 65536, 65537, 10**6)
LAST = re.compile(rb"copied (\d+) items (\d+) bytes (\d+) failed (\d+)\n")


def make(work):
    """Makes the source, a tree beside the destination, and a destination with other files."""
    draw = random.Random(1)
    os.makedirs(f"{work}/s/deep/hollow")
    for name, size in SIZES.items():
        with open(f"{work}/s/{'deep/' if size % 2 else ''}{name}", "wb") as file:
            file.write(draw.randbytes(size))
    os.symlink("one", f"{work}/s/deep/link")
    shutil.copytree(f"{work}/s", f"{work}/beside", symlinks=True)
    shutil.copytree(f"{work}/s", f"{work}/old", symlinks=True)
    for number, name in enumerate(sorted(os.listdir(f"{work}/old"))):
        path = f"{work}/old/{name}"
        if os.path.isfile(path):
            os.truncate(path, max(0, os.path.getsize(path) + (number % 3 - 1) * 70000))


def state(top):
    """All paths below the top, with times, and bytes or texts."""
    found = {}
    for folder, folders, files in os.walk(top):
        for path in (os.path.join(folder, name) for name in (*folders, *files)):
            held = os.readlink(path) if os.path.islink(path) else None
            if os.path.isfile(path) and not os.path.islink(path):
                with open(path, "rb") as file:
                    held = file.read()
            found[os.path.relpath(path, top)] = held, os.lstat(path).st_mtime_ns
    return found


def held(tree):
    return {path: bytes_or_text for path, (bytes_or_text, _) in tree.items()}


class Trial:
    def __init__(self, program, work):
        self.program, self.work, self.shim = program, work, shim.build(work)
        make(work)
        self.source, self.beside = state(f"{work}/s"), state(f"{work}/beside")
        self.wrong = self.copies = self.tried = 0

    def fresh(self, is_old):
        shutil.rmtree(f"{self.work}/d", ignore_errors=True)
        if is_old:
            shutil.copytree(f"{self.work}/old", self.target(True), symlinks=True)

    def words(self, *options):
        return [self.program, "dcp", *options, f"{self.work}/s", f"{self.work}/d"]

    def say(self, what, *found):
        self.wrong += 1
        print(f"WRONG: {what}:", *found, flush=True)

    def look(self, what):
        """Looks at the source and at the tree beside the destination."""
        if state(f"{self.work}/s") != self.source:
            self.say(what, "the source is another one")
        if state(f"{self.work}/beside") != self.beside:
            self.say(what, "the tree beside is another one")

    def plain(self, is_old):
        """What dcp without ranges gives."""
        self.fresh(is_old)
        done = subprocess.run(self.words("--ranks", "1"), capture_output=True, check=False)
        return done.returncode, done.stdout, done.stderr

    def target(self, is_old):
        return f"{self.work}/d/s" if is_old else f"{self.work}/d"

    def copy(self, is_old, plain, *options):
        """Copies, and looks at everything."""
        self.copies += 1
        self.fresh(is_old)
        what = " ".join(options) + (" over old files" if is_old else "")
        done = subprocess.run(self.words(*options), capture_output=True, timeout=600, check=False)
        if (done.returncode, done.stdout, done.stderr) != plain:
            self.say(what, (done.returncode, done.stdout, done.stderr), "and not", plain)
        found = held(state(self.target(is_old)))
        if any(found.get(path, 0) != bytes_or_text for path, bytes_or_text in held(self.source).items()):
            self.say(what, "the copy differs at", [path for path in found if found[path] != held(self.source).get(path)])
        self.look(what)

    def named(self, notes):
        """The notes as words and paths below the source."""
        found = collections.defaultdict(set)
        for line in notes.decode().splitlines():
            word, _, path = line.partition(f" {self.work}/s/")
            found[word].add(path)
        return dict(found)

    def source_of(self, path):
        """The path below the source of a source or a target."""
        return os.path.relpath(path, f"{self.work}/s" if path.startswith(f"{self.work}/s/") else f"{self.work}/d")

    def disturbed(self, plain, options, **how):
        """Runs with a disturbed call, and answers whether there was one."""
        self.fresh(False)
        what = f"{' '.join(options)}, {how}"
        (status, out, notes), calls = shim.run(self.shim, self.work, f"{self.work}/log", self.words(*options), **how)
        struck = hit = {self.source_of(os.fsdecode(path)) for it, _, _, path in calls if it}
        found = held(state(f"{self.work}/d"))
        if how["HOW"] == "short":
            hit = self.named(notes).get("failed copy", set())
        elif how["HOW"] == "shorten":
            # (the bytes that the file lost may have been read by another rank before)
            hit = {path for path in hit if path in self.named(notes).get("changed", ()) or found.get(path, 0) != held(self.source)[path]}
        expected = {"changed" if how["HOW"] == "shorten" else "failed copy": hit} if hit else {}
        if status != (1 if expected else 0) or self.named(notes) != expected:
            self.say(what, status, notes, "where", hit, "was hit")
        full, told = LAST.fullmatch(plain[1]), LAST.fullmatch(out)
        lost = sum(len(held(self.source)[path]) for path in hit) if expected else 0
        numbers = [int(full[1]) - len(hit) * bool(expected), int(full[2]), int(full[3]) - lost, len(hit) * bool(expected)]
        if told is None or [int(number) for number in told.groups()] != numbers:
            self.say(what, out, "and not", numbers)
        bad = {path for path, content in held(self.source).items() if path not in hit and found.get(path, 0) != content}
        if bad:
            self.say(what, "the copy differs at", bad)
        if how["HOW"] == "shorten":
            for path in struck:
                with open(f"{self.work}/s/{path}", "wb") as file:
                    file.write(self.source[path][0])
                os.utime(f"{self.work}/s/{path}", ns=(self.source[path][1],) * 2)
        self.look(what)
        self.tried += bool(struck or hit)

    def disturb_each(self, plain, *options):
        """Disturbs each call in turn."""
        self.fresh(False)
        _, calls = shim.run(self.shim, self.work, f"{self.work}/log", self.words(*options))
        for kind, count in collections.Counter(kind for _, kind, _, _ in calls).items():
            for number in range(1, count + 1):
                self.disturbed(plain, options, KIND=kind, AT=number, HOW="fail", ERROR=28 if kind == "write" else 5)
                if kind == "read":
                    self.disturbed(plain, options, KIND=kind, AT=number, HOW="shorten")
        self.disturbed(plain, options, HOW="short")


def main(program, folder=None):
    work = os.path.realpath(tempfile.mkdtemp(prefix="mfu-range-pairs.", dir=folder))
    resource.setrlimit(resource.RLIMIT_NOFILE, (OPEN_FILES, OPEN_FILES))
    trial = Trial(os.path.abspath(program), work)
    for is_old in (False, True):
        plain = trial.plain(is_old)
        for ranks in range(1, 9):
            for hosts in (1, 4):
                for size in RANGES:
                    trial.copy(is_old, plain, "--range", str(size), "--ranks", str(ranks), "--hosts", str(hosts))
    plain = trial.plain(False)
    for ranks, hosts in ((1, 1), (8, 4)):
        trial.disturb_each(plain, "--range", "30000", "--ranks", str(ranks), "--hosts", str(hosts))
    shutil.rmtree(work)
    print(f"{trial.copies} copies, {trial.tried} failed calls, {trial.wrong} wrong")
    sys.exit(trial.wrong > 0)


if __name__ == "__main__":
    if not 2 <= len(sys.argv) <= 3:
        sys.exit(__doc__)
    main(*sys.argv[1:])
