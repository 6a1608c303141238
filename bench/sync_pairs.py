#!/usr/bin/env python3
"""Runs dsync over random pairs of trees on the disk, and looks at all that it should and should not have changed.

usage: sync_pairs.py PROGRAM [PAIRS [SEED [FOLDER]]]

PAIRS pairs (500 by default) are made one after another in FOLDER, a temporary directory by default. The second tree of a pair is the
first with some entries left out, added, or made others: files that differ in their last byte, links of other texts, files against
directories, pipes, empty directories, odd names. Links of both lead into a third tree, the canary. A run is `dsync SOURCE DEST`, every
second one with `--delete`, on one or on four threads. After it the script looks at:

- the status: 1 where there is a note, and else 0; the numbers that are printed;
- SOURCE, the canary and what stands beside DEST: no path, byte, text, permission or time is another one;
- DEST, by a comparison of the script's own and by the rows of `dcmp`: no difference, but at or under a path that a note names, and
  without `--delete` what only DEST has;
- a second run: it copies and removes nothing.

The pair of seed S has the seeds S, S + 1, ..: `sync_pairs.py PROGRAM 1 SEED` makes one pair again. The last line counts the pairs, those
that had notes, and what was wrong. The status is 1 if anything was.
"""
import os
import random
import re
import shutil
import stat
import subprocess
import sys
import tempfile

NAMES = [b"a", b"b", b"b-x", b"b.x", b"c", b" ", b"a b", b"-dash", b"*", b"'q\"", b".hidden", b"..x", b"back\\slash", b"x\ny", b"tab\t",
         "\u00e9\u4e2d".encode(), b"\x7f", b"y" * 255]  # fmt: skip
TEXTS = [b"a", b"../a", b".", b"absent", b"a b\n", "\u00e9".encode(), b"../canary/file", b"../../canary/folder"]
SIZES = [0, 1, 2, 100, 65535, 65536, 65537, 200000]
NOTES = re.compile(
    rb"(?:gone|failed (?:stat|list|read|copy|remove)|changed|unnamed|too long|long target|conflict|skipped|parent|not empty) (.*)")
LAST = re.compile(rb"synced (\d+) removed (\d+) kept (\d+) failed (\d+)\n")


def new_node(draw, depth):
    """A directory is the map of its entries, a file its bytes; a link has its text, and a pipe is None."""
    kind = draw.choices("dflp", [30 if depth < 4 else 5, 50, 12, 2])[0]
    if kind == "d":
        return {name: new_node(draw, depth + 1) for name in new_names(draw) if depth < 4}
    if kind == "f":
        return draw.randbytes(draw.choices(SIZES, [3, 3, 3, 6, 1, 1, 1, 1])[0])
    return ("link", draw.choice(TEXTS)) if kind == "l" else None


def new_names(draw):
    names = draw.sample(NAMES, draw.choice([0, 0, 1, 2, 3, 5]))
    return names + ([b"\xff"] if draw.randrange(60) == 0 else [])


def altered(draw, node, depth):
    """The node, or another one in its place."""
    if draw.randrange(100) < 12:
        return new_node(draw, depth)
    if isinstance(node, dict):
        kept = {name: altered(draw, inner, depth + 1) for name, inner in node.items() if draw.randrange(100) >= 12}
        return kept | ({name: new_node(draw, depth + 1) for name in draw.sample(NAMES, 1)} if draw.randrange(100) < 25 else {})
    if isinstance(node, bytes) and node and draw.randrange(100) < 25:
        return node[:-1] + (bytes([node[-1] ^ 1]) if draw.randrange(2) else b"")
    if isinstance(node, tuple) and draw.randrange(100) < 25:
        return ("link", draw.choice(TEXTS))
    return node


def put(path, node):
    if isinstance(node, dict):
        os.mkdir(path)
        for name, inner in node.items():
            put(os.path.join(path, name), inner)
    elif isinstance(node, bytes):
        with open(path, "wb") as file:
            file.write(node)
    elif isinstance(node, tuple):
        os.symlink(node[1], path)
    else:
        os.mkfifo(path)


def entries(node, path=b""):
    """The nodes by their paths below the top, a directory's as an empty map."""
    found = {path: {} if isinstance(node, dict) else node}
    for name, inner in node.items() if isinstance(node, dict) else ():
        found |= entries(inner, path + b"/" + name)
    return found


def read(path, times=False):
    """What is on the disk: the node at the path, or with permissions and times of all that is there."""
    told = os.lstat(path)
    if stat.S_ISDIR(told.st_mode):
        node = {name: read(os.path.join(path, name), times) for name in sorted(os.listdir(path))}
    elif stat.S_ISREG(told.st_mode):
        with open(path, "rb") as file:
            node = file.read()
    else:
        node = ("link", os.readlink(path)) if stat.S_ISLNK(told.st_mode) else None
    return (node, told.st_mode, told.st_ino, told.st_mtime_ns) if times else node


def plain(text):
    """The path that mfu printed."""
    return re.sub(rb"\\x([0-9A-F]{2})", lambda found: bytes.fromhex(found[1].decode()), text)


def run(*words):
    done = subprocess.run(words, stdin=subprocess.DEVNULL, stdout=subprocess.PIPE, stderr=subprocess.PIPE, timeout=60, check=False)
    return done.returncode, done.stdout, done.stderr


def named(notes, source, dest):
    """The paths below the tops that the notes name, and the lines that are no notes."""
    paths, others = set(), []
    for line in notes.splitlines():
        found = NOTES.fullmatch(line)
        path = plain(re.sub(rb" \d+$", b"", found[1]) if line.startswith((b"unnamed", b"too long")) else found[1]) if found else b""
        top = next((top for top in (source, dest) if path == top or path.startswith(top + b"/")), None)
        if top is None:
            others.append(line)
        else:
            paths.add(path[len(top) :])
    return paths, others


def is_under(path, tops):
    return any(path == top or path.startswith(top + b"/") for top in tops)


def differing(ours, theirs, delete):
    """The paths at which DEST is not as it should be, by what stands on the disk."""
    return {path for path in ours | theirs if (path not in ours and delete) or (path in ours and ours[path] != theirs.get(path, 0))}


def numbers(ours, theirs, delete):
    """How many entries of SOURCE are kept, and of DEST removed, where nothing hinders."""
    removed = sum(1 for path, node in theirs.items() if path not in ours or type(ours[path]) is not type(node))
    return sum(1 for path, node in ours.items() if theirs.get(path, 0) == node), removed if delete else 0


def rows_of(out):
    """The paths of the rows of dcmp that tell a difference, and of those that only DEST has."""
    rows = [line for line in out.splitlines() if line[1:2] == b" " and line[:1] in b"SDC"]
    paths = {plain(line[8:]).removesuffix(b"/") if line[8:] == b"/" else plain(line[8:]): line[:7] for line in rows}
    return {path for path, signs in paths.items() if b"!" in signs or signs[:1] == b"S"}, {path for path, signs in paths.items() if signs[:1] == b"D"}


def look(program, work, seed):
    """Makes a pair, runs dsync over it, and answers whether there were notes, and what was wrong."""
    draw = random.Random(seed)
    source, dest = os.path.join(work, b"source"), os.path.join(work, b"dest")
    ours = new_node(draw, 0) if draw.randrange(10) == 0 else {name: new_node(draw, 1) for name in draw.sample(NAMES, 5)}
    put(source, ours)
    if draw.randrange(10):
        put(dest, altered(draw, ours, 0))
    put(os.path.join(work, b"canary"), {b"file": b"own", b"folder": {b"a": b"own", b"b": {}}})
    before = {name: read(os.path.join(work, name), True) for name in sorted(os.listdir(work)) if name != b"dest"}
    delete = seed % 2 == 0
    kept, removed = numbers(entries(ours), entries(read(dest)) if os.path.lexists(dest) else {}, delete)
    words = [program, "dsync", *draw.choice([["--ranks", "1"], ["--ranks", "8", "--hosts", "4"]]), *["--delete"] * delete, source, dest]
    status, out, notes = run(*words)
    after = {name: read(os.path.join(work, name), True) for name in sorted(os.listdir(work)) if name != b"dest"}
    wrong = ["something outside DEST is another one"] * (after != before)
    paths, others = named(notes, source, dest)
    told = LAST.fullmatch(out)
    if others or told is None or status != (1 if notes else 0) or int(told[4]) != len(notes.splitlines()):
        return bool(notes), [*wrong, f"status {status}, out {out!r}, notes {notes!r}"]
    if not notes and [int(number) for number in told.groups()] != [len(entries(ours)) - kept, removed, kept, 0]:
        wrong.append(f"numbers: {out!r} of {len(entries(ours))} entries, {kept} to be kept, {removed} to be removed")
    theirs = entries(read(dest)) if os.path.lexists(dest) else {}
    bad = {path for path in differing(entries(ours), theirs, delete) if not is_under(path, paths)}
    other, only = rows_of(run(program, "dcmp", source, dest)[1])
    bad_rows = {path for path in other | (only if delete else set()) if not is_under(path, paths)}
    wrong += [f"DEST differs at {sorted(bad)}"] * bool(bad) + [f"dcmp tells a difference at {sorted(bad_rows)}"] * bool(bad_rows)
    again = run(*words)
    if not again[1].startswith(b"synced 0 removed 0 ") or again[0] != status:
        wrong.append(f"a second run: status {again[0]}, {again[1]!r}")
    return bool(notes), wrong


def main(program, pairs=500, seed=1, folder=None):
    noted = failed = 0
    for each in range(int(seed), int(seed) + int(pairs)):
        work = os.fsencode(tempfile.mkdtemp(prefix="mfu-sync-pairs.", dir=folder))
        had_notes, wrong = look(program, work, each)
        shutil.rmtree(work)
        noted += had_notes
        failed += bool(wrong)
        for line in wrong:
            print(f"WRONG: seed {each}: {line}", flush=True)
    print(f"{pairs} pairs, {noted} with notes, {failed} wrong")
    sys.exit(failed > 0)


if __name__ == "__main__":
    if not 2 <= len(sys.argv) <= 5:
        sys.exit(__doc__)
    main(*sys.argv[1:])
