#!/usr/bin/env python3
"""Runs the program over trees in which another program swaps directories for links, and looks whether anything outside is touched.

usage: races.py [PROGRAM [RUNS]]

RUNS runs (500 by default) of dwalk, dcmp, dcp, dsync and drm in turn, each over a fresh tree, while two other processes take directories of
it away, put links to a directory with the same names in their places, and take that back, as fast as they can. The swapping belongs
to an ordinary user, who may not write outside, so whatever changes there was changed by the program. A directory is guarded if others
can write in it, or it belongs to another user, so the trees are of these kinds, in turn, if root runs this:

- root runs the program, and the trees belong to the user who swaps, with mode 0755: the owner alone makes them guarded;
- root runs the program, and the trees belong to root, with mode 0777: the mode alone makes them guarded;
- a second user runs the program, who owns the directory outside, and the trees belong to the one who swaps, with mode 0777;
- root runs the program, and the trees belong to root, with mode 0755, in a directory of the user who swaps: the one over a path word
  alone makes them guarded. Only the first path word is swapped.

Root's directory outside is closed to the user. If an ordinary user runs this, everything is that user's, with mode 0777, and
directories are swapped directly below the tops alone, so that no swap goes through a link. After each run the script looks at:

- the directory outside: no path of it is gone or new, and no byte of it is another one;
- dcp and dsync: no byte of a file outside stands in what was copied;
- the names that only the directories outside have: dwalk prints none of them with one rank, as in half of its runs. Of several ranks
  one may take over a path, whose directory another one looked at;
- the status: 0 or 1, and 1 where there is a note;
- nothing is missing without a note. Files and links never move from their directory. If dwalk prints a directory, or dcmp has it on both
  sides, it prints them too, or names them or the directory. If dcp made a directory, they are in it, or it names them or the directory.
  No file or directory that drm prints still stands, or drm names it. dsync is not asked, since it may rightly keep a link that stood
  in both trees for a moment.

The last line counts the runs, how often a directory was seen swapped, and what was wrong.
"""
import os
import random
import shutil
import signal
import subprocess
import sys
import tempfile
import time

NOBODY, SWAPPER = 65534, 65533
OWN, OTHER = b"own bytes\n", b"bytes from outside\n"
ONLY_OUTSIDE = "canary"
TOOLS = ("dwalk", "dcmp", "dcp", "dsync", "drm")
KINDS = ("root in a user's tree", "root in its own tree", "another user", "root in its own tree in a user's directory", "the user who swaps")


def fill(top, content):
    """Makes a tree of 4 directories of 3, with 4 files and a link in each."""
    for a in range(4):
        for b in range(3):
            folder = f"{top}/d{a}/e{b}"
            os.makedirs(folder)
            for name in (*(f"f{n}" for n in range(4)), "../g"):
                with open(f"{folder}/{name}", "wb") as file:
                    file.write(content)
            os.symlink("f0", f"{folder}/l")


def mark(top):
    """Puts a file into each directory of a tree."""
    for folder, _, _ in os.walk(top):
        with open(f"{folder}/{ONLY_OUTSIDE}", "wb") as file:
            file.write(OTHER)


def state(top):
    """The paths of a tree below its top, with the bytes of files and the texts of links. There are none if its top is a link itself."""
    found = {}
    if os.path.islink(top):
        return found
    for folder, folders, files in os.walk(top):
        for name in (*folders, *files):
            path = os.path.join(folder, name)
            if os.path.islink(path):
                found[os.path.relpath(path, top)] = os.readlink(path)
            elif os.path.isfile(path):
                with open(path, "rb") as file:
                    found[os.path.relpath(path, top)] = file.read()
            else:
                found[os.path.relpath(path, top)] = None
    return found


def swap(tops, whole, outside, aside, seed, below):
    """Swaps directories of the trees, and a whole tree, for links to those outside, until it is ended."""
    draw = random.Random(seed)
    number = 0
    while True:
        number += 1
        if tops and not (whole and draw.randrange(10) == 0):
            name = f"/d{draw.randrange(4)}{draw.choice(below)}"
            path, kept = f"{draw.choice(tops)}{name}", f"{aside}/{seed}-{number}"
        else:
            # It may belong to another user, who alone can move it to another directory.
            name, path, kept = "", whole, f"{whole}-{seed}-{number}"
        try:
            if os.path.islink(path):
                continue
            os.rename(path, kept)
        except OSError:
            continue
        try:
            os.symlink(f"{outside}{name}", path)
            for _ in range(draw.randrange(200)):
                pass
            os.unlink(path)
        except OSError:
            pass
        try:
            os.rename(kept, path)
        except OSError:
            pass


def become(user, mask=0o022):
    """What a child process does to become the user, with a mask of the modes that it gives."""
    def change():
        os.umask(mask)
        if user is not None:
            os.setgroups([])
            os.setgid(user)
            os.setuid(user)
    return change


def start_swapping(tops, whole, outside, aside, seed, user):
    child = os.fork()
    if child == 0:
        become(user)()
        try:
            swap(tops, whole, outside, aside, seed, [""] if user is None else ["", "/e0", "/e1", "/e2"])
        finally:
            os._exit(0)
    return child


def words(tool, work, ranks):
    return {
        "dwalk": ["dwalk", "--ranks", str(ranks), f"{work}/t"],
        "dcmp": ["dcmp", f"{work}/t", f"{work}/u"],
        "dcp": ["dcp", f"{work}/t", f"{work}/d"],
        "dsync": ["dsync", "--delete", f"{work}/t", f"{work}/u"],
        "drm": ["drm", f"{work}/t"],
    }[tool]


def own(work, kind):
    """Gives the paths below the folder the owners and modes of a kind of run."""
    for folder, folders, files in os.walk(work, topdown=False):
        for path in (folder, *(os.path.join(folder, name) for name in files)):
            outside = path.startswith(f"{work}/outside")
            if kind == 2 and outside:
                os.lchown(path, NOBODY, NOBODY)
            elif kind in (0, 2) and not outside or path == f"{work}/aside" and kind == 1 or path == work and kind == 3:
                os.lchown(path, SWAPPER, SWAPPER)
            if not outside and not os.path.islink(path):
                os.chmod(path, 0o755 if kind in (0, 3) else 0o777)
    if kind in (0, 1, 3):
        os.chmod(f"{work}/outside/top", 0o700)


def staying(path):
    """The paths in a directory that are never moved."""
    return [f"{path}/{name}" for name in {"d": ("g",), "e": ("f0", "f1", "f2", "f3", "l")}.get(os.path.basename(path)[:1], ())]


def is_in_place(path, top):
    """Whether something stands at a path, and no part of it from the top on is a link."""
    return os.path.lexists(path) and (path == top or is_in_place(os.path.dirname(path), top) and not os.path.islink(os.path.dirname(path)))


def missing(tool, work, out, notes):
    """The paths that a run left out, or left standing, without a note."""
    named = {word for line in notes.splitlines() for word in line.split() if word.startswith("/")}
    lines = [line.split(" -> ")[0].split() for line in out.splitlines()]
    top, want = f"{work}/t", []
    if tool == "dwalk":
        found = {words[2]: words[0] for words in lines[:-1]}
        want = [path for folder, kind in found.items() if kind == "d" and folder not in named for path in staying(folder) if path not in found]
    elif tool == "dcmp":
        rows = {words[4]: words[:4] for words in lines[:-1]}
        both = [path for path, row in rows.items() if row == ["C", "=", "-", "-"] and not named & {top + path, f"{work}/u{path}"}]
        want = [top + path for folder in both for path in staying(folder) if rows.get(path, "-")[0] != "C" and f"{work}/u{path}" not in named]
    elif tool == "dcp":
        for folder, _, _ in os.walk(f"{work}/d/t"):
            source = top + folder.removeprefix(f"{work}/d/t")
            want += [path for path in staying(source) if source not in named and not os.path.lexists(f"{work}/d{path.removeprefix(work)}")]
    elif tool == "drm":
        want = [words[2] for words in lines[:-1] if words[0] in "fd" and is_in_place(words[2], top)]
    return [path for path in want if path not in named]


def one_run(program, tool, work, kind, user, mask, swapper, seed):
    """Runs a tool beside the swapping, and answers the faults that it found."""
    ranks = 1 if seed // len(TOOLS) % 8 < 4 else 4
    outside = f"{work}/outside/top"
    before = state(outside)
    tops = [f"{work}/t"] + ([f"{work}/d/t"] if tool == "dcp" else []) + ([f"{work}/u"] if tool in ("dcmp", "dsync") else [])
    whole = f"{work}/d/t" if tool == "dcp" and swapper is not None else None
    if kind == 3:
        tops, whole = [], f"{work}/t"
    children = [start_swapping(tops, whole, outside, f"{work}/aside", seed * 2 + k, swapper) for k in (0, 1)]
    time.sleep(0.003)
    try:
        done = subprocess.run([program, *words(tool, work, ranks)], capture_output=True, check=False, preexec_fn=become(user, mask), timeout=60)
    finally:
        for child in children:
            os.kill(child, signal.SIGKILL)
            os.waitpid(child, 0)
    wrong = []
    after = state(outside)
    for path in sorted(set(before) | set(after)):
        if before.get(path, b"") != after.get(path, b""):
            wrong.append(f"outside: {path}")
    made = {"dcp": f"{work}/d", "dsync": f"{work}/u"}.get(tool)
    if made:
        wrong += [f"copied from outside: {path}" for path, held in state(made).items() if held == OTHER]
    if done.returncode not in (0, 1) or (done.returncode == 1) != bool(done.stderr):
        wrong.append(f"status {done.returncode} with {len(done.stderr.splitlines())} notes")
    if tool == "dwalk" and ranks == 1 and ONLY_OUTSIDE.encode() in done.stdout + done.stderr:
        wrong.append("a name from outside")
    wrong += [f"without a note: {path}" for path in missing(tool, work, done.stdout.decode(), done.stderr.decode())]
    return wrong, len(done.stderr.splitlines())


def main():
    here = os.path.dirname(os.path.abspath(__file__))
    given = sys.argv[1] if len(sys.argv) > 1 else os.path.join(here, "../crates/mfu/out/mfu")
    runs = int(sys.argv[2]) if len(sys.argv) > 2 else 500
    root = os.getuid() == 0
    base = tempfile.mkdtemp(prefix="mfu_races_")
    os.chmod(base, 0o755)
    program = shutil.copy(given, f"{base}/mfu")
    wrong = notes = 0
    for number in range(runs):
        tool = TOOLS[number % len(TOOLS)]
        kind = number // len(TOOLS) % 4 if root else 4
        work = f"{base}/{number}"
        os.makedirs(f"{work}/outside")
        os.makedirs(f"{work}/aside")
        os.makedirs(f"{work}/d")
        fill(f"{work}/t", OWN)
        fill(f"{work}/u", b"old" if tool == "dsync" else OWN)
        fill(f"{work}/outside/top", OTHER)
        mark(f"{work}/outside/top")
        own(work, kind)
        user, mask = (NOBODY if kind == 2 else None), (0o022 if kind in (0, 3) else 0)
        found, noted = one_run(program, tool, work, kind, user, mask, SWAPPER if root else None, number)
        notes += noted
        for text in found:
            print(f"WRONG: {tool}, {KINDS[kind]}, run {number}: {text}")
            wrong += 1
        shutil.rmtree(work)
    shutil.rmtree(base)
    print(f"{runs} runs, {notes} notes, {wrong} wrong")
    return 1 if wrong else 0


if __name__ == "__main__":
    sys.exit(main())
