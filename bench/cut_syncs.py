#!/usr/bin/env python3
"""Kills dsync while it works, and looks whether a second run comes to what one run comes to.

usage: cut_syncs.py [PROGRAM [KILLS]]

Two trees of some 1,000 entries differ in one file of ten, in links, and in directories that only one of them has. KILLS times (300 by
default) a `dsync --delete` from the first to a fresh copy of the second is killed at a random moment before its end; a run that ends
before it is killed is looked at too, but not counted. Looked at is:

- the source and a tree beside the destination: no path or byte of them changes;
- a second run: its status is 0, and its destination is what an undisturbed run leaves;
- a third run: it copies and removes nothing.

The last line counts the kills, the runs that ended before theirs, and those that were wrong.
"""
import os
import random
import shutil
import subprocess
import sys
import tempfile
import time


def copy(one, other):
    subprocess.run(["cp", "-a", one, other], check=True)


def make(work):
    """Makes the source `s`, the destination `d` as it is at first, and a tree `beside`."""
    make_tree = os.path.join(os.path.dirname(os.path.abspath(__file__)), "make_tree.py")
    subprocess.run([sys.executable, make_tree, f"{work}/s", "1000", "7", "full"], check=True, stdout=subprocess.DEVNULL)
    copy(f"{work}/s", f"{work}/d")
    draw = random.Random(3)
    for folder, folders, files in os.walk(f"{work}/d"):
        folders.sort()
        for name in sorted(files):
            path = os.path.join(folder, name)
            kind = draw.randrange(20)
            if kind < 2 and not os.path.islink(path):
                with open(path, "ab") as file:
                    file.write(b"more")
            elif kind == 2:
                os.unlink(path)
            elif kind == 3:
                os.unlink(path)
                os.mkdir(path)
                os.symlink("elsewhere", f"{path}/link")
    os.mkdir(f"{work}/d/only")
    copy(f"{work}/s", f"{work}/d/only/here")
    copy(f"{work}/d", f"{work}/beside")


def is_same(one, other):
    return subprocess.run(["diff", "-r", "-q", "--no-dereference", one, other], stdout=subprocess.DEVNULL, stderr=subprocess.DEVNULL, check=False).returncode == 0


def main():
    here = os.path.dirname(os.path.abspath(__file__))
    program = os.path.abspath(sys.argv[1] if len(sys.argv) > 1 else os.path.join(here, "../crates/mfu/out/mfu"))
    kills = int(sys.argv[2]) if len(sys.argv) > 2 else 300
    work = tempfile.mkdtemp(prefix="mfu_syncs_")
    make(work)
    words = [program, "dsync", "--delete", f"{work}/s", f"{work}/x"]
    kept = f"{work}/kept"
    copy(f"{work}/s", kept)
    copy(f"{work}/d", f"{work}/x")
    start = time.monotonic()
    subprocess.run(words, check=True, stdout=subprocess.DEVNULL)
    longest = time.monotonic() - start
    draw, wrong, cut, number = random.Random(1), 0, 0, 0
    while cut < kills and number < 10 * kills:
        number += 1
        shutil.rmtree(f"{work}/x")
        copy(f"{work}/d", f"{work}/x")
        child = subprocess.Popen([*words, "--hosts", "4"] if number % 2 else words, stdout=subprocess.DEVNULL, stderr=subprocess.DEVNULL)
        time.sleep(draw.uniform(0, longest))
        child.kill()
        is_cut = child.wait() != 0
        cut += is_cut
        # (other work on the machine makes runs longer or shorter)
        longest *= 1.05 if is_cut else 0.9
        again, third = (subprocess.run(words, capture_output=True, check=False) for _ in range(2))
        faults = []
        if again.returncode or again.stderr:
            faults.append(f"the second run has status {again.returncode} and prints {again.stderr[:200]}")
        if not third.stdout.startswith(b"synced 0 removed 0 "):
            faults.append(f"the third run prints {third.stdout}")
        if not is_same(f"{work}/s", f"{work}/x"):
            faults.append("the destination differs")
        if not is_same(f"{work}/s", kept) or not is_same(f"{work}/d", f"{work}/beside"):
            faults.append("something outside the destination was changed")
        wrong += bool(faults)
        for fault in faults:
            print(f"WRONG: kill {number}: {fault}")
    shutil.rmtree(work)
    print(f"{cut} kills, {number - cut} runs ended before, {wrong} wrong")
    return 1 if wrong else 0


if __name__ == "__main__":
    sys.exit(main())
