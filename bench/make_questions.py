#!/usr/bin/env python3
"""Makes a small tree of files whose names, sizes and ages lie on both sides of what a search may ask for.

usage: make_questions.py DIR

DIR must not be there yet. Ages are half a minute off every whole minute, so that a search some seconds later answers the same.
"""
import os
import sys
import time

NAMES = ["a.log", "b.log", "axxbyc", "ab1c", "abc", "c", "d", ".hidden", "*star", "n12.txt", "n1.txt", "A.LOG", "zeta", "é.log"]
SIZES = [0, 1, 2, 4, 5, 6, 1023, 1024, 1025, 10239, 10240, 10241]
MINUTES = [0, 1, 2, 4, 5, 6, 10, 11, 59, 60, 61, 1439, 1440, 1441]
DAYS = [1, 2, 3, 29, 30, 31]


def make_file(path, size, age):
    with open(path, "wb") as file:
        file.write(b"x" * size)
    then = time.time() - age
    os.utime(path, (then, then))


def main():
    if len(sys.argv) != 2:
        sys.exit(__doc__)
    top = sys.argv[1]
    for folder in [top, os.path.join(top, "deep"), os.path.join(top, "deep", "er"), os.path.join(top, "empty")]:
        os.mkdir(folder)
    for folder in [top, os.path.join(top, "deep"), os.path.join(top, "deep", "er")]:
        for at, name in enumerate(NAMES):
            make_file(os.path.join(folder, name), at, 60 * at + 30)
    for size in SIZES:
        make_file(os.path.join(top, f"size {size}"), size, 30)
    for minutes in MINUTES:
        make_file(os.path.join(top, f"minutes {minutes}"), 0, 60 * minutes + 30)
    for days in DAYS:
        make_file(os.path.join(top, f"days {days}"), 0, 86400 * days + 30)
    os.symlink("a.log", os.path.join(top, "link"))
    os.symlink("absent", os.path.join(top, "dangling.log"))
    os.mkfifo(os.path.join(top, "pipe"))


if __name__ == "__main__":
    main()
