#!/usr/bin/env python3
"""Makes two trees that differ in every way that dcmp, diff and rsync tell alike. usage: make_pair.py LEFT RIGHT

Neither may be there yet. Each name says what it is; a name that ends in `-l` or `-r` is on that side alone.
"""
import os
import sys

BLOCK = 65536

# The bytes of a file on the left and on the right.
FILES = {
    "equal": (b"same\n", b"same\n"),
    "empty": (b"", b""),
    "empty against one byte": (b"", b"x"),
    "longer": (b"abc", b"ab"),
    "first byte": (b"abc", b"xbc"),
    "last byte": (b"abc", b"abx"),
    "a block": (b"a" * BLOCK, b"a" * BLOCK),
    "last byte of a block": (b"a" * BLOCK, b"a" * (BLOCK - 1) + b"b"),
    "first byte of the second block": (b"a" * (BLOCK + 1), b"a" * BLOCK + b"b"),
    "last of many": (b"a" * (5 * BLOCK + 7), b"a" * (5 * BLOCK + 6) + b"b"),
    "zeros": (bytes(3000), bytes(2999) + b"\x01"),
    "\u00e9\u4e2d": (b"1", b"2"),
    "-dash": (b"1", b"2"),
}


def put(folder, name, make):
    """Makes an entry of one of the kinds."""
    path = os.path.join(folder, name)
    if isinstance(make, bytes):
        with open(path, "wb") as file:
            file.write(make)
    elif make == "dir":
        os.mkdir(path)
    elif make == "full dir":
        os.makedirs(os.path.join(path, "inner"))
        put(os.path.join(path, "inner"), "file", b"x")
    elif make == "link":
        os.symlink("absent", path)
    elif make == "pipe":
        os.mkfifo(path)


def fill(left, right):
    for name, (ours, theirs) in FILES.items():
        put(left, name, ours)
        put(right, name, theirs)
    kinds = [b"x", "dir", "full dir", "link"]
    for ours in kinds:
        for theirs in kinds:
            name = f"{kinds.index(ours)} against {kinds.index(theirs)}"
            put(left, name, ours)
            put(right, name, theirs)
    for kind in [*kinds, "pipe"]:
        place = [*kinds, "pipe"].index(kind)
        put(left, f"{place}-l", kind)
        put(right, f"{place}-r", kind)


def main(left, right):
    os.mkdir(left)
    os.mkdir(right)
    fill(left, right)
    # and the same two levels down, where `b` is before what is in it and `b-x` behind that
    for name in ("b", "b/deep", "b-x"):
        os.mkdir(os.path.join(left, name))
        os.mkdir(os.path.join(right, name))
    fill(os.path.join(left, "b/deep"), os.path.join(right, "b/deep"))
    fill(os.path.join(left, "b-x"), os.path.join(right, "b-x"))


if __name__ == "__main__":
    if len(sys.argv) != 3:
        sys.exit(__doc__)
    main(os.path.abspath(sys.argv[1]), os.path.abspath(sys.argv[2]))
