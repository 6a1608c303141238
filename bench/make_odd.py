#!/usr/bin/env python3
"""Makes a small tree of odd entries. usage: make_odd.py DIR

DIR must not be there yet, and is made with: `file`; `folder/x`; the links `link` to the file, `way` to the folder and `dangling`
to nothing; `pipe`; `closed`, a directory that nobody may read; a name with a line feed; `bad`, with two names that are not UTF-8
and one that is; and `deep`, under which one directory has a path of 4,095 bytes, with a child.
"""
import os
import sys

MAX_PATH = 4095


def make_file(name, data=b""):
    with open(name, "wb") as file:
        file.write(data)


def make_deep(top):
    """Goes down by names of 200 bytes, and at last by one that makes the path as long as a path may be."""
    os.mkdir("deep")
    os.chdir("deep")
    length = len(os.fsencode(top)) + len("/deep")
    while length < MAX_PATH:
        left = MAX_PATH - length - 1
        name = "y" * (left if left <= 250 else 200)
        os.mkdir(name)
        os.chdir(name)
        length += 1 + len(name)
    make_file("child")


def make_odd(top):
    os.makedirs(top)
    os.chdir(top)
    make_file("file", b"hello world")
    os.mkdir("folder")
    make_file("folder/x", b"x")
    os.symlink("file", "link")
    os.symlink("folder", "way")
    os.symlink("nowhere", "dangling")
    os.mkfifo("pipe")
    os.mkdir("closed", 0o000)
    make_file("line\nfeed")
    os.mkdir("bad")
    for name in (b"\xff\xfe", b"a\xc3", b"good"):
        make_file(b"bad/" + name)
    make_deep(top)


if __name__ == "__main__":
    if len(sys.argv) != 2:
        sys.exit(__doc__)
    make_odd(os.path.abspath(sys.argv[1]))
