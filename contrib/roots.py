#!/usr/bin/env python3
"""Runs a command on paths that together cover TOP except some directories. Without a command it prints the paths, each ended by a NUL byte.

usage: roots.py [--one-file-system] [--exclude DIR]... TOP [COMMAND...]

  roots.py --one-file-system / mfu dwalk --output /var/tmp/root.list
  roots.py --exclude /data/scratch /data mfu dfind --mtime +365

The script lists only the directories above those that are left out. They cannot be given to mfu, which would walk everything below them: the script
names them on standard error.
"""
import argparse
import os
import sys


def mount_points():
    with open("/proc/self/mountinfo", "rb") as file:
        for line in file:
            yield line.split()[4].decode("unicode_escape").encode("latin-1")


def cover(top, holes, out):
    """Adds to `out` paths that cover `top` except `holes`, which are below it."""
    if not holes:
        out.append(top)
        return
    sys.stderr.write("not listed itself: %s\n" % os.fsdecode(top))
    for name in sorted(os.listdir(top)):
        path = os.path.join(top, name)
        if path not in holes:
            cover(path, {hole for hole in holes if hole.startswith(path + b"/")}, out)


def main():
    parser = argparse.ArgumentParser(usage=__doc__.split("\n\n")[1][7:])
    parser.add_argument("--exclude", action="append", default=[])
    parser.add_argument("--one-file-system", action="store_true")
    parser.add_argument("top")
    parser.add_argument("command", nargs=argparse.REMAINDER)
    given = parser.parse_args()
    top = os.path.abspath(os.fsencode(given.top))
    holes = {os.path.abspath(os.fsencode(path)) for path in given.exclude}
    if given.one_file_system:
        holes |= set(mount_points())
    below = top.rstrip(b"/") + b"/"
    if top in map(os.path.abspath, map(os.fsencode, given.exclude)):
        sys.exit("roots.py: all of %s is left out" % given.top)
    out = []
    try:
        cover(top, {hole for hole in holes if hole.startswith(below)}, out)
    except OSError as error:
        sys.exit("roots.py: %s" % error)
    if given.command:
        sys.stderr.flush()
        os.execvp(given.command[0], [os.fsencode(word) for word in given.command] + out)
    sys.stdout.buffer.write(b"".join(path + b"\0" for path in out))


if __name__ == "__main__":
    main()
