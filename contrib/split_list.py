#!/usr/bin/env python3
"""Divides the files of a list into parts of about equal bytes, as fpart does. usage: split_list.py [--count] LIST PARTS OUT [TOP]

OUT must not exist. It gets part1 to partPARTS, in which each path ends with a NUL byte. With --count the parts have equal numbers of files. With
TOP only paths below TOP are taken, and each is written relative to TOP, as rsync needs them:

  mfu dfind --type f --output /var/tmp/l /data >/dev/null
  split_list.py /var/tmp/l 8 /var/tmp/parts /data
  seq 8 | parallel rsync -a --from0 --files-from=/var/tmp/parts/part{} /data/ backup:/data/

Directories and links are left out; one more `rsync -a` copies them.
"""
import heapq
import os
import re
import sys


def files(name):
    with open(name, "rb") as file:
        head, *lines = file.read().removesuffix(b"\n").split(b"\n")
    if head not in (b"mfu list 1", b"mfu list 2") or not lines or not lines[-1].startswith(b"end "):
        sys.exit(name + " is not a list file")
    for line in lines[:-1]:
        fields = line.split(b" ", 6)
        if fields[0] == b"f":
            yield int(fields[1]), re.sub(rb"\\x(..)", lambda found: bytes.fromhex(found[1].decode()), fields[6])


def main(words):
    by_count = words[:1] == ["--count"]
    words = words[by_count:]
    if len(words) not in (3, 4) or not words[1].isdigit() or int(words[1]) < 1:
        sys.exit(__doc__)
    name, parts, out, top = (words + [None])[:4]
    below = os.fsencode(top).rstrip(b"/") + b"/" if top else b""
    found = [(size, path[len(below):]) for size, path in files(name) if path.startswith(below)]
    # The largest file goes to the part with the smallest load. A file is a load of its bytes and 4,096 more, or of 1.
    loads, dealt, sizes = [(0, k) for k in range(int(parts))], [[] for _ in range(int(parts))], [0] * int(parts)
    for size, path in sorted(found, reverse=True):
        load, k = heapq.heappop(loads)
        dealt[k].append(path)
        sizes[k] += size
        heapq.heappush(loads, (load + (1 if by_count else size + 4096), k))
    os.mkdir(out)
    for k, paths in enumerate(dealt):
        with open(os.path.join(out, "part%d" % (k + 1)), "wb") as file:
            file.write(b"".join(path + b"\0" for path in sorted(paths)))
        print("part%d: %d files, %d bytes" % (k + 1, len(paths), sizes[k]))


if __name__ == "__main__":
    main(sys.argv[1:])
