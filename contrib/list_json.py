#!/usr/bin/env python3
"""Prints list files of mfu as JSON, one object on a line for each entry. usage: list_json.py LIST...

An object has kind, size, mtime (or null), mark, unnamed, far and path, as docs/LISTS.md describes them, and for a link with a text also target.
Paths and texts are as they are in the file system, without the escapes of list files.
"""
import json
import re
import sys

NAMES = ("kind", "size", "mtime", "mark", "unnamed", "far", "path")


def plain(text):
    return re.sub(r"\\x([0-9A-F]{2})", lambda found: chr(int(found[1], 16)), text)


def entries(name):
    with open(name, encoding="utf-8", newline="\n") as file:
        head, *lines = file.read().split("\n")
    if head not in ("mfu list 1", "mfu list 2") or len(lines) < 2 or not lines[-2].startswith("end ") or lines[-1]:
        sys.exit(name + " is not a list file")
    entry = None
    for line in lines[:-2]:
        if line.startswith("> "):
            entry["target"] = plain(line[2:])
            continue
        if entry:
            yield entry
        entry = dict(zip(NAMES, line.split(" ", 6)))
        for field in ("size", "unnamed", "far"):
            entry[field] = int(entry[field])
        entry["mtime"] = None if entry["mtime"] == "-" else int(entry["mtime"])
        entry["path"] = plain(entry["path"])
    if entry:
        yield entry


def main(names):
    if not names:
        sys.exit(__doc__)
    for name in names:
        for entry in entries(name):
            print(json.dumps(entry, ensure_ascii=False))


if __name__ == "__main__":
    main(sys.argv[1:])
