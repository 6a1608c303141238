#!/usr/bin/env python3
"""Compares the rows of dcmp with what diff or rsync told of the two trees. usage: differ.py diff|rsync ROWS TEXT

differ.sh says what is compared. Each difference is a pair of a word and a path, such as `alone in l` and `/b/x`.
"""
import re
import sys


def rows_of(name):
    with open(name, encoding="utf-8") as file:
        lines = file.read().splitlines()[:-1]
    return {line[8:]: line[:7].split(" ") for line in lines}


def above(path):
    return path.rpartition("/")[0] or "/"


def of_diff(text):
    """What `diff -rq` told."""
    told = set()
    for line in text.splitlines():
        if alone := re.fullmatch(r"Only in ([lr])(.*?): (.*)", line):
            told.add((f"alone in {alone[1]}", f"{alone[2]}/{alone[3]}"))
        elif kinds := re.fullmatch(r"File l(/.*) is an? .* while file r\1 is an? .*", line):
            told.add(("kinds", kinds[1]))
        elif files := re.fullmatch(r"Files l(/.*) and r\1 differ", line):
            told.add(("bytes", files[1]))
        else:
            sys.exit(f"diff said: {line}")
    return told


def as_diff(rows):
    """The rows, as diff would tell them: the top of what is alone, and nothing below different kinds."""
    told = set()
    for path, (exist, kind, _, content) in rows.items():
        over = rows.get(above(path), ["C", "=", "-", "-"])
        if exist != "C":
            if over[0] == "C" and over[1] != "!":
                told.add((f"alone in {'l' if exist == 'S' else 'r'}", path))
        elif kind == "!":
            told.add(("kinds", path))
        elif content == "!":
            told.add(("bytes", path))
    return told


def of_rsync(text):
    """What `rsync -i --delete` would put and delete. It names bytes beyond ASCII as they are."""
    told = set()
    for line in text.splitlines():
        change, path = line[:11], "/" + line[12:].split(" -> ")[0].rstrip("/")
        if change.startswith("*deleting"):
            told.add(("deleted", path))
        elif change[0] in "<>c" and (change.endswith("+++++++++") or "c" in change[2:4]):
            told.add(("put", path))
    return told


def as_rsync(rows):
    """The rows, as rsync would tell them: each path that is put, and each that is deleted."""
    told = set()
    for path, (exist, kind, _, content) in rows.items():
        if exist == "D":
            told.add(("deleted", path))
        elif exist == "S" or kind == "!" or content == "!":
            told.add(("put", path))
    return told


def is_shared(rows, what, path):
    """Whether rsync tells of it as we do: pipes are not its, and what it replaces it may tell as deleted too."""
    return path.rpartition("/")[2] not in ("4-l", "4-r") and (what == "put" or rows.get(path, ["D"])[0] == "D")


def main(peer, rows, text):
    rows = rows_of(rows)
    if peer == "diff":
        ours, theirs = as_diff(rows), of_diff(text)
    else:
        ours, theirs = ({told for told in all_told if is_shared(rows, *told)} for all_told in (as_rsync(rows), of_rsync(text)))
    for what, path in sorted(ours ^ theirs):
        print(f"WRONG: {'dcmp' if (what, path) in ours else peer} alone tells: {what} {path}")
    if ours == theirs:
        print(f"alike: {peer} and dcmp tell the same {len(ours)} differences")
    sys.exit(ours != theirs)


if __name__ == "__main__":
    if len(sys.argv) != 4:
        sys.exit(__doc__)
    main(*sys.argv[1:])
