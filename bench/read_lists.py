#!/usr/bin/env python3
"""Reads random list files, whole and damaged, and compares each answer with that of a reader of its own. usage: read_lists.py [COUNT [SEED]]

Each file is a list of version 1 or 2 with up to 25 paths, some hidden, some with bytes that are escaped or beyond ASCII, and in version 2 with
links that have texts. Then up to two bytes or lines are dropped, put in, changed, doubled or swapped. `mfu dwalk --input` has to print the lines of
the entries, or to name the first bad line. The reader below follows docs/LISTS.md line by line and knows nothing of the program. The exit
status is 1 if an answer was wrong; that file is kept.
"""
import os
import random
import re
import subprocess
import sys
import tempfile

PROGRAM = os.path.join(os.path.dirname(os.path.realpath(__file__)), "..", "crates", "mfu", "out", "mfu")
NAMES = [b"a", b"b", b"ab", b"abc", b".a", b"...", b"a.", b"zz", b"x y", b"0", b"~", b"!", b"a\\b", b"a\nb", b"\x01", b"\x7f", "ä".encode()]
LONG = b"a-name-of-many-bytes.txt"
NO_NAMES = [b"", b".", b"..", b"\xc3", b"a\x00b"]
TEXTS = [b"a", b"../b", b"x y", b"a -> b", b"> a", b"\n", b"a\\b", "ä".encode(), b"t" * 4095]
NO_TEXTS = [b"", b"\xc3", b"a\x00b", b"t" * 4096]
BYTES = b" /.\\0123456789\n\x00\xff+-aexk~\x7f"
HEADS = [b"mfu list 1", b"mfu list 2"]
BIG = [b"0", b"7", b"12345", b"9999999999999999999", b"10000000000000000000", b"18446744073709551615"]


def is_escaped(byte):
    return byte < 32 or byte in (92, 127)


def escaped(path):
    return b"".join(b"\\x%02X" % byte if is_escaped(byte) else bytes([byte]) for byte in path)


def in_order(path):
    """Path order: `/` before every other byte."""
    return [0 if byte == 47 else byte + 1 for byte in path]


def unescaped(word):
    """The path or the text of a link that a word stands for, or None."""
    path = re.sub(rb"\\x([0-9A-F]{2})", lambda found: bytes([int(found[1], 16)]), word)
    return path if escaped(path) == word else None


def is_path(path):
    try:
        path.decode()
    except UnicodeDecodeError:
        return False
    names = path[1:].split(b"/")
    fine = path == b"/" or not any(name in (b"", b".", b"..") or b"\x00" in name for name in names)
    return path.startswith(b"/") and len(path) <= 4095 and fine


def is_link_text(text):
    try:
        text.decode()
    except UnicodeDecodeError:
        return False
    return 1 <= len(text) <= 4095 and b"\x00" not in text


def number(word):
    """A number of 64 bits without leading zeros, or None."""
    value = int(word) if re.fullmatch(rb"0|[1-9][0-9]*", word) else 2**64
    return value if value < 2**64 else None


def entry(line, version):
    """Kind, size, path and mark of the entry of a line, or None."""
    words = line.split(b" ", 6)
    if len(words) < 7:
        return None
    kind, size, time, mark, unnamed, far, path = words
    size, unnamed, far, path = number(size), number(unnamed), number(far), unescaped(path)
    if None in (size, unnamed, far, path) or (time != b"-" and number(time) is None) or not is_path(path):
        return None
    untold = unnamed == 0 and far == 0
    shapes = {
        b"ok": kind == b"d" or (kind in (b"f", b"l", b"o") and untold),
        b"stat": kind == b"-" and untold,
        b"gone": kind == b"-" and untold,
        b"list": kind == b"d" and untold,
        b"changed": kind in (b"d", b"l")[:version] and untold,
    }
    sized = (kind == b"f" or size == 0) and (kind != b"-" or time == b"-")
    return (kind, size, path, mark) if shapes.get(mark, False) and sized else None


def target(line):
    """The text of a link in a line of its own, or None."""
    text = unescaped(line[2:]) if line.startswith(b"> ") else None
    return text if text is not None and is_link_text(text) else None


def read(data):
    """The entries of a list file, each with its path, its kind, its size and the text of a link or None, and no line; or None, and the number of
    the first bad line."""
    *lines, rest = data.split(b"\n")
    if not lines or lines[0] not in HEADS:
        return None, 1
    version, entries, may_have_text = 1 + HEADS.index(lines[0]), [], False
    for at, line in enumerate(lines[1:], 2):
        if line.startswith(b"end ") and number(line[4:]) == len(entries):
            return (None, at + 1) if lines[at:] or rest else (entries, None)
        text = target(line) if may_have_text else None
        if text is not None:
            entries[-1], may_have_text = (*entries[-1][:3], text), False
            continue
        told = entry(line, version)
        if told is None or (entries and in_order(entries[-1][0]) >= in_order(told[2])):
            return None, at
        kind, size, path, mark = told
        entries.append((path, kind, size, None))
        may_have_text = version == 2 and (kind, mark) == (b"l", b"ok")
    return None, len(lines) + 1


def some_paths(dice):
    paths, dirs = set(), [b""]
    for _ in range(dice.randint(1, 25)):
        name = dice.choice(NO_NAMES) if dice.random() < 0.01 else dice.choice(NAMES + [LONG] * 3)
        path = dice.choice(dirs) + b"/" + name
        paths.add(path)
        if dice.random() < 0.7:
            dirs.append(path)
    return sorted(paths, key=in_order)


def some_lines(dice, path, version):
    """The line of an entry, and in version 2 perhaps that of its text."""
    kind = dice.choice([b"f", b"f", b"d", b"d", b"l", b"o", b"-"])
    time = b"-" if kind == b"-" else dice.choice([b"-", b"1732800000"] + BIG)
    marks = {b"-": [b"stat", b"gone"], b"d": [b"ok", b"ok", b"list", b"changed"], b"l": [b"ok", b"ok", b"changed"] if version == 2 else [b"ok"]}
    mark = dice.choice(marks.get(kind, [b"ok"]))
    told = [dice.choice([b"0", b"3"]) if kind == b"d" and mark == b"ok" else b"0" for _ in range(2)]
    line = b" ".join([kind, dice.choice(BIG) if kind == b"f" else b"0", time, mark, *told, escaped(path)])
    if version == 1 or (kind, mark) != (b"l", b"ok") or dice.random() < 0.1:
        return [line]
    return [line, b"> " + escaped(dice.choice(NO_TEXTS if dice.random() < 0.02 else TEXTS))]


def damaged(dice, data):
    lines, at, byte = data.split(b"\n"), dice.randrange(len(data)), bytes([dice.choice(BYTES)])
    one, other = dice.randrange(len(lines)), dice.randrange(len(lines))
    swapped, doubled = list(lines), lines[:one] + [lines[other]] + lines[one:]
    swapped[one], swapped[other] = lines[other], lines[one]
    return dice.choice([data[:at] + data[at + 1:], data[:at] + byte + data[at:], data[:at] + byte + data[at + 1:],
                        b"\n".join(swapped), b"\n".join(doubled)])


def some_list(dice):
    paths, version = some_paths(dice), dice.choice([1, 2, 2])
    lines = [line for path in paths for line in some_lines(dice, path, version)]
    data = b"\n".join([HEADS[version - 1], *lines, b"end %d" % len(paths), b""])
    for _ in range(dice.choice([0, 0, 1, 1, 2])):
        data = damaged(dice, data)
    return data


def printed(told):
    path, kind, size, text = told
    return b"%s %12d %s%s\n" % (kind, size, escaped(path), b"" if text is None else b" -> " + escaped(text))


def is_right(name, data):
    """Whether the program answers as the reader does."""
    run = subprocess.run([PROGRAM, "dwalk", "--input", name], capture_output=True, check=False)
    entries, line = read(data)
    if entries is None:
        return (run.returncode, run.stdout, run.stderr) == (7, b"", b"damaged %s line %d\n" % (name.encode(), line))
    told = b"".join(printed(told) for told in entries if told[1] != b"-")
    return run.returncode in (0, 1) and run.stdout.startswith(told + b"items ") and run.stdout.count(b"\n") == told.count(b"\n") + 1


def main():
    count, seed = (int(word) for word in (sys.argv[1:] + ["10000", "1"][len(sys.argv) - 1:])[:2])
    dice, whole, wrong = random.Random(seed), 0, 0
    with tempfile.TemporaryDirectory(prefix="mfu-lists.") as folder:
        name = os.path.join(folder, "list")
        for turn in range(count):
            data = some_list(dice)
            with open(name, "wb") as file:
                file.write(data)
            whole += read(data)[0] is not None
            if not is_right(name, data):
                wrong += 1
                kept = f"wrong-list-{seed}-{turn}"
                with open(kept, "wb") as file:
                    file.write(data)
                print(f"wrong: {kept}", file=sys.stderr)
    print(f"{count} lists: {whole} whole, {count - whole} damaged, {wrong} wrong")
    return 1 if wrong else 0


if __name__ == "__main__":
    sys.exit(main())
