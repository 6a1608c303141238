#!/usr/bin/env python3
"""Compares what `mfu dwalk` prints with what GNU find tells of the same trees. usage: find_lines.py [-p PROGRAM] [TREE ...]

Without trees these are /usr, /etc and a tree of odd links that is made for it: texts and names with control bytes, backslashes, arrows and letters
beyond ASCII, a text of 4,095 bytes, links that lead nowhere, to themselves, in a circle and up, and texts that are not UTF-8. find tells kind, size,
path and text of each entry (`%y %s %p %l`). They are put in path order, escaped, and made into the lines, the summary and the notes of dwalk, which
has to print just that: by one rank, by 8 on four threads, and from the list that it saved. The exit status is 1 where it did not.
"""
import argparse
import os
import subprocess
import sys
import tempfile

HERE = os.path.dirname(os.path.realpath(__file__))
RUNS = (("--ranks", "1"), ("--ranks", "8", "--hosts", "4"))
KINDS = {b"f": b"f", b"d": b"d", b"l": b"l"}
CONTROLS = [bytes([byte]) * 3 for byte in (*range(1, 32), 92, 127)]
PLAIN = [b"a", b"nowhere", b"../a", b"..", b"/", b"//usr/../bin/", b"a b", b" a ", b"a -> b", b"-> ", b"> a"]
ODD = [b"\\x41", b"\\", b"a\nb\n", "\u00e4\u20ac\U0001f600".encode(), b"t" * 4095]
NO_TEXTS = [b"\xff", b"a\xc3", b"\xed\xa0\x80"]
TEXTS = CONTROLS + PLAIN + ODD + NO_TEXTS


def make_odd_links(top):
    os.mkdir(top)
    with open(os.path.join(top, b"a"), "wb") as file:
        file.write(b"bytes")
    for number, text in enumerate(TEXTS):
        os.symlink(text, os.path.join(top, b"text%03d" % number))
        if b"/" not in text and len(text) < 200 and text not in (b"a", b".."):
            os.symlink(b"a", os.path.join(top, b"name " + text))
    os.symlink(b"self", os.path.join(top, b"self"))
    for one, other in ((b"left", b"right"), (b"right", b"left")):
        os.symlink(other, os.path.join(top, one))
    os.makedirs(os.path.join(top, b"deep/er"))
    os.symlink(b"../..", os.path.join(top, b"deep/er/up"))


def is_text(name):
    try:
        name.decode()
    except UnicodeDecodeError:
        return False
    return True


def escaped(name):
    return b"".join(b"\\x%02X" % byte if byte < 32 or byte in (92, 127) else bytes([byte]) for byte in name)


def in_order(path):
    """Path order: `/` before every other byte."""
    return [0 if byte == 47 else byte + 1 for byte in path]


def told(tree):
    """What find tells of each entry: its path, its kind as dwalk has it, its size and its text."""
    run = subprocess.run(["find", tree, "-printf", r"%y\0%s\0%p\0%l\0"], capture_output=True, check=True)
    words = run.stdout.split(b"\0")[:-1]
    entries = [(path, KINDS.get(kind, b"o"), int(size) if kind == b"f" else 0, text)
               for kind, size, path, text in zip(words[0::4], words[1::4], words[2::4], words[3::4])]
    return sorted(entries, key=lambda entry: in_order(entry[0]))


def as_printed(tree):
    """What dwalk has to print, and its notes. A name that is not UTF-8 is left out, with all below it, and counted at its directory."""
    lines, notes, unnamed, count = [], [], {}, dict.fromkeys((b"d", b"f", b"l", b"o"), 0)
    sizes = 0
    for path, kind, size, text in told(tree):
        if not is_text(path):
            over, _, _ = path.rpartition(b"/")
            if is_text(over):
                unnamed[over] = unnamed.get(over, 0) + 1
        elif kind == b"l" and not is_text(text):
            notes.append((path, b"failed stat " + escaped(path)))
        else:
            lines.append(b"%s %12d %s%s\n" % (kind, size, escaped(path), b" -> " + escaped(text) if kind == b"l" else b""))
            count[kind] += 1
            sizes += size
    notes += [(path, b"unnamed %s %d" % (escaped(path), number)) for path, number in unnamed.items()]
    notes = [line + b"\n" for _, line in sorted(notes, key=lambda note: in_order(note[0]))]
    dirs, files, links, others = (count[kind] for kind in (b"d", b"f", b"l", b"o"))
    lines.append(b"items %d dirs %d files %d links %d others %d bytes %d failed %d\n" % (len(lines), dirs, files, links, others, sizes, len(notes)))
    return b"".join(lines), b"".join(notes)


def is_alike(program, words, tree, want):
    out, notes = want
    run = subprocess.run([program, "dwalk", *words], capture_output=True, check=False)
    alike = (run.returncode, run.stdout, run.stderr) == (1 if notes else 0, out, notes)
    lines, links, failures = (text.count(mark) for text, mark in ((out, b"\n"), (out, b"\nl "), (notes, b"\n")))
    print(f"{'alike' if alike else 'WRONG'}: dwalk {' '.join(words)}: {lines - 1} lines, {links} of links, {failures} notes")
    if not alike:
        ours, theirs = run.stdout.splitlines(), out.splitlines()
        different = next((pair for pair in zip(ours, theirs) if pair[0] != pair[1]), (len(ours), len(theirs)))
        print(f"  the first that differs: {different}; notes {run.stderr[:200]!r}, status {run.returncode}")
    return alike


def main():
    words = argparse.ArgumentParser()
    words.add_argument("-p", "--program", default=os.path.join(HERE, "..", "crates", "mfu", "out", "mfu"))
    words.add_argument("trees", nargs="*")
    asked = words.parse_args()
    wrong = 0
    with tempfile.TemporaryDirectory(prefix="mfu-find.") as folder:
        odd, saved = os.path.join(folder, "odd"), os.path.join(folder, "list")
        make_odd_links(odd.encode())
        for tree in asked.trees or ["/usr", "/etc", odd]:
            want = as_printed(tree)
            runs = [(*run, tree) for run in RUNS] + [("--output", saved, tree), ("--input", saved)]
            wrong += sum(not is_alike(asked.program, run, tree, want) for run in runs)
    print(f"{wrong} wrong")
    return 1 if wrong else 0


if __name__ == "__main__":
    sys.exit(main())
