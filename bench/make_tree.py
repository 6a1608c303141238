#!/usr/bin/env python3
"""Makes a tree of files, directories and links, the same tree each time for the same words.

usage: make_tree.py DIR ENTRIES [SEED [full | BYTES]]

DIR must not be there yet. As in the trees of real projects, few directories hold many files and most hold a few, names have
3 to 40 bytes and sometimes blanks or bytes beyond ASCII, and one entry in a hundred is a link, every second one to nothing. Files are empty; with `full` each but one in twenty has bytes,
most a few KiB and one in a hundred some 200 KiB; with a number each has some bytes, as many as that on average and less than twice
as many.
The last line printed says how many entries there are with DIR itself, and how many bytes their paths have on average.
"""
import os
import random
import sys

LETTERS = "abcdefghijklmnopqrstuvwxyz0123456789_-"
ENDINGS = [".c", ".h", ".rs", ".py", ".o", ".txt", ".md", ".json", ".png", ""]
DEEPEST = 5


def new_name(draw, ending):
    stem = "".join(draw.choices(LETTERS, k=min(36, max(3, int(draw.lognormvariate(2.3, 0.5))))))
    return stem + draw.choices(["", " z", "\u00e9\u4e2d"], [98, 1, 1])[0] + ending


def make_file(path):
    os.close(os.open(path, os.O_CREAT | os.O_EXCL | os.O_WRONLY))


def new_size(draw, size):
    """How many bytes a file has, of a full tree or of one whose files have `size` on average."""
    if size != "full":
        return draw.randrange(1, 2 * int(size))
    middle, spread = draw.choices([(7.2, 1.2), (9.5, 1.0), (12.0, 1.0)], [80, 19, 1])[0]
    return int(draw.lognormvariate(middle, spread)) if draw.randrange(20) else 0


def fill(draw, path, size):
    with open(path, "wb") as file:
        file.write(draw.randbytes(new_size(draw, size)))


def put(draw, folder, make, ending):
    """Makes an entry under a name that is not taken yet, and answers its path."""
    while True:
        path = os.path.join(folder, new_name(draw, ending))
        try:
            make(path)
            return path
        except FileExistsError:
            pass


def put_leaf(draw, folder):
    """Makes a file, or one time in a hundred a link."""
    if draw.randrange(100):
        return put(draw, folder, make_file, draw.choice(ENDINGS))
    target = draw.choice(["absent", "."])
    return put(draw, folder, lambda path: os.symlink(target, path), "")


def fill_size(draw):
    """How many files and links a directory holds."""
    low, high = draw.choices([(1, 30), (31, 120), (200, 1200)], [920, 75, 5])[0]
    return draw.randint(low, high)


def make_tree(top, entries, seed, size):
    """Makes directories below those that there are, each with its files, until there are so many entries. Without a size all are empty."""
    draw, draw_bytes = random.Random(seed), random.Random(seed)
    os.makedirs(top)
    made, length = 1, len(os.fsencode(top))
    shallow = [(top, 0)]
    while made < entries:
        parent, depth = draw.choice(shallow)
        folder = put(draw, parent, os.mkdir, "")
        if depth + 1 < DEEPEST:
            shallow.append((folder, depth + 1))
        leaves = [put_leaf(draw, folder) for _ in range(min(fill_size(draw), entries - made - 1))]
        for path in leaves if size else []:
            if not os.path.islink(path):
                fill(draw_bytes, path, size)
        made += 1 + len(leaves)
        length += sum(len(os.fsencode(path)) for path in [folder, *leaves])
    print("entries", made, "bytes a path", length // made)


if __name__ == "__main__":
    given = sys.argv[1:] + ["1", ""][len(sys.argv) - 3 :]
    if len(given) != 4 or not (given[3] in ("", "full") or given[3].isdigit() and int(given[3])):
        sys.exit(__doc__)
    make_tree(os.path.abspath(given[0]), int(given[1]), int(given[2]), given[3])
