#!/usr/bin/env python3
"""Times two programs of this repository over the same trees, in turn. usage: versions.py NEW OLD [-n ROUNDS] [-f FOLDER] [-s ENTRIES] [-t 1|4] [TASK ..]

The tasks are walk, usr (a walk of /usr), input, find, cmp, cp and rm; all of them where none is given. Each is run with one rank and, but for
input, by 8 ranks on four threads. The trees are made in FOLDER, /dev/shm by default, and removed at the end: one with ENTRIES (100,000 by
default) and one in a hundred of them a link, and its copy. Before each cp its destination is removed, and before each rm a copy is made; neither is
counted. A program reads the list that it has written itself. Told are the medians of the seconds of a processor of both, and of NEW's over
OLD's in the same round, with the lowest and the highest; then the same of wall seconds. Seconds of a processor are what a loaded machine
can measure with one thread.
"""
import argparse
import os
import resource
import shutil
import statistics
import subprocess
import sys
import tempfile
import time

HERE = os.path.dirname(os.path.abspath(__file__))
TASKS = ("walk", "usr", "input", "find", "cmp", "cp", "rm")
ONE, FOUR = ("--ranks", "1"), ("--ranks", "8", "--hosts", "4")


def took(words):
    """The seconds of a processor and the wall seconds of a run."""
    before, start = resource.getrusage(resource.RUSAGE_CHILDREN), time.perf_counter()
    with tempfile.TemporaryFile() as out:
        subprocess.run(words, stdin=subprocess.DEVNULL, stdout=out, stderr=subprocess.DEVNULL, check=False)
    wall, after = time.perf_counter() - start, resource.getrusage(resource.RUSAGE_CHILDREN)
    return after.ru_utime - before.ru_utime + after.ru_stime - before.ru_stime, wall


class Place:
    """The trees, and what a task needs before and after a run."""

    def __init__(self, folder, entries):
        self.work = tempfile.mkdtemp(prefix="mfu-versions.", dir=folder)
        self.tree, self.copy, self.made = f"{self.work}/tree", f"{self.work}/copy", f"{self.work}/made"
        subprocess.run([sys.executable, f"{HERE}/make_tree.py", self.tree, str(entries), "1", "100"], check=True, stdout=subprocess.DEVNULL)
        subprocess.run(["cp", "-a", self.tree, self.copy], check=True)

    def words(self, task, name, options):
        return {
            "walk": ["dwalk", *options, self.tree],
            "usr": ["dwalk", *options, "/usr"],
            "input": ["dwalk", "--input", f"{self.work}/list-{name}"],
            "find": ["dfind", *options, "--name", "*.c", self.tree],
            "cmp": ["dcmp", *options, self.tree, self.copy],
            "cp": ["dcp", *options, self.tree, self.made],
            "rm": ["drm", *options, self.made],
        }[task]

    def make_ready(self, task, name, program):
        if task in ("cp", "rm"):
            shutil.rmtree(self.made, ignore_errors=True)
        if task == "rm":
            subprocess.run(["cp", "-a", self.tree, self.made], check=True)
        listed = f"{self.work}/list-{name}"
        if task == "input" and not os.path.exists(listed):
            subprocess.run([program, "dwalk", "--output", listed, self.tree], check=True, stdout=subprocess.DEVNULL)


def told(task, options, runs):
    line = f"{task:6}{options[-1] if len(options) > 2 else 1} thread{'s' if len(options) > 2 else ''}:"
    for at, what in ((0, "of a processor"), (1, "of wall time")):
        ratios = [new[at] / old[at] for new, old in zip(runs["new"], runs["old"])]
        new, old = (statistics.median(run[at] for run in runs[name]) for name in ("new", "old"))
        line += f"  {statistics.median(ratios):.3f} ({min(ratios):.2f} to {max(ratios):.2f}; {new:.3f} s, {old:.3f} s) {what}"
    print(line, flush=True)


def main():
    words = argparse.ArgumentParser(usage=__doc__)
    words.add_argument("-n", type=int, default=9)
    words.add_argument("-f", default="/dev/shm")
    words.add_argument("-s", type=int, default=100000)
    words.add_argument("-t", choices=("1", "4", "both"), default="both")
    words.add_argument("new")
    words.add_argument("old")
    words.add_argument("tasks", nargs="*", metavar="TASK")
    given = words.parse_intermixed_args()
    place = Place(given.f, given.s)
    programs = {"new": os.path.abspath(given.new), "old": os.path.abspath(given.old)}
    try:
        for task in given.tasks or TASKS:
            for options in (ONE, FOUR):
                if (task == "input" and options == FOUR) or given.t not in ("both", "1" if options == ONE else "4"):
                    continue
                runs = {"new": [], "old": []}
                for count in range(given.n + 1):
                    for name in ("new", "old") if count % 2 else ("old", "new"):
                        place.make_ready(task, name, programs[name])
                        run = took([programs[name], *place.words(task, name, options)])
                        if count:
                            runs[name].append(run)
                told(task, options, runs)
    finally:
        shutil.rmtree(place.work)


if __name__ == "__main__":
    main()
