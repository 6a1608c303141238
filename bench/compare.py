#!/usr/bin/env python3
"""Times commands in turn, and prints the median of each and of its ratio to the first.

usage: compare.py [-n ROUNDS] [-e ENTRIES] NAME=COMMAND NAME=COMMAND ..

A round runs each command once by `sh -c`, beginning with another one each time, so that a slow moment of the machine meets all
of them; one more round before the others is not counted. Standard output goes to a file, since some programs do less where it
is /dev/null. The ratio is ours/theirs of the wall time of one round, where the first command is ours: below 1 ours is faster. The last
column has the same of the seconds of a processor, which other work on the machine changes less.
With the number of entries of the tree, the peak memory is told in bytes an entry too. It needs GNU time.
"""
import argparse
import os
import shutil
import statistics
import subprocess
import sys
import tempfile
import time


def run(command, folder):
    """The wall seconds, the processor seconds and the peak KiB of one run, and its exit status."""
    told = os.path.join(folder, "time")
    with open(os.path.join(folder, "out"), "wb") as out:
        start = time.perf_counter()
        status = subprocess.run(
            ["time", "-q", "-f", "%U %S %M", "-o", told, "sh", "-c", command], stdin=subprocess.DEVNULL, stdout=out, check=False
        ).returncode
        wall = time.perf_counter() - start
    with open(told) as lines:
        user, system, peak = lines.read().split()
    return wall, float(user) + float(system), int(peak), status


def measure(commands, rounds, folder):
    """What each command's runs took, by its name."""
    runs = {name: [] for name, _ in commands}
    for count in range(rounds + 1):
        turn = count % len(commands)
        for name, command in commands[turn:] + commands[:turn]:
            took = run(command, folder)
            if count > 0:
                runs[name].append(took)
    return runs


def report(runs, entries):
    first = next(iter(runs.values()))
    print(f"{'':10} {'wall s':>8} {'cpu s':>8} {'ours/it':>8} {'from':>6} {'to':>6} {'MiB':>8}" + (f" {'B/entry':>8}" if entries else "") + f" {'cpu/its':>8}")
    for name, took in runs.items():
        ratios = [ours[0] / its[0] for ours, its in zip(first, took)]
        of_processor = statistics.median(ours[1] / max(its[1], 0.01) for ours, its in zip(first, took))
        wall, cpu, peak = (statistics.median(run[i] for run in took) for i in range(3))
        row = f"{name:10} {wall:8.3f} {cpu:8.3f} {statistics.median(ratios):8.2f} {min(ratios):6.2f} {max(ratios):6.2f} {peak / 1024:8.1f}"
        row += f" {peak * 1024 / entries:8.0f}" if entries else ""
        row += f" {of_processor:8.2f}"
        failed = {run[3] for run in took} - {0}
        print(row + (f"  status {sorted(failed)}" if failed else ""))


def main():
    words = argparse.ArgumentParser(usage=__doc__)
    words.add_argument("-n", type=int, default=11)
    words.add_argument("-e", type=int, default=0)
    words.add_argument("commands", nargs="+", metavar="NAME=COMMAND")
    given = words.parse_args()
    if shutil.which("time") is None:
        sys.exit("compare.py needs the program `time`")
    folder = tempfile.mkdtemp(prefix="compare")
    try:
        report(measure([tuple(c.split("=", 1)) for c in given.commands], given.n, folder), given.e)
    finally:
        shutil.rmtree(folder)


if __name__ == "__main__":
    main()
