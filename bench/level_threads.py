#!/usr/bin/env python3
"""Measures how large a level has to be before several threads copy or remove it faster than one.

usage: level_threads.py ONE SEVERAL [FOLDER [ROUNDS]]

ONE and SEVERAL are two builds of the program: in one a level is never worth threads (the constants MANY of `tree_remove` and MANY_ITEMS and
MANY_BYTES of `tree_copy` are the largest numbers), in the other it always is (they are 0). Each tree in FOLDER, /dev/shm where none is given,
is a chain of 60 directories, with so many files of so many bytes in each. It is copied and removed with `--ranks 4 --hosts 4` by both builds
in turn. Told are the medians in milliseconds, and how many microseconds a level gains by threads.

Then 200 files of 2 MB in one directory are copied by both, and by `cp -r`.
"""
import os
import shutil
import statistics
import subprocess
import sys
import time

DEPTH = 60
COPIES = [(4, 100), (16, 100), (32, 100), (64, 100), (128, 100), (4, 65536), (16, 16384), (4, 262144), (16, 65536), (64, 16384)]
REMOVALS = [(4, 100), (16, 100), (32, 100), (64, 100), (128, 100), (200, 100)]


def chain(top, depth, count, size):
    """Makes a chain of directories with files."""
    os.makedirs(top)
    block = os.urandom(1 << 16)
    for level in range(depth):
        for k in range(count):
            with open(f"{top}/f{k:05}", "wb") as file:
                for at in range(0, size, len(block)):
                    file.write(block[: size - at])
        if level < depth - 1:
            top += "/d"
            os.mkdir(top)


def medians(programs, rounds, before, words):
    """The median of the milliseconds of each program, which take turns at the first place."""
    times = [[] for _ in programs]
    for turn in range(rounds):
        for k in range(len(programs)):
            k = (k + turn) % len(programs)
            before()
            begun = time.perf_counter()
            subprocess.run([*programs[k], *words], stdout=subprocess.DEVNULL, check=True)
            times[k].append((time.perf_counter() - begun) * 1000)
    return [statistics.median(them) for them in times]


def main(one, several, folder="/dev/shm", rounds="7"):
    work, rounds = f"{folder}/level-threads", int(rounds)
    source, to = f"{work}/from", f"{work}/to"
    shutil.rmtree(work, ignore_errors=True)
    by_hosts = ["--ranks", "4", "--hosts", "4"]

    def clear():
        shutil.rmtree(to, ignore_errors=True)

    def copy_anew():
        clear()
        subprocess.run(["cp", "-r", source, to], check=True)

    print(f"{os.cpu_count()} processors, load {os.getloadavg()[0]:.1f}")
    for tool, sizes, before, words in (("dcp", COPIES, clear, [source, to]), ("drm", REMOVALS, copy_anew, [to])):
        for count, size in sizes:
            chain(source, DEPTH, count, size)
            alone, by_four = medians([[one, tool, *by_hosts], [several, tool, *by_hosts]], rounds, before, words)
            gain = (alone - by_four) / DEPTH * 1000
            print(f"{tool}, {count} files of {size} bytes a level: {alone:.1f} and {by_four:.1f} ms, a level gains {gain:.0f} us", flush=True)
            shutil.rmtree(work)
    chain(source, 1, 200, 2000000)
    found = medians([[one, "dcp", *by_hosts], [several, "dcp", *by_hosts], ["cp", "-r"]], rounds, clear, [source, to])
    print("200 files of 2 MB: " + ", ".join(f"{name} {it:.0f} ms" for name, it in zip(("one thread", "several", "cp -r"), found)))
    shutil.rmtree(work)


main(*sys.argv[1:])
