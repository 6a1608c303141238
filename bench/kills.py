#!/usr/bin/env python3
"""Kills a stage that writes its checkpoint, and looks whether the next one prints what the walk prints or says that there is none.

usage: kills.py [PROGRAM [KILLS]]

A walk of a tree of 3,000 entries is stopped, which leaves a checkpoint. Then, KILLS times (300 by default), a stage that goes on from a
copy of it, and stops again, is killed at a random moment, and a last stage goes on from what then stands in the folder. With
status 0 or 1 it has to print what the walk prints that nothing stopped; else it has to end with 7 or 8, and print nothing.
The last line counts the answers by status, and those that were wrong.
"""
import os
import random
import shutil
import subprocess
import sys
import tempfile
import time


def run(*words):
    done = subprocess.run(words, capture_output=True, check=False)
    return done.returncode, done.stdout


def main():
    here = os.path.dirname(os.path.abspath(__file__))
    program = os.path.abspath(sys.argv[1] if len(sys.argv) > 1 else os.path.join(here, "../crates/mfu/out/mfu"))
    kills = int(sys.argv[2]) if len(sys.argv) > 2 else 300
    work = tempfile.mkdtemp(prefix="mfu_kills_")
    tree, first, lists = f"{work}/tree", f"{work}/first", f"{work}/lists"
    subprocess.run([sys.executable, os.path.join(here, "make_tree.py"), tree, "3000"], check=True, stdout=subprocess.DEVNULL)
    os.mkdir(first)
    _, whole = run(program, "dwalk", tree)
    run(program, "dwalk", "--stop-after", "300", "--lists", first, tree)
    stage = [program, "dwalk", "--restart", "--stop-after", "300", "--lists", lists]
    shutil.copytree(first, lists)
    start = time.monotonic()
    run(*stage)
    longest = time.monotonic() - start
    draw, answers, wrong = random.Random(1), {}, 0
    for _ in range(kills):
        shutil.rmtree(lists)
        shutil.copytree(first, lists)
        child = subprocess.Popen(stage, stdout=subprocess.DEVNULL, stderr=subprocess.DEVNULL)
        time.sleep(draw.uniform(0, longest * 1.2))
        child.kill()
        child.wait()
        status, text = run(program, "dwalk", "--restart", "--lists", lists)
        answers[status] = answers.get(status, 0) + 1
        if (text != whole) if status in (0, 1) else (status not in (7, 8) or text):
            wrong += 1
            print(f"WRONG: status {status}, and {'another text' if text else 'nothing'}")
    shutil.rmtree(work)
    print(f"{kills} kills:", ", ".join(f"{count} with status {status}" for status, count in sorted(answers.items())), f"- {wrong} wrong")
    return 1 if wrong else 0


if __name__ == "__main__":
    sys.exit(main())
