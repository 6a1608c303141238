#!/usr/bin/env python3
"""Measures the processor minutes of the gate by crate, and makes the table of docs/GATE.md from them.

usage: gate_minutes.py watch LOG COMMAND...   runs COMMAND, as `rt ci --anew`, and writes LOG
       gate_minutes.py LOG                    makes the table of docs/GATE.md from LOG

Twice a second `watch` reads the processor time of each process below COMMAND, with that of the children that it waited for. The words of a process
give its crate and its work: it proves the crate, proves or runs its tests, runs its program, or tries its must-fail edits. A line of LOG is a crate, one
of proof, tests, edits, and the seconds of one processor; its last line is `all` with the seconds of all processes. The exit status of `watch` is that
of COMMAND.
"""
import os
import re
import resource
import subprocess
import sys
import time

TOP = os.path.dirname(os.path.dirname(os.path.realpath(__file__)))
PAGE = os.path.join(TOP, "docs", "GATE.md")
PARTS = ("proof", "tests", "edits")
LIMIT = 270
BEGIN, END = "<!-- Made by contrib/gate_minutes.py -->\n", "<!-- end -->\n"


def text_of(name):
    with open(name, "rb") as file:
        return file.read().decode(errors="replace")


def processes():
    """Each process by its number: its parent, its start, and the processor seconds of it and of the children that it waited for."""
    tick, found = os.sysconf("SC_CLK_TCK"), {}
    for name in os.listdir("/proc"):
        if name.isdigit():
            try:
                fields = text_of(f"/proc/{name}/stat").rpartition(") ")[2].split()
            except OSError:
                continue
            found[int(name)] = int(fields[1]), int(fields[19]), sum(map(int, fields[11:15])) / tick
    return found


def work_of(process):
    """The crate for which a process works and the part of the work, or None."""
    try:
        words, folder = text_of(f"/proc/{process}/cmdline").split("\0"), os.readlink(f"/proc/{process}/cwd")
    except OSError:
        return None
    ran = next((m for m in (re.search(r"/rt-run-[^/]*/bin/(\w+?)(_tests)?$", word) for word in words) if m), None)
    if ran:
        return ran[1], "tests" if ran[2] else "proof"
    if "--crate-name" not in words:
        return None
    crate = words[words.index("--crate-name") + 1]
    if "/rt-edit-" in folder + "/":
        return crate, "edits"
    return crate, "tests" if "--test" in words else "proof"


def works_below(top, works):
    """The processor seconds of each process below one that works for a crate, with all below it, by its number and its start."""
    found, below, seconds = processes(), {}, {}
    for process, (parent, _, _) in found.items():
        below.setdefault(parent, []).append(process)

    def spent(process):
        return found[process][2] + sum(map(spent, below.get(process, [])))

    def look(process):
        name = process, found[process][1]
        works[name] = works.get(name) or work_of(process)
        if works[name]:
            seconds[name] = spent(process)
        else:
            for child in below.get(process, []):
                look(child)

    if top in found:
        look(top)
    return seconds


def watch(log, command):
    started = subprocess.Popen(command)
    works, seconds = {}, {}
    while started.poll() is None:
        for process, spent in works_below(started.pid, works).items():
            seconds[process] = max(spent, seconds.get(process, 0))
        time.sleep(0.5)
    sums = {}
    for process, spent in seconds.items():
        sums[works[process]] = sums.get(works[process], 0) + spent
    used = resource.getrusage(resource.RUSAGE_CHILDREN)
    with open(log, "w", encoding="utf-8") as file:
        for (crate, part), spent in sorted(sums.items()):
            file.write(f"{crate} {part} {spent:.1f}\n")
        file.write(f"all {used.ru_utime + used.ru_stime:.1f}\n")
    return started.returncode


def table_of(log):
    """The table as lines of Markdown, crates in the order of crates.txt."""
    minutes, whole = {}, None
    for line in text_of(log).splitlines():
        words = line.split()
        if len(words) == 2 and words[0] == "all":
            whole = float(words[1]) / 60
        elif len(words) == 3 and words[1] in PARTS:
            minutes.setdefault(words[0], {})[words[1]] = float(words[2]) / 60
    if not minutes or whole is None:
        sys.exit(f"{log} is not a log of gate_minutes.py watch")
    crates = [line.split(":")[0].split()[0] for line in text_of(os.path.join(TOP, "crates.txt")).splitlines() if ":" in line]
    sums = {part: sum(found.get(part, 0) for found in minutes.values()) for part in PARTS}
    shown = lambda value: f"{value:.1f}" if value >= 0.05 else ""
    lines = ["| Crate | Proof | Tests | Must-fail edits | All |", "|---|---|---|---|---|"]
    for crate in sorted(minutes, key=lambda name: (crates.index(name) if name in crates else len(crates), name)):
        found = minutes[crate]
        lines.append(f"| `{crate}` | " + " | ".join(shown(found.get(part, 0)) for part in PARTS) + f" | {shown(sum(found.values()))} |")
    other = whole - sum(sums.values())
    lines.append(f"| compilers, links and `rt` itself | | | | {shown(other)} |")
    lines.append("| all | " + " | ".join(shown(sums[part]) for part in PARTS) + f" | **{whole:.1f}** |")
    if whole > LIMIT:
        print(f"gate_minutes.py: {whole:.0f} processor minutes are more than {LIMIT}", file=sys.stderr)
    return "\n".join(lines).replace("|  |", "| |").replace("|  |", "| |") + "\n"


def main(words):
    if len(words) > 2 and words[0] == "watch":
        return watch(words[1], words[2:])
    if len(words) != 1:
        sys.exit(__doc__)
    page = text_of(PAGE)
    begin, end = page.index(BEGIN) + len(BEGIN), page.index(END)
    with open(PAGE, "w", encoding="utf-8") as file:
        file.write(page[:begin] + "\n" + table_of(words[0]) + "\n" + page[end:])
    return 0


if __name__ == "__main__":
    sys.exit(main(sys.argv[1:]))
