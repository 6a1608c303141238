#!/usr/bin/env python3
"""Lets system calls of the program fail, one at a time, and looks whether it says so and does all else.

usage: faults.py [PROGRAM [each] [TOOL ..]]

Each tool runs over a small tree, in which only the user can write, and then over one in which everybody can, so that its directories
are guarded. It runs once undisturbed under strace, which tells its calls. Then, for each kind of call and each error, it
runs over a fresh tree with the first, a middle and the last of these calls failing, by `strace -e inject`. Looked at is:

- the status: 0, where the call was tried again and all is as undisturbed; else the one that the cause asks for: 1 where a path is
  named, 4 for standard output, 8 for a list file; never a signal or another one;
- that a path is named that has to do with the call, and that no path is named besides but those that its failure takes along;
- that what is printed is what is printed undisturbed, less what the named paths take along;
- that every other path of the disk is as after the undisturbed run.

With the word `each` every call fails in turn, with the first error alone. The last line counts the tries and those that were wrong. It
wants strace.
"""
import os
import re
import shutil
import subprocess
import sys
import tempfile

CALLS = ["statx", "openat", "getdents64", "read", "pread64", "write", "pwrite64", "unlink", "rmdir", "mkdir",
         "readlink", "symlink"]
ERRORS = ["EIO", "ENOSPC", "EACCES", "EMFILE", "ENOMEM", "EINTR"]
ESCAPED = re.compile(rb"\\x([0-9A-F]{2})")


def make(top, mode):
    """Makes the trees that the tools run over: `t`, a similar `u`, a folder `d` to copy into, and a list file `l`.

    Directories have the mode.
    """
    for name in ("t", "u"):
        for folder in ("", "/a", "/a/deep", "/b", "/empty"):
            os.makedirs(f"{top}/{name}{folder}")
        for number in range(3):
            for folder in ("", "/a", "/a/deep", "/b"):
                with open(f"{top}/{name}{folder}/f{number}", "wb") as file:
                    file.write(bytes([number]) * (70000 * number + 10))
    os.symlink("f0", f"{top}/t/a/l")
    os.symlink("f0", f"{top}/t/b/l")
    os.symlink("f1", f"{top}/u/b/l")
    os.makedirs(f"{top}/u/old/deep")
    with open(f"{top}/u/old/f", "wb") as file:
        file.write(b"old")
    with open(f"{top}/u/b/f2", "r+b") as file:
        file.write(b"other")
    os.mkdir(f"{top}/d")
    with open(f"{top}/l", "w", encoding="ascii") as file:
        file.write("mfu list 1\nf 5 - ok 0 0 /x\nend 1\n")
    for folder, folders, files in os.walk(top):
        os.chmod(folder, mode)
        for name in [*folders, *files]:
            os.utime(os.path.join(folder, name), (86400, 86400), follow_symlinks=False)


def tools(top):
    """What is run, by a name: the words, and what the failures may be told of (`disk`, `list`)."""
    return {
        "dwalk": ["dwalk", "--ranks", "2", f"{top}/t"],
        "dwalk-output": ["dwalk", "--output", f"{top}/o", f"{top}/t"],
        "dwalk-input": ["dwalk", "--input", f"{top}/l"],
        "dfind": ["dfind", "--name", "f*", "--newer", f"{top}/l", f"{top}/t"],
        "dcmp": ["dcmp", "-o", f"EXIST=COMMON:{top}/o", f"{top}/t", f"{top}/u"],
        "dcp": ["dcp", f"{top}/t", f"{top}/d"],
        "dcp-range": ["dcp", "--range", "30000", "--ranks", "3", f"{top}/t", f"{top}/d"],
        "ddup": ["ddup", f"{top}/t", f"{top}/u"],
        "dsync": ["dsync", "--delete", f"{top}/t", f"{top}/u"],
        "drm": ["drm", f"{top}/t"],
    }


def state(top):
    """The paths on the disk, with the bytes of files and the texts of links."""
    found = {}
    for folder, folders, files in os.walk(top):
        for name in folders:
            found[os.path.join(folder, name)] = "folder"
        for name in files:
            path = os.path.join(folder, name)
            if os.path.islink(path):
                found[path] = os.readlink(path)
                continue
            with open(path, "rb") as file:
                found[path] = file.read()
    return found


def run(program, words, work, inject=None, log=None):
    """Runs the program under strace, and answers status, lines of output and lines of notes."""
    options = ["-e", "signal=none", "-qq", "-f", "-y", "-s", "0", "-o", log or os.devnull]
    options += ["-e", f"trace={inject.split(':')[0]}", "-e", f"inject={inject}"] if inject else ["-e", "trace=" + ",".join([*CALLS, "chdir"])]
    with open(f"{work}/out", "wb") as out, open(f"{work}/notes", "wb") as notes:
        status = subprocess.run(["strace", *options, program, *words], stdin=subprocess.DEVNULL, stdout=out, stderr=notes, check=False).returncode
    with open(f"{work}/out", "rb") as out, open(f"{work}/notes", "rb") as notes:
        return status, out.read().splitlines(), notes.read().splitlines()


def calls_in(log, top):
    """The numbers and paths of the calls of each kind that have to do with the tree or with the outputs.

    A path in an open directory, as /proc/self/fd/N/NAME, counts as one below the path by which that was opened; a look at the directory
    over a directory counts as one at the latter. A name alone counts as one in the working directory.
    """
    counts, found, opened, here = dict.fromkeys(CALLS, 0), {name: [] for name in CALLS}, {}, ""
    with open(log, encoding="utf-8", errors="replace") as lines:
        for line in lines:
            line = re.sub(r"AT_FDCWD<[^>]*>", "AT_FDCWD", line)
            told = re.match(r"\d+\s+(\w+)\((.*)", line)
            if told and told[1] == "chdir" and told[2].endswith(" = 0"):
                here = re.search(r'"([^"]*)"', told[2])[1]
            if not told or told[1] not in counts:
                continue
            counts[told[1]] += 1
            line = re.sub(r"/proc/self/fd/(\d+)(?=/)", lambda name: opened.get(name[1], name[0]), line)
            told = re.match(r"\d+\s+(\w+)\((.*)", line)
            made = re.search(r"= (\d+)<([^>]*)>", told[2])
            if made:
                opened[made[1]] = made[2]
            path = re.search(rf"[\"<]({re.escape(top)}/[^\">]*)", told[2])
            names = re.findall(r'"([^"]*)"(?!\.)', told[2])
            if names and names[-1] and not names[-1].startswith("/"):
                path = re.match(rf"({re.escape(top)}/.*)", f"{here}/{names[-1]}")
            if path:
                found[told[1]].append((counts[told[1]], re.sub(r"(/\.\.)+/?$", "", path[1])))
    return found


def path_of(note):
    """The path that a note names."""
    at = note.find(b"/")
    text = re.sub(rb" \d+$", b"", note[at:]) if note.startswith((b"unnamed", b"too long")) else note[at:]
    return ESCAPED.sub(lambda byte: bytes([int(byte[1], 16)]), text).decode()


def is_near(one, other):
    return one == other or one.startswith(other + "/") or other.startswith(one + "/")


def source_of(tool, top, path):
    """The path of the source whose target this is, or the path itself."""
    target = {"dcp": f"{top}/d/t", "dsync": f"{top}/u"}.get(tool.partition("-")[0])
    return f"{top}/t{path[len(target):]}" if target and (path == target or path.startswith(f"{target}/")) else path


def wrong_in(tool, top, path, plain, now):
    """What is wrong with a run in which the call at the path failed, beside the undisturbed one, or None."""
    (status, out, notes), before = plain
    (new_status, new_out, new_notes), after = now
    if new_status == status and (new_out, new_notes, after) == (out, notes, before):
        return None
    if path in (f"{top}/out", f"{top}/notes"):
        return None if new_status == 4 or path.endswith("notes") else f"status {new_status} of a failed output"
    if new_status == 8:
        fits = path in (f"{top}/o", f"{top}/l", top) and new_notes in ([f"list fault {file}".encode()] for file in (f"{top}/o", f"{top}/l"))
        return None if fits and not new_out else f"status 8 with {new_notes}"
    if new_status == 3:
        return None if new_notes == [b"out of memory"] and not new_out else f"status 3 with {new_notes}"
    if new_status != 1:
        return f"status {new_status}"
    named = [path_of(note) for note in new_notes if note not in notes]
    if not named:
        return "nothing is named"
    near = {*named, *(source_of(tool, top, one) for one in named)}
    source = source_of(tool, top, path)
    if not any(is_near(source, one) or is_near(os.path.dirname(source), one) for one in near):
        return f"named are {named}"
    off = lambda one: any(is_near(path, other) for path in (one, source_of(tool, top, one)) for other in near)
    differ = [one for one in {**before, **after} if before.get(one) != after.get(one) and not off(one) and one != f"{top}/o"]
    return f"on the disk differ {differ}" if differ else None


def main():
    program = os.path.abspath(sys.argv[1] if len(sys.argv) > 1 else os.path.join(os.path.dirname(__file__), "../crates/mfu/out/mfu"))
    work = os.path.realpath(tempfile.mkdtemp(prefix="faults"))
    top, tried, wrong, by_status = f"{work}/tree", 0, 0, {}
    chosen = sys.argv[2:]
    is_each = "each" in chosen
    asked = [tool for tool in chosen if tool != "each"]
    errors = ERRORS[:1] if is_each else ERRORS

    def fresh():
        shutil.rmtree(top, ignore_errors=True)
        os.mkdir(top)
        make(top, mode)

    for mode, (tool, words) in ((mode, each) for mode in (0o755, 0o777) for each in tools(top).items()):
        os.umask(0o777 - mode)
        if asked and tool not in asked:
            continue
        fresh()
        plain = run(program, words, work, log=f"{work}/log"), state(top)
        for call, found in calls_in(f"{work}/log", work).items():
            places = range(len(found)) if is_each else (0, len(found) // 2, len(found) - 1)
            for number, path in {found[k] for k in places} if found else ():
                for error in errors:
                    fresh()
                    now = run(program, words, work, f"{call}:error={error}:when={number}"), state(top)
                    fault = wrong_in(tool, top, path.replace(work + "/out", top + "/out").replace(work + "/notes", top + "/notes"), plain, now)
                    tried += 1
                    by_status[now[0][0]] = by_status.get(now[0][0], 0) + 1
                    if fault:
                        wrong += 1
                        print(f"WRONG: {tool}, mode {mode:o}: {call} {number} of {path[len(work):]} with {error}: {fault}")
    shutil.rmtree(work)
    print("statuses:", " ".join(f"{status}: {count}" for status, count in sorted(by_status.items())))
    print(f"tries: {tried} wrong: {wrong}")
    sys.exit(wrong > 0)


if __name__ == "__main__":
    main()
