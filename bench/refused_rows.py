#!/usr/bin/env python3
"""Refuses the runs of the worked rows memory, one allocation at a time, over files in memory.

usage: refused_rows.py [PROGRAM [ROW ..]]

The program is made here: a crate in a new folder beside copies of the crates below it, which makes made-up trees in memory, runs the words that
it is given over them, and tells the status, both texts and what is left. It is proved and built by `rt run`, which is quick where
`rt check` went through the crates before; where PROGRAM is given it is such a program that was built before.

Each row is run once, which must come to what the row says and tells how often the run asks for memory; and then once for each of these
times, in which the system has none. The shim is that of refusals.py, and counts what is asked for in the run alone. Looked at is: all is
as the row says; or the status is 3, nothing was printed but the one note `out of memory`, and all that is in memory stands as before but
the lists that were to be written, the targets of dcp and what drm chose. Each row is run on one thread and on four, but the walk that stops.

The last line counts the tries and those that were wrong.
"""
import json
import os
import shutil
import subprocess
import sys
import tempfile

from refusals import SHIM

# The program. Rattle's files stand in crates alone, so it is a text here.
SOURCE = r"""
//! Runs the words that it is given over made-up trees in memory, and tells what came and what is left.
#![tactic(auto)]

use memory_runs::WholeFiles;
use outside::MemSink;
use path_text::Path;
use std::alloc::Global;
use std::sync::Wait;
use std::thread::Threads;
use std::{env, io};

const TIME: Option<u64> = Some(86400);

const OLD: Option<u64> = Some(86399);

const NOW: u64 = 259_200;

const ROOM: u64 = 100_000;

// The nodes in path order: the path, the letter of dwalk's lines, and the bytes of a file.
const NODES: [(&str, char, &str); 21] = [
    ("/c", 'd', ""),
    ("/c/circle.list", 'f', "mfu list 1\nd 0 86400 ok 0 0 /t\nf 1 86400 ok 0 0 /t/b-x\nend 2\n"),
    ("/c/circle0.txt", 'f', "circle 1 0 2\n/t/b\nend 1\n"),
    ("/c/circle1.txt", 'f', "circle 1 1 2\n/t/a\nend 1\n"),
    ("/d", 'd', ""),
    ("/e", 'd', ""),
    (
        "/l",
        'f',
        "mfu list 1\nd 0 86400 ok 0 0 /t\nf 5 86400 ok 0 0 /t/a\nend 2\n",
    ),
    ("/p", 'd', ""),
    ("/p/x", 'f', "aa"),
    ("/p/y", 'f', ""),
    ("/q", 'd', ""),
    ("/q/x", 'f', "ab"),
    ("/q/z", 'f', ""),
    ("/t", 'd', ""),
    ("/t/a", 'f', "hello"),
    ("/t/b", 'd', ""),
    ("/t/b/c", 'f', ""),
    ("/t/b-x", 'f', "x"),
    ("/v", 'd', ""),
    ("/v/l", 'l', ""),
    ("/v/o", 'o', ""),
];

// The files whose bytes are told at the end, where they are there.
const FILES: [&str; 13] = [
    "/c/circle.list", "/d/t/a", "/d/t/b-x", "/e/circle.list", "/e/circle0.txt", "/l", "/m", "/p/x", "/q/x", "/r", "/t/a", "/t/b-x", "/t/b/c",
];

fn main(rt: HostRuntime) -> io::Result<()> {
    let alloc = rt.alloc();
    let mut words = Vec::new(alloc);
    for word in env::args(&rt)?.skip(1) {
        words.push(word)?;
    }
    let Some(mut files) = trees(alloc) else {
        return eprintln!(rt; "no memory");
    };
    let (Ok(mut out), Ok(mut notes)) = (
        MemSink::limited(alloc, ROOM),
        MemSink::limited(alloc, ROOM),
    ) else {
        return eprintln!(rt; "no memory");
    };
    // The shim counts allocations from the first write on, until the second.
    println!(rt; "begin")?;
    let status = files.run(&rt, alloc, &words, &mut out, &mut notes, NOW);
    println!(rt; "status {}", status.number())?;
    println!(rt; "out {:?}", out.text())?;
    println!(rt; "notes {:?}", notes.text())?;
    let Some(listing) = listed(&rt, alloc, &mut files) else {
        return eprintln!(rt; "no memory");
    };
    println!(rt; "left {:?}", listing.text())?;
    for path in FILES {
        if let Some(bytes) = bytes_of(alloc, &mut files, path) {
            println!(rt; "file:{path} {bytes:?}")?;
        }
    }
    Ok(())
}

// What dwalk tells of all that is there.
fn listed<T: Threads + Wait + Sync>(
    rt: &T,
    alloc: Global,
    files: &mut WholeFiles,
) -> Option<MemSink> {
    let mut words = Vec::new(alloc);
    for word in ["dwalk", "/"] {
        words.push(String::from_str(alloc, word).ok()?).ok()?;
    }
    let mut out = MemSink::limited(alloc, ROOM).ok()?;
    let mut notes = MemSink::limited(alloc, ROOM).ok()?;
    let _status = files.run(rt, alloc, &words, &mut out, &mut notes, NOW);
    Some(out)
}

// The bytes of a file, if it is there.
fn bytes_of(alloc: Global, files: &mut WholeFiles, path: &str) -> Option<Vec<u8>> {
    let path = Path::parse(alloc, path).ok()?;
    files.load(alloc, &path).ok()
}

// The trees, or none where no memory was found.
fn trees(alloc: Global) -> Option<WholeFiles> {
    let mut files = WholeFiles::empty(alloc).ok()?;
    for (path, letter, text) in NODES {
        let time = if path == "/d" { OLD } else { TIME };
        let path = Path::parse(alloc, path).ok()?;
        match letter {
            'd' => files.put_dir(&path, 0, time).ok()?,
            'f' => files.put_file(&path, text.as_bytes(), time).ok()?,
            'l' => files.put_link(&path, time).ok()?,
            _ => files.put_other(&path, time).ok()?,
        }
    }
    Some(files)
}
"""

LINES = "d            0 /t\nf            5 /t/a\nd            0 /t/b\nf            0 /t/b/c\nf            1 /t/b-x\n"
TREE = LINES + "items 5 dirs 2 files 3 links 0 others 0 bytes 6 failed 0\n"
LIST = "d            0 /t\nf            5 /t/a\nitems 2 dirs 1 files 1 links 0 others 0 bytes 5 failed 0\n"
FILES = "f            5 /t/a\nf            1 /t/b-x\nitems 2 dirs 0 files 2 links 0 others 0 bytes 6 failed 0\n"
ROWS_OF_CMP = (
    "C = - - /\nC = = ! /x\nS - - - /y\nD - - - /z\n"
    "rows 4 only_src 1 only_dest 1 common 2 differ_type 0 differ_size 0 differ_content 1 failed 0\n"
)

# By name: the words, what is printed, and the paths that may be otherwise after want of memory, with all below them.
ROWS = {
    "dwalk": (["dwalk", "/t"], TREE, []),
    "dwalk --output": (["dwalk", "--output", "/m", "/t"], TREE, ["/m"]),
    "dwalk --input": (["dwalk", "--input", "/l"], LIST, []),
    "dwalk --stop-after": (["dwalk", "--stop-after", "2", "--lists", "/e", "/t"], "", ["/e"]),
    "dwalk --restart": (["dwalk", "--restart", "--lists", "/c"], TREE, []),
    "dfind": (["dfind", "--size", "+0", "--newer", "/d", "/t"], FILES, []),
    "dtest": (["dtest", "10"], "items 10 dirs 2 files 8 links 0 others 0 bytes 416 failed 0\n", []),
    "dcmp -o": (["dcmp", "-o", "EXIST=ONLY_SRC,EXIST=ONLY_DEST:/r", "/p", "/q"], ROWS_OF_CMP, ["/r"]),
    "dcp": (["dcp", "/t", "/d"], "copied 5 items 5 bytes 6 failed 0\n", ["/d/t"]),
    "drm": (["drm", "/t"], LINES + "removed 5 of 5 failed 0\n", ["/t"]),
}

# The status and the note of a row that does not end with status 0. What several ranks leave differs from run to run.
ENDS = {"dwalk --stop-after": ("6", "stopped handled 2 left 2\n")}
ON_ONE_THREAD = {"dwalk --stop-after"}

SHARES = {"one thread": ["--ranks", "1", "--hosts", "1"], "four threads": ["--ranks", "8", "--hosts", "4"]}


def all_but_libraries(folder, names):
    """What is not copied of a crate: what the prover keeps, but for the libraries that it built."""
    return [name for name in names if os.path.basename(folder) == "out" and name != "rlib"]


def built(folder):
    """Makes the program in a crate of a repository of its own, with copies of this one's crates, and answers its path."""
    ours = os.path.realpath(os.path.join(os.path.dirname(__file__), ".."))
    crate = f"{folder}/crates/refused_rows"
    shutil.copytree(f"{ours}/crates", f"{folder}/crates", ignore=all_but_libraries)
    shutil.copy(f"{ours}/HANDLES", folder)
    os.makedirs(f"{crate}/src")
    with open(f"{ours}/crates.txt", encoding="utf-8") as file:
        lines = file.read()
    with open(f"{folder}/crates.txt", "w", encoding="utf-8") as file:
        file.write(f"{lines}refused_rows: path_text outside memory_runs\n")
    with open(f"{crate}/src/main.rt", "w", encoding="utf-8") as file:
        file.write(SOURCE.lstrip())
    subprocess.run(["rt", "run"], cwd=crate, check=True, stdout=subprocess.DEVNULL)
    return f"{crate}/out/refused_rows"


def told(program, words, shim, counted, refused):
    """Runs the program with one allocation of the run refused, and answers what it tells, by its first word, and how many were asked for."""
    with open(counted, "w+b") as file:
        os.dup2(file.fileno(), 9)
        more = {"LD_PRELOAD": shim, "REFUSED": str(refused), "BETWEEN": "1", "COUNTED": "1"}
        done = subprocess.run([program, *words], env={**os.environ, **more}, capture_output=True, pass_fds=[9], text=True, check=False)
        file.seek(0)
        count = int.from_bytes(file.read(), sys.byteorder)
    if done.returncode or done.stderr:
        return {"ended": f"{done.returncode} {done.stderr}"}, count
    lines = dict(line.split(" ", 1) for line in done.stdout.splitlines()[1:])
    return {key: text_of(value) for key, value in lines.items()}, count


def text_of(value):
    """A list of bytes as a text, and any other value as it is."""
    return bytes(json.loads(value)).decode() if value.startswith("[") else value


def standing(run, may_change):
    """What stands after a run, less what may be otherwise: the lines of a listing and the bytes of files, by path."""
    nodes = {line[15:]: line for line in run["left"].splitlines()[:-1]}
    nodes.update({key: value for key, value in run.items() if key.startswith("file:")})
    return {key: value for key, value in nodes.items() if not is_in(key.removeprefix("file:"), may_change)}


def is_in(path, tops):
    return any(path == top or path.startswith(f"{top}/") for top in tops)


def wrong_in(now, plain, before, may_change):
    """What is wrong with a run in which an allocation was refused, or None."""
    if now == plain:
        return None
    if "ended" in now or now["status"] != "3":
        return f"{now}"
    if now["out"] or now["notes"] != "out of memory\n":
        return f"status 3 with {now['out'][:60]!r} and {now['notes']!r}"
    was, stands = standing(before, may_change), standing(now, may_change)
    differ = [path for path in {**was, **stands} if was.get(path) != stands.get(path)]
    return f"in memory differ {differ}" if differ else None


def try_row(name, share, program, shim, counted):
    """Tries a row on so many threads, and answers how often it was as undisturbed, ended with status 3, and was wrong."""
    words, out, may_change = ROWS[name]
    words = [words[0], *SHARES[share], *words[1:]]
    before, _ = told(program, ["dwalk", "/"], shim, counted, 10**9)
    plain, count = told(program, words, shim, counted, 10**9)
    status, note = ENDS.get(name, ("0", ""))
    if (plain.get("status"), plain.get("out"), plain.get("notes")) != (status, out, note):
        sys.exit(f"{name} on {share} is not as its row says: {plain}")
    alike, refused, wrong = 0, 0, 0
    for number in range(1, count + 1):
        now, _ = told(program, words, shim, counted, number)
        fault = wrong_in(now, plain, before, may_change)
        if fault:
            print(f"WRONG: {name} on {share}: allocation {number}: {fault}")
        wrong += bool(fault)
        alike += now == plain
        refused += not fault and now != plain
    print(f"{name} on {share}: {count} allocations, {alike} as undisturbed, {refused} with status 3, {wrong} wrong", flush=True)
    return alike, refused, wrong


def main():
    work = os.path.realpath(tempfile.mkdtemp(prefix="refused_rows"))
    program = os.path.abspath(sys.argv[1]) if len(sys.argv) > 1 else built(work)
    shim = f"{work}/shim.so"
    subprocess.run(["cc", "-shared", "-fPIC", "-O1", "-x", "c", "-", "-o", shim, "-ldl"], input=SHIM.encode(), check=True)
    totals = [0, 0, 0]
    for name in ROWS:
        if len(sys.argv) > 2 and name not in sys.argv[2:]:
            continue
        for share in list(SHARES)[: 1 if name in ON_ONE_THREAD else None]:
            totals = [sum(pair) for pair in zip(totals, try_row(name, share, program, shim, f"{work}/count"))]
    shutil.rmtree(work)
    print(f"tries: {sum(totals)} as undisturbed: {totals[0]} status 3: {totals[1]} wrong: {totals[2]}")
    sys.exit(totals[2] > 0)


if __name__ == "__main__":
    main()
