#!/bin/sh
# Peak memory against the number of entries: `mfu dwalk` beside find and sort. usage: memory.sh [FOLDER]
#
# Trees of 25,000 to 200,000 entries are made in FOLDER, a new one in /dev/shm where none is given, and removed at the end. Of
# `find | sort` the larger of the two is told, which is sort. What is printed is a table for plot.py, in MiB. It needs GNU time.
set -e
here=$(dirname "$(readlink -f "$0")")
work=$(mktemp -d "${1:-/dev/shm}/mfu-memory.XXXXXX")
trap 'rm -rf "$work"' EXIT
"$here/../mfu" dwalk /dev/null >/dev/null
program=$here/../crates/mfu/out/mfu

# peak COMMAND: the peak memory of the largest process of a shell command, in MiB
peak() {
    "$(command -v time)" -q -f %M -o "$work/peak" sh -c "$1" >"$work/out"
    awk '{ printf "%.1f", $1 / 1024 }' "$work/peak"
}

echo 'title: Peak memory of a listing'
echo 'kind: lines'
echo 'x: entries'
echo 'y: MiB'
echo 'from: bench/memory.sh'
echo
echo 'entries  mfu dwalk  find -printf | sort'
for entries in 25000 50000 100000 200000; do
    python3 "$here/make_tree.py" "$work/tree" "$entries" >/dev/null
    count=$(find "$work/tree" | wc -l)
    echo "$count  $(peak "'$program' dwalk '$work/tree'")  $(peak "find '$work/tree' -printf '%y %12s %p\\n' | LC_ALL=C sort")"
    rm -rf "$work/tree"
done
