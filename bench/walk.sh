#!/bin/sh
# The walk of a tree against `find | sort`. usage: walk.sh [TREE [ROUNDS]]
#
# TREE is made where it is absent, with 200,000 entries. Both commands tell the kind, the size and the path of each entry, ours
# in path order. Where strace is there, the calls of the system that ours makes are counted too: one statx an entry, and for
# each directory one openat, its getdents64 and one close.
set -e
here=$(dirname "$(readlink -f "$0")")
tree=${1:-${TMPDIR:-/tmp}/mfu-walk-tree}
rounds=${2:-11}
[ -e "$tree" ] || python3 "$here/make_tree.py" "$tree" 200000
"$here/../mfu" dwalk /dev/null >/dev/null
program=$here/../crates/mfu/out/mfu
entries=$(find "$tree" | wc -l)

python3 "$here/compare.py" -n "$rounds" -e "$entries" \
    "mfu='$program' dwalk '$tree'" \
    "find|sort=find '$tree' -printf '%y %12s %p\\n' | LC_ALL=C sort"

if command -v strace >/dev/null; then
    echo "$entries entries, $(find "$tree" -type d | wc -l) directories"
    strace -f -c -e trace=statx,openat,getdents64,close "$program" dwalk "$tree" 2>&1 >/dev/null
fi
