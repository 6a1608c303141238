#!/bin/sh
# Lists read, written and put in another order, against the walk and against sort. usage: lists.sh [TREE [ROUNDS]]
#
# TREE is made where it is absent, with 200,000 entries. First, in turn: the walk by one rank, `find | sort`, the walk by 64 ranks on one thread, the
# walk that saves its list too, the walk printed by size, and dfind without a test. The ratio is that of the walk to each. Then, in turn: the saved
# list read and printed, and `sort` of the lines that this prints, which are in order already; and whether both print the same.
set -e
here=$(dirname "$(readlink -f "$0")")
tree=${1:-${TMPDIR:-/tmp}/mfu-walk-tree}
rounds=${2:-11}
[ -e "$tree" ] || python3 "$here/make_tree.py" "$tree" 200000
"$here/../mfu" dwalk /dev/null >/dev/null
program=$here/../crates/mfu/out/mfu
work=$(mktemp -d "${TMPDIR:-/tmp}/mfu-lists.XXXXXX")
trap 'rm -rf "$work"' EXIT
entries=$(find "$tree" | wc -l)

python3 "$here/compare.py" -n "$rounds" -e "$entries" \
    "dwalk='$program' dwalk --ranks 1 '$tree'" \
    "find|sort=find '$tree' -printf '%y %12s %p\\n' | LC_ALL=C sort" \
    "64 ranks='$program' dwalk --ranks 64 --hosts 1 '$tree'" \
    "--output='$program' dwalk --ranks 1 --output '$work/saved' '$tree'" \
    "--sort='$program' dwalk --ranks 1 --sort -size '$tree'" \
    "dfind='$program' dfind --ranks 1 '$tree'"

"$program" dwalk --output "$work/list" "$tree" >"$work/walked"
"$program" dwalk --input "$work/list" >"$work/read"
cmp "$work/walked" "$work/read"
sed '$d' "$work/read" >"$work/lines"
python3 "$here/compare.py" -n "$rounds" -e "$entries" \
    "--input='$program' dwalk --input '$work/list'" \
    "sort=LC_ALL=C sort '$work/lines'"
