#!/bin/sh
# dfind against GNU find: whether both answer the same questions alike, and how long dfind takes to dwalk.
# usage: find.sh [TREE [ROUNDS]]
#
# The questions are asked of a small tree that is made for them, with sizes and times on both sides of each bound. Paths are
# compared in path order. Where the two define different things, the question to find is put so that it means the same:
#   - find takes `-size` in blocks and rounds up, so it is asked in bytes (`c`); it gives a directory and a link a size, so
#     sizes are asked of files alone;
#   - find's `-mmin +N` is true of more than N minutes, and ours of N + 1 whole minutes or more; find's `-mmin N` is true of
#     more than N - 1 minutes up to N. Ours are asked by `-mmin -M`, which both take alike, and its opposite;
#   - find knows times after now, whose age ours counts as 0.
# Then TREE, which is made where it is absent with 200,000 entries, is walked by both tools in turn.
set -u
export LC_ALL=C.UTF-8
here=$(dirname "$(readlink -f "$0")")
"$here/../mfu" dwalk /dev/null >/dev/null || exit
program=$here/../crates/mfu/out/mfu
work=$(mktemp -d)
trap 'rm -rf "$work"' EXIT
python3 "$here/make_questions.py" "$work/tree"
wrong=0

# asked 'OUR TESTS' 'THEIRS': whether both choose the same paths
asked() {
    eval "'$program' dfind $1 '$work/tree'" 2>"$work/notes" | sed '$d' | cut -c 16- >"$work/ours"
    eval "find '$work/tree' $2 -print" | tr / '\001' | LC_ALL=C sort | tr '\001' / >"$work/theirs"
    if [ -s "$work/notes" ] || ! cmp -s "$work/ours" "$work/theirs"; then
        echo "WRONG: dfind $1"
        diff "$work/ours" "$work/theirs" | head -5
        wrong=$((wrong + 1))
    else
        echo "alike: dfind $1, $(wc -l <"$work/ours") paths"
    fi
}

asked "--name '*'" "-name '*'"
asked "--name '*.log'" "-name '*.log'"
asked "--name 'a*b?c'" "-name 'a*b?c'"
asked "--name '[a-c]*'" "-name '[a-c]*'"
asked "--name '[!a-c]*'" "-name '[!a-c]*'"
asked "--name '*[0-9][0-9].txt'" "-name '*[0-9][0-9].txt'"
asked "--name '\\**'" "-name '\\**'"
asked "--name '.*'" "-name '.*'"
asked "--name '?.log'" "-name '?.log'"
asked "--name 'none'" "-name 'none'"
asked "--path '*/deep/*.log'" "-path '*/deep/*.log'"
for kind in f d l; do asked "--type $kind" "-type $kind"; done
asked "--type o" "! -type f ! -type d ! -type l"
for bytes in 0 1 5 1024 1025 10240; do
    asked "--type f --size $bytes" "-type f -size ${bytes}c"
    asked "--type f --size +$bytes" "-type f -size +${bytes}c"
    asked "--type f --size=-$bytes" "-type f -size -${bytes}c"
done
asked "--type f --size +1k" "-type f -size +1024c"
asked "--type f --size 10k" "-type f -size 10240c"
for age in 0 1 5 60 1440; do
    asked "--type f --mmin=-$age" "-type f -mmin -$age"
    asked "--type f --mmin +$age" "-type f ! -mmin -$((age + 1))"
    asked "--type f --mmin $age" "-type f ! -mmin -$age -mmin -$((age + 1))"
done
for age in 0 1 2 30; do
    asked "--type f --mtime=-$age" "-type f -mtime -$age"
    asked "--type f --mtime +$age" "-type f -mtime +$age"
    asked "--type f --mtime $age" "-type f -mtime $age"
done
asked "--newer '$work/tree/days 2'" "-newer '$work/tree/days 2'"
asked "--type f --name '*.log' --size +4 --mmin +10" "-type f -name '*.log' -size +4c ! -mmin -11"
asked "--name 'a*' --name '*c'" "-name 'a*' -name '*c'"
echo "$wrong wrong"

tree=${1:-${TMPDIR:-/tmp}/mfu-walk-tree}
rounds=${2:-11}
[ -e "$tree" ] || python3 "$here/make_tree.py" "$tree" 200000
entries=$(find "$tree" | wc -l)
python3 "$here/compare.py" -n "$rounds" -e "$entries" \
    "dfind='$program' dfind --name '*.c' '$tree'" \
    "dwalk='$program' dwalk '$tree'" \
    "find|sort=find '$tree' -name '*.c' -printf '%y %12s %p\\n' | LC_ALL=C sort"
python3 "$here/compare.py" -n "$rounds" -e "$entries" \
    "dfind-all='$program' dfind '$tree'" \
    "dwalk='$program' dwalk '$tree'"
[ "$wrong" -eq 0 ]
