#!/bin/sh
# A walk in two stages, against the walk that nothing stops; and a checkpoint of many strings, read. usage: stages.sh [FOLDER [ROUNDS]]
#
# In FOLDER, /dev/shm where none is given, a tree of 200,000 entries is made where it is absent. In each round the walk runs whole, and then as
# a stage that stops halfway and one that goes on, with one rank and with 8 ranks on 4 threads; what the stages print is compared with the walk.
# Told are the medians of the seconds, and of what the two stages of a round took together of its walk. Then checkpoints with 125,000, 250,000,
# 500,000 and 1,000,000 strings that are left are read, none of which is there, so that a look at each is all that the walk does; told are the
# seconds, and the seconds of n log2 n, in units of the first.
set -e
here=$(dirname "$(readlink -f "$0")")
folder=${1:-/dev/shm}
rounds=${2:-5}
"$here/../mfu" dwalk /dev/null >/dev/null
program=$here/../crates/mfu/out/mfu
tree=$folder/mfu-stages-tree
[ -e "$tree" ] || python3 "$here/make_tree.py" "$tree" 200000 >/dev/null
work=$(mktemp -d "$folder/mfu-stages.XXXXXX")
trap 'rm -rf "$work"' EXIT

# timed FILE WORDS..: notes the seconds that the command takes
timed() {
    file=$1
    shift
    start=$(date +%s.%N)
    "$@" || [ $? -eq 6 ]
    end=$(date +%s.%N)
    echo "$end $start" | awk '{ printf "%.4f\n", $1 - $2 }' >>"$work/$file"
}

# middle [FILE]: the median of its lines
middle() {
    sort -n "$@" | awk '{ it[NR] = $1 } END { print it[int((NR + 1) / 2)] }'
}

# stages NAME RANKS HOSTS K
stages() {
    mkdir "$work/lists"
    for round in $(seq "$rounds"); do
        timed "$1.whole" "$program" dwalk --ranks "$2" --hosts "$3" "$tree" >"$work/whole"
        timed "$1.first" "$program" dwalk --ranks "$2" --hosts "$3" --stop-after "$4" --lists "$work/lists" "$tree" >/dev/null 2>"$work/said"
        timed "$1.second" "$program" dwalk --ranks "$2" --hosts "$3" --restart --lists "$work/lists" >"$work/both"
        cmp "$work/whole" "$work/both"
    done
    echo "$1: $(cat "$work/said")"
    for name in whole first second; do echo "$name $(middle "$work/$1.$name")"; done
    echo "both of the whole $(paste "$work/$1.first" "$work/$1.second" "$work/$1.whole" | awk '{ printf "%.3f\n", ($1 + $2) / $3 }' | middle)"
    rm -r "$work/lists"
}

echo "$(nproc) processors, load $(cut -d ' ' -f 1-3 /proc/loadavg)"
stages one-rank 1 1 100000
stages eight-ranks 8 4 12500
mkdir "$work/many"
printf 'mfu list 1\nend 0\n' >"$work/many/circle.list"
for strings in 125000 250000 500000 1000000; do
    seq "$strings" | awk -v n="$strings" 'BEGIN { print "circle 1 0 1" }
        { k = $1 * 611953 % n; printf "/none/of/these/%03d/is/there/%07d\n", k % 977, k } END { print "end " n }' >"$work/many/circle0.txt"
    for round in $(seq 3); do
        timed "many.$strings" "$program" dwalk --restart --lists "$work/many" >/dev/null 2>&1 || true
    done
    echo "$strings $(middle "$work/many.$strings")"
done | awk '{ if (!unit) { unit = $2; first = $1 * log($1) } printf "%s strings: %s s, %.2f of the first, n log n %.2f\n", $1, $2, $2 / unit, $1 * log($1) / first }'
