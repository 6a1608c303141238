#!/bin/sh
# Copying by byte ranges, against cp and against dcp without them. usage: range.sh [FOLDER [ROUNDS]]
#
# In FOLDER, /dev/shm where none is given, one file of 2 GiB and a tree of 10,000 files with 400 MB are made. The file is copied by dcp with
# 4 ranks on 4 threads in ranges of 16 MiB, by dcp without ranges, and by cp; the tree by dcp with --range 1048576, which no file of it
# is larger than, and without. Each run has a fresh destination, which is removed before the next begins and not counted; on a disk,
# what was written is put on the disk (sync) before the next run begins. Each round begins with another program. If there is a C compiler,
# range_floor.c is one of the programs: the calls alone, in four threads that write to one file. What the first copy
# made is compared with its source by diff. For each program range.sh tells the medians of the seconds and of the seconds of a processor, and
# the ratio of the first program's seconds to its own in the same round: the median, the lowest and the highest, and the median of the
# ratio of seconds of a processor. The variable MFU gives another program in place of the built one, BYTES another size of the file. It needs
# GNU time.
set -e
here=$(dirname "$(readlink -f "$0")")
folder=${1:-/dev/shm}
rounds=${2:-5}
[ -n "$MFU" ] || "$here/../mfu" dwalk /dev/null >/dev/null
program=${MFU:-$here/../crates/mfu/out/mfu}
work=$(mktemp -d "$folder/mfu-range.XXXXXX")
trap 'rm -rf "$work"' EXIT
size=${BYTES:-2147483648}

# once NAME ROUND FROM: notes the seconds that a copy of FROM into a fresh destination takes
once() {
    name=$1 round=$2 from=$3 to=$work/to
    case $name in
        range-4-hosts) set -- "$program" dcp --ranks 4 --hosts 4 --range 16777216 "$from" "$to" ;;
        range-1-host) set -- "$program" dcp --ranks 1 --range 16777216 "$from" "$to" ;;
        range-1M) set -- "$program" dcp --ranks 1 --range 1048576 "$from" "$to" ;;
        dcp) set -- "$program" dcp --ranks 1 "$from" "$to" ;;
        floor-4) set -- "$work/range_floor" "$from" "$to" 4 16777216 ;;
        cp) set -- cp -r "$from" "$to" ;;
    esac
    case $folder in /dev/shm*) ;; *) sync ;; esac
    start=$(date +%s.%N)
    command time -q -f '%U %S' -o "$work/took" "$@" >/dev/null
    end=$(date +%s.%N)
    echo "$end $start" | awk '{ printf "%.4f\n", $1 - $2 }' >>"$work/$name"
    awk '{ print $1 + $2 }' "$work/took" >>"$work/$name.cpu"
    [ "$round" -ne 1 ] || diff -r --no-dereference "$from" "$to" || { echo "WRONG: $name"; exit 1; }
    rm -rf "$to"
}

# middle [FILE]: the median of its lines
middle() {
    sort -n "$@" | awk '{ it[NR] = $1 } END { print it[int((NR + 1) / 2)] }'
}

# ratios FILE FILE: those of each round, from the lowest to the highest
ratios() {
    paste "$1" "$2" | awk '{ printf "%.3f\n", ($2 > 0 ? $1 / $2 : 1) }' | sort -n >"$work/ratios"
}

# turns FROM NAME ..: times the programs in turn, the first one is ours
turns() {
    from=$1
    shift
    names=$* ours=$1
    for round in $(seq "$rounds"); do
        for name in $names; do once "$name" "$round" "$from"; done
        names="${names#* } ${names%% *}"
    done
    for name in "$@"; do
        echo "$name: $(middle "$work/$name") s, $(middle "$work/$name.cpu") s of a processor"
        ratios "$work/$ours.cpu" "$work/$name.cpu"
        of_processor=$(middle "$work/ratios")
        ratios "$work/$ours" "$work/$name"
        echo "  $ours to it: $(middle "$work/ratios") ($(head -n 1 "$work/ratios") to $(tail -n 1 "$work/ratios")), of a processor $of_processor"
    done
    rm -f "$work"/dcp* "$work"/cp* "$work"/range-* "$work"/floor-*
}

echo "$(nproc) processors, load $(cut -d ' ' -f 1-3 /proc/loadavg)"
head -c "$size" /dev/urandom >"$work/large"
echo "one file of $size bytes"
floor=
! cc -O2 -pthread -o "$work/range_floor" "$here/range_floor.c" 2>/dev/null || floor=floor-4
turns "$work/large" range-4-hosts cp dcp range-1-host $floor
rm "$work/large"
tree=$folder/mfu-range-files
[ -e "$tree" ] || python3 "$here/make_tree.py" "$tree" 10550 1 40000 >/dev/null
echo "$(find "$tree" -type f | wc -l) files"
turns "$tree" range-1M dcp
echo "load $(cut -d ' ' -f 1-3 /proc/loadavg)"
