#!/bin/sh
# Making trees equal, against rsync. usage: sync.sh [FOLDER [ROUNDS]]
#
# In FOLDER, /dev/shm where none is given, the sources are made where they are absent: `large` has 10,000 files with 400 MB, `small`
# 100,000 files of 100 bytes. Three tasks are timed over each, by dsync with one thread and with four, and by rsync -rl --delete:
#
# - nothing: the destination is equal. rsync takes checksums (-c), so each program reads every byte of both sides;
# - tenth: one file in ten of the destination has another last byte and another time. dsync and rsync -c read every byte. rsync without
#   -c goes by sizes and times, and reads only the files that differ in one of these;
# - empty: there is no destination.
#
# Each run of the last two has a fresh destination. On a disk all are made before the first run, put on the disk (sync) and left there
# until the end, since a folder that was removed a moment ago makes the next copy slow for everybody; the 35 copies of `large` for the
# default five rounds want 14 GB. In /dev/shm each is made before its run and removed after it. Neither is counted. Each round begins
# with another program, so that none is always the first. After the first run of each program diff compares the destination with the source.
# For each program sync.sh tells the median of the seconds and of the seconds of a processor; then for each dsync the ratio of its seconds
# to those of each rsync in the same round: the median, the lowest and the highest, and the median of the ratio of seconds of a processor.
# Below 1 dsync is faster. The variable MFU gives another program in place of the built one, LARGE and SMALL other numbers of entries of
# the two sources. It needs GNU time.
set -e
here=$(dirname "$(readlink -f "$0")")
folder=${1:-/dev/shm}
rounds=${2:-5}
[ -n "$MFU" ] || "$here/../mfu" dwalk /dev/null >/dev/null
program=${MFU:-$here/../crates/mfu/out/mfu}
command -v rsync >/dev/null || { echo 'sync.sh needs rsync' >&2; exit 1; }
work=$(mktemp -d "$folder/mfu-sync.XXXXXX")
trap 'rm -rf "$work"' EXIT

# stale TREE: gives one file in ten another last byte
stale() {
    python3 - "$1" <<'END'
import os, sys
files = sorted(os.path.join(folder, name) for folder, _, names in os.walk(sys.argv[1]) for name in names)
for path in [path for path in files if not os.path.islink(path)][::10]:
    with open(path, "r+b") as file:
        file.seek(-1, os.SEEK_END)
        last = file.read(1)[0]
        file.seek(-1, os.SEEK_END)
        file.write(bytes([last ^ 1]))
END
}

# ready TASK FROM TO: makes the destination of a run
ready() {
    case $1 in
        nothing) [ -e "$3" ] || cp -a "$2" "$3" ;;
        tenth) [ -e "$3" ] || cp -a "$work/stale" "$3" ;;
    esac
}

# place TASK NAME ROUND: where the destination of a run is
place() {
    case $1 in
        nothing) echo "$work/equal" ;;
        *) echo "$work/$1-$2-$3" ;;
    esac
}

# once TASK NAME ROUND FROM: notes the seconds that a run takes
once() {
    task=$1 name=$2 round=$3 from=$4
    to=$(place "$task" "$name" "$round")
    ready "$task" "$from" "$to"
    case $name in
        dsync) set -- "$program" dsync --delete --ranks 1 "$from" "$to" ;;
        dsync-4-hosts) set -- "$program" dsync --delete --ranks 8 --hosts 4 "$from" "$to" ;;
        rsync) set -- rsync -rl --delete "$from/" "$to" ;;
        rsync-c) set -- rsync -rlc --delete "$from/" "$to" ;;
    esac
    case $folder in /dev/shm*) ;; *) sync ;; esac
    start=$(date +%s.%N)
    command time -q -f '%U %S' -o "$work/took" "$@" >/dev/null
    end=$(date +%s.%N)
    echo "$end $start" | awk '{ printf "%.4f\n", $1 - $2 }' >>"$work/$task.$name"
    awk '{ print $1 + $2 }' "$work/took" >>"$work/$task.$name.cpu"
    [ "$round" -ne 1 ] || diff -r --no-dereference "$from" "$to" || { echo "WRONG: after $name the trees differ"; exit 1; }
    case $folder-$task in /dev/shm*-nothing) ;; /dev/shm*) rm -rf "$to" ;; esac
}

# middle [FILE]: the median of its lines
middle() {
    sort -n "$@" | awk '{ it[NR] = $1 } END { print it[int((NR + 1) / 2)] }'
}

# ratios FILE FILE: those of each round, from the lowest to the highest
ratios() {
    paste "$1" "$2" | awk '{ printf "%.3f\n", ($2 > 0 ? $1 / $2 : 1) }' | sort -n >"$work/ratios"
}

# told TASK NAME ..: the seconds of each program, and the ratios of each dsync to each rsync
told() {
    task=$1
    shift
    for name in "$@"; do echo "$name: $(middle "$work/$task.$name") s, $(middle "$work/$task.$name.cpu") s of a processor"; done
    for ours in "$@"; do
        for name in "$@"; do
            case $ours-$name in dsync*-rsync*) ;; *) continue ;; esac
            ratios "$work/$task.$ours.cpu" "$work/$task.$name.cpu"
            of_processor=$(middle "$work/ratios")
            ratios "$work/$task.$ours" "$work/$task.$name"
            echo "$ours to $name: $(middle "$work/ratios") ($(head -n 1 "$work/ratios") to $(tail -n 1 "$work/ratios")), of a processor $of_processor"
        done
    done
}

# task TASK TREE NAME ..: times the programs in turn
task() {
    task=$1 from=$2
    shift 2
    names=$*
    case $folder in
        /dev/shm*) ;;
        *)
            for round in $(seq "$rounds"); do
                for name in $names; do ready "$task" "$from" "$(place "$task" "$name" "$round")"; done
            done
            ;;
    esac
    for round in $(seq "$rounds"); do
        for name in $names; do once "$task" "$name" "$round" "$from"; done
        names="${names#* } ${names%% *}"
    done
    echo "$task:"
    told "$task" "$@"
    rm -f "$work/$task".*
}

# tree NAME ENTRIES SIZE: the tasks over a tree
tree() {
    from=$folder/mfu-sync-$1
    [ -e "$from" ] || python3 "$here/make_tree.py" "$from" "$2" 1 "$3" >/dev/null
    echo "$1: $(find "$from" -type f | wc -l) files with $(find "$from" -type f -printf '%s\n' | awk '{ sum += $1 } END { printf "%.1f", sum / 1e6 }') MB"
    tree=$from
    task nothing "$tree" dsync dsync-4-hosts rsync-c
    cp -a "$tree" "$work/stale"
    stale "$work/stale"
    task tenth "$tree" dsync dsync-4-hosts rsync-c rsync
    task empty "$tree" dsync dsync-4-hosts rsync
    case $folder in
        /dev/shm*) rm -rf "$work/equal" "$work/stale" ;;
        *) mkdir "$work/done-$1" && mv "$work"/equal "$work"/stale "$work"/tenth-* "$work"/empty-* "$work/done-$1" ;;
    esac
}

echo "$(nproc) processors, load $(cut -d ' ' -f 1-3 /proc/loadavg)"
tree large "${LARGE:-10550}" 40000
tree small "${SMALL:-105500}" 100
echo "load $(cut -d ' ' -f 1-3 /proc/loadavg)"
