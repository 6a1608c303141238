#!/bin/sh
# Copying a tree, against cp and rsync. usage: copy.sh [FOLDER [ROUNDS]]
#
# In FOLDER, /dev/shm where none is given, the sources are made where they are absent: `large` has 10,000 files with 400 MB, `small`
# 100,000 files of 100 bytes. Each run has a fresh destination, which is removed before the next begins and not counted; on a disk a
# folder that was removed a moment ago makes the next copy slow for everybody, so the destinations stand there until the end, and what
# was written is put on the disk (sync) before the next run begins. Each round begins with another program, so that none is always the
# first. What a copy made is compared with its source once, by diff. Where strace is there, the calls of the system are counted too.
# Told are the median of the seconds, and the median of what a round's run took of cp's in the same round.
set -e
here=$(dirname "$(readlink -f "$0")")
folder=${1:-/dev/shm}
rounds=${2:-5}
"$here/../mfu" dwalk /dev/null >/dev/null
program=$here/../crates/mfu/out/mfu
work=$(mktemp -d "$folder/mfu-copy.XXXXXX")
trap 'rm -rf "$work"' EXIT
number=0

# once NAME TREE: notes the seconds that a copy of the tree into a fresh destination takes
once() {
    from=$folder/mfu-copy-$2
    number=$((number + 1))
    to=$work/to$number
    case $1 in
        dcp) set -- "$@" "$program" dcp --ranks 1 "$from" "$to" ;;
        dcp-4-hosts) set -- "$@" "$program" dcp --ranks 8 --hosts 4 "$from" "$to" ;;
        cp) set -- "$@" cp -r "$from" "$to" ;;
        rsync) set -- "$@" rsync -rl --whole-file "$from/" "$to" ;;
    esac
    name=$1 tree=$2
    shift 2
    case $folder in /dev/shm*) ;; *) sync ;; esac
    start=$(date +%s.%N)
    "$@" >/dev/null
    end=$(date +%s.%N)
    echo "$end $start" | awk '{ printf "%.4f\n", $1 - $2 }' >>"$work/$tree.$name"
    case $folder in /dev/shm*) rm -rf "$to" ;; esac
}

# tree NAME ENTRIES SIZE: lets each program copy the tree in turn, and tells the medians
tree() {
    from=$folder/mfu-copy-$1
    [ -e "$from" ] || python3 "$here/make_tree.py" "$from" "$2" 1 "$3" >/dev/null
    find "$from" -type l -delete
    echo "$1: $(find "$from" -type f | wc -l) files with $(find "$from" -type f -printf '%s\n' | awk '{ sum += $1 } END { printf "%.1f", sum / 1e6 }') MB"
    "$program" dcp "$from" "$work/look" >/dev/null
    diff -r "$from" "$work/look" || { echo 'WRONG: the copy differs from its source'; exit 1; }
    case $folder in /dev/shm*) rm -rf "$work/look" ;; *) mv "$work/look" "$work/look-$1" ;; esac
    names='dcp cp dcp-4-hosts'
    ! command -v rsync >/dev/null || names="$names rsync"
    for round in $(seq "$rounds"); do
        for name in $names; do once "$name" "$1"; done
        names="${names#* } ${names%% *}"
    done
    for name in dcp dcp-4-hosts cp rsync; do
        [ ! -e "$work/$1.$name" ] || echo "$name $(middle "$work/$1.$name") $(paste "$work/$1.$name" "$work/$1.cp" | awk '{ printf "%.3f\n", $1 / $2 }' | middle)"
    done
    if command -v strace >/dev/null; then
        strace -f -c -e trace=statx,openat,pread64,pwrite64,mkdir,getdents64,close "$program" dcp --ranks 1 "$from" "$work/counted-$1" 2>&1 >/dev/null
        case $folder in /dev/shm*) rm -rf "$work/counted-$1" ;; esac
    fi
}

# middle [FILE]: the median of its lines
middle() {
    sort -n "$@" | awk '{ it[NR] = $1 } END { print it[int((NR + 1) / 2)] }'
}

echo "$(nproc) processors, load $(cut -d ' ' -f 1-3 /proc/loadavg)"
tree large 10550 40000
tree small 105500 100
