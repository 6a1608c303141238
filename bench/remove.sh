#!/bin/sh
# Removing a tree, against rm, find and bfs. usage: remove.sh [ENTRIES [ROUNDS [FOLDER]]]
#
# Each run removes a fresh copy of a tree of so many entries. The copies stand in FOLDER, /dev/shm where none is given; on a disk they are
# all made first and put there (sync), so that no run waits for what another one wrote. Each round begins with another program, so that
# none is always the first. Told are the median of the seconds, and the median of what a round's run took of rm's in the same round.
set -e
here=$(dirname "$(readlink -f "$0")")
entries=${1:-20000}
rounds=${2:-7}
folder=${3:-/dev/shm}
work=$(mktemp -d "$folder/mfu-remove.XXXXXX")
trap 'rm -rf "$work"' EXIT
"$here/../mfu" dwalk /dev/null >/dev/null
program=$here/../crates/mfu/out/mfu
python3 "$here/make_tree.py" "$work/tree" "$entries"
names='drm rm drm-hosts-4 find'
! command -v bfs >/dev/null || names="$names bfs"

# copied NAME ROUND: a copy for that run
copied() {
    cp -a "$work/tree" "$work/copy-$1-$2"
}

# once NAME ROUND: notes the seconds that the removal of its copy takes
once() {
    copy=$work/copy-$1-$2
    [ -e "$copy" ] || copied "$1" "$2"
    case $1 in
        drm) set -- "$1" "$program" drm "$copy" ;;
        drm-hosts-4) set -- "$1" "$program" drm --hosts 4 "$copy" ;;
        rm) set -- "$1" rm -r "$copy" ;;
        find) set -- "$1" find "$copy" -delete ;;
        bfs) set -- "$1" bfs "$copy" -delete ;;
    esac
    name=$1
    shift
    start=$(date +%s.%N)
    "$@" >/dev/null
    end=$(date +%s.%N)
    [ ! -e "$copy" ] || { echo "WRONG: something is left: $*" >&2; exit 1; }
    echo "$end $start" | awk '{ printf "%.4f\n", $1 - $2 }' >>"$work/$name"
}

# middle [FILE]: the median of its lines
middle() {
    sort -n "$@" | awk '{ it[NR] = $1 } END { print it[int((NR + 1) / 2)] }'
}

case $folder in
    /dev/shm*) ;;
    *)
        for round in $(seq "$rounds"); do
            for name in $names; do copied "$name" "$round"; done
        done
        sync
        ;;
esac
for round in $(seq "$rounds"); do
    for name in $names; do once "$name" "$round"; done
    names="${names#* } ${names%% *}"
done
for name in drm drm-hosts-4 rm find bfs; do
    [ ! -e "$work/$name" ] || echo "$name $(middle "$work/$name") $(paste "$work/$name" "$work/rm" | awk '{ printf "%.3f\n", $1 / $2 }' | middle)"
done
