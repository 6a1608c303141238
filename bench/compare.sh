#!/bin/sh
# The comparison of trees with their copies, against diff and rsync. usage: compare.sh [FOLDER [ROUNDS]]
#
# In FOLDER the trees are made where they are absent, each with its copy beside it: `large` has 10,000 files with 400 MB, `small`
# 200,000 files of 100 bytes, `mixed` 40,000 entries of many sizes. A tree and its copy are equal, so each program looks at every
# entry and reads every byte of both. Ours prints a row for each entry; diff prints nothing, and rsync, which takes checksums of
# both sides, the names that it would transfer. Where strace is there, the calls of the system are counted too.
set -e
here=$(dirname "$(readlink -f "$0")")
folder=${1:-${TMPDIR:-/tmp}/mfu-compare}
rounds=${2:-7}
"$here/../mfu" dwalk /dev/null >/dev/null
program=$here/../crates/mfu/out/mfu
mkdir -p "$folder"

# tree NAME ENTRIES SIZE: makes a tree and its copy, and lets each program look at them in turn
tree() {
    one=$folder/$1
    [ -e "$one" ] || python3 "$here/make_tree.py" "$one" "$2" 1 "$3" >/dev/null
    [ -e "$one-copy" ] || cp -a "$one" "$one-copy"
    entries=$(find "$one" "$one-copy" | wc -l)
    echo "$1: $(find "$one" -type f | wc -l) files with $(find "$one" -type f -printf '%s\n' | awk '{ sum += $1 } END { printf "%.1f", sum / 1e6 }') MB, twice"
    set -- "1 rank='$program' dcmp --ranks 1 '$one' '$one-copy'" \
        "4 hosts='$program' dcmp --ranks 8 --hosts 4 '$one' '$one-copy'" \
        "diff=diff -rq --no-dereference '$one' '$one-copy'"
    if command -v rsync >/dev/null; then
        set -- "$@" "rsync=rsync -rlnc --out-format=%n '$one/' '$one-copy/'"
    fi
    python3 "$here/compare.py" -n "$rounds" -e "$entries" "$@"
    if command -v strace >/dev/null; then
        strace -f -c -e trace=statx,openat,pread64,getdents64,close "$program" dcmp --ranks 1 "$one" "$one-copy" 2>&1 >/dev/null
    fi
}

echo "$(nproc) processors, load $(cut -d ' ' -f 1-3 /proc/loadavg)"
tree large 10550 40000
tree small 211000 100
tree mixed 40000 full
echo "load $(cut -d ' ' -f 1-3 /proc/loadavg)"
