#!/bin/sh
# Files of equal content, against jdupes, fdupes and rmlint. usage: dup.sh [FOLDER [ROUNDS]]
#
# In FOLDER, /dev/shm where none is given, the trees are made where they are absent: `large` has 10,000 files with 400 MB, `small` 100,000
# files of 100 bytes on average. Then a third of the files get the bytes of the file before them in their order. Each program compares bytes: jdupes and
# fdupes do so by themselves; rmlint gets -pp, since it goes by checksums alone without, and -T df, so that it seeks no other things.
# rmlint takes as many threads as it likes. First dup.sh looks whether ddup finds the groups that jdupes finds. The peak memory of the
# program and how fast this processor takes SHA-256 by openssl are told too. The variable MFU gives another program in place of the
# built one, LARGE and SMALL other numbers of entries.
set -e
here=$(dirname "$(readlink -f "$0")")
folder=${1:-/dev/shm}
rounds=${2:-7}
[ -n "$MFU" ] || "$here/../mfu" dwalk /dev/null >/dev/null
program=${MFU:-$here/../crates/mfu/out/mfu}
command -v jdupes >/dev/null || { echo 'dup.sh needs jdupes' >&2; exit 1; }
work=$(mktemp -d "$folder/mfu-dup.XXXXXX")
trap 'rm -rf "$work"' EXIT

# double TREE: gives each third file the bytes of the file before it
double() {
    python3 - "$1" <<'END'
import os, shutil, sys
found = sorted(os.path.join(folder, name) for folder, _, names in os.walk(sys.argv[1]) for name in names)
files = [path for path in found if not os.path.islink(path)]
for one, other in zip(files[1::3], files[2::3]):
    shutil.copyfile(one, other)
END
}

# alike TREE: whether ddup and jdupes find the same groups, which it reads as sets of paths
alike() {
    "$program" ddup --ranks 1 "$1" >"$work/ours"
    jdupes -r -q "$1" >"$work/theirs"
    python3 - "$work/ours" "$work/theirs" <<'END'
import sys
ours, theirs = (open(path).read() for path in sys.argv[1:])
ours = {frozenset(group.splitlines()[1:]) for group in ours.rpartition("groups ")[0].split("group ")[1:]}
theirs = {frozenset(group.splitlines()) for group in theirs.split("\n\n") if group.strip()}
print(f"{len(ours)} groups")
sys.exit(f"WRONG: only ddup: {len(ours - theirs)}, only jdupes: {len(theirs - ours)}" if ours != theirs else 0)
END
}

# tree NAME ENTRIES SIZE
tree() {
    tree=$folder/mfu-dup-$1
    if [ ! -e "$tree" ]; then
        python3 "$here/make_tree.py" "$tree" "$2" 1 "$3" >/dev/null
        double "$tree"
    fi
    echo "$1: $(find "$tree" -type f | wc -l) files with $(find "$tree" -type f -printf '%s\n' | awk '{ sum += $1 } END { printf "%.1f", sum / 1e6 }') MB"
    alike "$tree"
    set -- "jdupes=jdupes -r -q '$tree'"
    ! command -v fdupes >/dev/null || set -- "$@" "fdupes=fdupes -r -q '$tree'"
    ! command -v rmlint >/dev/null || set -- "$@" "rmlint=rmlint -pp -T df -o fdupes:stdout '$tree'"
    entries=$(find "$tree" -type f | wc -l)
    python3 "$here/compare.py" -n "$rounds" -e "$entries" "1 rank='$program' ddup --ranks 1 '$tree'" "$@"
    python3 "$here/compare.py" -n "$rounds" -e "$entries" "4 hosts='$program' ddup --ranks 8 --hosts 4 '$tree'" "$@" "1 rank='$program' ddup --ranks 1 '$tree'" "walk='$program' dwalk --ranks 1 '$tree'"
}

echo "$(nproc) processors, load $(cut -d ' ' -f 1-3 /proc/loadavg)"
tree large "${LARGE:-10550}" 40000
tree small "${SMALL:-105500}" 100
! command -v openssl >/dev/null || openssl speed -seconds 1 -bytes 65536 sha256 2>/dev/null | tail -n 1
echo "load $(cut -d ' ' -f 1-3 /proc/loadavg)"
