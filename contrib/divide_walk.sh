#!/bin/sh
# Divides a checkpoint of `mfu dwalk` into parts that several machines walk, and merges their lists.
#
#   divide_walk.sh divide DIR PARTS OUT   makes the checkpoints OUT/part1 to OUT/partPARTS. Each has a share of the paths that are left in DIR,
#                                         and nothing is done in it.
#   divide_walk.sh merge DIR OUT          makes the checkpoint OUT/whole, in which nothing is left: done are the entries of DIR and those of
#                                         the list files OUT/part1.list to OUT/partPARTS.list.
#
# Between the two, walk each part, on any machine that sees the same files:
#
#   mfu dwalk --restart --lists OUT/partN --output OUT/partN.list >/dev/null
#
# After the merge, `mfu dwalk --restart --lists OUT/whole` prints the whole walk. If a part stops again (--stop-after), continue it before you merge.
# Needs awk, sed, sort and tr. The exit status is 0; or 1 if something is missing, with a message.
set -eu
LC_ALL=C
export LC_ALL

fail() {
    echo "divide_walk.sh: $1" >&2
    exit 1
}

# The lines between the first and the last of a file, whose number of entries the last line must say. A line `> TEXT` belongs to the one above.
inner() {
    [ -f "$1" ] || fail "$1 does not exist"
    [ "$(tail -n 1 "$1")" = "end $(($(grep -vc '^> ' "$1") - 2))" ] || fail "$1 is damaged or incomplete"
    sed '1d;$d' "$1"
}

# Lines of list files in path order: `/` before every other byte, and each escaped byte as the byte that it stands for. The text of a link is
# joined to the line above while they are sorted. The bytes 1, 2 and 3 are in no list file.
by_path() {
    awk '{ printf "%s%s", (/^> / ? "\001" : (NR > 1 ? "\n" : "")), $0 } END { if (NR) print "" }' |
        sed -e 's/\\x\([01]\)/\x03\1/g' -e 's/\\x7F/\x7F/g' | tr / '\002' | sort -t ' ' -k 7 |
        tr '\002\001' '/\n' | sed -e 's/\x7F/\\x7F/g' -e 's/\x03/\\x/g'
}

divide() {
    dir=$1 parts=$2 out=$3
    [ "$parts" -ge 1 ] 2>/dev/null || fail "$parts is not a number of parts"
    ranks=$(sed -n '1s/^circle 1 0 //p' "$dir/circle0.txt" 2>/dev/null) || ranks=
    [ -n "$ranks" ] || fail "$dir/circle0.txt is not a file of a checkpoint"
    mkdir "$out"
    trap 'rm -f "$out/left"' EXIT
    rank=0
    while [ "$rank" -lt "$ranks" ]; do
        inner "$dir/circle$rank.txt" || exit 1
        rank=$((rank + 1))
    done >"$out/left"
    part=1
    while [ "$part" -le "$parts" ]; do
        mkdir "$out/part$part"
        printf 'mfu list 2\nend 0\n' >"$out/part$part/circle.list"
        awk -v part="$part" -v parts="$parts" 'BEGIN { print "circle 1 0 1" }
            NR % parts == part % parts { print; n++ } END { print "end " n + 0 }' "$out/left" >"$out/part$part/circle0.txt"
        part=$((part + 1))
    done
}

merge() {
    dir=$1 out=$2
    [ -d "$out/part1" ] || fail "$out has no parts"
    trap 'rm -f "$out/done"' EXIT
    inner "$dir/circle.list" >"$out/done"
    part=1
    while [ -d "$out/part$part" ]; do
        inner "$out/part$part.list" >>"$out/done"
        part=$((part + 1))
    done
    mkdir "$out/whole"
    printf 'circle 1 0 1\nend 0\n' >"$out/whole/circle0.txt"
    {
        echo 'mfu list 2'
        by_path <"$out/done"
        echo "end $(grep -vc '^> ' "$out/done")"
    } >"$out/whole/circle.list"
}

case "$#${1-}" in
4divide) divide "$2" "$3" "$4" ;;
3merge) merge "$2" "$3" ;;
*)
    sed -n '2,/^set/s/^# \{0,1\}//p' "$0" >&2
    exit 1
    ;;
esac
