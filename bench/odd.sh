#!/bin/sh
# Tries the program on odd files and streams of the system. usage: odd.sh
#
# Each line says what was tried and whether the status and the lines were as they ought to be; the last line counts what was
# not. Where root runs it, the program runs as nobody, whom a directory of mode 0 refuses.
set -u
here=$(dirname "$(readlink -f "$0")")
"$here/../mfu" dwalk /dev/null >/dev/null || exit
work=$(mktemp -d)
trap 'rm -rf "$work"' EXIT
chmod 755 "$work"
cp "$here/../crates/mfu/out/mfu" "$work/mfu"
tree=$work/tree
python3 "$here/make_odd.py" "$tree"
as=
[ "$(id -u)" -ne 0 ] || as='setpriv --reuid=65534 --regid=65534 --clear-groups'
wrong=0

# said WHAT TEST..: whether the test holds
said() {
    what=$1
    shift
    if "$@"; then
        echo "as it ought to be: $what"
    else
        echo "WRONG: $what"
        wrong=$((wrong + 1))
    fi
}

# walk WORD: walks a path, and keeps what was written and the status
walk() {
    $as "$work/mfu" dwalk "$1" >"$work/out" 2>"$work/notes"
    status=$?
}

line() { grep -Fxq -- "$2" "$work/$1"; }
no_line() { ! grep -Fq -- "$2" "$work/$1"; }

walk "$tree"
said 'a tree with failures: status 1' [ "$status" -eq 1 ]
said 'a file has its size' line out "f           11 $tree/file"
said 'a link is told' line out "l            0 $tree/link -> file"
said 'a link to a directory is not followed' no_line out " $tree/way/"
said 'a dangling link is told' line out "l            0 $tree/dangling -> nowhere"
said 'a pipe is told, and not opened' line out "o            0 $tree/pipe"
said 'a directory that is refused is told' line out "d            0 $tree/closed"
said 'and so is that it was not listed' line notes "failed list $tree/closed"
said 'a line feed is escaped' line out "f            0 $tree/line\\x0Afeed"
said 'names that are not UTF-8 are counted' line notes "unnamed $tree/bad 2"
said 'and those that are stand' line out "f            0 $tree/bad/good"
said 'a child whose path is too long is counted' [ "$(grep -c "^too long $tree/deep/.* 1$" "$work/notes")" -eq 1 ]
said 'and its directory has 4,095 bytes' [ "$(LC_ALL=C awk 'length($0) - 15 > most { most = length($0) - 15 } END { print most }' "$work/out")" -eq 4095 ]
said 'nothing else is noted' [ "$(wc -l <"$work/notes")" -eq 3 ]

walk "$tree/absent"
said 'an absent root: status 1' [ "$status" -eq 1 ]
said 'it is told as gone' line notes "gone $tree/absent"

walk "$tree/way"
said 'a root that is a link: status 0' [ "$status" -eq 0 ]
said 'it is told, and not followed' line out "l            0 $tree/way -> folder"

walk "$tree/file/x"
said 'a root below a file: status 1' [ "$status" -eq 1 ]
said 'it is told as gone' line notes "gone $tree/file/x"

"$work/mfu" dwalk "$tree/folder" >/dev/full 2>"$work/notes"
status=$?
said 'a full device as standard output: status 4' [ "$status" -eq 4 ]
said 'and nothing is noted' [ ! -s "$work/notes" ]

# The reader is gone before the program begins to write.
{ sleep 1; "$work/mfu" dwalk "$tree/folder" 2>"$work/notes"; echo $? >"$work/status"; } | true
while [ ! -s "$work/status" ]; do sleep 1; done
said 'a closed pipe as standard output: status 4, and no signal' [ "$(cat "$work/status")" -eq 4 ]

"$work/mfu" "$(printf '\377')" >"$work/out" 2>"$work/notes"
status=$?
said 'a word that is not UTF-8: status 2' [ "$status" -eq 2 ]
said 'without a line' [ ! -s "$work/out" ]
said 'and without a note' [ ! -s "$work/notes" ]

# A file that a run opens does not take the number of a stream that is closed: what is saved is whole, and nothing is printed into it.
ends() {
    [ "$(tail -n 1 "$1" | cut -d ' ' -f 1)" = end ] || return
    "$work/mfu" dwalk --input "$1" >"$work/out" 2>/dev/null
    [ $? -le 1 ]
}
list=$work/list

"$work/mfu" dwalk --output "$list" "$tree/folder" <&- >"$work/out" 2>"$work/notes"
status=$?
said 'standard input closed: status 0' [ "$status" -eq 0 ]
said 'and the list is whole' ends "$list"
rm -f "$list"

"$work/mfu" dwalk --output "$list" "$tree/folder" >&- 2>"$work/notes"
status=$?
said 'standard output closed, with --output: status 4' [ "$status" -eq 4 ]
said 'and the list is whole' ends "$list"
rm -f "$list"

"$work/mfu" dcmp -o "EXIST=COMMON:$list" "$tree/folder" "$tree/folder" >&- 2>"$work/notes"
status=$?
said 'standard output closed, with -o: status 4' [ "$status" -eq 4 ]
said 'and the list is whole' ends "$list"
rm -f "$list"

"$work/mfu" dwalk --output "$list" "$tree/folder" "$tree/absent" >"$work/out" 2>&-
status=$?
said 'standard error closed, with a note: status 4' [ "$status" -eq 4 ]
said 'and the list is whole' ends "$list"
rm -f "$list"

"$work/mfu" dwalk --output "$list" "$tree/folder" <&- >&- 2>&-
status=$?
said 'all three closed: status 4' [ "$status" -eq 4 ]
said 'and the list is whole' ends "$list"

# A file that is its own target by another name keeps its bytes, and a link its text.
one=$work/one
mkdir -p "$one/deep"
printf 'abc' >"$one/deep/short"
head -c 200000 /dev/zero | tr '\0' x >"$one/deep/long"
ln -s short "$one/deep/link"
cp -r "$one" "$work/same"
ln -s "$one" "$work/other"
"$work/mfu" dcp "$one/deep/short" "$work/other/deep" >"$work/out" 2>"$work/notes"
status=$?
said 'a short file copied onto itself: status 0' [ "$status" -eq 0 ]
"$work/mfu" dcp "$one/deep/long" "$work/other/deep" >"$work/out" 2>"$work/notes"
status=$?
said 'a long file copied onto itself: status 0' [ "$status" -eq 0 ]
"$work/mfu" dcp "$one/deep/link" "$work/other/deep" >"$work/out" 2>"$work/notes"
status=$?
said 'a link copied onto itself: status 0' [ "$status" -eq 0 ]
ln -s "$work" "$work/up"
"$work/mfu" dcp "$one/deep" "$work/up/one" >"$work/out" 2>"$work/notes"
status=$?
said 'a whole tree copied onto itself: status 0' [ "$status" -eq 0 ]
for hosts in 1 4; do
    "$work/mfu" dsync --delete --ranks 8 --hosts "$hosts" "$one/deep" "$work/up/one/deep" >"$work/out" 2>"$work/notes"
    status=$?
    said "a whole tree synced to itself on $hosts threads: status 0" [ "$status" -eq 0 ]
    said 'and nothing is copied or removed' grep -q '^synced 0 removed 0 kept 4 failed 0$' "$work/out"
done
said 'and all bytes and texts are as before' diff -r --no-dereference "$one" "$work/same"

echo "wrong: $wrong"
[ "$wrong" -eq 0 ]
