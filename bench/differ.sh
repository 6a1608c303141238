#!/bin/sh
# The rows of dcmp against what diff and rsync tell of the same two trees. usage: differ.sh
#
# The trees are made with every kind of difference. What each program tells is put into one form, a line for each path: in which
# tree it stands alone, or that its two nodes are of different kinds, or that its two files have other bytes. The three define
# different things, so the form leaves out what they don't share:
#   - diff names what stands alone by its top, and what is below two nodes of different kinds not at all;
#   - rsync tells no difference of kinds, but that the source's node would replace the other; it and diff look at the text of
#     links, so the links of the two trees are alike;
#   - diff takes two pipes for different, and rsync doesn't copy any, so each pipe stands on one side alone, and is not asked of
#     rsync.
# Then -o is asked for each expression, and what dfind reads back is compared with the rows.
set -u
export LC_ALL=C.UTF-8
here=$(dirname "$(readlink -f "$0")")
"$here/../mfu" dwalk /dev/null >/dev/null || exit
program=$here/../crates/mfu/out/mfu
work=$(mktemp -d)
trap 'rm -rf "$work"' EXIT
cd "$work" || exit
python3 "$here/make_pair.py" l r
"$program" dcmp "$work/l" "$work/r" >rows 2>notes || { cat notes; exit 1; }
python3 "$here/differ.py" diff rows "$(diff -rq --no-dereference l r)" || exit
if command -v rsync >/dev/null; then
    python3 "$here/differ.py" rsync rows "$(rsync -rlnci --delete l/ r/)" || exit
fi

# saved EXPR 'FIRST SIGNS': whether what is saved is what the rows that begin so tell
wrong=0
saved() {
    "$program" dcmp -o "$1:$work/list" "$work/l" "$work/r" >again 2>notes
    "$program" dfind --input "$work/list" 2>>notes | sed '$d' | cut -c 16- | sed "s:^$work/[lr]::; s:^\$:/:" | sort >ours
    sed '$d' rows | grep -E "^$2" | cut -c 9- | sort >theirs
    if cmp -s rows again && cmp -s ours theirs && [ ! -s notes ]; then
        echo "alike: -o $1, $(wc -l <ours) paths"
    else
        echo "WRONG: -o $1"
        diff ours theirs | head -5
        wrong=$((wrong + 1))
    fi
}

saved EXIST=ONLY_SRC 'S'
saved EXIST=ONLY_DEST 'D'
saved EXIST=DIFFER '[SD]'
saved EXIST=COMMON 'C'
saved TYPE=DIFFER '. !'
saved SIZE=COMMON '. . ='
saved SIZE=DIFFER '. . !'
saved CONTENT=COMMON '. . . ='
saved CONTENT=DIFFER@SIZE=COMMON '. . = !'
saved EXIST=ONLY_SRC,CONTENT=DIFFER '(S|. . . !)'
saved TYPE=COMMON@SIZE=DIFFER,TYPE=DIFFER '. (!|= !)'
echo "$wrong wrong"
[ "$wrong" -eq 0 ]
