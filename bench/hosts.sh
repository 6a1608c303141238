#!/bin/sh
# What threads gain: the walk by 8 ranks on 1, 2 and 4 hosts against `find | sort`, and a comparison on as many against diff.
# usage: hosts.sh [TREE [ROUNDS]]
#
# TREE is made where it is absent, with 200,000 entries; the two trees that are compared are `mixed` of compare.sh. All in one run,
# in turn. That the answers are alike is looked at first.
set -e
here=$(dirname "$(readlink -f "$0")")
tree=${1:-${TMPDIR:-/tmp}/mfu-walk-tree}
rounds=${2:-7}
pair=${TMPDIR:-/tmp}/mfu-compare/mixed
[ -e "$tree" ] || python3 "$here/make_tree.py" "$tree" 200000
mkdir -p "${pair%/*}"
[ -e "$pair" ] || python3 "$here/make_tree.py" "$pair" 40000 1 full
[ -e "$pair-copy" ] || cp -a "$pair" "$pair-copy"
"$here/../mfu" dwalk /dev/null >/dev/null
program=$here/../crates/mfu/out/mfu
echo "$(nproc) processors"

one=$("$program" dwalk --ranks 1 "$tree" | cksum)
for words in '--ranks 8 --hosts 2' '--ranks 8 --hosts 4' '--ranks 64 --hosts 4' '--ranks 3 --hosts 64 --split random --seed 5'; do
    # shellcheck disable=SC2086
    [ "$("$program" dwalk $words "$tree" | cksum)" = "$one" ] || { echo "WRONG: $words"; exit 1; }
done
echo 'every number of hosts prints the same'

python3 "$here/compare.py" -n "$rounds" -e "$(find "$tree" | wc -l)" \
    "hosts 4='$program' dwalk --ranks 8 --hosts 4 '$tree'" \
    "hosts 2='$program' dwalk --ranks 8 --hosts 2 '$tree'" \
    "hosts 1='$program' dwalk --ranks 8 --hosts 1 '$tree'" \
    "1 rank='$program' dwalk --ranks 1 '$tree'" \
    "64 on 4='$program' dwalk --ranks 64 --hosts 4 '$tree'" \
    "4 on 4='$program' dwalk --ranks 4 --hosts 4 '$tree'" \
    "find|sort=find '$tree' -printf '%y %12s %p\\n' | LC_ALL=C sort"
python3 "$here/compare.py" -n "$rounds" -e "$(find "$pair" "$pair-copy" | wc -l)" \
    "hosts 4='$program' dcmp --hosts 4 '$pair' '$pair-copy'" \
    "hosts 1='$program' dcmp --hosts 1 '$pair' '$pair-copy'" \
    "diff=diff -rq --no-dereference '$pair' '$pair-copy'"
