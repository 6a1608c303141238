#!/bin/sh
# Walks trees with `mfu dwalk` in stages: after each it reports on standard error how far it is. It can be interrupted and started again.
#
#   staged_walk.sh FOLDER K PATH...  begins; in a stage each rank handles at most K paths
#   staged_walk.sh FOLDER K          continues, also after an interruption
#
# After the last stage it prints the list that one walk prints. Set the variable WALK to options of dwalk, such as `--ranks 8 --hosts 8` or
# `--output FILE`. Two checkpoints in FOLDER are written in turn, so a stage that is interrupted while it writes one loses only its own work. The
# exit status is that of the last stage.
set -u
folder=${1:?FOLDER} k=${2:?K}
shift 2
mkdir -p "$folder" || exit
last=$(cat "$folder/last" 2>/dev/null)
if [ -n "$last" ] && [ $# -gt 0 ]; then
    echo "staged_walk.sh: $folder has an unfinished walk; give no paths to continue it" >&2
    exit 2
fi
while :; do
    if [ "$last" = a ]; then next=b; else next=a; fi
    rm -rf "${folder:?}/$next"
    if [ -n "$last" ]; then
        cp -r "$folder/$last" "$folder/$next" || exit
        set -- --restart
    else
        mkdir "$folder/$next" || exit
    fi
    # shellcheck disable=SC2086
    mfu dwalk --stop-after "$k" --lists "$folder/$next" ${WALK-} "$@" >"$folder/out" 2>"$folder/notes"
    status=$?
    [ "$status" -eq 6 ] || break
    found=$(tail -n 1 "$folder/$next/circle.list")
    left=$(cat "$folder/notes")
    printf '\r%s found, %s left      ' "${found#end }" "${left##* }" >&2
    echo "$next" >"$folder/last.new" && mv "$folder/last.new" "$folder/last" || exit
    last=$next
done
echo >&2
cat "$folder/notes" >&2
cat "$folder/out"
exit "$status"
