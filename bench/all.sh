#!/bin/sh
# The usual tools beside ours, in one table and one run of at most twenty minutes. usage: all.sh [FOLDER [ROUNDS]]
#
# In FOLDER, /dev/shm by default, the trees are made if they are absent: `walk` has 210,000 empty entries, `large` 1,000 files of 400 KB, `small` 60,000
# files of 100 bytes. Of each task all commands run in turn, ROUNDS times (5 by default). Each round begins with another command. Each copy has a
# destination that is not there, and each removal a fresh copy. Making them is not counted. After 18 minutes no further round begins.
# A line of the table has the median of the ratios of single rounds, ours to the other tool; below 1 ours is faster. With one thread the ratio is that of
# the processor seconds, with four that of the seconds by the clock. In brackets is the aim.
# A tool that is not installed has no line, and is named at the end. Before the table all.sh prints the load and the processes that run beside it, and
# after it the part of the processors' time that other virtual machines took (`steal` of /proc/stat). MFU names another program than the built one; WALK,
# LARGE and SMALL are other numbers of entries. It needs GNU time.
set -e
LC_ALL=C
export LC_ALL
here=$(dirname "$(readlink -f "$0")")
folder=${1:-/dev/shm}
rounds=${2:-5}
[ -n "$MFU" ] || "$here/../mfu" dwalk /dev/null >/dev/null
mfu=${MFU:-$here/../crates/mfu/out/mfu}
work=$(mktemp -d "$folder/mfu-all.XXXXXX")
trap 'rm -rf "$work"' EXIT
begun=$(date +%s)
missing=
fd=fd
! command -v fdfind >/dev/null || fd=fdfind

# jiffies: those that other virtual machines took, and all
jiffies() {
    awk '/^cpu / { for (k = 2; k <= 9; k++) sum += $k; print $9, sum }' /proc/stat
}

# tree NAME ENTRIES [SIZE]: makes a tree if it is absent
tree() {
    at=$folder/mfu-all-$1
    shift
    [ -e "$at" ] || python3 "$here/make_tree.py" "$at" "$1" 1 ${2:+"$2"} >/dev/null
}

# once NAME COMMAND: notes the seconds by the clock and of a processor
once() {
    eval "$prepare"
    start=$(date +%s.%N)
    command time -q -f '%U %S' -o "$work/took" sh -c "$2" >"$work/text" 2>/dev/null || true
    end=$(date +%s.%N)
    echo "$end $start" | awk '{ printf "%.4f\n", $1 - $2 }' >>"$work/$1.wall"
    tail -n 1 "$work/took" | awk '{ printf "%.4f\n", $1 + $2 }' >>"$work/$1.cpu"
}

# ratio OURS THEIRS KIND: the median of the ratios of single rounds
ratio() {
    paste "$work/$1.$3" "$work/$2.$3" | awk '$2 > 0 { printf "%.3f\n", $1 / $2 }' | sort -n | awk '{ it[NR] = $1 } END { printf "%.2f", it[int((NR + 1) / 2)] }'
}

# task WORK WORDS AIM-ONE AIM-FOUR [NAME COMMAND] ..: times `mfu WORDS` with one thread and with four beside the commands, and prints a line for each
task() {
    what=$1 aims="$3 $4" tool=${2%% *} rest=${2#* }
    set -- one "$mfu $tool --ranks 1 $rest" four "$mfu $tool --ranks 8 --hosts 4 $rest" "$@"
    # the first eight words are the two of ours and the head of the task
    one=$2 four=$4
    shift 8
    names="one four"
    number=0
    : >"$work/commands"
    printf '%s\n%s\n' "$one" "$four" >"$work/commands"
    while [ $# -gt 0 ]; do
        program=${2%% *}
        if command -v "$program" >/dev/null; then
            number=$((number + 1))
            names="$names other$number"
            printf '%s\n' "$2" >>"$work/commands"
            printf '%s\n' "$1" >"$work/other$number.name"
        else
            missing="$missing $program"
        fi
        shift 2
    done
    [ "$names" != "one four" ] || return 0
    order=$names
    for round in $(seq "$rounds"); do
        [ $(($(date +%s) - begun)) -lt 1080 ] || [ "$round" -eq 1 ] || break
        for name in $order; do
            case $name in one) line=1 ;; four) line=2 ;; *) line=$((${name#other} + 2)) ;; esac
            once "$name" "$(sed -n "${line}p" "$work/commands")"
        done
        order="${order#* } ${order%% *}"
    done
    for name in ${names#one four }; do
        echo "| $what | $(cat "$work/$name.name") | $(ratio one "$name" cpu) (${aims% *}) | $(ratio four "$name" wall) (${aims#* }) |"
    done
    rm -f "$work"/*.wall "$work"/*.cpu "$work"/*.name
}

tree walk "${WALK:-210000}"
tree large "${LARGE:-1055}" 400000
tree small "${SMALL:-63300}" 100
walk=$folder/mfu-all-walk
for name in large small; do cp -a "$folder/mfu-all-$name" "$work/$name"; done
echo "$(nproc) processors, load $(cut -d ' ' -f 1-3 /proc/loadavg)"
echo 'beside it run, with percent of a processor:'
ps -eo pcpu,comm --sort=-pcpu --no-headers | awk '$1 >= 5' | head -n 8
before=$(jiffies)

echo '| Work | to | one thread (aim) | four threads (aim) |'
echo '|---|---|---|---|'
prepare=:
task "dwalk of $(find "$walk" | wc -l) entries" "dwalk $walk" 1.0 0.40 \
    'find -printf and sort' "find $walk -printf '%y %12s %p\\n' | sort" \
    'fd -j4 with sizes' "$fd -u -j4 --size +0b . $walk" \
    'gdu -m 4' "gdu -n -p -m 4 $walk"
for name in large small; do
    case $name in large) aims='0.85 0.28' ;; small) aims='1.2 0.40' ;; esac
    task "dcmp, $name" "dcmp $folder/mfu-all-$name $work/$name" "${aims% *}" "${aims#* }" \
        'diff -rq' "diff -rq --no-dereference $folder/mfu-all-$name $work/$name" \
        'rsync -rlnc' "rsync -rlnc --delete $folder/mfu-all-$name/ $work/$name" \
        'rclone check' "rclone check $folder/mfu-all-$name $work/$name"
done
prepare="rm -rf $work/made; mkdir $work/made"
for name in large small; do
    case $name in large) aims='1.15 0.33' ;; small) aims='1.1 0.42' ;; esac
    task "dcp, $name" "dcp $folder/mfu-all-$name $work/made" "${aims% *}" "${aims#* }" \
        'cp -r' "cp -r $folder/mfu-all-$name $work/made" \
        'rsync -rl --whole-file' "rsync -rl --whole-file $folder/mfu-all-$name $work/made" \
        'rclone copy' "rclone copy $folder/mfu-all-$name $work/made" \
        'fpsync -n 4' "fpsync -n 4 $folder/mfu-all-$name/ $work/made/"
done
prepare="rm -rf $work/made; cp -a $folder/mfu-all-small $work/made"
task 'drm, small' "drm $work/made" 1.3 0.6 'rm -r' "rm -r $work/made"
rm -rf "$work/made"
prepare=:
"$mfu" dwalk --output "$work/list" "$walk" >"$work/lines"
task '--input of the list' "dwalk --input $work/list" 1.0 - 'sort of its lines' "sort $work/lines"

echo "$before $(jiffies)" | awk '{ printf "other virtual machines took %.1f %% of the processors; ", 100 * ($3 - $1) / ($4 - $2) }'
echo "load $(cut -d ' ' -f 1-3 /proc/loadavg), $(($(date +%s) - begun)) s"
[ -z "$missing" ] || echo "not installed: $(echo "$missing" | tr ' ' '\n' | sort -u | tr '\n' ' ')"
