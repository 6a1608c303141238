# bash completion for mfu. Made by contrib/make_pages.py from contrib/tools.txt.
_mfu() {
    local cur=${COMP_WORDS[COMP_CWORD]} prev=${COMP_WORDS[COMP_CWORD-1]} words
    COMPREPLY=()
    if [ "$COMP_CWORD" -eq 1 ]; then
        mapfile -t COMPREPLY < <(compgen -W 'dwalk dfind dcmp dcp dsync ddup drm dtest help --help --version' -- "$cur")
        return
    fi
    # A `=` between an option and its value is a word of its own.
    if [ "$cur" = = ]; then
        cur=
    elif [ "$prev" = = ]; then
        prev=${COMP_WORDS[COMP_CWORD-2]}
    fi
    case ${COMP_WORDS[1]}:$prev in
        help:help) words='dwalk dfind dcmp dcp dsync ddup drm dtest globs expressions messages statuses permissions' ;;
        dwalk:--sort) words='path name size mtime kind -path -name -size -mtime -kind' ;;
        dwalk:--output) _mfu_paths; return ;;
        dwalk:--input) _mfu_paths; return ;;
        dwalk:--stop-after) return ;;
        dwalk:--lists) _mfu_paths; return ;;
        dwalk:--ranks) return ;;
        dwalk:--hosts) return ;;
        dwalk:--split) words='equal random' ;;
        dwalk:--seed) return ;;
        dwalk:--width) return ;;
        dfind:--name) return ;;
        dfind:--path) return ;;
        dfind:--type) words='f d l o' ;;
        dfind:--size) return ;;
        dfind:--mtime) return ;;
        dfind:--mmin) return ;;
        dfind:--newer) _mfu_paths; return ;;
        dfind:--sort) words='path name size mtime kind -path -name -size -mtime -kind' ;;
        dfind:--output) _mfu_paths; return ;;
        dfind:--input) _mfu_paths; return ;;
        dfind:--ranks) return ;;
        dfind:--hosts) return ;;
        dfind:--split) words='equal random' ;;
        dfind:--seed) return ;;
        dfind:--width) return ;;
        dcmp:-o) return ;;
        dcmp:--ranks) return ;;
        dcmp:--hosts) return ;;
        dcmp:--split) words='equal random' ;;
        dcmp:--seed) return ;;
        dcmp:--width) return ;;
        dcp:--range) return ;;
        dcp:--ranks) return ;;
        dcp:--hosts) return ;;
        dcp:--split) words='equal random' ;;
        dcp:--seed) return ;;
        dcp:--width) return ;;
        dsync:--ranks) return ;;
        dsync:--hosts) return ;;
        dsync:--split) words='equal random' ;;
        dsync:--seed) return ;;
        dsync:--width) return ;;
        ddup:--ranks) return ;;
        ddup:--hosts) return ;;
        ddup:--split) words='equal random' ;;
        ddup:--seed) return ;;
        ddup:--width) return ;;
        drm:--name) return ;;
        drm:--path) return ;;
        drm:--type) words='f d l o' ;;
        drm:--size) return ;;
        drm:--mtime) return ;;
        drm:--mmin) return ;;
        drm:--newer) _mfu_paths; return ;;
        drm:--ranks) return ;;
        drm:--hosts) return ;;
        drm:--split) words='equal random' ;;
        drm:--seed) return ;;
        drm:--width) return ;;
        dtest:--name) return ;;
        dtest:--path) return ;;
        dtest:--type) words='f d l o' ;;
        dtest:--size) return ;;
        dtest:--mtime) return ;;
        dtest:--mmin) return ;;
        dtest:--newer) _mfu_paths; return ;;
        dtest:--ranks) return ;;
        dtest:--hosts) return ;;
        dtest:--split) words='equal random' ;;
        dtest:--seed) return ;;
        dtest:--width) return ;;
        dwalk:*)
            if [[ $cur != -* ]]; then _mfu_paths; return; fi
            words='--sort --output --input --stop-after --lists --restart --ranks --hosts --split --seed --width --trace --shares --progress --help' ;;
        dfind:*)
            if [[ $cur != -* ]]; then _mfu_paths; return; fi
            words='--name --path --type --size --mtime --mmin --newer --sort --output --input --ranks --hosts --split --seed --width --trace --shares --progress --help' ;;
        dcmp:*)
            if [[ $cur != -* ]]; then _mfu_paths; return; fi
            words='-o --ranks --hosts --split --seed --width --help' ;;
        dcp:*)
            if [[ $cur != -* ]]; then _mfu_paths; return; fi
            words='--range --ranks --hosts --split --seed --width --help' ;;
        dsync:*)
            if [[ $cur != -* ]]; then _mfu_paths; return; fi
            words='--delete --ranks --hosts --split --seed --width --help' ;;
        ddup:*)
            if [[ $cur != -* ]]; then _mfu_paths; return; fi
            words='--ranks --hosts --split --seed --width --help' ;;
        drm:*)
            if [[ $cur != -* ]]; then _mfu_paths; return; fi
            words='--dryrun --name --path --type --size --mtime --mmin --newer --ranks --hosts --split --seed --width --help' ;;
        dtest:*)
            if [[ $cur != -* ]]; then return; fi
            words='--name --path --type --size --mtime --mmin --newer --ranks --hosts --split --seed --width --trace --shares --progress --help' ;;
        *) return ;;
    esac
    mapfile -t COMPREPLY < <(compgen -W "$words" -- "$cur")
}

# Paths are absolute, so an empty word begins with a slash.
_mfu_paths() {
    compopt -o filenames 2>/dev/null
    mapfile -t COMPREPLY < <(compgen -f -- "${cur:-/}")
}

complete -F _mfu mfu
