# Completion of the words of mosaic and of mosaic-tiles, for bash.

_mosaic() {
    local word=${COMP_WORDS[COMP_CWORD]} subcommands='format import serve table check upgrade' wanted
    COMPREPLY=()
    if [ "${COMP_WORDS[0]##*/}" = mosaic-tiles ]; then
        subcommands="$subcommands write read"
    fi
    if [ "$COMP_CWORD" -eq 1 ]; then
        mapfile -t COMPREPLY < <(compgen -W "$subcommands" -- "$word")
        return
    fi
    case "${COMP_WORDS[1]}:$COMP_CWORD" in
        format:2 | import:2 | serve:2 | check:2 | upgrade:2 | write:2 | read:2) wanted=file ;;
        import:3) wanted=tile ;;
        write:3) wanted=layer ;;
        write:4) wanted=all ;;
        write:*) wanted=folder ;;
        format:3 | table:2) wanted=side ;;
        format:4 | table:3) wanted=capacity ;;
    esac
    case "${wanted:-}" in
        file) mapfile -t COMPREPLY < <(compgen -f -- "$word") ;;
        tile) mapfile -t COMPREPLY < <(compgen -d -- "$word"; compgen -f -X '!*.[hH][gG][tT]' -- "$word") ;;
        layer) mapfile -t COMPREPLY < <(compgen -W 'levels directions upstream' -- "$word") ;;
        all) mapfile -t COMPREPLY < <(compgen -W 'all' -- "$word") ;;
        folder) mapfile -t COMPREPLY < <(compgen -d -- "$word") ;;
        side) mapfile -t COMPREPLY < <(compgen -W '1201 3601' -- "$word") ;;
        capacity) mapfile -t COMPREPLY < <(compgen -W '1 4 16 100 240' -- "$word") ;;
    esac
    case "${wanted:-}" in
        file | tile | folder) compopt -o filenames 2>/dev/null ;;
    esac
}

complete -F _mosaic mosaic mosaic-tiles
