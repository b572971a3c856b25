# The panel's command, in the repository and where it is installed: the verdict number on standard input, written or not done.
# Wants with_program of shell/runs.sh, build NAME, behind which the program of that name is the one that is run, and version.
# shellcheck shell=sh disable=SC2154

panel_usage() {
    cat <<'END'
panel <NOTED-AND-LETTER
    the verdict number on standard input, which has the trusted size (8 bytes, big-endian), the root (32) and one letter. 0: accepted.
    keeper root LOG --bytes >NOTED; cat NOTED LETTER | panel
panel --key FILE <NOTED-AND-LETTER
    the same for a keyed log, by its key: a file of exactly 32 bytes, else the number is 24.
panel [--key FILE] --passage <NOTED-AND-PASSAGE
    the same for a passage letter. Without --passage it gets 5, and with it a letter of one record gets 19.
panel -h, panel --version
Exit status: 0 with a number, whatever it is; 2 where there is none, or it could not be written.
END
}

# keyed_input FILE: to stream 8 how many bytes the key file has, 33 for more; then, where these are 32, the key and behind it standard input, as the program
# for keyed logs reads them. The file is read once. No program has the key as an argument, since printf is the shell's own; no other file gets it; and the
# shell that has seen it is gone when the first byte behind it is read.
keyed_input() {
    # shellcheck disable=SC2046
    set -- $(head -c 33 <"$1" | od -An -v -to1)
    echo "$# bytes" >&8
    [ $# = 32 ] || return 0
    printf '%b' "$(printf '\\0%s' "$@")"
    exec cat
}

# keyed_verdict NAME FILE: the verdict by that program, which reads a key first; 24 where the file has not 32 bytes
keyed_verdict() {
    { [ -r "$2" ] && [ ! -d "$2" ]; } || { echo "panel: cannot read the key, $2" >&2; return 2; }
    case $(command -v printf) in printf) ;; *) echo "panel: this shell has no printf of its own, and so cannot hand on a key" >&2; return 2 ;; esac
    build "$1"
    verdict=$({ keyed_input "$2" | with_program 8>&-; } 8>&1) || { echo "panel: the program could not be run" >&2; return 2; }
    case $verdict in
    '32 bytes'*) verdict=${verdict#32 bytes?} ;;
    *)
        echo "panel: key refused, number 24: the key is not of 32 bytes. Name the file that has the league's key, and nothing else, not even a line end." >&2
        verdict=24
        ;;
    esac
}

# plain_verdict NAME: the verdict by that program, which reads standard input as it is
plain_verdict() {
    build "$1"
    verdict=$(with_program) || { echo "panel: the program could not be run" >&2; return 2; }
}

# panel WORD..: everything the command does
panel() {
    case ${1-} in
    -h | --help) panel_usage; return ;;
    --version) echo "panel (Cinchcleat) $version"; return ;;
    esac
    key=
    name=panel
    while [ $# != 0 ]; do
        case $1 in
        --passage) [ "$name" = panel ] || break; name=passage_panel; shift ;;
        --key=?*) [ -z "$key" ] || break; key=${1#--key=}; shift ;;
        --key) { [ -z "$key" ] && [ -n "${2-}" ]; } || break; key=$2; shift 2 ;;
        *) break ;;
        esac
    done
    [ $# = 0 ] || { panel_usage >&2; return 2; }
    if [ -z "$key" ]; then
        plain_verdict "$name" || return
    else
        keyed_verdict "keyed_$name" "$key" || return
    fi
    case $verdict in '' | *[!0-9]*) echo "panel: no verdict" >&2; return 2 ;; esac
    # what the shell itself says of a stream that cannot be written is not for a person
    (printf '%s\n' "$verdict") 2>/dev/null || { echo "panel: the verdict could not be written" >&2; return 2; }
}
