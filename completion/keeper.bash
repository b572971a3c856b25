# Completion for bash: keeper's commands and their options, then files; panel has options, and a file for its key.
# shellcheck shell=bash

_keeper() {
    local word=${COMP_WORDS[COMP_CWORD]} before=${COMP_WORDS[COMP_CWORD - 1]} options
    COMPREPLY=()
    if [ "$COMP_CWORD" = 1 ]; then
        mapfile -t COMPREPLY < <(compgen -W "append root info letter passage check find verify repair digest node help --version -h" -- "$word")
        return
    fi
    case $before in
    --folder | --records-to | --to) mapfile -t COMPREPLY < <(compgen -d -- "$word"); return ;;
    --record | --page | --key) mapfile -t COMPREPLY < <(compgen -f -- "$word"); return ;;
    --size | --wait | --inner) return ;;
    esac
    case ${COMP_WORDS[1]} in
    append) options="--folder --stream --acknowledge --keep-records --wait --quiet --key" ;;
    root) options="--size --bytes --records --folder --stream --quiet --key" ;;
    info) options="--key" ;;
    letter) options="--size --record --key" ;;
    passage) options="--size --records --key" ;;
    check) options="--show --record --records-to --to --page --key" ;;
    find) options="--size --records --key" ;;
    verify) options="--records --quiet --key" ;;
    repair) options="--wait --key" ;;
    digest) options="--check --quiet --key" ;;
    node) options="--leaf --inner --record --key" ;;
    *) options= ;;
    esac
    case $word in
    -*) mapfile -t COMPREPLY < <(compgen -W "$options --json --help" -- "$word") ;;
    *) mapfile -t COMPREPLY < <(compgen -f -- "$word") ;;
    esac
}

_panel() {
    case ${COMP_WORDS[COMP_CWORD - 1]} in
    --key) mapfile -t COMPREPLY < <(compgen -f -- "${COMP_WORDS[COMP_CWORD]}") ;;
    *) mapfile -t COMPREPLY < <(compgen -W "--key --passage -h --version" -- "${COMP_WORDS[COMP_CWORD]}") ;;
    esac
}

complete -o filenames -F _keeper keeper
complete -o filenames -F _panel panel
