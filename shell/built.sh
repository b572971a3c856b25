# What is built already, and what builds it once: whether a program is newer than its sources, and the lock around what builds.
# Wants top, the repository.
# shellcheck shell=sh disable=SC2034,SC2154

# what a program or an archive of the crates is proved and built from, as names in the repository and, behind them, what find leaves out
proved_sources='crates crates.txt -name must-fail -prune -o -name out -prune -o'

# sum_of SOURCE..: the time, and behind it one sum over the sources, files and folders of the repository, wherever it lies
sum_of() {
    echo "$(date +@%s.%N) $(cd "$top" && find "$@" -type f -print0 | LC_ALL=C sort -z | xargs -0 sha256sum | sha256sum)"
}

# is_built PROGRAM SOURCE..: whether the program is there and no source has changed since: none is newer, or all have the sum that was kept beside the
# program, as in a copy of the repository
is_built() {
    program=$top/$1
    shift
    [ -f "$program" ] && [ -f "$program.sources" ] || return 1
    [ -n "$(cd "$top" && find "$@" -type f -newer "$program.sources" -print -quit)" ] || return 0
    sum_now=$(sum_of "$@")
    [ "${sum_now#* }" = "$(cat "$program.sources")" ] || return 1
    touch -c -d "${sum_now%% *}" "$program.sources" 2>/dev/null || :
}

# was_built PROGRAM SUM: the program is there, and has beside it the sum of its sources, which was taken before it was built, with the time of that: a
# source that was edited meanwhile is newer
was_built() {
    echo "${2#* }" >"$top/$1.sources"
    touch -d "${2%% *}" "$top/$1.sources"
}

# one_at_a_time: until the script ends no other script builds. The lock is on the repository's folder, so that it leaves nothing behind.
one_at_a_time() {
    command -v flock >/dev/null || die "no flock: apt-get install util-linux"
    exec 9<"$top"
    flock -n 9 && return
    say "waiting for another build"
    flock 9
}
