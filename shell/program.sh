# A program of the crates, proved and built where a source is newer, and run. A script sets top, the repository, before it takes this in.
# shellcheck shell=sh disable=SC2154
. "$top/shell/built.sh"
. "$top/shell/runs.sh"
run=$top/target/run
say() { echo "${0##*/}: $*" >&2; }
die() { say "$*"; exit 2; }

# build NAME: proves and builds a program where that is not done, for every x86-64; ends the script with status 2 where that fails. What builds it runs it
# too, on no input: each of our programs ends there with status 0.
build() {
    program=$top/target/bin/$1
    # shellcheck disable=SC2086
    ! is_built "target/bin/$1" $proved_sources || return 0
    . "$top/shell/common.sh"
    find_kit
    one_at_a_time
    # shellcheck disable=SC2086
    ! is_built "target/bin/$1" $proved_sources || return 0
    make_work
    # shellcheck disable=SC2086
    sum=$(sum_of $proved_sources)
    say "proving and building $1, which takes some minutes the first time"
    (cd "$top/crates/$1" && rt run --cpu x86-64) >"$work/rt.log" 2>&1 </dev/null || { cat "$work/rt.log" >&2; die "$1 was not built"; }
    copy_runner
    mkdir -p "$top/target/bin"
    cp "$top/crates/$1/out/$1" "$program.new" || die "$1 was not built"
    mv "$program.new" "$program"
    was_built "target/bin/$1" "$sum"
    exec 9<&-
}
