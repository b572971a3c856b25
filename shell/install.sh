# What the README's two commands share, and no other: packages that are missing are installed, by Debian's names, and that is said first.
# shellcheck shell=sh disable=SC2154

# install_packages PACKAGE..: all at once
install_packages() {
    say "installing $*"
    as_root=
    [ "$(id -u)" = 0 ] || as_root=sudo
    for try in 1 2; do
        # shellcheck disable=SC2086
        $as_root apt-get install -y --no-install-recommends "$@" >"$work/apt.log" 2>&1 </dev/null && return
        # shellcheck disable=SC2086
        [ "$try" = 2 ] || { say "asking for newer lists of packages"; $as_root apt-get update >>"$work/apt.log" 2>&1 </dev/null || true; }
    done
    cat "$work/apt.log" >&2
    die "could not install $*"
}

# install_missing COMMAND PACKAGE..: the packages, where the command is missing
install_missing() {
    command=$1
    shift
    command -v "$command" >/dev/null 2>&1 || install_packages "$@"
    command -v "$command" >/dev/null 2>&1 || die "no $command, with $* installed"
}

# install_compiler: what hosts/build.sh compiles with. A compiler that was named in CC is the caller's.
install_compiler() {
    demand_cc
    if [ "$machine" = x86_64 ] && [ -n "${CC-}" ]; then return; fi
    # shellcheck disable=SC2086
    install_missing "$compiler" $compiler_packages
}
