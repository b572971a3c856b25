# What the scripts share: the repository, the kit, the tools for x86-64, and the packages that bring them.
# A script sets top, the repository, before it takes this in.
# shellcheck shell=sh disable=SC2034,SC2154

say() { echo "${0##*/}: $*" >&2; }
die() { say "$*"; exit 2; }

machine=$(uname -m)

# Object code is x86-64 on every machine: elsewhere than on x86-64 the compiler and binutils are the cross ones.
if [ "$machine" = x86_64 ]; then
    prefix=
    compiler=cc
    compiler_packages='gcc libc6-dev'
    binutils_package=binutils
else
    prefix=x86_64-linux-gnu-
    compiler=${prefix}gcc
    compiler_packages='gcc-x86-64-linux-gnu libc6-dev-amd64-cross'
    binutils_package=binutils-x86-64-linux-gnu
fi

# make_work: a folder for what a script needs while it runs
make_work() {
    work=$(mktemp -d) || die "no temporary folder"
    trap 'rm -rf "$work"' EXIT
}

# find_kit: the kit, and its tools
find_kit() {
    command -v rt >/dev/null 2>&1 || die "no rt: Rattle's kit is not installed, and something has to be proved and built"
    guide=$(rt doc) || die "rt does not name its guide"
    kit=$(dirname "$guide")
    tools=$kit/toolchain
}

# need_command COMMAND PACKAGE..: names the packages where the command is missing. Nothing is installed: only bin/match and .ci/run do that.
need_command() {
    command=$1
    shift
    command -v "$command" >/dev/null 2>&1 || die "no $command: apt-get install $*"
}

# demand_cc: a compiler that is named in CC is there, or it was mistyped
demand_cc() {
    [ -z "${CC-}" ] || command -v "${CC%% *}" >/dev/null 2>&1 || die "CC is ${CC%% *}, and there is no such command"
}

# rt_libraries CRATE..: proves the crates where that is not done, and writes their archives, one after the other: each sees most of what those before it
# see. An archive is written into the crate's own folder out, and is copied into target/staticlib. Its code is for every x86-64: it could not look for
# what a newer one has.
rt_libraries() {
    say "proving and building the library $1, which takes some minutes the first time"
    mkdir -p "$top/target/staticlib"
    for crate; do
        (cd "$top/crates/$crate" && rt lib --cpu x86-64) >"$work/rt.log" 2>&1 </dev/null || { cat "$work/rt.log" >&2; die "$crate was not built"; }
        cp "$top/crates/$crate/out/lib$crate.a" "$top/target/staticlib/lib$crate.a" || die "cannot copy the library $crate"
    done
}

# join_library CRATE: puts the object of that crate into the archive too. An archive exports the calls of its own crate alone, and what its object has
# beside them is seen by no other, so that several objects lie in one archive.
join_library() {
    (cd "$work" && "$tools/bin/llvm-ar" x "$top/target/staticlib/lib$1.a" "$1.o" && "$tools/bin/llvm-ar" rs "$archive" "$1.o") || die "$1 was not joined"
}

# the crates beside the keeper whose calls its archive has
library_parts='stored_c letter_c parts_c passage_c'

# static_library CRATE: the archive of that crate, and for the keeper the calls of those beside it. Wants shell/built.sh and its lock, and the kit.
static_library() {
    archive=$top/target/staticlib/lib$1.a
    # shellcheck disable=SC2086
    ! is_built "target/staticlib/lib$1.a" $proved_sources || return 0
    # shellcheck disable=SC2086
    library_sum=$(sum_of $proved_sources)
    if [ "$1" = keeper ]; then
        # shellcheck disable=SC2086
        rt_libraries keeper $library_parts
        for part in $library_parts; do join_library "$part"; done
    else
        rt_libraries "$1"
    fi
    was_built "target/staticlib/lib$1.a" "$library_sum"
}

# copy_runner: into target/run what starts a program of the crates where there is no kit: its loader and libraries, and the emulator
copy_runner() {
    mkdir -p "$top/target/run"
    for file in "$tools"/lib/ld-linux-x86-64.so.2 "$tools"/lib/lib*.so.* "$tools"/bin/qemu-x86_64; do
        [ ! -e "$file" ] || cmp -s "$file" "$top/target/run/${file##*/}" || cp "$file" "$top/target/run/.new.$$" || die "cannot copy $file"
        [ ! -e "$top/target/run/.new.$$" ] || mv "$top/target/run/.new.$$" "$top/target/run/${file##*/}"
    done
}
