#!/bin/sh
# hosts/build.sh [test]: proves and builds the library, and builds the programs of this folder into target/hosts, where a source is newer.
#   keeper   the host             bridge   the calls over a pipe, for outside/outside.py
# and for hosts/test.sh
#   lossy    the host on a disk that loses what was not synced       checked   the host under the compiler's sanitizers: with the library on
#            x86-64, elsewhere with what stands in for it in tests (hosts/tests/stand_in.c), since sanitizers are the machine's own
# They are x86-64 code. There any C compiler does, CC or cc; elsewhere it is Debian's cross compiler, and what stands in target/hosts starts the
# program under the kit's emulator. Exit status: 0 where all is built, 2 where it could not be.
set -eu
here=$(readlink -f -- "$0")
top=${here%/*/*}
here=$top/hosts
# shellcheck source=shell/common.sh
. "$top/shell/common.sh"
# shellcheck source=shell/built.sh
. "$top/shell/built.sh"
# shellcheck source=hosts/sources.sh
. "$top/hosts/sources.sh"
out=$top/target/hosts
flags="-std=c11 -D_DEFAULT_SOURCE -O2 -g -Wall -Wextra -Werror -DVERSION=$(cat "$top/VERSION")"
sanitizers='-fsanitize=address,undefined -fno-sanitize-recover=all'

# find_compiler: CC, where it is named, must be there, and must make x86-64 code to be used
find_compiler() {
    linking=
    [ "$machine" = x86_64 ] || linking=-static
    cc=${CC:-$compiler}
    if [ -n "${CC-}" ]; then
        # shellcheck disable=SC2086
        case $($CC -dumpmachine 2>/dev/null) in
        x86_64-*) ;;
        *) say "$CC makes no code for x86-64, which the library is: $compiler is taken"; cc=$compiler ;;
        esac
    fi
    # shellcheck disable=SC2086
    need_command "${cc%% *}" $compiler_packages
}

# compile_host: the host's sources, once for all programs that are linked from them, as many at a time as there are processors
compile_host() {
    objects=
    for file in $host_files; do objects="$objects $work/${file%.c}.o"; done
    # shellcheck disable=SC2086
    (cd "$here" && printf '%s\n' $host_files | sed 's/\.c$//' |
        xargs -P "$(nproc)" -I FILE $cc $flags -I"$top/include" -c FILE.c -o "$work/FILE.o") || die "the host was not compiled"
}

# compile PROGRAM SOURCE-OR-FLAG..: into target/hosts, and elsewhere than on x86-64 a script in front of it
compile() {
    program=$out/$1
    shift
    [ "$machine" = x86_64 ] || program=$program.x86_64
    # shellcheck disable=SC2086
    (cd "$here" && $cc $flags $linking -I"$top/include" "$@" "$archive" -o "$program.new") || die "$program was not built"
    mv "$program.new" "$program"
    [ "$machine" = x86_64 ] || start_by_emulator
}

# The script finds the emulator beside it, in target/run, wherever the repository is moved to.
start_by_emulator() {
    [ -x "$top/target/run/qemu-x86_64" ] || die "the kit has no emulator for $machine"
    {
        printf '#!/bin/sh\n# starts the program beside it, which is x86-64 code, under the emulator in ../run\n'
        # shellcheck disable=SC2016
        printf 'here=$(readlink -f -- "$0")\n'
        grep -v '^#' "$top/shell/streams.sh"
        # shellcheck disable=SC2016
        printf 'exec "${here%%/*/*}/run/qemu-x86_64" "$here.x86_64" "$@"\n'
    } >"${program%.x86_64}.new"
    chmod +x "${program%.x86_64}.new"
    mv "${program%.x86_64}.new" "${program%.x86_64}"
}

# The sanitizers are the machine's own compiler's: where it has none, nothing is built.
compile_checked() {
    rm -f "$out/checked"
    own=${CC:-cc}
    [ "$machine" = x86_64 ] || own=cc
    echo 'int main(void) { return 0; }' >"$work/empty.c"
    # shellcheck disable=SC2086
    $own $sanitizers "$work/empty.c" -o "$work/empty" 2>/dev/null && "$work/empty" || return 0
    with=$archive
    [ "$machine" = x86_64 ] || with=tests/stand_in.c
    # shellcheck disable=SC2086
    (cd "$here" && $own $flags $sanitizers -I"$top/include" $host_files $with -o "$out/checked") || die "checked was not built"
}

# The compiler's own look at every way through the host, where the machine's compiler can take it.
analyze() {
    echo 'int main(void) { return 0; }' >"$work/looked_at.c"
    gcc -fanalyzer "$work/looked_at.c" -o "$work/looked_at" 2>/dev/null || return 0
    for file in $host_files; do
        # shellcheck disable=SC2086
        (cd "$here" && gcc $flags -fanalyzer -I"$top/include" -c "$file" -o "$work/analyzed.o") || die "$file is not clean"
    done
}

# programs_built LAST: whether all up to that one are built
programs_built() {
    # shellcheck disable=SC2086
    is_built target/hosts/keeper $host_sources || return 1
    [ "$1" = test ] || return 0
    # shellcheck disable=SC2086
    is_built target/hosts/lossy $test_sources
}

demand_cc
set -f
! programs_built "${1-}" || exit 0
find_compiler
find_kit
one_at_a_time
! programs_built "${1-}" || exit 0
make_work
# shellcheck disable=SC2086
sum=$(sum_of $host_sources)
# shellcheck disable=SC2086
test_sum=$(sum_of $test_sources)
set +f
# the look at the sources needs no library, and goes on beside its proof
looking=
[ "${1-}" != test ] || { analyze & looking=$!; }
set -f
static_library keeper
set +f
copy_runner
mkdir -p "$out"
say "compiling the host"
checking=
[ -z "$looking" ] || { compile_checked & checking=$!; }
compile_host
# shellcheck disable=SC2086
compile keeper $objects
compile bridge "$top/outside/bridge.c"
was_built target/hosts/keeper "$sum"
if [ -n "$looking" ]; then
    wait "$looking" || exit 2
    wait "$checking" || exit 2
    # shellcheck disable=SC2086
    compile lossy -Wl,--wrap=mmap,--wrap=msync,--wrap=pwrite,--wrap=fdatasync,--wrap=fsync $objects tests/lossy.c
    was_built target/hosts/lossy "$test_sum"
fi
