# What the counting scripts share: BLAKE3's portable C by two compilers, and the counting of a program's calls. $top is set before, and
# beside_c=no by a script that compares with no C, and so wants no sources of it.
# shellcheck shell=sh disable=SC2034,SC2154
# shellcheck source=shell/common.sh
. "$top/shell/common.sh"
# shellcheck source=shell/built.sh
. "$top/shell/built.sh"
here=$top/bench
flags='-O3 -march=x86-64 -DBLAKE3_NO_SSE2 -DBLAKE3_NO_SSE41 -DBLAKE3_NO_AVX2 -DBLAKE3_NO_AVX512'

sources_found() {
    for blake3 in /usr/share/cargo/registry/blake3-*/c; do :; done
    [ -f "$blake3/blake3_portable.c" ]
}

find_sources() {
    sources_found || die "no C code of BLAKE3: apt-get install librust-blake3-dev"
    version=$(basename "$(dirname "$blake3")")
}

# The kit's clang has no headers of its own and is handed gcc's. Portable code calls no intrinsic: their header is empty,
# for both compilers.
find_compilers() {
    # shellcheck disable=SC2086
    need_command "${prefix}gcc" $compiler_packages
    need_command "${prefix}objcopy" "$binutils_package"
    gcc=${prefix}gcc
    # shellcheck disable=SC2086
    [ -f "$($gcc -print-file-name=libc.a)" ] || die "no C library to link with: apt-get install $compiler_packages"
    clang=$tools/bin/clang
    [ -x "$clang" ] || die "the kit has no clang for $machine"
    mkdir "$work/include"
    : >"$work/include/immintrin.h"
    headers=$($gcc -E -v -x c /dev/null 2>&1 | sed -n '/^#include </,/^End of search/s,^ /,-isystem /,p' | tr '\n' ' ')
}

# theirs NAME COMPILER..: BLAKE3's C by one compiler, in one object whose only names are those that begin with NAME_
theirs() {
    name=$1
    shift
    objects=
    for source in "$blake3/blake3.c" "$blake3/blake3_dispatch.c" "$blake3/blake3_portable.c" ${more_sources-} "$here/theirs.c"; do
        object=$work/$name-$(basename "$source" .c).o
        # shellcheck disable=SC2086
        "$@" $flags $keyed -DSIDE="$name" -I"$work/include" -I"$blake3" -I"$here" -c "$source" -o "$object"
        objects="$objects $object"
    done
    # shellcheck disable=SC2086
    "${prefix}ld" -r -o "$work/$name-all.o" $objects
    "${prefix}objcopy" --wildcard --keep-global-symbol="${name}_*" "$work/$name-all.o" "$work/$name.o"
}

# count_by_valgrind PROGRAM: the calls in their order go to names, a line each, and what each took to counts
count_by_valgrind() {
    "$1" time >"$work/times"
    valgrind --tool=callgrind --callgrind-out-file="$work/part" "$1" count >"$work/names" 2>"$work/valgrind.log" ||
        { cat "$work/valgrind.log" >&2; exit 1; }
    k=0
    while [ "$k" -lt "$(wc -l <"$work/names")" ]; do
        k=$((k + 1))
        sed -n 's/^totals: //p' "$work/part.$k"
    done >"$work/counts"
    how="counted by $(valgrind --version)"
}

# count_by_emulator PROGRAM: the same by the kit's emulator; what lies between the first instruction of mark_begin and that of mark_end. It names each
# block of instructions as it comes to it, and the first time tells what it makes of each instruction, below a line " ---- ADDRESS"; of a block that
# was too long for it, it tells so and begins again with a shorter one. The program gets the same name and no environment wherever it runs: both lie on
# its stack, and what memcpy takes depends on where its bytes lie.
count_by_emulator() {
    [ -x "$tools/bin/qemu-x86_64" ] || die "the kit has no emulator for $machine"
    : >"$work/times"
    {
        status=0
        (cd "$work" && env -i "$tools/bin/qemu-x86_64" -d nochain,exec,op "./${1##*/}" count) 2>&1 >"$work/names" || status=$?
        echo "$status" >"$work/status"
    } | LC_ALL=C awk '
        /^ ---- / { fresh++; next }
        $1 == "OP:" { fresh = 0; next }
        /^( |$|Restarting code generation)/ { next }
        $1 != "Trace" { print >"/dev/stderr"; next }
        fresh { size[$4] = fresh; fresh = 0 }
        !($4 in size) { print "bench: a block of unknown size: " $0 >"/dev/stderr"; exit 1 }
        $NF == "mark_begin" { if (last != $NF) n = 0 }
        $NF == "mark_end" { if (last != $NF) print n }
        { n += size[$4]; last = $NF }' >"$work/counts" || exit 1
    [ "$(cat "$work/status")" = 0 ] || exit 1
    how="counted by the kit's emulator"
}

# measured PROGRAM ARGUMENT..: compiles the program from the arguments, and counts its calls
measured() {
    program=$1
    shift
    marks=
    if [ "$machine" = x86_64 ]; then
        need_command valgrind valgrind
        marks=-DCALLGRIND
    fi
    # shellcheck disable=SC2086
    "$gcc" -O2 -static $marks $keyed -I"$here" "$@" -o "$program"
    if [ "$machine" = x86_64 ]; then count_by_valgrind "$program"; else count_by_emulator "$program"; fi
    echo "Executed instructions${keyed:+ in a keyed mode}, $how, and nanoseconds where they are measured."
    paste "$work/names" "$work/counts" >"$work/measured"
}

# counted PROGRAM ARGUMENT..: the same with both compilers' BLAKE3
counted() {
    theirs gcc "$gcc"
    # shellcheck disable=SC2086
    theirs clang "$clang" --target=x86_64-linux-gnu -nostdinc $headers
    measured "$@" "$work/gcc.o" "$work/clang.o"
    echo "C: $version, portable, -O3 -march=x86-64."
    echo "gcc: $($gcc --version | head -n 1)"
    echo "clang: $($clang --version | head -n 1), the kit's"
}

# keeper_and_digest: the keeper's archive, and the digest alone beside it in digest.o. The two archives have names in common: of the digest's only its
# two calls stay visible.
keeper_and_digest() {
    static_library digest_c
    "${prefix}ld" -r -o "$work/digest-all.o" --whole-archive "$archive"
    "${prefix}objcopy" --keep-global-symbol=digest_c_of --keep-global-symbol=digest_c_pair "$work/digest-all.o" "$work/digest.o"
    static_library keeper
}

# counted_by_both PROGRAM SOURCE: a program that calls the keeper and the digest alone
counted_by_both() {
    keeper_and_digest
    counted "$1" -I"$top/include" -I"$top/crates/digest_c" "$2" "$work/digest.o" "$archive"
}

# in_both_modes COMMAND..: the same counted in the plain mode, and then in a keyed one; 1 where a limit was missed in either
in_both_modes() {
    missed=0
    for keyed in '' -DKEYED; do "$@" || missed=1; done
    return $missed
}

# table NAME: the table of what was counted, and the limits
table() {
    awk -F '\t' -f "$here/reads.awk" -f "$here/$1.awk" "$work/times" "$work/measured"
}

keyed=
find_kit
one_at_a_time
make_work
[ "${beside_c-yes}" = no ] || find_sources
find_compilers
