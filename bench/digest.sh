#!/bin/sh
# bench/digest.sh: executed instructions of the digest beside BLAKE3's portable C, and the limits that they are held to.
# The C is compiled by gcc and by the kit's own clang; a ratio is to the better of the two. The three run in one program
# on the same bytes, and their digests are compared. Then input in parts, beside the same bytes at once, and beside C in the same parts.
# On x86-64 valgrind counts, and the times are printed too; elsewhere the kit's emulator tells which blocks of instructions it runs,
# and their instructions are added up. What is missing is named. First in the plain mode, then in a keyed one.
# Exit status: 0 where every limit is met, 1 where one is missed or two digests differ, 2 where nothing could be measured.
set -eu
here=$(readlink -f -- "$0")
top=${here%/*/*}
# shellcheck source=bench/count.sh
. "$top/bench/count.sh"
static_library keeper
keeper=$archive
static_library digest_c
count_digest() {
    missed_here=0
    counted "$work/digest" -I"$top/crates/digest_c" "$here/digest.c" "$archive"
    table digest || missed_here=1
    measured "$work/parts" -I"$top/include" "$here/parts.c" "$keeper" "$work/gcc.o" "$work/clang.o"
    table parts || missed_here=1
    return $missed_here
}
in_both_modes count_digest
