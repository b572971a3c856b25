#!/bin/sh
# bench/find.sh: executed instructions of the finder on a letter of a record of 200 bytes, our own and one that is refused, beside writing ours,
# beside checking the same letter, and beside the finder's digests alone by BLAKE3's portable C. The log has 1, 2^10, 2^20, 2^20 - 1 or 2^28 - 1
# leaves, of which only the nodes that the letter speaks of are made. Counted as by bench/digest.sh.
# Exit status: 0 where the limit is met, 1 where it is missed or an answer is not what it should be, 2 where nothing could be measured.
set -eu
here=$(readlink -f -- "$0")
top=${here%/*/*}
# shellcheck source=bench/count.sh
. "$top/bench/count.sh"
static_library keeper
count_find() {
    counted "$work/find" -I"$top/include" "$here/find.c" "$archive"
    table find
}
in_both_modes count_find
