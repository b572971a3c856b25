#!/bin/sh
# bench/check.sh: executed instructions of checking a letter of a record of 200 bytes, beside the digests alone, ours and BLAKE3's portable C.
# The log has 1, 2^10, 2^20 or 2^32 leaves; nobody has to build it, since any items have a root. Counted as by bench/digest.sh.
# Exit status: 0 where the limit is met, 1 where it is missed or two roots differ, 2 where nothing could be measured.
set -eu
here=$(readlink -f -- "$0")
top=${here%/*/*}
# shellcheck source=bench/count.sh
. "$top/bench/count.sh"
count_check() {
    counted_by_both "$work/check" "$here/check.c"
    table check
}
in_both_modes count_check
