#!/bin/sh
# bench/append.sh: executed instructions of an append at three sizes of the log, beside the digests alone, ours and BLAKE3's portable C.
# The log has 2^10, 2^16 or 2^20 leaves and a few more, so that the append has no merge, one or five. Then records in one batch, beside the same
# appended one by one. Counted as by bench/digest.sh.
# Exit status: 0 where every limit is met, 1 where one is missed or two nodes differ, 2 where nothing could be measured.
set -eu
here=$(readlink -f -- "$0")
top=${here%/*/*}
# shellcheck source=bench/count.sh
. "$top/bench/count.sh"
count_append() {
    missed_here=0
    counted_by_both "$work/append" "$here/append.c"
    table append || missed_here=1
    measured "$work/batch" -I"$top/include" "$here/batch.c" "$archive"
    table batch || missed_here=1
    return $missed_here
}
in_both_modes count_append
