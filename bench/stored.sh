#!/bin/sh
# bench/stored.sh: executed instructions of reading a stored leaf, a true one and one that lies about its digest, beside the digest of its record
# alone; of reading an inner node; and of storing both. All by this library: no C code of BLAKE3 is wanted. Counted as by bench/digest.sh.
# Exit status: 0 where every limit is met, 1 where one is missed or an answer is not what it should be, 2 where nothing could be measured.
set -eu
here=$(readlink -f -- "$0")
top=${here%/*/*}
beside_c=no
# shellcheck source=bench/count.sh
. "$top/bench/count.sh"
static_library keeper
count_stored() {
    measured "$work/stored" -I"$top/include" "$here/stored.c" "$archive"
    table stored
}
in_both_modes count_stored
