#!/bin/sh
# bench/passage.sh: executed instructions of writing, checking and finding a passage letter of records of 200 bytes, each beside the digests that it
# needs, alone; and the letter's length beside that of single letters for the same records. The log has 2^20 records, or one less. All by this
# library: no C code of BLAKE3 is wanted. Counted as by bench/digest.sh.
# Exit status: 0 where every limit is met, 1 where one is missed or an answer is not what it should be, 2 where nothing could be measured.
set -eu
here=$(readlink -f -- "$0")
top=${here%/*/*}
beside_c=no
# shellcheck source=bench/count.sh
. "$top/bench/count.sh"
keeper_and_digest
count_passage() {
    measured "$work/passage" -I"$top/include" -I"$top/crates/digest_c" "$here/passage.c" "$work/digest.o" "$archive"
    table passage
}
in_both_modes count_passage
