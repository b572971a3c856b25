#!/bin/sh
# bench/sse2.sh: the digest beside BLAKE3's C with SSE2, the vector code that every x86-64 has and that ours is: executed instructions, and on x86-64 time, as
# ratios in one run. Shown, and no limit is held to them. The C is compiled by gcc, whose headers its vector code needs. Counted as by bench/digest.sh.
# Exit status: 0, 1 where two digests differ, 2 where nothing could be measured.
set -eu
here=$(readlink -f -- "$0")
top=${here%/*/*}
# shellcheck source=bench/count.sh
. "$top/bench/count.sh"
static_library digest_c
# the real header of vector code, and not the empty one
rm "$work/include/immintrin.h"
flags='-O3 -march=x86-64 -DBLAKE3_NO_SSE41 -DBLAKE3_NO_AVX2 -DBLAKE3_NO_AVX512'
more_sources=$blake3/blake3_sse2.c
theirs sse2 "$gcc"
measured "$work/sse2" -I"$top/crates/digest_c" "$top/bench/sse2.c" "$archive" "$work/sse2.o"
echo "C: $version, SSE2, -O3 -march=x86-64, by $($gcc --version | head -n 1)"
table sse2
