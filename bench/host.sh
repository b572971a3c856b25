#!/bin/sh
# bench/host.sh [RECORDS [BYTES [FOLDER]]]: the host beside the library: 1,000,000 records of 200 bytes by --stream, against the library's own loop over the same
# records with nodes in memory; the memory that the host takes at a tenth of them and at all; and an append by bin/keeper beside one by the host alone. The log
# is made in FOLDER, /tmp where it is not named: its disk is part of the figure. Roots are compared.
# On another machine than x86-64 everything runs under the emulator, and only the ratio means something.
# Exit status: 0 where each limit is met, 1 where one is missed or a root differs, 2 where nothing could be measured.
set -eu
here=$(readlink -f -- "$0")
top=${here%/*/*}
# shellcheck source=shell/common.sh
. "$top/shell/common.sh"
records=${1:-1000000} length=${2:-200} folder=${3:-/tmp}
# shellcheck disable=SC2086
need_command "${prefix}gcc" $compiler_packages
need_command python3 python3
"$top/hosts/build.sh" </dev/null >&2
work=$(mktemp -d "$folder/host.XXXXXX") || die "cannot make a folder in $folder"
trap 'rm -rf "$work"' EXIT
linking=
[ "$machine" = x86_64 ] || linking=-static
# shellcheck disable=SC2086
"${prefix}gcc" -O2 $linking -I"$top/include" "$top/bench/host.c" "$top/target/staticlib/libkeeper.a" -o "$work/loop"

# run WORD..: a program, under the emulator where there is one
run() {
    if [ "$machine" = x86_64 ]; then "$@"; else "$top/target/run/qemu-x86_64" "$@"; fi
}

run "$work/loop" stream "$records" "$length" >"$work/stream"
python3 "$top/bench/host.py" "$top" "$work" "$records" "$length"
