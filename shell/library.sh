#!/bin/sh
# Builds the library for C, target/staticlib/libkeeper.a, whose calls include/keeper.h describes.
set -eu
here=$(readlink -f -- "$0")
top=${here%/*/*}
# shellcheck source=shell/common.sh
. "$top/shell/common.sh"
# shellcheck source=shell/built.sh
. "$top/shell/built.sh"
find_kit
one_at_a_time
make_work
static_library keeper
