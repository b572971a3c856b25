#!/bin/sh
# shell/check.sh: every shell script of the repository by shellcheck.
# Exit status: 0 where nothing is found; 1 where something is; 2 where there is no shellcheck.
set -eu
here=$(readlink -f -- "$0")
top=${here%/*/*}
# shellcheck source=shell/common.sh
. "$top/shell/common.sh"
need_command shellcheck shellcheck
cd "$top"
# Those of bin/ that a shell runs, and every other script.
scripts=$(grep -lE '^#!/bin/sh|^#!/usr/bin/env bash' bin/*)
# shellcheck disable=SC2086
set -- $scripts hosts/*.sh outside/*.sh bench/*.sh shell/*.sh .ci/run
shellcheck --external-sources "$@"
echo "shellcheck: nothing in $# scripts"
