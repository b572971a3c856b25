#!/bin/sh
# hosts/build-panel.sh: proves and builds the panel's four programs, for letters and for passages, of plain logs and of keyed ones, where a source is newer.
# Exit status: 0, or 2 where one could not be built.
set -eu
here=$(readlink -f -- "$0")
top=${here%/*/*}
# shellcheck source=shell/program.sh
. "$top/shell/program.sh"
build panel
build keyed_panel
build passage_panel
build keyed_passage_panel
