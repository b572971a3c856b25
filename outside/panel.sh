#!/bin/sh
# outside/panel.sh: builds the panels' programs where that is not done, and holds them to vectors/panel.json, panel-keyed.json, passages-checked.json and
# keyed.json (outside/panel.py).
# Exit status: 0 where all agree; 1 where one differs; 2 where a program could not be built.
set -eu
here=$(readlink -f -- "$0")
top=${here%/*/*}
# shellcheck source=shell/program.sh
. "$top/shell/program.sh"
for name in panel keyed_panel passage_panel keyed_passage_panel; do
    (build "$name"; with_program "$top/outside/panel.py" "$name")
done
