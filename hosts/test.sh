#!/bin/sh
# hosts/test.sh [MODULE..]: builds the host and tries it, by the modules of hosts/tests: against the second program, after crashes, on damaged files, in
# wrong use, as scripts, where it is installed. Beside that once more under the sanitizers of the machine's compiler, where it has them, and there
# with every log keyed too.
# Exit status: 0 where all holds, 1 where something does not, 2 where the host could not be built.
set -eu
here=$(readlink -f -- "$0")
top=${here%/*/*}
"$top/hosts/build.sh" test
cd "$top/hosts/tests"
if [ $# = 0 ]; then
    for module in test_*.py; do set -- "$@" "${module%.py}"; done
fi
export PYTHONDONTWRITEBYTECODE=1
checked=$top/target/hosts/checked
said=$(mktemp) || exit 2
trap 'rm -f "$said"' EXIT
running=
if [ -x "$checked" ]; then
    export BESIDE=yes
    CHECKED=yes KEEPER=$checked python3 run.py "$@" >"$said" 2>&1 &
    running=$!
fi
status=0
LOSSY=$top/target/hosts/lossy KEEPER=$top/target/hosts/keeper python3 run.py "$@" || status=1
if [ -n "$running" ]; then
    wait "$running" || status=1
    echo "once more, under sanitizers"
    cat "$said"
else
    echo "not tried under sanitizers: the compiler has none here" >&2
fi
exit $status
