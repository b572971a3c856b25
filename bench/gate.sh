#!/bin/sh
# bench/gate.sh [FILE]: the seconds that each crate and each must-fail edit took, as a table, from what .ci/run or rt ci printed with the older kit that
# docs/BENCH.md speaks of; today's rt ci prints no seconds. They are seconds of the clock: what each costs alone shows where no more checks go on at once
# than there are processors, as with RT_JOBS=2 .ci/run on two.
# Exit status: 0, or 1 where there is no such line.
set -eu
awk '
/^rt: [a-z_0-9]+ proved \([0-9]+ s\)$/ {
    crates[++n] = $2
    proved[$2] = substr($4, 2) + 0
    total += proved[$2]
}
/^rt: must-fail [a-z_0-9]+\/[a-z_0-9]+: refused.* [0-9]+ s\)$/ {
    split($3, name, /[\/:]/)
    seconds = $(NF - 1) + 0
    edits[name[1]]++
    sum[name[1]] += seconds
    each[name[1]] = each[name[1]] (each[name[1]] == "" ? "" : ", ") "`" name[2] "` " seconds
    count++
    total += seconds
}
END {
    if (n == 0) { print "gate.sh: no crate was proved there" >"/dev/stderr"; exit 1 }
    print "| crate | proved, s | edits | s | each, s |"
    print "|---|---|---|---|---|"
    for (i = 1; i <= n; i++) printf "| `%s` | %d | %d | %d | %s |\n", crates[i], proved[crates[i]], edits[crates[i]], sum[crates[i]], each[crates[i]]
    printf "\n%d crates, %d edits, %d seconds of the clock added up\n", n, count, total
}' "$@"
