# The table of bench/check.sh, and the limit. A call is named by the height of the log.

function show(at,    ratio) {
    ratio = count["check", at] / count["digests", at]
    printf "%8s %6s %9.0f %9.0f %7.3f %9.0f %9.0f %7.3f", "2^" at, at, count["check", at], count["digests", at], ratio, count["gcc", at],
        count["clang", at], count["check", at] / better(at)
    if (timed) printf " %10.0f %8.0f", time["check", at], time["digests", at]
    print ""
    if (ratio > worst) worst = ratio
}

END {
    printf "\n%8s %6s %9s %9s %7s %9s %9s %7s%s\n", "leaves", "items", "check", "digests", "ratio", "C, gcc", "C, clang", "ratio",
        timed ? "   ns: ours  digests" : ""
    for (i = 1; i <= n; i++) show(rows[i])
    print ""
    held("a letter of 200 bytes to its digests, the worst row", worst, 1.15)
    exit missed
}
