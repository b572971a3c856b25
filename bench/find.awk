# The table of bench/find.sh, and the limit. A call is named by the log's leaves, and by whether the letter is refused.

function show(at,    ratio) {
    ratio = count["find", at] / count["check", at]
    printf "%-20s %9s %9.0f %9.0f %7.3f %9.0f %9.0f %7.3f", at, ("write", at) in count ? count["write", at] : "", count["check", at],
        count["find", at], ratio, count["gcc", at], count["clang", at], count["find", at] / better(at)
    if (timed) printf " %10.0f %8.0f", time["check", at], time["find", at]
    print ""
    if (ratio > worst) worst = ratio
}

END {
    printf "\n%-20s %9s %9s %9s %7s %9s %9s %7s%s\n", "leaves", "write", "check", "find", "ratio", "C, gcc", "C, clang", "ratio",
        timed ? "  ns: check     find" : ""
    for (i = 1; i <= n; i++) show(rows[i])
    print ""
    held("the finder to the checker on a letter of 200 bytes, the worst row", worst, 2.2)
    exit missed
}
