# The table of bench/sse2.sh. A call is named in words.
END {
    printf "\n%-26s %9s %9s %8s%s\n", "", "ours", "C, SSE2", "ratio", timed ? "   ns: ours     SSE2    ratio" : ""
    for (i = 1; i <= n; i++) {
        at = rows[i]
        printf "%-26s %9.0f %9.0f %8.3f", at, count["ours", at], count["sse2", at], count["ours", at] / count["sse2", at]
        if (timed) printf " %10.0f %8.0f %8.2f", time["ours", at], time["sse2", at], time["ours", at] / time["sse2", at]
        print ""
    }
}
