# The second table of bench/digest.sh, input in parts, and its limits. A call is named in words.

function to_whole(row) { return count["ours", row] / count["ours", "1 MiB at once"] }

function show(row) {
    printf "%-26s %9.0f", row, count["ours", row]
    if (("gcc", row) in count) printf " %9.0f %9.0f", count["gcc", row], count["clang", row]
    if (row ~ /^1 MiB/) printf " %8.3f %8.3f", count["ours", row] / better(row), to_whole(row)
    if (("ours", row) in time) printf " %10.0f %8.0f %8.0f", time["ours", row], time["gcc", row], time["clang", row]
    print ""
    if (row ~ /^add of 0 / && count["ours", row] > empty) empty = count["ours", row]
}

END {
    printf "\n%-26s %9s %9s %9s %8s %8s%s\n", "", "ours", "C, gcc", "C, clang", "to C", "to whole",
        timed ? "   ns: ours      gcc    clang" : ""
    for (i = 1; i <= n; i++) show(rows[i])
    print ""
    held("1 MiB in parts of 65536 to the whole at once", to_whole("1 MiB in parts of 65536"), 1.1)
    held("1 MiB in parts of 1500 to C in the same parts", count["ours", "1 MiB in parts of 1500"] / better("1 MiB in parts of 1500"), 1.25)
    held("instructions of a part of no bytes, the worst row", empty, 599)
    exit missed
}
