# The table of bench/digest.sh, and the limits. A call is named in words.

# one value of a row: a call's own, or what a block of a long chunk adds
function value(of, side, row) {
    if (row == "one block of a long chunk")
        return (of[side, "digest of 1024 bytes"] - of[side, "digest of 128 bytes"]) / 14
    return of[side, row]
}

function ratio(row,    g, c) {
    g = value(count, "gcc", row)
    c = value(count, "clang", row)
    return value(count, "ours", row) / (g < c ? g : c)
}

function show(row) {
    printf "%-26s %9.0f %9.0f %9.0f %8.3f", row, value(count, "ours", row), value(count, "gcc", row), value(count, "clang", row), ratio(row)
    if (timed)
        printf " %10.0f %8.0f %8.0f", value(time, "ours", row), value(time, "gcc", row), value(time, "clang", row)
    print ""
}

END {
    printf "\n%-26s %9s %9s %9s %8s%s\n", "", "ours", "C, gcc", "C, clang", "ratio",
        timed ? "   ns: ours      gcc    clang" : ""
    show("one block of a long chunk")
    for (i = 1; i <= n; i++) if (rows[i] != "digest of 128 bytes") show(rows[i])
    print ""
    held("one block of a long chunk", ratio("one block of a long chunk"), 1)
    held("one parent of 64 bytes", ratio("one parent of 64 bytes"), 0.85)
    held("digest of 16384 bytes", ratio("digest of 16384 bytes"), 0.5)
    exit missed
}
