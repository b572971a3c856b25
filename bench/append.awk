# The table of bench/append.sh, and the limits. A call is named by the record's length, the merges and the height of the log; a line of the table has
# the three heights of one length and one number of merges.

# the worst of the merges at 2^20 leaves
function worst(bytes,    i, at, ratio, most) {
    for (i = 1; i <= lines; i++) {
        at = line[i] " 20"
        ratio = count["append", at] / better(at)
        if (length_of[line[i]] == bytes && ratio > most) most = ratio
    }
    return most
}

function show(kind,    low, mid, high) {
    low = kind " 10"; mid = kind " 16"; high = kind " 20"
    printf "%12s %6s %9.0f %9.0f %9.0f %9.0f %9.0f %9.0f %8.3f", length_of[kind], merges_of[kind], count["append", low],
        count["append", mid], count["append", high], count["digests", high], count["gcc", high], count["clang", high],
        count["append", high] / better(high)
    if (timed) printf " %10.0f %8.0f", time["append", high], time["clang", high]
    print ""
    if (count["append", high] - count["append", low] > grows) grows = count["append", high] - count["append", low]
}

# a line for each length and number of merges, in their order
function take(call,    part, kind) {
    split(call, part, " ")
    kind = part[1] " " part[2]
    if (kind in length_of) return
    line[++lines] = kind
    length_of[kind] = part[1]
    merges_of[kind] = part[2]
}

END {
    for (i = 1; i <= n; i++) take(rows[i])
    printf "\n%12s %6s %9s %9s %9s %9s %9s %9s %8s%s\n", "record bytes", "merges", "2^10", "2^16", "2^20", "digests", "C, gcc",
        "C, clang", "ratio", timed ? "   ns: ours    clang" : ""
    for (i = 1; i <= lines; i++) show(line[i])
    print ""
    held("instructions that ten doublings of the log add, in any row", grows + 0, 10)
    held("a record of 200 bytes to C's digests, the worst row", worst(200), 1.15)
    exit missed
}
