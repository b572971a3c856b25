# The second table of bench/append.sh, batches, and its limit. A call is named by how many records it appends, their length, and the log's height.

function show(call,    part, ratio) {
    split(call, part, " ")
    printf "%8s %12s %6s %10.0f %10.0f", part[1], part[2], part[3] == 0 ? "none" : "2^" part[3], count["batch", call], count["each", call]
    if (part[1] == 0) { print ""; return }
    ratio = count["batch", call] / count["each", call]
    printf " %10.0f %8.3f", (count["each", call] - count["batch", call]) / part[1], ratio
    if (timed) printf " %10.0f %8.0f", time["batch", call], time["each", call]
    print ""
    if (part[1] == 64 && part[2] == 200 && ratio > worst) worst = ratio
}

END {
    printf "\n%8s %12s %6s %10s %10s %10s %8s%s\n", "records", "record bytes", "leaves", "batch", "one by one", "saved each", "ratio",
        timed ? "  ns: batch  one by one" : ""
    for (i = 1; i <= n; i++) show(rows[i])
    print ""
    held("64 records of 200 bytes in one batch to one by one, the worst row", worst, 1)
    exit missed
}
