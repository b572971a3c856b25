# The table of bench/stored.sh, and the limits. A call is named by the length of a leaf's record; that of an inner node, which has no record and so no
# digest to work out, is named inner.

# what a call takes beside the digest of the record
function over(side, at) { return count[side, at] - count["digest", at] }

function show_leaf(at) {
    printf "%12s %9.0f %9.0f %6.0f %9.0f %6.0f %9.0f %6.0f", at, count["digest", at], count["read", at], over("read", at), count["lie", at],
        over("lie", at), count["store", at], over("store", at)
    if (timed) printf " %10.0f %8.0f", time["read", at], time["digest", at]
    print ""
    if (over("read", at) > worst) worst = over("read", at)
    if (over("lie", at) > worst_lie) worst_lie = over("lie", at)
}

function show_inner() {
    printf "%12s %9s %9.0f %6s %9s %6s %9.0f", "inner node", "", count["read", "inner"], "", "", "", count["store", "inner"]
    if (timed) printf " %6s %10.0f", "", time["read", "inner"]
    print ""
}

END {
    printf "\n%12s %9s %9s %6s %9s %6s %9s %6s%s\n", "record bytes", "digest", "read", "over", "lie read", "over", "stored", "over",
        timed ? "   ns: read   digest" : ""
    for (i = 1; i <= n; i++) if (rows[i] != "inner") show_leaf(rows[i])
    show_inner()
    print ""
    held("instructions of a read beside its digest, the worst row", worst, 150)
    held("the same of a leaf that lies about its digest", worst_lie, 150)
    held("instructions of reading an inner node", count["read", "inner"], 150)
    exit missed
}
