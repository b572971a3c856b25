# The tables of bench/passage.sh, and the limits. A call is named by the log, the kind of the passage, and six numbers: records, the letter's digests,
# the pairs that its root takes, those of a fold of the log's peaks, the letter's bytes, and those of single letters for the same records.

# what a call takes beside its digests
function over(side, at) { return count[side, at] - count[side "_digests", at] }
function ratio(side, at) { return count[side, at] / count[side "_digests", at] }

function show_name(at) {
    split(at, part, " ")
    printf "%-8s %-11s %7d", part[1], part[2], part[3]
}

function show_letter(at) {
    show_name(at)
    printf " %8d %6d %6d %8d %9d %6.3f\n", part[4], part[5], part[6], part[7], part[8], part[7] / part[8]
}

# beside the digests: in all as a ratio, and for each record
function show_side(side, at) {
    printf " %9.0f %9.0f %6.3f %7.0f", count[side, at], count[side "_digests", at], ratio(side, at), over(side, at) / part[3]
    if (timed) printf " %9.0f", time[side, at]
}

function show_check(at) {
    show_name(at)
    show_side("check", at)
    printf " %6.0f %7.0f\n", count["entry", at] - count["check", at], count["entries", at] - count["check", at]
}

function show_others(at) {
    show_name(at)
    show_side("write", at)
    show_side("find", at)
    print ""
}

function head_name() { printf "\n%-8s %-11s %7s", "leaves", "passage", "records" }
function head_side(side) { printf " %9s %9s %6s %7s%s", side, "digests", "ratio", "each", timed ? sprintf(" %9s", "ns") : "" }

# the calls by their log, kind and records; and the worst of 40 neighbours
function take(at) {
    split(at, part, " ")
    named[part[1], part[2], part[3]] = at
    if (part[3] != 40 || part[2] == "spread") return
    if (ratio("check", at) > worst) worst = ratio("check", at)
    if (part[7] / part[8] > longest) longest = part[7] / part[8]
}

# what a call takes beside its digests for twice as many records
function twice(side, kind) { return over(side, named["2^20", kind, 256]) / over(side, named["2^20", kind, 128]) }
function grows(side) { return twice(side, "neighbours") > twice(side, "spread") ? twice(side, "neighbours") : twice(side, "spread") }

END {
    for (i = 1; i <= n; i++) take(rows[i])
    head_name()
    printf " %8s %6s %6s %8s %9s %6s\n", "digests", "pairs", "folded", "bytes", "one each", "ratio"
    for (i = 1; i <= n; i++) show_letter(rows[i])
    head_name()
    head_side("check")
    printf " %6s %7s\n", "entry", "entries"
    for (i = 1; i <= n; i++) show_check(rows[i])
    head_name()
    head_side("write")
    head_side("find")
    print ""
    for (i = 1; i <= n; i++) show_others(rows[i])
    print ""
    held("checking 40 neighbours to its digests, the worst row", worst, 1.10)
    held("the letter's bytes to those of forty letters, the worst", longest, 0.35)
    held("checking beside its digests, 256 records to 128", grows("check"), 2.1)
    held("writing beside its digests, 256 records to 128", grows("write"), 2.1)
    held("finding beside its digests, 256 records to 128", grows("find"), 2.1)
    exit missed
}
