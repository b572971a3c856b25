# What the tables of this folder share. Reads the times (side, call, nanoseconds), then the counts (side, call, instructions), the first of which
# is the cost of measuring nothing; rows has the calls in their order. Where a limit is missed, missed is set for the table's exit status.

# the better of C's two compilers
function better(at) { return count["gcc", at] < count["clang", at] ? count["gcc", at] : count["clang", at] }

function held(what, value, most) {
    printf "limit: %-58s %s, at most %g: %s\n", what, value == int(value) ? value : sprintf("%.3f", value), most, value <= most ? "met" : "MISSED"
    if (value > most) missed = 1
}

FILENAME == ARGV[1] { time[$1, $2] = $3; timed = 1; next }
$2 == "nothing" { nothing = $3; next }
{ count[$1, $2] = $3 - nothing }
!($2 in seen) { seen[$2] = 1; rows[++n] = $2 }

END { if (n == 0) { print "bench: nothing was measured" >"/dev/stderr"; exit 2 } }
