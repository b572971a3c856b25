#!/bin/sh
# outside/review.sh: what docs/REVIEW.md says to do by hand for a log of three records, done: with b3sum, another BLAKE3, and with our own keeper,
# each held to the page's figures. Builds the keeper where that is not done.
# Exit status: 0 where the page's figures come out; 1 where one does not; 2 where a program is missing.
set -eu
here=$(readlink -f -- "$0")
top=${here%/*/*}
# shellcheck source=shell/common.sh
. "$top/shell/common.sh"
need_command b3sum b3sum
need_command xxd xxd
make_work
sed -n '/^## Three records by hand$/,/^## What/p' "$top/docs/REVIEW.md" >"$work/section"

# block PLACE: the indented lines that stand together at that place in the section
block() {
    awk -v wanted="$1" '/^    / { if (!inside) place++; inside = 1; if (place == wanted) print substr($0, 5); next } { inside = 0 }' "$work/section"
}

# figure NAME: the digest in the row of that name
figure() {
    awk -F ' *[|] *' -v name="$1" '$2 == name { print $4 }' "$work/section"
}

# same WHAT GOT WANTED: fails where they differ, or nothing is wanted
same() {
    [ -n "$3" ] && [ "$2" = "$3" ] && return
    echo "review: $1: $2, and docs/REVIEW.md has $3" >&2
    exit 1
}

by_hand=$(sh -euc "$(block 1)
echo \$a \$b \$c \$ab")
same "by b3sum" "$by_hand" "$(figure root)
$(figure a) $(figure b) $(figure c) $(figure ab)"

PATH=$top/bin:$PATH
export PATH
(cd "$work" && sh -euc "$(block 3)") >"$work/said"
same "the keeper's size and root" "$(sed -n 2p "$work/said")" "4 $(figure root)"
same "whether it is the log's" "$(sed -n 3p "$work/said")" "this is the root of match.log, worked out from 3 records"
same "the letter" "$(xxd -p "$work/letter" | tr -d '\n')" "$(block 2 | tr -d ' \n')"
same "the letter's verdict" "$(tail -n 1 "$work/said")" "accepted: index 1, a record of 7 bytes"
echo "review: the figures of docs/REVIEW.md come out by hand and by the keeper"
