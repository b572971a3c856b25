#!/bin/sh
# bench/lanes.sh [ARCHIVE]: fails where the function that compresses four chunks at once has lost its vector code.
# No contract speaks of speed, and an edit that keeps every proof can turn the loop over the lanes back into scalar code.
# So the object code is read, of libdigest_c.a or of the archive that is named: in each of its objects that function must
# have more than 1,000 packed additions, exclusive ors, ors and shifts, and no scalar turn. It is the function called
# compress4. Should the compiler open it in its caller, no function of that object has that name, and the one with the most
# packed operations is taken: that caller. A caller that also turns words one by one is then refused, and the two have to
# be kept apart again.
# Exit status: 0 where the vector code is there, 1 where it is not, 2 where nothing could be read.
set -eu
here=$(readlink -f -- "$0")
top=${here%/*/*}
# shellcheck source=shell/common.sh
. "$top/shell/common.sh"
# shellcheck source=shell/built.sh
. "$top/shell/built.sh"
find_kit
one_at_a_time
make_work
need_command "${prefix}objdump" "$binutils_package"
if [ $# -gt 0 ]; then archive=$1; else static_library digest_c; fi
"${prefix}objdump" -d --no-show-raw-insn "$archive" >"$work/code" || die "cannot read $archive"
awk '
    / file format / { object = $1; sub(/:$/, "", object); objects[++n] = object; next }
    /^[0-9a-f]+ </ { name = $0; sub(/^[0-9a-f]+ </, "", name); sub(/>:$/, "", name); next }
    !/^ +[0-9a-f]+:/ { next }
    { all[object, name]++; names[name] = 1 }
    name ~ /compress4/ { named[object] = 1 }
    $2 ~ /^(padd[dq]|pxor|xorp[sd]|por|orp[sd]|psll[dq]|psrl[dq])$/ && /%xmm/ { packed[object, name]++ }
    $2 ~ /^(rol|ror)[lq]?$/ { turns[object, name]++ }

    function judge(object,    name, lanes, good) {
        for (name in names) {
            if (!((object, name) in all) || (object in named && name !~ /compress4/)) continue
            if (packed[object, name] >= packed[object, lanes]) lanes = name
        }
        good = packed[object, lanes] > 1000 && turns[object, lanes] == 0
        printf "%s, %s: %d instructions, %d packed operations (more than 1000 wanted), %d scalar turns (none wanted): %s\n",
            object, lanes, all[object, lanes], packed[object, lanes], turns[object, lanes], good ? "vector code" : "VECTOR CODE LOST"
        return good
    }

    END {
        for (i = 1; i <= n; i++) if (!judge(objects[i])) lost = 1
        exit lost || !n
    }' "$work/code"
